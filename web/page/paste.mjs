// The form that takes pasted text: a button opens and closes it.

import { at } from "./dom.mjs";
import { Drawer } from "./drawer.mjs";

/** The form, which hands on what is read and closes then. */
export class PasteForm {
  constructor(take, group) {
    this.take = take;
    this.drawer = new Drawer({ button: at("paste-open"), form: at("paste"), first: at("pasted"), group });
    at("paste").addEventListener("submit", (event) => this.submit(event));
  }

  submit(event) {
    event.preventDefault();
    const text = at("pasted").value;
    at("pasted").setCustomValidity(text.trim() === "" ? "Paste something first." : "");
    if (!at("pasted").reportValidity()) return;
    // (it may be a private key)
    at("pasted").value = "";
    this.drawer.turn(false);
    this.take(text);
  }
}
