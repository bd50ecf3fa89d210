// The form in which a structure is edited as JSON: a button opens and closes it.

import { at } from "./dom.mjs";
import { Drawer } from "./drawer.mjs";
import { NotEdited, editableText, madeOfText, whyNotEdited } from "./editing.mjs";

/** The form, which hands on what is made of its text, and the structure that was edited. */
export class EditForm {
  constructor(cimaroly, take) {
    Object.assign(this, { cimaroly, take, structure: null });
    const opened = () => this.fill();
    this.drawer = new Drawer({ button: at("edit-open"), form: at("editing"), first: at("edited"), opened });
    at("editing").addEventListener("submit", (event) => this.submit(event));
    at("edit-cancel").addEventListener("click", () => this.cancel());
  }

  /** Is about a structure from now on, and closed. */
  use(structure) {
    this.structure = structure;
    const why = whyNotEdited(structure);
    at("edit-open").disabled = why !== "";
    at("edit-open").title = why;
    this.clear();
  }

  // (what was begun stays where the form was only closed)
  fill() {
    const area = at("edited");
    if (area.value !== "") return;
    area.value = editableText(this.structure);
    area.setSelectionRange(0, 0);
  }

  clear() {
    this.drawer.turn(false);
    at("edited").value = "";
    this.tell(null);
  }

  cancel() {
    this.clear();
    at("edit-open").focus();
  }

  submit(event) {
    event.preventDefault();
    this.tell(null);
    let made;
    try {
      made = madeOfText(this.cimaroly, at("edited").value);
    } catch (error) {
      this.tell(error);
      return;
    }
    this.take(made, this.structure);
  }

  // Says what is wrong, and selects where in the text that is.
  tell(error) {
    const area = at("edited");
    at("edit-error").hidden = error === null;
    at("edit-error").textContent = error === null ? "" : error.message;
    if (error === null) area.removeAttribute("aria-invalid");
    else area.setAttribute("aria-invalid", "true");
    if (!(error instanceof NotEdited)) return;
    area.focus();
    area.setSelectionRange(error.start, error.end);
    // (the lines don't wrap, so all are as high)
    const height = parseFloat(getComputedStyle(area).lineHeight);
    area.scrollTop = height * (area.value.slice(0, error.start).split("\n").length - 4);
  }
}
