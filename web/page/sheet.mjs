// The sheet of bytes that stands at the bottom of a narrow window: a button closes it but for its head, and opens it again.

import { at } from "./dom.mjs";

/** The sheet. `opened` is called when it was opened again. */
export class Sheet {
  constructor(opened) {
    this.pane = document.querySelector(".pane.raw");
    at("sheet-toggle").addEventListener("click", () => {
      const isClosed = !this.pane.classList.contains("closed");
      this.turn(isClosed);
      if (!isClosed) opened();
    });
    this.turn(false);
  }

  turn(isClosed) {
    this.pane.classList.toggle("closed", isClosed);
    const toggle = at("sheet-toggle");
    toggle.setAttribute("aria-expanded", String(!isClosed));
    toggle.setAttribute("aria-label", isClosed ? "Show the bytes" : "Hide the bytes");
    toggle.textContent = isClosed ? "Show" : "Hide";
  }

  /** How much of the window's bottom it takes where it stands below the fields. */
  get height() {
    return getComputedStyle(this.pane).bottom === "0px" ? this.pane.getBoundingClientRect().height : 0;
  }
}
