// A form that a button opens and closes.

/** The button and the form, in which Escape closes it. Of a group of them only one is open at a time. */
export class Drawer {
  constructor({ button, form, first, group = [], opened = () => {} }) {
    Object.assign(this, { button, form, first, group, opened });
    group.push(this);
    button.addEventListener("click", () => this.turn(form.hidden));
    form.addEventListener("keydown", (event) => {
      if (event.key !== "Escape" || event.isComposing) return;
      this.turn(false);
      button.focus();
    });
  }

  /** Opens it and goes to its first field, or closes it. */
  turn(isOpen) {
    if (isOpen) for (const it of this.group) if (it !== this) it.turn(false);
    this.form.hidden = !isOpen;
    this.button.setAttribute("aria-expanded", String(isOpen));
    if (!isOpen) return;
    this.opened();
    this.first.focus();
  }
}
