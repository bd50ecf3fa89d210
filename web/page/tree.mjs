// The report as a tree that folds (WAI-ARIA's pattern of a tree view): arrows move in it, and one field is selected.

import { make } from "./dom.mjs";
import { lineOf } from "./fields.mjs";
import { Rows } from "./rows.mjs";
import { previewOf } from "./summary.mjs";
import { shown } from "./text.mjs";
import { valueOf } from "./values.mjs";

const FEW = 300;

/** The tree over the fields of one structure. */
export class Tree {
  /** `handlers`: `select(field)`, `uncover(field)`, `isUncovered(field)`, and `hidden()`, what of the window is covered. */
  constructor(container, handlers) {
    this.container = container;
    this.handlers = handlers;
    this.rows = new Rows(container, (index) => this.build(index));
    this.visible = [];
    container.addEventListener("keydown", (event) => this.press(event));
    container.addEventListener("click", (event) => this.click(event));
  }

  /** Shows fields. */
  show(fields, bytes) {
    this.fields = fields;
    this.bytes = bytes;
    this.active = fields[0] ?? null;
    for (const it of fields) it.isOpen = it.inner.length > 0 && !it.isLine && (fields.length <= FEW || isFew(it));
    this.refresh();
  }

  /** Builds all again, as after a field was opened. */
  refresh() {
    this.visible = [];
    for (const field of this.fields) {
      const { parent } = field;
      field.isVisible = parent === null || (parent.isVisible && parent.isOpen);
      if (field.isVisible) {
        field.row = this.visible.length;
        this.visible.push(field);
      }
    }
    this.rows.show(this.visible.length);
    this.name();
  }

  // Tells assistive software which row is the active one.
  name() {
    if (this.active === null) return this.container.removeAttribute("aria-activedescendant");
    this.rows.ensure(this.active.row);
    return this.container.setAttribute("aria-activedescendant", `field-${this.active.row}`);
  }

  build(index) {
    const field = this.visible[index];
    const hasInner = field.inner.length > 0;
    const row = make("div", {
      id: `field-${index}`,
      class: `row field${field.isMarked ? " marked" : ""}`,
      role: "treeitem",
      "aria-level": field.depth + 1,
      "aria-setsize": field.parent?.inner.length ?? 1,
      "aria-posinset": field.ordinal + 1,
      "aria-expanded": hasInner ? String(field.isOpen) : null,
      "aria-selected": String(field === this.active),
      "data-index": index,
    });
    row.style.setProperty("--depth", field.depth);
    row.append(
      make("span", { class: hasInner ? "fold" : "fold none", "aria-hidden": "true" }),
      make("span", { class: "label" }, shown(field.label)),
      this.value(field),
      make("span", { class: "place" }, `${field.start}..${field.end}`),
    );
    return row;
  }

  value(field) {
    const cell = make("span", { class: "value" });
    if (field.node.critical) cell.append(make("span", { class: "critical" }, "critical"), " ");
    if (field.isSecret && !this.handlers.isUncovered(field)) {
      cell.append(make("span", { class: "cover" }, `${field.node.hidden} bytes hidden, click to show`));
      return cell;
    }
    const node = this.handlers.shownNode(field);
    const kind = valueOf(field.label, node, this.bytes)?.kind ?? "";
    const text = node === field.node ? lineOf(field, this.bytes) : valueOf(field.label, node, this.bytes).text;
    if (text !== "") cell.append(make("span", { class: `told ${kind}` }, text));
    else if (field.inner.length > 0 && !field.isOpen) {
      cell.append(make("span", { class: "preview" }, previewOf(field, this.bytes)));
    }
    return cell;
  }

  /** Selects a field, and opens those around it. */
  select(field, { isTold = true, isRevealed = true } = {}) {
    let isFolded = false;
    for (let it = field.parent; it !== null; it = it.parent) {
      isFolded ||= !it.isOpen;
      it.isOpen = true;
    }
    const before = this.active;
    this.active = field;
    if (isFolded) this.refresh();
    else this.mark(before);
    if (isRevealed) this.rows.reveal(field.row, this.handlers.hidden());
    if (isTold) this.handlers.select(field);
  }

  mark(before) {
    this.rows.built.get(before?.row)?.setAttribute("aria-selected", "false");
    this.name();
    this.rows.ensure(this.active.row).setAttribute("aria-selected", "true");
  }

  fold(field, isOpen) {
    if (field.inner.length === 0 || field.isOpen === isOpen) return;
    field.isOpen = isOpen;
    this.refresh();
  }

  /** Opens or folds all. */
  foldAll(isOpen) {
    for (const it of this.fields) it.isOpen = it.inner.length > 0 && (isOpen || it.parent === null);
    while (this.active !== null && this.active.parent !== null && !isOpen && this.active.depth > 1) {
      this.active = this.active.parent;
    }
    this.refresh();
    if (this.active !== null) this.select(this.active);
  }

  click(event) {
    const row = event.target.closest(".field");
    if (row === null) return;
    const field = this.visible[Number(row.dataset.index)];
    if (event.target.closest(".cover")) this.handlers.uncover(field);
    this.select(field);
    if (event.target.closest(".fold")) this.fold(field, !field.isOpen);
  }

  press(event) {
    if (event.altKey || event.ctrlKey || event.metaKey || this.active === null) return;
    const target = this.target(event.key);
    if (target === undefined) return;
    event.preventDefault();
    if (target !== null) this.select(target);
  }

  // The field that a key goes to; null where it does something else, and undefined where it does nothing.
  target(key) {
    const { active, visible } = this;
    switch (key) {
      case "ArrowDown":
        return visible[Math.min(active.row + 1, visible.length - 1)];
      case "ArrowUp":
        return visible[Math.max(active.row - 1, 0)];
      case "PageDown":
        return visible[Math.min(active.row + 12, visible.length - 1)];
      case "PageUp":
        return visible[Math.max(active.row - 12, 0)];
      case "Home":
        return visible[0];
      case "End":
        return visible[visible.length - 1];
      default:
        return this.turn(key);
    }
  }

  turn(key) {
    const { active } = this;
    if (key === "ArrowRight") {
      if (active.inner.length === 0) return null;
      if (active.isOpen) return active.inner[0];
      this.fold(active, true);
      return null;
    }
    if (key === "ArrowLeft") {
      if (active.isOpen) this.fold(active, false);
      else if (active.parent !== null) return active.parent;
      return null;
    }
    if (key === "Enter" || key === " ") return this.act();
    if (key === "*") return this.openAround();
    return key.length === 1 ? this.named(key) : undefined;
  }

  act() {
    const { active } = this;
    if (active.isSecret && !this.handlers.isUncovered(active)) this.handlers.uncover(active);
    else this.fold(active, !active.isOpen);
    return this.active;
  }

  openAround() {
    for (const it of this.active.parent?.inner ?? [this.active]) it.isOpen = it.inner.length > 0;
    this.refresh();
    return this.active;
  }

  // The next field whose label begins with a character.
  named(character) {
    const { active, visible } = this;
    const wanted = character.toLowerCase();
    for (let step = 1; step <= visible.length; step += 1) {
      const field = visible[(active.row + step) % visible.length];
      if (field.label.toLowerCase().startsWith(wanted)) return field;
    }
    return null;
  }
}

// Whether a field of a large report is opened at first: not a list of many.
function isFew(field) {
  return field.depth < 3 && field.inner.length <= 40;
}
