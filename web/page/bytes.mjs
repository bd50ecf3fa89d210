// The bytes of a structure in hexadecimal, lit up where the selected field stands.

import { make } from "./dom.mjs";
import { headerLength } from "./elements.mjs";
import { Rows } from "./rows.mjs";
import { hexOf } from "./text.mjs";

const SHADES = 4;

// How wide a byte is, and what stands between columns, in characters (style/panes.css).
const BYTE = 2.75;
const GAP = 1.2;

// How many bytes a row has, and whether their characters stand beside them, by the number of characters that fit.
function layout(room, digits) {
  const fits = (width, columns) => room >= digits + columns * GAP + width * (BYTE + columns - 1);
  if (fits(16, 2)) return { width: 16, hasText: true };
  if (fits(16, 1)) return { width: 16, hasText: false };
  return { width: 8, hasText: fits(8, 2) };
}

/** The view of the bytes. */
export class Bytes {
  /** `handlers`: `pick(byte)`, where a byte was clicked or moved to; `isCovered(byte)`. */
  constructor(container, handlers) {
    this.container = container;
    this.handlers = handlers;
    this.rows = new Rows(container, (index) => this.build(index));
    this.layout = { width: 16, hasText: true };
    container.addEventListener("click", (event) => this.click(event));
    container.addEventListener("keydown", (event) => this.press(event));
    new ResizeObserver(() => {
      if (this.bytes !== undefined && container.clientWidth !== this.room) this.fit();
    }).observe(container);
  }

  /** Shows bytes with the fields in them, the places of deviations, and the byte that was refused. */
  show(bytes, fields, deviations, refusedAt) {
    this.bytes = bytes;
    this.fields = fields;
    this.refusedAt = refusedAt;
    this.selected = null;
    this.cursor = 0;
    this.owner = new Int32Array(bytes.length).fill(-1);
    fields.forEach((field, index) => {
      if (!field.parent?.isWhole) this.owner.fill(index, field.start, field.end);
    });
    this.deviant = new Uint8Array(bytes.length);
    for (const { at } of deviations) this.deviant.fill(1, at[0], at[1]);
    this.place = null;
    this.container.scrollTop = 0;
    this.fit();
  }

  // Lays the bytes out anew, where the room for them is another.
  fit() {
    if (this.bytes === undefined) return;
    const room = this.container.clientWidth;
    const digits = Math.max(4, (this.bytes.length - 1).toString(16).length);
    if (room !== this.room || digits !== this.digits) this.lay(room, digits);
    this.rows.show(Math.ceil(this.bytes.length / this.layout.width));
  }

  lay(room, digits) {
    const probe = make("span", { class: "probe" }, "0".repeat(100));
    this.container.append(probe);
    const character = probe.getBoundingClientRect().width / 100;
    probe.remove();
    const style = getComputedStyle(this.container);
    const inner = room - parseFloat(style.paddingLeft) - parseFloat(style.paddingRight);
    this.layout = layout(inner / (character || 8), digits);
    Object.assign(this, { room, digits });
    this.container.style.setProperty("--width", this.layout.width);
  }

  /** Lays the bytes out where they were out of sight, and brings the one of the cursor into view. */
  unhide() {
    this.fit();
    if (this.bytes !== undefined) this.reveal(this.cursor);
  }

  /** Draws all again. */
  refresh() {
    this.rows.redraw();
  }

  /** Lights up a field, and brings its first byte into sight; or a place in it. */
  select(field, place = null) {
    this.selected = field;
    this.place = place;
    this.cursor = place?.start ?? field.start;
    this.refresh();
    this.reveal(this.cursor);
  }

  /** Brings a byte into sight. */
  reveal(byte) {
    this.rows.reveal(Math.floor(byte / this.layout.width));
  }

  /** The innermost field of a byte, or null. */
  fieldAt(byte) {
    return this.fields[this.owner[byte]] ?? null;
  }

  // How a byte is shown: by where it stands in the selected field, and what is to be said of it.
  classOf(byte) {
    const { selected, refusedAt } = this;
    const classes = [];
    if (byte === refusedAt) classes.push("stopped");
    else if (selected !== null && byte >= selected.start && byte < selected.end) classes.push(this.shade(byte));
    else if (refusedAt !== null) classes.push(byte < refusedAt ? "was-read" : "unread");
    else if (selected?.parent?.parent && byte >= selected.parent.start && byte < selected.parent.end) classes.push("around");
    if (this.deviant[byte]) classes.push("deviant");
    if (this.place && byte >= this.place.start && byte < this.place.end) classes.push("pointed");
    return classes.join(" ");
  }

  // The shade of a byte in the selected field: its header, its content, and the fields in it, by how deep they stand.
  shade(byte) {
    const { selected, bytes } = this;
    let field = this.fieldAt(byte);
    let depth = 0;
    for (let it = field; it !== selected && it !== null; it = it.parent) depth += 1;
    if (field === selected) {
      const isHeader = byte < selected.start + headerLength(bytes, selected.start, selected.end);
      return isHeader ? "lit header" : "lit shade-0";
    }
    while (depth > SHADES) {
      field = field.parent;
      depth -= 1;
    }
    const isOdd = field.ordinal % 2 === 1;
    return `lit shade-${Math.min(depth, SHADES - 1)}${isOdd ? " odd" : ""}`;
  }

  build(index) {
    const { width, hasText } = this.layout;
    const from = index * width;
    const to = Math.min(from + width, this.bytes.length);
    const cells = make("span", { class: "cells" });
    const characters = make("span", { class: "characters", "aria-hidden": "true" });
    for (let byte = from; byte < to; byte += 1) {
      const isCovered = this.handlers.isCovered(byte);
      const name = this.classOf(byte) + (byte === this.cursor ? " cursor" : "") + (isCovered ? " covered" : "");
      const [digits, character] = isCovered ? ["··", "·"] : [hexOf(this.bytes[byte]), glyph(this.bytes[byte])];
      cells.append(make("span", { class: `byte ${name}`, "data-byte": byte }, digits));
      if (hasText) characters.append(make("span", { class: name, "data-byte": byte }, character));
    }
    const offset = make("span", { class: "offset" }, from.toString(16).padStart(this.digits, "0"));
    return make("div", { class: "row" }, offset, cells, hasText ? characters : null);
  }

  click(event) {
    const cell = event.target.closest("[data-byte]");
    if (cell !== null) this.pick(Number(cell.dataset.byte));
  }

  pick(byte) {
    this.handlers.pick(byte);
    this.cursor = byte;
    this.refresh();
    this.reveal(byte);
  }

  press(event) {
    if (event.altKey || event.ctrlKey || event.metaKey || this.bytes === undefined) return;
    const { width } = this.layout;
    const step = { ArrowLeft: -1, ArrowRight: 1, ArrowUp: -width, ArrowDown: width }[event.key];
    if (step === undefined) return;
    event.preventDefault();
    const byte = this.cursor + step;
    if (byte >= 0 && byte < this.bytes.length) this.pick(byte);
  }
}

function glyph(byte) {
  return byte > 0x20 && byte < 0x7f ? String.fromCharCode(byte) : byte === 0x20 ? " " : "·";
}
