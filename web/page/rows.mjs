// A list of rows of one height, of which only those stand in the document that are to be seen.

import { make } from "./dom.mjs";

const BEYOND = 12;

/** Rows in a container, which scrolls by itself or with the page. */
export class Rows {
  /** `build(index)` makes the element of a row. */
  constructor(container, build) {
    this.container = container;
    this.build = build;
    this.count = 0;
    this.height = 0;
    this.built = new Map();
    this.content = make("div", { class: "rows", role: "presentation" });
    container.replaceChildren(this.content);
    this.isWaiting = false;
    const later = () => this.later();
    container.addEventListener("scroll", later, { passive: true });
    addEventListener("scroll", later, { passive: true });
    addEventListener("resize", () => this.resize());
    new ResizeObserver(later).observe(container);
  }

  later() {
    if (this.isWaiting) return;
    this.isWaiting = true;
    requestAnimationFrame(() => {
      this.isWaiting = false;
      this.update();
    });
  }

  // Rows may have another height where the window has another width.
  resize() {
    this.height = 0;
    this.show(this.count);
  }

  measure() {
    const probe = make("div", { class: "row" }, "0");
    this.content.append(probe);
    this.height = probe.getBoundingClientRect().height;
    probe.remove();
  }

  /** Shows so many rows, all of them built anew. */
  show(count) {
    this.count = count;
    if (this.height === 0) this.measure();
    this.content.style.height = `${count * this.height}px`;
    this.redraw();
  }

  /** Builds all rows anew. */
  redraw() {
    this.built.clear();
    const { first, last } = this.range();
    const rows = [];
    for (let index = first; index < last; index += 1) rows.push(this.placed(index));
    this.content.replaceChildren(...rows);
  }

  // Which part of the content can be seen: its top and its bottom, from the content's top on.
  seen() {
    const content = this.content.getBoundingClientRect();
    const frame = this.container.getBoundingClientRect();
    const top = Math.max(frame.top, 0) - content.top;
    const bottom = Math.min(frame.bottom, innerHeight) - content.top;
    return { top, bottom };
  }

  // The rows that can be seen, and some beyond them.
  range() {
    if (this.count === 0 || this.height === 0) return { first: 0, last: 0 };
    const { top, bottom } = this.seen();
    const first = Math.max(0, Math.floor(top / this.height) - BEYOND);
    const last = Math.min(this.count, Math.ceil(bottom / this.height) + BEYOND);
    return { first, last };
  }

  /** Builds the rows that came into sight, and takes away those that left it. */
  update() {
    if (this.height === 0) return;
    const { first, last } = this.range();
    for (const [index, row] of this.built) {
      if (index < first || index >= last) {
        row.remove();
        this.built.delete(index);
      }
    }
    for (let index = first; index < last; index += 1) this.ensure(index);
  }

  placed(index) {
    const row = this.build(index);
    row.style.top = `${index * this.height}px`;
    this.built.set(index, row);
    return row;
  }

  /** The element of a row, which is built where it isn't there. */
  ensure(index) {
    const row = this.built.get(index);
    if (row !== undefined) return row;
    this.content.append(this.placed(index));
    return this.built.get(index);
  }

  /** Brings a row into sight, of which so much of the window's bottom shows nothing. */
  reveal(index, hidden = 0) {
    const { top, bottom } = this.seen();
    const from = index * this.height;
    if (from >= top && from + this.height <= bottom - hidden) return;
    if (this.container.scrollHeight > this.container.clientHeight + 1) {
      this.container.scrollTop = from - Math.max(0, (bottom - top - hidden) / 3);
    } else {
      scrollTo({ top: scrollY + this.content.getBoundingClientRect().top + from - innerHeight / 3 });
    }
    this.update();
  }
}
