// The structures of what was taken, where they are several.

import { at, make } from "./dom.mjs";
import { clipped, counted, grouped, shown } from "./text.mjs";

const PAGE = 100;

/** The list of structures, of which one is shown. */
export class List {
  constructor(choose) {
    this.choose = choose;
    this.structures = [];
  }

  /** Lists structures, and shows the first that is read. */
  show(structures) {
    const readable = structures.findIndex((it) => it.kind !== null);
    this.showAt(structures, Math.max(readable, 0));
  }

  /** Lists a structure behind the others, and shows it. */
  add(structure) {
    this.showAt([...this.structures, structure], this.structures.length);
    at("structure-list").lastElementChild?.scrollIntoView({ block: "nearest" });
  }

  showAt(structures, index) {
    this.structures = structures;
    this.current = index;
    this.from = index - (index % PAGE);
    at("structures").hidden = structures.length < 2;
    at("structures-title").textContent = counted(structures.length, "structure");
    if (structures.length >= 2) this.build();
    this.choose(structures[index]);
  }

  pick(index) {
    this.current = index;
    for (const [offset, { firstChild: button }] of [...at("structure-list").children].entries()) {
      if (this.from + offset === index) button.setAttribute("aria-current", "true");
      else button.removeAttribute("aria-current");
    }
    this.choose(this.structures[index]);
  }

  build() {
    const page = this.structures.slice(this.from, this.from + PAGE);
    at("structure-list").start = this.from + 1;
    at("structure-list").replaceChildren(...page.map((it, index) => this.item(it, this.from + index)));
    this.buildPages();
  }

  item(structure, index) {
    const { result } = structure.report;
    const button = make(
      "button",
      {
        type: "button",
        class: `structure ${result.replace(" ", "-")}`,
        "aria-current": index === this.current ? "true" : null,
        onclick: () => this.pick(index),
      },
      make("span", { class: "dot", "aria-hidden": "true" }),
      make("span", { class: "title" }, shown(structure.title)),
      make("span", { class: "caption" }, captionWithCount(structure)),
    );
    return make("li", {}, button);
  }

  buildPages() {
    const { length } = this.structures;
    const pages = at("structure-pages");
    pages.hidden = length <= PAGE;
    if (pages.hidden) return;
    const turn = (step) => () => {
      this.from += step;
      this.build();
    };
    pages.replaceChildren(
      make("button", { type: "button", disabled: this.from === 0, onclick: turn(-PAGE) }, "Previous"),
      ` ${this.from + 1} to ${Math.min(this.from + PAGE, length)} of ${grouped(length)} `,
      make("button", { type: "button", disabled: this.from + PAGE >= length, onclick: turn(PAGE) }, "Next"),
    );
  }
}

function captionWithCount(structure) {
  const count = structure.report.deviations?.length ?? 0;
  const caption = clipped(structure.caption, 200);
  return count > 0 ? `${caption} (${counted(count, "deviation")})` : caption;
}
