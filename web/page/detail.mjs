// What is told of the selected field: where it stands, its tag, and its whole value.

import { make, withTimes } from "./dom.mjs";
import { headerLength, wholeTagName } from "./elements.mjs";
import { lineOf, wholeLinesOf } from "./fields.mjs";
import { previewOf } from "./summary.mjs";
import { counted, shown } from "./text.mjs";
import { valueOf } from "./values.mjs";

const LONGEST = 20_000;

/** The box that tells of a field. */
export class Detail {
  constructor(container, select) {
    this.container = container;
    this.select = select;
  }

  clear() {
    this.container.replaceChildren();
  }

  /** Tells of a field by its node. */
  show(field, node, bytes) {
    const value = valueOf(field.label, node, bytes);
    const told = field.isWhole ? wholeLinesOf(field, bytes) : lineOf(field, bytes);
    const whole = value?.whole ?? (told || previewOf(field, bytes));
    this.container.replaceChildren(
      this.crumbs(field),
      make("p", { class: "facts" }, factsOf(field, bytes)),
      whole === "" ? "" : make("p", { class: `whole ${value?.kind ?? ""}` }, ...lines(whole, value)),
    );
  }

  crumbs(field) {
    const crumbs = make("p", { class: "crumbs" });
    for (const it of field.path) {
      if (it !== field) {
        crumbs.append(make("button", { type: "button", onclick: () => this.select(it) }, shown(it.label)), " › ");
      } else crumbs.append(make("strong", {}, shown(it.label)));
    }
    return crumbs;
  }
}

// Whether a field is in a form that isn't that of elements, as TLS's is (RFC 6962, 3.3).
function isInTls({ label, parent }) {
  return label === "SignedCertificateTimestamp" || parent?.label === "SignedCertificateTimestamp";
}

function factsOf(field, bytes) {
  const { start, end, node } = field;
  if (isInTls(field)) return `TLS structure · bytes ${start}..${end}`;
  const header = headerLength(bytes, start, end);
  const id = node.id === undefined ? "" : ` · ${node.id}`;
  const critical = node.critical === undefined ? "" : node.critical ? " · critical" : " · not critical";
  const sizes = `${header}-byte header, ${counted(end - start - header, "byte")} of content`;
  return `${wholeTagName(bytes, start)} · bytes ${start}..${end}: ${sizes}${id}${critical}`;
}

// A value as it is shown whole: a time doesn't break, unless it is text of the input.
function lines(whole, value) {
  return value?.kind === "text" ? [cut(whole)] : withTimes(cut(whole));
}

function cut(text) {
  return text.length <= LONGEST ? text : `${text.slice(0, LONGEST)}.. (${counted(text.length, "character")} in all)`;
}
