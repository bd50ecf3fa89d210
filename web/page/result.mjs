// What is shown of one structure: its verdict, its fields, its bytes.

import { Bytes } from "./bytes.mjs";
import { sentenceOn } from "./deviations.mjs";
import { Detail } from "./detail.mjs";
import { digestsOf, digestsToCome } from "./digests.mjs";
import { at, make, withTimes } from "./dom.mjs";
import { EditForm } from "./editor.mjs";
import { headerLength } from "./elements.mjs";
import { fieldOf, fieldOver, fieldsOf } from "./fields.mjs";
import { headingOf, itemOf } from "./findings.mjs";
import { Identifiers } from "./identifiers.mjs";
import { KINDS, toBase64 } from "../pem.mjs";
import { Saving } from "./saving.mjs";
import { Sheet } from "./sheet.mjs";
import { standingOf, summaryOf, titleOf } from "./summary.mjs";
import { clipped, counted, grouped, hexOf, shown } from "./text.mjs";
import { Tree } from "./tree.mjs";
import { elementsOf } from "./unread.mjs";

const FIRST = 24;
const LONGEST_LINK = 200_000;

/** The view of one structure. What is made by editing it is handed to `takeEdited`. */
export class Result {
  constructor(cimaroly, takeEdited) {
    this.cimaroly = cimaroly;
    this.saving = new Saving(cimaroly, (text) => this.note(text));
    this.editing = new EditForm(cimaroly, takeEdited);
    this.identifiers = new Identifiers(cimaroly);
    this.uncovered = new Set();
    this.detail = new Detail(at("detail"), (field) => this.tree.select(field));
    this.tree = new Tree(at("tree"), {
      select: (field) => this.light(field),
      uncover: (field) => this.uncover(field),
      isUncovered: (field) => this.uncovered.has(field),
      shownNode: (field) => this.nodeOf(field),
      hidden: () => this.sheet.height,
    });
    this.bytes = new Bytes(at("bytes"), {
      pick: (byte) => this.pick(byte),
      isCovered: (byte) => this.covered[byte] === 1,
    });
    this.sheet = new Sheet(() => this.bytes.unhide());
    this.listen();
  }

  listen() {
    at("open-all").addEventListener("click", () => this.tree.foldAll(true));
    at("fold-all").addEventListener("click", () => this.tree.foldAll(false));
    at("copy-link").addEventListener("click", () => this.copyLink());
    at("more-deviations").addEventListener("click", () => this.listDeviations(this.listed + 200));
    at("kind").append(...KINDS.map((it) => make("option", { value: it }, titleOf(it))));
    at("kind").addEventListener("change", (event) => {
      this.structure.readAs(event.target.value);
      this.show(this.structure);
    });
  }

  /** Shows a structure. */
  show(structure) {
    this.structure = structure;
    this.uncovered.clear();
    this.secrets = null;
    const isNew = structure.told === undefined;
    const started = performance.now();
    const { report } = structure;
    const read = performance.now();
    this.draw(report);
    at("panes").getBoundingClientRect();
    this.times(isNew ? read - started : null, performance.now() - read);
  }

  draw(report) {
    const { structure } = this;
    at("result").hidden = false;
    this.note("");
    this.raw = structure.bytes ?? new Uint8Array(0);
    const { shownReport } = structure;
    this.fields = fieldsOf(shownReport);
    this.isRead = this.fields.length > 0;
    if (!this.isRead && !structure.isPrivate) this.fields = this.elements();
    this.deviations = shownReport.deviations ?? [];
    this.drawHead(report);
    this.drawSummary(shownReport, digestsToCome(shownReport));
    this.takeDigests(shownReport);
    this.listDeviations(FIRST);
    this.listFindings(structure.findings);
    this.drawRefusal(report);
    this.drawPanes(report);
  }

  // The elements of what isn't read.
  elements() {
    return elementsOf(this.raw, (element) => this.identifiers.of(element));
  }

  drawHead(report) {
    const { structure } = this;
    at("result-title").textContent = shown(structure.title);
    const verdict = at("verdict");
    verdict.className = `verdict ${report.result.replace(" ", "-")}`;
    verdict.textContent = verdictOf(report);
    at("result").dataset.result = report.result;
    this.drawStanding(structure.shownReport);
    this.saving.use(structure, this.isRead && report.result !== "refused");
    this.editing.use(structure);
    at("copy-link").disabled = this.whyNoLink() !== "";
    at("copy-link").title = this.whyNoLink();
    at("kind").value = structure.kind ?? "";
    at("kind").parentElement.hidden = structure.bytes === undefined;
    this.drawOthers();
  }

  // Whether it is valid by the reader's clock.
  drawStanding(report) {
    const standing = standingOf(report, Date.now());
    at("standing").hidden = standing === null || standing === "valid";
    at("standing").textContent = standing === null ? "" : sentenceCase(standing);
  }

  // What is to be said of what was made, and what else the bytes may be, if no label says what is meant.
  drawOthers() {
    const { structure } = this;
    const others = structure.kinds.filter((it) => it !== structure.kind);
    const parts = structure.remark === "" ? [] : [structure.remark];
    if (structure.kinds.length > 1 && others.length > 0) {
      parts.push(`These bytes can also be read as: ${others.map((it) => titleOf(it).toLowerCase()).join(", ")}.`);
    }
    if (structure.isUncertain && structure.kinds.includes(structure.kind)) {
      parts.push("No label says what these bytes are: other structures can be read as this type too.");
    }
    this.note(parts.join(" "));
  }

  drawSummary(report, digests) {
    const rows = summaryOf(report, this.raw, digests);
    at("origin").textContent = this.origin();
    at("summary").replaceChildren(
      ...rows.flatMap(({ label, text, at: place }) => {
        const told = place === null ? make("code", {}, text) : this.linkTo(label, clipped(text, 2000), place);
        return [make("dt", {}, label), make("dd", {}, told)];
      }),
    );
  }

  // Tells the digests once they are taken, if the structure is still the one that is shown.
  async takeDigests(report) {
    const { structure, raw } = this;
    const digests = await digestsOf(this.cimaroly, raw, report).catch(() => ({}));
    const isShown = this.structure === structure && structure.shownReport === report;
    if (isShown && digests !== null) this.drawSummary(report, digests);
  }

  origin() {
    const { file, line, label } = this.structure;
    const size = this.raw.length > 0 ? `${counted(this.raw.length, "byte")} · ` : "";
    const block = label === undefined ? "" : `, line ${line}`;
    return `${size}${shown(file)}${block}`;
  }

  linkTo(label, text, place) {
    const parts = label === "valid" ? withTimes(text) : [text];
    return make("button", { type: "button", class: "place-link", onclick: () => this.go(place) }, ...parts);
  }

  // The deviations by their kinds, in the order in which they are first met.
  listDeviations(most) {
    const { deviations } = this;
    this.listed = most;
    at("deviations").hidden = deviations.length === 0;
    at("deviations-title").textContent = `${counted(deviations.length, "deviation")} from DER`;
    const kinds = new Map();
    for (const it of deviations.slice(0, most)) kinds.set(it.name, [...(kinds.get(it.name) ?? []), it]);
    at("deviation-list").replaceChildren(...Array.from(kinds, ([name, them]) => this.kindOfDeviation(name, them)));
    at("more-deviations").hidden = deviations.length <= most;
    at("more-deviations").textContent = `Show more (${grouped(deviations.length)} in all)`;
  }

  kindOfDeviation(name, deviations) {
    return make(
      "li",
      {},
      make("h4", {}, sentenceCase(name)),
      make("p", {}, sentenceOn(name)),
      make("ul", {}, ...deviations.map((it) => make("li", {}, this.placeOf("deviation", name, it.at)))),
    );
  }

  listFindings(findings) {
    at("findings").hidden = findings.length === 0;
    at("findings-title").textContent = headingOf(findings);
    const button = ({ text, start, end }) => this.placeOf("finding", text, [start, end]);
    at("finding-list").replaceChildren(...findings.map((it) => itemOf(it, button(it))));
  }

  // A button that goes to the place of a deviation or a finding.
  placeOf(what, name, place) {
    const [start, end] = place;
    const path = (fieldOf(this.fields, this.raw, place)?.path ?? []).slice(-2);
    const where = path.map((it) => shown(it.label)).join(" › ");
    const told = `${name}: bytes ${start} to ${end}, ${where}`;
    return make(
      "button",
      { type: "button", class: what, "aria-label": told, onclick: () => this.go(place) },
      make("span", { class: "place" }, `${start}..${end}`),
      make("span", { class: "where" }, where),
    );
  }

  drawRefusal(report) {
    const isRefused = report.result !== "ok" && report.result !== "deviations";
    at("refusal").hidden = !isRefused;
    if (!isRefused) return;
    const { reason, at: place, field } = report;
    at("refusal-title").textContent = sentenceCase(reason ?? "");
    const where = [];
    if (place !== undefined) where.push(`Reading stopped at byte ${grouped(place)} of ${grouped(this.raw.length)}`);
    if (field) where.push(`in ${shown(field).replaceAll(".", " › ")}`);
    const text = where.length > 0 ? `${where.join(", ")}. ` : "";
    at("refusal-text").textContent = text + restOf(report, this.structure.outline);
  }

  drawPanes(report) {
    at("panes").hidden = this.raw.length === 0;
    at("panes").classList.toggle("bytes-only", this.fields.length === 0);
    if (this.raw.length === 0) return;
    for (const { at: place } of this.deviations) this.markOver(place);
    this.coverSecrets(report);
    at("count").textContent = counted(this.raw.length, "byte");
    at("fields-title").textContent = this.isRead ? "Fields" : "Elements";
    const refusedAt = this.structure.outline === null ? (report.at ?? null) : null;
    this.bytes.show(this.raw, this.fields, this.deviations, refusedAt);
    this.tree.show(this.fields, this.raw);
    if (this.isRead) this.light(this.fields[0]);
    else this.stopAt(refusedAt);
  }

  // Shows where reading stopped, and the element that stands there.
  stopAt(place) {
    this.detail.clear();
    if (place === null) return;
    const field = fieldOver(this.fields, place, place + 1);
    if (field !== null) {
      field.isMarked = true;
      this.tree.select(field, { isTold: false, isRevealed: false });
    }
    this.bytes.reveal(place);
  }

  markOver([start, end]) {
    const field = fieldOver(this.fields, start, end);
    if (field !== null) field.isMarked = true;
  }

  // The bytes of secret numbers; of what is refused and may be a private key, all from the second element on.
  coverSecrets(report) {
    this.covered = new Uint8Array(this.raw.length);
    for (const it of this.fields) if (it.isSecret) this.cover(it);
    const isUnread = report.result === "refused" || report.result === "passed over";
    if (isUnread && this.structure.isPrivate) this.covered.fill(1, Math.min(4, this.raw.length));
  }

  cover(field) {
    const content = field.start + headerLength(this.raw, field.start, field.end);
    this.covered.fill(1, content, field.end);
  }

  uncover(field) {
    this.secrets ??= fieldsOf(this.structure.reportWithSecrets());
    this.uncovered.add(field);
    this.covered.fill(0, field.start, field.end);
    this.tree.refresh();
    this.light(field);
  }

  nodeOf(field) {
    return this.uncovered.has(field) ? this.secrets[field.index].node : field.node;
  }

  /** Lights up the bytes of a field, and tells of it. */
  light(field, place = null) {
    this.bytes.select(field, place);
    this.detail.show(field, this.nodeOf(field), this.raw);
  }

  /** Selects the field of a byte. */
  pick(byte) {
    const field = this.bytes.fieldAt(byte);
    if (field === null) {
      this.covered.fill(0);
      return;
    }
    if (this.covered[byte] && field.isSecret) this.uncover(field);
    this.tree.select(field);
    const path = field.path.slice(-2).map((it) => shown(it.label));
    at("spoken").textContent = `byte ${byte}: ${hexOf(this.raw[byte])}, in ${path.join(", ")}`;
  }

  /** Goes to a place: selects its field, and lights up its bytes. */
  go([start, end]) {
    const field = fieldOf(this.fields, this.raw, [start, end]);
    if (field === null) return;
    this.tree.select(field, { isTold: false });
    this.light(field, field.start === start && field.end === end ? null : { start, end });
  }

  whyNoLink() {
    const { structure } = this;
    if (structure.kind === null) return "There is nothing to link to.";
    if (structure.isPrivate) return "Links never contain private keys.";
    return this.raw.length > LONGEST_LINK ? "This is too large for a link." : "";
  }

  async copyLink() {
    const { structure } = this;
    if (this.whyNoLink() !== "") return;
    const symbols = toBase64(this.raw).replaceAll("+", "-").replaceAll("/", "_").replace(/=+$/, "");
    history.replaceState(null, "", `#${structure.kind}=${symbols}`);
    try {
      await navigator.clipboard.writeText(location.href);
      this.note("Link copied. It contains the whole structure, after the #, which browsers never send to a server.");
    } catch {
      this.note("The link is in the address bar. It contains the whole structure, after the #, which browsers never send to a server.");
    }
  }

  note(text) {
    at("note").textContent = text;
    at("note").hidden = text === "";
  }

  times(read, drawn) {
    const part = read === null ? "" : `Read in ${read.toFixed(2)} ms, `;
    at("times").textContent = `${part}drawn in ${drawn.toFixed(1)} ms.`.replace(/^d/, "D");
    at("times").dataset.read = read ?? "";
    at("times").dataset.drawn = drawn;
  }
}

// What else is to be said of what is refused.
function restOf({ at: place }, outline) {
  if (outline !== null) {
    const count = outline.deviations.length;
    const how = count === 0 ? "is in DER" : `has ${counted(count, "deviation")} from DER`;
    return `The fields below are those of its outline, which ${how}: what isn’t understood stands in it as it is.`;
  }
  return place === undefined ? "" : "The highlighted bytes before it were read; the bytes after it were not.";
}

function verdictOf(report) {
  const count = report.deviations?.length ?? 0;
  if (report.result === "ok") return "In DER";
  if (report.result === "deviations") return `Not in DER: ${counted(count, "deviation")}`;
  return sentenceCase(report.result);
}

function sentenceCase(text) {
  return text.charAt(0).toUpperCase() + text.slice(1);
}
