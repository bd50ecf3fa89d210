// One entry of what was taken: the bytes of a structure, and what the library says of them.

import { formatOf } from "./formats.mjs";
import { LOOSE_KINDS, kindsOf, passedOver } from "./input.mjs";
import { captionOf, isPrivate, titleOf } from "./summary.mjs";

/** An entry: one structure, or a PEM block that is none. */
export class Entry {
  constructor(cimaroly, { file, line, label, kind, bytes, outcome, reason, format = null, ...made }) {
    Object.assign(this, { cimaroly, file, line, label, bytes, outcome, reason, format });
    this.labelKind = kind;
    // of what was made on the page: what there is to be said of it, and the private key that was made with it
    const { remark = "", privateKey = null, isEdited = false } = made;
    Object.assign(this, { remark, privateKey, isEdited });
  }

  /** The types that the bytes can be read as if no label says one; the first is taken. */
  get kinds() {
    if (this.bytes === undefined || this.reason !== undefined) return [];
    this.foundKinds ??= this.labelKind ? [this.labelKind] : this.kindsWithoutLabel();
    return this.foundKinds;
  }

  // None if they are in another format, unless a type accepts them that other structures aren't read as.
  kindsWithoutLabel() {
    const { accepting, furthest } = kindsOf(this.bytes, (bytes, kind) => this.refusedAt(bytes, kind));
    this.isUncertain = accepting.length > 0 && accepting.every((it) => LOOSE_KINDS.includes(it));
    const format = accepting.length === 0 || this.isUncertain ? formatOf(this.bytes) : null;
    if (format !== null) {
      Object.assign(this, passedOver(format));
      return [];
    }
    return accepting.length > 0 ? accepting : [furthest];
  }

  refusedAt(bytes, kind) {
    try {
      this.cimaroly.check(bytes, kind);
      return null;
    } catch (error) {
      if (error instanceof this.cimaroly.Refused) return error.at;
      if (isFailure(error)) return -1;
      throw error;
    }
  }

  /** As which type it is read. */
  get kind() {
    return this.chosenKind ?? this.kinds[0] ?? null;
  }

  /** Reads it as another type from now on. */
  readAs(kind) {
    this.chosenKind = kind;
    this.text = undefined;
    this.told = undefined;
    this.toldOutline = undefined;
  }

  /** The report as JSON, without secret numbers. */
  get reportText() {
    this.text ??= this.cimaroly.reportText(this.bytes, this.kind);
    return this.text;
  }

  /** The report. */
  get report() {
    if (this.kind === null) return { result: this.outcome ?? "refused", reason: this.reason };
    try {
      this.told ??= this.cimaroly.parseReport(this.reportText);
    } catch (error) {
      if (!isFailure(error)) throw error;
      this.told = { result: "refused", reason: `couldn’t be read in this browser: ${error.message}` };
    }
    return this.told;
  }

  /** The report of its outline, if it is refused and has one; or else null. */
  get outline() {
    if (this.report.result !== "refused" || !HAVE_OUTLINES.includes(this.kind)) return null;
    this.toldOutline ??= this.cimaroly.report(this.bytes, outlineOf(this.kind));
    return this.toldOutline.result === "refused" ? null : this.toldOutline;
  }

  /** The report whose fields are shown: its own, or that of the outline of what is refused. */
  get shownReport() {
    return this.outline ?? this.report;
  }

  /** The rules that it breaks; none of what is neither a certificate nor a request, or is refused. */
  get findings() {
    if (!["certificate", "request"].includes(this.kind) || !["ok", "deviations"].includes(this.report.result)) return [];
    try {
      this.foundFindings ??= this.cimaroly.read(this.bytes, this.kind).findings;
    } catch (error) {
      if (!isFailure(error)) throw error;
      this.foundFindings = [];
    }
    return this.foundFindings;
  }

  /** The report of what is shown with the secret numbers. */
  reportWithSecrets() {
    const kind = this.outline === null ? this.kind : outlineOf(this.kind);
    return this.cimaroly.report(this.bytes, kind, { secrets: true });
  }

  /** Whether it is, or may be, a private key: a label, a type or a format says so, or it is refused and begins with a version. */
  get isPrivate() {
    if (this.label?.includes("PRIVATE") || this.kinds.some(isPrivate) || isPrivate(this.kind ?? "")) return true;
    if (this.format?.holdsKeys) return true;
    return this.report.result === "refused" && beginsWithVersion(this.bytes);
  }

  /** What it is called. */
  get title() {
    if (this.kind !== null) return `${titleOf(this.kind)}${this.isEdited ? ", edited" : ""}`;
    return this.label ?? this.format?.name.replace(/^an? /, "").replace(/^e/, "E") ?? "Unrecognized input";
  }

  /** Whose it is, or why it isn't read. */
  get caption() {
    const { report } = this;
    if (this.outline !== null) return `${captionOf(this.outline, this.bytes)} (refused: ${report.reason})`;
    if (report.result === "refused" || report.result === "passed over") return `${report.result}: ${report.reason}`;
    return captionOf(report, this.bytes);
  }
}

// The types that have an outline (docs/PROGRAMS.md).
const HAVE_OUTLINES = ["certificate", "request", "private-key", "public-key"];

const outlineOf = (kind) => `${kind}-outline`;

// Whether an error says that memory or the engine gave out, rather than what the input is.
function isFailure(error) {
  return error instanceof RangeError || error instanceof WebAssembly.RuntimeError;
}

// Whether the bytes begin as a SEQUENCE whose first element is a small INTEGER, as private keys do.
function beginsWithVersion(bytes) {
  if (bytes === undefined || bytes[0] !== 0x30) return false;
  const content = bytes[1] > 0x80 ? 2 + (bytes[1] & 0x7f) : 2;
  return bytes[content] === 2 && bytes[content + 1] === 1;
}
