// What `cimaroly show` prints of fields, taken apart for comparison with what the page shows.

import { fieldsOf, lineOf } from "../page/fields.mjs";

// (a program that was built earlier doesn't tell that cA is left out, and so false)
function withDefaults(label, value) {
  if (label !== "id-ce-basicConstraints" || value.includes("cA")) return value;
  const [, critical, rest] = /^(critical, )?(.*)$/.exec(value);
  return `${critical ?? ""}cA false${rest === "empty" ? "" : `, ${rest}`}`;
}

/** The lines of a report in text behind its summary: the depth, the label, the value and the place of each. */
export function linesOf(text) {
  const lines = [];
  const [, ...fields] = text.split("\n\n");
  for (const line of fields.join("\n").split("\n")) {
    const found = /^( *)(\S+)(?:  +(.*?))?  +(\d+)\.\.(\d+)$/.exec(line);
    if (found === null) continue;
    const [, indent, label, told = "", start, end] = found;
    const value = withDefaults(label, told);
    lines.push({ depth: indent.length / 2, label, value, start: Number(start), end: Number(end) });
  }
  return lines;
}

/** The same of a report's object, as the page shows it: what stands on one line is one line. */
export function shownOf(report, bytes) {
  const lines = [];
  const walk = (field, depth) => {
    const { label, start, end } = field;
    const parts = [field.node.critical ? "critical" : "", lineOf(field, bytes)];
    lines.push({ depth, label, value: parts.filter((it) => it !== "").join(", "), start, end });
    if (!field.isLine) for (const it of field.inner) walk(it, depth + 1);
  };
  const [root] = fieldsOf(report);
  if (root !== undefined) walk(root, 0);
  return lines;
}
