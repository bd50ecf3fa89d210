// The rules that a certificate breaks (docs/FINDINGS.md), as the page lists them.

import { make } from "./dom.mjs";
import { counted } from "./text.mjs";

const SEVERITIES = new Map([
  ["error", "Error"],
  ["warning", "Warning"],
]);

// As the page writes texts: with a capital, unless an identifier such as notAfter stands first, and with apostrophes.
function written(text) {
  const first = /^[a-z]+\b/.test(text) ? text.charAt(0).toUpperCase() : text.charAt(0);
  return (first + text.slice(1)).replaceAll("'", "\u2019");
}

/** What stands over findings: how many there are of each severity. */
export function headingOf(findings) {
  const counts = [...SEVERITIES.keys()].map((it) => [findings.filter(({ severity }) => severity === it).length, it]);
  const parts = counts.filter(([count]) => count > 0).map(([count, severity]) => counted(count, severity));
  return `Findings: ${parts.join(" and ")}`;
}

/** An item of their list, in which `button` goes to the field. */
export function itemOf({ severity, text, clause, reason }, button) {
  return make(
    "li",
    {},
    make("h4", {}, written(text)),
    make("p", {}, make("span", { class: `severity ${severity}` }, SEVERITIES.get(severity)), ` ${clause}`),
    make("p", {}, written(reason)),
    button,
  );
}
