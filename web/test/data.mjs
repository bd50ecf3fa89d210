// The files that the tests go over, and the program that they are compared with.

import { spawnSync } from "node:child_process";
import { existsSync, readFileSync, readdirSync } from "node:fs";
import { fileURLToPath } from "node:url";

const ROOT = new URL("../../", import.meta.url);

/** The path of a file of the repository. */
export function pathOf(name) {
  return fileURLToPath(new URL(name, ROOT));
}

export const DATA = pathOf("tools/tests/data");

/** The names of the samples: files in PEM or hexadecimal. */
export const SAMPLES = readdirSync(DATA).filter((it) => /\.(pem|hex)$/.test(it)).sort();

/** The bytes of a sample. */
export function sample(name) {
  return new Uint8Array(readFileSync(`${DATA}/${name}`));
}

const PROCESSOR = process.arch === "arm64" ? "aarch64" : "x86_64";
const found = process.env.CIMAROLY ?? pathOf(`dist/${PROCESSOR}-linux/cimaroly`);

/** The path of the program, or null where it isn't there. */
export const PROGRAM = existsSync(found) ? found : null;

/** What the program prints. */
export function run(...words) {
  return runOn("", ...words);
}

/** What it prints of what stands in its standard input. */
export function runOn(input, ...words) {
  return spawnSync(PROGRAM, words, { input, encoding: "utf-8", maxBuffer: 1 << 28 }).stdout;
}

/** The rows of the table that the tests of every binding go over, by the names of their columns. */
export function table() {
  return rowsOf("bindings/tests/table.tsv");
}

// The rows of a table, by the names in its head.
function rowsOf(name) {
  const [head, ...lines] = readFileSync(pathOf(name), "utf-8").trimEnd().split("\n");
  const names = head.split("\t");
  return lines.map((line) => Object.fromEntries(line.split("\t").map((it, index) => [names[index], it])));
}

// One arc in base 128 (X.690, 8.19.2).
function base128(arc) {
  const digits = [arc & 127];
  for (let rest = Math.floor(arc / 128); rest > 0; rest = Math.floor(rest / 128)) digits.unshift((rest & 127) | 128);
  return digits;
}

/** The object identifiers that have names, by the standards: the name and the element of each. */
export function identifiers() {
  const rows = [...rowsOf("tools/object_identifiers.tsv"), ...rowsOf("tools/further_names.tsv")];
  return rows.map(({ arcs, name }) => {
    const [first, second, ...rest] = arcs.split(".").map(Number);
    const content = [40 * first + second, ...rest].flatMap(base128);
    return { name, element: Uint8Array.of(6, content.length, ...content) };
  });
}
