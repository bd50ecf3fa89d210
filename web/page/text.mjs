// Text of the input as it may be shown: what has no glyph of its own stands as an escape.

// Controls, marks that turn the direction of text, characters without a width, private use, and half a surrogate pair.
const UNSEEN = new RegExp(
  "[\\u{0}-\\u{1f}\\u{7f}-\\u{9f}\\u{ad}\\u{34f}\\u{600}-\\u{605}\\u{61c}\\u{6dd}\\u{70f}\\u{890}-\\u{891}\\u{8e2}" +
    "\\u{115f}-\\u{1160}\\u{17b4}-\\u{17b5}\\u{180b}-\\u{180f}\\u{200b}-\\u{200f}\\u{2028}-\\u{202e}\\u{2060}-\\u{206f}" +
    "\\u{3164}\\u{d800}-\\u{dfff}\\u{e000}-\\u{f8ff}\\u{fe00}-\\u{fe0f}\\u{feff}\\u{ffa0}\\u{fff0}-\\u{fffb}" +
    "\\u{110bd}\\u{110cd}\\u{13430}-\\u{1343f}\\u{1bca0}-\\u{1bca3}\\u{1d173}-\\u{1d17a}\\u{e0000}-\\u{10ffff}]",
  "gu",
);

// The characters that might be taken for the end of what a text stands in.
const MARKS = { quotes: /["\\]/g, name: /["\\,+=;<>]/g, line: /\\/g };

/** The text, with a backslash before its marks in a frame, and with what isn't to be shown as `\u{202e}`. */
export function shown(text, frame = "line") {
  return text
    .replace(MARKS[frame], "\\$&")
    .replace(UNSEEN, (it) => `\\u{${it.codePointAt(0).toString(16)}}`);
}

/** The front of a text that is too long for a line. */
export function clipped(text, most = 1000) {
  return text.length <= most ? text : `${text.slice(0, most)}..`;
}

/** The text between quotation marks. */
export function quoted(text) {
  return `"${shown(text, "quotes")}"`;
}

/** The text as a JSON string, with an escape for what isn't to be shown. */
export function asJson(text) {
  const escape = (unit) => `\\u${unit.charCodeAt(0).toString(16).padStart(4, "0")}`;
  return JSON.stringify(text).replace(UNSEEN, (it) => it.split("").map(escape).join(""));
}

const DIGITS = Array.from({ length: 256 }, (_, byte) => byte.toString(16).padStart(2, "0"));

/** Two hexadecimal digits. */
export function hexOf(byte) {
  return DIGITS[byte];
}

/** Bytes in hexadecimal, with a separator between them. */
export function hex(bytes, separator = ":") {
  return Array.from(bytes, hexOf).join(separator);
}

/** A number with commas between thousands. */
export function grouped(number) {
  return number.toLocaleString("en-US");
}

/** A number of things, as in `1 byte` and `2 bytes`. */
export function counted(number, thing) {
  return `${grouped(number)} ${thing}${number === 1 ? "" : "s"}`;
}

/** A size in bits as the program prints it, without commas: `1 bit`, `2048 bits`. */
export function measured(bits) {
  return `${bits} bit${bits === 1 ? "" : "s"}`;
}
