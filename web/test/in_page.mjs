// What is asked of the page in the browser: expressions of JavaScript that are evaluated there.

/** The rows of the tree, as they are shown. */
export const ROWS = `Array.from(document.querySelectorAll("#tree .field"))
  .sort((a, b) => a.dataset.index - b.dataset.index)
  .map((row) => {
    const [start, end] = row.querySelector(".place").textContent.split("..").map(Number);
    const critical = row.querySelector(".critical") ? ["critical"] : [];
    const told = row.querySelector(".told, .cover")?.textContent ?? "";
    return {
      depth: Number(row.getAttribute("aria-level")) - 1,
      label: row.querySelector(".label").textContent,
      value: [...critical, ...(told === "" ? [] : [told])].join(", "),
      start,
      end,
    };
  })`;

/** The bytes that are lit: the first, the one behind the last, and how many. */
export const LIT = `(() => {
  const lit = Array.from(document.querySelectorAll(".cells .lit"), (it) => Number(it.dataset.byte));
  return lit.length === 0 ? null : [lit[0], lit[lit.length - 1] + 1, lit.length];
})()`;

/** The text of the element with an id. */
export const text = (id) => `document.getElementById("${id}").textContent`;
/** Clicks the first element that a selector finds. */
export const click = (selector) => `document.querySelector(${JSON.stringify(selector)}).click()`;

// What a button saves, as a blob; null if it saves nothing.
const saved = (id, take) => `(async () => {
  let saved = null;
  const make = URL.createObjectURL;
  URL.createObjectURL = (blob) => {
    saved = blob;
    return make.call(URL, blob);
  };
  document.getElementById("${id}").click();
  // (a key is exported first)
  for (let step = 0; step < 50 && saved === null; step += 1) await new Promise((resolve) => setTimeout(resolve, 10));
  URL.createObjectURL = make;
  return ${take};
})()`;

/** The report that the page saves. */
export const SAVED = saved("save-report", "saved.text()");

/** The digits of the DER encoding that it saves. */
export const SAVED_DER = saved(
  "save-der",
  'Array.from(new Uint8Array(await saved.arrayBuffer()), (it) => it.toString(16).padStart(2, "0")).join("")',
);

/** The PEM that it saves, and the private key, or null. */
export const SAVED_PEM = saved("save-pem", "saved.text()");
export const SAVED_KEY = saved("save-key", "saved && saved.text()");

/** How many elements a selector finds. */
export const count = (selector) => `document.querySelectorAll(${JSON.stringify(selector)}).length`;

/** What the structure came to. */
export const RESULT = 'document.getElementById("result").dataset.result';

/** The text of each element that a selector finds. */
export const texts = (selector) =>
  `Array.from(document.querySelectorAll(${JSON.stringify(selector)}), (it) => it.textContent)`;

/** The label of the active field. */
export const ACTIVE = `(() => {
  const tree = document.getElementById("tree");
  return document.getElementById(tree.getAttribute("aria-activedescendant")).querySelector(".label").textContent;
})()`;

/** Goes to a deviation, or a finding: its place, the place that is marked then, and the field that is selected. */
export const goTo = (index, what = "deviation") => `(() => {
  const link = document.querySelectorAll(".${what}")[${index}];
  link.click();
  const pointed = document.querySelectorAll(".cells .pointed");
  const marked = pointed.length > 0 ? pointed : document.querySelectorAll(".cells .lit");
  const bytes = Array.from(marked, (it) => Number(it.dataset.byte));
  const place = link.querySelector(".place").textContent;
  return [place, [bytes[0], bytes[bytes.length - 1] + 1].join(".."), ${ACTIVE}];
})()`;

/** Pastes a text. */
export const paste = (text) => `(() => {
  document.getElementById("paste-open").click();
  document.getElementById("result").dataset.result = "";
  document.getElementById("pasted").value = ${JSON.stringify(text)};
  document.querySelector("#paste [type=submit]").click();
})()`;

/** Shows a sample. */
export const showSample = (index) => `(() => {
  document.getElementById("result").dataset.result = "";
  document.querySelectorAll(".sample")[${index}].click();
})()`;

/** How long reading and drawing took, in milliseconds. */
export const TIMES = `(() => {
  const { read, drawn } = document.getElementById("times").dataset;
  return [Number(read), Number(drawn)];
})()`;

/** Selects each row in turn, and says what is lit then. */
export const SELECT_ALL = `(() => {
  document.getElementById("open-all").click();
  const answers = [];
  const count = document.querySelectorAll("#tree .field").length;
  for (let index = 0; index < count; index += 1) {
    const row = document.querySelector('#tree .field[data-index="' + index + '"]');
    row.click();
    const selected = document.querySelectorAll('#tree [aria-selected="true"]');
    answers.push({ place: row.querySelector(".place").textContent, lit: ${LIT}, selected: selected.length });
  }
  return answers;
})()`;

/** The worst contrast of a text with what is behind it (WCAG 2.1, 1.4.3), and whose it is. */
export const CONTRAST = `(() => {
  const numbers = (color) => color.match(/[\\d.]+/g).map(Number);
  const linear = (it) => (it / 255 <= 0.04045 ? it / 255 / 12.92 : ((it / 255 + 0.055) / 1.055) ** 2.4);
  const light = ([r, g, b]) => 0.2126 * linear(r) + 0.7152 * linear(g) + 0.0722 * linear(b);
  const behind = (element) => {
    for (let it = element; it !== null; it = it.parentElement) {
      const [r, g, b, a = 1] = numbers(getComputedStyle(it).backgroundColor);
      if (a === 1) return [r, g, b];
    }
    return [255, 255, 255];
  };
  let worst = [99, ""];
  const walker = document.createTreeWalker(document.body, NodeFilter.SHOW_TEXT);
  for (let node = walker.nextNode(); node; node = walker.nextNode()) {
    const element = node.parentElement;
    const isUnseen = !element.checkVisibility() || element.closest("[hidden], :disabled, noscript, script");
    if (node.data.trim() === "" || isUnseen) continue;
    const lights = [light(numbers(getComputedStyle(element).color)), light(behind(element))];
    const [one, two] = lights.sort((a, b) => b - a);
    const ratio = (one + 0.05) / (two + 0.05);
    if (ratio < worst[0]) worst = [ratio, element.className + ": " + node.data.slice(0, 40)];
  }
  return worst;
})()`;
