// Elements of the page. Text goes in as text, never as markup.

/** A new element: its name, its attributes and listeners, and what stands in it. */
export function make(name, attributes = {}, ...inner) {
  const element = document.createElement(name);
  for (const [key, value] of Object.entries(attributes)) {
    if (key.startsWith("on")) element.addEventListener(key.slice(2), value);
    else if (value === true) element.setAttribute(key, "");
    else if (value !== false && value !== null && value !== undefined) element.setAttribute(key, value);
  }
  element.append(...inner.filter((it) => it !== null && it !== undefined));
  return element;
}

/** The element with an id. */
export function at(id) {
  return document.getElementById(id);
}

/** Brings what is shown into view, and the keyboard's focus to its heading. */
export function goToResult() {
  const heading = at("result-title");
  heading.focus({ preventScroll: true });
  const { top } = heading.getBoundingClientRect();
  const first = at("structures").hidden ? at("result") : at("structures");
  if (top < 0 || top > innerHeight / 3) first.scrollIntoView({ block: "start" });
}

const TIME = /(\d{4}-\d\d-\d\dT\d\d:\d\d:\d\dZ)/;

/** A text whose times stand in elements that don't break. */
export function withTimes(text) {
  return text.split(TIME).map((it, index) => (index % 2 === 1 ? make("time", { datetime: it }, it) : it));
}

/** Hands bytes or text to the browser as a file to be saved. */
export function save(name, type, content) {
  const url = URL.createObjectURL(new Blob([content], { type }));
  const link = make("a", { href: url, download: name });
  document.body.append(link);
  link.click();
  link.remove();
  setTimeout(() => URL.revokeObjectURL(url), 10_000);
}
