// The page: takes files, text and links, and shows each structure in them, or makes one.

import { at, goToResult, make } from "./page/dom.mjs";
import { Entry } from "./page/entry.mjs";
import { fromFragment, structuresIn } from "./page/input.mjs";
import { List } from "./page/list.mjs";
import { PasteForm } from "./page/paste.mjs";
import { RequestForm } from "./page/request.mjs";
import { Result } from "./page/result.mjs";
import { SAMPLES } from "./page/samples.mjs";
import { shown } from "./page/text.mjs";

function tell(text) {
  const message = at("message");
  message.textContent = text;
  message.hidden = text === "";
}

const loaded = import("./cimaroly.mjs");
listSamples();
const cimaroly = await loaded.catch((error) => {
  tell(`The certificate reader couldn’t be loaded: ${error.message}`);
  throw error;
});
const result = new Result(cimaroly, takeEdited);
const list = new List((structure) => result.show(structure));
// The requests whose private keys are in the page alone: they stay in the list.
const withKeys = [];

/** Shows the structures of some inputs, each its bytes and its name, and goes to what is shown. */
function take(inputs) {
  const structures = inputs.flatMap(({ name, bytes }) =>
    structuresIn(bytes).map((it) => new Entry(cimaroly, { ...it, file: name })),
  );
  tell("");
  show(structures);
  goToResult();
}

function show(structures) {
  document.body.classList.add("has-result");
  list.show([...structures, ...withKeys]);
}

/** Shows what was made besides what is there, and goes to it. */
function add(made) {
  const structure = new Entry(cimaroly, made);
  if (structure.privateKey !== null) keep(structure);
  tell("");
  forgetLink();
  document.body.classList.add("has-result");
  list.add(structure);
  goToResult();
}

// Keeps a request with its private key, and has the browser ask before that is lost.
function keep(structure) {
  withKeys.push(structure);
  addEventListener("beforeunload", askFirst);
}

function askFirst(event) {
  if (withKeys.some((it) => !it.isKeySaved)) event.preventDefault();
}

function takeRequest({ bytes, privateKey }) {
  const remark =
    privateKey === null
      ? "The private key wasn’t kept, as you didn’t ask to save it."
      : "The private key is only in this page’s memory: save it before you close the page.";
  add({ file: "made in this browser", kind: "request", bytes, privateKey, remark });
}

function takeEdited({ bytes, kind }, { file }) {
  const isSigned = kind === "certificate" || kind === "request";
  const remark = isSigned ? "The signature was left as it stood: it no longer fits what was changed." : "";
  add({ file, kind, bytes, isEdited: true, remark });
}

async function takeFiles(files) {
  const inputs = [];
  const missing = [];
  for (const it of files) {
    try {
      inputs.push({ name: it.name, bytes: new Uint8Array(await it.arrayBuffer()) });
    } catch {
      missing.push(shown(it.name));
    }
  }
  forgetLink();
  if (inputs.length > 0) take(inputs);
  if (missing.length > 0) tell(`Couldn’t read ${missing.join(", ")}: is it a folder?`);
}

function takeText(text) {
  forgetLink();
  take([{ name: "pasted", bytes: new TextEncoder().encode(text) }]);
}

// What stands behind `#` is no longer what is shown.
function forgetLink() {
  if (location.hash !== "") history.replaceState(null, "", location.pathname + location.search);
}

function takeLink() {
  if (location.hash === "") return;
  const found = fromFragment(location.hash);
  if (found === null) {
    tell("This link contains nothing that can be read. Links never contain private keys.");
    return;
  }
  show([new Entry(cimaroly, { ...found, file: "from the link" })]);
}

async function takeSample(name) {
  const answer = await fetch(`samples/${name}`).catch(() => null);
  if (!answer?.ok) {
    tell("The sample couldn’t be loaded.");
    return;
  }
  forgetLink();
  take([{ name, bytes: new Uint8Array(await answer.arrayBuffer()) }]);
}

function listenToFiles() {
  at("choose").addEventListener("click", () => at("files").click());
  at("files").addEventListener("change", (event) => {
    takeFiles([...event.target.files]);
    event.target.value = "";
  });
  let depth = 0;
  const over = (change) => {
    depth = Math.max(0, depth + change);
    at("drop").hidden = depth === 0;
  };
  addEventListener("dragenter", (event) => {
    event.preventDefault();
    over(1);
  });
  addEventListener("dragleave", () => over(-1));
  addEventListener("dragover", (event) => event.preventDefault());
  addEventListener("drop", (event) => {
    event.preventDefault();
    depth = 0;
    over(0);
    const { files } = event.dataTransfer;
    if (files.length > 0) takeFiles([...files]);
    else takeAnyText(event.dataTransfer.getData("text"));
  });
}

function takeAnyText(text) {
  if (text.trim() !== "") takeText(text);
}

function listenToForms() {
  const forms = [];
  new PasteForm(takeText, forms);
  new RequestForm(cimaroly, takeRequest, forms);
}

function listenToText() {
  addEventListener("paste", (event) => {
    if (event.target.closest?.("textarea, input")) return;
    const { files } = event.clipboardData;
    if (files.length > 0) takeFiles([...files]);
    else takeAnyText(event.clipboardData.getData("text"));
  });
}

function listSamples() {
  for (const [file, text] of SAMPLES) {
    const button = make("button", { type: "button", class: "sample", onclick: () => takeSample(file) }, text);
    at("samples").append(make("li", {}, button));
  }
}

listenToFiles();
listenToText();
listenToForms();
at("module").textContent = cimaroly.isLowered
  ? "This browser has no 64-bit WebAssembly memory, so a 32-bit translation of the library is used, which the proofs don’t cover."
  : "";
addEventListener("hashchange", takeLink);
takeLink();
document.documentElement.dataset.ready = "true";
