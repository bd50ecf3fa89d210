// What is checked of the page in a browser, each by its name.

import assert from "node:assert/strict";
import { DATA, PROGRAM, SAMPLES, run, sample } from "./data.mjs";
import { BROKEN, FAULTY } from "./faulty.mjs";
import { LARGE, MARKUP, NESTED } from "./hostile.mjs";
import * as inPage from "./in_page.mjs";
import { ACTIVE, LIT, RESULT, ROWS, SAVED, click, count, text, texts } from "./in_page.mjs";
import { linesOf } from "./shown.mjs";

const TALL = { width: 1280, height: 12_000 };

// What a terminal obeys or a reader can't see, and what turns the direction of text.
const UNSEEN =
  /[\u0000-\u0008\u000b-\u001f\u007f-\u009f\u00ad\u061c\u200b-\u200f\u2028-\u202e\u2060-\u206f\ufeff]/;

function clean(page, address) {
  assert.deepEqual(page.said, [], "the page said something on its console");
  const isItsOwn = (url) => [address, "data:", "blob:"].some((it) => url.startsWith(it));
  for (const it of page.requested) assert.ok(isItsOwn(it), `it asked for ${it}`);
}

/** A new page of a size, with which work is done; it must say nothing and ask for nothing from elsewhere. */
export async function withPage({ browser, address }, size, work) {
  const page = await browser.open(address, size);
  try {
    const answer = await work(page);
    clean(page, address);
    return answer;
  } finally {
    await page.close();
  }
}

// A covered number stands in the program's lines as one that isn't shown.
function covered(line) {
  return { ...line, value: line.value.replace(/^(\d+) bytes(, not shown| hidden, click to show)$/, "$1 bytes hidden") };
}

async function sameAsProgram(page, name) {
  const kind = await page.run(`document.getElementById("kind").value`);
  // (a revocation list is one by its label)
  const words = [...(kind === "crl" ? [] : ["--type", kind]), `${DATA}/${name}`];
  // (only programs tell the outline of what they refuse)
  const { file, line, label, outline, ...told } = JSON.parse(run("show", "--json", ...words));
  assert.deepEqual(JSON.parse(await page.run(SAVED)), told, name);
  if (told.result === "refused") return;
  const lines = linesOf(run("show", ...(kind === "crl" ? ["--full"] : []), ...words)).map(covered);
  // (the program puts on one line what the page also folds into one)
  const rows = (await page.run(ROWS)).map(covered);
  assert.deepEqual(rows, lines, name);
}

async function everySample(context) {
  return withPage(context, TALL, async (page) => {
    for (const name of SAMPLES) {
      await page.drop(name, sample(name));
      const result = await page.run(RESULT);
      const isShown = result === "ok" || result === "deviations";
      if (isShown) assert.ok((await page.run(ROWS)).length > 0, name);
      if (name.startsWith("deviation_")) assert.equal(result, "deviations", name);
      if (name.startsWith("refused_")) assert.equal(result, "refused", name);
      if (PROGRAM !== null && !name.includes("encrypted")) await sameAsProgram(page, name);
    }
    return PROGRAM === null ? "not compared with the program, which isn't there" : "the same as the program shows";
  });
}

async function lightFields(context) {
  return withPage(context, TALL, async (page) => {
    let total = 0;
    for (const it of ["certificate_rsa", "certificate_deviations", "certificate_pss", "request_rsa", "private_key_rsa"]) {
      const name = `${it}.pem`;
      await page.drop(name, sample(name));
      for (const { place, lit, selected } of await page.run(inPage.SELECT_ALL)) {
        const [start, end] = place.split("..").map(Number);
        assert.deepEqual(lit, [start, end, end - start], `${name} ${place}`);
        assert.equal(selected, 1);
        total += 1;
      }
    }
    return `${total} fields`;
  });
}

async function pickBytes(context) {
  return withPage(context, TALL, async (page) => {
    await page.drop("certificate_rsa.pem", sample("certificate_rsa.pem"));
    await page.run(click("#open-all"));
    const rows = await page.run(ROWS);
    for (let byte = 0; byte < 1560; byte += 23) {
      const over = rows.filter((it) => it.start <= byte && byte < it.end).pop();
      await page.run(click(`[data-byte="${byte}"]`));
      const selected = await page.run(`document.querySelector('#tree [aria-selected="true"] .place').textContent`);
      assert.equal(selected, `${over.start}..${over.end}`, `byte ${byte}`);
    }
  });
}

async function goToDeviations(context) {
  return withPage(context, TALL, async (page) => {
    for (const name of SAMPLES.filter((it) => it.includes("deviation"))) {
      await page.drop(name, sample(name));
      const told = JSON.parse(await page.run(SAVED)).deviations;
      const places = await page.run(texts(".deviation .place"));
      assert.deepEqual(places.sort(), told.map((it) => it.at.join("..")).sort(), name);
      for (let index = 0; index < places.length; index += 1) {
        const [place, marked, label] = await page.run(inPage.goTo(index));
        const { field } = told.find((it) => it.at.join("..") === place);
        if (field !== "") assert.ok(field.endsWith(label), `${name}: ${label} is selected for ${field}`);
        assert.equal(marked, place, name);
      }
    }
  });
}

async function goToFindings(context) {
  const labels = ["issuer", "issuerUniqueID", "subjectUniqueID", ...Array(BROKEN.length - 3).fill("extensions")];
  return withPage(context, TALL, async (page) => {
    await page.drop("faulty.der", FAULTY);
    const places = BROKEN.map(([, start, end]) => `${start}..${end}`);
    assert.deepEqual(await page.run(texts(".finding .place")), places);
    for (const [index, place] of places.entries()) {
      const gone = await page.run(inPage.goTo(index, "finding"));
      assert.deepEqual(gone, [place, place, labels[index]]);
    }
    assert.equal(await page.run(text("findings-title")), "Findings: 6 errors and 1 warning");
    const [title] = await page.run(texts("#finding-list h4"));
    assert.equal(title, "Issuer is empty");
    const [severity, reason] = await page.run(texts("#finding-list p"));
    assert.equal(severity, "Error RFC 5280, 4.1.2.4");
    assert.equal(reason, "The issuer’s own certificate is looked for by this name.");
    const { nodes } = await page.send("Accessibility.getFullAXTree");
    const names = nodes.filter((it) => it.role?.value === "button" && !it.ignored).map((it) => it.name?.value);
    assert.ok(names.includes("issuer is empty: bytes 19 to 21, tbsCertificate › issuer"), names.join("; "));
    await page.drop("request_rsa.pem", sample("request_rsa.pem"));
    assert.deepEqual(await page.run(texts(".finding .place")), ["148..310", "310..374"]);
    for (const name of ["certificate_rsa.pem", "request_ec.pem", "private_key_ec.pem", "refused_month_13.pem"]) {
      await page.drop(name, sample(name));
      assert.equal(await page.run(`document.getElementById("findings").checkVisibility()`), false, name);
      assert.equal(await page.run(count(".finding")), 0, name);
    }
  });
}

async function refusal(context) {
  return withPage(context, TALL, async (page) => {
    await page.drop("refused_month_13.pem", sample("refused_month_13.pem"));
    const told = JSON.parse(await page.run(SAVED));
    assert.equal(await page.run(`Number(document.querySelector(".cells .stopped").dataset.byte)`), told.at);
    assert.equal(await page.run(count(".cells .was-read")), told.at);
    assert.match(await page.run(text("refusal-text")), /byte 26 of 174, in tbsCertificate › validity › notBefore/);
    assert.equal(await page.run(text("refusal-title")), "Malformed time");
    assert.equal(await page.run(`document.getElementById("save-der").disabled`), true);
  });
}

async function secrets(context) {
  return withPage(context, TALL, async (page) => {
    for (const it of ["private_key_rsa", "private_key_ec", "private_key_ed25519", "rsa_private_key", "ec_private_key"]) {
      const name = `${it}.pem`;
      await page.drop(name, sample(name));
      const covers = await page.run(count(".cover"));
      assert.equal(covers, name.includes("rsa") ? 6 : 1, name);
      assert.equal(await page.run(`document.getElementById("copy-link").disabled`), true);
      const before = await page.run(count(".cells .covered"));
      assert.ok(before >= 32, name);
      await page.run(click(".cover"));
      assert.equal(await page.run(count(".cover")), covers - 1);
      const after = await page.run(count(".cells .covered"));
      assert.ok(after <= before - 32, name);
    }
    const [line] = await page.run(texts(".told.octets"));
    assert.match(line, /^(\d+ bytes, )?[0-9a-f]{2}:/);
    // what is damaged stays covered too
    const damaged = sample("private_key_ed25519.pem").map((it, at) => (at === 35 ? 65 : it));
    await page.drop("damaged.pem", damaged);
    const shown = await page.run(count(".cells .byte:not(.covered)"));
    assert.ok(shown <= 4, `${shown} bytes of a damaged key are shown`);
  });
}

async function keyboard(context) {
  return withPage(context, { width: 1280, height: 900 }, async (page) => {
    await page.drop("certificate_ed25519.pem", sample("certificate_ed25519.pem"));
    await page.run(`document.getElementById("tree").focus()`);
    const steps = [
      ["ArrowDown", "tbsCertificate"],
      ["ArrowDown", "version"],
      ["ArrowLeft", "tbsCertificate"],
      ["ArrowLeft", "tbsCertificate"],
      ["ArrowDown", "signatureAlgorithm"],
      ["ArrowRight", "signatureAlgorithm"],
      ["ArrowRight", "algorithm"],
      ["End", "signatureValue"],
      ["Home", "Certificate"],
      ["ArrowRight", "tbsCertificate"],
      ["ArrowRight", "tbsCertificate"],
      ["s", "serialNumber"],
    ];
    for (const [key, label] of steps) {
      await page.press(key);
      assert.equal(await page.run(ACTIVE), label, key);
    }
    assert.deepEqual(await page.run(LIT), [13, 16, 3]);
    await page.run(`document.getElementById("bytes").focus()`);
    for (const key of ["ArrowRight", "ArrowRight", "ArrowRight"]) await page.press(key);
    assert.equal(await page.run(ACTIVE), "signature");
  });
}

async function assistive(context) {
  return withPage(context, TALL, async (page) => {
    await page.drop("certificate_deviations.pem", sample("certificate_deviations.pem"));
    const { nodes } = await page.send("Accessibility.getFullAXTree");
    const named = (role) => nodes.filter((it) => it.role?.value === role && !it.ignored);
    for (const role of ["button", "link", "combobox", "tree", "treeitem", "heading"]) {
      for (const it of named(role)) assert.ok(it.name?.value, `a ${role} has no name`);
    }
    assert.ok(named("treeitem").length > 20);
    assert.equal(named("tree").length, 1);
    const levelOf = ({ properties }) => properties.find((it) => it.name === "level")?.value.value;
    assert.ok(named("treeitem").every((it) => levelOf(it) >= 1));
  });
}

async function links(context) {
  await withPage(context, TALL, async (page) => {
    await page.drop("certificate_deviations.pem", sample("certificate_deviations.pem"));
    const before = JSON.parse(await page.run(SAVED));
    await page.run(click("#copy-link"));
    await page.until(`location.hash.startsWith("#certificate=")`);
    const link = await page.run("location.href");
    const other = await context.browser.open(link, TALL);
    await other.until(`document.getElementById("result").dataset.result === "deviations"`);
    assert.deepEqual(JSON.parse(await other.run(SAVED)), before);
    await other.close();
    await page.drop("private_key_rsa.pem", sample("private_key_rsa.pem"));
    assert.equal(await page.run("location.hash"), "");
  });
  const page = await context.browser.open(`${context.address}#private-key=MAA`, TALL);
  assert.match(await page.run(text("message")), /never contain private keys/);
  await page.close();
}

async function derEncoding(context) {
  return withPage(context, TALL, async (page) => {
    await page.drop("deviation_1_rsa_parameters.pem", sample("deviation_1_rsa_parameters.pem"));
    const digits = await page.run(inPage.SAVED_DER);
    assert.equal(digits.split("300d06092a864886f70d01010b0500").length, 3);
    assert.equal(digits.length, 2 * 190);
  });
}

async function several(context) {
  return withPage(context, TALL, async (page) => {
    const names = ["certificate_rsa", "rsa_private_key_encrypted", "deviation_5_version", "refused_month_13"];
    const all = Buffer.concat(names.map((it) => Buffer.from(sample(`${it}.pem`))));
    await page.drop("several.pem", all);
    const results = `Array.from(document.querySelectorAll(".structure"), (it) => it.className.split(" ")[1])`;
    assert.deepEqual(await page.run(results), ["ok", "refused", "deviations", "refused"]);
    await page.run(`document.querySelectorAll(".structure")[2].click()`);
    assert.equal(await page.run(text("verdict")), "Not in DER: 1 deviation");
    const current = `document.querySelectorAll(".structure")[2].getAttribute("aria-current")`;
    assert.equal(await page.run(current), "true");
    assert.equal(await page.run(count(".structure[aria-current]")), 1);
    await page.run(`document.querySelectorAll(".structure")[1].click()`);
    assert.match(await page.run(text("refusal-title")), /has headers, as encrypted keys do/);
  });
}

async function pasted(context) {
  return withPage(context, TALL, async (page) => {
    for (const name of ["name.hex", "certificate_ec.pem"]) {
      await page.run(inPage.paste(new TextDecoder().decode(sample(name))));
      assert.equal(await page.run(RESULT), "ok");
    }
    for (let index = 0; index < 6; index += 1) {
      await page.run(inPage.showSample(index));
      await page.until(`${RESULT} !== ""`);
    }
  });
}

async function hostile(context) {
  return withPage(context, { width: 1280, height: 900 }, async (page) => {
    await page.drop("markup.pem", MARKUP);
    assert.equal(await page.run(count("main img, main script, main iframe, main svg, main a[href]")), 0);
    assert.match(await page.run(text("tree")), /<img src=x onerror=/);
    for (const name of ["hostile_names.pem", "hostile_others.pem"]) {
      await page.drop(`\u202e<b>${name}`, sample(name));
      assert.doesNotMatch(await page.run("document.body.innerText"), UNSEEN, name);
    }
    const started = Date.now();
    for (const [name, bytes] of NESTED) {
      await page.drop(name, bytes);
      assert.equal(await page.run("1 + 1"), 2, name);
      assert.ok((await page.run(count("*"))) < 20_000, name);
    }
    await page.drop("certificate_rsa.pem", sample("certificate_rsa.pem"));
    assert.equal(await page.run(text("verdict")), "In DER");
    return `${NESTED.length} inputs of 1 MB in ${((Date.now() - started) / 1000).toFixed(1)} s`;
  });
}

// The middle of nine times of reading and of drawing.
async function middleTimes(page, name, bytes) {
  const all = [];
  for (let round = 0; round < 9; round += 1) {
    await page.drop(name, bytes);
    all.push(await page.run(inPage.TIMES));
  }
  return [0, 1].map((which) => all.map((it) => it[which]).sort((a, b) => a - b)[4]);
}

async function times(context) {
  return withPage(context, { width: 1280, height: 900 }, async (page) => {
    const told = [];
    const inputs = [
      ["certificate_rsa.pem", sample("certificate_rsa.pem")],
      ["of 100 KB", LARGE],
    ];
    for (const [name, bytes] of inputs) {
      const [read, drawn] = await middleTimes(page, name, bytes);
      assert.ok(read <= drawn, `${name}: reading took ${read} ms, drawing ${drawn} ms`);
      assert.ok((await page.run(count("*"))) < 5000);
      told.push(`${name}: read in ${read.toFixed(2)} ms, drawn in ${drawn.toFixed(1)} ms`);
    }
    return told.join("; ");
  });
}

const LOOKED_AT = ["certificate_deviations", "certificate_rsa", "refused_month_13", "private_key_rsa", "hostile_names"];

/** Keeps a screenshot, and sees that all fits and can be read. */
export async function look({ keep }, page, what, { width, scheme }) {
  await keep(page, `${what}-${width}-${scheme}`);
  assert.ok((await page.run("document.documentElement.scrollWidth")) <= width, `${what} is wider than ${width}`);
  const [ratio, whose] = await page.run(inPage.CONTRAST);
  assert.ok(ratio >= 4.5, `${what}, ${scheme}: contrast ${ratio.toFixed(2)} of ${whose}`);
  return ratio;
}

async function lookAtAll(context, size) {
  return withPage(context, size, async (page) => {
    const ratios = [await look(context, page, "start", size)];
    await page.run(click("#paste-open"));
    ratios.push(await look(context, page, "form", size));
    await page.run(click("#paste-open"));
    await page.drop("faulty.der", FAULTY);
    ratios.push(await look(context, page, "findings", size));
    for (const it of LOOKED_AT) {
      await page.drop(`${it}.pem`, sample(`${it}.pem`));
      await page.run("scrollTo(0, 0)");
      ratios.push(await look(context, page, it, size));
      if (it === "certificate_deviations") await page.run(inPage.goTo(2));
      else await page.run(`document.getElementById("panes").scrollIntoView()`);
      await new Promise((resolve) => setTimeout(resolve, 150));
      ratios.push(await look(context, page, `${it}-2`, size));
    }
    return Math.min(...ratios);
  });
}

/** The windows in which all is looked at. */
export const WINDOWS = [
  { width: 1280, height: 900 },
  { width: 360, height: 740 },
  { width: 430, height: 932 },
].flatMap((size) => ["light", "dark"].map((scheme) => ({ ...size, scheme })));

async function looks(context) {
  const ratios = [];
  for (const size of WINDOWS) ratios.push(await lookAtAll(context, size));
  return `the least contrast is ${Math.min(...ratios).toFixed(2)}`;
}

async function wholeScreenshot(context) {
  return withPage(context, { width: 1180, height: 1400 }, async (page) => {
    await page.drop("certificate_deviations.pem", sample("certificate_deviations.pem"));
    await page.run(`document.querySelectorAll(".deviation")[0].click(); document.activeElement.blur(); scrollTo(0, 0)`);
    await new Promise((resolve) => setTimeout(resolve, 200));
    await context.keep(page, "page");
  });
}

async function bothModules(context) {
  return withPage(context, TALL, async (page) => {
    for (const name of ["cimaroly.wasm", "cimaroly32.wasm"]) {
      const isValid = `fetch("${name}").then(async (it) => WebAssembly.validate(await it.arrayBuffer()))`;
      assert.equal(await page.run(isValid), true, name);
    }
    const isLowered = await page.run(`import("./cimaroly.mjs").then((it) => it.isLowered)`);
    return isLowered ? "it takes the lowered one" : "it takes the one of 64 bits";
  });
}

export const checks = [
  ["every sample is shown", everySample],
  ["a selected field lights up its bytes", lightFields],
  ["a byte that is clicked selects its innermost field", pickBytes],
  ["a deviation goes to its bytes", goToDeviations],
  ["a finding goes to the bytes of its field", goToFindings],
  ["a refusal stands where reading stopped", refusal],
  ["secrets stay covered until they are clicked", secrets],
  ["keys move in the tree and in the bytes", keyboard],
  ["assistive software finds names and levels", assistive],
  ["a link holds the structure, and never a private key", links],
  ["the DER encoding is saved", derEncoding],
  ["several structures are listed", several],
  ["text is pasted, and samples are shown", pasted],
  ["hostile inputs do no harm", hostile],
  ["reading takes no longer than drawing", times],
  ["both modules are such as the browser takes", bothModules],
  ["all fits at 1280, 430 and 360 pixels, and contrasts in light and dark", looks],
  ["a screenshot for README", wholeScreenshot],
];
