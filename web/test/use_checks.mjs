// What is checked of how the page is used: where the focus goes, what closes, and what fits on a phone.

import assert from "node:assert/strict";
import { createHash, X509Certificate } from "node:crypto";
import { withPage } from "./browser_checks.mjs";
import { SAMPLES, sample } from "./data.mjs";
import { furtherExtensions } from "./further.mjs";
import { keyCertificate } from "./hostile.mjs";
import { RESULT, SAVED, click, count, text, texts } from "./in_page.mjs";

const PHONES = [
  { width: 360, height: 640 },
  { width: 390, height: 844 },
  { width: 430, height: 932 },
];
const DESKTOP = { width: 1280, height: 900 };

const FOCUSED = "document.activeElement.id";
const isShown = (id) => `document.getElementById("${id}").checkVisibility()`;
const box = (selector) => `document.querySelector(${JSON.stringify(selector)}).getBoundingClientRect().toJSON()`;
const value = (id, content) => `document.getElementById("${id}").value = ${JSON.stringify(content)}`;
const pem = (name) => new TextDecoder().decode(sample(name));

// What stands in the form is read, from wherever the page was scrolled to.
async function submit(page, content) {
  if (!(await page.run(isShown("paste")))) await page.run(click("#paste-open"));
  await page.run(value("pasted", content));
  await page.run(`document.getElementById("result").dataset.result = ""`);
  await page.run(click("#paste [type=submit]"));
}

// The heading of the result has the focus, and is in the window's upper part, with what is above it if that is a list.
async function assertAtResult(page, { height }) {
  assert.equal(await page.run(FOCUSED), "result-title");
  const { top, bottom } = await page.run(box("#result-title"));
  assert.ok(top >= 0 && bottom <= height, `the heading is at ${top}..${bottom} of ${height}`);
}

async function formCloses(context) {
  for (const size of [DESKTOP, ...PHONES]) {
    await withPage(context, size, async (page) => {
      const open = `document.getElementById("paste-open").getAttribute("aria-expanded")`;
      assert.equal(await page.run(open), "false");
      await page.run(click("#paste-open"));
      assert.equal(await page.run(open), "true");
      assert.equal(await page.run(FOCUSED), "pasted");
      await submit(page, "  \n");
      assert.equal(await page.run(FOCUSED), "pasted", "there was nothing to read");
      for (const content of [pem("certificate_ec.pem"), pem("refused_month_13.pem"), "no structure", pem("certificate_rsa.pem").repeat(40)]) {
        await page.run("scrollTo(0, document.documentElement.scrollHeight)");
        await submit(page, content);
        await page.until(`${RESULT} !== ""`);
        assert.equal(await page.run(isShown("paste")), false);
        assert.equal(await page.run(open), "false");
        assert.equal(await page.run(`document.getElementById("pasted").value`), "");
        await assertAtResult(page, size);
      }
      await page.run(click("#paste-open"));
      assert.equal(await page.run(isShown("pasted")), true);
      await page.press("Escape");
      assert.equal(await page.run(isShown("paste")), false);
      assert.equal(await page.run(FOCUSED), "paste-open");
    });
  }
}

async function goesToResult(context) {
  for (const size of [DESKTOP, ...PHONES]) {
    await withPage(context, size, async (page) => {
      await page.drop("certificate_rsa.pem", sample("certificate_rsa.pem"));
      await page.run("scrollTo(0, document.documentElement.scrollHeight)");
      await page.drop("certificate_ec.pem", sample("certificate_ec.pem"));
      await assertAtResult(page, size);
    });
  }
}

// The Tab key from the heading on: each element that is reached, by its id or its class.
async function order(page, steps) {
  const reached = [];
  for (let step = 0; step < steps; step += 1) {
    await page.send("Input.dispatchKeyEvent", { type: "keyDown", key: "Tab", code: "Tab", windowsVirtualKeyCode: 9 });
    await page.send("Input.dispatchKeyEvent", { type: "keyUp", key: "Tab", code: "Tab", windowsVirtualKeyCode: 9 });
    reached.push(await page.run(`document.activeElement.id || document.activeElement.className`));
  }
  return reached;
}

async function focusOrder(context) {
  await withPage(context, PHONES[0], async (page) => {
    await page.drop("refused_month_13.pem", sample("refused_month_13.pem"));
    const reached = await order(page, 8);
    // (what is refused has no DER encoding to be saved)
    assert.deepEqual(reached, ["save-report", "copy-link", "kind", "open-all", "fold-all", "tree", "sheet-toggle", "bytes"]);
  });
  await withPage(context, DESKTOP, async (page) => {
    assert.deepEqual(await order(page, 5), ["name", "choose", "paste-open", "request-open", "sample"]);
  });
}

async function sheet(context) {
  for (const size of PHONES) {
    await withPage(context, size, async (page) => {
      for (const name of ["certificate_deviations.pem", "refused_month_13.pem", "certificate_rsa.pem"]) {
        await page.drop(name, sample(name));
        await page.run(`document.getElementById("panes").scrollIntoView()`);
        const open = await page.run(box(".pane.raw"));
        assert.ok(open.height <= size.height / 3 + 0.5, `${name}: the sheet takes ${open.height} of ${size.height}`);
        assert.ok(Math.abs(open.bottom - size.height) < 1, `${name}: it ends at ${open.bottom}`);
        assert.ok((await page.run(box("#bytes"))).height >= 70, `${name}: bytes are to be seen`);
        await page.run(click("#sheet-toggle"));
        assert.equal(await page.run(isShown("bytes")), false);
        assert.ok((await page.run(box(".pane.raw"))).height <= 48);
        // (rows are built once they have come into view)
        await page.until(`document.querySelectorAll("#tree .field").length > 5`);
        await page.run(`document.querySelectorAll("#tree .field")[5].click()`);
        assert.equal(await page.run(isShown("bytes")), false, "it stays closed");
        await page.run(click("#sheet-toggle"));
        const [bytes, cursor] = [await page.run(box("#bytes")), await page.run(box(".cells .cursor"))];
        assert.ok(cursor.top >= bytes.top && cursor.bottom <= bytes.bottom + 1, `${name}: the byte is in view again`);
      }
    });
  }
  return withPage(context, DESKTOP, async (page) => {
    await page.drop("certificate_rsa.pem", sample("certificate_rsa.pem"));
    assert.equal(await page.run(isShown("sheet-toggle")), false);
  });
}

// A closed sheet hides nothing where there are no fields beside the bytes.
async function bytesOnly(context) {
  return withPage(context, PHONES[0], async (page) => {
    await page.drop("certificate_rsa.pem", sample("certificate_rsa.pem"));
    await page.run(click("#sheet-toggle"));
    const damaged = sample("private_key_ed25519.pem").map((it, at) => (at === 35 ? 65 : it));
    await page.drop("damaged.pem", damaged);
    assert.equal(await page.run(isShown("bytes")), true);
    assert.equal(await page.run(isShown("sheet-toggle")), false);
    assert.ok((await page.run(count(".cells .byte"))) >= 48);
  });
}

const BROKEN = `Array.from(document.querySelectorAll("#result time"))
  .filter((it) => it.getClientRects().length !== 1).map((it) => it.textContent)`;

async function timesDontBreak(context) {
  let total = 0;
  for (const width of [320, 335, 360, 375, 390, 412, 430]) {
    await withPage(context, { width, height: 3000 }, async (page) => {
      for (const name of ["certificate_deviations.pem", "certificate_rsa.pem"]) {
        await page.drop(name, sample(name));
        await page.run(click('#tree [data-index="1"]'));
        const labels = await page.run(texts("#tree .label"));
        await page.run(click(`#tree [data-index="${labels.indexOf("validity")}"]`));
        assert.deepEqual(await page.run(BROKEN), [], `${name} at ${width}`);
        // (the period of validity stands above, and in the detail of its field)
        assert.equal(await page.run(count("#summary time")), 2);
        assert.equal(await page.run(count("#detail time")), 2);
        assert.ok((await page.run("document.documentElement.scrollWidth")) <= width, `${name} is wider than ${width}`);
        total += 4;
      }
    });
  }
  return `${total} times`;
}

async function saysWhatIsTaken(context) {
  return withPage(context, DESKTOP, async (page) => {
    const start = await page.run("document.getElementById('intake').innerText");
    for (const it of ["PEM", "DER", "hexadecimal", "base64", ".pem", ".crt", ".der", "drop or paste"]) assert.ok(start.includes(it), it);
    await page.run(click("#paste-open"));
    const form = await page.run("document.getElementById('paste').innerText");
    for (const it of ["PEM", "hexadecimal", "base64"]) assert.ok(form.includes(it), it);
    await page.drop("nothing.txt", new TextEncoder().encode("nothing"));
    assert.equal(await page.run(text("refusal-title")), "No PEM, DER, hexadecimal or base64 that can be read");
  });
}

// What is refused has its identifiers by the names that it would have if it were read.
async function refusedIdentifiers(context) {
  return withPage(context, { ...DESKTOP, height: 12_000 }, async (page) => {
    for (const name of SAMPLES.filter((it) => it.startsWith("refused_month"))) {
      await page.drop(name, sample(name));
      assert.deepEqual(await page.run(texts(".told.identifier")), ["id-Ed25519", "id-Ed25519", "id-Ed25519"]);
      await page.run(click(".told.identifier"));
      assert.equal(await page.run(texts(".whole")).then(String), "id-Ed25519 (1.3.101.112)");
    }
  });
}

// The text of the row of the summary with a label, once it is there.
const row = (label) => `Array.from(document.querySelectorAll("#summary dt"))
  .find((it) => it.textContent === ${JSON.stringify(label)})?.nextElementSibling.textContent`;

// Fingerprints and pins, as Node takes them, also where several structures are shown one behind the other.
async function digests(context) {
  return withPage(context, DESKTOP, async (page) => {
    for (const name of ["certificate_rsa.pem", "certificate_ec.pem", "certificate_pss.pem"]) {
      const { raw, publicKey } = new X509Certificate(sample(name));
      await page.drop(name, sample(name));
      await page.until(`(${row("SHA-256")})?.length === 64`);
      const digest = (algorithm, bytes, form) => createHash(algorithm).update(bytes).digest(form);
      assert.equal(await page.run(row("SHA-256")), digest("sha256", raw, "hex"));
      assert.equal(await page.run(row("SHA-1")), digest("sha1", raw, "hex"));
      const key = publicKey.export({ type: "spki", format: "der" });
      assert.equal(await page.run(row("pin")), digest("sha256", key, "base64"));
      assert.equal(await page.run(count("#summary dt")), new Set(await page.run(texts("#summary dt"))).size);
    }
    await page.drop("refused_month_13.pem", sample("refused_month_13.pem"));
    assert.equal(await page.run(count("#summary dt")), 0);
    await page.drop("request_rsa.pem", sample("request_rsa.pem"));
    await page.until(`(${row("pin")})?.length === 44`);
    const pin = await page.run(row("pin"));
    await page.drop("private_key_rsa.pem", sample("private_key_rsa.pem"));
    await page.until(`(${row("pin")})?.length === 44`);
    assert.equal(await page.run(row("pin")), pin, "the key is that of the request");
  });
}

// What a page from an insecure address is like: it tells the digests that the report has, and no others.
async function withoutWebCrypto(context) {
  return withPage(context, DESKTOP, async (page) => {
    const source = `Object.defineProperty(Crypto.prototype, "subtle", { value: undefined });`;
    await page.send("Page.addScriptToEvaluateOnNewDocument", { source });
    await page.go(`${context.address}?`);
    await page.until("crypto.subtle === undefined");
    await page.drop("certificate_rsa.pem", sample("certificate_rsa.pem"));
    const labels = await page.run(texts("#summary dt"));
    const { sha256 } = JSON.parse(await page.run(SAVED));
    const isDigest = (it) => ["pin", "SHA-256", "SHA-1"].includes(it);
    assert.equal(labels.filter(isDigest).length, sha256 === undefined ? 0 : 3);
    for (const it of ["subject", "issuer", "valid", "key", "signed"]) assert.ok(labels.includes(it), it);
  });
}

// A certificate that is valid from one time to another, so many seconds from now.
function certificateOf(from, to) {
  const pem = Buffer.from(keyCertificate(Buffer.from("3000", "hex"), []));
  const at = pem.indexOf("191017174128Z");
  const utc = (seconds) => new Date(Date.now() + 1000 * seconds).toISOString().replace(/[-:T]|\.\d+/g, "").slice(2);
  pem.write(utc(from), at);
  pem.write(utc(to), at + 15);
  return pem;
}

const DAY = 86_400;

async function clock(context) {
  return withPage(context, DESKTOP, async (page) => {
    const cases = [
      [-2 * DAY, -DAY, "Expired"],
      [DAY, 2 * DAY, "Not yet valid"],
      [-DAY, DAY, ""],
    ];
    for (const [from, to, expected] of cases) {
      await page.drop("it.der", certificateOf(from, to));
      assert.equal(await page.run(isShown("standing")), expected !== "");
      if (expected !== "") assert.equal(await page.run(text("standing")), expected);
      assert.equal(await page.run(text("verdict")), "In DER");
    }
    await page.drop("it.der", certificateOf(-2 * DAY, -DAY));
    for (const name of ["request_rsa.pem", "private_key_ec.pem", "refused_month_13.pem"]) {
      await page.drop(name, sample(name));
      assert.equal(await page.run(isShown("standing")), false, name);
    }
  });
}

// Shows what a report tells of bytes, as if the module had told it.
const showReport = ({ bytes, report }) => `(async () => {
  const [cimaroly, { Entry }, { Result }] = await Promise.all(
    ["cimaroly", "page/entry", "page/result"].map((it) => import("./" + it + ".mjs")),
  );
  const told = { ...cimaroly, reportText: () => ${JSON.stringify(JSON.stringify(report))} };
  const bytes = Uint8Array.from(${JSON.stringify(Array.from(bytes))});
  // (elements to which the page's own view doesn't listen)
  const view = document.getElementById("result");
  view.replaceWith(view.cloneNode(true));
  document.getElementById("kind").replaceChildren();
  document.body.classList.add("has-result");
  new Result(told).show(new Entry(told, { file: "extensions.der", kind: "extensions", label: "EXTENSIONS", line: 1, bytes }));
})()`;

async function further(context) {
  for (const size of [{ ...DESKTOP, height: 1500 }, { ...PHONES[1], height: 2400 }]) {
    await withPage(context, size, async (page) => {
      await page.run(showReport(furtherExtensions()));
      await page.until(`document.querySelectorAll("#tree .field").length > 25`);
      const [line] = await page.run(`Array.from(document.querySelectorAll("#tree .field"))
        .filter((it) => it.querySelector(".label").textContent === "id-ad-ocsp").map((it) => it.querySelector(".value").textContent)`);
      assert.equal(line, 'uniformResourceIdentifier "ocsp:one"');
      const stamp = `Array.from(document.querySelectorAll("#tree .field"))
        .find((it) => it.querySelector(".label").textContent === "SignedCertificateTimestamp")`;
      await page.run(`${stamp}.click()`);
      assert.match(await page.run(text("detail")), /TLS structure · bytes \d+\.\.\d+/);
      assert.ok((await page.run("document.documentElement.scrollWidth")) <= size.width);
      await context.keep(page, `further-${size.width}`);
    });
  }
}

export const useChecks = [
  ["the form closes, and the result has the focus and is in view", formCloses],
  ["what is dropped is gone to", goesToResult],
  ["the Tab key goes from above to below", focusOrder],
  ["the sheet of bytes closes, and takes a third at most", sheet],
  ["bytes without fields are no sheet", bytesOnly],
  ["times don't break in two", timesDontBreak],
  ["the page says what it takes", saysWhatIsTaken],
  ["what is refused has names of identifiers", refusedIdentifiers],
  ["fingerprints and pins are told", digests],
  ["a page without WebCrypto tells the rest", withoutWebCrypto],
  ["what is expired or not yet valid is told", clock],
  ["further extensions are shown", further],
];
