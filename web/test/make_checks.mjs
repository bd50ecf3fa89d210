// What is checked of what the page makes: requests with keys of WebCrypto, and structures that were edited as JSON.

import assert from "node:assert/strict";
import { createPrivateKey, createPublicKey, verify } from "node:crypto";
import { read } from "../cimaroly.mjs";
import { WINDOWS, look, withPage } from "./browser_checks.mjs";
import { sample } from "./data.mjs";
import { RESULT, SAVED_DER, SAVED_KEY, SAVED_PEM, click, count, text, texts } from "./in_page.mjs";

const DESKTOP = { width: 1280, height: 900 };
const FOCUSED = "document.activeElement.id";
const FILLED = {
  name: "www.example.org",
  organization: "Example",
  country: "de",
  domains: "www.example.org\nexample.org, *.example.org",
  addresses: "192.0.2.7 2001:db8::1",
  emails: "webmaster@example.org",
};
const EMPTY = Object.fromEntries(Object.keys(FILLED).map((it) => [it, ""]));
const NAMES = ["www.example.org", "example.org", "*.example.org", "192.0.2.7", "2001:db8::1", "webmaster@example.org"];

const isShown = (id) => `document.getElementById("${id}").checkVisibility()`;
const isDisabled = (id) => `document.getElementById("${id}").disabled`;
const attribute = (id, name) => `document.getElementById("${id}").getAttribute("${name}")`;
const value = (id) => `document.getElementById("${id}").value`;
const fill = (id, content) => `${value(id)} = ${JSON.stringify(content)}`;

// What WebCrypto is asked for from now on: whether keys may be exported, and in which forms they are.
const WATCH = `(() => {
  window.asked = [];
  const { generateKey, exportKey } = SubtleCrypto.prototype;
  SubtleCrypto.prototype.generateKey = function (...given) {
    window.asked.push(given[1]);
    return generateKey.apply(this, given);
  };
  SubtleCrypto.prototype.exportKey = function (...given) {
    window.asked.push(given[0]);
    return exportKey.apply(this, given);
  };
})()`;

async function openForm(page) {
  if (!(await page.run(isShown("request")))) await page.run(click("#request-open"));
  await page.until(`${count("#request-key option")} > 0`);
}

async function fillForm(page, texts) {
  await openForm(page);
  for (const [field, content] of Object.entries(texts)) await page.run(fill(`request-${field}`, content));
}

async function makeRequest(page, keyType, isKept = false) {
  await fillForm(page, FILLED);
  await page.run(fill("request-key", keyType));
  await page.run(`document.getElementById("request-keep").checked = ${isKept}`);
  await page.run(`document.getElementById("result").dataset.result = ""`);
  await page.run(click("#request-make"));
  await page.until(`${RESULT} !== ""`);
}

// The public key of a request that was saved, once the signature is seen to be its own.
function verified(pem, keyType) {
  const request = read(pem, "request");
  assert.ok(request.isDer);
  const key = createPublicKey({ key: Buffer.from(request.publicKey.der), format: "der", type: "spki" });
  const digest = keyType === "Ed25519" ? null : keyType === "ECDSA P-384" ? "sha384" : "sha256";
  assert.ok(verify(digest, request.signedBytes, key, request.signature), `${keyType}: the signature`);
  assert.equal(request.subject.rfc4514(), "CN=www.example.org,O=Example,C=DE");
  assert.deepEqual(request.alternativeNames.map((it) => it.value), NAMES);
  return key;
}

async function requests(context) {
  return withPage(context, DESKTOP, async (page) => {
    await openForm(page);
    const keyTypes = await page.run(texts("#request-key option"));
    assert.deepEqual(keyTypes.slice(0, 3), ["ECDSA P-256", "ECDSA P-384", "RSA 2048"]);
    await page.run(WATCH);
    // (larger keys of RSA take long to be made)
    const tried = keyTypes.filter((it) => !/3072|4096/.test(it));
    for (const it of tried) {
      await makeRequest(page, it);
      assert.equal(await page.run(text("result-title")), "Certification request");
      assert.equal(await page.run(text("verdict")), "In DER");
      assert.equal(await page.run(isShown("request")), false);
      assert.equal(await page.run(attribute("request-open", "aria-expanded")), "false");
      assert.equal(await page.run(FOCUSED), "result-title");
      verified(await page.run(SAVED_PEM), it);
      assert.equal(await page.run(isShown("save-key")), false);
      assert.equal(await page.run(SAVED_KEY), null, "a key is saved that wasn't to be");
      assert.match(await page.run(text("note")), /private key wasn’t kept/);
    }
    assert.deepEqual(await page.run("asked"), tried.flatMap(() => [false, "spki"]));
    return tried.join(", ");
  });
}

// Whether the page can be left without being asked first.
const LEAVES = 'dispatchEvent(new Event("beforeunload", { cancelable: true }))';

async function keysAreSaved(context) {
  return withPage(context, DESKTOP, async (page) => {
    assert.equal(await page.run(LEAVES), true);
    for (const it of ["ECDSA P-256", "RSA 2048"]) {
      await makeRequest(page, it, true);
      const key = verified(await page.run(SAVED_PEM), it);
      // (it is there until the page is closed, whatever else is looked at)
      await page.drop("certificate_rsa.pem", sample("certificate_rsa.pem"));
      assert.equal(await page.run(text("result-title")), "Certificate");
      assert.equal(await page.run(isShown("save-key")), false);
      await page.run(`document.querySelector("#structure-list li:last-child button").click()`);
      assert.equal(await page.run(LEAVES), false);
      const secret = createPrivateKey(await page.run(SAVED_KEY));
      assert.equal(await page.run(LEAVES), true);
      assert.ok(createPublicKey(secret).equals(key), `${it}: the private key`);
      assert.match(await page.run(text("note")), /saved unencrypted/);
    }
    // an edited request is another structure, without a key
    await page.run(click("#edit-open"));
    await page.run(click("#editing [type=submit]"));
    assert.equal(await page.run(text("result-title")), "Certification request, edited");
    assert.equal(await page.run(isShown("save-key")), false);
  });
}

async function requestErrors(context) {
  const cases = [
    [EMPTY, "name", /^Enter a common name, or at least one domain name/],
    [{ country: "Germany" }, "country", /two-letter code/],
    [{ name: "x".repeat(65) }, "name", /^Common name: at most 64 characters/],
    [{ domains: "münchen.example" }, "domains", /^“münchen.example” isn’t a domain name: write its labels in their xn-- form/],
    [{ domains: "https://example.org/" }, "domains", /leave out the scheme/],
    [{ domains: "<img src=x>" }, "domains", /^“<img” isn’t a domain name/],
    [{ addresses: "300.1.2.3" }, "addresses", /^“300.1.2.3” isn’t an IPv4 or IPv6 address/],
    [{ emails: "nobody" }, "emails", /^“nobody” isn’t an e-mail address/],
  ];
  return withPage(context, DESKTOP, async (page) => {
    await page.run(WATCH);
    await openForm(page);
    assert.equal(await page.run(FOCUSED), "request-name");
    await page.run("asked.length = 0");
    for (const [texts, field, message] of cases) {
      await fillForm(page, { ...FILLED, ...texts });
      await page.run(click("#request-make"));
      await page.until(`${isShown("request-error")} && ${attribute(`request-${field}`, "aria-invalid")} === "true"`);
      assert.match(await page.run(text("request-error")), message);
      assert.equal(await page.run(FOCUSED), `request-${field}`);
      assert.equal(await page.run(count("[aria-invalid]")), 1);
    }
    assert.deepEqual(await page.run("asked"), [], "no key is made of what is wrong");
    assert.equal(await page.run(attribute("request-error", "role")), "alert");
    await page.press("Escape");
    assert.equal(await page.run(isShown("request")), false);
    assert.equal(await page.run(FOCUSED), "request-open");
    // one form is open at a time
    await page.run(click("#request-open"));
    await page.run(click("#paste-open"));
    assert.deepEqual([await page.run(isShown("request")), await page.run(isShown("paste"))], [false, true]);
    assert.equal(await page.run(attribute("request-open", "aria-expanded")), "false");
  });
}

async function pemIsSaved(context) {
  return withPage(context, DESKTOP, async (page) => {
    for (const name of ["certificate_deviations.pem", "request_ec.pem", "public_key_ec.pem", "ec_private_key.pem"]) {
      await page.drop(name, sample(name));
      const text = new TextDecoder().decode(sample(name));
      // (as it is, whether it is in DER or not; a sample may have text before it)
      assert.ok(text.includes((await page.run(SAVED_PEM)).trim()), name);
    }
    for (const name of ["name.hex", "refused_month_13.pem"]) {
      await page.drop(name, sample(name));
      assert.equal(await page.run(isShown("save-pem")), false, name);
    }
  });
}

// Each control in the forms has a name for assistive software, and what is more to be said of it.
async function assistive(context) {
  return withPage(context, DESKTOP, async (page) => {
    await openForm(page);
    await page.drop("request_rsa.pem", sample("request_rsa.pem"));
    await page.run(click("#edit-open"));
    const { nodes } = await page.send("Accessibility.getFullAXTree");
    const named = (role) => nodes.filter((it) => it.role?.value === role && !it.ignored);
    for (const [role, least] of [["textbox", 7], ["combobox", 2], ["checkbox", 1], ["form", 1]]) {
      assert.ok(named(role).length >= least, `${named(role).length} of the role ${role}`);
      for (const it of named(role)) assert.ok(it.name?.value, `a ${role} has no name`);
    }
    assert.equal(named("textbox").filter((it) => it.description?.value).length, 3);
  });
}

async function needsWebCrypto(context) {
  return withPage(context, DESKTOP, async (page) => {
    const source = `Object.defineProperty(Crypto.prototype, "subtle", { value: undefined });`;
    await page.send("Page.addScriptToEvaluateOnNewDocument", { source });
    await page.go(`${context.address}?`);
    await page.until("crypto.subtle === undefined");
    assert.equal(await page.run(isDisabled("request-open")), true);
    assert.equal(await page.run(text("request-open")), "Make a request (needs HTTPS)");
  });
}

// Replaces what stands in the form for a text, and makes it.
async function edit(page, from, to) {
  const content = await page.run(value("edited"));
  assert.notEqual(content.replace(from, to), content);
  await page.run(fill("edited", content.replace(from, to)));
  await page.run(click("#editing [type=submit]"));
}

async function editing(context) {
  return withPage(context, DESKTOP, async (page) => {
    await page.drop("certificate_rsa.pem", sample("certificate_rsa.pem"));
    assert.equal(await page.run(attribute("edit-open", "aria-expanded")), "false");
    await page.run(click("#edit-open"));
    assert.equal(await page.run(FOCUSED), "edited");
    assert.equal(await page.run(attribute("edit-open", "aria-expanded")), "true");
    await edit(page, /"subject": \{\n.*?\n {6}\}/s, '"subject": "CN=<b>edited</b>, C=DE"');
    assert.equal(await page.run(text("result-title")), "Certificate, edited");
    assert.equal(await page.run(FOCUSED), "result-title");
    assert.match(await page.run(text("note")), /no longer fits/);
    assert.equal(await page.run(isShown("editing")), false);
    const before = read(sample("certificate_rsa.pem"));
    const after = read(Buffer.from(await page.run(SAVED_DER), "hex"));
    assert.equal(after.subject.rfc4514(), "CN=\\<b\\>edited\\</b\\>,C=DE");
    for (const it of ["serialNumber", "notAfter", "signature"]) assert.deepEqual(after[it], before[it], it);
    assert.deepEqual(after.extensions.map(({ id }) => id), before.extensions.map(({ id }) => id));
    // what it was made of is still there
    await page.run(`document.querySelector("#structure-list button").click()`);
    assert.equal(await page.run(text("result-title")), "Certificate");
    assert.equal(await page.run(isShown("note")), false);
  });
}

const SELECTED = `(() => {
  const { value, selectionStart, selectionEnd } = document.getElementById("edited");
  return value.slice(selectionStart, selectionEnd);
})()`;

async function editingErrors(context) {
  return withPage(context, DESKTOP, async (page) => {
    await page.drop("request_rsa.pem", sample("request_rsa.pem"));
    await page.run(click("#edit-open"));
    await edit(page, '"value": "v1"', '"value": v1');
    assert.match(await page.run(text("edit-error")), /^Line 5, column 47: this isn’t JSON\.$/);
    assert.equal(await page.run(SELECTED), "v");
    await edit(page, '"value": v1', '"value": "v9"');
    assert.match(await page.run(text("edit-error")), /^Line 5: CertificationRequest\.certificationRequestInfo\.version/);
    assert.equal(await page.run(SELECTED), '{"asn1": "INTEGER", "value": "v9"}');
    assert.equal(await page.run(FOCUSED), "edited");
    assert.equal(await page.run(attribute("edit-error", "role")), "alert");
    // what was begun stays where Escape closes the form, and goes with "Cancel"
    await page.press("Escape");
    assert.equal(await page.run(FOCUSED), "edit-open");
    await page.run(click("#edit-open"));
    assert.match(await page.run(value("edited")), /"v9"/);
    await page.run(click("#edit-cancel"));
    assert.equal(await page.run(isShown("editing")), false);
    await page.run(click("#edit-open"));
    assert.doesNotMatch(await page.run(value("edited")), /"v9"/);
    for (const name of ["private_key_rsa.pem", "ec_private_key.pem", "refused_month_13.pem", "deviation_2_raw_algorithm.hex"]) {
      await page.drop(name, sample(name));
      if (name.includes("algorithm")) await page.run(`${fill("kind", "raw-algorithm")}; document.getElementById("kind").dispatchEvent(new Event("change"))`);
      assert.equal(await page.run(isDisabled("edit-open")), true, name);
      assert.notEqual(await page.run(attribute("edit-open", "title")), "", name);
    }
  });
}

async function lookAtForms(context, size) {
  return withPage(context, size, async (page) => {
    await openForm(page);
    const ratios = [await look(context, page, "request-empty", size)];
    await fillForm(page, { ...FILLED, addresses: "300.1.2.3" });
    await page.run(click("#request-make"));
    await page.until(isShown("request-error"));
    ratios.push(await look(context, page, "request-error", size));
    await makeRequest(page, "ECDSA P-256", true);
    ratios.push(await look(context, page, "request-made", size));
    await page.run(click("#edit-open"));
    await page.run(`document.getElementById("editing").scrollIntoView()`);
    await edit(page, '"value": "v1"', '"value": "v9"');
    ratios.push(await look(context, page, "editing", size));
    await edit(page, '"value": "v9"', '"value": "v1"');
    ratios.push(await look(context, page, "edited", size));
    return Math.min(...ratios);
  });
}

async function looks(context) {
  const ratios = [];
  for (const size of WINDOWS) ratios.push(await lookAtForms(context, size));
  return `the least contrast is ${Math.min(...ratios).toFixed(2)}`;
}

export const makeChecks = [
  ["requests are made, with keys that can't be saved", requests],
  ["private keys are saved where that was asked for", keysAreSaved],
  ["the form for requests says what is wrong", requestErrors],
  ["structures are saved in PEM as they are", pemIsSaved],
  ["assistive software finds names in the forms", assistive],
  ["a page without WebCrypto says that it makes no requests", needsWebCrypto],
  ["a structure is edited as JSON", editing],
  ["what is wrong in JSON is told and selected", editingErrors],
  ["all of the forms fits, and contrasts in light and dark", looks],
];
