// The form of which a certificate request is made: a button opens and closes it.

import { at, make } from "./dom.mjs";
import { Drawer } from "./drawer.mjs";
import { Unusable, keyTypesOf, makeRequest, valuesOf } from "./making.mjs";

const TEXTS = ["name", "organization", "country", "domains", "addresses", "emails"];
const input = (field) => at(`request-${field}`);

/** The form, which hands on the request that is made, with its private key if it may be saved, and closes then. */
export class RequestForm {
  constructor(cimaroly, take, group) {
    const { subtle } = globalThis.crypto ?? {};
    if (subtle === undefined) {
      at("request-open").disabled = true;
      at("request-open").textContent = "Make a request (needs HTTPS)";
      return;
    }
    Object.assign(this, { makers: { cimaroly, subtle }, take, keyTypes: [] });
    const opened = () => this.listKeyTypes();
    this.drawer = new Drawer({ button: at("request-open"), form: at("request"), first: input("name"), group, opened });
    at("request").addEventListener("submit", (event) => this.submit(event));
  }

  // (Ed25519 is only known after it was tried, which is done once somebody wants a key)
  async listKeyTypes() {
    if (this.keyTypes.length > 0) return;
    this.keyTypes = await keyTypesOf(this.makers.subtle);
    input("key").replaceChildren(...this.keyTypes.map(({ name }) => make("option", { value: name }, name)));
  }

  async submit(event) {
    event.preventDefault();
    if (this.isBusy) return;
    this.tell(null);
    this.turnBusy(true);
    try {
      await this.make();
    } catch (error) {
      this.tell(error);
    } finally {
      this.turnBusy(false);
    }
  }

  async make() {
    await this.listKeyTypes();
    const values = valuesOf(Object.fromEntries(TEXTS.map((it) => [it, input(it).value])));
    const keyType = this.keyTypes.find(({ name }) => name === input("key").value);
    const made = await makeRequest(this.makers, values, { keyType, mayBeSaved: input("keep").checked });
    // (whoever closes the form while a key is made wants none)
    if (at("request").hidden) return;
    this.drawer.turn(false);
    this.take(made);
  }

  turnBusy(isBusy) {
    this.isBusy = isBusy;
    at("request-make").setAttribute("aria-disabled", String(isBusy));
    at("request-make").textContent = isBusy ? "Making the key…" : "Make the request";
  }

  // Says what is wrong below the field that it is about, and goes there; or above the button.
  tell(error) {
    const message = at("request-error");
    for (const it of TEXTS) input(it).removeAttribute("aria-invalid");
    message.hidden = true;
    if (error === null) return;
    const field = error instanceof Unusable && error.field !== null ? input(error.field) : null;
    if (field === null) at("request-make").before(message);
    else field.parentElement.append(message);
    message.textContent = wordsOf(error);
    message.hidden = false;
    field?.setAttribute("aria-invalid", "true");
    field?.focus();
  }
}

function wordsOf(error) {
  return error instanceof Unusable ? error.message : `The request couldn’t be made: ${error.message}`;
}
