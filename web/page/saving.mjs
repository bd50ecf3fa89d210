// The buttons that save what is shown: as DER or PEM, its report, and a private key that was made with it.

import { at, save } from "./dom.mjs";
import { privateKeyText } from "./making.mjs";

// The label of each type that has one (RFC 7468; of RSA and EC keys, OpenSSL's).
const LABELS = new Map([
  ["certificate", "CERTIFICATE"],
  ["request", "CERTIFICATE REQUEST"],
  ["private-key", "PRIVATE KEY"],
  ["public-key", "PUBLIC KEY"],
  ["rsa-private-key", "RSA PRIVATE KEY"],
  ["rsa-public-key", "RSA PUBLIC KEY"],
  ["ec-private-key", "EC PRIVATE KEY"],
  ["certificate-outline", "CERTIFICATE"],
  ["request-outline", "CERTIFICATE REQUEST"],
  ["private-key-outline", "PRIVATE KEY"],
  ["public-key-outline", "PUBLIC KEY"],
  ["crl", "X509 CRL"],
]);

const PEM_FILE = "application/x-pem-file";
const KEY_IS_SAVED = "The private key has been saved unencrypted: keep it where nobody else can read it.";

/** The buttons. What is to be known of a file that was saved is told by `tell`. */
export class Saving {
  constructor(cimaroly, tell) {
    Object.assign(this, { cimaroly, tell });
    at("save-der").addEventListener("click", () => this.saveDer());
    at("save-pem").addEventListener("click", () => this.savePem());
    at("save-key").addEventListener("click", () => this.saveKey());
    at("save-report").addEventListener("click", () => this.saveReport());
  }

  /** Is about a structure from now on, that was read or wasn't. */
  use(structure, isRead) {
    this.structure = structure;
    at("save-der").disabled = !isRead;
    at("save-pem").hidden = !isRead || !LABELS.has(structure.kind);
    at("save-key").hidden = structure.privateKey === null;
    at("save-report").disabled = structure.kind === null;
  }

  saveDer() {
    const { bytes, kind } = this.structure;
    save(`${kind}.der`, "application/octet-stream", this.cimaroly.encode(bytes, kind));
  }

  // (the bytes as they are, which a signature may cover)
  savePem() {
    const { bytes, kind } = this.structure;
    save(`${kind}.pem`, PEM_FILE, this.cimaroly.pem(LABELS.get(kind), bytes));
  }

  async saveKey() {
    const { structure } = this;
    if (structure.privateKey === null) return;
    const makers = { cimaroly: this.cimaroly, subtle: crypto.subtle };
    save("private-key.pem", PEM_FILE, await privateKeyText(makers, structure.privateKey));
    structure.isKeySaved = true;
    this.tell(KEY_IS_SAVED);
  }

  saveReport() {
    save(`${this.structure.kind}.json`, "application/json", `${this.structure.reportText}\n`);
  }
}
