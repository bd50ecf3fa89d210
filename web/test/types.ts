// What tsc makes of the types of the package: it must find nothing wrong here, but where it is said that it does.

import { check, checkExtension, encode, read, Refused, report } from "cimaroly";
import type { AlternativeName, CertificateFields, Deviation, Extension, FieldName, Finding, Kind } from "cimaroly";
import type { Name, Policy, PrivateKeyFields, PublicKey, RequestFields, Span, Structure } from "cimaroly";

export function startOfVersion(pem: string): number | undefined {
  const version: Span | undefined = read(pem).fields["version"];
  return version?.start;
}

export function firstDeviation(der: Uint8Array, kind: Kind): Deviation | undefined {
  try {
    return check(der, kind).deviations[0];
  } catch (error) {
    if (error instanceof Refused) throw new Error(`${error.reason} at ${error.at.toFixed()} in ${error.field?.split(".").join()}`);
    throw error;
  }
}

export function headersIn(type: string, value: ArrayBuffer): number | undefined {
  const told = checkExtension(type, value);
  // @ts-expect-error It may be an extension of another type.
  told.isDer;
  // @ts-expect-error It isn't told where deviations are.
  told?.deviations;
  // @ts-expect-error A value isn't text.
  checkExtension(type, "3000");
  return told?.isDer ? told.headers : told?.counts.length;
}

export function sizes(der: ArrayBuffer): [number, number, string] {
  return [encode(der).length, report(der, "name", { secrets: true }).length, report(der).result];
}

type Same<A, B> = (<T>() => T extends A ? 1 : 2) extends <T>() => T extends B ? 1 : 2 ? true : false;

// The fields of each type are known by their names, and those that may be left out may be undefined.
export function fieldsOfEach(der: Uint8Array, kind: Kind): Span[] {
  const certificate = read(der);
  const request = read(der, "request");
  const key = read(der, "private-key");
  const areKnown: [
    Same<typeof certificate.fields, CertificateFields>,
    Same<typeof request.fields, RequestFields>,
    Same<typeof key.fields, PrivateKeyFields>,
    Same<typeof key.kind, "private-key">,
    Same<typeof certificate.fields.extensions, Span | undefined>,
  ] = [true, true, true, true, true];
  // @ts-expect-error A version 1 certificate leaves it out.
  certificate.fields.version.start;
  // @ts-expect-error A request has no such field.
  request.fields.serialNumber;
  // @ts-expect-error There is no such type.
  read(der, "pkcs7");
  const any: Structure = read(der, kind);
  const names: FieldName[] = ["subjectPKInfo", "skipped", "issuerUniqueID"];
  const found = names.map((it) => any.fields[it]).filter((it): it is Span => it !== undefined && areKnown[0]);
  return [certificate.fields.serialNumber, request.fields.attributes, key.fields.privateKey, ...found];
}

// @ts-expect-error A refusal's field may be null.
export const lengthOfField = (error: Refused): number => error.field.length;

// The values of each type are known too.
export async function valuesOfEach(der: Uint8Array, kind: Kind): Promise<string[]> {
  const certificate = read(der);
  const request = read(der, "request");
  const key = read(der, "private-key");
  const any: Structure = read(der, kind);
  const areKnown: [
    Same<typeof certificate.serialNumber, bigint>,
    Same<typeof certificate.subject, Name>,
    Same<typeof certificate.notAfter, Date>,
    Same<typeof certificate.pathLength, number | null>,
    Same<typeof request.alternativeNames, AlternativeName[] | null>,
    Same<typeof certificate.policies, Policy[] | null>,
    Same<typeof certificate.subjectKeyIdentifier, Uint8Array | null>,
    Same<typeof request.issuerAlternativeNames, AlternativeName[] | null>,
    Same<typeof request.ocspAddresses, string[] | null>,
    Same<typeof request.issuer, undefined>,
    Same<typeof key.publicKey, PublicKey | null>,
    Same<typeof any.issuer, Name | undefined>,
    Same<typeof certificate.findings, Finding[]>,
    Same<typeof request.findings, Finding[]>,
    Same<typeof key.findings, undefined>,
    Same<ReturnType<typeof certificate.validity>, "valid" | "not yet valid" | "expired">,
  ] = [true, true, true, true, true, true, true, true, true, true, true, true, true, true, true, true];
  // @ts-expect-error A certificate may have no such extension.
  certificate.alternativeNames.length;
  // @ts-expect-error There is no such usage.
  certificate.keyUsage?.includes("signing");
  // @ts-expect-error There is no such severity.
  certificate.findings.filter((it) => it.severity === "info");
  // @ts-expect-error A domain name has no bytes.
  certificate.alternativeNames?.map((it) => it.bytes);
  const addresses = certificate.alternativeNames?.map((it) => (it.type === "iPAddress" ? it.bytes.length : 0)) ?? [];
  const found: Extension | undefined = certificate.extensions.get("id-ce-keyUsage");
  const names = [...certificate.subject].map((it) => `${it.name} ${it.value ?? it.der.length} ${it.set.toFixed()}`);
  const isFor: boolean = certificate.matchesHost("example.org") && certificate.isCa && areKnown[0] && addresses.length > 0;
  return [await certificate.fingerprint("SHA-1"), await certificate.publicKey.pin(), found?.id ?? "", String(isFor), ...names];
}
