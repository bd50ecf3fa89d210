// The samples in samples/: the file, and what a visitor is told of it.

export const SAMPLES = [
  ["certificate_deviations.pem", "Certificate with deviations"],
  ["certificate_rsa.pem", "Certificate in DER"],
  ["refused_month_13.pem", "Refused certificate"],
  ["hostile_names.pem", "Deceptive names"],
  ["request_rsa.pem", "Request"],
  ["private_key_rsa.pem", "Private key"],
];
