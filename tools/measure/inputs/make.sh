#!/bin/bash
# Makes the four inputs beside it, as hexadecimal text: a private key made for this and used for nothing else, a request
# for it, and two certificates of it. Each run makes other keys, so other bytes, and docs/PERFORMANCE.md is about the
# files that are committed. It was run once, with OpenSSL 3.0.19. The authority's key isn't kept.
set -euo pipefail
here=$(cd "$(dirname "$0")" && pwd)
work=$(mktemp -d)
trap 'rm -rf "$work"' EXIT
cd "$work"

authority="/C=US/ST=California/L=San Francisco/O=Example Trust Services LLC"
authority+="/OU=Certification Services/CN=Example Web CA 1"
subject="/C=DE/ST=Baden-Wuerttemberg/L=Karlsruhe/O=Example Online GmbH/CN=www.example.com"

# Random bytes where a log would have signed (RFC 6962, 3.2 and 3.3): the codec takes this extension's value for octets.
random() { openssl rand -hex 32; }
signed_by_a_log() { echo "007600$(random)00000194000000000000040300473045022100$(random)0220$(random)"; }
logs="0481f200f0$(signed_by_a_log)$(signed_by_a_log)"

common="
authorityKeyIdentifier = keyid
subjectKeyIdentifier = hash
keyUsage = critical, digitalSignature, keyEncipherment
extendedKeyUsage = serverAuth, clientAuth
basicConstraints = critical, CA:FALSE
"
few="DNS:www.example.com, DNS:example.com, DNS:api.example.com, DNS:mail.example.com, IP:192.0.2.17"

cat > web.cnf <<END
$common
subjectAltName = $few
certificatePolicies = 2.23.140.1.2.2
authorityInfoAccess = OCSP;URI:http://ocsp.example.net, caIssuers;URI:http://certificates.example.net/web-1.crt
crlDistributionPoints = URI:http://revoked.example.net/web-1.crl
1.3.6.1.4.1.11129.2.4.2 = DER:$logs
END

{
  echo "$common"
  echo "subjectAltName = @names"
  echo "[names]"
  for i in $(seq 1000); do printf 'DNS.%d = server-%04d.site-%02d.example.com\n' "$i" "$i" "$((i % 50))"; done
} > names.cnf

cat > request.cnf <<END
[req]
prompt = no
distinguished_name = subject
req_extensions = asked
string_mask = utf8only
[subject]
C = DE
ST = Baden-Wuerttemberg
L = Karlsruhe
O = Example Online GmbH
CN = www.example.com
emailAddress = hostmaster@example.com
[asked]
subjectAltName = $few
keyUsage = critical, digitalSignature, keyEncipherment
extendedKeyUsage = serverAuth, clientAuth
basicConstraints = critical, CA:FALSE
END

openssl genpkey -quiet -algorithm RSA -pkeyopt rsa_keygen_bits:2048 -out authority.key
openssl req -new -x509 -sha256 -utf8 -key authority.key -subj "$authority" -days 3650 -out authority.crt
openssl genpkey -quiet -algorithm RSA -pkeyopt rsa_keygen_bits:2048 -out private-key.pem
openssl pkcs8 -topk8 -nocrypt -in private-key.pem -outform DER -out private-key.der
openssl req -new -sha256 -config request.cnf -key private-key.pem -outform DER -out request.der
openssl req -new -sha256 -utf8 -key private-key.pem -subj "$subject" -out plain.csr
certify() {
  openssl x509 -req -sha256 -days 397 -in plain.csr -CA authority.crt -CAkey authority.key \
    -set_serial "0x04$(openssl rand -hex 17)" -extfile "$1" -outform DER -out "$2"
}
certify web.cnf certificate.der
certify names.cnf certificate-1000-names.der

for input in *.der; do od -An -v -tx1 -w64 "$input" | tr -d ' ' > "$here/${input%.der}.hex"; done
