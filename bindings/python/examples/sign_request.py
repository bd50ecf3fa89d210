"""Makes a certification request whose key another program keeps.

usage: sign_request.py SUBJECT PUBLIC-KEY.pem COMMAND..

COMMAND gets what is to be signed on its standard input, and writes a signature of ECDSA with SHA-256 in DER, as
`openssl dgst -sha256 -sign key.pem` does. The request is printed as PEM.
"""

import subprocess
import sys

import cimaroly


def main() -> None:
    if len(sys.argv) < 4:
        sys.exit(__doc__)
    subject, path, *command = sys.argv[1:]
    with open(path, encoding="ascii") as file:
        key = file.read()
    part = cimaroly.RequestBuilder().subject_name(subject).public_key(key).to_be_signed("ecdsa-with-SHA256")
    request = part.sign(lambda data: subprocess.run(command, input=data, capture_output=True, check=True).stdout)
    print(request.pem(), end="")


if __name__ == "__main__":
    main()
