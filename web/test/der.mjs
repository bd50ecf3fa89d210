// Elements in DER for tests, by hand.

/** An element of fewer than 65,536 bytes (X.690, 8.1). */
export function element(tag, ...parts) {
  const content = Buffer.concat(parts.map((it) => Buffer.from(it)));
  const size = content.length;
  const length = size < 128 ? [size] : size < 256 ? [0x81, size] : [0x82, size >> 8, size & 255];
  return Buffer.concat([Buffer.of(tag, ...length), content]);
}

/** An INTEGER (X.690, 8.3), in the fewest bytes of two's complement. */
export function integer(number) {
  let count = 1;
  while (BigInt.asIntN(8 * count, number) !== number) count += 1;
  const digits = BigInt.asUintN(8 * count, number).toString(16).padStart(2 * count, "0");
  return element(2, Buffer.from(digits, "hex"));
}
