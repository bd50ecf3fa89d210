"""Elements of DER (X.690, 8.1 and 10.1), encoded and taken apart by hand: expected bytes never come from what is tested."""


def element(tag, *contents):
    """An element with a tag of one byte, and its length in the fewest octets."""
    content = b"".join(contents)
    size = len(content)
    if size < 128:
        return bytes([tag, size]) + content
    digits = size.to_bytes((size.bit_length() + 7) // 8, "big")
    return bytes([tag, 128 | len(digits)]) + digits + content


def header_of(der, at):
    """Where the content of an element begins, and its size."""
    first = der[at + 1]
    if first < 128:
        return at + 2, first
    begin = at + 2 + first - 128
    return begin, int.from_bytes(der[at + 2 : begin], "big")


def split(der):
    """The elements in an element, whole."""
    at, size = header_of(der, 0)
    end, found = at + size, []
    while at < end:
        begin, size = header_of(der, at)
        found.append(der[at : begin + size])
        at = begin + size
    return found
