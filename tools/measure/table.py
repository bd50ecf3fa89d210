"""table.py dumps DRIVER FOLDER: the counts of callgrind's dumps, as lines. table.py tables NEW [OLD]: such lines as tables."""
import os
import re
import sys

USES = ("len", "vec", "slice")
WHOLES = ("certificate", "certificate-1000-names", "request", "private-key")


def dumps(driver, folder):
    for name in sorted(os.listdir(folder)):
        with open(f"{folder}/{name}", encoding="utf-8") as file:
            text = file.read()
        label = re.search(r"^desc: Trigger: Client Request: measured (\S+) (\S+) (\d+)$", text, re.M)
        totals = re.search(r"^(?:totals|summary): (\d+)", text, re.M)
        if label:
            name, call, times = label.groups()
            print(driver, name, call, times, totals.group(1), sep="\t")


class Counts:
    def __init__(self, path):
        self.inputs, self.counts, self.alone, self.memory, self.sizes = {}, {}, {}, {}, {}
        with open(path, encoding="utf-8") as file:
            for line in file:
                kind, *cells = line.rstrip("\n").split("\t")
                if kind == "input":
                    self.inputs[cells[0]] = (int(cells[1]), int(cells[2]))
                elif kind in ("instructions", "arena"):
                    name, call, times, total = cells
                    counts = self.counts if kind == "instructions" else self.alone
                    counts[name, call] = int(total) / int(times)
                elif kind == "memory":
                    name, call, *numbers = cells
                    self.memory[name, call] = tuple(map(int, numbers))
                elif kind == "size":
                    self.sizes[cells[0]] = int(cells[1])

    def count(self, name, call, counts=None):
        """Instructions of the call itself: what is behind a read is less that read."""
        counts = counts or self.counts
        return counts[name, call] - (counts[name, "read"] if call in USES else 0)

    def trip(self, name):
        return self.counts[name, "vec"]


def row(*cells):
    print("| " + " | ".join(cells) + " |")


def head(title, *cells):
    print(f"\n{title}\n")
    row(*cells)
    print("|---" + "|--:" * (len(cells) - 1) + "|")


def whole(number):
    return f"{round(number):,}"


def part(number):
    return f"{number:.2f}" if number < 1 else f"{number:.1f}"


def is_single(name):
    return name.removeprefix("plain-") not in WHOLES and not re.search(r"-\d+[km]$|^nest|^thousand", name)


def wholes(new):
    head("Certificates, requests and keys", "Input", "bytes", "headers", "check", "from_bytes", "read_counted", "read_located", "encoded_len", "to_vec", "write_to_slice", "alone: from_bytes", "to_vec", "requests of from_bytes", "bytes held", "at most while reading")
    for name in WHOLES:
        if name in new.inputs:
            cells = [*new.inputs[name], *(new.count(name, call) for call in ("check", "read", "counted", "located", *USES))]
            cells += [new.count(name, call, new.alone) for call in ("read", "vec")]
            cells += [new.memory[name, "read"][1], new.memory[name, "vec"][2], new.memory[name, "read"][3]]
            row(name, *map(whole, cells))


def arenas(new):
    """Reading in one arena that is reset after each certificate."""
    names = [name for name in WHOLES if (name, "arena-101") in new.counts]
    if names:
        head("In an arena that is reset after each", "Input", "from_bytes and reset", "from_bytes with malloc")
        for name in names:
            each = (new.counts[name, "arena-101"] - new.counts[name, "arena-1"]) / 100
            row(name, whole(each), whole(new.count(name, "read")))


def compared(new):
    """The library's certificates beside those of hand-written Rust, if they were measured."""
    names = [name for name in WHOLES if f"plain-{name}" in new.inputs]
    if not names:
        return
    head("Beside hand-written Rust", "Input", "from_bytes", "by hand", "ratio", "and to_vec", "by hand", "ratio", "alone: from_bytes", "by hand", "requests", "by hand", "bytes held", "by hand")
    for name in names:
        other = f"plain-{name}"
        cells = [name]
        for call in ("read", "vec"):
            ours, theirs = new.counts[name, call], new.counts[other, call]
            cells += [whole(ours), whole(theirs), f"{ours / theirs:.2f}"]
        cells += [whole(new.alone[it, "read"]) for it in (name, other)]
        cells += [whole(new.memory[it, "read"][1]) for it in (name, other)]
        cells += [whole(new.memory[it, "vec"][2]) for it in (name, other)]
        row(*cells)


def tables(new):
    head("Single values, instructions", "Input", "bytes", "headers", "check", "from_bytes", "read_counted", "read_located", "encoded_len", "to_vec", "write_to_slice")
    for name, (size, headers) in new.inputs.items():
        if is_single(name):
            row(name, whole(size), str(headers), *(whole(new.count(name, call)) for call in ("check", "read", "counted", "located", *USES)))
    for title, counts in (("with malloc", new.counts), ("without malloc's own", new.alone)):
        head(f"By size, instructions, {title}", "Input", "bytes", "headers", "from_bytes", "a header", "a byte", "encoded_len", "to_vec", "a header", "a byte", "write_to_slice", "a header", "a byte")
        for name, (size, headers) in new.inputs.items():
            if re.search(r"-\d+[km]$", name):
                cells = [whole(size), whole(headers)]
                for call in ("read", *USES):
                    number = new.count(name, call, counts)
                    cells += [whole(number)] if call == "len" else [whole(number), part(number / headers), part(number / size)]
                row(name, *cells)
    head("Single values, instructions without malloc's own", "Input", "bytes", "headers", "from_bytes", "encoded_len", "to_vec", "write_to_slice")
    for name, (size, headers) in new.inputs.items():
        if is_single(name):
            row(name, whole(size), str(headers), *(whole(new.count(name, call, new.alone)) for call in ("read", *USES)))
    wholes(new)
    arenas(new)
    compared(new)
    head("By depth, instructions", "Input", "bytes", "headers", "from_bytes", "encoded_len", "to_vec", "write_to_slice")
    for name, (size, headers) in new.inputs.items():
        if name.startswith("nest"):
            row(name, whole(size), whole(headers), *(whole(new.count(name, call)) for call in ("read", *USES)))
    head("Requests for memory", "Input", "check", "from_bytes", "read_counted", "read_located", "encoded_len", "to_vec", "write_to_slice")
    for name in dict.fromkeys(name for name, _ in new.memory):
        asked = {call: new.memory[name, call][1] for call in ("check", "read", "counted", "located", *USES)}
        row(name, *(whole(asked[call] - (asked["read"] if call in USES else 0)) for call in asked))
    head("Bytes that a value takes from the heap", "Input", "bytes", "held", "a byte", "at most while reading", "a byte")
    for name in dict.fromkeys(name for name, _ in new.memory):
        size, _, held, _ = new.memory[name, "vec"]
        peak = new.memory[name, "read"][3]
        row(name, whole(size), whole(held), part(held / size), whole(peak), part(peak / size))
    head("Bytes of a type", "Type", "bytes")
    for name, size in new.sizes.items():
        row(name, str(size))


def compare(new, old):
    head("Before and after, instructions", "Input", "from_bytes before", "after", "to_vec before", "after", "write_to_slice before", "after", "round trip before", "after")
    for name in new.inputs:
        if (name, "vec") in old.counts:
            pairs = [(counts.count(name, call)) for call in ("read", "vec", "slice") for counts in (old, new)]
            row(name, *map(whole, [*pairs, old.trip(name), new.trip(name)]))
    head("Before and after, requests for memory", "Input", "from_bytes before", "after", "to_vec before", "after")
    for name in dict.fromkeys(name for name, _ in new.memory):
        if (name, "vec") in old.memory:
            asked = [counts.memory[name, call][1] - (counts.memory[name, "read"][1] if call == "vec" else 0) for call in ("read", "vec") for counts in (old, new)]
            row(name, *map(whole, asked))


if sys.argv[1] == "dumps":
    dumps(sys.argv[2], sys.argv[3])
else:
    tables(Counts(sys.argv[2]))
    if len(sys.argv) > 3:
        compare(Counts(sys.argv[2]), Counts(sys.argv[3]))
