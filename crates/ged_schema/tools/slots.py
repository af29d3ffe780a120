#!/usr/bin/env python3
"""Prints the factor and the arrays of src/slots.rt for the rows of src/tables, and the needed rows of src/quick_check.rt.

A tag's slot is the sum of its context's seed and of the highest bits of a product, modulo the number of slots. The product is that of
the factor and of four bytes of the tag, its first three and its last one, as a number of 32 bits; the first byte is the lowest. A byte
that the tag doesn't have counts as 0. The script takes the first factor of a fixed sequence under which each context finds a seed that
puts none of its rows on a slot which keeps another number: the contexts with the most rows first, each with its least such seed.

Run it after a change of the tables, and put what it prints into src/slots.rt and src/quick_check.rt. The proof checks the numbers,
however they were found.

With the word --compare it prints nothing of this, and tells instead whether the sources have just these numbers. The last line is
then 'N passed, M failed', and the status 0 where all passed.
"""

import re
import sys
from pathlib import Path

SOURCE = Path(__file__).resolve().parent.parent / "src"
# A power of two, so that the remainder is no division.
SLOTS = 512
WORD = 2**32
# The factors are its multiples. It is the golden ratio's part of a word, by which hashes often multiply.
GOLDEN = 0x9E3779B1
# More than so many are not tried: where tables no longer fit, the script says so.
FACTORS = 10_000
WIDTH = 100


def read_rows():
    """The rows of each context, by the context's name: which macro makes each, and its tag."""
    rows = {}
    for path in sorted((SOURCE / "tables").glob("*.rt")):
        for name, body in re.findall(r"static (\w+): \[Rule; \d+\] = \[(.*?)\];", path.read_text(), re.S):
            rows[name] = re.findall(r'(\w+)!\(\s*"(\w+)"', body)
    names = dict(re.findall(r"Context::(\w+) => &(\w+),", (SOURCE / "tables.rt").read_text()))
    contexts = re.findall(r"^    (\w+),$", (SOURCE / "context.rt").read_text(), re.M)
    return {context: rows[names[context]] if context in names else [] for context in contexts}


def spread(tag, factor):
    """The highest bits of the product of a tag's four bytes and a factor."""
    code = tag.encode()
    four = code[:3].ljust(3, b"\0") + code[-1:]
    return int.from_bytes(four, "little") * factor % WORD // (WORD // SLOTS)


def find_seed(spreads, slots):
    """The least seed that puts each of a context's rows on a slot of its own number, and the slots that it fills."""
    for seed in range(SLOTS):
        filled = [(seed + each) % SLOTS for each in spreads]
        if len(set(filled)) == len(spreads) and all(slots.get(slot, i) == i for i, slot in enumerate(filled)):
            return seed, filled
    return None


def find_slots(tables, factor):
    """A seed for each context, those with the most rows first, and the numbers by their slots."""
    slots, seeds = {}, {}
    for context in sorted(tables, key=lambda context: -len(tables[context])):
        found = find_seed([spread(tag, factor) for tag in tables[context]], slots)
        if found is None:
            return None
        seeds[context], filled = found
        slots.update({slot: number for number, slot in enumerate(filled)})
    return seeds, slots


def print_array(title, words):
    """Prints the elements of an array of the sources, as many to a line as fit."""
    print(title)
    line = "   "
    for word in words:
        if len(f"{line} {word},") > WIDTH:
            print(line)
            line = "   "
        line += f" {word},"
    print(line)


def print_found(factor, seeds, slots, needed, tables):
    print(f"FACTOR: {factor:#x}")
    print_array("SLOTS:", [str(slots.get(slot, 0)) for slot in range(SLOTS)])
    print_array("SEEDS:", [str(seeds[context]) for context in tables])
    print_array("COUNTS:", [str(len(tables[context])) for context in tables])
    print_array("NEEDED:", [bin(needed[context]) if needed[context] else "0" for context in tables])


def needed_rows(rows):
    """The rows that ask for a structure: a number with a bit for each of them."""
    return sum(1 << number for number, (macro, _) in enumerate(rows) if macro == "one")


def read_array(code, name):
    """The elements of an array of the sources."""
    elements = re.search(rf"static {name}: \[u\d+; \d+\] = \[(.*?)\];", code, re.S)[1]
    return [int(number, 0) for number in re.findall(r"0b[01]+|\d+", elements)]


def compare(factor, seeds, slots, needed, tables):
    """Tells whether the sources have this factor, and these seeds, slots, numbers of rows and needed rows; and answers the status."""
    code = (SOURCE / "slots.rt").read_text()
    checks = {
        "factor": int(re.search(r"const FACTOR: u32 = (\w+);", code)[1].replace("_", ""), 0) == factor,
        "slots": read_array(code, "SLOTS") == [slots.get(slot, 0) for slot in range(SLOTS)],
        "seeds": read_array(code, "SEEDS") == [seeds[context] for context in tables],
        "numbers of rows": read_array(code, "COUNTS") == [len(tables[context]) for context in tables],
        "needed rows": read_array((SOURCE / "quick_check.rt").read_text(), "NEEDED") == [needed[context] for context in tables],
    }
    for name, is_same in checks.items():
        print(f"ok: the script finds the {name} of the sources" if is_same else f"FAILED: the script finds no such {name}")
    failed = list(checks.values()).count(False)
    print(f"{len(checks) - failed} passed, {failed} failed")
    return 1 if failed else 0


def main(words):
    rows = read_rows()
    tables = {context: [tag for _, tag in rows[context]] for context in rows}
    needed = {context: needed_rows(rows[context]) for context in rows}
    for number in range(1, FACTORS):
        factor = GOLDEN * number % WORD
        found = find_slots(tables, factor)
        if found is not None:
            break
    else:
        raise SystemExit("no factor was found")
    if words[1:] == ["--compare"]:
        return compare(factor, *found, needed, tables)
    print_found(factor, *found, needed, tables)
    return 0


if __name__ == "__main__":
    sys.exit(main(sys.argv))
