#!/usr/bin/env python3
"""addresses.py [ROOT]: a RAM byte address, a flash word address and a block number are never mixed (document 01, section 1), where the
compiler's types can't see it.

The compiler tells the three types apart. What it lets through, this searches for in crates/*/src:
  - an address made from a number, as RamByte(n) or by a store to the number inside one (r.0 = n): only in rules, which declares From, and
    in crate address;
  - a conversion that can make one, as RamByte::from(n), n.into() or a bound From<u16>: only there and where numbers come in, from bytes and
    from C; and of the number inside an address nowhere else than there;
  - a block number that leaves the map code: no crate above the map names one, nor does a public function of the map, in whatever
    number of lines its head stands;
  - the number inside an address handed as an offset: above(bot, site.0).
Each place found is printed; the exit status is 0 if there is none."""
import glob
import os
import re
import sys

MAKERS = ("address/src/lib.rt", "address/src/packing.rt", "rules/src/lib.rt")
INLETS = (*MAKERS, "codec/src/lib.rt", "hmt_c/src/lib.rt")  # where numbers come in
OWNERS = ("rules/", "address/", "map/")  # crates that may name a block
MADE = re.compile(r"\b(?:RamByte|FlashWord|Block)\(")
CONVERTED = re.compile(r"\b(?:RamByte|FlashWord|From|Into)::(?:from|into)\b|\.into\(\)|\b(?:From<u16>|Into<)")
FROM_ADDRESS = re.compile(r"\b(?:RamByte|FlashWord)::from\([^()]*\.0\b")
STORED = re.compile(r"\.0\s*(?:[-+*/%&|^]|<<|>>)?=(?!=)")
BLOCK = re.compile(r"\b(?:Block|block_of|start_of|further|before|first_block|map_byte)\b")
PUBLIC = re.compile(r'^\s*pub\s+(?:const\s+)?(?:extern\s+"C"\s+)?fn\s[^{]*', re.M)
# what only the checker reads, up to the bracket that it opens
GHOST = re.compile(r"\bghost\s+(?:use\b[^;{]*|\w+\s*[:=]\s*)(\{)|\b(?:requires|ensures)(?:\s+\w+)?\s*(\{)|#!?(\[)")
OFFSET = re.compile(r"\b(?:above|below|further|before)\((?:[^(),]|\([^()]*\))*,\s*[\w.]+\.0\s*\)")


def places(name, text):
    """Each place of a source that mixes, by its offset, with what is wrong."""
    if not name.startswith(MAKERS):
        yield from ((m.start(), "an address is made from a number") for m in MADE.finditer(text))
        yield from ((m.start(), "the number inside an address is stored to") for m in STORED.finditer(text))
        yield from ((m.start(), "an address is made from the number inside another") for m in FROM_ADDRESS.finditer(text))
    if not name.startswith(INLETS):
        yield from ((m.start(), "a conversion that can make an address") for m in CONVERTED.finditer(text))
    if not name.startswith(OWNERS):
        yield from ((m.start(), "a block number outside the map code") for m in BLOCK.finditer(text))
    if name.startswith("map/"):
        for head in PUBLIC.finditer(text):
            if re.search(r"\bBlock\b", head.group(0)):
                yield head.start(), "a public function of the map names a block"
    yield from ((m.start(), "the number inside an address is handed as an offset") for m in OFFSET.finditer(text))


def code(text):
    """A source with comments, clauses, ghost imports and attributes blanked, so that places keep their lines."""
    def blank(text, start, end):
        return text[:start] + re.sub(r"[^\n]", " ", text[start:end]) + text[end:]

    for comment in list(re.finditer(r"//[^\n]*", text)):
        text = blank(text, *comment.span())
    while ghost := GHOST.search(text):
        end = start = max(ghost.span(k)[0] for k in (1, 2, 3))
        depth = 0
        for end in range(start, len(text)):
            depth += (text[end] in "{[(") - (text[end] in "}])")
            if depth == 0:
                break
        text = blank(text, ghost.start(), end + 1)
    return text


def search(root):
    found = []
    for path in sorted(glob.glob(os.path.join(root, "crates", "*", "src", "**", "*.rt"), recursive=True)):
        name = os.path.relpath(path, os.path.join(root, "crates")).replace(os.sep, "/")
        with open(path, encoding="utf-8") as source:
            text = code(source.read())
        found += [f"crates/{name}:{text.count(chr(10), 0, at) + 1}: {what}" for at, what in places(name, text)]
    return found


def main():
    found = search(sys.argv[1] if len(sys.argv) > 1 else os.path.dirname(os.path.dirname(os.path.abspath(__file__))))
    for line in found:
        print(line)
    return 1 if found else 0


if __name__ == "__main__":
    sys.exit(main())
