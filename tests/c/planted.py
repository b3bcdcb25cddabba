#!/usr/bin/env python3
"""Shows that compare.c sees errors: planted.py [OPERATIONS]

Each line below makes one deliberate error in a copy of benchmark/plain.c. The
wrong program must be told from the second program's machine within so many
operations. The old text must occur exactly once.
"""
import os
import subprocess
import sys
import tempfile

ROOT = os.path.join(os.path.dirname(os.path.abspath(__file__)), "..", "..")

EDITS = [
    # the slot
    ("bytes of a number swapped", "    return number;\n", "    return number >> 8 | (number & 255u) << 8;\n"),
    ("bytes swapped when written", "uint16_t low = (uint16_t)number;", "uint16_t low = (uint16_t)(number >> 8 | number << 8);"),
    ("domain byte at another place", "POINTER = 44, DOMAIN = 46", "POINTER = 45, DOMAIN = 44"),
    ("byte 47 not looked at", "word(slot + DOMAIN) <= TRUSTED", "slot[DOMAIN] <= TRUSTED"),
    ("byte 47 not cleared by set-up", "put_word(slot + DOMAIN, TRUSTED);", "slot[DOMAIN] = TRUSTED;"),
    ("slot written on a refused set-up", "        REFUSE(2);", "        { slot[46] = 0; REFUSE(2); }"),
    ("slot written on a refused return", "    if (tag > TRUSTED || used < 5)\n",
     "    slot[DOMAIN] = (uint8_t)(tag & 7);\n    if (tag > TRUSTED || used < 5)\n"),
    ("set-up asks for a good state", "if (!config_good(slot))", "if (!config_good(slot) || !state_good(slot))"),
    ("set-up takes a longer slot", "if (ram_len != RAM || slot_len != SLOT)", "if (ram_len != RAM || slot_len < SLOT)"),
    ("lengths kept in 32 bits", "ram_len == RAM && slot_len == SLOT && table_len == TABLE",
     "ram_len == RAM && slot_len == SLOT && (uint32_t)table_len == TABLE"),
    ("table length not looked at", " && table_len == TABLE", " && (table_len | 1)"),
    # good configurations and states
    ("domain 8 is good", "word(slot + DOMAIN) <= TRUSTED", "word(slot + DOMAIN) <= TRUSTED + 1"),
    ("bound 4096 is good", "bound < RAM\n", "bound <= RAM\n"),
    ("bound top - 1 is not", "bound + 1 >= top &&", "bound >= top &&"),
    ("safe pointer top is not good", "pointer <= top\n", "pointer < top\n"),
    ("map rounded down", "(top - bot + 8) / 16", "(top - bot) / 16"),
    ("heap a multiple of 4", "(bot | heap | safe | top) & 7", "((bot | safe | top) & 7) || (heap & 3)"),
    ("jt 64513 is good", "jt <= 64512", "jt <= 64513"),
    ("end may pass jt by one", "if (last > jt)", "if (last > jt + 1)"),
    ("trusted end may pass jt by one", "return start <= end && end <= jt;", "return start <= end && end <= jt + 1;"),
    ("touching ranges overlap", "        if (start >= last) {", "        if (start == last && last)\n            return 0;\n        if (start >= last) {"),
    ("overlap of a last word allowed", "        if (start >= last) {", "        if (start + 1 >= last) {"),
    ("the same in another order", "if (start < ends[k] && starts[k] < end)", "if (start + 1 < ends[k] && starts[k] < end)"),
    ("empty range inside another refused", "        if (start == end)\n            continue;\n", ""),
    ("a range after its end", "            if (start > end)\n                return 0;\n", ""),
    ("domain 7 never looked at in another order", "for (d = 0; d < 8; d++) {", "for (d = 0; d < 7; d++) {"),
    ("trusted code before the first, by one word too far", "end <= word(ranges + 4 * d))", "end <= word(ranges + 4 * d) + 1)"),
    # the map and its codes
    ("halves of a map byte swapped", "return map[k / 2] >> (k % 2 * 4) & 15;", "return map[k / 2] >> (4 - k % 2 * 4) & 15;"),
    ("block 0 written 14", "map[0] |= 15;", ";"),
    ("first safe stack block written 14", "if (safe < blocks)\n        put_code(map, safe, FREE);", ""),
    ("unused half not 15", "if (blocks % 2)\n        map[blocks / 2] |= 0xf0;", ""),
    # store
    ("address 4096 is RAM", "if (address >= RAM)\n        REFUSE(4);", "if (address > RAM)\n        REFUSE(4);"),
    ("bound is the first forbidden byte", "if (address > word(slot + BOUND))", "if (address >= word(slot + BOUND))"),
    ("owner from the whole code", "(address - bot) / 8) / 2\n                != slot[DOMAIN]",
     "(address - bot) / 8) - 1\n                != 2u * slot[DOMAIN]"),
    # call and return
    ("site may be the end", "if (site < start || site >= end)", "if (site < start || site > end)"),
    ("target jt + 1024 is in the tables", "if (target - jt >= TABLE / 2)", "if (target - jt > TABLE / 2)"),
    ("entry 0 is good", "entry == 0 || ", ""),
    ("entry by the caller's range", "entry < word(slot + RANGES + 4 * called)", "entry < word(slot + RANGES + 4 * domain)"),
    ("pointer may pass the bound", "pointer > bound)", "pointer > bound + 1)"),
    ("12 before 11", "    if (pointer + 1u < top || pointer > bound)\n        REFUSE(11);\n    if (safe_pointer + 5 > top)\n        REFUSE(12);",
     "    if (safe_pointer + 5 > top)\n        REFUSE(12);\n    if (pointer + 1u < top || pointer > bound)\n        REFUSE(11);"),
    ("last byte of the safe stack unused", "if (safe_pointer + 3 > top)", "if (safe_pointer + 3 >= top)"),
    ("bound left as the callee had it", "    put_word(slot + BOUND, bound);\n", ""),
    ("five bytes popped at every return", "safe_pointer -= 3;", "safe_pointer -= 5;"),
    ("old bound not looked at", "|| bound < word(slot + BOUND) || bound >= RAM", "|| bound >= RAM"),
    ("tag 8 taken for 0", "    if (tag > TRUSTED || used < 5)", "    if (tag == 8)\n        tag = 0;\n    if (tag > TRUSTED || used < 5)"),
    ("frame may begin below safe", "if (tag > TRUSTED || used < 5)", "if (tag > TRUSTED || used < 4)"),
    ("popped bytes cleared", "    put_word(slot + BOUND, bound);\n", "    put_word(slot + BOUND, bound);\n    ram[safe_pointer + 4] = 0;\n"),
    # malloc, free and change
    ("one block too few is enough", "if (run >= need)\n", "if (run + 1 >= need)\n"),
    ("a run may end in the safe stack", "if (k + 2 - run > highest)", "if (k + 1 - run > highest)"),
    ("so may one block", "return k < highest ? k + 1 : 0;", "return k <= highest ? k + 1 : 0;"),
    ("a run is forgotten between bytes", "        run = both >= 0xf0;", "        run = 0;"),
    ("a run starts one block late", "return k + 2 - run;", "return k + 2 - need;"),
    ("size rounded down", "need = (unsigned)(((uint32_t)size + 7) / 8);", "need = size < 8 ? 1 : size / 8u;"),
    ("size kept in 16 bits", "((uint32_t)size + 7) / 8", "(uint16_t)(size + 7u) / 8"),
    ("16 before 15", "    if (domain == TRUSTED)\n        REFUSE(15);\n    if (size == 0)\n        REFUSE(16);",
     "    if (size == 0)\n        REFUSE(16);\n    if (domain == TRUSTED)\n        REFUSE(15);"),
    ("segment runs on into its neighbour", "(map[k / 2] & 15u) == more", "(map[k / 2] & 14u) == more"),
    ("segment runs out of the heap", "end = (word(slot + SAFE) - bot) / 8;\n    unsigned more",
     "end = (word(slot + TOP) - bot) / 8;\n    unsigned more"),
    ("address not a block's first byte", "address % 8 || ", ""),
    ("code 15 starts a segment", "code % 2 == 0 || code == FREE", "code % 2 == 0"),
    ("domain 7 may be given a segment", "if (domain >= TRUSTED)", "if (domain > TRUSTED)"),
    ("20 before 18", "    first = own_segment(ram, slot, address);\n    if (first < 0)\n        REFUSE(-first);\n    if (domain >= TRUSTED)\n        REFUSE(20);",
     "    if (domain >= TRUSTED)\n        REFUSE(20);\n    first = own_segment(ram, slot, address);\n    if (first < 0)\n        REFUSE(-first);"),
    # outside what is lent
    ("a byte after the slot read", "return word(slot + DOMAIN) <= TRUSTED", "return *(volatile const uint8_t *)(slot + 48) < 256 && word(slot + DOMAIN) <= TRUSTED"),
    ("a byte before RAM read", "tag = ram[safe_pointer - 1];", "tag = ram[safe_pointer - 1] | (((volatile uint8_t *)ram)[-1] & 0);"),
    ("the table written", "called = (target - jt) / 128;", "called = (target - jt) / 128; *(volatile uint8_t *)table = table[0];"),
]


def main():
    operations = sys.argv[1] if len(sys.argv) > 1 else "100000"
    with open(os.path.join(ROOT, "benchmark", "plain.c"), encoding="utf-8") as text:
        plain = text.read()
    passed = failed = 0
    with tempfile.TemporaryDirectory() as folder:
        def path(name):
            return os.path.join(folder, name)

        def compile_c(words):
            subprocess.run(["gcc", "-std=gnu99", "-O1", "-w", "-Iinclude", "-Itests/c", "-Isecond"] + words, cwd=ROOT, check=True)

        rest = []
        for source in ("tests/c/compare.c", "tests/c/partner.c", "second/machine.c"):
            rest.append(path(os.path.basename(source) + ".o"))
            compile_c(["-DSUBJECT=plain", "-c", source, "-o", rest[-1]])
        for name, old, new in [("no error at all", "", "")] + EDITS:
            if old and plain.count(old) != 1:
                sys.exit("planted.py: %s: the text is there %d times" % (name, plain.count(old)))
            with open(path("plain.c"), "w", encoding="utf-8") as text:
                text.write(plain.replace(old, new) if old else plain)
            compile_c([path("plain.c")] + rest + ["-o", path("compare")])
            told = subprocess.run([path("compare"), operations], stdout=subprocess.DEVNULL, timeout=600).returncode == 1
            if told == bool(old):
                passed += 1
            else:
                failed += 1
                print("NOT SEEN:" if old else "SEEN WITHOUT CAUSE:", name)
    print("c-planted: %d passed, %d failed" % (passed, failed))
    return failed != 0


if __name__ == "__main__":
    sys.exit(main())
