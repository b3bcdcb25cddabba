#!/usr/bin/env python3
"""Run cases for the script program: cases.py PROGRAM

Each case is a configuration, operations and the expected lines. The expected
lines were written by hand from the scope document, not taken from a program.
A line of a run is: count, answer number, value, domain, bound, safe pointer.
"""
import struct
import subprocess
import sys


def words(*numbers):
    return struct.pack("<%dH" % len(numbers), *numbers)


def header(bot, heap, safe, top, jt, ranges, entries, mark=b"HMT", version=1):
    """Section 7; ranges is {domain: (start, end)}, others 0 to 0."""
    out = mark + bytes([version]) + words(bot, heap, safe, top, jt)
    for domain in range(8):
        out += words(*ranges.get(domain, (0, 0)))
    return out + words(len(entries)) + b"".join(words(*e) for e in entries)


def store(address, byte):
    return b"\x01" + words(address) + bytes([byte])


def call(target, site, pointer):
    return b"\x02" + words(target, site, pointer)


RETURN = b"\x03"


def malloc(size):
    return b"\x04" + words(size)


def free(address):
    return b"\x05" + words(address)


def change(address, domain):
    return b"\x06" + words(address) + bytes([domain])


# The sample's configuration (section 7): 32 blocks, map 256 to 271, heap
# blocks 8 to 23, safe stack area 448 to 511.
RANGES = {0: (100, 200), 1: (200, 300), 7: (10, 100)}
ENTRIES = [(0, 100), (128, 200)]


def sample_header(**changed):
    fields = dict(bot=256, heap=320, safe=448, top=512, jt=4096,
                  ranges=RANGES, entries=ENTRIES)
    fields.update(changed)
    return header(**fields)


SAMPLE = sample_header()
# Calls that are good under it, by calling domain.
INTO_0 = {7: (4096, 50), 1: (4096, 250)}
INTO_1 = {0: (4224, 150)}
STARTED = ["HMT 1", "setup 0"]

CASES = []


def case(name, script, expected):
    CASES.append((name, script, expected))


# Section 7, the sample with its printed run.
case("the sample", SAMPLE + b"".join([
    call(4096, 50, 4000), malloc(20), store(343, 9), store(344, 9),
    call(4224, 150, 3990), store(320, 1), store(3991, 1), store(3990, 1),
    malloc(8), change(344, 0), free(344), RETURN, free(344),
    call(120, 130, 0), RETURN, RETURN, RETURN]), STARTED + [
    "1 0 100 0 4000 453",
    "2 0 320 0 4000 453",
    "3 0 0 0 4000 453",
    "4 5 0 0 4000 453",
    "5 0 200 1 3990 458",
    "6 5 0 1 3990 458",
    "7 6 0 1 3990 458",
    "8 0 0 1 3990 458",
    "9 0 344 1 3990 458",
    "10 0 1 1 3990 458",
    "11 19 0 1 3990 458",
    "12 0 150 0 4000 453",
    "13 0 1 0 4000 453",
    "14 0 120 0 4000 456",
    "15 0 130 0 4000 453",
    "16 0 50 7 4095 448",
    "17 13 0 7 4095 448"])

# Section 8: top - 1 = 511 and the bound 4095 are the ends of what passes; the
# called domain then has the pointer as its bound, and a return restores 4095.
case("pointer 511 passes in the fresh state",
     SAMPLE + call(4096, 50, 511) + RETURN,
     STARTED + ["1 0 100 0 511 453", "2 0 50 7 4095 448"])
case("pointer 4095 passes in the fresh state",
     SAMPLE + call(4096, 50, 4095) + RETURN,
     STARTED + ["1 0 100 0 4095 453", "2 0 50 7 4095 448"])
case("pointers 510 and 4096 give 11",
     SAMPLE + call(4096, 50, 510) + call(4096, 50, 4096),
     STARTED + ["1 11 0 7 4095 448", "2 11 0 7 4095 448"])
# With the bound at top - 1 = 511 the first stack byte, 512, is above it.
case("bound 511 leaves no stack byte",
     SAMPLE + call(4096, 50, 511) + store(512, 1) + store(511, 1),
     STARTED + ["1 0 100 0 511 453",
                "2 6 0 0 511 453",      # from top up, above the bound
                "3 5 0 0 511 453"])     # below top: block of another owner

# Section 8: twelve frames of five bytes are 60 of 64; 448 + 60 = 508. A
# thirteenth would end at 513 > 512. A local frame ends at 511, a second would
# end at 514. The odd calls come from 7 or 1 into 0, the even ones from 0
# into 1. Each return gives the site of the call it undoes.
case("twelve cross-domain frames, then one local",
     SAMPLE
     + call(*INTO_0[7], 4000) + call(*INTO_1[0], 3990)
     + call(*INTO_0[1], 3980) + call(*INTO_1[0], 3970)
     + call(*INTO_0[1], 3960) + call(*INTO_1[0], 3950)
     + call(*INTO_0[1], 3940) + call(*INTO_1[0], 3930)
     + call(*INTO_0[1], 3920) + call(*INTO_1[0], 3910)
     + call(*INTO_0[1], 3900) + call(*INTO_1[0], 3890)
     + call(*INTO_0[1], 3880)           # the thirteenth
     + call(210, 250, 0)                # local in domain 1: 200 to 300
     + call(210, 250, 0)                # a second local one
     + RETURN * 14,
     STARTED + [
         "1 0 100 0 4000 453",
         "2 0 200 1 3990 458",
         "3 0 100 0 3980 463",
         "4 0 200 1 3970 468",
         "5 0 100 0 3960 473",
         "6 0 200 1 3950 478",
         "7 0 100 0 3940 483",
         "8 0 200 1 3930 488",
         "9 0 100 0 3920 493",
         "10 0 200 1 3910 498",
         "11 0 100 0 3900 503",
         "12 0 200 1 3890 508",
         "13 12 0 1 3890 508",
         "14 0 210 1 3890 511",
         "15 12 0 1 3890 511",
         "16 0 250 1 3890 508",         # the local frame: bound stays
         "17 0 150 0 3900 503",
         "18 0 250 1 3910 498",
         "19 0 150 0 3920 493",
         "20 0 250 1 3930 488",
         "21 0 150 0 3940 483",
         "22 0 250 1 3950 478",
         "23 0 150 0 3960 473",
         "24 0 250 1 3970 468",
         "25 0 150 0 3980 463",
         "26 0 250 1 3990 458",
         "27 0 150 0 4000 453",
         "28 0 50 7 4095 448",
         "29 13 0 7 4095 448"])

# Section 8: top 4096. n = (4096 - 256) / 8 = 480, m = 240, so heap may start
# at 496. The only bound is 4095 = top - 1, the only pointer that passes too.
# Below top a store is judged by its block, at 4096 there is no RAM: so no
# address is left where a store could be a stack store.
TOP = sample_header(bot=256, heap=496, safe=4032, top=4096)
case("top 4096: no stack store",
     TOP + call(4096, 50, 4094) + call(4096, 50, 4096)
     + call(4096, 50, 4095) + store(4095, 1) + store(4096, 1)
     + malloc(3536) + store(4031, 1) + store(4032, 1),
     STARTED + ["1 11 0 7 4095 4032",
                "2 11 0 7 4095 4032",
                "3 0 100 0 4095 4037",
                "4 5 0 0 4095 4037",    # the safe stack area's last block
                "5 4 0 0 4095 4037",
                "6 0 496 0 4095 4037",  # the whole heap, 442 blocks
                "7 0 0 0 4095 4037",    # its last byte
                "8 5 0 0 4095 4037"])   # the safe stack area's first byte
# n = 481, m = 241, 256 + 241 = 497 <= 504: only top itself is wrong.
case("top 4104 is refused", sample_header(heap=504, safe=4032, top=4104),
     ["HMT 1", "setup 2"])

# Section 2, bot + m <= heap: 16 map bytes end at 272. 264 is one block less.
case("heap right after the map",
     sample_header(heap=272) + call(4096, 50, 4000) + malloc(176) + malloc(1),
     STARTED + ["1 0 100 0 4000 453",
                "2 0 272 0 4000 453",   # 22 blocks, 272 to 447, all of it
                "3 17 0 0 4000 453"])
case("heap inside the map", sample_header(heap=264), ["HMT 1", "setup 2"])
# Section 2, the heap and the safe stack area may be empty.
case("empty heap, empty safe stack area",
     sample_header(heap=512, safe=512) + call(120, 50, 0) + call(20, 50, 0)
     + RETURN + free(512) + store(511, 9) + store(256, 0),
     STARTED + ["1 8 0 7 4095 512",     # 120 is not in domain 7's range
                "2 12 0 7 4095 512",    # no room for three bytes
                "3 13 0 7 4095 512",
                "4 18 0 7 4095 512",
                "5 0 0 7 4095 512",     # domain 7 stores anywhere
                "6 0 0 7 4095 512"])

# Section 9, the errors easily made.
case("block 0 and the first safe stack block are not handed out",
     SAMPLE + call(4096, 50, 4000) + malloc(128) + malloc(1) + free(256)
     + free(448) + free(320),
     STARTED + ["1 0 100 0 4000 453",
                "2 0 320 0 4000 453",   # the whole heap, 16 blocks
                "3 17 0 0 4000 453",
                "4 18 0 0 4000 453",
                "5 18 0 0 4000 453",
                "6 0 16 0 4000 453"])
case("a freed segment does not run on into the next one",
     SAMPLE + call(4096, 50, 4000) + malloc(9) + malloc(8) + malloc(16)
     + free(320) + store(336, 1) + free(344) + store(336, 1) + store(320, 1),
     STARTED + ["1 0 100 0 4000 453",
                "2 0 320 0 4000 453",
                "3 0 336 0 4000 453",
                "4 0 344 0 4000 453",
                "5 0 2 0 4000 453",
                "6 0 0 0 4000 453",     # 336 is still a segment
                "7 0 2 0 4000 453",
                "8 0 0 0 4000 453",
                "9 5 0 0 4000 453"])
case("the bound is the last allowed byte, and comes back",
     SAMPLE + call(4096, 50, 3000) + store(3000, 1) + store(3001, 1)
     + RETURN + store(3001, 1) + call(4096, 50, 3001) + store(3001, 1),
     STARTED + ["1 0 100 0 3000 453",
                "2 0 0 0 3000 453",
                "3 6 0 0 3000 453",
                "4 0 50 7 4095 448",
                "5 0 0 7 4095 448",
                "6 0 100 0 3001 453",
                "7 0 0 0 3001 453"])

# Section 5, damage met after trusted stores.
case("damaged tag, then a tag that needs more bytes than there are",
     SAMPLE + call(20, 50, 0) + store(450, 8) + RETURN + store(450, 7)
     + RETURN + store(450, 255) + RETURN,
     STARTED + ["1 0 20 7 4095 451",    # frame 50, 0, 255 at 448 to 450
                "2 0 0 7 4095 451",
                "3 14 0 7 4095 451",    # 8 is no tag
                "4 0 0 7 4095 451",
                "5 14 0 7 4095 451",    # five bytes needed, three there
                "6 0 0 7 4095 451",
                "7 0 50 7 4095 448"])
# Map byte 260 holds blocks 8 (low half) and 9 (high half).
# 0x01 makes block 8 start and block 9 continue a segment of domain 0, and 0
# throughout to the map's end lets it run on: it stops where the heap stops.
case("a segment that damage lets run on stops at the heap's end",
     SAMPLE + store(260, 1) + b"".join(store(a, 0) for a in range(261, 272))
     + call(4096, 50, 4000) + store(511, 3) + free(320) + store(448, 3),
     STARTED + ["%d 0 0 7 4095 448" % k for k in range(1, 13)]
     + ["13 0 100 0 4000 453",
        "14 0 0 0 4000 453",            # the damage gave it the safe area
        "15 0 16 0 4000 453",           # heap blocks 8 to 23, no further
        "16 0 0 0 4000 453"])           # block 24 is as the damage left it

# Section 7, the ends of a file.
case("unknown operation", SAMPLE + RETURN + b"\x07" + RETURN,
     STARTED + ["1 13 0 7 4095 448", "cut"])
case("operation 0", SAMPLE + b"\x00", STARTED + ["cut"])
case("cut store", SAMPLE + RETURN + store(1, 1)[:-1],
     STARTED + ["1 13 0 7 4095 448", "cut"])
case("no operations", SAMPLE, STARTED)
case("refused set-up stops before the unknown operation",
     sample_header(bot=512) + b"\x07", ["HMT 1", "setup 2"])
case("cut header", SAMPLE[:-1], ["bad"])
case("empty file", b"", ["bad"])
case("wrong mark", sample_header(mark=b"HMU") + RETURN, ["bad"])
case("wrong version", sample_header(version=2) + RETURN, ["bad"])
case("index 1023", sample_header(entries=[(1023, 10)]) + call(5119, 10, 4095),
     STARTED + ["1 0 10 7 4095 453"])   # 5119 is domain 7, word 1023
case("index 1024", sample_header(entries=[(1024, 10)]) + RETURN, ["bad"])
case("index 1024 comes before a refused set-up",
     sample_header(bot=512, entries=[(1024, 10)]), ["bad"])
case("later entries win",
     sample_header(entries=[(0, 0), (0, 100), (128, 200), (128, 300)])
     + call(4096, 50, 4000) + call(4224, 150, 4000),
     STARTED + ["1 0 100 0 4000 453",
                "2 10 0 0 4000 453"])   # 300 is the end of 200 to 300
FULL = 65536 - len(SAMPLE)
case("65,536 bytes run", SAMPLE + RETURN * FULL,
     STARTED + ["%d 13 0 7 4095 448" % k for k in range(1, FULL + 1)])
case("65,537 bytes are long", SAMPLE + RETURN * (FULL + 1), ["long"])
case("long comes before bad", b"\x00" * 65537, ["long"])


def main():
    if len(sys.argv) != 2:
        sys.exit("usage: cases.py PROGRAM")
    failed = 0
    for name, script, expected in CASES:
        run = subprocess.run([sys.argv[1]], input=script,
                             stdout=subprocess.PIPE, timeout=60)
        want = "".join(line + "\n" for line in expected).encode()
        if run.stdout == want:
            print("pass  " + name)
            continue
        failed += 1
        print("FAIL  " + name)
        got = run.stdout.decode(errors="replace").split("\n")
        wanted = want.decode().split("\n")
        for k in range(max(len(got), len(wanted))):
            g = got[k] if k < len(got) else "(nothing)"
            w = wanted[k] if k < len(wanted) else "(nothing)"
            if g != w:
                print("      line %d: expected %r, printed %r" % (k + 1, w, g))
                break
    print("cases: %d passed, %d failed" % (len(CASES) - failed, failed))
    return 1 if failed else 0


if __name__ == "__main__":
    sys.exit(main())
