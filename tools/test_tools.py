#!/usr/bin/env python3
"""Tests of the converter tools/hmtscript.py, of ./run, and of tools/contracts.py, tools/addresses.py and tools/must_fail.py.

  python3 tools/test_tools.py PROGRAM       a program that reads a script on standard input
"""

import os
import random
import re
import shutil
import struct
import subprocess
import sys
import tempfile
import time
import unittest
from pathlib import Path

sys.dont_write_bytecode = True
ROOT = Path(__file__).resolve().parent.parent
sys.path.insert(0, str(ROOT / "tools"))

import hmtscript
import must_fail
import replay

PROGRAM = ""
RUN, CONVERT = [str(ROOT / "run")], [sys.executable, str(ROOT / "tools" / "hmtscript.py")]

SAMPLE_ANSWERS = b"""\
HMT 1
setup 0
1 0 100 0 4000 453
2 0 320 0 4000 453
3 0 0 0 4000 453
4 5 0 0 4000 453
5 0 200 1 3990 458
6 5 0 1 3990 458
7 6 0 1 3990 458
8 0 0 1 3990 458
9 0 344 1 3990 458
10 0 1 1 3990 458
11 19 0 1 3990 458
12 0 150 0 4000 453
13 0 1 0 4000 453
14 0 120 0 4000 456
15 0 130 0 4000 453
16 0 50 7 4095 448
17 13 0 7 4095 448
"""
# The sample's configuration, 10 lines, and its header in bytes, put down by hand.
CONFIGURATION = """bot 256\nheap 320\nsafe 448\ntop 512\njt 4096
range 0 100 200\nrange 1 200 300\nrange 7 10 100\nentry 0 100\nentry 128 200\n"""
HEADER = bytes.fromhex("484d54 01 0001 4001 c001 0002 0010 6400c800 c8002c01" + "00000000" * 5 + "0a006400"
                       "0200 00006400 8000c800")

# Mistakes: the text that stands below the sample's configuration (so its first line is 11), and the message.
MISTAKES = {
    "store 343": "11: store wants an address and a byte, got 1 number",
    "store": "11: store wants an address and a byte, got no number",
    "\n# fine\nreturn\nreturn 1": "14: return wants nothing after it, got 1 number",
    "call 4096 50": "11: call wants a target, a return site and a stack pointer, got 2 numbers",
    "call 1 2 3 4": "11: call wants a target, a return site and a stack pointer, got 4 numbers",
    "malloc": "11: malloc wants a size, got no number",
    "free 1 2": "11: free wants an address, got 2 numbers",
    "change 344": "11: change wants an address and a domain, got 1 number",
    "store 65536 1": "11: the address `65536` is out of range: 0 to 65535",
    "store 0x10000 1": "11: the address `0x10000` is out of range: 0 to 65535",
    "return\nstore 1 256": "12: the byte `256` is out of range: 0 to 255",
    "store -1 1": "11: the address `-1` is not a number (decimal or 0x hex)",
    "store 1_0 1": "11: the address `1_0` is not a number (decimal or 0x hex)",
    "store 0x 1": "11: the address `0x` is not a number (decimal or 0x hex)",
    "store \u0663 1": "11: the address `\u0663` is not a number (decimal or 0x hex)",
    "store " + "9" * 9999 + " 1": "11: the address `999999999999999999999...` is out of range: 0 to 65535",
    "change 344 256": "11: the domain `256` is out of range: 0 to 255",
    "change 344 modem": "11: the domain `modem` is not a number (decimal or 0x hex), nor a name given above",
    "sotre 1 2": "11: unknown word `sotre`; the words are name, bot, heap, safe, top, jt, range, entry,"
                 " store, call, return, malloc, free, change",
    "Store 1 2": "11: unknown word `Store`;",
    "jt 5000": "11: jt was given on line 5 already",
    "range 0 5 6": "11: range 0 was given on line 6 already",
    "entry 0x80 5": "11: entry 128 was given on line 10 already",
    "name a 1\nname a 2": "12: name a was given on line 11 already",
    "name a 1\nname b 1": "12: name of domain 1 was given on line 11 already",
    "name 7 1": "11: `7` can't be a name",
    "name a": "11: name wants a name and a domain, got 1 word",
    "name a 8": "11: the domain `8` is out of range: 0 to 7",
    "range 8 1 2": "11: the domain `8` is out of range: 0 to 7",
    "range 2 1": "11: range wants a domain, a start and an end, got 2 numbers",
    "entry 1024 1": "11: the table index `1024` is out of range: 0 to 1023",
    "entry 1": "11: entry wants a table index and a flash address, got 1 number",
    "bot": "11: bot wants an address, got no number",
    "return\nentry 3 100": "12: entry belongs to the configuration and must stand above the operations",
    "store 1 1\n" * 16375: "16381: here the script passes 65536 bytes, the most that the program takes",
}

# Below the sample's configuration this draws every refusal that a script can draw, in the order of REFUSED.
REFUSING = """name pump 0
call 20 30 0
store 450 9
return
store 450 255
return
store 4096 1
call 4096 5 4000
call 200 50 0
call 5120 50 4000
call 4097 50 4000
call 4096 50 510
return
malloc 8
call 4096 50 4000
store 0 1
store 256 1
store 4001 1
malloc 0
malloc 1000
free 320
malloc 8
change 320 7
call 4224 150 4000
free 320
""" + "call 4224 250 4000\n" * 11
REFUSED = [14, 4, 7, 8, 9, 10, 11, 13, 15, 5, 5, 6, 16, 17, 18, 20, 19, 12]


def random_script(rng):
    """A binary script made without the converter: most with a good end, some cut or with an unknown operation."""
    def words(count):
        return struct.pack(f"<{count}H", *(rng.choice((0, 256, 4096, rng.randrange(65536))) for _ in range(count)))

    entries = [(rng.randrange(1024), rng.randrange(65536)) for _ in range(rng.choice((0, 1, 5, 300)))]
    head = HEADER[:46] if rng.random() < 0.5 else b"HMT\x01" + words(5 + 16)
    head += struct.pack("<H", len(entries)) + b"".join(struct.pack("<2H", *pair) for pair in entries)
    sizes = {1: 3, 2: 6, 3: 0, 4: 2, 5: 2, 6: 3}
    numbers = rng.choices(list(sizes), k=rng.randrange(40))
    operations = [bytes([number]) + rng.randbytes(sizes[number]) for number in numbers]
    end = rng.choice((b"", b"", b"", b"\x00", b"\xff" + rng.randbytes(9), b"\x01\x02\x03", b"\x02\x00", b"\x06"))
    return head, entries, operations, end


class Tools(unittest.TestCase):
    def setUp(self):
        folder = tempfile.TemporaryDirectory()
        self.addCleanup(folder.cleanup)
        self.folder = Path(folder.name)

    def file(self, name, content):
        path = self.folder / name
        path.write_bytes(content.encode() if isinstance(content, str) else content)
        return str(path)

    def start(self, command, *words, env=None, **more):
        env = {**os.environ, "HMT": PROGRAM, "COLUMNS": "100", **(env or {})}
        more.setdefault("stdin", subprocess.DEVNULL)
        more.setdefault("stdout", subprocess.PIPE)
        result = subprocess.run([*command, *map(str, words)], stderr=subprocess.PIPE, env=env, **more)
        result.stderr = result.stderr.decode()
        self.assertNotIn("Traceback", result.stderr)
        return result

    def good(self, *words, **more):
        result = self.start(*words, **more)
        self.assertEqual((result.returncode, result.stderr), (0, ""))
        return result.stdout

    def refused(self, status, message, *words, **more):
        """It ends with this status and says this, in one line, on standard error."""
        result = self.start(*words, **more)
        self.assertIn(message, result.stderr)
        self.assertEqual((result.returncode, result.stderr.count("\n")), (status, 1), result.stderr)
        return result.stdout

    # ---- the converter ----

    def test_sample_gives_the_documents_answers(self):
        sample, binary = ROOT / "examples" / "sample.txt", self.folder / "sample.hmt"
        self.good(CONVERT, "to-binary", sample, binary)
        self.assertEqual(binary.read_bytes()[:len(HEADER)], HEADER)
        for file in (sample, binary):
            self.assertEqual(self.good(RUN, "--plain", file), SAMPLE_ANSWERS)

    def test_operations_in_bytes(self):
        script = hmtscript.from_text((CONFIGURATION + "store 343 9\ncall 4096 50 4000\nreturn\nmalloc 20\nfree 344"
                                      "\nchange 344 1").encode(), "t")
        self.assertEqual(hmtscript.to_binary(script)[len(HEADER):].hex(),
                         "01570109" "0200103200a00f" "03" "041400" "055801" "06580101")

    def test_text_is_free_in_its_layout(self):
        """Hex, tabs, Windows line ends, comments, names, another order, no last line end: the same script."""
        plain = hmtscript.from_text((CONFIGURATION + "store 343 9\nchange 344 1\n").encode(), "t")
        lines = CONFIGURATION.replace("range 1", "range 0x1").replace("256", "0X100").splitlines()[::-1]
        free = "\r\n".join(["\ufeff# head", "name level 1", *lines, "", "\tstore\t0x157   9# nine", "change 344 level"])
        free = hmtscript.from_text(free.encode(), "t")
        free.entries = dict(sorted(free.entries.items()))  # entries keep the text's order
        self.assertEqual(hmtscript.to_binary(free), hmtscript.to_binary(plain))
        self.assertEqual(replay.Replay(free).set_up()[1], replay.Replay(plain).set_up()[1])

    def test_round_trips(self):
        rng = random.Random(1)
        for turn in range(400):
            head, entries, operations, end = random_script(rng)
            with self.subTest(turn=turn):
                text = hmtscript.to_text(hmtscript.from_binary(head + b"".join(operations) + end))
                binary = hmtscript.to_binary(hmtscript.from_text(text.encode(), "t"))
                if len(dict(entries)) == len(entries):  # else the ones that are replaced are left out
                    self.assertEqual(binary, head + b"".join(operations))
                self.assertTrue(binary.endswith(b"".join(operations)))
                self.assertEqual(dict(entries), hmtscript.from_binary(binary).entries)
                self.assertEqual("`cut`" in text, bool(end))
                again = hmtscript.to_text(hmtscript.from_binary(binary))
                self.assertEqual(hmtscript.to_binary(hmtscript.from_text(again.encode(), "t")), binary)
                self.assertEqual(hmtscript.to_text(hmtscript.from_binary(binary)), again)

    def test_examples_round_trip(self):
        for path in (ROOT / "examples").glob("*.txt"):
            binary = hmtscript.to_binary(hmtscript.from_text(path.read_bytes(), path.name))
            text = hmtscript.to_text(hmtscript.from_binary(binary))
            self.assertEqual(hmtscript.to_binary(hmtscript.from_text(text.encode(), "t")), binary)

    def test_every_cut_of_the_sample(self):
        sample = hmtscript.to_binary(hmtscript.from_text((ROOT / "examples" / "sample.txt").read_bytes(), "t"))
        for length in range(len(sample)):
            try:
                script = hmtscript.from_binary(sample[:length])
            except hmtscript.Problem:
                self.assertLess(length, len(HEADER))
                continue
            self.assertGreaterEqual(length, len(HEADER))
            kept = len(hmtscript.to_binary(script))
            self.assertEqual((sample[:kept], bool(script.damage)), (hmtscript.to_binary(script), kept < length))

    def test_converted_scripts_run_alike(self):
        """The program answers a script and the script made from its text alike, up to `cut`."""
        rng = random.Random(2)
        for turn in range(12):
            head, _, operations, end = random_script(rng)
            with self.subTest(turn=turn):
                binary = self.file("a.hmt", head + b"".join(operations) + end)
                text = self.file("a.txt", self.good(CONVERT, "to-text", binary))
                answers = self.good(RUN, "--plain", binary)
                self.assertEqual(answers.replace(b"cut\n", b""), self.good(RUN, "--plain", text))
                whole = not end and b"setup 0" in answers
                page = self.page(binary, status=0 if whole else 1)
                self.assertEqual(self.answers_of(page), answers.decode().splitlines())

    def test_mistakes_name_file_and_line(self):
        for number, (lines, message) in enumerate(MISTAKES.items()):
            with self.subTest(message=message):
                path = self.file("wrong.txt", CONFIGURATION + lines)
                with self.assertRaises(hmtscript.Problem) as caught:
                    hmtscript.from_text(Path(path).read_bytes(), path)
                self.assertIn(f"{path}:{message}", str(caught.exception) + "$")
                if number % 8 == 0:  # and the same by the commands
                    self.refused(2, f"{path}:{message}", CONVERT, "to-binary", path, self.folder / "out.hmt")
                    for words in ((path,), ("--plain", path)):
                        self.assertEqual(self.refused(2, f"{path}:{message}", RUN, *words), b"")
                    self.assertFalse((self.folder / "out.hmt").exists())

    def test_missing_configuration(self):
        for text, message in (("# nothing\n", "wrong.txt: the configuration lacks bot, heap, safe, top and jt"),
                              ("bot 1\nheap 1\nsafe 1\njt 1\n\nreturn\n", "wrong.txt:6: the configuration lacks top")):
            self.refused(2, message, RUN, self.file("wrong.txt", text))

    def test_what_is_no_script(self):
        header = bytearray(HEADER)
        header[48:50] = b"\x00\x04"
        for data, message in ((b"", "the file is empty"), (b"HM", "does not begin with the mark HMT"),
                              (b"\x7fELF\x01\x00\x00", "does not begin with the mark HMT"),
                              ("bot 256\n".encode("utf-16"), "does not begin with the mark HMT"),
                              (b"HMT", "ends after the mark"), (b"HMT 1\n", "its version is 32"),
                              (HEADER[:47], "its header is cut: 47 bytes, and it needs 48"),
                              (HEADER[:55], "its header is cut: 55 bytes, and it needs 56"),
                              (bytes(header), "jump table word 1024")):
            with self.subTest(data=data[:12]):
                path = self.file("wrong.hmt", data)
                self.refused(2, message, CONVERT, "to-text", path)
                self.assertEqual(self.refused(1, message, RUN, path), b"")
                self.assertEqual(self.good(RUN, "--plain", path), b"bad\n")

    def test_files_that_cannot_be_read_or_written(self):
        missing, sample = self.folder / "missing", ROOT / "examples" / "sample.txt"
        latin = self.file("latin.txt", b"# ok\n# \xe9t\xe9\n")
        for command in ([*CONVERT, "to-text"], [*CONVERT, "to-binary"], RUN, [*RUN, "--plain"]):
            self.refused(2, "missing: can't be read: No such file", command, missing)
            self.refused(2, "can't be read: Is a directory", command, self.folder)
        self.refused(2, "latin.txt:2: not UTF-8 text", RUN, latin)
        self.refused(2, "not a text", CONVERT, "to-binary", self.file("a.hmt", HEADER))
        self.refused(2, "can't be written", CONVERT, "to-binary", sample, self.folder / "no" / "out")
        self.refused(2, "longer than any text", RUN, self.file("big.txt", "#\n" * (1 << 21) + "#\n"))
        self.refused(2, "can't be run", RUN, sample, env={"HMT": str(missing)})

    @unittest.skipIf(os.geteuid() == 0, "root may read anything")
    def test_no_permission(self):
        path = self.file("closed.txt", CONFIGURATION)
        os.chmod(path, 0)
        self.refused(2, "can't be read: Permission denied", RUN, path)

    def test_long_files(self):
        script = HEADER + b"\x03" * 65536
        path = self.file("long.hmt", script[:65536])
        self.assertTrue(self.good(RUN, "--plain", path).startswith(b"HMT 1\nsetup 0\n1 13 "))
        path = self.file("long.hmt", script[:65537])
        self.assertEqual(self.good(RUN, "--plain", path), b"long\n")
        self.assertEqual(self.refused(1, "more than 65536 bytes", RUN, path), b"")
        self.assertIn(b"the program only prints `long`", self.good(CONVERT, "to-text", path))
        self.refused(1, "more than 65536 bytes", RUN, "/dev/zero")

    def test_output_that_nobody_takes(self):
        sample = ROOT / "examples" / "sample.txt"
        for command in ([*CONVERT, "to-binary"], RUN, [*RUN, "--plain"]):
            read, write = os.pipe()
            os.close(read)
            self.assertEqual(self.start(command, sample, stdout=write).stderr, "")
            os.close(write)
            with open("/dev/full", "wb") as full:
                self.refused(2, "No space left", command, sample, stdout=full)
            self.start(["sh", "-c", 'exec "$@" >&-', "sh", *command], sample)

    def test_standard_input_and_output(self):
        with open(ROOT / "examples" / "sample.txt", "rb") as sample:
            binary = self.good(CONVERT, "to-binary", "-", stdin=sample)
        with open(self.file("a.hmt", binary), "rb") as script:
            self.assertEqual(self.good(RUN, "--plain", "-", stdin=script), SAMPLE_ANSWERS)

    # ---- the replay ----

    def page(self, *words, status=0):
        """The replay as text, once it is seen to be fit for a terminal of 100 columns."""
        result = self.start(RUN, *words)
        self.assertEqual(result.returncode, status, result.stderr)
        page = result.stdout.decode()
        for line in page.splitlines():
            self.assertLessEqual(len(line), 100, line)
            self.assertEqual(line, line.rstrip())
            self.assertTrue(line.isprintable(), line)
        return page

    def answers_of(self, page):
        """The program's lines, as they stand at the left edge of the replay."""
        return [line for line in (re.split("  +", line)[0] for line in page.splitlines())
                if re.fullmatch(r"HMT \d+|setup \d+|\d+( \d+){5}|cut", line)]

    def test_incident(self):
        page, plain = self.page(), self.good(RUN, "--plain").decode()
        self.assertEqual(self.answers_of(page), plain.splitlines())
        flat = " ".join(page.split())
        for words in ("modem malloc 24 # room for two messages of 12 bytes done: the segment starts at 512: 3 blocks",
                      "level malloc 24 # room for two readings: the same blocks done: the segment starts at 512",
                      "-> level done: goes on at word 12000 (table word 128)",
                      "21 5 0 0 4080 2821 modem store 512 6 # 02:10 would become 06:10 REFUSED 5: modem may not write"
                      " at 512: the block is not its own (level took it in line 10)",
                      "34 operations: 29 done, 5 refused (lines 21 to 25)",
                      "512 to 515 2 10 31 1 (by level, lines 11 to 13, 31)",
                      "524 to 527 2 40 38 1 (by level, lines 16 to 18, 32)"):
            self.assertIn(words, flat)
        self.assertEqual(plain.count(" 5 0 0 4080 2821\n"), 4)

    def test_every_refusal_in_words(self):
        self.assertEqual(list(replay.REFUSALS), list(range(1, 21)))
        page = self.page(self.file("a.txt", CONFIGURATION + REFUSING))
        self.assertEqual([int(number) for number in re.findall(r"REFUSED (\d+): ", page)], REFUSED)
        self.assertNotIn("?", page)
        flat = " ".join(page.split())
        for words in ("pump may not write at 0: that is below the protected range, 256 to 511",
                      "the segment at 320 is not domain 1's (pump took it in line 21)",
                      "jump table word 1 holds 0, no place in pump's code, 100 to 199",
                      "the stack pointer 510 is not from 511 (top - 1) to 4095 (the bound)"):
            self.assertIn(words, flat)

    def test_answers_that_no_script_draws(self):
        """Numbers 1 and 3, one that is not known yet, and an answer to another question."""
        path = self.file("a.txt", CONFIGURATION + "return\nreturn\nreturn\nstore 1 1\n")
        lines = "".join(f"{at} {number} 0 7 4095 448\n" for at, number in enumerate((1, 3, 99, 10), 1))
        canned = self.program("HMT 1\nsetup 0\n" + lines)
        page = self.start(RUN, path, env={"HMT": canned}).stdout.decode()
        for words in ("REFUSED 1: the RAM is", "REFUSED 3: the state is", "REFUSED 99: a number that", "REFUSED 10: "):
            self.assertIn(words, page)

    def program(self, output, status=0):
        path = self.file("program", f"#!/bin/sh\ncat > /dev/null\nprintf '%s' '{output}'\nexit {status}\n")
        os.chmod(path, 0o755)
        return path

    def test_programs_that_go_wrong(self):
        path = self.file("a.txt", CONFIGURATION + "return\n")
        for output in ("", "HMT 1\n", "HMT 2\nsetup 0\n", "HMT 1\nsetup 0\n", "HMT 1\nsetup 0\n1 0 0\n",
                       "HMT 1\nsetup 0\ncut\n", "HMT 1\nsetup x\n", "HMT 1\nsetup 0\n2 0 0 7 1 1\n",
                       "HMT 1\nsetup 0\n1 13 0 7 4095 448\ncut\n",
                       "HMT 1\nsetup 0\n1 13 0 7 4095 448", "HMT 1\nsetup 2\n1 13 0 7 4095 448\n"):
            with self.subTest(output=output):
                self.assertEqual(self.refused(2, "program", RUN, path, env={"HMT": self.program(output)}), b"")
        self.refused(2, "ended with status 3", RUN, path, env={"HMT": self.program("HMT 1\n", 3)})

    def test_cut_is_explained(self):
        for end, words in ((b"\x02\x00", "the script ends inside a call: 2 of its 7 bytes"),
                           (b"\xff\x00\x00", "255 is not the number of an operation; 3 bytes from there on are not")):
            path = self.file("cut.hmt", HEADER + b"\x03" + end)
            page = self.page(path, status=1)
            self.assertEqual(self.answers_of(page), ["HMT 1", "setup 0", "1 13 0 7 4095 448", "cut"])
            self.assertIn(words, " ".join(page.split()))
            self.refused(1, words, RUN, path)

    def test_refused_set_up_is_explained(self):
        for lines, words in ((["bot 257"], "bot 257 is not a multiple of 8"),
                             (["bot 512"], "bot 512 is not below top 512"),
                             (["heap 264"], "the map ends at 272 and heap is 264"),
                             (["heap 456"], "heap 456 is above safe 448"),
                             (["safe 520"], "safe 520 is above top 512"),
                             (["heap 560", "safe 560", "top 4104"], "top 4104 is above 4096, the end of RAM"),
                             (["jt 64513"], "jt 64513 is above 64512"),
                             (["range 0 200 100"], "the code range of domain 0, 200 to 100, ends before it starts"),
                             (["range 1 200 4097"], "the code range of domain 1, 200 to 4097, passes jt 4096"),
                             (["range 1 199 300"], "the code ranges of domains 0 and 1 overlap")):
            with self.subTest(words=words):
                text = CONFIGURATION
                for line in lines:
                    key = re.match(r"range \d+|\w+", line)[0]
                    text = re.sub(f"^{key} .*", line, text, flags=re.M)
                path = self.file("a.txt", text + "return\n")
                page = self.page(path, status=1)
                self.assertEqual(self.answers_of(page), ["HMT 1", "setup 2"])
                self.assertIn(f"REFUSED 2: a rule of the configuration is broken: {words}", " ".join(page.split()))
                self.refused(1, "the set-up was refused, and no operation was tried", RUN, path)

    def test_a_broken_rule_is_found_exactly_when_set_up_is_refused(self):
        rng = random.Random(3)
        for turn in range(100):
            settings = [256, 320, 448, 512, 4096]
            ranges = [0, 0] * 8
            for domain in range(8):
                start = rng.randrange(40) * 100
                ranges[2 * domain:2 * domain + 2] = start, start + rng.choice((0, 0, 50, 100, 100, 150))
            for _ in range(rng.choice((0, 0, 1, 2))):
                settings[rng.randrange(5)] = rng.choice((0, 256, 260, 264, 272, 320, 448, 512, 1000, 4096, 64512))
            data = b"HMT\x01" + struct.pack("<22H", *settings, *ranges, 0)
            found = replay.broken_rule(hmtscript.from_binary(data))
            answer = subprocess.run([PROGRAM], input=data, stdout=subprocess.PIPE).stdout
            wanted = b"HMT 1\nsetup 0\n" if found == replay.NO_RULE else b"HMT 1\nsetup 2\n"
            self.assertEqual(answer, wanted, (settings, ranges, found))

    def test_help(self):
        self.assertIn(b"./run --plain FILE", self.good(RUN, "--help"))
        self.assertIn(b"change <address> <domain>", self.good(CONVERT, "--help"))
        self.assertEqual(self.start(RUN, "--wrong").returncode, 2)
        self.assertEqual(self.start(CONVERT, "to-nothing", "a").returncode, 2)

    # ---- contracts ----

    def contracts(self, *changes, **more):
        """What tools/contracts.py says of a made-up crate, with more files or others in the place of some, after some texts in them were put in
        the place of others."""
        files = {
            "crates/promises/specs/Uniqueness.antt": """
use Rattle.std.specs.Prelude.{ℕ, ◌+◌, ◌<◌, ◌≡◌, List, length}
use Rattle.rules.specs.declared.Word.{Word}
use Rattle.rules.specs.Sums.{sum, word}

pub record Uniqueness : Type 1 where
  pub only_total : (xs : List ℕ) (n : ℕ) → Only (λ r. (r ≡ sum xs + n) × (n < length xs → r ≡ 0))
  pub only_next : (k : Word) (n : ℕ) → Only (λ r. r ≡ word (k.0 + n))
  pub only_most : (n : ℕ) → Only (λ m. (m ≡ n) × ((j : ℕ) → j < n → j < m))
  pub only_put : (shown : ℕ → ℕ) (n : ℕ) (out : List ℕ)
      → Only2 (λ r out'. (r ≡ (shown n)) × (out' ≡ sum out + r))
  pub only_clear : (out : List ℕ) → Only (λ out'. out' ≡ out)
""",
            "crates/thing/specs/Own.antt": """
use Rattle.std.specs.Prelude.{ℕ, ◌+◌, ◌≡◌, List}
use Rattle.rules.specs.Sums.{sum}

pub shown : ℕ → ℕ
shown n = n + n

abbrev pub Wrote : List ℕ → List ℕ → ℕ → ℕ → Type 0
Wrote before after text r =
    (r ≡ text)
    × (after ≡ sum before + r)
""",
            "crates/thing/src/lib.rt": """
ghost use Rattle.std.specs.Prelude.{◌≡◌, ℕ, ◌+◌, ◌<◌, length};
ghost use Rattle.rules.specs.Sums.{sum, word};
ghost use Rattle.thing.specs.Own.{shown, Wrote};

use rules::{State, Word};

pub fn total(xs: &[u8], n: u16) -> u32
    ensures { (result ≡ sum xs.now + n) × (n < length xs.now → result ≡ 0) }
{ }

pub fn next(k: Word, n: u16) -> Word
    requires low { n < 9 }
    requires high { 3 < n }
    ensures { result ≡ word (k.0 + n) }
{ }

pub fn most(mut n: u16) -> u16
    ensures same { result ≡ n }
    ensures least { (j : ℕ) → j < n → j < result }
{ }

pub fn put(n: u16, out: &mut [u8]) -> u16
    ensures { Wrote out.old out.new (shown n) result }
{ }

#[unsafe(no_mangle)]
pub extern "C" fn clear(out: &mut [u8])
    ensures { out.new ≡ out.old }
{ }
""",
        }
        files |= more
        for name, old, new in changes:
            name = next(path for path in files if path.endswith(name))
            self.assertIn(old, files[name])
            files[name] = files[name].replace(old, new)
        root = Path(tempfile.mkdtemp(dir=self.folder))
        for name, text in files.items():
            (root / name).parent.mkdir(parents=True, exist_ok=True)
            (root / name).write_text(text, encoding="utf-8")
        result = self.start([sys.executable, str(ROOT / "tools" / "contracts.py")], root)
        page = result.stdout.decode()
        self.assertEqual(result.returncode, 0 if page.endswith(" 0 failed\n") else 1)
        return page

    def test_contracts_that_are_unique(self):
        page = self.contracts()
        self.assertTrue(page.endswith("alone: thing::next\ncontracts: 5 passed, 0 failed\n"), page)

    def test_contracts_that_say_something_else(self):
        """In the words, in the places that they speak of, and in the names that stand for these."""
        lib, record = "lib.rt", "Uniqueness.antt"
        for wrong, failed, *change in (
                ("its field says", 1, lib, "sum xs.now + n", "sum xs.now + 1"),
                ("its field says", 1, lib, "    ensures same { result ≡ n }\n", ""),
                ("its field says", 1, lib, "    ensures least { (j : ℕ) → j < n → j < result }\n", ""),
                ("its field says", 1, lib, "out.new ≡ out.old", "out.old ≡ out.new"),
                ("its field says", 1, record, "(n < length xs → r ≡ 0)", "(n < length xs) × (r ≡ 0)"),
                ("it has no contract", 1, lib, "    ensures { out.new ≡ out.old }\n", ""),
                ("has no field of its name", 2, record, "only_clear", "only_cleared"),
                ("has a field only_other, and no public function has that name", 1, record, "  pub only_clear :", "  pub only_other : Only (λ r. r ≡ 0)\n  pub only_clear :"),
                ("its field is about r, and it leaves its result, out'", 1, record, "Only2 (λ r out'.", "Only (λ r."),
                ("its field is about out', r, and it leaves out'", 1, record, "Only (λ out'.", "Only2 (λ out' r."),
                ("its field is about n, and it leaves its result", 1, record, "(λ m. (m ≡ n) × ((j : ℕ) → j < n → j < m))", "(λ n. (n ≡ n) × ((j : ℕ) → j < n → j < n))"),
                ("its field is about other parameters", 1, record, "(k : Word)", "(k : ℕ)"),
                ("names `xs` without saying when", 1, lib, "length xs.now →", "length xs →"),
                ("names `out` without saying when", 1, lib, "out.new ≡ out.old", "out.new ≡ out.now"),
                ("binds a name that its field has for something else", 1, lib, "(j : ℕ) → j < n → j < result", "(m : ℕ) → m < n → m < result"),
                ("binds a name that its field has for something else", 1, lib, "(j : ℕ) → j < n → j < result", "(n : ℕ) → n < n → n < result"),
                ("`Sums.sum` is named by its path", 1, lib, "sum xs.now + n", "Sums.sum xs.now + n")):
            with self.subTest(wrong=wrong, change=change):
                page = self.contracts(change)
                self.assertIn(wrong, page)
                self.assertTrue(page.endswith(f", {failed} failed\n"), page)

    def test_contracts_whose_names_are_from_elsewhere(self):
        """Words and operators, by a use line of another module, by a renaming or by a module brought whole; in the source, in the
        crate's specs and in the record."""
        lib, own, record = "lib.rt", "Own.antt", "Uniqueness.antt"
        all_ = "{◌≡◌, ℕ, ◌+◌, ◌<◌, length};"
        for wrong, failed, *change in (
                ("`≡` is from other.Place, and in its field from Rattle.std.specs.Prelude", 4, lib, all_, "{ℕ, ◌+◌, ◌<◌, length};\nghost use other.Place.{◌≡◌};"),
                ("`<` is from other.Place, and in its field from Rattle.std.specs.Prelude", 2, lib, all_, "{◌≡◌, ℕ, ◌+◌, length}; ghost use other.Place.{◌<◌};"),
                ("`+` is from other.Place, and in its field from Rattle.std.specs.Prelude", 2, lib, all_, "{◌≡◌, ℕ, ◌<◌, length};\nghost use other.Place.{◌+◌};"),
                ("`<` is from nowhere, and in its field from Rattle.std.specs.Prelude", 2, lib, all_, "{◌≡◌, ℕ, ◌+◌, length};"),
                ("`×` is from other.Place, and in its field from nowhere", 1, lib, all_, all_ + "ghost use other.Place.{◌×◌};"),
                ("`≡` is from Rattle.std.specs.Prelude, other.Place, and", 4, lib, all_, all_ + "\nghost use other.Place.{◌≡◌over◌};"),
                ("`length` is from other.Place, and in its field from Rattle.std.specs.Prelude", 1, lib, all_, "{◌≡◌, ℕ, ◌+◌, ◌<◌};\nghost use other.Place.{length};"),
                ("`use other.Place.{◌≢◌ as ◌≡◌}` renames", 5, lib, all_, all_ + "ghost use other.Place.{◌≢◌ as ◌≡◌};"),
                ("`use other.Place.{In.◌≡◌}` renames", 5, lib, all_, all_ + "ghost use other.Place.{In.◌≡◌};"),
                ("`use other as Rattle` renames", 5, lib, all_, all_ + "ghost use other as Rattle;\n"),
                ("`use other.Rattle` renames a name or brings a module", 5, lib, all_, all_ + "ghost use other.Rattle;\n"),
                ("the type `Word` is from another place", 1, lib, "use rules::{State, Word}", "use other::{State, Word}"),
                ("the type `Word` is from another place", 1, lib, "use rules::{State, Word}", "use rules::{State, Block as Word}"),
                ("`≡` is from other.Place, and in its field from Rattle.std.specs.Prelude", 1, own, "◌+◌, ◌≡◌, List}", "◌+◌, List}\nuse other.Place.{◌≡◌}"),
                ("`shown`, a parameter of its field, is none of its own", 1, own, "shown : ℕ → ℕ", "shown : ℕ → Word"),
                ("`h`, a parameter of its field, is none of its own", 1, record, "only_next : ", "only_next : (h : Never) "),
                ("the type `ℕ` is from another place", 5, record, "{ℕ, ◌+◌", "{◌+◌"),
                ("`≡` is from Rattle.std.specs.Prelude, and in its field from other.Place", 5, record, "◌≡◌, List, length}", "List, length}\nuse other.Place.{◌≡◌}"),
                ("`≡` is from Rattle.std.specs.Prelude, and in its field from nowhere", 5, record, "◌≡◌, List", "List")):
            with self.subTest(wrong=wrong, change=change):
                page = self.contracts(change)
                self.assertIn(wrong, page)
                self.assertTrue(page.endswith(f"contracts: {5 - failed} passed, {failed} failed\n"), page)
        page = self.contracts((record, "◌≡◌, List", "◌≢◌ as ◌≡◌, List"))
        self.assertIn("◌≢◌ as ◌≡◌, List, length}` renames", page)
        self.assertTrue(page.endswith("contracts: 0 passed, 1 failed\n"), page)

    # Crates with a type that holds a state and a proof about it, with impls of From and TryFrom, a generic function, one with a closure and a
    # name for an array; and two functions of one name, of which one has a field of its own.
    TYPES = {
        "crates/promises/specs/Uniqueness.antt": """
use Rattle.std.specs.Prelude.{ℕ, ◌≡◌, true, false, List, Result, MatchResult}
use Rattle.rules.specs.declared.State.{State}
use Rattle.rules.specs.declared.Refusal.{Refusal}
use Rattle.rules.specs.State.{good_state, ram_byte, flash_word, word_at, sum}

pub record GoodState : Type 0 where
  pub state : State
  pub good : good_state state ≡ true

pub record Uniqueness : Type 1 where
  pub only_RamByte_from : (n : ℕ) → Only (λ r. r ≡ ram_byte n)
  pub only_FlashWord_from : (n : ℕ) → Only (λ r. r ≡ flash_word n)
  pub only_word_at : (bytes : List ℕ) (at : ℕ) → Only (λ r. r ≡ word_at bytes at)
  pub only_ram_byte_at : (bytes : List ℕ) (at : ℕ) → Only (λ r. r ≡ ram_byte (word_at bytes at))
  pub only_flash_word_at : (bytes : List ℕ) (at : ℕ) → Only (λ r. r ≡ flash_word (word_at bytes at))
  pub only_GoodState_try_from : (s : State)
      → Only (λ (r : Result GoodState Refusal). MatchResult r (λ good. good.state ≡ s) (λ e. good_state s ≡ false))
  pub only_GoodState_held : (state : State) → Only (λ r. r ≡ state)
  pub only_most : (n : ℕ) → Only (λ r. r ≡ n)
  pub only_thing_most : (state : State) (line : List ℕ) → Only2 (λ r line'. (r ≡ sum line) × (line' ≡ state.line))
  pub only_hold : (Gives : (State → ℕ → Type 0) → ℕ → Type 0) (state : State) (ask : State → ℕ → Type 0)
      → ((n : ℕ) × Gives ask n)
      → Only (λ r. (n : ℕ) → Gives ask n → r ≡ n)
  pub only_find : (Place : Type 0) (found : State → List ℕ → Place) (state : State) (line : List ℕ) → Only (λ r. r ≡ found state line)
""",
        "crates/rules/src/lib.rt": """
pub type Line = [u8; 12];

impl From<u16> for RamByte {
    ghost use Rattle.std.specs.Prelude.{◌≡◌};
    ghost use Rattle.rules.specs.State.{ram_byte};

    ghost from_gives = { λ n r. r ≡ ram_byte n };

    fn from(n: u16) -> RamByte {
        RamByte(n)
    }
}

impl From<u16> for FlashWord {
    ghost use Rattle.rules.specs.State.{flash_word};

    ghost from_gives = { λ n r. r ≡ flash_word n };

    fn from(n: u16) -> FlashWord {
        FlashWord(n)
    }
}
""",
        "crates/codec/src/lib.rt": """
ghost use Rattle.rules.specs.State.{word_at};

pub fn word_at<W: From<u16>>(bytes: &[u8], at: usize) -> W
    ensures { W.from_gives (word_at bytes.now at) result }
{ }
""",
        "crates/good/src/lib.rt": """
ghost use Rattle.std.specs.Prelude.{◌≡◌, true, false, MatchResult};
ghost use Rattle.rules.specs.State.{good_state};

mod inner;

use rules::{Refusal, State};

pub struct GoodState {
    pub state: State,
    pub ghost good: { good_state state ≡ true },
}

impl TryFrom<State> for GoodState {
    type Error = Refusal;

    ghost try_from_gives = { λ s r. MatchResult r (λ good. good.state ≡ s)
        (λ e. good_state s ≡ false) };

    fn try_from(state: State) -> Result<GoodState, Refusal> {
        Ok(GoodState { state })
    }
}

impl GoodState {
    pub fn held(self) -> State
        ensures { result ≡ self.state }
    {
        self.state
    }
}
""",
        "crates/good/src/inner.rt": "struct Inner(u8);\n\nimpl From<u8> for Inner {\n    fn from(n: u8) -> Inner {\n        Inner(n)\n    }\n}\n",
        "crates/other/src/lib.rt": "ghost use Rattle.std.specs.Prelude.{◌≡◌};\n\npub fn most(n: u16) -> u16\n    ensures { result ≡ n }\n{ }\n",
        "crates/thing/specs/Own.antt": "abbrev pub found : State → List ℕ → Option RamByte\nfound s line = None\n\n"
                                       "abbrev pub Gives : (State → ℕ → Type 0) → ℕ → Type 0\nGives ask n = (s : State) → ask s n\n",
        "crates/thing/src/lib.rt": """
ghost use Rattle.std.specs.Prelude.{◌≡◌, ℕ};
ghost use Rattle.rules.specs.State.{sum};
ghost use Rattle.thing.specs.Own.{found, Gives};

use good::GoodState;
use rules::{Line, RamByte, State};

pub fn hold<F: Fn(State) -> u16>(state: State, ask: F) -> u16
    requires callable { F.pre ask state }
    requires gives { (n : ℕ) × Gives (F.post ask) n }
    ensures { (n : ℕ) → Gives (F.post ask) n → result ≡ n }
{ }

pub fn most(good: GoodState, line: &mut Line) -> u16
    ensures { (result ≡ sum line.old) × (line.new ≡ good.state.line) }
{ }

pub fn find(good: GoodState, line: &Line) -> Option<RamByte>
    ensures { result ≡ found good.state line.now }
{ }
""",
    }

    def test_contracts_of_methods_impls_and_generic_functions(self):
        page = self.contracts(**self.TYPES)
        self.assertTrue(page.endswith("alone: thing::hold\ncontracts: 13 passed, 0 failed\n"), page)
        self.assertIn("contract codec::word_at for rules::RamByte: unique\n", page)
        self.assertIn("contract codec::word_at for usize: unique\n", page)
        rules, codec, good, inner, thing, own, record = (
            "rules/src/lib.rt", "codec/src/lib.rt", "good/src/lib.rt", "inner.rt", "thing/src/lib.rt", "Own.antt", "Uniqueness.antt")
        for wrong, failed, *change in (
                ("its field says", 2, rules, "r ≡ ram_byte n", "r ≡ ram_byte 0"),
                ("`ram_byte` is from Rattle.other, and in its field from Rattle.rules.specs.State", 2, rules, "rules.specs.State.{ram_byte}", "other.{ram_byte}"),
                ("it has no contract", 2, rules, "ghost from_gives = { λ n r. r ≡ ram_byte n };", ""),
                ("RamByte::from: its ghost member has other parameters", None, rules, "λ n r. r ≡ ram_byte n", "λ n m r. r ≡ ram_byte n"),
                ("its field says", 4, codec, "(word_at bytes.now at) result", "(word_at bytes.now 0) result"),
                ("it is generic, and the table INSTANCES has no type for it", 4, codec, "fn word_at<", "fn item_at<"),
                ("it is generic, and the table INSTANCES has no type for it", 4, codec, "W: From<u16>", "W: From<u8>"),
                ("has no record that says the same", 1, good, "pub ghost good: { good_state state ≡ true }", "pub ghost good: { good_state state ≡ false }"),
                ("has no record that says the same", 1, record, "pub good : good_state state ≡ true", "pub good : true ≡ true"),
                ("has a record Bad, and no public struct says the same", 1, record, "pub record Uniqueness", "pub record Bad : Type 0 where\n  pub n : ℕ\n\npub record Uniqueness"),
                ("`good_state` is from Rattle.rules.specs.State, and in its field from nowhere", 2, record, "good_state, ram_byte,", "ram_byte,"),
                ("its field says", 1, good, "(λ good. good.state ≡ s)", "(λ good. s ≡ s)"),
                ("or another result", 1, record, "Result GoodState Refusal", "Result State Refusal"),
                ("its field says", 1, good, "result ≡ self.state", "self.state ≡ self.state"),
                ("a clause names `self` for more than its state", 1, good, "result ≡ self.state", "result ≡ self.other"),
                ("a clause names `good` for more than its state", 1, thing, "found good.state", "found good"),
                ("its field is about other parameters", 2, thing, "use good::GoodState", "use other::GoodState"),
                ("its field is about other parameters", 2, rules, "pub type Line = [u8; 12]", "pub type Line = Option<u8>"),
                ("its field is about r, and it leaves its result, line'", 2, record, "only_thing_most", "only_thing_least"),
                ("`found`, a parameter of its field, is none of its own", 1, own, "→ Option RamByte", "→ Option RamByte → ℕ"),
                ("a premise that is none of its `requires`: (n : ℕ) × Gives ask n", 1, thing, "    requires gives { (n : ℕ) × Gives (F.post ask) n }\n", ""),
                ("a premise that is none of its `requires`: (n : ℕ) × Gives state n", 1, record, "× Gives ask n)", "× Gives state n)"),
                ("its field is about other parameters", 1, thing, "F: Fn(State) -> u16", "F: Fn(u8) -> u16"),
                ("it is generic, and the table INSTANCES has no type for it", 1, thing, "F: Fn(State) -> u16", "F: FnOnce(State) -> u16"),
                ("`ℕ` is from nowhere, and in its field from Rattle.std.specs.Prelude", 1, thing, "{◌≡◌, ℕ}", "{◌≡◌}"),
                ("`Gives`, a parameter of its field, is none of its own", 1, own, "(State → ℕ → Type 0) → ℕ", "(ℕ → State → Type 0) → ℕ"),
                ("contract good::inner::GoodState::from: FAILED: it has no contract", 1, inner, "Inner", "GoodState"),
                ("crates/promises/specs/Uniqueness.antt has a field only_low, and no public function has that name", 1, record, "  pub only_hold :", "  pub only_low : (n : ℕ) → Only (λ r. r ≡ n)\n  pub only_hold :"),
                ("has a field only_find, and no public function has that name", 1, thing, "pub fn find", "fn find"),
                ("has a `pub trait`, which this test does not follow", None, thing, "pub fn most", "pub trait Thing { }\n\npub fn most")):
            with self.subTest(wrong=wrong, change=change):
                page = self.contracts(change, **self.TYPES)
                self.assertIn(wrong, page)
                self.assertTrue(page.endswith(f", {failed} failed\n" if failed else "contracts: 0 passed, 1 failed\n"), page)

    def test_contracts_of_a_generic_function_at_the_types_that_sources_name(self):
        inner, thing = "inner.rt", "thing/src/lib.rt"
        for body, named in (("word_at::<usize>(bytes, 2)", ""), ("let at: usize = word_at(bytes, 2);", ""), ("let mut a: RamByte = codec::word_at(bytes, 2);", ""),
                            ("word_at::<rules::FlashWord>(bytes, 2)", ""), ("let n: u64 = 4 + word_at(bytes, 2);", ""), ("reword_at::<u64>(bytes, 2)", ""),
                            ("word_at::<u64>(bytes, 2)", "u64"), ("codec::word_at::< u32 >(bytes, 2)", "u32"), ("let n: u64 = word_at(bytes, 2);", "u64"),
                            ("let mut n : i32 =\n        codec::word_at (bytes, 2);", "i32"), ("word_at::<Line>(bytes, 2)", "rules::Line"),
                            ("let r: RamAddress = word_at(bytes, 2);", "thing::RamAddress"), ("word_at::<Wide<u16>>(bytes, 2)", "Wide<u16>"),
                            ("word_at::<_>(bytes, 2)", "_"), ("some(2).map(word_at::<u64>)", "u64"), ("word_at::<crate::RamByte>(bytes, 2)", "thing::RamByte")):
            with self.subTest(body=body):
                page = self.contracts((thing, "found good.state line.now }\n{ }", f"found good.state line.now }}\n{{\n    {body}\n}}"), **self.TYPES)
                said = f"FAILED: thing names the type {named} for codec::word_at, and the table INSTANCES lacks it\n"
                self.assertEqual(re.findall(r"FAILED.*\n", page), [said] if named else [])
                self.assertTrue(page.endswith(f"contracts: 13 passed, {int(bool(named))} failed\n"), page)
        # in a file that is not open, too
        page = self.contracts((inner, "Inner(n)", "Inner(word_at::<u64>(n))"), **self.TYPES)
        self.assertIn("FAILED: good::inner names the type u64 for codec::word_at, and the table INSTANCES lacks it\n", page)
        page = self.contracts((thing, "use good::GoodState", "use codec::word_at as number;\nuse good::GoodState"), **self.TYPES)
        self.assertTrue(page.endswith("FAILED: `word_at` is renamed in crate thing, which this test does not follow\ncontracts: 0 passed, 1 failed\n"), page)

    # Two functions that hand back what `moved` makes an outcome of, one with a state that is known to be good.
    OUTCOMES = {
        "crates/promises/specs/Uniqueness.antt": """
use Rattle.std.specs.Prelude.{ℕ, ◌≡◌, true, List}
use Rattle.rules.specs.declared.State.{State}
use Rattle.rules.specs.declared.Outcome.{Outcome}
use Rattle.rules.specs.State.{good_state}
use Rattle.rules.specs.Answers.{Gives, moved}
use Rattle.rules.specs.Operations.{call_of}

pub record GoodState : Type 0 where
  pub state : State
  pub good : good_state state ≡ true

pub record Uniqueness : Type 1 where
  pub only_call_with : (table_of : ℕ → List ℕ) (state : State) (ram : List ℕ) (word : ℕ)
      → Only2 (λ r ram'. Gives r ram' (call_of state ram (table_of word)))
  pub only_operations_call_with : (table_of : ℕ → List ℕ) (state : State) (ram : List ℕ) (word : ℕ)
      → Only2 (λ r ram'. Gives (moved r state) ram' (call_of state ram (table_of word)))
  pub only_ret_with : (returning : State → Outcome) (state : State) → Only (λ r. r ≡ returning state)
  pub only_operations_ret_with : (returning : State → Outcome) (state : State) → Only (λ r. moved r state ≡ returning state)
""",
        "crates/good/src/lib.rt": """
ghost use Rattle.std.specs.Prelude.{◌≡◌, true};
ghost use Rattle.rules.specs.State.{good_state};

use rules::State;

pub struct GoodState {
    pub state: State,
    pub ghost good: { good_state state ≡ true },
}
""",
        "crates/operations/specs/Rows.antt": "abbrev pub table_of : ℕ → List ℕ\ntable_of word = replicate 9 word\n\n"
                                             "abbrev pub returning : State → Outcome\nreturning s = popped s\n",
        "crates/operations/src/lib.rt": """
ghost use Rattle.std.specs.Prelude.{◌≡◌};
ghost use Rattle.rules.specs.Answers.{Gives, moved};
ghost use Rattle.rules.specs.Operations.{call_of};
ghost use Rattle.operations.specs.Rows.{table_of, returning};

use good::GoodState;
use rules::{Done, Outcome, Ram, Refusal, State};

pub fn call_with(good: GoodState, ram: &mut Ram, word: u16) -> Result<Done, Refusal>
    ensures { Gives (moved result good.state) ram.new (call_of good.state ram.old (table_of word)) }
{ }

pub fn ret_with(state: State) -> Result<Done, Refusal>
    ensures { moved result state ≡ returning state }
{ }
""",
        "crates/rules/src/lib.rt": "pub type Ram = [u8; 4096];\n",
        "crates/thing/src/lib.rt": "",
    }

    def test_contracts_of_what_is_made_an_outcome(self):
        """Each has two fields, one about what it hands back and one about the outcome, and both are held to its clause."""
        page = self.contracts(**self.OUTCOMES)
        self.assertTrue(page.endswith("contracts: 5 passed, 0 failed\n"), page)
        for full in ("operations::call_with", "operations::ret_with"):
            self.assertIn(f"contract {full}: unique\ncontract {full} as an outcome: unique\n", page)
        lib, rows, record = "operations/src/lib.rt", "Rows.antt", "Uniqueness.antt"
        moved = "operations.{call_of};"
        for wrong, failed, *change in (
                # a field about the outcome that says something else, or of something else
                ("call_with as an outcome: FAILED: its field says", 1, record, "Gives r ram' (call_of state ram (table_of word))", "Gives r ram' (call_of state ram (table_of 0))"),
                ("call_with as an outcome: FAILED: its field says", 1, record, "Gives r ram' (call_of", "Gives r ram (call_of"),
                ("call_with as an outcome: FAILED: its field says", 1, record, "Gives r ram' (call_of", "Gives (moved r state) ram' (call_of"),
                ("call_with as an outcome: FAILED: its field is about other parameters", 1, record, "only_call_with : (table_of : ℕ → List ℕ) (state : State) (ram : List ℕ) (word : ℕ)", "only_call_with : (table_of : ℕ → List ℕ) (state : State) (ram : List ℕ)"),
                ("call_with as an outcome: FAILED: its field is about r, and it leaves its result, ram'", 1, record, "Only2 (λ r ram'. Gives r", "Only (λ r. Gives r"),
                ("ret_with as an outcome: FAILED: its field says", 1, record, "(λ r. r ≡ returning state)", "(λ r. returning state ≡ r)"),
                ("ret_with as an outcome: FAILED: its field is about other parameters, or another result", 1, record, "(λ r. r ≡ returning state)", "(λ (r : State). r ≡ returning state)"),
                ("ret_with as an outcome: FAILED: `returning`, a parameter of its field, is none of its own", 1, record, "only_ret_with : (returning : State → Outcome)", "only_ret_with : (returning : State → State)"),
                ("ret_with as an outcome: FAILED: `returning`, a parameter of its field, is none of its own", 2, rows, "returning : State → Outcome", "returning : State → State"),
                # a clause that does
                ("call_with as an outcome: FAILED: its field says", 2, lib, "(call_of good.state ram.old (table_of word))", "(call_of good.state ram.old (table_of 0))"),
                ("call_with as an outcome: FAILED: its field says", 2, lib, "Gives (moved result good.state) ram.new", "Gives (moved result good.state) ram.old"),
                ("call_with as an outcome: FAILED: a clause is not about one outcome, `moved result good.state`", 2, lib, "Gives (moved result good.state)", "Gives (moved result good.state.next)"),
                ("call_with as an outcome: FAILED: a clause is not about one outcome", 2, lib, "Gives (moved result good.state)", "Gives result"),
                ("call_with as an outcome: FAILED: a clause is not about one outcome", 2, lib, "Gives (moved result good.state)", "Gives (kept result good.state)"),
                ("call_with as an outcome: FAILED: a clause is not about one outcome", 2, lib, "(table_of word)) }", "(table_of word)) }\n    ensures { word ≡ word }"),
                ("ret_with as an outcome: FAILED: a clause is not about one outcome", 2, lib, "≡ returning state }", "≡ moved result state }"),
                ("ret_with as an outcome: FAILED: a clause is not about one outcome", 2, lib, "≡ returning state }", "≡ returning result }"),
                ("ret_with as an outcome: FAILED: it is handed more than one state or none", 2, lib, "ret_with(state: State)", "ret_with(state: State, other: State)"),
                ("its `moved` is none of the rules", 4, lib, "ghost use Rattle.rules.specs.Answers.{Gives, moved};", "ghost use Rattle.rules.specs.Answers.{Gives};\nghost use other.Place.{moved};"),
                ("`Gives` is from other.Place, and in its field from Rattle.rules.specs.Answers", 2, lib, "ghost use Rattle.rules.specs.Answers.{Gives, moved};", "ghost use Rattle.rules.specs.Answers.{moved};\nghost use other.Place.{Gives};"),
                # a field without its function, and a function without its field
                ("has a field only_ret_with, and no public function has that name", 2, lib, "pub fn ret_with", "fn ret_with"),
                ("has a field only_call_with, and no public function has that name", 3, lib, "pub fn call_with", "pub fn call_by"),
                ("ret_with as an outcome: FAILED: crates/promises/specs/Uniqueness.antt has no field of its name", 2, record, "only_ret_with", "only_return_with"),
                ("contract operations::ret_with: FAILED: its field says", 2, record, "only_operations_ret_with", "only_operations_return_with")):
            with self.subTest(wrong=wrong, change=change):
                page = self.contracts(change, **self.OUTCOMES)
                self.assertIn(wrong, page)
                self.assertTrue(page.endswith(f", {failed} failed\n"), page)

    # ---- addresses ----

    def test_addresses_that_are_mixed(self):
        """What tools/addresses.py finds in a made-up source, and that it passes what is right."""
        right = "pub fn f(config: Config, a: RamByte) -> bool\n{ a.0 <= 3 && above(a, n).0 == 4 }\n"
        ghost = ("ghost use Rattle.rules.specs.Memory.{Block, block_of};\n#[tactic(auto, using(crate::proofs::M::block_of))]\nfn f(a: RamByte)\n"
                 "    requires below { let b = RamByte(3) in (λ a. { a.0 = 3; Block }) }\n    ensures { block_of a ≡ Block }\n")
        for name, text, wrong in (
                ("frames", right, ""),
                ("frames", ghost + "{ }", ""),
                ("frames", ghost + "{ Block }", "6: a block number outside the map code"),
                ("map", ghost.replace("fn f", "pub fn f") + "{ }", ""),
                ("frames", "fn f(k: u16) { RamByte(k) }", "1: an address is made from a number"),
                ("frames", "\nfn f(mut r: RamByte, k: FlashWord) { r.0 = k.0; }", "2: the number inside an address is stored to"),
                ("frames", "fn f(mut r: RamByte) { r.0 += 1; }", "1: the number inside an address is stored to"),
                ("frames", "fn f(bot: RamByte, site: FlashWord) { above(bot, site.0) }", "1: the number inside an address is handed as an offset"),
                ("frames", "fn f(k: u16) -> RamByte { RamByte::from(k) }", "1: a conversion that can make an address"),
                ("frames", "fn f(k: u16) -> RamByte { some(k).map(FlashWord::from) }", "1: a conversion that can make an address"),
                ("frames", "fn f(k: u16) -> RamByte { k.into() }", "1: a conversion that can make an address"),
                ("frames", "fn f<W: From<u16>>(k: u16) -> W { W::from(k) }", "1: a conversion that can make an address"),
                ("frames", "fn f(ram: &mut [u8]) -> Option<&mut Ram> { ram.try_into().ok() }", ""),
                ("codec", "fn f<W: From<u16>>(k: u16) -> W { W::from(k) }", ""),
                ("hmt_c", "fn f(k: u16) -> RamByte { RamByte::from(k) }", ""),
                ("hmt_c", "fn f(k: u16) -> RamByte { RamByte(k) }", "1: an address is made from a number"),
                ("hmt_c", "fn f(site: FlashWord) -> RamByte { RamByte::from(site.0) }", "1: an address is made from the number inside another"),
                ("address", "fn f(site: FlashWord) -> RamByte { RamByte(site.0) }", ""),
                ("rules", "impl From<u16> for RamByte {\n    ghost from_gives = { λ n r. r ≡ ram_byte n };\n}", ""),
                ("good", "pub struct Good {\n    pub state: State,\n    pub ghost good: { Block ≡ state.bound },\n}", ""),
                ("frames", "use rules::Block;", "1: a block number outside the map code"),
                ("map", "fn f(k: Block) { further(k, 1) }", ""),
                ("map", "pub fn f() -> Option<Block> { None }", "1: a public function of the map names a block"),
                ("map", "pub fn f(\n    config: Config,\n    k: Block,\n) -> u16\n{ 1 }", "1: a public function of the map names a block"),
                ("map", "pub fn f(ram: &[u8; 4], k: Block)\n    ensures one { k.0 ≡ 1 }\n{ }", "1: a public function of the map names a block")):
            with self.subTest(text=text):
                root = Path(tempfile.mkdtemp(dir=self.folder))
                (root / "crates" / name / "src").mkdir(parents=True)
                (root / "crates" / name / "src" / "lib.rt").write_text(text, encoding="utf-8")
                result = self.start([sys.executable, str(ROOT / "tools" / "addresses.py")], root)
                self.assertEqual(result.stdout.decode(), f"crates/{name}/src/lib.rt:{wrong}\n" if wrong else "")
                self.assertEqual(result.returncode, 1 if wrong else 0)

    # ---- building ----

    def unbuilt(self, crates):
        """A copy of what ./run needs, with nothing built, and with a stand-in for rt that knows these crates: it writes down what it was
        asked and where, says that it proves each crate and copies a program; it refuses where a file `refuse` is. The command, its
        environment and the program."""
        for part in ("run", "tools", "examples"):
            copy = shutil.copytree if (ROOT / part).is_dir() else shutil.copy
            copy(ROOT / part, self.folder / part)
        for folder in ("crates/hmt/src", "bin"):
            (self.folder / folder).mkdir(parents=True)
        self.file("crates.txt", "# a crate and those it rests on\n" + "".join(f"{name}: {on}\n" for name, on in crates.items()))
        # what the program under test asks of rt goes to the real one
        stand_in = self.file("bin/rt", f'#!/bin/sh\ntest "$1" != doc || exec "{shutil.which("rt")}" doc\n'
                             f'top="{self.folder}"\nexec >&2\necho "$* in ${{PWD#"$top"/}}" >> "$top/asked"\n'
                             f'for name in {" ".join(name.split()[0] for name in crates)}; do\n'
                             '  echo "rt: chose --jobs 2 for $name"; echo "fn $name::f: proved"\n'
                             '  test ! -e "$top/refuse" || { echo "fn $name::g: not proved"; exit 1; }\ndone\n'
                             'mkdir -p out\ntest -e out/hmt || cp "$top/program" out/hmt\n')
        for path in (stand_in, self.file("program", f'#!/bin/sh\nexec "{PROGRAM}"\n')):
            os.chmod(path, 0o755)
        command = [str(self.folder / "run"), "--plain", str(self.folder / "examples" / "sample.txt")]
        return command, {"HMT": "", "PATH": f"{self.folder / 'bin'}:{os.environ['PATH']}"}, self.folder / "crates" / "hmt" / "out" / "hmt"

    def test_builds_when_due(self):
        """Built when it is missing or older than a source, said once, and not else."""
        command, env, built = self.unbuilt({"hmt": ""})
        source = self.file("crates/hmt/src/main.rt", "")
        asked = 0
        for built_age, due in ((None, True), (None, False), (100, False), (300, True), (None, False)):
            os.utime(source, (time.time() - 200,) * 2)
            if built_age:
                os.utime(built, (time.time() - built_age,) * 2)
            with self.subTest(built_age=built_age, due=due):
                result = self.start(command, env=env, cwd="/")
                self.assertEqual((result.returncode, result.stdout), (0, SAMPLE_ANSWERS))
                self.assertEqual(result.stderr.count("building crates/hmt/out/hmt"), due)
                asked += due
                self.assertEqual((self.folder / "asked").read_text(), "run in crates/hmt\n" * asked)
        os.remove(built)
        self.file("refuse", "")
        result = self.start(command, env=env)
        self.assertEqual((result.returncode, result.stdout), (2, b""))
        self.assertIn("fn hmt::f: proved\nfn hmt::g: not proved\ncan't build crates/hmt/out/hmt: `rt run` ended with status 1\n", result.stderr)
        os.remove(self.folder / "bin" / "rt")
        result = self.start([sys.executable, *command], env={**env, "PATH": str(self.folder / "bin")})
        self.assertEqual(result.returncode, 2)
        self.assertIn("can't build crates/hmt/out/hmt: rt: No such file", result.stderr)

    def test_building_says_which_crate_is_proved(self):
        """A line for each crate that the program rests on, and nothing of what rt says; on a terminal one line, in the end empty."""
        command, env, built = self.unbuilt({"rules": "", "hmt": "map std", "map": "rules", "aside staticlib": "rules"})
        (self.folder / "bin" / "rt").write_text((self.folder / "bin" / "rt").read_text().replace("rules hmt map aside", "rules aside map hmt"))
        steps = ["run: proving rules (1 of 3)", "run: proving map (2 of 3)", "run: proving hmt (3 of 3)"]
        result = self.start(command, env=env)
        self.assertEqual((result.returncode, result.stdout), (0, SAMPLE_ANSWERS))
        first, *others = result.stderr.splitlines()
        self.assertIn("takes some minutes", first)
        self.assertEqual(others, steps)
        os.remove(built)
        reader, terminal = os.openpty()
        self.addCleanup(os.close, reader)
        result = subprocess.run(command, env={**os.environ, **env}, stdin=subprocess.DEVNULL, stdout=subprocess.PIPE, stderr=terminal)
        os.close(terminal)
        self.assertEqual((result.returncode, result.stdout), (0, SAMPLE_ANSWERS))
        shown = os.read(reader, 9999).decode()
        self.assertEqual(shown.split("\r\n"), [first, "".join("\r\033[K" + step for step in [*steps, ""])])


class MustFail(unittest.TestCase):
    """How tools/must_fail.py judges an edit."""

    ONE = "./proofs/eight/Answers.antt"
    # What the checker prints, and what is then said of an edit with `fact: fn one::eight returns`: nothing if it is refused as it must be.
    PRINTED = {
        f"{ONE}:3:5: error: `returns`: the two types differ\n{ONE}:9:1: error: 1 declaration that depends on `returns`, which was rejected, was not checked: nine": "",
        "fn one::eight: no proof: expected answers in ./proofs/eight/Answers.antt; `search` did not prove `swap-requires`, `returns`": "",
        "note: src/lib.rt:8:5: it is not proved that what the function ensures holds when it returns (`returns`); `search` gave up at one of its limits": "",
        "note: src/lib.rt:12:5: it is not proved that what the function ensures holds when it returns (`returns`)": "refused at one: fn one::nine returns, and not at",
        f"{ONE}:3:5: error: `returns-then-b`: the two types differ": "refused at one: fn one::eight returns-then-b, and not at",
        f"{ONE.replace('eight', 'at/nine')}:3:5: error: `returns`: the two types differ": "refused at one: fn one::at::nine returns, and not at",
        f"{ONE.replace('eight/', '')}:3:5: error: `returns`: the two types differ": "refused at one: proofs/Answers.antt returns, and not at",
        f".{ONE.replace('/proofs', '/two/proofs')}:3:5: error: `returns`: the two types differ": "refused at two: fn two::eight returns, and not at",
        f"{ONE}:3:5: error: `returns`: the two types differ\n../two/proofs/Law.antt:3:5: error: `law`: the two types differ": "in no other crate",
        f"{ONE}:9:1: error: `returns`: `other` was not admitted (it was rejected)": "refused at no fact",
        f"{ONE}:3:5: error: `returns`: record `State` has no field `if-a-eq0`": "for another reason than a fact",
        f"{ONE}:3:5: error: `returns`: the two types differ\n{ONE}:4:5: error: expected a term": "for another reason than a fact",
        f"{ONE}:3:5: error: `returns`: stopped at the step limit (1000000 steps)": "for another reason than a fact",
        f"{ONE}:3:5: error: `returns`: the two types differ\nfn one::nine: no proof: it calls `one::eight`, which is not proved": "",
        f"{ONE}:3:5: error: `returns`: the two types differ\nfn one::nine: no proof: expected invariants in there; it has a loop": "for another reason",
        f"{ONE}:3:5: error: `returns`: the two types differ\nfn one::nine: no proof: expected answers in there": "for another reason",
        f"{ONE}:3:5: error: `returns`: the two types differ\n./proofs/Law.antt:3:5: error: `law`: the two types differ\nfn one::nine: no proof: expected answers in there": "for another reason",
    }

    def edit(self, folder, name, words, old, new):
        path = Path(folder, "must-fail/one", name + ".edit")
        path.parent.mkdir(parents=True, exist_ok=True)
        path.write_text(f"crate: one\n{words}\nfile: crates/one/src/lib.rt\nold: {old}\nnew: {new}\n", encoding="utf-8")
        return str(path)

    def test_what_the_checker_prints(self):
        with tempfile.TemporaryDirectory() as folder:
            edit = must_fail.Edit(self.edit(folder, "a", "fact: fn one::eight returns", "8", "7"))
            for words, file in (("fact: a b", "proofs/a/Answers.antt"), ("", "src/lib.rt"), ("fact: a b\ntype: c", "src/lib.rt")):
                path = self.edit(folder, "b", words, "8", "7")
                Path(path).write_text(Path(path).read_text(encoding="utf-8").replace("src/lib.rt", file), encoding="utf-8")
                self.assertRaises(ValueError, must_fail.Edit, path)
            Path(folder, "crates/one/src").mkdir(parents=True)
            Path(folder, "crates/one/src/lib.rt").write_text(EIGHT + "fn nine() {\n    9\n}\n", encoding="utf-8")
            for text, why in self.PRINTED.items():
                with self.subTest(text=text):
                    if why:
                        self.assertRaisesRegex(ValueError, why, must_fail.judge, edit, 1, text + "\nlogic=not-proved\n", folder)
                    else:
                        self.assertEqual(must_fail.judge(edit, 1, text + "\nlogic=not-proved\n", folder), "at fn one::eight returns")
            for status, text, why in ((0, "logic=proved", "NOT REFUSED"), (1, "a.rt:1:2: error: expected `;`", "did not reach"), (3, "no verdict", "did not reach")):
                self.assertRaisesRegex(ValueError, why, must_fail.judge, edit, status, text, folder)

    def test_names_that_a_proof_cites(self):
        with tempfile.TemporaryDirectory() as folder:
            edit = must_fail.Edit(self.edit(folder, "a", "fact: fn one::eight returns", "8", "7\nname: a-eq0 a-eq1"))
            edit.pairs = edit.pairs[1:]
            Path(folder, "crates/one/src").mkdir(parents=True)
            source = Path(folder, "crates/one/src/lib.rt")
            root, must_fail.ROOT = must_fail.ROOT, folder
            try:
                for text, new in (("if-a-eq0 c.then-a-eq0.x aa-eq0 a-eq01", "if-a-eq1 c.then-a-eq1.x aa-eq0 a-eq01"), ("aa-eq0", None)):
                    source.write_text(text, encoding="utf-8")
                    if new:
                        self.assertEqual(edit.texts(), {"crates/one/src/lib.rt": new})
                    else:
                        self.assertRaisesRegex(ValueError, "0 times: a-eq0", edit.texts)
            finally:
                must_fail.ROOT = root

    def test_edits_of_a_small_crate(self):
        with tempfile.TemporaryDirectory() as folder:
            for place, text in (("crates.txt", "one:\n"), ("crates/one/src/lib.rt", EIGHT), ("tools/must_fail.py", Path(must_fail.__file__).read_text(encoding="utf-8"))):
                Path(folder, place).parent.mkdir(parents=True, exist_ok=True)
                Path(folder, place).write_text(text, encoding="utf-8")
            fact = "fact: fn one::eight returns"
            self.edit(folder, "refused", fact, "    8", "    7")
            self.edit(folder, "accepted", fact, "a number", "a word")
            self.edit(folder, "unfit", fact, "    9", "    7")
            self.edit(folder, "not-compiled", fact, "    8", "    true")
            self.edit(folder, "type", "type: expected `usize`, found `bool`", "    8", "    true")
            unknown = subprocess.run([sys.executable, f"{folder}/tools/must_fail.py", "--fits"], capture_output=True, text=True)
            self.assertEqual((unknown.returncode, unknown.stdout.splitlines()[0][:12]), (2, "must_fail.py"))
            run = subprocess.run([sys.executable, f"{folder}/tools/must_fail.py"], capture_output=True, text=True)
        for line in ("refused: refused, as it must be, by one at fn one::eight returns", "accepted: FAILED: NOT REFUSED: one is still proved",
                     "unfit: FAILED: it does not fit: crates/one/src/lib.rt has 0 times:     9", "not-compiled: FAILED: it did not reach the prover (exit 1)",
                     "type: refused, as it must be, by one by its types: expected `usize`, found `bool`"):
            self.assertIn(f"must-fail one/{line}", run.stdout)
        self.assertEqual((run.returncode, run.stdout.splitlines()[-1]), (1, "must-fail: 2 passed, 3 failed"))


EIGHT = """\
// a number
#![tactic(auto)]

ghost use Rattle.std.specs.Prelude.{◌≡◌};

pub fn eight() -> usize
    ensures { result ≡ 8 }
{
    8
}
"""


class Count(unittest.TextTestResult):
    passed = 0

    def addSuccess(self, test):
        super().addSuccess(test)
        self.passed += 1


if __name__ == "__main__":
    if len(sys.argv) != 2 or not os.access(sys.argv[1], os.X_OK):
        sys.exit("usage: python3 tools/test_tools.py PROGRAM")
    PROGRAM = os.path.abspath(sys.argv[1])
    tests = unittest.TestSuite(map(unittest.defaultTestLoader.loadTestsFromTestCase, (Tools, MustFail)))
    result = unittest.TextTestRunner(stream=sys.stdout, resultclass=Count).run(tests)
    failed = result.testsRun - result.passed - len(result.skipped)
    print(f"tools: {result.passed} passed, {failed} failed")
    sys.exit(1 if failed else 0)
