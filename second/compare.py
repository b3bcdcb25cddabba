#!/usr/bin/env python3
"""Runs two script programs side by side on generated scripts:

    compare.py PROGRAM_A PROGRAM_B --scripts N [--seed S] [--generator PATH]
               [--save FILE] [--quiet]

Seeds S to S + N - 1 are used. Standard output must be the same byte for byte.
At the first difference the script is saved, the seed and the first differing
lines are printed and the exit status is 1. At the end a table says how often
each operation gave each answer number; a number that can come and never came,
or that cannot come and came, makes the exit status 1 too.
"""
import argparse
import collections
import os
import subprocess
import sys
import tempfile
import time

HERE = os.path.dirname(os.path.abspath(__file__))

# Section 7: operation number -> its name and the bytes it takes.
OPERATIONS = {1: ("store", 4), 2: ("call", 7), 3: ("return", 1),
              4: ("malloc", 3), 5: ("free", 3), 6: ("change", 4)}

# Section 6: the numbers that can come in a script. 1 and 3 cannot: there RAM
# and table have the right length and the state is good once set-up is done.
CAN_COME = {
    "setup": (0, 2),
    "store": (0, 4, 5, 6),
    "call": (0, 7, 8, 9, 10, 11, 12),
    "return": (0, 13, 14),
    "malloc": (0, 15, 16, 17),
    "free": (0, 18, 19),
    "change": (0, 18, 19, 20),
}
# How a file can end; `whole` is a run to the file's end.
ENDS = ("whole", "refused", "cut", "bad", "long")

TIMEOUT = 60    # seconds for one program on one script


def run(program, path):
    """Standard output, and a word on a program that did not end well. The
    document sets no exit status, so small ones are all let pass; a signal, a
    status like a panic's or no end at all are not."""
    with open(path, "rb") as script:
        try:
            result = subprocess.run([program], stdin=script,
                                    stdout=subprocess.PIPE, timeout=TIMEOUT,
                                    close_fds=False)
        except subprocess.TimeoutExpired:
            return b"", "no end after %d seconds" % TIMEOUT
    status = result.returncode
    return result.stdout, "" if 0 <= status <= 2 else "exit status %d" % status


def tally(script, output, answers, ends):
    """Counts the answers of one run; gives the number of operations."""
    lines = output.split(b"\n")
    if len(lines) == 2:                 # one line alone: `bad` or `long`
        ends[lines[0].decode(errors="replace")] += 1
        return 0
    number = int(lines[1].split()[1])
    answers["setup", number] += 1
    if number != 0:
        ends["refused"] += 1
        return 0
    cut = lines[-2] == b"cut"
    ends["cut" if cut else "whole"] += 1
    lines = lines[2:-2] if cut else lines[2:-1]
    at = 48 + 4 * int.from_bytes(script[46:48], "little")
    for line in lines:
        name, length = OPERATIONS[script[at]]
        at += length
        answers[name, int(line.split(b" ", 2)[1])] += 1
    return len(lines)


def first_difference(a, b):
    """Number and text of the first line that differs."""
    a, b = a.split(b"\n"), b.split(b"\n")
    for k in range(max(len(a), len(b))):
        x = a[k].decode(errors="replace") if k < len(a) else "(end)"
        y = b[k].decode(errors="replace") if k < len(b) else "(end)"
        if x != y:
            return k + 1, x, y
    return 0, "(same text)", "(same text)"


def table(answers, ends):
    """Prints how often each answer came; gives what is missing or extra."""
    wrong = []
    print("answers (number:times)")
    for name, numbers in CAN_COME.items():
        came = {n for (o, n) in answers if o == name}
        print("  %-7s %s" % (name, "  ".join(
            "%d:%d" % (n, answers[name, n])
            for n in sorted(came | set(numbers)))))
        wrong += ["%s never gave %d" % (name, n)
                  for n in numbers if n not in came]
        wrong += ["%s gave %d, which cannot come" % (name, n)
                  for n in sorted(came - set(numbers))]
    print("  %-7s %s" % ("files", "  ".join(
        "%s:%d" % (e, ends[e]) for e in ENDS)))
    wrong += ["no file ended as: " + e for e in ENDS if not ends[e]]
    wrong += ["a file ended as: " + e for e in ends if e not in ENDS]
    return wrong


class Progress:
    """In place if standard error is a terminal, else a line every few
    seconds."""

    def __init__(self, scripts, quiet):
        self.scripts, self.quiet = scripts, quiet
        self.terminal = sys.stderr.isatty()
        self.every = 0.2 if self.terminal else 5.0
        self.last = time.monotonic()

    def show(self, scripts, operations):
        now = time.monotonic()
        if self.quiet or now - self.last < self.every:
            return
        self.last = now
        text = "%d of %d scripts, %d operations" % (scripts, self.scripts,
                                                    operations)
        sys.stderr.write("\r" + text if self.terminal else text + "\n")
        sys.stderr.flush()

    def end(self):
        if self.terminal and not self.quiet:
            sys.stderr.write("\r\x1b[K")
            sys.stderr.flush()


def main():
    parser = argparse.ArgumentParser(description=__doc__.split("\n")[0])
    parser.add_argument("program_a")
    parser.add_argument("program_b")
    parser.add_argument("--scripts", type=int, required=True)
    parser.add_argument("--seed", type=int, default=0)
    parser.add_argument("--generator", default=os.path.join(
        HERE, "..", "target", "second", "generate"))
    parser.add_argument("--save", default="difference.script",
                        help="file for the script that shows a difference")
    parser.add_argument("--quiet", action="store_true",
                        help="no progress on standard error")
    options = parser.parse_args()
    if options.scripts < 1 or options.seed < 0:
        parser.error("--scripts must be at least 1, --seed at least 0")
    for each in ("program_a", "program_b", "generator"):
        path = os.path.abspath(getattr(options, each))
        if not os.access(path, os.X_OK):
            parser.error("%s cannot be run" % path)
        setattr(options, each, path)

    answers, ends = collections.Counter(), collections.Counter()
    operations = longest = 0
    progress = Progress(options.scripts, options.quiet)
    started = time.monotonic()
    with tempfile.TemporaryDirectory() as folder:
        path = os.path.join(folder, "script")
        for count in range(1, options.scripts + 1):
            seed = options.seed + count - 1
            with open(path, "wb") as out:
                subprocess.run([options.generator, str(seed)], stdout=out,
                               check=True, close_fds=False)
            a, ill_a = run(options.program_a, path)
            b, ill_b = run(options.program_b, path)
            if a != b or ill_a or ill_b:
                progress.end()
                with open(path, "rb") as script, \
                        open(options.save, "wb") as saved:
                    saved.write(script.read())
                line, x, y = first_difference(a, b)
                print("difference: script %d, seed %d, line %d"
                      % (count, seed, line))
                print("  A: %s" % (x + (" -- " + ill_a if ill_a else "")))
                print("  B: %s" % (y + (" -- " + ill_b if ill_b else "")))
                print("  script saved as %s" % options.save)
                return 1
            with open(path, "rb") as script:
                try:
                    done = tally(script.read(), a, answers, ends)
                except (IndexError, KeyError, ValueError):
                    sys.exit("seed %d: both print the same, but it is no run"
                             % seed)
            operations += done
            longest = max(longest, done)
            progress.show(count, operations)
    progress.end()
    print("scripts: %d, operations: %d, longest run: %d, seconds: %.1f"
          % (options.scripts, operations, longest,
             time.monotonic() - started))
    wrong = table(answers, ends)
    for text in wrong:
        print("coverage: " + text)
    print("compare: the same output throughout, "
          + ("coverage not full" if wrong else "every answer came"))
    return 1 if wrong else 0


if __name__ == "__main__":
    sys.exit(main())
