#!/usr/bin/env python3
"""Shows that compare.py sees errors: planted.py [--scripts N] [--seed S]

Each planted/*.edit makes one deliberate error (scope document, section 9) in
a copy of the source. The wrong program is built in a temporary folder and
compared with the right one. It passes only if every error is caught.

An edit has three lines, `file: `, `old: ` and `new: `; what follows the one
space is taken as it stands, and the old text must occur exactly once.
"""
import argparse
import glob
import os
import re
import shutil
import subprocess
import sys
import tempfile
import time

HERE = os.path.dirname(os.path.abspath(__file__))


def read_edit(path):
    with open(path, encoding="utf-8") as text:
        lines = text.read().rstrip("\n").split("\n")
    if len(lines) != 3:
        sys.exit("%s: three lines are needed" % path)
    parts = []
    for key, line in zip(("file: ", "old: ", "new: "), lines):
        if not line.startswith(key):
            sys.exit("%s: a line does not start with %r" % (path, key))
        parts.append(line[len(key):])
    return parts


def build(source, folder):
    subprocess.run(["sh", os.path.join(source, "build.sh"), folder],
                   check=True)


def main():
    parser = argparse.ArgumentParser(description=__doc__.split("\n")[0])
    parser.add_argument("--scripts", type=int, default=400,
                        help="give up on an error after so many")
    parser.add_argument("--seed", type=int, default=0)
    options = parser.parse_args()
    edits = sorted(glob.glob(os.path.join(HERE, "planted", "*.edit")))
    if not edits:
        sys.exit("planted.py: no edits found")
    missed = 0
    with tempfile.TemporaryDirectory() as folder:
        right = os.path.join(folder, "right")
        build(HERE, right)
        for path in edits:
            name = os.path.basename(path)[:-len(".edit")]
            file, old, new = read_edit(path)
            copy = os.path.join(folder, name)
            os.mkdir(copy)
            for kind in ("*.c", "*.h", "build.sh"):
                for each in glob.glob(os.path.join(HERE, kind)):
                    shutil.copy(each, copy)
            with open(os.path.join(copy, file), encoding="utf-8") as source:
                text = source.read()
            if text.count(old) != 1:
                sys.exit("%s: the old text occurs %d times in %s, not once"
                         % (path, text.count(old), file))
            with open(os.path.join(copy, file), "w",
                      encoding="utf-8") as source:
                source.write(text.replace(old, new))
            wrong = os.path.join(copy, "built")
            build(copy, wrong)
            started = time.monotonic()
            # the right generator steers, as it would beside a wrong program
            result = subprocess.run(
                [sys.executable, os.path.join(HERE, "compare.py"),
                 os.path.join(right, "second"), os.path.join(wrong, "second"),
                 "--scripts", str(options.scripts),
                 "--seed", str(options.seed),
                 "--generator", os.path.join(right, "generate"),
                 "--save", os.path.join(folder, "difference.script"),
                 "--quiet"], stdout=subprocess.PIPE, text=True)
            seconds = time.monotonic() - started
            # exit status 1 alone could also be missing coverage or a failure
            found = re.match(r"difference: script (\d+), seed (\d+), line "
                             r"(\d+)\n  A: (.*)\n  B: (.*)\n", result.stdout)
            if result.returncode == 1 and found:
                print("caught  %s: script %s (seed %s, line %s: %s / %s), "
                      "%.1f seconds" % ((name,) + found.groups() + (seconds,)))
            else:
                missed += 1
                print("MISSED  %s: %d scripts, %.1f seconds"
                      % (name, options.scripts, seconds))
    print("planted: %d caught, %d missed" % (len(edits) - missed, missed))
    return 1 if missed else 0


if __name__ == "__main__":
    sys.exit(main())
