#!/usr/bin/env python3
"""The reading and the laying out for ./bench.

    table.py callgrind FILE     the instructions in each dump FILE.1, FILE.2, ..
    table.py table FOLDER TEXT  the table, in markdown
    table.py write PAGE TABLE   puts it between the page's two marks
"""
import os
import re
import sys


def callgrind(file):
    number = 1
    while os.path.exists("%s.%d" % (file, number)):
        with open("%s.%d" % (file, number), encoding="utf-8") as dump:
            print(re.search(r"^(?:totals|summary): (\d+)", dump.read(), re.M).group(1))
        number += 1


def read(folder, name):
    with open(os.path.join(folder, name), encoding="utf-8") as text:
        return text.read().splitlines()


def per_call(folder, subject, repeats=(10, 30)):
    few, many = ([int(n) for n in read(folder, "%s.%d" % (subject, r))] for r in repeats)
    return [(b - a) / (repeats[1] - repeats[0]) for a, b in zip(few, many)]


def ratio(ours, theirs):
    return "%.2f" % (ours / theirs) if theirs > 0 else "-"


def mean_times(folder):
    """For each case the mean times of ours, the C and the loop over the programs that were timed."""
    runs = [[[float(n) for n in line.split()] for line in read(folder, name)] for name in sorted(os.listdir(folder)) if name.startswith("time.")]
    return [[sum(numbers) / len(runs) for numbers in zip(*case)] for case in zip(*runs)]


def most(above):
    return "%d with more instructions than the C%s." % (len(above), ", the most %.2f times as many" % max(above) if above else "")


def table(folder, about):
    cases = [line.split("\t") for line in read(folder, "cases")]
    ours, theirs, loop = (per_call(folder, s) for s in ("library", "plain", "nothing"))
    alike, times = per_call(folder, "alike"), mean_times(folder)
    counts = [len(found) for found in (ours, theirs, loop, alike, times)]
    if set(counts) != {len(cases)}:
        sys.exit("table.py: %d cases, but %s counts and times" % (len(cases), ", ".join(map(str, counts))))
    print("C compiler: %s. Instructions and nanoseconds of one call, without the loop around it." % about)
    print()
    print("| function | case | answer | ours | C | ratio | ours, ns | C, ns | ratio |")
    print("|---|---|--:|--:|--:|--:|--:|--:|--:|")
    above = []
    for i, (function, what, number) in enumerate(cases):
        a, b = ours[i] - loop[i], theirs[i] - loop[i]
        x, y = times[i][0] - times[i][2], times[i][1] - times[i][2]
        print("| %s | %s | %s | %g | %g | %s | %.1f | %.1f | %s |" % (function, what, number, a, b, ratio(a, b), x, y, ratio(x, y)))
        if a > b:
            above.append(a / b)
    print()
    print("%d cases; %s" % (len(cases), most(above)))
    print("The same C compiled by the kit's clang, which compiles ours: %s" % most([(a - l) / (b - l) for a, b, l in zip(ours, alike, loop) if a > b]))
    # Refused with 4 right behind the check of the state; done behind the check of the block too.
    done, refused = (cases.index(case) for case in (["store", "own block", "0"], ["store", "address 4096", "4"]))
    print()
    print("The store check by itself, and the byte written: %g, C %g: a store to an own block, less one that is refused with 4 as soon as the state is found "
          "good." % (ours[done] - ours[refused], theirs[done] - theirs[refused]))


def write(page, made):
    with open(page, encoding="utf-8") as text:
        before, _, rest = text.read().partition("<!-- made by ./bench --write -->\n")
    _, end, after = rest.partition("<!-- end of what ./bench makes -->\n")
    if not end:
        sys.exit("table.py: %s has not both marks" % page)
    with open(made, encoding="utf-8") as text:
        lines = text.read()
    with open(page, "w", encoding="utf-8") as text:
        text.write(before + "<!-- made by ./bench --write -->\n" + lines + end + after)


if __name__ == "__main__":
    {"callgrind": callgrind, "table": table, "write": write}[sys.argv[1]](*sys.argv[2:])
