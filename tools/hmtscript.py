#!/usr/bin/env python3
"""Scripts of the program hmt as a text that people can read and write.

  python3 tools/hmtscript.py to-binary incident.txt incident.hmt
  python3 tools/hmtscript.py to-text   incident.hmt incident.txt

`-` is standard input or output, and output goes there if no file is named.

A text has one item a line; `#` starts a comment; numbers are decimal or 0x hex.
First the configuration, in any order (but a name before it is used):

  name level 1                  optional: domain 1 is called level, here and in the replay
  bot 256                       and heap, safe, top (RAM addresses), jt (flash address): all five
  range level 200 300           code range of a domain, start and end; 0 to 0 if not named
  entry 128 200                 jump table word 128 holds 200; 0 if not named

then the operations, in the order in which they are tried:
"""

import argparse
import os
import re
import struct
import sys
from dataclasses import dataclass, field

MARK = b"HMT"
VERSION = 1
LONGEST = 65536         # bytes in a script; to a longer one the program answers `long`
LONGEST_TEXT = 1 << 22  # far more than a text of the longest script needs; stops at /dev/zero, too
BYTE, WORD = 255, 65535
DOMAINS = 8
TABLE_WORDS = 1024  # jump table, the same number for each domain


@dataclass(frozen=True)
class Operation:
    """What can be asked: all that the two converters, the help and the replay know about it."""
    number: int
    word: str
    fields: tuple    # of (what it is, its highest value); BYTE takes one byte, WORD two
    done: str        # for the replay: what answer 0 means
    since: str = ""  # and what it says later about blocks that this was done to

    @property
    def layout(self):
        return struct.Struct("<B" + "".join("B" if top == BYTE else "H" for _, top in self.fields))


OPERATIONS = (
    Operation(1, "store", (("address", WORD), ("byte", BYTE)),
              "{address} now holds {byte}"),
    Operation(2, "call", (("target", WORD), ("return site", WORD), ("stack pointer", WORD)),
              "goes on at word {value}{how}"),
    Operation(3, "return", (),
              "back at word {value}{back}"),
    Operation(4, "malloc", (("size", WORD),),
              "the segment starts at {value}: {blocks}, {value} to {last}",
              "{who} took it in line {line}"),
    Operation(5, "free", (("address", WORD),),
              "{blocks} given back, {address} to {last}",
              "{who} gave it back in line {line}"),
    Operation(6, "change", (("address", WORD), ("domain", BYTE)),
              "{blocks} given to {taker}, {address} to {last}",
              "{who} gave it to {taker} in line {line}"),
)
BY_WORD = {operation.word: operation for operation in OPERATIONS}
BY_NUMBER = {operation.number: operation for operation in OPERATIONS}

SETTINGS = ("bot", "heap", "safe", "top", "jt")  # in the header's order
CONFIGURATION = {
    "name": (("name", None), ("domain", DOMAINS - 1)),
    **{word: (("address", WORD),) for word in SETTINGS},
    "range": (("domain", DOMAINS - 1), ("start", WORD), ("end", WORD)),
    "entry": (("table index", TABLE_WORDS - 1), ("flash address", WORD)),
}


class Problem(Exception):
    """Something the user has to put right; its text is the whole message."""


@dataclass
class Step:
    operation: Operation
    values: tuple
    comment: str = ""
    remarks: list = field(default_factory=list)  # the comment lines above it


@dataclass
class Script:
    settings: dict = field(default_factory=dict)  # in the order of SETTINGS
    ranges: list = field(default_factory=lambda: [(0, 0)] * DOMAINS)
    entries: dict = field(default_factory=dict)
    steps: list = field(default_factory=list)
    names: dict = field(default_factory=dict)    # domain -> name
    opening: list = field(default_factory=list)  # comment lines at the head and the foot of a text
    closing: list = field(default_factory=list)
    notes: list = field(default_factory=list)    # what a text can't keep of a binary script
    damage: str = ""                             # why the program says `cut` at its end

    def asked(self, step):
        """The operation line: numbers in decimal, as the program prints them; domains by name."""
        shown = (self.names.get(value, value) if what == "domain" else value
                 for (what, _), value in zip(step.operation.fields, step.values))
        return " ".join((step.operation.word, *map(str, shown)))


# ---- text -> script ------------------------------------------------------------------------------

def from_text(data, where):
    """The script that a text describes; `where` names the file in messages."""
    if not is_text(data):
        why = "it begins like a binary script" if data and MARK.startswith(data[:3]) else "it holds control bytes"
        raise Problem(f"{where}: not a text: {why if data else 'it is empty'}")
    if len(data) > LONGEST_TEXT:
        raise Problem(f"{where}: longer than any text of a script ({LONGEST_TEXT} bytes)")
    try:
        text = data.decode("utf-8-sig")
    except UnicodeDecodeError as error:
        raise Problem(f"{where}:{data.count(10, 0, error.start) + 1}: not UTF-8 text") from None

    script, seen, size, remarks = Script(), {}, 0, []
    for at, line in enumerate(text.split("\n"), 1):
        item, _, comment = line.partition("#")
        comment = "".join(c if c.isprintable() else " " for c in comment).strip()
        words = item.split()
        try:
            if not words:
                remarks.append(comment)  # an empty one parts paragraphs
            elif words[0] in CONFIGURATION:
                if script.steps:
                    raise Problem(f"{words[0]} belongs to the configuration and must stand above the operations")
                if not seen:
                    script.opening = remarks
                remarks = []  # those between configuration lines are for the text's reader only
                configure(script, words[0], numbers(words, CONFIGURATION[words[0]], script.names), seen, at)
            elif words[0] in BY_WORD:
                if not script.steps:
                    need_settings(script)
                    size = len(to_binary(script))
                operation = BY_WORD[words[0]]
                script.steps.append(Step(operation, numbers(words, operation.fields, script.names), comment, remarks))
                remarks = []
                size += operation.layout.size
                if size > LONGEST:
                    raise Problem(f"here the script passes {LONGEST} bytes, the most that the program takes")
            else:
                known = ", ".join([*CONFIGURATION, *BY_WORD])
                raise Problem(f"unknown word {shown(words[0])}; the words are {known}")
        except Problem as problem:
            raise Problem(f"{where}:{at}: {problem}") from None
    if not script.steps:
        try:
            need_settings(script)
        except Problem as problem:
            raise Problem(f"{where}: {problem}") from None
    script.closing = remarks
    return script


def is_text(data):
    """Text or binary script? What begins like a script's mark is one (also if cut short), and what no
    text holds is taken for one: the program says what it thinks of it."""
    return not MARK.startswith(data[:3]) and not re.search(rb"[\x00-\x08\x0e-\x1f]", data)


def need_settings(script):
    missing = [word for word in SETTINGS if word not in script.settings]
    if missing:
        raise Problem("the configuration lacks " + listed(missing))
    script.settings = {word: script.settings[word] for word in SETTINGS}  # in this order from now on


def configure(script, word, values, seen, at):
    """Takes up one configuration line, unless an earlier line has said the same thing."""
    keys = {"name": [f"name {values[0]}", f"name of domain {values[-1]}"],
            "range": [f"range {values[0]}"], "entry": [f"entry {values[0]}"]}.get(word, [word])
    for key in keys:
        if key in seen:
            raise Problem(f"{key} was given on line {seen[key]} already")
        seen[key] = at
    if word == "name":
        script.names[values[1]] = values[0]
    elif word == "range":
        script.ranges[values[0]] = values[1:]
    elif word == "entry":
        script.entries[values[0]] = values[1]
    else:
        script.settings[word] = values[0]


def numbers(words, fields, names):
    """The values that follow the line's first word, each within its limit."""
    word, *given = words
    if len(given) != len(fields):
        wanted = listed([("an " if what[0] in "aeiou" else "a ") + what for what, _ in fields]) or "nothing after it"
        unit = "word" if word == "name" else "number"
        raise Problem(f"{word} wants {wanted}, got {len(given) or 'no'} {unit}{'s' * (len(given) != 1)}")
    return tuple(value_of(text, what, top, names) for text, (what, top) in zip(given, fields))


def value_of(text, what, top, names):
    if top is None:
        if not re.fullmatch(r"[A-Za-z][A-Za-z0-9_-]{0,11}", text):
            raise Problem(f"{shown(text)} can't be a name: a letter, then at most 11 letters, digits, - or _")
        return text
    if what == "domain" and text in names.values():
        return next(domain for domain, name in names.items() if name == text)
    if not re.fullmatch(r"0[xX][0-9a-fA-F]+|[0-9]+", text):
        hint = ", nor a name given above" if what == "domain" else ""
        raise Problem(f"the {what} {shown(text)} is not a number (decimal or 0x hex){hint}")
    if len(text) < 100:  # a number of thousands of digits is not worth reading
        value = int(text, 16 if text[:2] in ("0x", "0X") else 10)
        if value <= top:
            return value
    raise Problem(f"the {what} {shown(text)} is out of range: 0 to {top}")


def shown(text):
    """A word of the user's, fit for a message."""
    text = text if len(text) <= 24 else text[:21] + "..."
    return "`" + "".join(c if c.isprintable() else "?" for c in text) + "`"


def listed(parts):
    return " and ".join([", ".join(parts[:-1]), parts[-1]] if len(parts) > 1 else parts)


# ---- script <-> binary ---------------------------------------------------------------------------

def to_binary(script):
    parts = [MARK, struct.pack("<B5H", VERSION, *script.settings.values())]
    parts += [struct.pack("<2H", *pair) for pair in script.ranges]
    parts += [struct.pack("<H", len(script.entries))]
    parts += [struct.pack("<2H", *pair) for pair in script.entries.items()]
    parts += [step.operation.layout.pack(step.operation.number, *step.values) for step in script.steps]
    return b"".join(parts)


def from_binary(data):
    """The script in these bytes. Raises Problem for a header that the program calls `bad`."""
    script = Script()
    if len(data) > LONGEST:
        script.notes.append(f"The file is longer than {LONGEST} bytes, so the program only prints `long`."
                            f" These are the first {LONGEST}.")
        data = data[:LONGEST]
    if not data:
        raise Problem("the file is empty")
    if data[:3] != MARK:
        raise Problem("it does not begin with the mark HMT")
    if data[3:4] != bytes([VERSION]):
        raise Problem(f"its version is {data[3]}, and {VERSION} is wanted" if data[3:] else "it ends after the mark")
    at = 4

    def words(count):
        nonlocal at
        at += 2 * count
        if at > len(data):
            raise Problem(f"its header is cut: {len(data)} bytes, and it needs {at} or more")
        return struct.unpack_from(f"<{count}H", data, at - 2 * count)

    script.settings = dict(zip(SETTINGS, words(5)))
    script.ranges = [words(2) for _ in range(DOMAINS)]
    count = words(1)[0]
    for index, entry in struct.iter_unpack("<2H", struct.pack(f"<{2 * count}H", *words(2 * count))):
        if index >= TABLE_WORDS:
            raise Problem(f"it fills jump table word {index}, and the last one is {TABLE_WORDS - 1}")
        script.entries[index] = entry
    if len(script.entries) < count:
        script.notes.append("Table entries that a later one replaces are left out.")

    while at < len(data) and not script.damage:
        operation, left = BY_NUMBER.get(data[at]), len(data) - at
        if operation and operation.layout.size <= left:
            script.steps.append(Step(operation, operation.layout.unpack_from(data, at)[1:]))
            at += operation.layout.size
        elif operation:
            script.damage = f"the script ends inside a {operation.word}: {left} of its {operation.layout.size} bytes"
        else:
            script.damage = f"{data[at]} is not the number of an operation; {left} bytes from there on are not read"
    return script


# ---- script -> text ------------------------------------------------------------------------------

def to_text(script):
    lines = [f"# {note}" for note in script.notes]
    lines += [f"{word} {value}" for word, value in script.settings.items()]
    lines += [f"range {domain} {start} {end}" for domain, (start, end) in enumerate(script.ranges) if start or end]
    lines += [f"entry {index} {entry}" for index, entry in script.entries.items()]
    lines += [""] + [script.asked(step) for step in script.steps]
    lines += [f"# Here the program prints `cut`: {script.damage}."] * bool(script.damage)
    return "".join(line + "\n" for line in lines)


# ---- files and the command -----------------------------------------------------------------------

def read_file(path):
    """The bytes of a file, or enough of them to see that they are too many."""
    try:
        with open(0 if path == "-" else path, "rb", closefd=path != "-") as file:
            return file.read(LONGEST_TEXT + 1)
    except OSError as error:
        raise Problem(f"{path}: can't be read: {error.strerror}") from None


def write_file(path, data):
    if path == "-":
        sys.stdout.buffer.write(data)
        return
    try:
        with open(path, "wb") as file:
            file.write(data)
    except OSError as error:
        raise Problem(f"{path}: can't be written: {error.strerror}") from None


def guarded(main):
    """Runs a command's main; whatever stops it becomes one line on standard error and a status of 2."""
    if sys.stdout is None:  # closed by the caller
        sys.stdout = open(os.devnull, "w")
    try:
        status = main()
        sys.stdout.flush()
        return status
    except Problem as problem:
        message = str(problem)
    except KeyboardInterrupt:
        message = "stopped"
    except BrokenPipeError:
        message = ""  # the reader of our output, as `head`, has seen enough
    except OSError as error:
        message = f"{error.filename or 'output'}: {error.strerror}"
    try:
        sys.stdout.flush()
    except OSError:  # Python would try again at its end, and complain
        os.dup2(os.open(os.devnull, os.O_WRONLY), sys.stdout.fileno())
    if message:
        print(message, file=sys.stderr)
    return 2


def main():
    forms = "\n".join("  " + " ".join([operation.word, *(f"<{what}>" for what, _ in operation.fields)])
                      for operation in OPERATIONS)
    parser = argparse.ArgumentParser(prog="hmtscript.py", description=__doc__ + "\n" + forms,
                                     formatter_class=argparse.RawDescriptionHelpFormatter)
    parser.add_argument("direction", choices=("to-binary", "to-text"))
    parser.add_argument("input", metavar="INPUT")
    parser.add_argument("output", metavar="OUTPUT", nargs="?", default="-")
    wanted = parser.parse_args()
    data = read_file(wanted.input)
    if wanted.direction == "to-binary":
        if wanted.output == "-" and sys.stdout.isatty():
            raise Problem("name an output file: a binary script is nothing for a terminal")
        write_file(wanted.output, to_binary(from_text(data, wanted.input)))
        return 0
    try:
        script = from_binary(data)
    except Problem as problem:
        raise Problem(f"{wanted.input}: not a script, the program would print `bad`: {problem}") from None
    write_file(wanted.output, to_text(script).encode())
    return 0


if __name__ == "__main__":
    sys.exit(guarded(main))
