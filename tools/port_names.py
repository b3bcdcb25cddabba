#!/usr/bin/env python3
"""port_names.py [FOLDER]: gives the repository's own definitions and lemmas the spelling of today's Rattle.

It ran once, on what the kit's port.py had left. Types, records and modules keep their camel case. Of every other name of specs/ and of the
lemma files of proofs/, words are in snake case; a dash stays only between two names of definitions, as in length-set_codes. Functions of
src/, exported C names, strings, inputs and outputs keep their names. A lemma that would get the name of a definition ends in _lem, and the
fields of Uniqueness, which are named after functions, begin with only_. --list prints the table and changes nothing."""
import os
import re
import sys

ROOT = os.path.abspath(next((word for word in sys.argv[1:] if not word.startswith("-")), os.path.join(os.path.dirname(__file__), "..")))
OURS = ("rules", "laws", "address", "good", "frames", "map", "operations", "runtime", "promises", "codec", "script", "hmt", "hmt_c")
TOKEN = re.compile(r"[^\s(){}\[\],;.`\"«»@|/*+=λ→×⊎≡∷&]+")
# lemmas of one file that had the spelling before the definitions did
LEMMAS = {
    "crates/good/proofs/Rising.antt": ("all_apart", "apart_from"),
    "crates/laws/proofs/Blocks.antt": ("in_order",),
    "crates/promises/proofs/Return.antt": ("top_frame",),
}
UNIQUENESS = ("crates/promises/specs/Uniqueness.antt", "crates/promises/proofs/Uniqueness.antt")
# words of the library that a lemma's name can begin or end with
LIBRARY = {"length", "append", "replicate", "map", "take", "drop", "slice", "get_or", "set", "sets", "reverse"}


def files(*ends):
    for folder, folders, names in os.walk(os.path.join(ROOT, "crates")):
        folders[:] = sorted(name for name in folders if name != "out")
        for name in sorted(names):
            if name.endswith(ends):
                yield os.path.join(folder, name)


def read(path):
    with open(path, encoding="utf-8") as file:
        return file.read()


def defined():
    """The names that specs/ and the lemma files define, fields among them."""
    names = set()
    for path in files(".antt"):
        if os.path.basename(path) == "Proof.antt":
            continue
        for line in read(path).splitlines():
            top = re.match(r"(?:\s+)?(?:abbrev |unfoldable )?(?:pub )?(?:record |data )?([^\s:(){}=;]+)(?: \([^=]*\)| \{[^=]*\})* :(?: |$)", line)
            if top and top[1] not in ("use", "mod", "module", "open", "infixr", "let", "in", "--"):
                names.add(top[1])
    return names


def imported():
    """The names that come from a library."""
    names = set()
    for path in files(".antt", ".rt"):
        for module, list_ in re.findall(r"(?m)^\s*(?:ghost )?(?:pub )?use ([^\s{]+)\.\{([^}]*)\}", read(path)):
            if not (module.startswith("Rattle.") and module.split(".")[1] in OURS):
                names |= {name.strip() for name in list_.split(",")}
    return names


def snake(part):
    return re.sub(r"(?<=[a-z0-9])([A-Z])", lambda m: "_" + m[1].lower(), part) if part[:1].islower() else part


def table():
    """The new name of each old one, and the names that stay."""
    own = {name for name in defined() if not name.startswith("◌")}
    library = imported()
    new = {name: snake(name) for name in own if "-" not in name}
    taken = set(new.values())
    words = taken | LIBRARY | library
    for name in own:
        if "-" not in name:
            continue
        parts = [snake("get_or" if part == "getD" else part) for part in name.split("-")]
        text = parts[0]
        for left, right in zip(parts, parts[1:]):
            names = (left in words or left[:1].isupper()) and right in words and ("_" in left + right or left in LIBRARY or right in LIBRARY)
            text += ("-" if names else "_") + right
        new[name] = text + "_lem" if text in taken else text
    return {old: name for old, name in new.items() if old != name and old not in library}, own, library


def turned(path, text, names):
    """A file's text with the new names. In a walk of the code, Proof.antt, a step of it keeps its dashes."""
    walk = os.path.basename(path) == "Proof.antt"
    for lemma in LEMMAS.get(os.path.relpath(path, ROOT), ()):
        text = re.sub(rf"(?<![\w'.-]){lemma}(?![\w'-])", lemma + "_lem", text)

    def one(match):
        word = match[0]
        if walk and "-" in word and text[match.start() - 1] == ".":
            return word
        return names.get(word, word)

    text = TOKEN.sub(one, text)
    # what is left in camel case is bound inside a lemma
    text = re.sub(r"(?<![\w'.-])[a-z]+(?:[A-Z][a-z]+)+(?![\w'-])", lambda m: snake(m[0]), text) if path.endswith(".antt") else text
    return text


def uniqueness():
    """The fields of the record begin with only_."""
    stated, proved = (os.path.join(ROOT, path) for path in UNIQUENESS)
    head, body = re.split(r"(?m)^(?=pub record Uniqueness )", read(stated))
    with open(stated, "w", encoding="utf-8") as file:
        file.write(head + re.sub(r"(?m)^  pub «?([\w-]+)»? :", lambda m: f"  pub only_{snake(m[1])} :", body))
    head, body = re.split(r"(?m)^(?=pub uniqueness )", read(proved))
    with open(proved, "w", encoding="utf-8") as file:
        file.write(head + re.sub(r"(?m)^      «?([\w-]+)»? =", lambda m: f"      only_{snake(m[1])} =", body))


def pages(names, own):
    """The same names in the edits that must fail, and those in back quotes on the pages; also those that port.py had turned."""
    all_ = set(names.values()) | own

    def one(match):
        word = match[0]
        plain = snake(word).replace("-", "_")
        return names.get(word) or ("get_or" if word == "getD" else plain if plain in all_ and plain not in LIBRARY else word)

    for folder, folders, found in os.walk(ROOT):
        folders[:] = sorted(name for name in folders if name not in (".git", "out", "target"))
        for name in sorted(found):
            path = os.path.join(folder, name)
            where = r"(?m)^(?:fact|old|new): .*$" if name.endswith(".edit") else r"`[^`\n]+`" if name.endswith(".md") else None
            if where:
                new = re.sub(where, lambda m: TOKEN.sub(one, m[0]), read(path))
                with open(path, "w", encoding="utf-8") as file:
                    file.write(new)


def main():
    names, own, library = table()
    seen = {}
    for old, name in sorted(names.items()):
        seen.setdefault(name, []).append(old)
    for name, olds in sorted(seen.items()):
        if len(olds) > 1 or name in library or (name in own and name not in names):
            print("fall together:", name, "from", ", ".join(olds), "and one that has it" if name in own | library else "")
    if "--list" in sys.argv:
        for old, name in sorted(names.items()):
            print(old, name)
        return
    changed = 0
    uniqueness()
    pages(names, own)
    for path in files(".antt", ".rt"):
        old = read(path)
        new = turned(path, old, names)
        if new != old:
            with open(path, "w", encoding="utf-8") as file:
                file.write(new)
            changed += 1
    print(f"{len(names)} names, {changed} files")


if __name__ == "__main__":
    main()
