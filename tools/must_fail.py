#!/usr/bin/env python3
"""must_fail.py [--fit | --facts] [EDIT..]: edits that a crate must refuse, each at a fact that the edit makes false.

Each must-fail/FOLDER/NAME.edit has lines (others, as '# ..', are passed over):

    crate: operations                          the crate that must refuse it
    fact: fn operations::free returns          a goal of one of its functions that must then fail, by the name that `rt check` gives it; or
    fact: proofs/CallRows.antt cross_rest      a declaration that must fail, and the file of that crate that it stands in
    file: crates/operations/src/lib.rt         holds for the old and new texts after it
    old: ..                                    text that stands there once; of several lines: each behind an `old:` of its own
    new: ..
    name: used-lt-4 used-le-4                  of a proof file: in each name there the part used-lt-4 becomes used-le-4

A goal has the same name whether the check finds its proof or proofs/F/Answers.antt has it; so has a lemma that stands in a function's own
files there. An edit that mixes types is refused before a proof is looked at. It has the compiler's words in the place of `fact:`:

    type: expected `RamByte`, found `FlashWord`

An edit fails if its old text does not stand exactly once, if the crate is still proved, and if it is refused for any other reason than
facts of that crate, the named one among them: where a proof does not fit the code's steps, a text cannot be read, or the checker stopped at a
limit of its own, nothing was shown. Nor is it by an edit of a proof alone: one may stand beside an edit of code or specs, to fit it. So it must
where a proof cites a name that the check made of the code that the edit changes, as it makes returns-then-used-lt-4 of `if used < 4 { return`.
That a fact is refused says that it is not proved any more; `fact:` names one that the edit makes false.

An edit takes seconds. The crate that must refuse it is checked with all crates below it as source, over a copy of an incremental folder,
target/must-fail, in which the crates as they stand are proved first: so the checker takes from there all that the edit does not reach, in the
crates between, too. Where that folder is not there, as in a clean clone, the crates are proved from nothing, in a minute or two.

--fit says only which edits do not fit the present texts, at once. --facts prints for each edit all facts at which it is refused. As many are
tried at a time as there are processors, or as RT_JOBS says. The last line is 'must-fail: N passed, M failed'."""
import functools
import glob
import os
import re
import shutil
import subprocess
import sys
import tempfile
import time
from concurrent.futures import ThreadPoolExecutor

ROOT = os.path.dirname(os.path.dirname(os.path.abspath(__file__)))
PARTS = ("src", "specs", "proofs")
SEED = os.path.join(ROOT, "target/must-fail")
JOBS = int(os.environ.get("RT_JOBS", 0)) or len(os.sched_getaffinity(0))
# what the checker says where a text cannot be read, a proof does not fit the code or a check stopped short, and not that a fact is refused,
UNFIT = re.compile(r"has no (field|`)|not in scope|cannot be named|is no name|operand is missing|expected the end|cannot continue|unclosed|antt ran out of|outgrew the memory|stopped at the step limit")
# and of what only waits for another fact
WAITS = re.compile(r"\d+ declarations? that depends? on .* (was|were) not checked\b|(in )?`[^`]+`:? `[^`]+` was not admitted|it calls .*, which (is|are) not proved")


class Edit:
    def __init__(self, path):
        self.path, self.crate, self.fact, self.types, self.pairs = path, None, None, None, []
        file = last = None
        with open(path, encoding="utf-8") as lines:
            for line in lines:
                key, _, rest = line.rstrip("\n").partition(":")
                rest = rest[1:]
                if key == "crate":
                    self.crate = rest
                elif key == "fact":
                    self.fact = rest
                elif key == "type":
                    self.types = rest
                elif key == "file":
                    file = rest
                elif key == last:
                    self.pairs[-1][key] += "\n" + rest
                elif key == "old":
                    self.pairs.append({"file": file, "old": rest, "new": None})
                elif key == "new" and self.pairs:
                    self.pairs[-1]["new"] = rest
                elif key == "name":
                    part, new = rest.split()
                    self.pairs.append({"file": file, "name": part, "new": new})
                last = key if key in ("old", "new") else None
        if not self.crate or bool(self.fact) == bool(self.types) or not self.pairs:
            raise ValueError(f"{path} lacks a crate, a fact or a type, or a text to replace")
        if not all(pair["file"] and pair.get("old", pair.get("name")) and pair["new"] is not None for pair in self.pairs):
            raise ValueError(f"{path}: each old text needs a file above it and a new text below it")
        if not any(re.match(r"crates/\w+/(src|specs)/", pair["file"]) for pair in self.pairs):
            raise ValueError(f"{path} changes neither code nor specs")
        self.changed = {pair["file"].split("/")[1] for pair in self.pairs}

    def texts(self):
        """Each file that the edit changes, with its new text."""
        texts = {}
        for pair in self.pairs:
            file, new = pair["file"], pair["new"]
            if file not in texts:
                if not os.path.isfile(os.path.join(ROOT, file)):
                    raise ValueError(f"it does not fit: there is no {file}")
                with open(os.path.join(ROOT, file), encoding="utf-8") as source:
                    texts[file] = source.read()
            old = re.escape(pair["old"]) if "old" in pair else rf"(?<!\w){re.escape(pair['name'])}(?!\w)"
            texts[file], times = re.subn(old, lambda match: new, texts[file])
            if times != 1 if "old" in pair else times == 0:
                raise ValueError(f"it does not fit: {file} has {times} times: {pair.get('old', pair.get('name'))}")
        return texts


def dependencies():
    """Each crate's own dependencies, and the static libraries among the crates, from crates.txt."""
    deps, static = {}, set()
    with open(os.path.join(ROOT, "crates.txt"), encoding="utf-8") as lines:
        for name, colon, rest in (line.split("#")[0].partition(":") for line in lines):
            if colon:
                name, *words = name.split()
                deps[name] = rest.split()
                static |= {name} if "staticlib" in words else set()
    return deps, static


DEPS, STATIC = dependencies()


def below(crate):
    """The crates of the repository that a crate rests on, itself last, each behind its own."""
    found = []
    for name in DEPS[crate]:
        found += [c for c in below(name) if c not in found] if name in DEPS else []
    return found + [crate]


@functools.lru_cache(1)
def kit():
    """The folder of the Rattle kit."""
    return os.path.dirname(subprocess.run(["rt", "doc"], capture_output=True, text=True, check=True).stdout.strip())


def rattle(crate, folder, kept, jobs):
    """Check a crate of a folder, with those below it as source, over what is kept; the exit status, and what was printed."""
    command = [f"{kit()}/bin/rattle", "check", "--crate-name", crate, "src/lib.rt", "--links", f"{crate}=", "--jobs", str(jobs)]
    crates = below(crate)
    for name in dict.fromkeys(["core", "std", *(dep for name in crates for dep in DEPS[name] if dep not in DEPS)]):
        command += ["--extern", f"{name}={kit()}/rlibs/{name}.rlib"]
    for name in crates[:-1]:
        command += ["--lib", f"{name}:{','.join(['core', 'std', *DEPS[name]])}=../{name}/src/lib.rt"]
    command += ["--crate-type", "staticlib"] if crate in STATIC else []
    command += ["-L", f"dependency={kit()}/rlibs", "--antt-project", f"{kit()}/rattle/logic/antt-project.json"]
    command += ["--logic-built", f"{kit()}/logic_built", "--incremental", kept]
    run = subprocess.run(command, cwd=os.path.join(folder, "crates", crate), stdin=subprocess.DEVNULL, capture_output=True, text=True)
    return run.returncode, run.stdout + run.stderr


def linked(kept, to):
    """Copy an incremental folder, what was proved by links: the checker replaces such a file and never writes into one."""

    def copy(one, other):
        try:
            if one.endswith(".oantt"):
                return os.link(one, other)
        except OSError:
            pass
        return shutil.copy2(one, other)

    shutil.copytree(kept, to, copy_function=copy, dirs_exist_ok=True)


def prepare(crates):
    """Prove crates over the incremental folder; why each is not proved, or nothing."""
    os.makedirs(SEED, exist_ok=True)
    said = {}
    # from the top down: where one is proved, so are those below it
    for crate in sorted(crates, key=lambda crate: (-len(below(crate)), crate)):
        if crate in said:
            continue
        began = time.monotonic()
        status, text = rattle(crate, ROOT, SEED, JOBS)
        said.update({crate: text or f"exit {status}"} if status else dict.fromkeys(below(crate), ""))
        print(f"must-fail: incremental folder of {crate}{' FAILED' if status else ''} ({time.monotonic() - began:.0f} s)", flush=True)
    return said


def check(edit, folder):
    """Check the crate that must refuse an edit, in a folder of its own: the exit status, and what was printed."""
    crates = below(edit.crate)
    if not edit.changed <= set(crates):
        raise ValueError(f"{edit.crate} rests on no {', '.join(edit.changed - set(crates))}")
    for crate in crates:
        for part in PARTS:
            if os.path.isdir(os.path.join(ROOT, "crates", crate, part)):
                shutil.copytree(os.path.join(ROOT, "crates", crate, part), os.path.join(folder, "crates", crate, part))
    for file, text in edit.texts().items():
        with open(os.path.join(folder, file), "w", encoding="utf-8") as out:
            out.write(text)
    linked(SEED, os.path.join(folder, "kept"))
    return rattle(edit.crate, folder, os.path.join(folder, "kept"), 1)


def named(place, crate, name):
    """A refused declaration of a file, as a fact. One of a function's own proof files is a goal of the function."""
    owner, path = re.fullmatch(r"(?:\.\./(\w+)/|\./)?(.*)", place).groups()
    goal = re.fullmatch(r"proofs/(.+)/(?:Answers|Invariants|Proof)\.antt", path)
    owner = owner or crate
    # of one that calls itself they stand in +NAME
    return f"{owner}: fn {owner}::{goal[1].replace('/', '::').replace('+', '')} {name}" if goal else f"{owner}: {path} {name}"


def function_at(place, line, column, crate, folder):
    """The function that a place in a crate's code belongs to."""
    owner, path = re.fullmatch(r"(?:\.\./(\w+)/|\./)?src/(\S+)\.rt", place).groups()
    owner = owner or crate
    with open(os.path.join(folder, "crates", owner, "src", f"{path}.rt"), encoding="utf-8") as source:
        text = source.read()
    at = sum(map(len, text.splitlines(True)[: line - 1])) + column - 1
    heads = [head for head in re.finditer(r"(?:#\[[^\n]*\]\s*)*(?:pub(?:\([^)]*\))? )?(?:extern \"C\" )?\bfn (\w+)", text) if head.start() <= at]
    return "::".join([owner, *(path.split("/") if path != "lib" else []), heads[-1][1]])


def facts(text, crate, folder):
    """The facts that are refused in what the checker printed of a crate in a folder, as 'CRATE: FACT', and what else it refuses. What only
    waits for another fact is not counted."""
    found, other = [], []
    for place, what in re.findall(r"^(\S+?):\d+:\d+: error(?:\[[\w-]+\])?: (.*)$", text, re.M):
        if WAITS.match(what):
            continue
        name = re.match(r"(?:in )?`([^`]+)`:? ?(.*)$", what)
        if name and not UNFIT.search(name[2]):
            found.append(named(place, crate, name[1]))
        else:
            other.append(f"{place}: {what[:200]}")
    for place, line, column, goal in re.findall(r"^note: (\S*\bsrc/\S+\.rt):(\d+):(\d+): it is not proved that .* \(`([^`]+)`\)", text, re.M):
        function = function_at(place, int(line), int(column), crate, folder)
        found.append(f"{function.partition('::')[0]}: fn {function} {goal}")
    for function, why in re.findall(r"^fn (\S+): no proof: (.*)$", text, re.M):
        if not WAITS.match(why):
            names = re.findall(r"`([^`]+)`", why.partition("`search` did not prove ")[2])
            found += [f"{function.partition('::')[0]}: fn {function} {name}" for name in names]
            other += [] if names else [f"{function}: no proof, {why[:200]}"]
    return list(dict.fromkeys(found)), other


def judge(edit, status, text, folder):
    """Why the edit is refused as it must be, or raise ValueError with what is wrong."""
    if status == 0:
        raise ValueError(f"NOT REFUSED: {edit.crate} is still proved")
    if edit.types:
        if not re.search(rf"^src/\S+?:\d+:\d+: error\[mismatched-types\]: {re.escape(edit.types)}$", text, re.M):
            raise ValueError(f"not refused by its types: {text[-300:]}")
        return f"by its types: {edit.types}"
    found, other = facts(text, edit.crate, folder)
    if status != 1 or "logic=not-proved" not in text:
        raise ValueError(f"it did not reach the prover (exit {status}): {' | '.join(other) or text[-300:]}")
    listed = "; ".join(found) or "no fact"
    if other:
        raise ValueError(f"refused for another reason than a fact: {' | '.join(other)}; and at {listed}")
    if f"{edit.crate}: {edit.fact}" not in found or not all(fact.startswith(f"{edit.crate}: ") for fact in found):
        raise ValueError(f"refused at {listed}, and not at {edit.crate}: {edit.fact}, and in no other crate")
    return f"at {edit.fact}"


def fits(path):
    try:
        Edit(path).texts()
    except (ValueError, OSError) as wrong:
        print(f"must-fail {path}: FAILED: {wrong}")
        return False
    return True


def tried(path, show, base):
    began, listed = time.monotonic(), ""
    name = os.path.relpath(os.path.abspath(path), os.path.join(ROOT, "must-fail"))[: -len(".edit")]
    edit = Edit(path)
    try:
        if base[edit.crate]:
            raise ValueError(f"{edit.crate} is not proved as it stands")
        with tempfile.TemporaryDirectory(prefix="must-fail-") as folder:
            status, text = check(edit, folder)
            listed = "".join(f"\n    {fact}" for fact in facts(text, edit.crate, folder)[0]) if show else ""
            why, good = f"refused, as it must be, by {edit.crate} {judge(edit, status, text, folder)}", True
    except (ValueError, OSError) as wrong:
        why, good = f"FAILED: {wrong}", False
    print(f"must-fail {name}: {why} ({time.monotonic() - began:.0f} s){listed}", flush=True)
    return good


def failed(text):
    print(text[-2000:], "must-fail: 0 passed, 1 failed", sep="\n")
    return 1


def main():
    began = time.monotonic()
    show = "--facts" in sys.argv
    if set(word for word in sys.argv[1:] if word.startswith("--")) - {"--fit", "--facts"}:
        print(__doc__)
        return 2
    paths = [word for word in sys.argv[1:] if not word.startswith("--")] or sorted(glob.glob(os.path.join(ROOT, "must-fail/*/*.edit")))
    if "--fit" in sys.argv:
        good = list(map(fits, paths))
        print(f"must-fail: {sum(good)} fit, {len(good) - sum(good)} do not")
        return 0 if all(good) else 1
    try:
        refusing = {path: Edit(path).crate for path in paths}
        if not set(refusing.values()) <= set(DEPS):
            raise ValueError(f"crates.txt has no {', '.join(set(refusing.values()) - set(DEPS))}")
    except (ValueError, OSError) as wrong:
        return failed(str(wrong))
    base = prepare(set(refusing.values()))
    for crate, text in base.items():
        if text:
            print(f"must-fail: {crate} is not proved as it stands: {text[-1500:]}")
    # those that take longest first
    paths.sort(key=lambda path: (-len(below(refusing[path])), refusing[path]))
    with ThreadPoolExecutor(JOBS) as pool:
        good = list(pool.map(lambda path: tried(path, show, base), paths))
    print(f"must-fail: from start to end ({time.monotonic() - began:.0f} s)")
    print(f"must-fail: {sum(good)} passed, {len(good) - sum(good)} failed")
    return 0 if all(good) else 1


if __name__ == "__main__":
    sys.exit(main())
