#!/usr/bin/env python3
"""contracts.py: uniqueness has an instance for every public function, about the very contract that stands in the source (document 01,
section 10).

`uniqueness` of crates/promises proves, for each function by name, that no two results meet its contract. What ties those theorems to the
contracts that are really written is this test: the checker does not compare the two. It reads each crate's sources and, for each public
function NAME, the field only_CRATE_NAME of the record Uniqueness or, where there is none, only_NAME, which has the form

    (the parameters) → Only (λ r x'. what the function ensures)

and passes the function if
  - the field is about every parameter, each of its type (numbers as ℕ, slices and arrays as List ℕ);
  - behind λ stand the result, if it has one, with its type or without, and every place lent with &mut, and nothing else: so nothing is left
    open;
  - what follows is its `ensures` word for word, with x for `x.now` and `x.old`, x' for `x.new` and the name behind λ for `result`; of several
    clauses, all of them, joined by ×;
  - each name in it, word or operator, is taken from where the source takes it, and so is each type. A word of the crate's own, which
    promises cannot cite, is a parameter of the field, of the type that its definition in the crate's specs has (so the theorem holds
    whatever it means), or written out as that definition says.

A function of an impl block is TYPE_NAME. One of a trait's impl ensures what its ghost member NAME_gives says of its parameters and its
result; what is derived needs no field. A struct with a proof beside what it holds (`GoodState { state, ghost good }`) stands in the specs as a
record that says the same: where such a `good` is handed over, the field is about any `state`, for which the clauses say `good.state`. Of a
closure `f: F` the field is about what it may give, for which the clauses say `F.post f`. A generic function has a field for each type of the
table INSTANCES, where its contract says what that type's impl does, and no source may name another type for it (`word_at::<T>`, `let x: T =
word_at(..)`; a type that the checker alone infers is not seen here). Before Only may stand a premise, which is one of the function's
`requires`. A function of the table AS_OUTCOMES hands back what `moved` makes an outcome of: beside the field about that, only_CRATE_NAME, it
has the field only_NAME about the outcome, which is the same contract with `moved result state` read as the result. Each field belongs to a
function, but for only_gives and only_gives_to_c, which speak of all that a rule gives.

A use line that renames a name or brings a whole module is not followed, and fails what it stands above. Functions of one name share the
field, and each is held to it. A function is public if its file is open from the crate's root on, or its type is declared in one that is. One
with a `requires` is named as such: only proved code calls it.

  python3 tools/contracts.py [ROOT]         ROOT is a folder with crates/ in it; else the repository

The last line printed is 'contracts: N passed, M failed'."""
import copy
import os
import re
import sys

ROOT = os.path.dirname(os.path.dirname(os.path.abspath(__file__)))
FIELDS = "crates/promises/specs/Uniqueness.antt"
OPEN, CLOSE = "([{", ")]}"
WORD = r"[^\W\d][\w']*"
NAME = r"""[^\s(){}.;,@"«»]+"""  # a name of the specs' language, word or operator
GHOST_USE = r"\bghost\s+use\s+([^;]*);"  # in a source: only these speak of contracts
GROUP = r"\((?:[^()]|\([^()]*\))*\)"  # brackets, perhaps with brackets in them
SPEC_USE = r"^\s*(?:pub\s+)?use\s+([^{\n]*(?:\{[^}]*\})?[^\n]*)"
BUILT_IN = {"×", "→", ":", "λ", "Type"}  # its own, which no use line brings
PRELUDE = "Rattle.std.specs.Prelude"
# what in_antt writes, and a name that the rules give to one of these
TYPES = {word: PRELUDE for word in ("ℕ", "List", "Bool", "Option", "Result")} | {"Answer": "Rattle.rules.specs.Answers"}
# the field of a generic function, for each type that stands for its parameter
INSTANCES = {"codec::word_at": {"u16": "word_at", "usize": "word_at", "rules::RamByte": "ram_byte_at", "rules::FlashWord": "flash_word_at"}}
# what the impl of a type of std says, as for those of the crates: the names of its parameters and its result, the text, and what brings its words
SAYS = {("From<u16>", of, "from_gives"): (["x", "y"], "y ≡ x", "ghost use Rattle.std.specs.Prelude.{◌≡◌};") for of in ("u16", "usize")}
# functions with a field about the outcome, beside the one about what they hand back, and what makes an outcome of that
AS_OUTCOMES = ("operations::call_with", "operations::ret_with")
MOVED = ("moved", "Rattle.rules.specs.Answers")


def read(path, comment):
    """A source without its comments."""
    with open(path, encoding="utf-8") as source:
        return re.sub(comment + r"[^\n]*", "", source.read())


def files(folder, name, outer=(), opened=True):
    """The files of a crate from its root on, with their paths of names, and whether they can be reached from outside, by `pub mod`s alone."""
    path = os.path.join(folder, *outer, name + ".rt")
    if not os.path.exists(path):
        return
    inner = outer if name in ("lib", "main") else outer + (name,)
    text = read(path, "//")
    if unknown := re.search(r"^\s*pub\s+(use|trait)\b", text, re.M):
        raise ValueError(f"{path} has a `pub {unknown.group(1)}`, which this test does not follow")
    yield text, inner, opened
    for public, module in re.findall(r"^\s*(pub\s+)?mod\s+(\w+)\s*;", text, re.M):
        yield from files(folder, module, inner, opened and bool(public))


def closing(text, at):
    """Where the bracket that opens at a place closes."""
    depth = 0
    for i in range(at, len(text)):
        depth += (text[i] in OPEN) - (text[i] in CLOSE)
        if depth == 0:
            return i
    raise ValueError("a bracket stays open")


def split(text, mark):
    """The parts of a text between the marks that stand in no bracket."""
    parts, depth, start = [], 0, 0
    for i, c in enumerate(text):
        depth += (c in OPEN) - (c in CLOSE)
        if c == mark and depth == 0:
            parts.append(text[start:i])
            start = i + 1
    return [part.strip() for part in parts + [text[start:]] if part.strip()]


def conjuncts(text):
    """The facts that a text joins by ×, without the brackets round each."""
    text = text.strip()
    while text.startswith("(") and closing(text, 0) == len(text) - 1:
        text = text[1:-1].strip()
    outside = list(text)
    for at in [at for at, c in enumerate(text) if c in OPEN]:
        outside[at : closing(text, at) + 1] = " " * (closing(text, at) + 1 - at)
    # what stands behind one of these reaches over a ×
    if re.search(r"[→λ⊎↔]|\b(let|if|in)\b", "".join(outside)):
        return [text]
    parts = split(text, "×")
    return [text] if len(parts) == 1 else [fact for part in parts for fact in conjuncts(part)]


def uses(text, lines):
    """The names that a file's use lines bring, each with the module it is from."""
    brought = set()
    for line in re.findall(lines, text, re.M):
        plain = re.fullmatch(r"([\w.'+-]+)\.\{([^{}]*)\}", line.strip())
        names = [name.strip() for name in plain.group(2).strip(" \n,").split(",")] if plain else []
        if not names or not all(re.fullmatch(NAME, name) for name in names):
            raise ValueError(f"`use {' '.join(line.split())}` renames a name or brings a module, which this test does not follow")
        brought |= {(name, plain.group(1)) for name in names}
    return brought


def bound_in(text):
    """The names that a text binds itself."""
    groups = re.findall(rf"[({{]\s*((?:{WORD}\s+)+): |λ ([^.]*)\.|\blet\s+({WORD})", text)
    return {name for group in groups for name in "".join(group).split()}


def names_in(text, variables):
    """The names in a contract, each part of an operator by itself; not the fields, which stand behind a dot, and not numbers."""
    for path in re.finditer(rf"(?<!\.)({NAME})\.{NAME}", text):
        if path.group(1) not in variables and not text[: path.start()].endswith("."):
            raise ValueError(f"`{path.group(0)}` is named by its path, which this test does not follow")
    return {name for name in re.findall(rf"\.?{NAME}", text) if name[0] != "." and not name.isdecimal()} - variables


def origin(name, brought):
    """Which of the names that are brought a name in a contract may be, or be a part of."""
    return {(whole, module) for whole, module in brought if name == whole or "◌" in whole and name in whole.split("◌")}


def in_antt(kind, arrays):
    """A type of the source as the specs write it; some names stand for arrays."""
    kind = re.sub(r"^&\s*(mut\s+)?", "", kind.strip())
    if of := re.fullmatch(r"(\w*)<(.*)>", re.sub(r"^\[([^\[;]*).*\]$", r"<\1>", arrays.get(kind, kind))):
        parts = [in_antt(part, arrays) for part in split(of.group(2), ",")]
        return " ".join([of.group(1) or "List", *(f"({part})" if " " in part else part for part in parts)])
    return "ℕ" if re.fullmatch(r"u\d+|usize", kind) else {"bool": "Bool", "()": "⊤"}.get(kind, kind)


class Function:
    """A public function: its name, the type that it belongs to, its type parameters but for closures, its parameters with their types, the type
    that it hands back, and its clauses. Some types hold a value with a proof about it, and some are names of arrays."""

    def __init__(self, name, of, generic, given, hands, clauses, holds, arrays):
        self.name, self.path = (f"{of}_{name}", f"{of}::{name}") if of else (name, name)
        self.of, bounds = of, split(generic or "", ",")
        gives = {kind: [in_antt(part, arrays) for part in (*split(takes, ","), back)] for bound in bounds
                 for kind, takes, back in re.findall(r"^(\w+): Fn\(([^()]*)\) -> (\w+)$", bound)}
        self.generic = ", ".join(bound for bound in bounds if bound.split(":")[0] not in gives)
        self.held = {name: holds[kind] for name, kind in given if kind in holds}
        self.closures = {name: f"{kind}.post {name}" for name, kind in given if kind in gives}
        handed, given = given, [self.held.get(name, (name, kind)) for name, kind in given]
        self.given = {name: " → ".join([*gives[kind], "Type 0"]) if kind in gives else in_antt(kind, arrays) for name, kind in given}
        self.hands = in_antt(hands, arrays) if hands else None
        self.lent = [name for name, kind in given if re.match(r"&\s*mut\b", kind)]
        self.shown = [name for name, kind in given if kind.startswith("&") and name not in self.lent]
        self.ensures = [text for kind, text in clauses if kind == "ensures"]
        self.requires = [text for kind, text in clauses if kind == "requires"]
        self.mixed = len(self.given) < len(given)
        self.states = [f"{name}.{self.held[name][0]}" if name in self.held else name for name, kind in handed
                       if self.held.get(name, (name, kind))[1] == "State"]

    def as_field(self, text, result):
        """A clause as a field writes it, where the field calls the result by this name."""
        for name, (part, _) in self.held.items():
            text = re.sub(rf"(?<![\w'.]){name}\.{part}(?![\w'])", part, text)
            if re.search(rf"(?<![\w'.]){name}(?![\w'])", text):
                raise ValueError(f"a clause names `{name}` for more than its {part}: {text}")
        for name, post in self.closures.items():
            text = re.sub(rf"\({re.escape(post)}\)|(?<![\w'.]){re.escape(post)}(?![\w'])", name, text)
        new = {f"{name}.{when}": name + "'" * (when == "new") for names, whens in ((self.shown, ("now",)), (self.lent, ("old", "new")))
               for name in names for when in whens}
        taken = {*self.given, "result", *result.split(), *(name + "'" for name in self.lent)}
        if bound_in(text) & taken or (set(re.findall(WORD, text)) & (taken - set(self.given) - {"result"})):
            raise ValueError(f"a clause binds a name that its field has for something else: {text}")
        for name, put in new.items():
            text = re.sub(rf"(?<![\w'.]){re.escape(name)}(?![\w'])", "@" + put, text)
        if bare := re.search(rf"(?<![\w'.@])({'|'.join([*self.shown, *self.lent]) or '@'})(?![\w'])", text):
            raise ValueError(f"a clause names `{bare.group(1)}` without saying when: {text}")
        return re.sub(r"(?<![\w'.])result(?![\w'])", result or "result", text.replace("@", ""))


def as_outcome(function, brought):
    """A function that hands back what `moved` makes an outcome of, as one that hands back that outcome."""
    if len(function.states) != 1 or origin("moved", brought) != {MOVED}:
        raise ValueError("it is handed more than one state or none, or its `moved` is none of the rules")
    whole = copy.copy(function)
    whole.hands, whole.ensures = "Outcome", []
    for text in function.ensures:
        moved = rf"moved result {re.escape(function.states[0])}(?![\w'.])"
        text, times = re.subn(rf"\({moved}\)|(?<![\w'.]){moved}", "@", text)
        if times != 1 or re.search(r"(?<![\w'.])(result|moved)(?![\w'])", text):
            raise ValueError(f"a clause is not about one outcome, `moved result {function.states[0]}`: {text}")
        whole.ensures.append(text.replace("@", "result"))
    return whole


def blocks(text):
    """The impl blocks of a source: where each begins and ends, its trait, if it has one, and its type."""
    for head in re.finditer(r"^\s*impl\b([^{;]*)(?=\{)", text, re.M):
        trait, _, of = head.group(1).rpartition(" for ")
        yield head.end(), closing(text, head.end()), trait.strip(), of.strip()


def members(text):
    """What the ghost members of a source's impl blocks say: each by its trait, type and name, with the names that it gives its parameters."""
    return {(trait, of, name): (names.split(), said) for start, end, trait, of in blocks(text)
            for name, names, said in re.findall(r"\bghost (\w+) = \{ λ ([^.]*)\. (.*?) \};", " ".join(text[start:end].split()))}


def functions(text, holds, arrays):
    """The public functions of a source: those so called, and those of a trait's impl."""
    own = list(blocks(text))
    for head in re.finditer(r'^\s*(pub\s+)?(?:const\s+)?(?:extern\s+"C"\s+)?fn\s+(\w+)\s*(?:<((?:->|[^<>]|<[^<>]*>)*)>\s*)?', text, re.M):
        name = head.group(2)
        trait, of = next(((trait, of) for start, end, trait, of in own if start < head.start() < end), ("", ""))
        if not head.group(1) and not trait:
            continue
        if text[head.end()] != "(":
            raise ValueError(f"{name}: its head cannot be read")
        end = closing(text, head.end())
        # a parameter that the body alters (`mut`) is in the contract what was handed over
        given = [re.sub(r"^\s*mut\s+", "", p) for p in split(text[head.end() + 1 : end], ",")]
        given = [[part.strip() for part in re.sub(r"^(&\s*(?:mut\s+)?)?self$", rf"self: \1{of}", p).split(":", 1)] for p in given]
        rest = re.match(r"\s*(?:->\s*((?:[^{;\[]|\[[^\]]*\])*?))?\s*(?=(?:requires|ensures)\b|\{)", text[end + 1 :])
        if not rest or not all(len(parts) == 2 for parts in given):
            raise ValueError(f"{name}: its head cannot be read")
        at, clauses = end + 1 + rest.end(), []
        while clause := re.match(r"\s*(requires|ensures)(?:\s+\w+)?\s*(?=\{)", text[at:]):
            first = at + clause.end()
            last = closing(text, first)
            clauses.append((clause.group(1), " ".join(text[first + 1 : last].split())))
            at = last + 1
        if not re.match(r"\s*\{", text[at:]):
            raise ValueError(f"{name}: its clauses cannot be read")
        if said := members(text).get((trait, of, f"{name}_gives")):
            (*names, result), body = said
            if len(names) != len(given):
                raise ValueError(f"{of}::{name}: its ghost member has other parameters")
            given = [[called, kind] for called, (_, kind) in zip(names, given)]
            clauses.append(("ensures", re.sub(rf"(?<![\w'.]){result}(?![\w'])", "result", body)))
        yield Function(name, of, head.group(3), given, rest.group(1), clauses, holds, arrays)


def fields(text):
    """Each field of the record: what it is about, by its type, its premise, the names behind λ, the type if one has it, and what follows."""
    body = text[text.index("pub record Uniqueness") :]
    found = {}
    for part in re.split(r"^  pub ", body, flags=re.M)[1:]:
        field = re.fullmatch(rf"only_(\w+) : ((?:{GROUP} )*)(?:→ )?(?:({GROUP}) → )?Only\d? \(λ ({GROUP}|[^.()]*)\. (.*)\)", " ".join(part.split()))
        if field:
            name, groups, premise, behind, statement = field.groups()
            about = {}
            for group in re.findall(GROUP, groups):
                names, _, kind = group[1:-1].partition(" : ")
                about.update({name: kind for name in names.split()})
            results, _, kind = behind.strip("()").partition(" : ")
            found[name] = about, (premise or "")[1:-1], results.split(), kind, statement
    return found


def own_specs(root, crate, word, brought):
    """The text of the file of the crate's own specs from which a source takes a word; nothing if it is from elsewhere."""
    modules = [module for _, module in origin(word, brought)]
    own = re.fullmatch(rf"Rattle\.{crate}\.specs\.(\w+)", modules[0]) if len(modules) == 1 else None
    return read(os.path.join(root, "crates", crate, "specs", own.group(1) + ".antt"), "--") if own else ""


def definition(word, specs):
    """What a word is defined as in a text of specs: the names of its parameters, the text, and what its file brings; None if it is not there."""
    meant = re.search(rf"^abbrev pub {re.escape(word)} : .*\n{re.escape(word)} ([^=]*) =\s+(.*(?:\n[ \t]+.*)*)$", specs, re.M)
    return (meant.group(1).split(), " ".join(meant.group(2).split()), uses(specs, SPEC_USE)) if meant else None


def written_out(text, variables, meant, brought):
    """A clause whose first word has a definition: as that says. With it, which names are taken by whom."""
    if not meant:
        return text, [(names_in(text, variables | bound_in(text)), brought)]
    handed, (names, said, theirs) = split(text, " ")[1:], meant
    put = dict(zip(names, handed))
    if bound_in(said) & set(re.findall(WORD, " ".join(handed))):
        raise ValueError(f"the definition of `{text.split(' ')[0]}` binds a name that it is handed")
    body = re.sub(rf"(?<![\w'.]){WORD}", lambda name: put.get(name.group(0), name.group(0)), said)
    return body, [(names_in(said, set(put) | bound_in(said)), theirs), (names_in(" ".join(handed), variables | bound_in(text)), brought)]


def imports(word, source):
    """The crates from which a source's plain `use` lines bring a type under its own name; `crate` is the source's own."""
    found = []
    for item in re.findall(r"^\s*use\s+([^;]+);", source, re.M):
        plain = re.fullmatch(r"(\w+)::(?:(\w+)|\{([^{}]*)\})", " ".join(item.split()))
        if plain and word in [name.strip() for name in (plain.group(2) or plain.group(3)).split(",")]:
            found.append(plain.group(1))
    return found


def home(word, crate, source):
    """The crate that a type of a source is from: its own, if no plain `use` line brings the name."""
    brought = set(imports(word, source)) - {"crate"} or {crate}
    return brought.pop() if len(brought) == 1 else ""


def instances(name, crate, source):
    """The types that a source names for a generic function, each with the crate that it is from."""
    if re.search(rf"\b{name}\s+as\s+\w+\s*[,;}}]", source):
        raise ValueError(f"`{name}` is renamed in crate {crate}, which this test does not follow")
    found = re.findall(rf"\b{name}\s*::\s*<((?:[^<>]|<[^<>]*>)*)>", source)
    found += re.findall(rf"\blet\s+(?:mut\s+)?\w+\s*:\s*([^=;]*?)\s*=\s*(?:\w+\s*::\s*)*{name}\s*\(", source)
    for kind in dict.fromkeys(re.sub(r"^crate::", f"{crate}::", "".join(kind.split())) for kind in found):
        yield f"{home(kind, crate, source)}::{kind}" if re.fullmatch(r"[A-Z]\w*", kind) else kind


def same_types(kinds, source, taken, holds):
    """Raise ValueError if a word of some types is from another place in the specs than in the source; a record beside them is the type itself."""
    for word in {word for kind in kinds for word in re.findall(WORD, kind)} - BUILT_IN:
        meant = set() if word in holds else {(word, TYPES.get(word) or f"Rattle.{''.join(imports(word, source))}.specs.declared.{word}")}
        if origin(word, taken) != meant:
            raise ValueError(f"the type `{word}` is from another place in its field")


def same_names(used, brought, taken):
    """Raise ValueError if one of the names that are used is from another place in the specs than in what brings it."""
    for word in used:
        ours, theirs = origin(word, brought), origin(word, taken)
        if ours != theirs or not ours and word not in BUILT_IN:
            told = [", ".join(sorted(module for _, module in places)) or "nowhere" for places in (ours, theirs)]
            raise ValueError(f"`{word}` is from {told[0]}, and in its field from {told[1]}")


def own_word(word, about, specs):
    """Whether a parameter of a field is a word of the crate's specs of that type, with some type for each that the field is about."""
    some = []

    def part(name):
        name = name.group(0)
        if about.get(name) != "Type 0":
            return re.escape(name)
        some.append(name)
        return f"(?P={name})" if name in some[:-1] else f"(?P<{name}>[^→\\n]+)"

    return re.search(rf"\b{word} : {re.sub(rf'{WORD}|.', part, about[word])}$", specs, re.M)


def judge(root, crate, source, function, field, taken, holds, says):
    """Raise ValueError with what is wrong; a generic function is judged for a type of which it is known what its impl says."""
    given, lent = function.given, function.lent
    if not function.ensures:
        raise ValueError("it has no contract")
    if function.generic and not says:
        raise ValueError("it is generic, and the table INSTANCES has no type for it")
    if field is None:
        raise ValueError(f"{FIELDS} has no field of its name")
    about, premise, results, kind, statement = field
    places = [place + "'" for place in lent]
    named = [name for name in results if name not in places]
    if len(named) != bool(function.hands) or sorted(results) != sorted(named + places) or set(results) & set(given):
        raise ValueError(f"its field is about {', '.join(results)}, and it leaves {', '.join(['its result'] * bool(function.hands) + places)}")
    if function.mixed or any(about.get(x) != kind for x, kind in given.items()) or kind not in ("", function.hands):
        raise ValueError("its field is about other parameters, or another result")
    here, ensured, names = uses(source, GHOST_USE), [], []
    variables = {*about, *results}
    for clause in function.ensures:
        text = function.as_field(clause, "".join(named))
        first = text.split(" ")[0]
        meant = None if origin(first, taken) else definition(first, own_specs(root, crate, first, here))
        if first in says:
            parameters, said, brings = says[first]
            meant = parameters, said, uses(brings, GHOST_USE)
        text, of_text = written_out(text, variables, meant, here)
        ensured += conjuncts(re.sub(r"≡ \(([^()]*)\)$", r"≡ \1", text) if first in says else text)
        names += of_text
    if premise:
        if premise not in [function.as_field(clause, "".join(named)) for clause in function.requires]:
            raise ValueError(f"its field has a premise that is none of its `requires`: {premise}")
        names.append((names_in(premise, variables | bound_in(premise)), here))
    if conjuncts(statement) != ensured:
        raise ValueError(f"its field says\n    {statement}\nand it ensures\n    {' × '.join(ensured)}")
    same_types([kind, *(kind for part, kind in given.items() if (part, kind) not in function.held.values())], source, taken, holds)
    for word in set(about) - set(given):
        if about[word] != "Type 0" and not own_word(word, about, own_specs(root, crate, word, here)):
            raise ValueError(f"`{word}`, a parameter of its field, is none of its own and no word of the crate's specs with that type")
    for used, brought in names:
        same_names(used, brought, taken)


def holders(text):
    """The structs of a source with a ghost field: each with its fields, as a record of the specs writes them."""
    for head in re.finditer(r"^pub struct (\w+) (?=\{)", text, re.M):
        body = " ".join(text[head.end() + 1 : closing(text, head.end())].split())
        parts = [re.fullmatch(r"(?:pub )?(ghost )?(\w+): (.*)", part) for part in split(body, ",")]
        if re.search(r"\bghost\b", body) and all(parts):
            yield head.group(1), [(part.group(2), part.group(3).strip("{} ") if part.group(1) else in_antt(part.group(3), {})) for part in parts]


def same_record(source, struct, record, taken):
    """Raise ValueError if a record of the specs says something else than a struct of a source, which holds a value and a proof about it."""
    if struct != record or len(struct) != 2:
        raise ValueError(f"{FIELDS} has no record that says the same: {struct}")
    (part, kind), (_, proof) = struct
    same_types([kind], source, taken, {})
    same_names(names_in(proof, {part}), uses(source, GHOST_USE), taken)


def main(root):
    spec = read(os.path.join(root, FIELDS), "--")
    stated, taken = fields(spec), uses(spec, SPEC_USE)
    records = {name: [tuple(line.split(" : ", 1)) for line in re.findall(r"  pub (.*)", lines)]
               for name, lines in re.findall(r"^pub record (\w+) : Type 0 where\n((?:  pub .*\n)+)", spec, re.M)}
    crates = os.path.join(root, "crates")
    found = [(crate, *file) for crate in sorted(os.listdir(crates)) for first in ("lib", "main")
             for file in files(os.path.join(crates, crate, "src"), first)]
    says, held, arrays, public, judged, leaves, seen, wrong = dict(SAYS), {}, {}, set(), [], [], set(), []

    def tried(full, good, test, *words):
        try:
            test(*words)
            judged.append(True)
        except ValueError as wrong:
            judged.append(False)
            good = f"FAILED: {wrong}"
        print(f"contract {full}: {good}")

    for crate, source, _, opened in found:
        says |= {(trait, f"{crate}::{of}", name): (*said, source) for (trait, of, name), said in members(source).items()}
        arrays |= {(crate, name): kind for name, kind in re.findall(r"^(?:pub )?type (\w+) = (\[[^\]]*\]);", source, re.M)}
        if opened:
            public |= {(crate, name) for name in re.findall(r"^pub (?:struct|enum) (\w+)", source, re.M)}
            for name, struct in holders(source):
                tried(f"{crate}::{name}", "its record says the same", same_record, source, struct, records.pop(name, None), taken)
                held[crate, name] = struct[0]
    for crate, source, inner, opened in found:
        holds, named = ({name: what for (of, name), what in table.items() if home(name, crate, source) == of} for table in (held, arrays))
        for function in functions(source, holds, named):
            full = "::".join((crate, *inner, function.path))
            if not opened and (crate, function.of) not in public:
                continue
            for kind, name in (INSTANCES.get(full) or {"": function.name}).items():
                name = f"{crate}_{name}" if f"{crate}_{name}" in stated else name
                seen.add(name)
                letter, _, bound = (function.generic or "").partition(": ")
                of_kind = {f"{letter}.{member}": what for (trait, of, member), what in says.items() if (trait, of) == (bound, kind)}
                tried(f"{full}{kind and f' for {kind}'}", "unique", judge, root, crate, source, function, stated.get(name), taken, holds, of_kind)
            if full in AS_OUTCOMES:
                seen.add(function.name)
                tried(f"{full} as an outcome", "unique", lambda: judge(
                    root, crate, source, as_outcome(function, uses(source, GHOST_USE)), stated.get(function.name), taken, holds, {}))
            if function.requires:
                leaves.append(full)
        wrong += [f"{'::'.join((crate, *inner))} names the type {kind} for {full}, and the table INSTANCES lacks it"
                  for full, table in INSTANCES.items() for kind in instances(full.split("::")[-1], crate, source) if kind not in table]
    wrong += [f"{FIELDS} has a record {name}, and no public struct says the same" for name in records]
    wrong += [f"{FIELDS} has a field only_{name}, and no public function has that name" for name in sorted(set(stated) - seen - {"gives", "gives_to_c"})]
    print("".join(f"FAILED: {what}\n" for what in wrong), end="")
    print("with a requires, called by proved code alone: " + (", ".join(leaves) or "none"))
    if not seen:
        wrong.append("nothing to be judged")
        print("FAILED: no public function is found")
    failed = judged.count(False) + len(wrong)
    print(f"contracts: {len(judged) - judged.count(False)} passed, {failed} failed")
    return 0 if failed == 0 else 1


if __name__ == "__main__":
    try:
        sys.exit(main(sys.argv[1] if len(sys.argv) > 1 else ROOT))
    except ValueError as wrong:
        print(f"FAILED: {wrong}\ncontracts: 0 passed, 1 failed")
        sys.exit(1)
