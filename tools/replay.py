"""Puts a run of the program hmt into words: beside each line that it printed what was asked, and
what the answer means.

All of it is read off the script and the program's own answers. The machine is not modelled a second
time here; only for a refused set-up are the configuration's rules gone through, to name the one
that is broken."""

import re
import shutil
import textwrap
from typing import NamedTuple

from hmtscript import DOMAINS, LONGEST, MARK, TABLE_WORDS, VERSION, Problem, from_binary

BLOCK, RAM = 8, 4096
TRUSTED = DOMAINS - 1
NO_RULE = "see document 01, sections 2 and 3"

# Section 6 of document 01 in plain words; `facts` below supplies what stands in braces.
REFUSALS = {
    1: "the RAM is not 4,096 bytes, or the jump table of a call is not 1,024 words",
    2: "a rule of the configuration is broken{rule}",
    3: "the state is not good: its domain, bound, safe pointer or configuration breaks a rule",
    4: "{address} is past the end of RAM, 4095",
    5: "{who} may not write at {address}: {place}",
    6: "{who} may not write at {address}: its part of the stack ends at the bound, {bound}",
    7: "the return site {return site} is not in {who}'s code{code}",
    8: "the target {target} of this local call is not in {who}'s code{code}",
    9: "the target {target} is past the jump tables, which end at {table end}",
    10: "jump table word {table word} holds {entry}, no place in {called}'s code{called code}",
    11: "the stack pointer {stack pointer} is not from {lowest} (top - 1) to {bound} (the bound)",
    12: "the safe stack has no room: the frame would pass top, {top}",
    13: "no call is open, the safe stack is empty",
    14: "the newest frame on the safe stack is damaged, so nothing returns by it",
    15: "{who} is the trusted domain, which takes no heap segment",
    16: "a size of 0 asks for nothing",
    17: "the heap has no {blocks} side by side that are free",
    18: "no segment of the heap starts at {address}{since}",
    19: "the segment at {address} is not {who}'s{since}",
    20: "{domain} is none of the modules 0 to 6, and only they hold segments",
}


def not_run(data, output):
    """Why the program did not even begin with a script; nothing if it did."""
    if output == b"long\n":
        return f"the program answers `long`: the file has more than {LONGEST} bytes, the most that it takes"
    if output == b"bad\n":
        try:
            from_binary(data)
            return "the program answers `bad`: the script's header can't be read"
        except Problem as problem:
            hint = ", nor is it a plain text" if data and data[:3] != MARK else ""
            return f"the program answers `bad`, this is not a script: {problem}{hint}"


def broken_rule(script):
    """The first rule of document 01, sections 2 and 3, that a refused configuration breaks."""
    bot, heap, safe, top, jt = script.settings.values()
    for word, value in list(script.settings.items())[:4]:
        if value % BLOCK:
            return f"{word} {value} is not a multiple of {BLOCK}"
    if bot >= top:
        return f"bot {bot} is not below top {top}"
    map_end = bot + map_bytes(script.settings)
    for low, high, words in ((map_end, heap, "the map ends at {} and heap is {}"),
                             (heap, safe, "heap {} is above safe {}"),
                             (safe, top, "safe {} is above top {}"),
                             (top, RAM, "top {} is above {}, the end of RAM"),
                             (jt, 65536 - TABLE_WORDS, "jt {} is above {}")):
        if low > high:
            return words.format(low, high)
    last = (0, 0, None)
    for start, end, domain in sorted((*pair, domain) for domain, pair in enumerate(script.ranges)):
        if start > end or end > jt:
            return f"the code range of domain {domain}, {start} to {end}, " + (
                "ends before it starts" if start > end else f"passes jt {jt}")
        if start < min(end, last[1]):
            return f"the code ranges of domains {last[2]} and {domain} overlap"
        last = (start, end, domain) if start < end else last
    return NO_RULE


class Facts(dict):
    """What a sentence may mention. One that asks for more (an answer to another question) shows `?`."""
    def __missing__(self, key):
        return "?"


class Row(NamedTuple):
    """A line that the program printed, or something else to look up, and the words beside it."""
    line: str
    words: list
    who: str = ""
    then: str = ""  # who is current after it, if that is someone else
    asked: str = ""
    comment: str = ""


class Replay:
    def __init__(self, script):
        self.script = script
        self.page = []     # rows, and texts that go across the page
        self.since = {}    # first address of a block -> what was done with the block last
        self.written = {}  # address -> byte, writer and line of the last store done there

    # ---- what stands on the page ----

    def show(self, output):
        """Prints the replay of a script that the program answered with `output`. The value is what kept
        the program from the script's end, or nothing."""
        lines = output.decode("ascii", "replace").split("\n")
        set_up = re.match(f"HMT {VERSION}\nsetup ([0-9]{{1,5}})\n", "\n".join(lines))
        if lines.pop() or not set_up:
            raise Problem("what the program printed does not have the form of a run")
        self.remarks(self.script.opening)
        self.page.append("Lines: count, answer (0 done), value, domain, stack bound, safe pointer;"
                         " beside them who asked what.")
        self.page.append(Row(lines[0], [f"a script of version {VERSION}"]))
        number = int(set_up[1])
        if number:
            if lines[2:]:
                raise Problem("the program goes on after a refused set-up")
            self.page.append(Row(lines[1], [verdict(number, Facts(rule=": " + broken_rule(self.script)))]))
            stop = "the set-up was refused, and no operation was tried"
        else:
            self.page.append(Row(lines[1], self.set_up()))
            stop = self.operations(lines[2:])
        self.print()
        return stop

    def set_up(self):
        bot, heap, safe, top, jt = self.script.settings.values()
        ram = [("map and trusted data", (bot, heap)), ("heap", (heap, safe)), ("safe stack", (safe, top)),
               ("stack", (top, RAM))]
        code = [(self.name(domain), pair) for domain, pair in enumerate(self.script.ranges)]
        ram, code = (", ".join(f"{what} ({span(*pair)})" for what, pair in parts if pair[0] < pair[1])
                     for parts in (ram, code))
        return [f"done: the map of the blocks' owners is written; {self.name(TRUSTED)} is current",
                f"RAM: {ram}", f"code: {code or 'none'}, jump tables from {jt}"]

    def operations(self, lines):
        script, refused = self.script, []
        who, bound, safe_pointer = TRUSTED, RAM - 1, script.settings["safe"]
        for at, step in enumerate(script.steps, 1):
            line = lines[at - 1] if at <= len(lines) else ""
            answer = [int(word) for word in line.split()] if re.fullmatch("[0-9]{1,5}( [0-9]{1,5}){5}", line) else []
            if answer[:1] != [at]:
                raise Problem(f"the program's line for operation {at} is not an answer: {line[:40]!r}")
            _, number, _, now, new_bound, new_pointer = answer
            facts = self.facts(step, who, bound, answer, abs(new_pointer - safe_pointer) == 3)
            self.remarks(step.remarks)
            words = verdict(number, facts) if number else "done: " + step.operation.done.format_map(facts)
            self.page.append(Row(line, [words], self.name(who), f"-> {self.name(now)}" if now != who else "",
                                 script.asked(step), f"# {step.comment}" if step.comment else ""))
            if number:
                refused.append(at)
            else:
                self.remember(step, facts)
            who, bound, safe_pointer = now, new_bound, new_pointer
        rest = lines[len(script.steps):]
        if rest != ["cut"] * bool(script.damage):
            raise Problem(f"the program prints {' '.join(rest)[:40]!r} after the last operation")
        if script.damage:
            self.page.append(Row("cut", [f"the program stops: {script.damage}"]))
        self.remarks(script.closing)
        count = len(script.steps)
        self.page.append(f"{counted(count, 'operation')}: {count - len(refused)} done, {len(refused)} refused"
                         + (f" ({in_lines(refused)}); by the rules a refused one changes nothing." if refused else "."))
        self.bytes_written()
        return script.damage and f"the script is damaged at its end: {script.damage}"

    def remarks(self, lines):
        """Comment lines of the text, as paragraphs."""
        for paragraph in "\n".join(lines).split("\n\n"):
            if paragraph.strip():
                self.page.append(" ".join(paragraph.split()))

    def bytes_written(self):
        """The bytes that the accepted stores leave, if the program does what it answers. The map and the
        safe stack area are passed over: the runtime itself writes there, too."""
        settings, runs = self.script.settings, []  # a run: neighbouring addresses with one writer
        map_end = settings["bot"] + map_bytes(settings)
        for address, (byte, writer, line) in sorted(self.written.items()):
            if settings["bot"] <= address < map_end or settings["safe"] <= address < settings["top"]:
                continue
            if not runs or runs[-1][:2] != [address - len(runs[-1][2]), writer]:
                runs.append([address, writer, [], []])
            runs[-1][2].append(byte)
            runs[-1][3].append(line)
        if runs:
            self.page.append("What the stores answered by 0 leave in RAM (reckoned from the answers, not read back):")
        for start, writer, data, lines in runs:
            self.page.append(Row(span(start, start + len(data)),
                                 [f"{' '.join(map(str, data))}  (by {writer}, {in_lines(lines)})"]))

    # ---- one answer ----

    def facts(self, step, who, bound, answer, is_local):
        settings, (line, _, value, _, new_bound, _) = self.script.settings, answer
        facts = Facts(zip((what for what, _ in step.operation.fields), step.values))
        facts.update(line=line, value=value, who=self.name(who), code=self.code(who), bound=bound,
                     top=settings["top"], lowest=settings["top"] - 1, taker=self.name(facts["domain"]))
        # The segment in question: malloc's answer is its address, the others' is its length.
        start, blocks = facts.get("address", value), value
        if "size" in facts:
            start, blocks = value, -(-facts["size"] // BLOCK)
        since = self.since.get(start // BLOCK * BLOCK)
        facts.update(first=start, last=start + BLOCK * blocks - 1, blocks=counted(blocks, "block"),
                     since=f" ({since})" if since else "")
        facts["place"] = ("the block is not its own" + facts["since"] if start >= settings["bot"] else
                          f"that is below the protected range, {span(settings['bot'], settings['top'])}")
        word = facts.get("target", 0) - settings["jt"]
        facts.update({"table end": settings["jt"] + TABLE_WORDS - 1, "table word": word})
        if 0 <= word < TABLE_WORDS:
            called = word * DOMAINS // TABLE_WORDS
            facts.update({"entry": self.script.entries.get(word, 0), "called": self.name(called),
                          "called code": self.code(called)})
        facts["how"] = ", a local call" if is_local else f" (table word {word}), stack up to {new_bound}"
        facts["back"] = ", from a local call" if is_local else f", stack up to {new_bound} again"
        return facts

    def remember(self, step, facts):
        if step.operation.since:
            for start in range(facts["first"], facts["last"], BLOCK):
                self.since[start] = step.operation.since.format_map(facts)
        if "byte" in facts:
            self.written[facts["address"]] = (facts["byte"], facts["who"], facts["line"])

    def name(self, domain):
        return self.script.names.get(domain, "trusted" if domain == TRUSTED else f"domain {domain}")

    def code(self, domain):
        start, end = self.script.ranges[domain]
        return f", {span(start, end)}" if start < end else ", which is empty"

    # ---- the page on paper ----

    def print(self):
        width = max(80, min(100, shutil.get_terminal_size((100, 24)).columns))
        rows = [row for row in self.page if isinstance(row, Row)]
        line_width = max(len(row.line) for row in rows) + 2
        who_width = max(len(who) for row in rows for who in (row.who, row.then)) + 2
        asked_width = max(len(row.asked) for row in rows) + 2
        above = None
        for row in self.page:
            if above and not (isinstance(above, Row) and isinstance(row, Row)):
                print()
            above = row
            if not isinstance(row, Row):
                print(textwrap.fill(row, width))
                continue
            # On the right first what was asked, with its comment, then what the answer means.
            right, room = [], width - line_width - (who_width if row.asked else 0)
            if row.asked:
                comment = wrapped(row.comment, room - asked_width) or [""]
                right += [f"{row.asked:{asked_width}}{comment[0]}"]
                right += [f"{'':{asked_width}}{part}" for part in comment[1:]]
            middle = [row.who] + [""] * (len(right) - 1) + [row.then]
            right += [part for text in row.words for part in wrapped(text, room)]
            for at, text in enumerate(right):
                left = f"{row.line if at == 0 else '':{line_width}}"
                if row.asked:
                    left += f"{middle[at] if at < len(middle) else '':{who_width}}"
                print((left + text).rstrip())


def wrapped(text, room):
    return textwrap.wrap(text, max(24, room), subsequent_indent="  ")


def verdict(number, facts):
    return f"REFUSED {number}: " + REFUSALS.get(number, "a number that this replay does not know").format_map(facts)


def span(start, end):
    """Start up to but not including end, as people say it."""
    return f"{start} to {end - 1}" if end - start > 1 else f"{start}"


def counted(count, what):
    return f"{count} {what}{'s' * (count != 1)}"


def in_lines(lines):
    """[3, 4, 5, 9] as `lines 3 to 5, 9`"""
    spans = []
    for line in sorted(lines):
        if not spans or spans[-1][1] != line:
            spans.append([line, line])
        spans[-1][1] = line + 1
    return f"line{'s' * (len(lines) > 1)} " + ", ".join(span(*pair) for pair in spans)


def map_bytes(settings):
    return -(-(settings["top"] - settings["bot"]) // (2 * BLOCK))
