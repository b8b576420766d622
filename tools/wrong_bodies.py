"""Tries wrong bodies of functions: the prover must refuse a goal of each such function itself.

    tools/wrong_bodies.py [CRATE..]      those of all crates, or of these, which are proved first
    tools/wrong_bodies.py --control ..   tries none, and shows that such checks refuse nothing else
    tools/wrong_bodies.py --goals ..     tries them, and writes into each file which goals it leaves open
    tools/wrong_bodies.py --self-test    tries edits that show nothing: each must fail by its name

A wrong body is a file crates/NAME/wrong-bodies/WORDS.edit, named by what is wrong then:

    function: PATH
    goal: NAME
    file: src/FILE.rt
    old: TEXT
    new: TEXT

PATH is the function whose goal must refuse it, as a check prints it behind `fn`. There may be
several pairs of `old` and `new`, and several files. Each TEXT is one line, and stands once in its
file. A `goal` is one that the wrong body leaves open, with its arguments; there may be several, or
none. The check tries the first one alone, by the very calls that the prover makes for it by itself,
and that goal must be refused: the one stands first that is refused soonest. A function with a
tactic of its own has no such lines, nor has a goal with an answer by hand: where that answer no
longer fits, it counts as refused, though this shows only that it is a proof of something else.

The wrong bodies of a crate are put into one copy of it, and one check from nothing reads their
functions and what these call. It says of each function whether a goal of its own is refused, or
whether it only calls one that is refused, so each wrong body has a verdict of its own. A second
wrong body of a function goes into a copy of it with its proof, under the name FUNCTION_2. Where
there can be no copy, as of a trait's function, it goes into a second check; so does one that
changes a line of another.

A check goes by the contracts of the other functions, whose proofs the gate has just tried. In the
copy they have no body, and a proof that is refused at once. Of a wrong one no goal is tried that
has no answer, if it has answers: the goal that the wrong body names has one then, and it alone
counts; without such a goal each answer by hand counts. Where a wrong body changes more than its
function, has no refused goal then, or anything else is refused, a check with all bodies, proofs and
unnamed goals decides. There no other function of the crate may be refused, and where the wrong one
calls another wrong one and has no refused goal, it is tried again without that one.

A crate that passes is kept beside the kit, by a sum of all that its verdict stands on, and isn't
tried again until something of it changes. out/wrong-bodies/NAME.log has what its checks printed.
"""
import concurrent.futures
import contextlib
import glob
import hashlib
import json
import os
import re
import shutil
import signal
import subprocess
import sys
import tempfile
import time
from typing import NamedTuple

import build
import prove
from crates import TOP, all_crates, below, folder
from proof_seconds import read_table

FOLDER = "wrong-bodies"
LOGS = f"{TOP}/out/{FOLDER}"
# What a check says of an item once it has ended with it; what it says of its goals stands above.
VERDICT = re.compile(r"(fn|struct|enum|union|trait|impl) (\S+): (.+)")
VERDICTS = ("proved", "not proved", "no proof", "could not tell")
OPEN_GOAL = re.compile(r"note: \S+:\d+:\d+: (?:it is not proved that |`search` found no proof)")
OF_A_PROOF = r"(?:\./)?proofs/(\S+)/(Answers|Invariants|Proof)\.antt:\d+:\d+: error: (.*)"
# Where a proof has lost an answer, an open goal may only lack that, unless the prover says this.
IS_FALSE = "the facts known there allow values at which this goal is false"
ENDED = re.compile(r"only=\d+ proved=\d+")
# What the prover tries at a goal that nothing answers, and where its words come from.
ANSWER = "first_of (search rules, grind (arith, common_steps))"
# In the place of a proof: nothing has this name, so it is refused at once.
LEFT_OUT = "wrong_bodies_leave_this_out"
COMMON = "Rattle.std.proofs.Common"
WORDS = {"rules": COMMON, "arith": COMMON, "common_steps": "Rattle.std.proofs.lemmas.Grind"}
GOAL = re.compile(r"(?m)^goal: ((\S+).*)\n")
# In a wrong body: what may be no part of it, whatever function it stands in.
OF_A_CONTRACT = re.compile(r"(?m)^(?:old: *(?:requires|ensures|ghost)\b|(?:old|new): .*\btactic\()")
OFFER = re.compile(r"help: (?:write|add these lines to) (?:\./)?proofs/(\S+)/Answers\.antt\b")
OFFERED = re.compile(r"    (\S+(?: \S+)*) = \?")
NO_FUNCTION = re.compile(r"(?m)^rattle: error: .* has no function `(\S+)`")
# A proof names what the edit took away, or cites one that does, or the check met a limit: none of
# that says anything of the contract. Nor does an error of an invariant, whose types may have changed.
SAYS_LITTLE = re.compile(
    r"has no field|is not in scope|no module, record or data type|has no `|was not admitted"
    r"|which was rejected, (?:was|were) not|ran out of |outgrew the memory limit"
    r"|stopped at the step limit"
)

# Where a proof has lost names, other parts of it may not fit for that alone: only goals count then
# that were tried to their end.
LOST = re.compile(r"has no field|is not in scope|no module, record or data type|has no `")
TRIED = re.compile(r"no proof of|does not follow")

# In front of a function: no goal of it is tried but those with an answer.
NO_TACTIC = "#[tactic(none)]"

# A proof that is refused at once. Its fields are the crate, the path of the proof, and twice the name
# of the function.
NO_PROOF = f"""use Rattle.{{}}.proofs.{{}}.Statement.{{{{statement}}}}

pub {{}}_spec : {{{{M : Type 1}}}} → statement M
{{}}_spec 𝓤 𝓛 𝓜 𝓡 w = {LEFT_OUT}
"""

# Edits of a crate that show nothing: of each the function that it names, what it changes, and what
# its failure must say. The first two show something.
SELF_TEST = "held_bytes"
SELF_TESTS = {
    "clear_keeps_all": ("clear", "self.bytes.clear();", "prove!(true);", ""),
    "clear_keeps_one": ("clear", "self.bytes.clear();", "self.bytes.truncate(1);", ""),
    "means_the_same": (
        "take_front",
        "self.taken += count;",
        "self.taken = count + self.taken;",
        "take_front is still proved",
    ),
    "means_the_same_too": (
        "take_front",
        "self.taken += count;",
        "self.taken = self.taken + count;",
        "take_front is still proved",
    ),
    "is_of_a_callee": (
        "append",
        "bytes.truncate(kept);",
        "bytes.truncate(count);",
        "append is refused only since it calls held_bytes::drop_front",
    ),
    "names_no_function": (
        "nothing",
        "bytes.copy_within(count.., 0);",
        "let _ = 0;",
        "there is no function",
    ),
    "is_not_compiled": ("new", "bytes: Vec::new(alloc),", "bytes: Vec::new(all),", "isn't read"),
    "is_out_of_date": ("clear", "self.bytes.empty();", "prove!(true);", "can't be applied"),
    "changes_nothing": ("clear", "self.taken = 0;", "self.taken = 0;", "can't be applied"),
}
# These change nothing but their functions, so that they are tried beside functions without bodies,
# and name a goal.
ALONE = ("clear_keeps_all", "means_the_same")


class Edit(NamedTuple):
    """A wrong body: its name, its function, its text, and the lines that it changes."""

    name: str
    function: str
    text: str
    lines: frozenset  # each with its file
    tried_as: str  # the function, or its copy that has the wrong body


class Item(NamedTuple):
    """A function in the lines of a file."""

    first: int  # its first line, with its attributes
    head: int  # the line of its name
    end: int  # the line behind its last
    around: list  # the lines that open its impl, if it stands in one


class Function(NamedTuple):
    """What a check says of a function."""

    verdict: str
    refused: list  # goals of its own that are not proved
    says_little: list  # what else is wrong with its proof
    calls: list  # functions that are not proved


class Result(NamedTuple):
    """What the tries of a crate came to."""

    edits: int
    checks: int
    seconds: float  # of one processor
    causes: list  # for which it fails


def files_of(name):
    """The files of a crate's wrong bodies."""
    at = f"{folder(name)}/{FOLDER}"
    return [f"{at}/{it}" for it in sorted(os.listdir(at))] if os.path.isdir(at) else []


def read(path):
    with open(path, encoding="utf-8") as file:
        return file.read()


def write(path, text):
    with open(path, "w", encoding="utf-8") as file:
        file.write(text)


def changed_lines(text, place):
    """The lines that an edit changes of the crate in a folder, each with its file."""
    found, path = set(), ""
    for line in text.split("\n"):
        if line.startswith("file: "):
            path = line.removeprefix("file: ").strip()
        elif line.startswith("old: "):
            before = read(f"{place}/{path}").partition(line.removeprefix("old: "))[0]
            found.add((path, before.count("\n") + 1))
    return frozenset(found)


def impl_around(lines, at):
    """The lines that open the impl in which a line stands, with what it brings into scope. Nothing
    where the line stands in a trait, or in the impl of one."""
    outer = [it for it in range(at) if re.match(r"\S", lines[it]) and lines[it] != "}"]
    first = outer[-1] if outer else at
    end = next((it for it in range(first, at) if lines[it].endswith("{")), at)
    head = lines[first : end + 1]
    if not head[0].startswith("impl") or re.search(r"\bfor\b", " ".join(head)):
        return None
    return head + [it for it in lines[end:at] if re.match(r"    ghost use .*;$", it)]


def module_of(path):
    """The path of the module in a file of src/."""
    inner = path.removeprefix("src/").removesuffix(".rt").split("/")
    return () if inner in (["lib"], ["main"]) else tuple(inner)


def types_of(texts):
    """The module of each type that stands in the texts of files, by their paths."""
    types = re.compile(r"(?m)^(?:pub(?:\(\w+\))? )?(?:struct|enum|union) (\w+)")
    return {name: module_of(path) for path, text in texts.items() for name in types.findall(text)}


def places_of(path, text, types):
    """Where the functions of a file stand, but those of traits: the first line and the line behind
    the last one, by the path as a check prints it, without the crate."""
    lines, found = text.split("\n"), {}
    for at, line in enumerate(lines):
        head = re.match(r"( {4})?(?:pub(?:\(\w+\))? )?(?:const )?fn (\w+)\b", line)
        end = head and end_of(lines, at, head[1] or "")
        around = kind_around(lines, at) if head and head[1] else ("", "")
        if around and end:
            module = types.get("" if around[1] else around[0], module_of(path))
            inner = (*module, *filter(None, ["".join(around)]), head[2])
            found.setdefault(inner, []).append((at, end))
    return {inner: places[0] for inner, places in found.items() if len(places) == 1}


def end_of(lines, at, indent):
    """The line behind the last one of a function that begins at a line. Nothing where it isn't laid
    out as `rt fmt` does."""
    for end in range(at, len(lines)):
        is_empty = lines[end].endswith(" {}") and (end == at or lines[end].startswith(f"{indent})"))
        if is_empty or lines[end] in (f"{indent}}}", f"{indent}{{}}"):
            return end + 1
    return 0


def kind_around(lines, at):
    """The type, and the trait or nothing, of the impl around a line. Nothing where it is in none, or
    the impl isn't of all types of its kind: a check prints another name then."""
    first = next((it for it in range(at, -1, -1) if re.match(r"[^\s})w]", lines[it])), at)
    head = " ".join(" ".join(lines[first:at]).partition("{")[0].replace("->", "").split())
    if found := re.match(r"impl(?:<((?:[^<>]|<[^<>]*>)*)>)? (.*?)(?: where |$)", head):
        own = re.findall(r"(?:^|, )(?:const )?('?\w+)", re.sub(r"<[^<>]*>", "", found[1] or ""))
        given = re.findall(r"'?\w+", " ".join(re.findall(r"<([^<>]*)>", found[2])))
        if {*given} - {*own, "'_"}:
            return None
    while (shorter := re.sub(r"<[^<>]*>", "", head)) != head:
        head = shorter
    kind = re.compile(r"impl (?:(?:\w+::)*(\w+) for )?(\w+) (?:where .*)?")
    found = kind.fullmatch(f"{' '.join(head.split())} ")
    return (found[2], found[1] or "") if found else None


def item_of(lines, function):
    """The function of this path in the lines of a file. Nothing where no copy of it can be made: it
    is a trait's, or calls itself, or isn't laid out as `rt fmt` does."""
    *_, kind, name = function.split("::")
    kind = kind if kind[:1].isupper() else ""
    call = rf"(?:self\.|Self::){name}\b" if kind else rf"(?<![.:\w]){name}(?:\(|::<)"
    for head, line in enumerate(lines):
        found = re.match(rf"( *)(?:pub(?:\(\w+\))? )?(?:const )?fn {name}\b", line)
        if not found or bool(found[1]) != bool(kind):
            continue
        first, end = head, end_of(lines, head, found[1])
        while lines[first - 1].startswith(f"{found[1]}#["):
            first -= 1
        around = impl_around(lines, head) if kind else []
        if not end or around is None or (kind and not re.search(rf"\b{kind}\b", around[0])):
            continue
        text = "\n".join([*lines[first:head], *lines[head + 1 : end]])
        return None if re.search(rf"{call}|#\[cycle", text) else Item(first, head, end, around)
    return None


def without(lines, item):
    """The lines around a function."""
    return lines[: item.first] + lines[item.end :]


def head_of(lines):
    """The lines of a function down to the one that opens its body. All where it has an empty one."""
    opening = f"{re.match(' *', lines[0])[0]}{{"
    alone = next((it for it, line in enumerate(lines) if line == opening), None)
    opens = alone or next((it for it, line in enumerate(lines) if line.endswith("{")), None)
    return lines if opens is None or lines[-1].endswith("{}") else lines[: opens + 1]


def heads_of(path, text, types):
    """The heads of the functions of a file, by their paths."""
    lines = text.split("\n")
    return {it: head_of(lines[slice(*at)]) for it, at in places_of(path, text, types).items()}


def without_body(lines):
    """The lines of a function, without its body. Where more than its proof stands on the body, as
    where it is evaluated or gives the result its type, the lines stay."""
    head, keeps = head_of(lines), r"\bconst fn\b|-> .*\bimpl\b|\bfn drop\b"
    if head == lines or re.search(keeps, " ".join(head)):
        return lines
    return [*head, f"{re.match(' *', lines[0])[0]}    unreachable!()", lines[-1]]


def copied(lines, item, name, new):
    """The lines of a copy of a function under a new name."""
    head = lines[item.head].replace(f"fn {name}", f"fn {new}", 1)
    body = [*lines[item.first : item.head], head, *lines[item.head + 1 : item.end]]
    return [*item.around, *body, *(["}"] if item.around else []), ""]


def goals_in(lines):
    """The goals that a check leaves open, by the path of their function's proof, each with its
    arguments."""
    goals, path = {}, ""
    for line in lines:
        if found := OFFER.match(line):
            path = found[1]
        elif not line.startswith("    "):
            path = ""
        elif path and (found := OFFERED.fullmatch(line)):
            goals.setdefault(path, []).append(found[1])
    return goals


def functions_in(lines, crate):
    """What a check says of each function, and the other items that it refuses by themselves."""
    errors, goals, functions, others = {}, [], {}, []
    for line in lines:
        found = re.match(OF_A_PROOF, line)
        if found and f"`{LEFT_OUT}` is not in scope" not in found[3]:
            name = f"{crate}::{found[1].replace('/', '::')}"
            errors.setdefault(name, []).append((found[2], found[3]))
    for line in lines:
        if OPEN_GOAL.match(line):
            goals.append(line)
        if not (found := VERDICT.fullmatch(line)):
            continue
        kind, name, said = found.groups()
        if kind == "fn":
            verdict = next((it for it in VERDICTS if said.startswith(it)), said)
            of_proof = errors.get(name, [])
            is_little = lambda part, it: part == "Invariants" or SAYS_LITTLE.search(it)
            little = [it for part, it in of_proof if is_little(part, it)]
            refused = [it for part, it in of_proof if not is_little(part, it)]
            if any(map(LOST.search, little)):
                refused = [it for it in refused if TRIED.search(it)]
            refused += [it for it in goals if not little or IS_FALSE in it]
            calls = re.findall(r"`([^`]+)`", said.partition("it calls ")[2])
            functions[name] = Function(verdict, refused, little, calls)
        elif said != "proved" and "it waits for the proof of" not in said:
            others.append(name)
        goals = []
    return functions, others


def reached(functions, name):
    """The functions that are not proved which one calls, and those that they call."""
    found, left = set(), [name]
    while left:
        it = left.pop()
        new = {*functions[it].calls} - found if it in functions else set()
        found |= new
        left += new
    return found


def shortcoming(function):
    """Why a wrong body doesn't count as refused by a goal of its function; nothing if it does."""
    if function is None:
        return "is not in what the check says"
    if function.verdict == "proved":
        return "is still proved: the body isn't refused, or means the same as before"
    if function.verdict == "could not tell":
        return "has no verdict: the prover met a limit of its own, so choose another change"
    if function.refused:
        return ""
    if function.says_little:
        why = "names what the edit takes away, or meets a limit: change a value and keep the names"
        return f"is refused only since its proof {why}: {function.says_little[0]}"
    if function.calls:
        return f"is refused only since it calls {', '.join(function.calls)}"
    return "is refused, and the check names no goal that it has tried"


class Tries:
    """The tries of a crate's wrong bodies."""

    running, is_ending = set(), False  # the checks of all crates, and whether no more may begin

    def __init__(self, rt, crate, files, guard, notes_goals=False):
        self.rt, self.crate, self.files, self.guard = rt, crate, files, guard
        self.place, self.notes_goals = folder(crate.name), notes_goals
        self.edits, self.causes, self.checks, self.seconds = [], [], 0, 0.0
        # The texts of the crate's files, the functions whose proofs a check leaves out, and those of
        # which it tries no goal without an answer.
        self.texts, self.left_out, self.answered = {}, set(), set()

    def fail(self, edit, why):
        self.causes.append(f"{self.crate.name}/{edit}: {why}")

    def result(self):
        return Result(len(self.files), self.checks, self.seconds, self.causes)

    def read(self):
        """Reads the wrong bodies, and the crate. One that can't be applied to it fails."""
        for path in glob.glob("src/**/*.rt", root_dir=self.place, recursive=True):
            self.texts[path] = read(f"{self.place}/{path}")
        for path in self.files:
            name, text = os.path.basename(path), read(path)
            functions = re.findall(r"(?m)^function: (\S+)$", text)
            why = self.rt.edited(text, self.place)[1]
            if not name.endswith(".edit"):
                self.fail(name, "is no file WORDS.edit")
            elif len(functions) != 1:
                self.fail(name, "has no line 'function: PATH', or several")
            elif why:
                self.fail(name, f"can't be applied: {why}")
            elif not all(it.startswith("src/") for it in re.findall(r"(?m)^file: (.*)$", text)):
                self.fail(name, "changes a file outside src/")
            elif self.changes_a_contract(text):
                self.fail(name, "changes the head, a clause or a tactic of a function")
            elif GOAL.search(text) and self.has_own_calls(functions[0], text):
                self.fail(name, "has a goal, and its function a tactic of its own")
            else:
                lines = changed_lines(text, self.place)
                self.edits.append(Edit(name, functions[0], text, lines, functions[0]))

    def changes_a_contract(self, text):
        """Whether a wrong body changes the name, a type, a clause or a tactic of a function."""
        if OF_A_CONTRACT.search(text):
            return True
        types = types_of(self.texts)
        for path, wrong in self.rt.edited(text, self.place)[0].items():
            right, found = heads_of(path, self.texts[path], types), heads_of(path, wrong, types)
            if any(found.get(it, right[it]) != right[it] for it in right):
                return True
        return False

    @contextlib.contextmanager
    def copy(self):
        """Gives a copy of the crate."""
        with tempfile.TemporaryDirectory(prefix="wrong-bodies-") as room:
            for part in self.rt.rtlib.PARTS:
                if os.path.isdir(f"{self.place}/{part}"):
                    shutil.copytree(f"{self.place}/{part}", f"{room}/{part}")
            yield room

    def put_in_place(self, edit, room):
        """Puts a wrong body into a copy of the crate, in the place of the right one. Returns it, or
        nothing where it can't be applied any more."""
        texts, why = self.rt.edited(edit.text, room)
        if why:
            return None
        for path, text in texts.items():
            write(f"{room}/{path}", text)
        return edit

    def is_inside(self, edit):
        """Whether a wrong body changes nothing but its function."""
        rests, inner = [], tuple(edit.function.split("::")[1:])
        for path, text in self.rt.edited(edit.text, self.place)[0].items():
            for it in (self.texts[path], text):
                first, end = places_of(path, it, types_of(self.texts)).get(inner, (0, 0))
                lines = it.split("\n")
                rests.append(lines[:first] + lines[end:] if end else it)
        return len(rests) == 2 and rests[0] == rests[1]

    def put_beside(self, edit, room, is_wrong=True):
        """Puts a wrong body into a copy of the crate, into a copy of its function at the end of the
        file, or else copies the function as it is. Returns it, or nothing where that can't be."""
        path = next(iter(edit.lines))[0]
        right = read(f"{self.place}/{path}").split("\n")
        lines = right
        if is_wrong:
            lines = self.rt.edited(edit.text, self.place)[0][path].split("\n")
        was, item = item_of(right, edit.function), item_of(lines, edit.function)
        is_inside = was and item and without(lines, item) == without(right, was)
        if not is_inside:
            return None
        text = read(f"{room}/{path}")
        name = edit.function.split("::")[-1]
        number = next(it for it in range(2, 99) if not re.search(rf"\bfn {name}_{it}\b", text))
        added = copied(lines, item, name, f"{name}_{number}")
        write(f"{room}/{path}", "\n".join([text, *added]))
        self.copy_proof(edit.function, f"_{number}", room)
        first = text.count("\n") + 2
        places = frozenset((path, first + it) for it in range(len(added)))
        return edit._replace(lines=places, tried_as=f"{edit.function}_{number}")

    def copy_proof(self, function, ending, room):
        """Copies the proof of a function, if it has one, for the function of this longer name."""
        inner = function.split("::")[1:]
        proof, own = "/".join(["proofs", *inner]), ".".join(["proofs", *inner])
        if not os.path.isdir(f"{self.place}/{proof}"):
            return
        os.makedirs(f"{room}/{proof}{ending}")
        for name in os.listdir(f"{self.place}/{proof}"):
            if os.path.isfile(f"{self.place}/{proof}/{name}"):
                text = read(f"{self.place}/{proof}/{name}").replace(f"{own}.", f"{own}{ending}.")
                write(f"{room}/{proof}{ending}/{name}", text)

    def put_in(self, edits, room, is_wrong=True):
        """Puts wrong bodies into a copy of the crate, and returns which. One that changes more than its
        function may change what others stand on, so it is put in alone. Where they aren't to be
        wrong, only the copies of functions are put in."""
        inside, is_wide = [], lambda edit: not self.is_inside(edit)
        for edit in edits:
            if inside and (is_wide(edit) or is_wide(inside[0])):
                continue
            clashes = any(edit.function == it.function or edit.lines & it.lines for it in inside)
            placed = None
            if not clashes:
                placed = self.put_in_place(edit, room) if is_wrong else edit
            placed = placed or self.put_beside(edit, room, is_wrong)
            inside += [placed] if placed else []
        for edit in inside:
            if is_wrong and not self.notes_goals:
                self.answer(edit, room)
        return inside

    def leave_out(self, edits, room):
        """Leaves out of a copy of the crate the bodies and the proofs of functions, but not of those
        with wrong bodies, nor of those whose name a check may print otherwise. It leaves out none
        where a wrong body changes more than its function."""
        types, tried = types_of(self.texts), {tuple(it.tried_as.split("::")[1:]) for it in edits}
        if not all(map(self.is_inside, edits)):
            return
        for path in self.texts:
            text = read(f"{room}/{path}")
            lines, emptied = text.split("\n"), []
            for inner, (first, end) in places_of(path, text, types).items():
                if inner in tried:
                    continue
                if inner[:-1] != module_of(path) and not inner[-2].startswith((*types,)):
                    # of a type of another crate
                    continue
                at, own = "/".join([room, "proofs", *inner]), ".".join(inner)
                shutil.rmtree(at, ignore_errors=True)
                os.makedirs(at)
                refused = NO_PROOF.format(self.crate.name, own, inner[-1], inner[-1])
                write(f"{at}/Proof.antt", refused)
                self.left_out.add("::".join([self.crate.name, *inner]))
                emptied.append((first, end))
            for first, end in sorted(emptied, reverse=True):
                lines[first:end] = without_body(lines[first:end])
            write(f"{room}/{path}", "\n".join(lines))

    def try_answers_alone(self, edits, room):
        """Lets a check of a copy of the crate try no goal of wrong functions but those with an answer.
        A function without any, or with a tactic of its own, stays."""
        types = types_of(self.texts)
        for edit in edits:
            path, inner = next(iter(edit.lines))[0], tuple(edit.tried_as.split("::")[1:])
            text = read(f"{room}/{path}")
            place = places_of(path, text, types).get(inner)
            has_answer = os.path.isfile("/".join([room, "proofs", *inner, "Answers.antt"]))
            if not place or not has_answer or self.has_own_calls(edit.function, edit.text):
                continue
            lines = text.split("\n")
            head = lines[place[0]].lstrip()
            # In the same line, so that all lines keep their numbers.
            indent = lines[place[0]].removesuffix(head)
            lines[place[0]] = f"{indent}{NO_TACTIC} {head}"
            write(f"{room}/{path}", "\n".join(lines))
            self.answered.add(edit.tried_as)

    def answer(self, edit, room):
        """Answers in a copy of the crate the first of the goals that a wrong body leaves open, by the
        calls that the prover makes for it by itself. The others are refused at once."""
        goals, inner = GOAL.findall(edit.text), edit.tried_as.split("::")[1:]
        if not goals:
            return
        at = "/".join([room, "proofs", *inner])
        text = read(f"{at}/Answers.antt") if os.path.isfile(f"{at}/Answers.antt") else ""
        if " as goal\n" not in text:
            own = ".".join([self.crate.name, "proofs", *inner])
            text = f"use Rattle.{own}.Goals as goal\n{text}"
        for word, module in WORDS.items():
            if not re.search(rf"(?m)^use .*[{{ ]{word}[,}}]", text):
                text = f"use {module}.{{{word}}}\n{text}"
        calls = [ANSWER, *[LEFT_OUT] * (len(goals) - 1)]
        answers = [
            f"\npub {name} : goal.{name}\n{words} = {call}\n"
            for (words, name), call in zip(goals, calls)
        ]
        os.makedirs(at, exist_ok=True)
        write(f"{at}/Answers.antt", "".join([text, *answers]))

    def has_own_calls(self, function, text):
        """Whether the prover tries more at the goals of a function than at those of others, as the
        attribute of its tactic says."""
        path = re.search(r"(?m)^file: (.*)$", text)[1]
        lines = read(f"{self.place}/{path}").split("\n")
        item = item_of(lines, function)
        return "tactic(" in "\n".join(lines[item.first : item.head] if item else lines)

    def note_goals(self, edits, lines):
        """Writes into the files of wrong bodies which goals they leave open."""
        goals = goals_in(lines)
        for edit in edits:
            found = goals.get("/".join(edit.tried_as.split("::")[1:]), [])
            found = [] if self.has_own_calls(edit.function, edit.text) else found
            first = [words for words, _ in GOAL.findall(edit.text) if words in found][:1]
            found = [*first, *(it for it in found if it not in first)]
            head = f"function: {edit.function}\n"
            noted = head + "".join(f"goal: {it}\n" for it in found)
            text = GOAL.sub("", edit.text).replace(head, noted)
            write(f"{self.place}/{FOLDER}/{edit.name}", text)

    def check(self, room, functions):
        """Checks functions of a copy of the crate, and what they call, from nothing. Returns its
        status and its output. One that is killed, most likely for memory, runs once more."""
        asked = [word for it in functions for word in ("--only", it)]
        words = self.crate.words(["--jobs", "1", *asked], keeps=False)
        for _ in range(2):
            with tempfile.TemporaryFile("w+", encoding="utf-8", errors="replace") as said:
                pipe = {"stdin": subprocess.DEVNULL, "stdout": said, "stderr": subprocess.STDOUT}
                whole = [*self.guard, self.rt.rtlib.RATTLE, "check", *words]
                process = subprocess.Popen(whole, cwd=room, **pipe)
                self.running.add(process)
                _, status, used = os.wait4(process.pid, 0)
                process.returncode = os.waitstatus_to_exitcode(status)
                self.running.discard(process)
                said.seek(0)
                text = said.read()
            self.seconds += used.ru_utime + used.ru_stime
            self.checks += 1
            mode = "w" if self.checks == 1 else "a"
            with open(f"{LOGS}/{self.crate.name}.log", mode, encoding="utf-8") as log:
                log.write(f"== {' '.join(functions)}\n{text}")
            if process.returncode != -signal.SIGKILL:
                break
        return process.returncode, text

    def try_all(self):
        """Tries the wrong bodies, in as few checks as they need."""
        self.read()
        left, is_whole = self.edits, False
        while left and not self.is_ending:
            self.left_out, self.answered = set(), set()
            with self.copy() as room:
                apart = [] if is_whole else [it for it in left if self.is_inside(it)]
                inside = self.put_in(apart or left, room)
                if not inside:
                    self.fail(", ".join(it.name for it in left), "can't be applied any more")
                    break
                if apart:
                    self.leave_out(inside, room)
                if apart and not self.notes_goals:
                    self.try_answers_alone(inside, room)
                again = self.judge(inside, *self.check(room, [it.tried_as for it in inside]))
            is_whole = is_whole or bool(again)
            done = {it.name for it in inside} - {it.name for it in again}
            left = [it for it in left if it.name not in done]
        return self.result()

    def is_short(self):
        """Whether a check leaves out proofs or goals."""
        return bool(self.left_out or self.answered)

    def tried(self, edit, function):
        """What a check says of the function of a wrong body. Where the wrong body has a goal, only the
        refusal of that goal counts. A goal that wasn't tried doesn't."""
        goals = GOAL.findall(edit.text)
        if function is None or self.notes_goals:
            return function
        if not goals:
            refused = function.refused
            if edit.tried_as in self.answered:
                refused = [it for it in refused if not OPEN_GOAL.match(it)]
            return function._replace(refused=refused)
        begins = tuple(f"`{goals[0][1]}`: `{it}`: " for it in ("search", "grind"))
        return function._replace(refused=[it for it in function.refused if it.startswith(begins)])

    def judge(self, edits, status, said):
        """Judges the wrong bodies that one check has read. Returns those to be tried again."""
        lines = said.rstrip("\n").split("\n")
        paths = {path for it in edits for path, _ in it.lines}
        unread = [it for it in lines if " error[" in it or self.rt.unread(it, paths)]
        if unread or status not in (0, 1) or not ENDED.fullmatch(lines[-1]):
            if self.is_short():
                return edits
            return self.judge_unread(edits, status, lines, unread)
        functions, others = functions_in(lines, self.crate.name)
        wrong = {it.tried_as for it in edits}
        hidden = []
        if self.notes_goals:
            self.note_goals(edits, lines)
        for edit in edits:
            why = shortcoming(self.tried(edit, functions.get(edit.tried_as)))
            below = reached(functions, edit.tried_as) & wrong - {edit.tried_as}
            if why and (self.is_short() or below):
                hidden.append(edit)
            elif why:
                self.fail(edit.name, f"{edit.function} {why}")
        known = wrong | self.left_out
        for name, it in functions.items():
            is_alone = it.refused or it.says_little or not reached(functions, name) & known
            if name not in known and it.verdict != "proved" and is_alone:
                others.append(name)
        if self.is_short():
            return edits if others else hidden
        names = ", ".join(it.name for it in edits)
        for name in others:
            self.fail(names, f"{name} is refused too, and no edit names it")
        if len(hidden) < len(edits):
            return hidden
        self.fail(names, "their functions call each other, and no goal of theirs is refused")
        return []

    def judge_unread(self, edits, status, lines, unread):
        """Judges wrong bodies of which a check has no verdict: those that are to blame fail, and
        the others are tried again."""
        missing = NO_FUNCTION.search("\n".join(lines))
        named = [it for it in edits if missing and it.tried_as == missing[1]]
        at = [re.match(r"(?:\./)?(\S+?):(\d+):\d+:", it) for it in unread]
        places = {(it[1], int(it[2])) for it in at if it}
        blamed = named or [it for it in edits if it.lines & places] or edits
        if named:
            why = f"there is no function {missing[1]}"
        elif unread:
            why = f"it isn't read, so no contract is tried: {unread[0]}"
        else:
            why = f"its check ends with status {status}: {lines[-1]}"
        for it in blamed:
            self.fail(it.name, why[:300])
        return [it for it in edits if it not in blamed]

    def control(self):
        """Shows that such a check refuses no goal that it tries of the functions as they stand."""
        self.read()
        with self.copy() as room:
            apart = [it for it in self.edits if self.is_inside(it)]
            edits = self.put_in(apart or self.edits, room, False)
            functions = sorted({it.tried_as for it in edits})
            self.leave_out(edits, room)
            if apart:
                self.try_answers_alone(edits, room)
            status, said = self.check(room, functions)
            while status == 2 and (found := NO_FUNCTION.search(said)) and found[1] in functions:
                # one that an edit adds
                functions.remove(found[1])
                status, said = self.check(room, functions)
        found, others = functions_in(said.split("\n"), self.crate.name)
        for name, it in found.items():
            is_tried = lambda goal: name not in self.answered or not OPEN_GOAL.match(goal)
            refused, left_out = [*filter(is_tried, it.refused)], self.left_out | self.answered
            is_proved = it.verdict == "proved" or {name, *reached(found, name)} & left_out
            if name not in self.left_out and (refused or it.says_little or not is_proved):
                others.append(name)
        for it in sorted({*others, *functions} - ({*found} - {*others})):
            self.causes.append(f"{self.crate.name}: {it} is refused as it stands")
        if status and not self.is_short() and not self.causes:
            self.causes.append(f"{self.crate.name}: the check ends with status {status}")
        return self.result()


class Kept:
    """What passed earlier on this machine: a file for each crate and sum, with its result."""

    def __init__(self, rt):
        self.at = f"{os.path.dirname(rt.KIT)}/queue-sites-kept"
        with contextlib.suppress(OSError):
            os.makedirs(self.at, 0o700, exist_ok=True)
        if not os.access(self.at, os.W_OK) or os.stat(self.at).st_uid != os.geteuid():
            self.at = LOGS

    def of(self, path):
        """The result that a file has, if it is whole."""
        with contextlib.suppress(OSError, ValueError, TypeError, KeyError):
            found = json.loads(read(path))
            return Result(**found["result"]) if path.endswith(f"-{found['sum']}") else None
        return None

    def has(self, name, its_sum):
        return self.of(f"{self.at}/{name}-{its_sum}") is not None

    def keep(self, name, its_sum, result):
        """Writes a file apart, and renames it then, so that no other run meets half of it."""
        how = {"dir": self.at, "delete": False, "encoding": "utf-8"}
        with tempfile.NamedTemporaryFile("w", **how) as file:
            json.dump({"sum": its_sum, "result": result._asdict()}, file)
        os.replace(file.name, f"{self.at}/{name}-{its_sum}")

    def seconds(self, name):
        """How long the last run of a crate took that passed, or else its proof."""
        paths = [f"{self.at}/{it}" for it in os.listdir(self.at) if it.startswith(f"{name}-")]
        found = self.of(max(paths, key=os.path.getmtime)) if paths else None
        return found.seconds if found else min(read_table()[name].values())


def sum_of(rt, crate):
    """A sum of all that a verdict on a crate's wrong bodies stands on: the crate, those below it,
    the kit, the edits, and this tool."""
    texts = [(os.path.basename(it), read(it)) for it in (*files_of(crate.name), __file__)]
    return hashlib.sha256(repr((rt.stamp_of(crate, {}), texts)).encode()).hexdigest()


def loaded():
    """The program rt, as a module, which reads this repository."""
    rt = prove.loaded()
    rt.rtlib.Crate = rt.Crate
    rt.Crate.allowed = rt.handles_of(TOP)
    return rt


def crates_at(rt, place):
    """The crates of the repository at a place, lowest first, by their names."""
    crates = sorted(rt.rtlib.crates_below(place), key=lambda it: len(it.below()))
    return {it.name: it for it in crates}


@contextlib.contextmanager
def as_the_gate_built(rt, names):
    """Gives the crates over the libraries that the gate has just proved, which it keeps beside the
    kit, or nothing where it doesn't keep all that these stand on."""
    wanted = set().union(*(below(all_crates(), it) for it in names))
    with tempfile.TemporaryDirectory(prefix="wrong-bodies-") as room:
        shutil.copyfile(f"{TOP}/crates.txt", f"{room}/crates.txt")
        for name in all_crates():
            os.makedirs(f"{room}/crates/{name}")
            for part in (*rt.rtlib.PARTS, "c"):
                if os.path.isdir(f"{folder(name)}/{part}"):
                    os.symlink(f"{folder(name)}/{part}", f"{room}/crates/{name}/{part}")
        crates = crates_at(rt, room)
        kept = rt.Kept([*crates.values()])
        for crate in crates.values():
            if crate.name in wanted:
                if not kept.give(crate, False, kept.key(crate)):
                    yield None
                    return
                kept.is_built(crate)
        yield crates


@contextlib.contextmanager
def as_proved_here(rt, names):
    """Gives the crates, once these are proved here with what they stand on, or nothing where that
    fails."""
    if not build.prove(names)[0]:
        yield None
        return
    every = all_crates()
    with build.locked(sorted({*names}.union(*(below(every, it) for it in names)))):
        yield crates_at(rt, TOP)


@contextlib.contextmanager
def over_libraries(rt, names, is_gate_passed):
    """Gives the crates over proved libraries."""
    with contextlib.ExitStack() as stack:
        crates = is_gate_passed and stack.enter_context(as_the_gate_built(rt, names))
        yield crates or stack.enter_context(as_proved_here(rt, names))


def end_checks(pool):
    """Ends the checks that still run, as after Ctrl-C, and begins no more."""
    Tries.is_ending = True
    pool.shutdown(wait=False, cancel_futures=True)
    for it in [*Tries.running]:
        it.terminate()


def line_of(name, result, is_control):
    checks = f"{result.checks} check{'s' * (result.checks != 1)}"
    what = "with no refused goal as they stand" if is_control else "refused"
    said = "FAILED" if result.causes else f"{result.edits} wrong bodies {what}"
    return f"{name}: {said}, in {checks}, {result.seconds:.0f} seconds of one processor"


def run(names, is_gate_passed=False, is_control=False, notes_goals=False):
    """Tries the wrong bodies of these crates. Returns whether all are refused, lines that report
    it, and the seconds of each crate."""
    os.makedirs(LOGS, exist_ok=True)
    Tries.is_ending = False
    rt, without = loaded(), [it for it in all_crates() if it in names and not files_of(it)]
    names = [it for it in all_crates() if it in names and it not in without]
    kept, crates = Kept(rt), crates_at(rt, TOP)
    sums = {it: sum_of(rt, crates[it]) for it in names}
    left = [it for it in names if is_control or notes_goals or not kept.has(it, sums[it])]
    report = [f"    {it}: all refused earlier" for it in names if it not in left]
    report += [f"    {len(without)} crates have none: {' '.join(without)}"] if without else []
    left.sort(key=kept.seconds, reverse=True)
    seconds, causes = {}, []
    if not left:
        return True, report, seconds
    with contextlib.ExitStack() as stack:
        built = stack.enter_context(over_libraries(rt, left, is_gate_passed))
        pool = stack.enter_context(concurrent.futures.ThreadPoolExecutor(build.at_once()[0]))
        if not built:
            return False, [*report, "    they are not proved as they stand"], seconds
        # with which each check ends where this run does
        guard = rt.rtlib.guarded()
        tries = {it: Tries(rt, built[it], files_of(it), guard, notes_goals) for it in left}
        call = Tries.control if is_control else Tries.try_all
        running = {pool.submit(call, it): name for name, it in tries.items()}
        stack.callback(end_checks, pool)
        for task in concurrent.futures.as_completed(running):
            name, result = running[task], task.result()
            seconds[name] = result.seconds
            lines = [line_of(name, result, is_control), *result.causes]
            print("\n".join(f"wrong bodies: {it}" for it in lines), flush=True)
            report += [f"    {it}" for it in lines]
            causes += result.causes
            is_kept = not is_control and not notes_goals and not result.causes
            if is_kept and sum_of(rt, crates[name]) == sums[name]:
                kept.keep(name, sums[name], result)
    return not causes, report, seconds


def self_test(is_gate_passed=False):
    """Tries edits that show nothing. Returns whether each fails by its name and for its cause, and
    lines that report it."""
    os.makedirs(LOGS, exist_ok=True)
    rt, report = loaded(), []
    with contextlib.ExitStack() as stack:
        built = stack.enter_context(over_libraries(rt, [SELF_TEST], is_gate_passed))
        if not built:
            return False, [f"    {SELF_TEST} is not proved as it stands"]
        room = stack.enter_context(tempfile.TemporaryDirectory(prefix="wrong-bodies-"))
        for name, (function, old, new, _) in SELF_TESTS.items():
            goals = ["goal: returns c"] if name in ALONE else []
            lines = [f"function: {SELF_TEST}::HeldBytes::{function}", *goals, "file: src/lib.rt"]
            with open(f"{room}/{name}.edit", "w", encoding="utf-8") as file:
                file.write("\n".join([*lines, f"old: {old}", f"new: {new}", ""]))
        causes = []
        for names in (ALONE, {*SELF_TESTS} - {*ALONE}):
            files = [f"{room}/{it}.edit" for it in sorted(names)]
            causes += Tries(rt, built[SELF_TEST], files, rt.rtlib.guarded()).try_all().causes
    for name, (*_, wanted) in SELF_TESTS.items():
        of_it = [it for it in causes if it.startswith(f"{SELF_TEST}/{name}.edit: ")]
        said = [it for it in of_it if " is refused too, " not in it]
        if len(said) != bool(wanted) or any(wanted not in it for it in said):
            report.append(f"    {name} must fail with '{wanted or 'nothing'}', and not with {said}")
    if not any("held_bytes::drop_front is refused too" in it for it in causes):
        report.append("    no cause names the function that is refused too")
    failing = sum(bool(wanted) for *_, wanted in SELF_TESTS.values())
    good = [f"    {failing} edits that show nothing fail, each by its name"]
    return not report, report or good


def main(words):
    if words == ["--self-test"]:
        passed, report = self_test()
        print("\n".join(report))
        return 0 if passed else 1
    is_control, notes_goals = words[:1] == ["--control"], words[:1] == ["--goals"]
    names = words[1:] if is_control or notes_goals else words
    if any(it not in all_crates() for it in names):
        print(__doc__.strip(), file=sys.stderr)
        return 2
    started = time.monotonic()
    passed, _, seconds = run(names or [*all_crates()], False, is_control, notes_goals)
    for name, spent in sorted(seconds.items(), key=lambda it: -it[1]):
        print(f"| `{name}` | {spent / 60:.1f} |")
    minutes = (time.monotonic() - started) / 60
    spent = f"{sum(seconds.values()) / 60:.1f} minutes of one processor, {minutes:.1f} by the clock"
    print(f"wrong bodies: {'passed' if passed else 'FAILED'}: {spent}")
    return 0 if passed else 1


if __name__ == "__main__":
    signal.signal(signal.SIGTERM, lambda *_: sys.exit(143))
    sys.exit(main(sys.argv[1:]))
