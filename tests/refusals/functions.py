"""The functions of a crate's sources: where they stand, where their proofs do, and each without its body."""
import re
import shutil
from dataclasses import dataclass, field
from pathlib import Path

ITEM = re.compile(
    r"^(?P<close>\})"
    r"|^(?P<impl>impl)(?:<.*?>)? (?:(?P<trait>\w+)(?P<of><.*?>)? for )?(?P<type>\w+)"
    r"|^(?:pub )?trait (?P<declared>\w+)"
    r'|^(?P<indent> *)(?:(?P<public>pub )|pub\(.*?\) )?(?:const )?(?:unsafe )?(?:extern "C" )?fn (?P<name>\w+)',
    re.M,
)
CLAUSE = re.compile(r"^ {4,8}ensures (?:(\w+) )?\{", re.M)
TYPE = re.compile(r"^(?:pub(?:\(.*?\))? )?(?:struct|enum) (\w+)", re.M)
# One hole for all, since rattle prints the goal of each.
ANYTHING = """pub anything {ℓ} : {A : Type ℓ} → A
anything = ?
"""
HOLE = """{loads}use Rattle.{crate}.proofs.Anything.{{anything}}
use Rattle.{crate}.proofs.{module}.Statement.{{statement}}

pub {name}_spec : {{M : Type 1}} → statement M
{name}_spec = anything
"""

# A lemma: its statement, what it opens, and its clauses, with the lines of each that are further in. Those of a module
# with parameters are two spaces further in.
LEMMA = (
    r"^{0}(?P<statement>(?:pub )?(?P<name>[^\s:=({{]+)(?: \{{[^}}\n]*\}})? :(?: .*)?\n(?:{0}[ \t](?![ \t]*unfolding ).*\n)*)"
    r"(?:{0} *unfolding .*\n)?"
    r"(?:{0}(?P=name)(?![^\s=]).*\n(?:{0}[ \t}})\]].*\n|\n(?={0}[ \t]))*)+"
)
LEMMAS = {indent: re.compile(LEMMA.format(indent), re.M) for indent in ("", "  ")}
MODULE = re.compile(r"^module (?:.*\n(?=[ \t]))*?.* where\n(?:(?:  .*)?\n)*", re.M)
OPENED = re.compile(r"\bunfolding[ (]([^\n)]*)")


# An answer that no goal asks for, as it stands behind those that are there.
GOALS = "use Rattle.{crate}.proofs.{module}.Goals as goal\n"
STRAY = "\npub stray : goal.stray\nstray = ?\n"


@dataclass
class Function:
    """A function of a source: the end of its path, as rattle takes it, its names in REFUSALS, its place."""

    path: str
    names: frozenset
    start: int
    end: int
    type: str = ""
    trait: str = ""
    is_public: bool = False
    file: str = ""
    labels: list = field(default_factory=list)

    @property
    def name(self):
        return self.path.split("::")[-1]


def end_of(text, item, is_declared):
    """Where a function ends: behind its body or, where a trait declares it without one, its semicolon."""
    end = text.find(f"\n{item['indent']}}}\n", item.end())
    end = len(text) if end < 0 else end + len(item["indent"]) + 2
    body = re.compile(rf"^{item['indent']}\{{$", re.M).search(text, item.end(), end)
    semicolon = re.compile(r";$", re.M).search(text, item.end(), end)
    has_body = not is_declared or not semicolon or (body and body.start() < semicolon.start())
    return end if has_body else semicolon.end()


def functions_of(file, text):
    """The functions of a source, in order."""
    module = Path(file).stem if Path(file).stem not in ("lib", "main") else ""
    found, owner, owners, trait = [], "", [], ""
    for item in ITEM.finditer(text):
        if item["close"]:
            owner, owners, trait = "", [], ""
        elif item["impl"]:
            owners, trait = [it for it in (item["type"], item["trait"]) if it], item["trait"] or ""
            owner = "".join(owners) + "".join(re.findall(r"\w+", item["of"] or ""))
        elif item["declared"]:
            owner = trait = item["declared"]
            owners = [owner]
        else:
            # A method's path is that of its type, wherever its impl stands.
            inside = owner if item["indent"] else ""
            path = "::".join(it for it in (inside or module, item["name"]) if it)
            names = {f"{it}::{item['name']}" for it in owners} if inside else {item["name"]}
            end = end_of(text, item, bool(inside) and owners == [trait])
            of_type, of_trait = (owners[0], trait) if inside else ("", "")
            is_public = bool(item["public"] or of_trait)
            found.append(Function(path, frozenset(names), item.start(), end, of_type, of_trait, is_public, str(file)))
    for function, end in zip(found, [*(it.start for it in found[1:]), len(text)]):
        function.labels += [it or "result" for it in CLAUSE.findall(text, function.start, end)]
    return found


def function_at(path, file, text):
    """The function of a path in a source."""
    return next((it for it in functions_of(file, text) if it.path == path), None)


def module_of(file):
    """The path of the module of a source, as src/a/b.rt."""
    parts = Path(file).with_suffix("").parts[1:]
    return parts[:-1] if parts[-1] in ("lib", "main") else parts


def homes_of(folder):
    """The module of each type that a crate declares."""
    found = {}
    for file in folder.glob("src/**/*.rt"):
        found.update(dict.fromkeys(TYPE.findall(file.read_text()), module_of(file.relative_to(folder))))
    return found


def proof_of(function, file, homes):
    """The folder of a function's proof below proofs/, that of a method in the module of its type, or None."""
    if not function.type:
        return Path(*module_of(file), function.name)
    home = homes.get(function.type)
    return None if home is None else Path(*home, *function.path.split("::"))


def calls_itself(function, text):
    """Whether a function names itself in its text."""
    return bool(re.search(rf"(?:(?<![\w.:])|self\.|Self::){function.name}\(", text.split(f"fn {function.name}", 1)[1][1:]))


def without_clauses(text, labels):
    """The text of a function without its clauses of these labels; those of closures in its body stay."""
    kept, at = "", 0
    body = re.search(rf"^{re.match(' *', text)[0]}\{{$", text, re.M)
    for clause in CLAUSE.finditer(text, 0, body.start() if body else 0):
        if (clause[1] or "result") in labels:
            kept += text[at:clause.start()]
            at = end_of_braces(text, clause.end()) + 1
    return kept + text[at:]


def end_of_braces(text, at):
    """The end of the line in which the braces close that are open once before a place."""
    depth = 1
    while depth:
        depth += {"{": 1, "}": -1}.get(text[at], 0)
        at += 1
    return text.index("\n", at)


def body_of(function, text):
    """Where a function's body stands between its braces, or None where it can't be told."""
    own = text[function.start:function.end]
    indent = re.match(" *", own)[0]
    first = re.search(rf"^{indent}\{{$", own, re.M) or re.search(r"\{$", own, re.M)
    if not first or re.match(r".*\bconst fn\b", own):
        return None
    return function.start + first.end(), function.start + own.rindex("}")


def empty_others(crate, folder, kept, pinned=()):
    """Leaves each function of a copy of a crate, but those of the kept paths, no body, and a hole for its proof.

    That proof loads the pinned modules of proofs. Gives the paths of the functions that are left no body.
    """
    homes, emptied = homes_of(folder), []
    put_anything(folder / "proofs")
    for file in sorted(folder.glob("src/**/*.rt")):
        path, text = file.relative_to(folder), file.read_text()
        following = len(text)
        for function in reversed(functions_of(path, text)):
            proof, is_whole = proof_of(function, path, homes), function.end <= following
            following = function.start
            body = body_of(function, text)
            if function.path in kept or proof is None or body is None or not is_whole:
                continue
            text = f"{text[:body[0]]} unreachable!() {text[body[1]:]}"
            put_hole(crate, folder, proof, pinned)
            emptied.append(function.path)
        file.write_text(text)
    return emptied


def put_anything(proofs):
    """Puts a lemma of anything, with the one hole that all others cite, among the proofs of a copy of a crate."""
    proofs.mkdir(exist_ok=True)
    (proofs / "Anything.antt").write_text(ANYTHING)
    with (proofs / "Lib.antt").open("a") as lib:
        lib.write("mod Anything\n")


def empty_lemmas(crate, folder, pinned):
    """Leaves each lemma in a copy of a crate, but the pinned ones, its statement, and the one hole for its proof.

    What is opened somewhere, and what always is, keeps its text: an abbreviation, a type, a set of rules.
    """
    texts = {it: it.read_text() for it in (folder / "proofs").rglob("*.antt")}
    sources = (it.read_text() for part in ("src", "specs") for it in (folder / part).rglob("*.*t"))
    opened = {name for text in (*texts.values(), *sources) for name in OPENED.findall(text)}
    opened = {re.split(r"::|\.", it)[-1] for names in opened for it in re.split(r"[\s,()]+", names)} | pinned
    for file, text in texts.items():
        if file.stem in ("Answers", "Invariants", "Proof", "Anything", "Lib"):
            continue
        emptied = without_proofs(text, "", opened)
        emptied = MODULE.sub(lambda it: without_proofs(it[0], "  ", opened), emptied)
        if emptied != text:
            file.write_text(f"use Rattle.{crate}.proofs.Anything.{{anything}}\n{emptied}")


def without_proofs(text, indent, opened):
    """A text of lemmas with a hole for the proof of each whose name is not among those that are opened."""

    def without_proof(lemma):
        hole = f"{indent}{lemma['statement']}{indent}{lemma['name']} = anything\n"
        return lemma[0] if lemma["name"] in opened else hole

    return LEMMAS[indent].sub(without_proof, text)


def put_hole(crate, folder, proof, pinned):
    """Has a hole stand for a function's proof, also for that of one that called itself."""
    loads = "".join(f"use Rattle.{crate}.proofs.{it} as pinned_{number}\n" for number, it in enumerate(sorted(pinned)))
    place, module = folder / "proofs" / proof, ".".join(proof.parts)
    for it in (place, place.with_name(f"+{place.name}")):
        shutil.rmtree(it, ignore_errors=True)
    place.mkdir(parents=True)
    (place / "Proof.antt").write_text(HOLE.format(loads=loads, crate=crate, module=module, name=proof.name))


def add_stray_answers(crate, folder, paths):
    """Gives the proof of each function of these paths an answer that no goal asks for.

    Rattle then offers no file of answers for it; to print one can take longer than the whole check.
    """
    homes = homes_of(folder)
    for file in sorted(folder.glob("src/**/*.rt")):
        path = file.relative_to(folder)
        for function in functions_of(path, file.read_text()):
            proof = proof_of(function, path, homes)
            if function.path in paths and proof is not None:
                answers = folder / "proofs" / proof / "Answers.antt"
                answers.parent.mkdir(parents=True, exist_ok=True)
                goals = GOALS.format(crate=crate, module=".".join(proof.parts))
                others = answers.read_text() if answers.exists() else goals
                answers.write_text(others + STRAY)
