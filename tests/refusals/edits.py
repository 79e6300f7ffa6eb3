"""Wrong bodies, crates/CRATE/must-fail/*.edit: what each changes, and how it is made in a copy of its crate."""
import functools
import re
import shutil
from collections import Counter
from dataclasses import dataclass, field

from functions import calls_itself, function_at, functions_of, homes_of, proof_of, without_clauses


@dataclass
class Edit:
    name: str
    clauses: list = field(default_factory=list)
    pins: list = field(default_factory=list)
    aside: list = field(default_factory=list)
    changes: list = field(default_factory=list)
    functions: dict = field(default_factory=dict)
    is_wide: bool = False
    has_copy: bool = False
    is_unedited: bool = False
    is_kept: bool = False
    is_whole: bool = False
    faults: list = field(default_factory=list)


def read_edit(file, folder):
    """The edit of a file, with the functions that it changes."""
    edit, path, old = Edit(file.stem), "", ""
    for line in file.read_text().split("\n"):
        word, _, rest = line.partition(":")
        rest = rest[1:]
        if word == "refuses":
            function, *labels = rest.split()
            edit.clauses += [(function, it) for it in labels or ["result"]]
        elif word == "pins":
            edit.pins += [tuple(it.rsplit(".", 1)) for it in rest.split()]
        elif word == "aside":
            edit.aside.append(rest)
        elif word == "file":
            path = rest
        elif word == "old":
            old = rest
        elif word == "new":
            edit.changes.append((path, old, rest))
    locate(edit, folder)
    return edit


def unedited_of(edits):
    """An edit without a change, where it stands, of each function that these edits change."""
    functions = {path: it for edit in edits for path, it in edit.functions.items()}
    return [Edit(path, functions={path: it}, is_unedited=True) for path, it in functions.items()]


def cites_others(unedited, folder):
    """Whether the proof of the function that an edit leaves as it is, or a lemma that it uses, cites another's proof.

    In company the others have a hole for a proof. Their contracts and all lemmas are there.
    """
    (function,), cited = unedited.functions.values(), cited_of(folder)
    proof = proof_of(function, function.file, homes_of(folder))
    own = ".".join(proof.parts) if proof else ""
    others = functions_with_proofs(folder) - {own}
    met, left = set(), {it for it in cited if proof and is_of(it, own)}
    while left:
        module = left.pop()
        met.add(module)
        names = {it for it in cited.get(module, ()) if not is_of(it, own)}
        if any(is_of(name, other) for name in names for other in others):
            return True
        left |= (names & cited.keys()) - met
    return False


def is_of(module, other):
    """Whether a module is another, or below it."""
    return module == other or module.startswith(f"{other}.")


@functools.cache
def cited_of(folder):
    """The modules of a crate's proofs, by those that cite them."""
    named = re.compile(rf"\bRattle\.{folder.name}\.proofs\.([\w+-]+(?:\.[\w+-]+)*)")
    files = {it: it.relative_to(folder / "proofs").with_suffix("") for it in folder.glob("proofs/**/*.antt")}
    return {".".join(it.parts): {*named.findall(file.read_text())} for file, it in files.items()}


@functools.cache
def functions_with_proofs(folder):
    """The modules in which the functions of a crate have their proofs."""
    homes, found = homes_of(folder), set()
    for file in folder.glob("src/**/*.rt"):
        path = file.relative_to(folder)
        found |= {proof_of(it, path, homes) for it in functions_of(path, file.read_text())}
    return {".".join(it.parts) for it in found - {None}}


def locate(edit, folder):
    """Notes the functions that an edit changes, or, if it changes none, whose clauses it names."""
    texts = {}
    for path, old, new in edit.changes:
        text = texts.setdefault(path, (folder / path).read_text())
        if text.count(old) != 1:
            edit.faults.append(f"an 'old:' text is in {path} {text.count(old)} times, and not once")
            continue
        at = text.index(old)
        met = [it for it in functions_of(path, text) if it.start < at + len(old) and at < it.end]
        edit.is_wide |= not met
        edit.functions.update({it.path: it for it in met if not it.names & {*edit.aside}})
        texts[path] = text.replace(old, new)
    if not edit.functions:
        named = {it for it, _ in edit.clauses}
        for file in sorted(folder.glob("src/**/*.rt")):
            for it in functions_of(file.relative_to(folder), file.read_text()):
                if it.names & named:
                    edit.functions[it.path] = it
    if not edit.changes or not (edit.functions or edit.pins):
        edit.faults.append("it changes no function, and pins nothing")
    if not edit.is_wide and not edit.aside and not edit.faults and len(edit.functions) == 1:
        edit.has_copy = copy_of(edit, 1, folder) is not None


def applies(edit, texts, folder):
    """Makes the changes of an edit in texts, and says whether each 'old:' text was there once."""
    for path, old, new in edit.changes:
        text = texts.setdefault(path, (folder / path).read_text())
        if text.count(old) != 1:
            return False
        texts[path] = text.replace(old, new)
    return True


def copy_of(edit, number, folder):
    """A copy, of this number, of the function that an edit changes, with the change and another name.

    A method of a trait has no place for one, and what calls itself would call the other.
    """
    (path,), files = edit.functions, {it for it, _, _ in edit.changes}
    file = edit.changes[0][0]
    whole = (folder / file).read_text()
    own = function_at(path, file, whole)
    if len(files) > 1 or own is None or own.trait or proof_of(own, file, homes_of(folder)) is None:
        return None
    text = whole[own.start:own.end]
    for _, old, new in edit.changes:
        if text.count(old) != 1:
            return None
        text = text.replace(old, new)
    if calls_itself(own, text):
        return None
    text = text if edit.is_whole else with_named(edit, own, text, folder)
    attributes = re.search(r"(?: *#\[.*\]\n)*\Z", whole[:own.start])[0]
    return attributes + text.replace(f"fn {own.name}", f"fn {own.name}_wrong_{number}", 1)


def with_named(edit, own, text, folder):
    """A function's text without the clauses that an edit does not name, since a search for each takes its time.

    Where a proof file answers goals of single clauses, two stay, for a goal of the only one has another name; and all
    stay where it answers goals of all clauses at once, or proves the whole function.
    """
    named = {label for name, label in edit.clauses if name in own.names} & {*own.labels}
    proof = folder / "proofs" / proof_of(own, own.file, homes_of(folder))
    answered = answered_of(proof)
    if not named or (proof / "Proof.antt").exists() or any("-clause-" not in it for it in answered):
        return text
    others = [it for it in own.labels if it not in named]
    return without_clauses(text, {*others[1 if answered and len(named) == 1 else 0:]})


def answered_of(proof):
    """The goals at returns that the files of a function's proof answer."""
    return {it for file in proof.glob("*.antt") for it in re.findall(r"\bgoal\.(returns\S*)", file.read_text())}


def put_beside(edit, number, texts, folder):
    """Puts a copy with the change of an edit behind the function that it changes, with its proof."""
    (path,), file = edit.functions, edit.changes[0][0]
    text = texts.setdefault(file, (folder / file).read_text())
    own = function_at(path, file, text)
    texts[file] = f"{text[:own.end]}\n{copy_of(edit, number, folder)}{text[own.end:]}"
    place = proof_of(own, file, homes_of(folder))
    proof, module = folder / "proofs" / place, ".".join(place.parts)
    if proof.is_dir():
        other = shutil.copytree(proof, proof.with_name(f"{proof.name}_wrong_{number}"))
        for it in other.glob("*.antt"):
            named = rf"\b(proofs|contracts)\.{module}(?=\.)"
            it.write_text(re.sub(named, rf"\1.{module}_wrong_{number}", it.read_text()))


def numbers_of(batch):
    """The number of each edit's copy, among those of its function, or 0 where it is made in place."""
    seen, numbers = Counter(), []
    for edit in batch:
        seen.update([*edit.functions] if edit.has_copy else [])
        numbers.append(max(seen[it] for it in edit.functions) if edit.has_copy else 0)
    return numbers


def paths_of(edit, number):
    """The functions in which an edit is made, by the paths of those that it changes."""
    return {it: f"{it}_wrong_{number}" if number else it for it in edit.functions}


def joins(edit, batch, folder):
    """Whether an edit can be tried with those of a batch."""
    if edit.is_wide or any(it.is_wide for it in batch):
        return False
    texts, in_place = {}, [it for it in batch if not it.has_copy]
    if edit.has_copy or not in_place:
        return True
    apart = not any(it.functions.keys() & edit.functions.keys() for it in in_place)
    return apart and all(applies(it, texts, folder) for it in (*in_place, edit))


def batches_of(edits, folder):
    """The edits in batches of those that can be tried together.

    One that changes a text outside of functions, which others may rest on, has a batch of its own.
    """
    batches = []
    for edit in edits:
        batch = next((it for it in batches if joins(edit, it, folder)), None)
        if batch is None:
            batches.append([edit])
        else:
            batch.append(edit)
    return batches


def company_of(batch, edits, folder):
    """The function that is tried unchanged in a batch that has none: one that a crate's edits change, none here in place."""
    others = [] if any(it.is_unedited for it in batch) else unedited_of(edits)
    return next(([it] for it in others if joins(it, batch, folder)), [])
