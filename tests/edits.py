"""The edits of crates/NAME/wrong-bodies/: the functions of a crate, what an edit changes in one of them, and a text with edits in it.

tests/wrong_bodies.py says what an edit is.
"""
import os
import re
from collections import Counter
from dataclasses import dataclass, field, replace
from itertools import takewhile
from pathlib import Path

ROOT = Path(__file__).resolve().parent.parent
FOLDER = "wrong-bodies"
# The public functions that need no edit.
WITHOUT = "without.md"
PARTS = ("src", "specs", "proofs")
# So many edits in one check. Most of what a check costs beside its functions it costs once.
MOST_IN_A_ROUND = 160

HEAD = re.compile(r"^( *)(?:pub(?:\([^)]*\))? )?(?:const )?fn (\w+)")
PUBLIC = re.compile(r"^ *pub (?:const )?fn ")
CLAUSE = re.compile(r"^\s*(?:requires|ensures|ghost)\b", re.M)
REQUIRES = re.compile(r"^ *requires\b")
IMPL = re.compile(r"^impl\b(?P<rest>.*)")
TYPE = re.compile(r"^(?:pub(?:\([^)]*\))? )?(?:struct|enum|union) (\w+)", re.M)
# The mark of functions that call one another: their proof lies elsewhere, and goes by their bodies.
CYCLE = re.compile(r"^ *#\[cycle\b")


@dataclass(frozen=True)
class Function:
    """A function of a crate: its module, the words of the type and trait that it belongs to, its name, and its lines."""

    module: str
    owner: str
    name: str
    first: int
    last: int

    def path(self):
        return "::".join(it for it in (self.module, self.owner, self.name) if it)


@dataclass(frozen=True)
class Edit:
    crate: str
    # Its folder and its file's name, below wrong-bodies/.
    name: str
    path: str
    # The place of each old text in the file, that text, and the new one.
    changes: tuple
    function: Function
    # Where other edits of its function are planted beside it: the number of the twin that it has. 0 stands for the function itself.
    twin: int = 0
    # The type whose method the twin is, if any.
    twin_owner: str = ""

    def planted_in(self):
        """Returns the function that it is planted in: its own, or a twin of that."""
        name = f"{self.function.name}_twin{self.twin}"
        return replace(self.function, owner=self.twin_owner, name=name) if self.twin else self.function

    def is_of_a_definition(self):
        return self.path.startswith("specs/")

    def label(self):
        return f"{self.crate}/{FOLDER}/{self.name}"


@dataclass
class Crate:
    name: str
    deps: list
    edits: list = field(default_factory=list)
    # Edits for further checks: of definitions, and of functions that the first check has one of and that have no twins.
    later: list = field(default_factory=list)
    functions: list = field(default_factory=list)
    # The modules of its types, by their names.
    types: dict = field(default_factory=dict)
    # The owners and names that several functions have.
    shared: set = field(default_factory=set)
    is_planted: bool = True
    # Why edits fail, by their name.
    failed: dict = field(default_factory=dict)
    refused: int = 0
    only_as_names_went: int = 0
    rounds: int = 0
    seconds: float = 0


class BadEdit(Exception):
    """An edit that says nothing of a contract, and why."""


def sources(crate):
    """Yields the crate's files in the order in which rt sums them."""
    for part in PARTS:
        for at, folders, names in os.walk(ROOT / "crates" / crate.name / part):
            folders.sort()
            yield from (Path(at) / name for name in sorted(names))


def parts_of(head):
    """Returns the parts of an impl's head behind its first word: its parameters, its trait and its type."""
    parameters, text = re.fullmatch(r"(<(?:[^<>]|<[^<>]*>)*>)?(.*)", head.rstrip("{ ")).groups()
    given, _, taker = text.rpartition(" for ")
    return parameters or "", given, taker.strip()


def owner_of(head):
    """Returns the words of an impl's head as rattle joins them to a name: its type, then its trait and what that takes."""
    parameters, given, taker = parts_of(head)
    taken = re.findall(r"[<,] *(\w+)", parameters)
    type_words, trait_words = ([it for it in re.findall(r"[A-Z]\w*", words) if it not in taken] for words in (taker, given))
    return "".join([*type_words[:1], *trait_words])


def functions_of(path, text):
    """Returns the functions of a formatted file, from the line of each one's head to the next line with a bracket as far to the left."""
    module = module_of(path)
    found, owner, lines = [], "", text.split("\n")
    for number, line in enumerate(lines):
        block, head = IMPL.match(line), HEAD.match(line)
        if block:
            owner = owner_of(block["rest"])
        elif line.startswith("}"):
            owner = ""
        if head:
            ends = rf"\}}|{head[1]}\{{?\}}|{head[1]}(?:pub(?:\([^)]*\))? )?(?:const )?fn \w"
            last = next((at for at in range(number + 1, len(lines)) if re.match(ends, lines[at])), len(lines) - 1)
            is_short = line.rstrip().endswith(("}", ";"))
            found.append(Function(module, owner, head[2], number, number if is_short else last))
    return found


def function_at(functions, text, start, old):
    """Returns the function that the text to replace stands in, which begins at a place of the file."""
    first, last = text.count("\n", 0, start), text.count("\n", 0, start + len(old))
    around = [it for it in functions if it.first <= first and last <= it.last]
    if not around:
        raise BadEdit(f"it changes what no function holds: {old.strip()[:80]!r}")
    if CLAUSE.match(text.split("\n")[first]):
        raise BadEdit(f"it changes a clause, which shows nothing: {old.strip()[:80]!r}")
    return around[-1]


def place_of(text, old, path, part):
    """Returns the only place of a text in a part of a file, which a slice says."""
    times = text[part].count(old)
    if times != 1:
        raise BadEdit(f"it is stale: {path} has its old text {times} times, and not once: {old.strip()[:80]!r}")
    return text.index(old, part.start)


def part_of(functions, text, names):
    """Returns the part of a file in which an edit's old texts stand: that of the function that it names, or all of it."""
    if not names:
        return slice(0, len(text))
    found = [it for it in functions if it.name == names[0]]
    if len(names) != 1 or len(found) != 1:
        raise BadEdit(f"a line 'in: NAME' names the only function of that name in its file, and {' '.join(names)} is none")
    lines = text.split("\n")
    start = sum(len(it) + 1 for it in lines[: found[0].first])
    return slice(start, start + sum(len(it) + 1 for it in lines[found[0].first : found[0].last + 1]))


def read_edit(crate, file, name):
    """Reads an edit of one function, and sees to it that it can be applied and lies in its file's folder."""
    if not re.fullmatch(r"[a-z0-9_]+\.edit", file.name) or not file.is_file():
        raise BadEdit("an edit's name is of small letters, digits and _, and ends in .edit")
    lines = file.read_text().splitlines()
    said = lambda word: [it.removeprefix(f"{word}:").removeprefix(" ") for it in lines if it.startswith(f"{word}:")]
    paths, names, samples, olds, news = map(said, ("file", "in", "by", "old", "new"))
    if len(paths) != 1 or not re.fullmatch(r"src/[\w/]+\.rt|specs/[\w/]+\.antt", paths[0]) or not all(olds) or not olds or len(olds) != len(news):
        raise BadEdit("an edit is one line 'file: src/NAME.rt' or 'file: specs/NAME.antt', and then pairs of lines 'old: TEXT' and 'new: TEXT'")
    home = paths[0].removeprefix("src/").rpartition(".")[0]
    if name != f"{home}/{file.name}":
        raise BadEdit(f"it changes {paths[0]}, so its folder is {FOLDER}/{home}/")
    try:
        text = (ROOT / "crates" / crate.name / paths[0]).read_text()
    except OSError:
        raise BadEdit(f"it is stale: there is no file {paths[0]}") from None
    functions = functions_of(paths[0], text)
    part = part_of(functions, text, names)
    places = [place_of(text, old, paths[0], part) for old in olds]
    if paths[0].startswith("specs/"):
        found = {it for it in crate.functions if [it.path()] == samples}
        why = "an edit of a definition has one line 'by: MODULE::NAME', with a function of the crate"
    else:
        found = {function_at(functions, text, at, old) for at, old in zip(places, olds)} if not samples else set()
        why = "it changes more than one function, or has a line 'by: ..', which is for definitions"
    if len(found) != 1:
        raise BadEdit(why)
    return Edit(crate.name, name, paths[0], tuple(zip(places, olds, news)), found.pop())


def module_of(path):
    """Returns the module that a file is, by its path in the crate's folder."""
    return re.sub(r"(^|::)(lib|main)$", "", path[len("src/") : -len(".rt")].replace("/", "::"))


def read_functions(crate):
    """Fills in the crate's functions and types, and the names that several of its functions have."""
    folder = ROOT / "crates" / crate.name
    for file in sources(crate):
        if file.suffix == ".rt":
            path, text = str(file.relative_to(folder)), file.read_text()
            crate.functions += functions_of(path, text)
            crate.types |= {it: module_of(path) for it in TYPE.findall(text)}
    times = Counter((it.owner, it.name) for it in crate.functions)
    crate.shared = {it for it, number in times.items() if number > 1}


def read_edits(crate, only):
    """Fills in the crate's edits; those that can't be applied have failed."""
    read_functions(crate)
    folder = ROOT / "crates" / crate.name / FOLDER
    files = sorted(it for it in folder.rglob("*") if it != folder / WITHOUT and (it.is_symlink() or not it.is_dir()))
    if not files:
        crate.failed[f"{FOLDER}/"] = "there is no edit in it"
    for file in files:
        name = file.relative_to(folder).as_posix()
        try:
            if only in name:
                crate.edits.append(read_edit(crate, file, name))
        except (BadEdit, UnicodeDecodeError) as why:
            crate.failed[name] = f"BAD EDIT: {why}"
    crate.edits.sort(key=Edit.is_of_a_definition)
    for path in [] if only else without_edits(crate):
        crate.failed[path] = "NO EDIT: a public function with a contract, and nothing shows that it refuses a wrong body"


def promises(text):
    """Returns whether a function is public, and has a contract that some body wouldn't meet: it gives or changes something."""
    head = CLAUSE.split(text)[0]
    return PUBLIC.match(text) and re.search(r"^\s*ensures\b", text, re.M) and ("->" in head or "&mut" in head)


def without_edits(crate):
    """Returns the paths of the public functions with a contract that no edit changes, and that aren't named as such."""
    folder, promising, changed = ROOT / "crates" / crate.name, set(), {it.function.path() for it in crate.edits if not it.is_of_a_definition()}
    for file in (it for it in sources(crate) if it.suffix == ".rt"):
        path, text = str(file.relative_to(folder)), file.read_text()
        functions, lines = functions_of(path, text), text.split("\n")
        promising.update(it.path() for it in functions if promises("\n".join(lines[it.first : it.last + 1])))
        for edit in folder.glob("must-fail/*.edit"):
            olds = re.findall(r"^old: (.*)$", edit.read_text(), re.M) if f"file: {path}\n" in edit.read_text() else []
            changed.update(function_at(functions, text, text.index(it), it).path() for it in olds if it in text)
    named = folder / FOLDER / WITHOUT
    return promising - changed - set(re.findall(r"^- `([\w:]+)`: ", named.read_text() if named.is_file() else "", re.M))


def rounds_of(edits):
    """Returns edits in the lists that are planted together: not too many, no function twice in one, but by its twins, and a definition alone."""
    rounds = []
    for edit in edits:
        place, is_alone = (edit.path, edit.planted_in()), edit.is_of_a_definition()
        free = (it for it in rounds if len(it) < MOST_IN_A_ROUND and not is_alone and not it[0].is_of_a_definition())
        found = next((it for it in free if all(place != (other.path, other.planted_in()) for other in it)), None)
        if found is None:
            rounds.append([edit])
        else:
            found.append(edit)
    return rounds


def with_twins(crate):
    """Returns the edits, where each but the first of a function has a twin of it, if the function may have some."""
    before, edits = Counter(), []
    for edit in crate.edits:
        place = edit.path, edit.function
        if before[place] and may_have_twins(crate, edit):
            edits.append(replace(edit, twin=before[place], twin_owner=type_of(crate, edit.function) or ""))
        else:
            edits.append(edit)
        before[place] += 1
    return edits


def may_have_twins(crate, edit):
    """Returns whether a function may stand under another name beside itself: no other method of its type has its name, and it says its contract
    itself, with what it requires, where it is a method of a trait."""
    function, owner = edit.function, type_of(crate, edit.function)
    if edit.is_of_a_definition() or function.owner and not owner:
        return False
    lines = (ROOT / "crates" / crate.name / edit.path).read_text().split("\n")
    body = body_of(function, lines)
    if not body or not may_be_left_out(function, lines, body):
        return False
    is_told = not is_of_a_trait(crate, function) or any(map(REQUIRES.match, lines[function.first : body.start]))
    namesakes = [it for it in crate.functions if owner and it.name == function.name and type_of(crate, it) == owner]
    return is_told and len(namesakes) < 2


def type_of(crate, function):
    """Returns the name of the type whose method a function is, at once or by a trait. None where it is no method, or the type isn't known."""
    return max((it for it in crate.types if function.owner.startswith(it)), key=len, default=None)


def is_of_a_trait(crate, function):
    """Returns whether a function is a method of a trait: then it goes by the words of its type and of that."""
    return bool(function.owner) and function.owner not in crate.types


def changed(text, changes):
    """Returns a text with other texts at some places, from the last on."""
    for start, old, new in sorted(changes, reverse=True):
        text = text[:start] + new + text[start + len(old) :]
    return text


def planted(text, edits):
    """Returns a file's text with edits of different functions in it, each at its own place, or in a twin behind its function."""
    changes = [it for edit in edits if not edit.twin for it in edit.changes]
    return changed(text, changes + [twin_of(text, edit) for edit in edits if edit.twin])


def twin_of(text, edit):
    """Returns the change that puts an edited twin behind a function, with its attributes; that of a trait's method behind the impl."""
    lines, first, last = text.split("\n"), edit.function.first, edit.function.last
    while lines[first - 1].strip() and not lines[first - 1].endswith("{"):
        first -= 1
    start, end = (sum(len(it) + 1 for it in lines[:number]) for number in (first, last + 1))
    twin = changed(text[start : end - 1], [(at - start, old, new) for at, old, new in edit.changes])
    head = rf"^( *(?:pub(?:\([^)]*\))? )?fn ){edit.function.name}\b"
    twin = re.sub(head, rf"\g<1>{edit.planted_in().name}", twin, count=1, flags=re.M)
    if edit.function.owner == edit.twin_owner:
        return end - 1, "", f"\n\n{twin}"
    begins, ends = impl_around(lines, first)
    uses = [it for it in lines[begins:ends] if it.startswith("    ghost use ")]
    parameters, _, taker = parts_of(IMPL.match(lines[begins])["rest"])
    own = "\n".join([f"impl{parameters} {taker} {{", *uses, "", twin, "}"])
    return sum(len(it) + 1 for it in lines[: ends + 1]) - 1, "", f"\n\n{own}"


def impl_around(lines, number):
    """Returns the first line and the last one of the impl that a line stands in, in a formatted file."""
    begins = next(it for it in range(number, -1, -1) if IMPL.match(lines[it]))
    return begins, next(it for it in range(number, len(lines)) if lines[it].startswith("}"))


def copy_proof(home, crate, edit):
    """Copies the proof of an edit's function for its twin. What it names of that proof is then the twin's."""
    name, twin = (proof_folder(crate, it) for it in (edit.function, edit.planted_in()))
    for file in sorted((home / "proofs" / name).glob("*.antt")):
        copy = home / "proofs" / twin / file.name
        copy.parent.mkdir(parents=True, exist_ok=True)
        own, others = (f"Rattle.{crate.name}.proofs.{it.replace('/', '.')}." for it in (name, twin))
        copy.write_text(file.read_text().replace(own, others))


def proof_folder(crate, function):
    """Returns the folder of a function's proof, below proofs/: a method's lies where its type does. None where that isn't known."""
    owner = type_of(crate, function)
    if function.owner and not owner:
        return None
    module = crate.types[owner] if owner else function.module
    return "/".join(it for it in (module.replace("::", "/"), function.owner, function.name) if it)


def body_of(function, lines):
    """Returns the lines of a function's body as a slice, in a formatted file: none where it stands in the line of its head."""
    indent = re.match(" *", lines[function.first])[0]
    start = next((it for it in range(function.first, function.last) if re.match(rf"{indent}(?! ).*\{{$", lines[it])), None)
    return None if start is None or lines[function.last] != f"{indent}}}" else slice(start + 1, function.last)


def attributes_of(function, lines):
    """Returns the attributes of a function, each in a line above its head."""
    return list(takewhile(lambda it: it.lstrip().startswith("#["), reversed(lines[: function.first])))


def may_be_left_out(function, lines, body):
    """Returns whether a function's body isn't needed: no constant is made by it, and it doesn't call itself, at once or by others."""
    is_recursive = any(map(CYCLE.match, attributes_of(function, lines))) or re.search(rf"\b{function.name}\b", "\n".join(lines[body]))
    return not (is_recursive or "const fn" in lines[function.first])
