#!/usr/bin/env python3
"""Tries the wrong bodies of crates/NAME/wrong-bodies/MODULE/*.edit, many of them in one check.

usage: tests/wrong_bodies.py [--only TEXT] [--while FILE] [--unedited] [CRATE ..]

A check judges each function by itself, since a proof cites only the contracts of what it calls. So edits of different
functions are planted together in a copy of the crate, and `rt check` must refuse each edit's own function by a goal of
its own. Of several edits of one function each but the first stands in a twin of it: the same text with its attributes under
another name, and the same proof. The twin of a trait's method stands in an impl of the type's own, if the method says its contract
itself. Constant functions and those that call themselves have no twins: their further edits wait for another check. Where many of
the functions have answers to goals in files of their own, a first check looks at these alone, and leaves goals without one open
(`#[tactic(none)]`), since a refused answer refuses the edit. What isn't refused so is tried again, with the search for all other
goals. An edit whose function is then only unproved with something that it calls, or only as names went away, or which was planted
beside one that doesn't compile, is tried again with fewer others, and at last alone. An edit that isn't refused fails the run, and
so does one that can't be applied, whose function can't be found, or that doesn't compile.

An edit is a file with a line 'file: src/NAME.rt' and pairs of lines 'old: TEXT' and 'new: TEXT'. Each old text stands in
that file exactly once, inside one function; or with a line 'in: NAME' once in the function of that name. Its folder has the
path of that file: edits of src/NAME.rt lie in wrong-bodies/NAME/, and those of src/A/B.rt in wrong-bodies/A/B/.

An edit may change a definition, too: 'file: specs/NAME.antt', in wrong-bodies/specs/NAME/. Its line 'by: MODULE::NAME' names the
function that must be refused with it, such as one that computes samples. It has a check of its own.

Each public function with a contract has to have an edit, here or in must-fail/, but for laws, which give and change nothing.
Those that no body can get wrong are named in wrong-bodies/without.md, each by a line "- `MODULE::TYPE::NAME`: why".

A check asks for the edited functions alone, and so for what they call: what calls them would be proved again for nothing.
What they call isn't proved either: in the copy a function that no edit touches has the body `unreachable!()` and an empty
proof, unless it calls itself. A goal cites the contract of what is called, and never its body or its proof. Only where an
edit wasn't refused so, it is tried alone with all bodies and proofs: then every function that the check tells of and no edit
touches must be proved, or be unproved only with what it calls. That the crate is proved as it is, this script doesn't look
at: `rt ci` does. A check begins with what `rt check` kept in the crate's out/, where that is there, and a further one with
what the one before it proved.

The copies lie in .git/wrong-bodies. Checks run side by side, one a processor or as many as RT_JOBS says. --only tries the
edits whose name, with its folder, has TEXT. --unedited tries the checks themselves: they plant the functions and twins as they
are, and so must refuse none, and in the first check no answer. As long as the file of --while is there, `rt ci` runs beside this
script: a crate waits until that has built the libraries below it, and half as many checks run. The last line is 'N passed, M
failed'.
"""
import argparse
import fcntl
import hashlib
import os
import re
import resource
import shutil
import subprocess
import sys
import tempfile
import threading
import time
from collections import deque
from concurrent.futures import FIRST_COMPLETED, ThreadPoolExecutor, wait
from dataclasses import dataclass, replace
from pathlib import Path

sys.dont_write_bytecode = True

from edits import (  # noqa: E402
    FOLDER, PARTS, ROOT, Crate, attributes_of, body_of, copy_proof, functions_of, is_of_a_trait, may_be_left_out, planted, proof_folder,
    read_edits, rounds_of, sources, with_twins,
)  # fmt: skip

LIBRARY = "crates/{0}/out/rlib/{0}.rlib"
# The files of a function's own proof, and that which stands for all of them.
PROOF_FILES, ANSWERS, PROOF = ("Answers.antt", "Invariants.antt", "Proof.antt"), "Answers.antt", "Proof.antt"
# What stands in the place of a body: it is read, checked and lowered at once.
NO_BODY = "unreachable!()"
# Over a function: its goals without an answer are left open. A function may have another way of its own, or that of a cycle.
NO_SEARCH, OWN_WAY = "#[tactic(none)]", re.compile(r" *#\[(?:tactic|cycle)\b")
# So many edits of functions with answers are worth a check of these alone.
MANY_ANSWERED = 16
LONGEST_CHECK = 7200
# Held while what was kept is copied, or replaced.
KEEPING = threading.Lock()
SECONDS_BETWEEN_LOOKS = 5

SAID = re.compile(r"^fn (\S+): (.*)$", re.M)
# An error's file, and what it says; a record without a field is told of on the second line.
ERROR = re.compile(r"^(?:\./)?(\S+?):\d+:\d+: error: (.*(?:\n  .*)?)$", re.M)
CALLS = re.compile(r"it calls (.*), which (?:is|are) not proved")
CAME_TO_A_VERDICT = re.compile(r"^(?:logic=(?:not-)?proved|only=\d)", re.M)
# What antt says where a proof file names what an edit took away, or cites such a proof, and where a proof was left out.
NAMES_WENT = re.compile(r"has no field|is not in scope|has no `|was not admitted|exports no `")


@dataclass(frozen=True)
class Round:
    """Edits that are planted together."""

    edits: tuple
    # Whether the functions that no edit touches have their bodies and proofs.
    is_whole: bool = False
    is_planted: bool = True
    # Whether goals without an answer are searched for. Else only the answers that edited functions have are checked.
    is_searched: bool = True


# The repository


def read_crates():
    """Returns the repository's crates by their names, each with its line's words of crates.txt."""
    crates = {}
    for line in (ROOT / "crates.txt").read_text().splitlines():
        name, _, uses = line.partition("#")[0].strip().partition(":")
        if name.strip():
            crates[name.split()[0]] = Crate(name.split()[0], re.split(r"[\s,]+", uses.strip()))
    return crates


def below(crate, crates):
    """Returns the repository's libraries below a crate, each after those that it uses."""
    found = []
    for name in crate.deps:
        if name in crates:
            found += [it for it in [*below(crates[name], crates), crates[name]] if it not in found]
    return found


def stamp(crate, crates):
    """Returns the sum by which rt knows that a built library is that of these sources.

    If rt ever sums otherwise, it builds the library again, in the copy.
    """
    folder = ROOT / "crates" / crate.name
    kit = Path(shutil.which("rt")).resolve().parent.parent
    label = lambda it: f"//crates/{it}" if it in crates else f"@rattle//{it}"
    said = {"name": crate.name, "deps": [label(it) for it in crate.deps if it]}
    made = hashlib.sha256(repr((said, False)).encode())
    made.update((kit / "WHAT").read_bytes())
    for file in sources(crate):
        made.update(repr((str(file).replace(str(folder), ""), file.read_bytes())).encode())
    made.update(repr([stamp(crates[it], crates) for it in crate.deps if it in crates]).encode())
    return made.hexdigest()


def is_of_the_gate(crate):
    """Returns whether the crate has the library that `rt ci` proved from its sources as they are: it has no stamp, holds statements alone,
    and fits the libraries of the same run, so all are copied together."""
    built = ROOT / LIBRARY.format(crate.name)
    if not (built / "format").is_file() or (built.parent / "stamp").exists():
        return False
    # The folder's time counts: where an earlier run proved the crate, its files are links, and have the times of that run.
    return all(it.stat().st_mtime < built.stat().st_mtime for it in sources(crate))


def is_at_rest(crate):
    """Returns whether nothing was put into the crate's library in the last seconds: `rt ci` may be about to put more there."""
    folders = (ROOT / LIBRARY.format(crate.name)).rglob("**/")
    return time.time() - max(it.stat().st_mtime for it in folders if it.is_dir()) > 2 * SECONDS_BETWEEN_LOOKS


def is_built(crate, crates):
    """Returns whether the crate has its library, built by rt from its sources as they are."""
    file = ROOT / "crates" / crate.name / "out/rlib/stamp"
    return file.is_file() and file.read_text() == stamp(crate, crates)


def build_libraries(chosen, crates):
    """Sees to it that each library below the crates is built, and returns the name of one that can't be."""
    libraries = []
    for crate in chosen:
        libraries += [it for it in below(crate, crates) if it not in libraries]
    if all(map(is_of_the_gate, libraries)):
        return None
    for crate in libraries:
        folder = ROOT / "crates" / crate.name
        if is_built(crate, crates):
            continue
        if subprocess.run(["rt", "lib", "--jobs", "1"], cwd=folder, stdin=subprocess.DEVNULL, stdout=subprocess.DEVNULL).returncode:
            return crate.name
    return None


# The copies


def link_or_copy(source, target):
    """Copies a file, by a link where it is a module that was checked: such a file is written anew, and never changed."""
    try:
        if source.endswith(".oantt"):
            return os.link(source, target)
    except OSError:
        pass
    return shutil.copy2(source, target)


def link_tree(source, target):
    """Copies a folder: what is done in the one leaves the other as it is."""
    shutil.copytree(source, target, copy_function=link_or_copy)


def make_room(room, crate, crates, base):
    """Lays out a copy of the repository: the crate, with kept work of its check, and the built libraries below it."""
    (room / "crates").mkdir(parents=True)
    shutil.copy(ROOT / "crates.txt", room)
    for it in crates.values():
        (room / "crates" / it.name / "src").mkdir(parents=True)
    for it in [crate, *below(crate, crates)]:
        folder, to = ROOT / "crates" / it.name, room / "crates" / it.name
        shutil.rmtree(to)
        for part in PARTS:
            if (folder / part).is_dir():
                link_tree(folder / part, to / part)
        if it is not crate:
            link_tree(folder / "out/rlib", to / "out/rlib")
            if not (to / "out/rlib/stamp").exists():
                (to / "out/rlib/stamp").write_text(stamp(it, crates))
    with KEEPING:
        kept = next((it for it in (kept_of(crate, base), ROOT / "crates" / crate.name / "out/incremental") if it.is_dir()), None)
        if kept:
            link_tree(kept, room / "crates" / crate.name / "out/incremental")


def asked_by(function, crate):
    """Returns the path by which a check is asked for one function.

    A method's holds no module, since it goes by that of its type, but where two types of one name have such a method.
    """
    is_alone = function.owner and (function.owner, function.name) not in crate.shared
    return "::".join(it for it in ("" if is_alone else function.module, function.owner, function.name) if it)


def check(room, crate, edits):
    """Returns what a check in a copy says of the edited functions and those that they call."""
    words = ["rt", "check", "--jobs", "1"]
    for path in sorted({asked_by(it.planted_in(), crate) for it in edits}):
        words += ["--only", path]
    how = {"stdin": subprocess.DEVNULL, "stdout": subprocess.PIPE, "stderr": subprocess.STDOUT, "errors": "replace"}
    try:
        return subprocess.run(words, cwd=room / "crates" / crate.name, timeout=LONGEST_CHECK, **how).stdout
    except subprocess.TimeoutExpired:
        return f"the check hadn't ended after {LONGEST_CHECK} seconds"


def kept_of(crate, base):
    """Returns where the last check of a crate left its work."""
    return base / f"kept-{crate.name}"


def leave_out(home, crate, edits):
    """Leaves out the body and the proof of each function that no edit touches, in a copy of the crate."""
    edited = {it.planted_in().path() for it in edits}
    for file in sorted((home / "src").rglob("*.rt")):
        path, text = str(file.relative_to(home)), file.read_text()
        lines = text.split("\n")
        # From the end on, so that the lines in front stay where they are.
        for function in reversed(functions_of(path, text)):
            body = body_of(function, lines)
            if body and function.path() not in edited and may_be_left_out(function, lines, body):
                indent = re.match(" *", lines[function.first])[0]
                lines[body] = [f"{indent}    {NO_BODY}"]
                leave_out_proof(home, crate, function)
        file.unlink()
        file.write_text("\n".join(lines))


def leave_out_proof(home, crate, function):
    """Leaves an empty file in the place of a function's proof."""
    if name := proof_folder(crate, function):
        folder = home / "proofs" / name
        folder.mkdir(parents=True, exist_ok=True)
        for file in PROOF_FILES:
            (folder / file).unlink(missing_ok=True)
        (folder / PROOF).touch()


def leave_search_out(home, crate, edits):
    """Leaves out the search for goals without an answer, in the edited functions that have answers and don't say themselves how to search.

    Methods of a trait keep it: what their impl says of the trait goes by it, too, and that error would be no function's.
    """
    edited = {it.planted_in().path() for it in edits}
    for path in {it.path for it in edits if not it.is_of_a_definition()}:
        file, text = home / path, (home / path).read_text()
        lines = text.split("\n")
        for function in reversed(functions_of(path, text)):
            keeps_search = is_of_a_trait(crate, function) or any(OWN_WAY.match(it) for it in attributes_of(function, lines))
            if function.path() in edited and has_answers(home, crate, function) and not keeps_search:
                lines.insert(function.first, re.match(" *", lines[function.first])[0] + NO_SEARCH)
        file.unlink()
        file.write_text("\n".join(lines))


def has_answers(home, crate, function):
    """Returns whether a function has answers of its own to some of its goals."""
    name = proof_folder(crate, function)
    return name is not None and (home / "proofs" / name / ANSWERS).is_file()


def check_round(base, crate, crates, tried):
    """Checks the crate with a round's edits planted, and returns what was said and the seconds that it took.

    What it proved is left for the rounds that follow: rattle takes of it what the next edits leave as it is.
    """
    start, room = time.time(), Path(tempfile.mkdtemp(prefix=f"{crate.name}-", dir=base))
    make_room(room, crate, crates, base)
    for path in {it.path for it in tried.edits}:
        file = room / "crates" / crate.name / path
        text = planted(file.read_text(), [it for it in tried.edits if it.path == path])
        file.unlink()
        file.write_text(text)
    home = room / "crates" / crate.name
    for edit in (it for it in tried.edits if it.twin):
        copy_proof(home, crate, edit)
    if not tried.is_whole:
        leave_out(home, crate, tried.edits)
    if not tried.is_searched:
        leave_search_out(home, crate, tried.edits)
    said = check(room, crate, tried.edits)
    keep(home / "out/incremental", kept_of(crate, base))
    shutil.rmtree(room)
    return said, time.time() - start


def keep(made, kept):
    """Puts what a check proved in the place of what was kept before."""
    with KEEPING:
        shutil.rmtree(kept, ignore_errors=True)
        if made.is_dir():
            os.rename(made, kept)


# The verdicts

REFUSED, NAMES, PASSED, CALLEE, UNKNOWN = "refused", "names", "passed", "callee", "unknown"


def keys_of(edit, said):
    """Returns the names by which a check tells of the edit's function: its own first, then those of its closures."""
    function = edit.planted_in()
    inside = "::".join(it for it in (edit.crate, function.module) if it)
    name = "::".join(it for it in (function.owner, function.name) if it)
    own = f"{inside}::{name}"
    if own not in said and function.owner:
        # A method goes by the module of its type, wherever its impl stands.
        elsewhere = [it for it in said if it.endswith(f"::{name}") and "::fn::" not in it]
        own = elsewhere[0] if len(elsewhere) == 1 else own
    homes = [f"{it}::fn::{name}::" for it in {inside, own.removesuffix(f"::{name}")}]
    return [own, *(it for it in said if it.startswith(tuple(homes)))] if own in said else []


def folder_of(key):
    """Returns the folder of a function's own proof files."""
    return f"proofs/{key.partition('::')[2].replace('::', '/')}/"


def verdict_on(key, said, errors):
    """Judges one function by what a check said of it."""
    text, own = said[key], [it for file, it in errors if file.startswith(folder_of(key))]
    if text.split(",")[0] == "proved":
        return PASSED
    # No goal was refused where antt gave up at a limit of its own.
    if text.startswith("could not tell"):
        return CALLEE
    if "`search` did not prove" in text or any(not NAMES_WENT.search(it) for it in own):
        return REFUSED
    if own:
        return NAMES
    return CALLEE


def is_excused(key, said):
    """Returns whether a function is only unproved with others that it calls."""
    calls = CALLS.search(said[key])
    return calls is not None and all(said.get(it) != "proved" for it in re.findall(r"`([^`]+)`", calls[1]))


def judge(tried, out):
    """Returns each edit's verdict in a round, and what else failed: other functions by goals of their own, and files that aren't a
    function's. Where nothing was left out, other functions are unproved only with the edited ones.
    """
    said, errors = dict(SAID.findall(out)), ERROR.findall(out)
    own, verdicts = set(), {}
    for edit in tried.edits:
        keys = keys_of(edit, said)
        own.update(keys)
        each = [verdict_on(it, said, errors) for it in keys]
        verdicts[edit] = next((it for it in (REFUSED, NAMES, CALLEE, PASSED) if it in each), UNKNOWN)
    others = {it: verdict_on(it, said, errors) for it in said if it not in own}
    unexcused = [it for it, verdict in others.items() if verdict == CALLEE and tried.is_whole and not is_excused(it, said)]
    strangers = [it for it, verdict in others.items() if verdict in (REFUSED, NAMES)] + unexcused
    folders = tuple(map(folder_of, said))
    return verdicts, strangers + [file for file, _ in errors if not file.startswith(folders)]


def first_error(out):
    """Returns the line that tells why a check came to no verdict."""
    lines = [it for it in out.splitlines() if it.strip()]
    return next((it for it in lines if it.startswith("error") or ": error" in it), lines[-1] if lines else "nothing was said")[:200]


def settle(crate, tried, out):
    """Takes down the verdicts of a round, and returns the rounds in which edits are tried again."""
    if not CAME_TO_A_VERDICT.search(out):
        if not tried.is_whole:
            return tried_again(tried.edits, tried)
        crate.failed[tried.edits[0].name] = f"BAD EDIT: no contract was tried, since it doesn't compile: {first_error(out)}"
        return []
    verdicts, strangers = judge(tried, out)
    if not tried.is_planted:
        return take_down_unedited(crate, tried, verdicts, strangers, dict(SAID.findall(out)))
    again = []
    for edit in tried.edits:
        if verdicts[edit] == UNKNOWN:
            crate.failed[edit.name] = f"BAD EDIT: the check tells of no function {edit.function.name} of {edit.path}"
        elif not tried.is_whole and (strangers or verdicts[edit] != REFUSED):
            again.append(edit)
        elif strangers:
            crate.failed[edit.name] = f"BAD EDIT: beside it these aren't proved: {', '.join(strangers)[:200]}"
        else:
            take_down(crate, edit, verdicts[edit])
    return tried_again(tuple(again), tried)


def take_down_unedited(crate, tried, verdicts, strangers, said):
    """Takes down how functions came out in which nothing is planted: each is proved, or unproved only with what it calls. Where nothing was
    searched for, no answer may be refused. Returns the round in which these functions are tried again."""
    again = []
    for edit, verdict in verdicts.items():
        unproved = [it for it in keys_of(edit, said) if said[it].split(",")[0] != "proved"]
        if verdict in (PASSED, CALLEE) and not tried.is_searched:
            again.append(edit)
        elif verdict in (PASSED, CALLEE) and all(is_excused(it, said) for it in unproved):
            crate.refused += 1
        else:
            crate.failed[edit.name] = f"{edit.function.name} is {verdict} as it is: {' '.join(said[it] for it in unproved)[:200]}"
    for name in strangers:
        crate.failed[name] = "it isn't proved, though nothing is planted"
    return tried_again(tuple(again), tried)


def take_down(crate, edit, verdict):
    """Takes down the last verdict on an edit."""
    if verdict == PASSED:
        crate.failed[edit.name] = f"NOT REFUSED: {edit.function.name} is still proved with this edit"
    elif verdict == CALLEE:
        crate.failed[edit.name] = f"NOT REFUSED by a goal of its own: {edit.function.name} is only unproved with what it calls"
    else:
        crate.refused += 1
        crate.only_as_names_went += verdict == NAMES
        if verdict == NAMES:
            print(f"{edit.label()}: refused only as names went away, which says little: change a value and keep the names", flush=True)


def tried_again(edits, tried):
    """Returns the rounds in which some edits of a round are tried again: with a search, then fewer in each, and at last one alone, with all
    proofs."""
    if not tried.is_searched:
        return [replace(tried, edits=edits, is_searched=True)] if edits else []
    if len(edits) < 2:
        return [replace(tried, edits=(replace(edits[0], twin=0),), is_whole=True)] if edits else []
    if len(edits) < len(tried.edits):
        return [replace(tried, edits=edits)]
    return [replace(tried, edits=it) for it in (edits[: len(edits) // 2], edits[len(edits) // 2 :])]


# The run


def try_all(base, chosen, crates, jobs, proving):
    """Checks rounds of edits until each has its verdict, side by side; rounds that follow on another go before those of other crates."""
    waiting = sorted(chosen, key=lambda it: -sum(file.stat().st_size for file in sources(it)))
    queue, running = deque(), {}
    with ThreadPoolExecutor(jobs) as pool:
        while waiting or queue or running:
            is_beside = proving is not None and proving.exists()
            lanes = (jobs + 1) // 2 if is_beside else jobs
            # A look at what is built costs something, too.
            if len(queue) + len(running) < lanes or not is_beside:
                begun = [it for it in waiting if has_libraries(it, crates)] if is_beside else waiting
                waiting = [it for it in waiting if it not in begun]
                queue.extend(opening_of(begun, crates))
            while queue and len(running) < lanes:
                crate, tried = queue.popleft()
                running[pool.submit(check_round, base, crate, crates, tried)] = crate, tried
            if not running:
                time.sleep(SECONDS_BETWEEN_LOOKS)
                continue
            for done in wait(running, SECONDS_BETWEEN_LOOKS if is_beside else None, FIRST_COMPLETED).done:
                crate, tried = running.pop(done)
                said, seconds = done.result()
                crate.rounds += 1
                crate.seconds += seconds
                queue.extendleft((crate, it) for it in reversed(after_round(crate, tried, said, seconds)))
                if not any(it is crate for it, _ in [*queue, *running.values()]):
                    tell(crate)


def has_libraries(crate, crates):
    """Returns whether `rt ci` has built the libraries below a crate."""
    return all(is_of_the_gate(it) and is_at_rest(it) for it in below(crate, crates))


def opening_of(begun, crates):
    """Returns the checks that crates begin with."""
    lacking, opening = build_libraries(begun, crates), []
    for crate in begun:
        if lacking:
            take_down_all(crate, f"its library {lacking} isn't proved")
            tell(crate)
        else:
            first, *later = rounds_of(with_twins(crate))
            crate.later = [edit for edits in later for edit in edits]
            answered = sum(has_answers(ROOT / "crates" / crate.name, crate, it.function) for it in first)
            opening.append((crate, Round(tuple(first), is_planted=crate.is_planted, is_searched=answered < MANY_ANSWERED)))
    return opening


def take_down_all(crate, why):
    """Takes down that no edit of a crate was tried."""
    for edit in crate.edits:
        crate.failed[edit.name] = f"not tried, since {why}"


def after_round(crate, tried, said, seconds):
    """Returns the rounds that follow on a round."""
    before, failed = crate.refused, len(crate.failed)
    again = settle(crate, tried, said)
    left = sum(len(it.edits) for it in again)
    edits, crate.later = crate.later, []
    if not tried.is_searched:
        edits, again = [edit for it in again for edit in it.edits] + edits, []
    later = [Round(tuple(it), is_planted=crate.is_planted) for it in rounds_of(edits)]
    for name in list(crate.failed)[failed:]:
        print(f"{crate.name}/{FOLDER}/{name}: {crate.failed[name]}")
    came_out = f"{crate.refused - before} refused, {len(crate.failed) - failed} not, {left} to try again"
    print(f"{crate.name}: {len(tried.edits)} edits in one check, {seconds:.0f} s: {came_out}", flush=True)
    return again + later


def tell(crate):
    """Says how a crate's edits came out."""
    for name, why in sorted(crate.failed.items()):
        print(f"{crate.name}/{name if name.startswith(FOLDER) else f'{FOLDER}/{name}'}: {why}")
    names = f" ({crate.only_as_names_went} only as names went away)" if crate.only_as_names_went else ""
    came_out = "refused" if crate.is_planted else "not refused, as nothing is planted"
    checks = f"{crate.rounds} checks in {crate.seconds:.0f} s"
    print(f"{crate.name}: {crate.refused} {came_out}{names}, {len(crate.failed)} not; {checks}", flush=True)


def clear(base):
    """Removes the copies, and what was kept."""
    for it in base.iterdir():
        if it.is_dir():
            shutil.rmtree(it)


def try_in(base, chosen, crates, proving):
    """Tries the crates' edits in copies below a folder that no other run uses."""
    with open(base / "lock", "w") as lock:
        fcntl.flock(lock, fcntl.LOCK_EX)
        clear(base)
        number = os.environ.get("RT_JOBS", "")
        jobs = int(number) if number.isdigit() and int(number) else len(os.sched_getaffinity(0))
        try_all(base, [it for it in chosen if it.edits], crates, jobs, proving)
        clear(base)


def try_somewhere(chosen, crates, proving):
    """The same, in .git where that is a folder, so that modules can be linked."""
    if (ROOT / ".git").is_dir():
        base = ROOT / ".git" / FOLDER
        base.mkdir(exist_ok=True)
        # `rt ci` takes each folder for a crate that lies as one, but for those below such a file.
        (base / "MODULE.bazel").touch()
        try_in(base, chosen, crates, proving)
    else:
        with tempfile.TemporaryDirectory(prefix=f"{FOLDER}-") as base:
            try_in(Path(base), chosen, crates, proving)


def main():
    reader = argparse.ArgumentParser(description="Tries the wrong bodies of the crates.")
    reader.add_argument("--only", default="", metavar="TEXT", help="the edits whose name has this")
    reader.add_argument("--while", type=Path, metavar="FILE", dest="proving", help="the file that is there as long as `rt ci` runs beside this")
    reader.add_argument("--unedited", action="store_true", help="plant nothing: then no function may be refused")
    reader.add_argument("names", nargs="*", metavar="CRATE")
    given = reader.parse_args()
    start, crates = time.time(), read_crates()
    names = given.names or sorted(it.parent.name for it in ROOT.glob(f"crates/*/{FOLDER}"))
    unknown = [it for it in names if it not in crates]
    for name in unknown:
        print(f"{name}: crates.txt names no such crate")
    chosen = [crates[it] for it in dict.fromkeys(names) if it in crates]
    for crate in chosen:
        crate.is_planted = not given.unedited
        read_edits(crate, given.only)
        if given.unedited:
            crate.edits = [replace(it, changes=()) for it in crate.edits]
        if not crate.edits:
            tell(crate)
    try_somewhere(chosen, crates, given.proving)
    passed = sum(it.refused for it in chosen)
    failed = len(unknown) + (not names) + sum(len(it.failed) for it in chosen)
    used = resource.getrusage(resource.RUSAGE_CHILDREN)
    processors = f"{used.ru_utime + used.ru_stime:.0f} s of processors"
    print(f"wrong bodies: {sum(it.rounds for it in chosen)} checks, {time.time() - start:.0f} s, {processors}")
    print(f"{passed} passed, {failed} failed")
    return 1 if failed or not passed else 0


if __name__ == "__main__":
    sys.exit(main())
