"""The wrong bodies of the repository, and what they came to: shared by mutants/run and mutants/list."""

import functools
import hashlib
import pathlib
import re
import sys

TOP = pathlib.Path(__file__).resolve().parent.parent
TRIED = TOP / "mutants/tried.txt"


@functools.cache
def crates():
    """The crates of crates.txt, lowest first, each with those that it stands on."""
    found = {}
    for line in (TOP / "crates.txt").read_text(encoding="utf-8").splitlines():
        kind, _, below = line.partition(":")
        if kind and not line.startswith("#"):
            found[kind.split()[0]] = below.split()
    return found


def edits_of(crate):
    found = [*(TOP / "mutants" / crate).glob("*.edit"), *(TOP / "crates" / crate / "must-fail").glob("*.edit")]
    return sorted(found, key=lambda it: it.stem)


def promise_of(edit):
    told = re.search(r"^# promise: (.*)$", edit.read_text(encoding="utf-8"), re.M)
    return told[1] if told else sys.exit(f"{edit.relative_to(TOP)} has no line '# promise: TEXT'")


def name_of(crate, edit):
    return f"{crate}/{edit.stem}"


@functools.cache
def sum_of_crate(crate):
    """The sum of the sources of a crate and of all of ours below it."""
    found = hashlib.sha256((TOP / "HANDLES").read_bytes() + " ".join(crates()[crate]).encode())
    for below in crates()[crate]:
        if below in crates():
            found.update(f"{below} {sum_of_crate(below)}\n".encode())
    for part in ("src", "specs", "proofs"):
        for file in sorted((TOP / "crates" / crate / part).rglob("*")):
            if file.is_file():
                found.update(f"{file.relative_to(TOP)} {hashlib.sha256(file.read_bytes()).hexdigest()}\n".encode())
    return found.hexdigest()


def sum_of(crate, edit):
    """What a trial rests on: the edit, and the sources that it is an edit of."""
    return hashlib.sha256(sum_of_crate(crate).encode() + edit.read_bytes()).hexdigest()[:20]


def tried():
    """The toolchain of the trials, and for each wrong body the sum that it was tried with, and by what it was refused."""
    if not TRIED.exists():
        return "", {}
    toolchain, *lines = TRIED.read_text(encoding="utf-8").splitlines()
    return toolchain.removeprefix("toolchain: "), {it.split(" ", 2)[0]: tuple(it.split(" ", 2)[1:]) for it in lines}


def refused_by():
    """By what each wrong body is refused, of those that were tried with the sources as they are."""
    _, known = tried()
    found = {}
    for crate in crates():
        for edit in edits_of(crate):
            total, by = known.get(name_of(crate, edit), ("", ""))
            if total == sum_of(crate, edit):
                found[name_of(crate, edit)] = by
    return found


def keep(toolchain, refused):
    """Writes down what is refused, by the names of those that are there, with their sums."""
    lines = [f"toolchain: {toolchain}"]
    for crate in crates():
        for edit in edits_of(crate):
            name = name_of(crate, edit)
            if name in refused:
                lines.append(f"{name} {sum_of(crate, edit)} {refused[name]}")
    TRIED.write_text("\n".join(lines) + "\n", encoding="utf-8")
