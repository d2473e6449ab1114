#!/usr/bin/env python3
"""Tries wrong definitions: each must fall to a row of a table of cases.

    tests/definitions/try.py [WORD..]

tries those of wrong.txt, or those whose first line has one of the words. It works in a copy of the repository from which
code and laws of the crates that are tried are taken out, so that a definition stands against its tables of cases alone, and
says for each wrong definition which table refuses it. Exit status 0: every one fell. It is no part of the gate.
"""
import pathlib
import re
import shutil
import subprocess
import sys
import tempfile

HERE = pathlib.Path(__file__).resolve().parent
ROOT = HERE.parent.parent
# The crates whose definitions are tried, and the proof files that are tables of cases or serve them.
TRIED = ("text", "model", "cells", "rules", "engine", "session")
KEPT = ("Bounds", "Cases", "Open", "Orders", "Scene", "Session", "TextBounds")
# An impl or a function, with its comments and attributes: what is proved of it rests on the definitions, and would refuse a wrong one by itself.
CODE = re.compile(r"^(?:(?://|#\[).*\n)*(?:pub )?(?:impl|fn)\b.*(?:\{\}\n|\n(?:.*\n)*?\}\n)", flags=re.M)


def blocks():
    """The wrong definitions: a name, the crate, the crate of the tables, the file, and what is put for what."""
    for text in (HERE / "wrong.txt").read_text(encoding="utf-8").split("\n\n"):
        lines = [line for line in text.splitlines() if line and not line.startswith("#")]
        if lines:
            fields = [line.split(": ", 1) for line in lines[1:]]
            one = dict(fields)
            put = [[value for name, value in fields if name == said] for said in ("old", "new")]
            yield lines[0], one["crate"], one.get("tables", one["crate"]), one["file"], list(zip(*put))


def stripped(crate):
    """A crate with its types, the numbers in them, its definitions and its tables of cases alone."""
    library = crate / "src" / "lib.rt"
    library.write_text(CODE.sub("", library.read_text(encoding="utf-8")), encoding="utf-8")
    for path in (crate / "src").glob("*.rt"):
        if path == library:
            continue
        numbers = re.findall(r"^pub const \w+: \w+ = \d+;\n", path.read_text(encoding="utf-8"), flags=re.M)
        if numbers:
            path.write_text("\n".join(numbers), encoding="utf-8")
        else:
            path.unlink()
            library.write_text(library.read_text(encoding="utf-8").replace(f"pub mod {path.stem};\n", ""), encoding="utf-8")
    for path in (crate / "proofs").iterdir():
        if path.is_dir():
            shutil.rmtree(path)
        elif path.stem not in KEPT:
            path.unlink()
    kept = sorted(path.stem for path in (crate / "proofs").glob("*.antt"))
    (crate / "proofs" / "Lib.antt").write_text("".join(f"pub mod {name}\n" for name in kept), encoding="utf-8")


def copied(to):
    """A copy of the repository's crates, those that are tried stripped of code and laws."""
    shutil.copytree(ROOT / "crates", to / "crates", ignore=shutil.ignore_patterns("out"))
    shutil.copy(ROOT / "crates.txt", to / "crates.txt")
    for name in TRIED:
        stripped(to / "crates" / name)


def checked(root, crate):
    """Whether a crate is proved, whether its definitions are taken, and what was refused."""
    run = subprocess.run(["rt", "check"], cwd=root / "crates" / crate, capture_output=True, text=True)
    said = re.findall(r"/(specs|proofs)/([\w/]+)\.antt:\d+:\d+: error: `?([\w'-]+)`?", run.stdout + run.stderr)
    fits = not any(folder == "specs" for folder, _, _ in said)
    return run.returncode == 0, fits, [f"{file}, {name}" for _, file, name in said]


def main(words):
    wrong = [block for block in blocks() if not words or any(word in block[0] for word in words)]
    standing = 0
    with tempfile.TemporaryDirectory() as folder:
        root = pathlib.Path(folder)
        copied(root)
        for crate in sorted({block[2] for block in wrong}):
            proved, _, said = checked(root, crate)
            if not proved:
                sys.exit(f"{crate} is not proved as it stands: {said}")
        for name, crate, tables, file, put in wrong:
            path = root / "crates" / crate / file
            before = after = path.read_text(encoding="utf-8")
            for old, new in put:
                if after.count(old) != 1:
                    sys.exit(f"{name}: {file} has `{old}` {after.count(old)} times")
                after = after.replace(old, new)
            path.write_text(after, encoding="utf-8")
            proved, fits, said = checked(root, tables)
            path.write_text(before, encoding="utf-8")
            # One that is refused by itself, in its own file, shows nothing.
            standing += proved or not fits
            print(f"{'STANDS' if proved else 'falls ' if fits else 'MISFIT'}  {name}  ({'; '.join(said[:3])})", flush=True)
    print(f"{len(wrong) - standing} of {len(wrong)} wrong definitions fell")
    return 1 if standing else 0


if __name__ == "__main__":
    sys.exit(main(sys.argv[1:]))
