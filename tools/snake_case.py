#!/usr/bin/env python3
"""Brings the names that this repository's own definitions and lemmas declare to snake case.

    tools/snake_case.py [ROOT] [--map FILE] [--write]

A name with a dash or a capital inside, declared in crates/*/specs or in a lemma file of crates/*/proofs, becomes words joined
by `_`. Names that begin with a capital, operators, and names of src/ stay as they are. Where two names fall together, the
definition keeps the plain one and the lemma takes `_lem`. Without --write it says what it would do; --map FILE writes the map
as JSON. It goes over the declarations and their uses in .antt and .rt files, must-fail edits, tests/definitions/wrong.txt, and
what stands in backticks in comments, README.md and docs/.
"""
import collections
import glob
import json
import re
import sys

TOKEN = re.compile(r"[^\s()\[\]{};,.λ]+")
DECLARED = re.compile(
    r"^\s{0,12}((?:abbrev |unfoldable |opaque )?(?:pub )?(?:abbrev |unfoldable |opaque )?)([^\s():;{}\[\],.λ=]+)((?: [^:=]*)?) : "
)
RULESET = re.compile(r"^\s*(?:pub )?ruleset ([^\s=]+)")
USE = re.compile(r"^\s*(?:ghost |pub )*use ([^\s{;]+?)(?:\.\{([^}]*)\})?(?: as (\S+?))?;?\s*$", re.M)
TICKED = re.compile(r"`([^`]+)`")
EDIT = re.compile(r"^(old|new): ")


def read(path):
    with open(path, encoding="utf-8") as file:
        return file.read()


def snake(name):
    """`callRows`, `call-rows` and `eqZ` as `call_rows` and `eq_z`."""
    name = name.replace("-", "_")
    name = re.sub(r"(?<=[a-z0-9])([A-Z])(?=[A-Z_]|$|['₀-₉0-9])", lambda m: "_" + m.group(1).lower(), name)
    return re.sub(r"(?<=[a-z0-9])([A-Z])", lambda m: "_" + m.group(1).lower(), name)


def declared(text):
    """The names that a file declares: signatures, several constructors on one line, and rulesets."""
    found = set()
    for line in text.split("\n"):
        if line.lstrip().startswith("--"):
            continue
        signature = DECLARED.match(line)
        if signature and signature.group(2) not in ("let", "use", "pub"):
            found.add(signature.group(2))
            more = signature.group(3).split()
            if all(re.fullmatch(r"[a-z][\w'-]*", word) for word in more):
                found.update(more)
        ruleset = RULESET.match(line)
        if ruleset:
            found.add(ruleset.group(1))
    return found


class Repository:
    """The files of a repository by kind, and where each of its names is declared."""

    def __init__(self, root):
        self.antt = sorted(
            glob.glob(root + "/crates/*/specs/**/*.antt", recursive=True)
            + glob.glob(root + "/crates/*/proofs/**/*.antt", recursive=True)
        )
        self.rt = sorted(glob.glob(root + "/crates/*/src/**/*.rt", recursive=True))
        self.edits = sorted(glob.glob(root + "/crates/*/must-fail/*.edit")) + glob.glob(root + "/tests/definitions/wrong.txt")
        self.pages = sorted(glob.glob(root + "/README.md") + glob.glob(root + "/docs/*.md") + glob.glob(root + "/models/**/*.md", recursive=True))
        self.crates = {path.split("/")[-2] for path in glob.glob(root + "/crates/*/src")}
        self.where = collections.defaultdict(set)
        for path in self.antt:
            if "/specs/" in path or re.search(r"/proofs/[^/]+$", path):
                for name in declared(read(path)):
                    self.where[name].add(path)

    def is_definition(self, name):
        return any("/specs/" in path for path in self.where[name])

    def is_own(self, path):
        parts = path.split(".")
        return parts[0] == "Rattle" and len(parts) > 1 and parts[1] in self.crates

    def from_the_kit(self):
        """The names that files import from elsewhere, and the files."""
        found = collections.defaultdict(set)
        for path in self.antt + self.rt:
            for use in USE.finditer(read(path)):
                if not self.is_own(use.group(1)):
                    for name in (use.group(2) or "").split(","):
                        found[name.strip().split(" as ")[-1]].add(path)
        return found


def renamed(repository):
    """The map from each name to its new one."""
    to = {}
    for name in repository.where:
        if "◌" not in name and re.match(r"[a-z]", name) and ("-" in name or re.search(r"[A-Z]", name)):
            to[name] = snake(name)
    together = collections.defaultdict(set)
    for name in repository.where:
        together[to.get(name, name)].add(name)
    for new, names in together.items():
        definitions = sorted(name for name in names if repository.is_definition(name))
        if len(definitions) > 1:
            print("two definitions fall together:", new, definitions)
        lemmas = sorted(names - set(definitions))
        for k, name in enumerate(lemmas):
            suffix = "_lem" * (k + bool(definitions))
            if suffix:
                to[name] = new + suffix
    return to


def spelled(word, to, repository):
    """A word of prose or of an edit: renamed here, or by what respelled the files before."""
    if word not in to and snake(word) != word and snake(word) in repository.where:
        return snake(word)
    return to.get(word, word)


def ticks(line, to, repository):
    return TICKED.sub(lambda m: "`" + TOKEN.sub(lambda k: spelled(k.group(), to, repository), m.group(1)) + "`", line)


def turned(path, line, to, repository):
    comment = line.lstrip().startswith(("--", "//"))
    if path in repository.pages or comment or (path in repository.edits and not EDIT.match(line)):
        return ticks(line, to, repository)
    if path in repository.edits:
        return TOKEN.sub(lambda k: spelled(k.group(), to, repository), line)
    use = USE.match(line)
    if use and not repository.is_own(use.group(1)):
        return line
    return TOKEN.sub(lambda k: to.get(k.group(), k.group()), line)


def main(words):
    root = next((word for word in words if not word.startswith("--") and not word.endswith(".json")), ".")
    repository = Repository(root)
    to = renamed(repository)
    kit = repository.from_the_kit()
    print(len(repository.where), "declared,", len(to), "renamed")
    print("took _lem:", {old: new for old, new in sorted(to.items()) if new.endswith("_lem")})
    print("meets a name of the kit:", {old: new for old, new in sorted(to.items()) if new in kit or old in kit})
    plain = {old: new for old, new in to.items() if "-" in old or re.search(r"[A-Z]", old)}
    if "--map" in words:
        with open(words[words.index("--map") + 1], "w", encoding="utf-8") as file:
            json.dump(to, file, ensure_ascii=False, indent=1, sort_keys=True)
    if "--write" not in words:
        return
    for path in repository.antt + repository.rt + repository.edits + repository.pages:
        # A name that is in snake case already may be a function's or a clause's in src/: there it stays.
        here = {old: new for old, new in (plain if path in repository.rt + repository.pages else to).items() if path not in kit.get(old, ())}
        text = read(path)
        new = "\n".join(turned(path, line, here, repository) for line in text.split("\n"))
        if new != text:
            with open(path, "w", encoding="utf-8") as file:
                file.write(new)


if __name__ == "__main__":
    main(sys.argv[1:])
