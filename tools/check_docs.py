#!/usr/bin/env python3
"""Checks what the documents say of the repository, that no two crates define one name, and that each crate is in
proportion.

A document is README.md, CONTRIBUTING.md, CHANGELOG.md, docs/*.md or crates/*/README.md. Each fault is
printed as `FILE: what`, and the status is then 1. Checked are:

- each path that a document names between backticks, in a `sh` block or as a link exists, and so does the
  heading that a link names. Braces as in `{a,b}.rt` are expanded, and a part in capital letters such as
  NAME is any file or folder;
- docs/ARCHITECTURE.md has each definitions file, crates/*/specs/*.antt, in a table;
- its table of crates agrees with crates.txt on the crates and on what each of them stands on;
- no name is defined in the specs/ of two crates;
- README.md has at most 1,000 words, and each crate has a README.md of 15 to 40 lines;
- no crate has more than 2,000 lines of code or 8,000 of specs and proofs, but for those of LARGER, which may
  not grow;
- each crate names every crate of ours that crates.txt says it stands on.

`--self-test` makes a small repository with a fault of each kind, and checks that each is found.
"""

import argparse
import itertools
import re
import sys
import tempfile
from pathlib import Path

ROOT = Path(__file__).resolve().parent.parent
MAX_WORDS = 1000
MIN_LINES, MAX_LINES = 15, 40
MAX_CODE, MAX_PROOFS = 2000, 8000
# Crates that have more lines of code, or of specs and proofs, than a crate should, each with what it may have.
LARGER = {"mx_space": (5000, MAX_PROOFS)}
# Names that two crates may define, since public signatures fix them.
ALLOWED = set()

# A definition's name at the left edge, and one of a `mutual` block, two blanks further in.
DEFINITION = re.compile(r"(?:abbrev |unfoldable )?pub (?:record |data )?([^\s({:]+)")
NO_DEFINITION = ("use", "mod")
CODE = re.compile(r"`([^`\n]+)`")
SHELL = re.compile(r"^```sh\n(.*?)^```$", re.M | re.S)
FENCE = re.compile(r"^```.*?^```$", re.M | re.S)
LINK = re.compile(r"\[[^\]\n]*\]\(([^)\s]+)\)")
PATH = re.compile(r"(?:\./)?[\w.][\w.*-]*(?:/[\w.*-]+)*/?")
# The endings of files in the repository: a name with one of these is a path without a slash too.
ENDINGS = (".antt", ".edit", ".md", ".py", ".rs", ".rt", ".txt")
# The folders of a crate. A path that begins with one of them holds for some crate.
PARTS = ("src", "specs", "proofs", "must-fail")
PLACEHOLDER = re.compile(r"[A-Z]+")
# The crates that a file names, in Rust's paths or in those of definitions, and comments, which name none.
NAMED = re.compile(r"\bRattle\.(\w+)\.|(?<![\w:])(\w+)::")
COMMENT = re.compile(r"^\s*(?://|--).*$", re.M)


def expand(text):
    """The texts that a text with braces is short for."""
    pieces = re.split(r"\{([^{}]*)\}", text)
    choices = [piece.split(",") if at % 2 else [piece] for at, piece in enumerate(pieces)]
    return ["".join(chosen) for chosen in itertools.product(*choices)]


def documents(root):
    """The documents, those that have to be there first."""
    fixed = [root / name for name in ("README.md", "CONTRIBUTING.md", "CHANGELOG.md")]
    return fixed + sorted(root.glob("docs/*.md")) + sorted(root.glob("crates/*/README.md"))


def headings(text):
    """The headings of a document, as links name them."""
    lines = (line.lstrip("#").strip().lower() for line in text.splitlines() if line.startswith("#"))
    return {re.sub(r"[^\w -]", "", line).replace(" ", "-") for line in lines}


def crates(root):
    """The crates of crates.txt, each with the crates that it stands on."""
    lines = (root / "crates.txt").read_text().splitlines()
    named = [line.split("#")[0].partition(":") for line in lines if line.split("#")[0].strip()]
    libraries = {name.split()[0]: set(rest.split()) for name, _, rest in named}
    return {name: stands_on & libraries.keys() for name, stands_on in libraries.items()}


class Checker:
    """The faults of one repository."""

    def __init__(self, root, allowed=ALLOWED, larger=LARGER):
        self.root, self.allowed, self.larger = root, allowed, larger
        self.faults = []
        self.paths = 0
        self.definitions = 0
        tracked = (path for path in root.rglob("*") if not {".git", "out"} & set(path.parts))
        self.names = {path.name for path in tracked}

    def fault(self, path, what):
        self.faults.append(f"{path.relative_to(self.root)}: {what}")

    def is_there(self, document, path):
        """Whether a path that a document names exists, seen from where paths of documents begin."""
        path = path.removeprefix("./").rstrip("/")
        if "/" not in path and path.endswith(ENDINGS) and path in self.names:
            return True
        parts = ["*" if PLACEHOLDER.fullmatch(part) else part for part in path.split("/")]
        places = [self.root, document.parent, self.root / "crates"]
        if parts[0] in PARTS and document.parent in (self.root, self.root / "docs"):
            places += sorted((self.root / "crates").glob("*/"))
        pattern = "/".join(parts)
        return any(next(place.glob(pattern), None) is not None for place in places)

    def check_paths(self, document, text):
        """Checks the paths between backticks, in shell blocks, and behind links."""
        prose = FENCE.sub("", text)
        words = [word for span in CODE.findall(prose) for word in span.split()]
        words += [word for block in SHELL.findall(text) for word in block.split()]
        for path in itertools.chain.from_iterable(map(expand, words)):
            is_named = "/" in path or (path.endswith(ENDINGS) and path not in ENDINGS)
            # What a build leaves in out/ need not be there.
            if not is_named or not PATH.fullmatch(path) or "out" in path.split("/"):
                continue
            self.paths += 1
            if not self.is_there(document, path):
                self.fault(document, f"no file or folder {path}")
        for link in LINK.findall(prose):
            if "://" in link:
                continue
            self.paths += 1
            target, _, heading = link.partition("#")
            path = document.parent / target if target else document
            if not path.exists():
                self.fault(document, f"no file or folder {link}")
            elif heading and heading not in headings(path.read_text()):
                self.fault(document, f"no heading {link}")

    def check_architecture(self):
        """Checks the table of crates, and that the definitions files stand in tables."""
        document = self.root / "docs" / "ARCHITECTURE.md"
        text = document.read_text()
        rows = [[cell.strip() for cell in line.strip("|").split("|")] for line in text.splitlines() if line.startswith("|")]
        spans = (span for row in rows for cell in row for span in CODE.findall(cell))
        listed = {path for span in spans for path in expand(span)}
        for path in sorted(self.root.glob("crates/*/specs/*.antt")):
            name = str(path.relative_to(self.root / "crates"))
            if path.name != "Lib.antt" and name not in listed:
                self.fault(document, f"no table has {name}")
        built = crates(self.root)
        table = {}
        for row in itertools.dropwhile(lambda row: row[:2] != ["crate", "stands on"], rows):
            name = CODE.findall(row[0])
            if len(name) == 1 and name[0] in built and name[0] not in table:
                table[name[0]] = set(CODE.findall(row[1]))
        for name in sorted(built):
            if name not in table:
                self.fault(document, f"the table of crates lacks {name}")
            elif table[name] != built[name]:
                differ = ", ".join(sorted(table[name] ^ built[name]))
                self.fault(document, f"{name} stands on other crates in crates.txt: {differ}")
        for folder in sorted((self.root / "crates").glob("*/")):
            if folder.name not in built:
                self.fault(self.root / "crates.txt", f"no line for {folder.name}")

    def check_definitions(self):
        """Checks that no name is defined in two crates."""
        found = {}
        for path in sorted(self.root.glob("crates/*/specs/*.antt")):
            is_mutual = False
            for line in path.read_text().splitlines():
                if line[:1].strip():
                    is_mutual = line.removeprefix("abbrev ").startswith("mutual")
                definition = DEFINITION.match(line[2:] if is_mutual else line)
                # An operator may be declared anew where it is used.
                if definition is None or "◌" in definition[1] or definition[1] in NO_DEFINITION:
                    continue
                self.definitions += 1
                found.setdefault(definition[1], {}).setdefault(path.parent.parent.name, path)
        for name, places in sorted(found.items()):
            if len(places) > 1 and name not in self.allowed:
                first, *others = sorted(places)
                self.fault(places[first], f"{name} is defined in {' and '.join(others)} too")

    def check_sizes(self):
        """Checks the README files."""
        readme = self.root / "README.md"
        count = len(readme.read_text().split()) if readme.exists() else 0
        if count > MAX_WORDS:
            self.fault(readme, f"{count:,} words, at most {MAX_WORDS:,}")
        for name in sorted(crates(self.root)):
            readme = self.root / "crates" / name / "README.md"
            count = len(readme.read_text().splitlines()) if readme.exists() else 0
            if not MIN_LINES <= count <= MAX_LINES:
                self.fault(readme, f"{count} lines, {MIN_LINES} to {MAX_LINES} expected")

    def check_proportion(self):
        """Checks that no crate has too many lines."""
        for name in sorted(crates(self.root)):
            folder = self.root / "crates" / name
            most = self.larger.get(name, (MAX_CODE, MAX_PROOFS))
            parts = (("src",), "*.rt", "of code"), (("specs", "proofs"), "*.antt", "of specs and proofs")
            for (places, ending, what), limit in zip(parts, most, strict=True):
                paths = (path for place in places for path in folder.glob(f"{place}/**/{ending}"))
                count = sum(len(path.read_text().splitlines()) for path in paths)
                if count > limit:
                    self.fault(folder, f"{count:,} lines {what}, at most {limit:,}")

    def check_dependencies(self):
        """Checks that each crate names those that it stands on."""
        for name, stands_on in sorted(crates(self.root).items()):
            folder = self.root / "crates" / name
            paths = itertools.chain(*(folder.glob(f"{part}/**/*.{end}") for part, end in (("src", "rt"), ("specs", "antt"), ("proofs", "antt"))))
            named = set().union(*(NAMED.findall(COMMENT.sub("", path.read_text())) for path in paths))
            for crate in sorted(stands_on - {part for parts in named for part in parts}):
                self.fault(self.root / "crates.txt", f"nothing in {name} names {crate}")

    def check(self):
        """All faults."""
        for document in documents(self.root):
            if document.exists():
                self.check_paths(document, document.read_text())
            else:
                self.fault(document, "the document is missing")
        self.check_architecture()
        self.check_definitions()
        self.check_sizes()
        self.check_proportion()
        self.check_dependencies()
        return self.faults


SOUND = {
    "README.md": "Start with `a/src/{x,y}.rt`, `crates/NAME/README.md` and [this](docs/ARCHITECTURE.md#the-crates).\n",
    "CONTRIBUTING.md": "`specs/Lib.antt` and `x.rt`\n```sh\n./README.md --help\n```\n",
    "CHANGELOG.md": "",
    "crates.txt": "# crates\na: kit\nb: a kit\n",
    "docs/ARCHITECTURE.md": "## The crates\n| crate | stands on |\n|---|---|\n| `a` | |\n| `b` | `a` |\n\n| `a/specs/{X,Y}.antt` |\n",
    "crates/a/README.md": "line\n" * 15,
    "crates/b/README.md": "line\n" * 40,
    "crates/a/src/x.rt": "line\n" * 2000,
    "crates/a/src/y.rt": "",
    "crates/b/src/lib.rt": "// c::X\nuse a::X;\n",
    "crates/b/proofs/f/Answers.antt": "line\n" * 3,
    "crates/a/specs/Lib.antt": "pub mod X\npub use Y\n",
    "crates/b/specs/Lib.antt": "pub mod X\npub use Y\nabbrev pub State : ℕ\n",
    "crates/a/specs/X.antt": "mutual\n  pub data one : Type 0 where\n    Two : one\nabbrev pub ◌+◌ : ℕ\npub record Three : Type 0 where\n  pub two : ℕ\n",
    "crates/a/specs/Y.antt": "abbrev pub two : ℕ\nabbrev pub State : ℕ\nabbrev pub two' : ℕ\n",
}
# A file, a text in it and what it becomes, and a part of the fault that this makes.
UNSOUND = (
    ("README.md", "{x,y}", "{x,z}", "README.md: no file or folder a/src/z.rt"),
    ("README.md", "(docs/", "(doc/", "README.md: no file or folder doc/ARCHITECTURE.md"),
    ("README.md", "#the-crates", "#the-trees", "README.md: no heading docs/ARCHITECTURE.md#the-trees"),
    ("README.md", "Start", "word " * 1000, "README.md: 1,005 words"),
    ("CONTRIBUTING.md", "x.rt", "z.rt", "CONTRIBUTING.md: no file or folder z.rt"),
    ("CONTRIBUTING.md", "./README.md", "./README.txt", "CONTRIBUTING.md: no file or folder ./README.txt"),
    ("CONTRIBUTING.md", "specs/Lib", "specs/Lob", "CONTRIBUTING.md: no file or folder specs/Lob.antt"),
    ("docs/ARCHITECTURE.md", "{X,Y}", "X", "docs/ARCHITECTURE.md: no table has a/specs/Y.antt"),
    ("docs/ARCHITECTURE.md", "| `a` | |\n", "", "the table of crates lacks a"),
    ("crates.txt", "b: a kit", "b: kit", "b stands on other crates in crates.txt: a"),
    ("crates.txt", "b: a kit\n", "", "crates.txt: no line for b"),
    ("crates/a/README.md", "line\n" * 15, "line\n" * 14, "crates/a/README.md: 14 lines"),
    ("crates/b/README.md", "line\n" * 40, "line\n" * 41, "crates/b/README.md: 41 lines"),
    ("crates/b/specs/Lib.antt", "pub use Y", "abbrev pub two : ℕ", "crates/a/specs/Y.antt: two is defined in b too"),
    ("crates/b/specs/Lib.antt", "pub mod X", "abbrev pub three : ℕ\npub record Three : Type 0 where", "Three is defined in b too"),
    ("crates/b/specs/Lib.antt", "pub use Y", "pub data one : Type 0 where", "crates/a/specs/X.antt: one is defined in b too"),
    ("crates/a/src/y.rt", "", "line\n", "crates/a: 2,001 lines of code, at most 2,000"),
    ("crates/b/proofs/f/Answers.antt", "line\n", "line\n" * 3, "crates/b: 12 lines of specs and proofs, at most 10"),
    ("crates/b/src/lib.rt", "use a::X", "use c::X", "crates.txt: nothing in b names a"),
)


def faults_in(files):
    """The faults of a repository of these files."""
    with tempfile.TemporaryDirectory() as folder:
        root = Path(folder)
        for name, text in files.items():
            (root / name).parent.mkdir(parents=True, exist_ok=True)
            (root / name).write_text(text)
        return Checker(root, allowed={"State"}, larger={"b": (MAX_CODE, 10)}).check()


def self_test():
    """Checks that a sound repository has no fault, and that each fault is found alone."""
    faults = faults_in(SOUND)
    assert not faults, faults
    for name, old, new, expected in UNSOUND:
        assert old in SOUND[name], (name, old)
        faults = faults_in({**SOUND, name: SOUND[name].replace(old, new)})
        assert len(faults) == 1 and expected in faults[0], (expected, faults)
    print(f"self-test: {len(UNSOUND)} faults found")


def main():
    parser = argparse.ArgumentParser(description=__doc__.splitlines()[0])
    parser.add_argument("--self-test", action="store_true", help="check this script itself")
    if parser.parse_args().self_test:
        self_test()
        return 0
    checker = Checker(ROOT)
    faults = checker.check()
    print(
        "\n".join(faults)
        or f"documents: {len(documents(ROOT))} documents, {checker.paths} paths,"
        f" {checker.definitions} definitions of {len(crates(ROOT))} crates"
    )
    return 1 if faults else 0


if __name__ == "__main__":
    sys.exit(main())
