"""The tree that the pages speak of: its files, its crates, and which names its files define."""

import re
from functools import cached_property
from pathlib import Path

# what every state of the tree has besides its crates: libraries that come with the language
SUPPLIED = {"arrayvec", "io", "libc", "os"}

LINE_COMMENT = {".rt": "//", ".rs": "//", ".antt": "--", ".py": "#", "": "#"}
WORD = re.compile(r"[A-Za-z_◌μ][\w\-⊕⊗◌]*")
PRIMED = re.compile(r"[A-Za-z_◌μ][\w\-⊕⊗◌]*'+")  # of definitions and proofs alone: elsewhere a ' is a quotation mark

ANTT_MODIFIERS = r"(?:(?:abbrev|unfoldable|pub|private|opaque)[ ]+)*"
ANTT_NAME = r"[^\s(){}:,;.=]+"
# a record or a data type, or names that a type follows: `pub a b (x : A) : B`
ANTT_DEFINED = [
    re.compile(rf"^[ ]*{ANTT_MODIFIERS}(?:record|data)[ ]+({ANTT_NAME})", re.M),
    re.compile(rf"^[ ]*{ANTT_MODIFIERS}((?:{ANTT_NAME}[ ]+)*{ANTT_NAME})(?:[ ]+(?:\{{[^}}\n]*\}}|\([^)\n]*\)))*[ ]+:(?:\s|$)", re.M),
]
CODE_DEFINED = [
    re.compile(r"\b(?:fn|struct|enum|const|mod|trait|type|static)\s+(\w+)"),
    re.compile(r"^\s+(?:pub\s+)?(\w+):\s", re.M),
    re.compile(r"^\s+([A-Z]\w*)(?:\(.*\))?,?$", re.M),
]


def without_comments(text, suffix):
    """The text with its comments taken out, line by line; strings are not looked at."""
    if suffix in (".c", ".h"):
        return re.sub(r"/\*.*?\*/", " ", text, flags=re.S)
    mark = LINE_COMMENT.get(suffix)
    if mark is None:
        return text
    return "\n".join(line.split(mark, 1)[0] if suffix != ".antt" else re.sub(r"(^|\s)--(\s.*|$)", "", line) for line in text.split("\n"))


def names_defined(text, suffix):
    """The names that a source text defines, fields and cases included."""
    if suffix == ".antt":
        return {name for pattern in ANTT_DEFINED for found in pattern.findall(text) for name in found.split()}
    if suffix in (".rt", ".rs"):
        return {name for pattern in CODE_DEFINED for name in pattern.findall(text)}
    return set(WORD.findall(text))


class Tree:
    """The files below a root, without what git ignores and without history."""

    SKIPPED = {".git", "target", "out", "__pycache__"}

    def __init__(self, root):
        self.root = Path(root)

    @cached_property
    def files(self):
        found, folders = [], [self.root]
        while folders:
            for path in sorted(folders.pop().iterdir()):
                if path.name in self.SKIPPED:
                    continue
                if path.is_dir():
                    folders.append(path)
                else:
                    found.append(path)
        return found

    @cached_property
    def by_name(self):
        """Files by their last name."""
        table = {}
        for path in self.files:
            table.setdefault(path.name, []).append(path)
        return table

    @cached_property
    def stems(self):
        """Names of files without their ending, and of folders."""
        return {path.name.split(".")[0] for path in self.files} | {part for path in self.files for part in path.relative_to(self.root).parts[:-1]}

    @cached_property
    def crates(self):
        """crates.txt: each crate with the crates and libraries that it names, in order; what kind of crate it is, which may follow its name, aside."""
        table = {}
        for line in (self.root / "crates.txt").read_text().splitlines():
            if line.strip() and not line.startswith("#"):
                name, names = line.split(":", 1)
                table[name.split()[0]] = names.split()
        return table

    @cached_property
    def pages(self):
        """The pages of today. The notes of docs/landings speak each of its own commit, and docs/PORT.md of names that are gone: they are none."""
        pages = [self.root / "README.md", self.root / "CONTRIBUTING.md", self.root / "compare/README.md"]
        return [page for page in pages if page.exists()] + sorted(page for page in (self.root / "docs").glob("*.md") if page.name not in ("PORT.md", "DESIGN-PASS.md"))

    def text(self, path):
        return path.read_text(encoding="utf-8")

    def code(self, path):
        """A file's text without its comments."""
        return without_comments(self.text(path), path.suffix)

    def defined_in(self, paths):
        """The names that these files, or the files of these folders, define, with the names of the files."""
        names = set()
        for path in paths:
            inside = [file for file in self.files if path in file.parents] if path.is_dir() else [path]
            for file in inside:
                names.add(file.name.split(".")[0])
                if file.suffix in (".antt", ".rt", ".rs", ".c", ".h", ".py", ""):
                    names |= names_defined(self.code(file), file.suffix)
        return names

    @cached_property
    def words(self):
        """Every word of code in the tree, comments aside, and every name of a file or folder."""
        words = set(self.stems) | set(self.crates) | SUPPLIED
        for path in self.files:
            if path.suffix in (".antt", ".rt", ".rs", ".c", ".h", ".py", ".edit", ".toml", "") and ".ci" not in path.parts:
                words |= set(WORD.findall(self.code(path)))
            if path.suffix == ".antt":
                words |= set(PRIMED.findall(self.code(path)))
        return words
