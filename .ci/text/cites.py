"""What the pages cite in backquotes: every path is there, and every name is one of the tree's."""

import re

ENDINGS = r"(?:antt|rt|rs|c|h|md|py|edit|hex|out|txt|toml|in|patch)"
PATH = re.compile(rf"^[\w.+*\-/]*(?:/|\.{ENDINGS}$)[\w.+*\-/]*$")
NAME = re.compile(r"^[A-Za-z_◌μ][\w\-'⊕⊗◌]*(?:::[A-Za-z_]\w*)*$")
SPAN = re.compile(r"`([^`]+)`")

# folders of what is made: nothing in them is held to be there
MADE = {"target", "out"}
# what a command line of a page leaves open: any folder or file is meant
OPEN = {"NAME", "LABEL", "FUNCTION", "PROGRAM", "FILE", "DIR", "COMMIT", "KIND", "SEED"}
# names that the tree does not have and a page may say: tools, words of the language and of its libraries, what is made while it is built
OUTSIDE = set(
    "rt gcc g++ cargo rustc nm valgrind callgrind python3 memcpy memmove memset let else match impl bool mut use requires ensures holes "
    "rlib".split()
)


def pieces(text):
    """The parts of a page that are read as one, outside its blocks of code: paragraphs, and the cells of tables: (number of the first line, part)."""
    fenced, first, lines = False, 0, []
    for number, line in enumerate(text.split("\n"), 1):
        fenced ^= line.startswith("```")
        apart = fenced or not line.strip() or line.startswith(("    ", "|", "```", "- "))
        if apart and lines:
            yield first, "\n".join(lines)
            lines = []
        if line.startswith("|"):
            yield from ((number, cell) for cell in line.split("|"))
        elif not apart or line.startswith("- "):
            first = first if lines else number
            lines.append(line)
    if lines:
        yield first, "\n".join(lines)


def spans(text):
    """The backquoted parts of a page: (line number, part, text since the part before it in the same paragraph or cell, None for the first)."""
    for first, piece in pieces(text):
        end = None
        for found in SPAN.finditer(piece):
            between = None if end is None else re.sub(r"\s+", " ", piece[end : found.start()])
            yield first + piece.count("\n", 0, found.start()), found.group(1), between
            end = found.end()


class Cited:
    """The citations of one page, looked up in the tree."""

    def __init__(self, tree, page):
        self.tree, self.page = tree, page
        self.folder = None  # of the last path with a slash
        self.files = []  # what the names after a colon are names of
        root = tree.root
        self.places = [root, root / "crates", page.parent, root / "docs", root / "compare"]

    def paths(self, cited):
        """The files and folders that a cited path may mean, none if there is none."""
        pattern = "/".join("*" if part.split(".")[0] in OPEN else part for part in cited.rstrip("/").split("/"))
        if "/" not in cited:
            near = [self.folder / cited] if self.folder and (self.folder / cited).exists() else []
            return near or self.tree.by_name.get(cited, [])
        for place in self.places + self.crate_folders(cited):
            found = sorted(place.glob(pattern)) if "*" in pattern else [place / pattern] if (place / pattern).exists() else []
            if found:
                return found
        return []

    def crate_folders(self, cited):
        """Where a path that begins inside a crate may begin: in the crate that was cited last, else in any."""
        crates = self.tree.root / "crates"
        if cited.split("/")[0] not in ("src", "specs", "proofs", "must-fail"):
            return []
        last = [folder for folder in [self.folder, *self.folder.parents] if folder.parent == crates] if self.folder else []
        return last + [crates / name for name in self.tree.crates]

    def path_fault(self, cited):
        if cited.startswith("../") or MADE & set(cited.split("/")[:-1]) or cited in (".ci/run", "/") or ".." in cited:
            return None
        found = self.paths(cited)
        if not found:
            self.files = []
            return f"there is no {cited}"
        if "/" in cited:
            self.folder = found[0] if found[0].is_dir() else found[0].parent
        self.files = found
        return None

    def name_fault(self, cited, listed):
        """listed: the name is said to be in the files cited before."""
        name = cited.split("::")[-1]
        if listed and self.files:
            if name not in self.tree.defined_in(self.files):
                where = " or ".join(str(file.relative_to(self.tree.root)) for file in self.files[:2])
                return f"{where} defines no {name}"
            return None
        first = cited.split("::")[0]
        if first != name and first in self.tree.crates and name not in self.tree.defined_in([self.tree.root / "crates" / first]):
            return f"the crate {first} defines no {name}"
        if name not in self.tree.words and name not in OUTSIDE and name not in OPEN:
            return f"nothing in the tree is called {name}"
        return None

    def faults(self):
        listing = False
        for number, part, between in spans(self.tree.text(self.page)):
            listing = self.files and (between == ": " or (listing and between in (", ", " and ")))
            if PATH.match(part):
                fault = self.path_fault(part)
                listing = False
            elif part in self.tree.crates and not listing:
                self.files, fault = [self.tree.root / "crates" / part], None
            elif NAME.match(part):
                fault = self.name_fault(part, listing)
            else:
                listing, fault = False, None
            if between is None and not PATH.match(part) and part not in self.tree.crates:
                self.files = []
            if fault:
                yield number, fault


def command_faults(tree, page):
    """Paths in the command lines of a page that begin with a folder of the root, or of the page's own, and are not there."""
    for number, line in enumerate(tree.text(page).split("\n"), 1):
        for word in re.findall(r"[\w.\-]+(?:/[\w.\-]+)+", line) if line.startswith("    ") else []:
            parts = word.split("/")
            known = [place for place in (tree.root, page.parent) if (place / parts[0]).is_dir()]
            if known and not (OPEN | MADE) & set(parts) and not any((place / word).exists() for place in known):
                yield number, f"there is no {word}"


def cite_faults(tree):
    """Faults of all pages: (page, line, what)."""
    for page in tree.pages:
        for number, fault in [*Cited(tree, page).faults(), *command_faults(tree, page)]:
            yield page, number, fault
