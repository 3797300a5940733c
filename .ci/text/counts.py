"""Numbers, lists and references that the pages state, counted anew."""

import re

from reading import Reading
from tree import SUPPLIED

# Entries of crates.txt that their crate's text never names. Some of them the compiler needs all the same, for types that come by way of another
# crate. A new one is a fault; when one has gone, this number goes down with it.
UNNAMED = 84
LONGEST_LINE = 160
BELOW = r"`(\w+)` and the (\d+) crates below it"


def lines_of(tree, page):
    return enumerate(tree.text(page).split("\n"), 1)


def paragraphs(tree, page):
    """(number of the first line, text) of what lies between empty lines; a row of a table is one by itself."""
    first, lines = None, []
    for number, line in lines_of(tree, page):
        if lines and (not line.strip() or line.startswith("|")):
            yield first, "\n".join(lines)
            lines = []
        if line.strip():
            first = first if lines else number
            lines.append(line)
    if lines:
        yield first, "\n".join(lines)


def section(text, title):
    """The text below a heading of the second level."""
    return text.split(f"\n## {title}\n", 1)[1].split("\n## ", 1)[0] if f"\n## {title}\n" in text else None


# ---- crates.txt


def named_by(tree, crate):
    """The crates and libraries that the text of a crate names: in paths of code (`area::put`) and of definitions (`Rattle.area.`)."""
    named = set()
    for path in tree.files:
        if tree.root / "crates" / crate in path.parents and path.suffix in (".rt", ".antt"):
            code = tree.code(path)
            named |= set(re.findall(r"\b([a-z_0-9]+)::", code)) | set(re.findall(r"\bRattle\.([a-z_0-9]+)", code))
    return named


def crate_faults(tree, unnamed=UNNAMED):
    """crates.txt names crates that are there, each once, and no more that are never named than before."""
    page, count = tree.root / "crates.txt", 0
    for crate, names in tree.crates.items():
        if not (tree.root / "crates" / crate).is_dir():
            yield page, 0, f"there is no crate {crate}"
            continue
        for name in sorted({name for name in names if names.count(name) > 1}):
            yield page, 0, f"{crate} has {name} twice"
        for name in names:
            if name not in tree.crates and name not in SUPPLIED:
                yield page, 0, f"{crate} names {name}, which is no crate"
        count += len(set(names) - named_by(tree, crate))
    for folder in sorted((tree.root / "crates").iterdir()):
        if folder.is_dir() and folder.name not in tree.crates:
            yield page, 0, f"crates/{folder.name} is not listed"
    if count > unnamed:
        yield page, 0, f"{count} entries are never named in their crate's text, {unnamed} were: take out those that are new"
    if count < unnamed:
        yield page, 0, f"{count} entries are never named in their crate's text, {unnamed} were: write {count} for UNNAMED in .ci/text/counts.py"


# ---- MAP


def seen(tree, cell):
    """The crates that a cell of the column "sees" means; "and below" adds what those before it see."""
    cell = re.sub(r"\(.*?\)", "", cell)
    above = cell.rpartition("and below")[0]
    crates = {name for name in re.findall(r"\w+", cell) if name in tree.crates}
    for name in re.findall(r"\w+", above):
        crates |= set(tree.crates.get(name, []))
    return crates - SUPPLIED


def layer_faults(tree):
    """MAP's table of layers has each crate, with what crates.txt says that it sees."""
    page = tree.root / "docs/MAP.md"
    rows = set()
    for number, line in lines_of(tree, page):
        cells = [cell.strip() for cell in line.strip("|").split("|")]
        names = re.findall(r"`(\w+)`", cells[0])
        if len(cells) != 3 or not line.startswith("| `") or line not in (section(tree.text(page), "Layers") or ""):
            continue
        rows |= set(names)
        for name in names:
            if name not in tree.crates:
                yield page, number, f"there is no crate {name}"
                continue
            right = set(tree.crates[name]) - SUPPLIED
            for crate in sorted(right ^ seen(tree, cells[2])):
                yield page, number, f"{name} {'sees' if crate in right else 'does not see'} {crate}"
    for name in tree.crates:
        if name not in rows:
            yield page, 0, f"no row of the layers has {name}"


def listed_names(text):
    """The files of a passage with the names after them: `file`: `name`, `name`; `file`: .."""
    for path, names in re.findall(r"`([\w/]+\.\w+)`:((?:\s*`\w+`,?)+)", text):
        yield path, re.findall(r"`(\w+)`", names)


def list_files(tree, text):
    """The files of definitions that the rows of the reading list name."""
    files, folder = set(), ""
    for line in text.split("\n"):
        for path in re.findall(r"`([\w/*]+\.antt)`", line) if line.startswith("|") else []:
            folder = path.rpartition("/")[0] or folder
            pattern = f"{folder}/{path.rpartition('/')[2]}"
            files |= {file for file in (tree.root / "crates").glob(pattern) if "*" not in pattern or file.name != "Lib.antt"}
    return files


def reading_faults(tree):
    """The reading list of MAP is what the promises of the entry points and the theorems reach, which the passage before it names."""
    page = tree.root / "docs/MAP.md"
    text = section(tree.text(page), "What to read")
    if text is None:
        yield page, 0, 'there is no section "What to read"'
        return
    reading = Reading(tree)
    for path, function in reading.exported:
        fault = reading.reach_promise(path, function)
        if fault:
            yield page, 0, fault
    for cited, names in listed_names(text):
        path = tree.root / "crates" / cited
        for name in names if path.exists() else []:
            if "/src/" in cited:
                fault = reading.reach_promise(path, name)
                if fault:
                    yield page, 0, fault
            else:
                reading.reach(path, name)
    listed = list_files(tree, text)
    for file in sorted(reading.files - listed):
        yield page, 0, f"the reading list lacks {file.relative_to(tree.root / 'crates')}, which a promise or a theorem reaches"
    for file in sorted(listed - reading.files):
        yield page, 0, f"the reading list has {file.relative_to(tree.root / 'crates')}, which nothing reaches"


# ---- numbers and references


def number_faults(tree):
    """How many crates and edits there are is counted; minutes are said with the commit at which they were measured."""
    right = {"crates": len(tree.crates), "edits": sum(path.suffix == ".edit" for path in tree.files)}
    for page in tree.pages:
        for number, text in paragraphs(tree, page):
            for crate, count in re.findall(BELOW, text):
                below = len(set(tree.crates.get(crate, [])) - SUPPLIED)
                if int(count) != below:
                    yield page, number, f"{crate} has {below} crates below it, not {count}"
            text = re.sub(BELOW, "", text)
            for count, what in re.findall(r"\b(\d+) (crates|edits)\b", text):
                if int(count) != right[what]:
                    yield page, number, f"there are {right[what]} {what}, not {count}"
            if re.search(r"\b\d+ (?:minutes|min)\b", text) and not re.search(r"\b[0-9a-f]{7}\b", text):
                yield page, number, "minutes are stated without the commit at which they were measured"


def decisions(tree):
    """The numbers of DECISIONS.md, those that have gone elsewhere too, in the order of its tables."""
    text = tree.text(tree.root / "docs/DECISIONS.md")
    here = [int(number) for number in re.findall(r"^\| (\d+) \|", section(text, "The decisions") or "", re.M)]
    moved = [int(number) for row in re.findall(r"^\| ([\d, ]+) \|", section(text, "Where the others are") or "", re.M) for number in row.split(",")]
    return here, moved


def reference_faults(tree):
    """Decisions and requests that are cited anywhere are there, and decisions are listed by rising number, each once."""
    page = tree.root / "docs/DECISIONS.md"
    here, moved = decisions(tree)
    if here != sorted(set(here)) or set(here) & set(moved):
        yield page, 0, "the decisions do not rise, or one is there twice"
    requests = set(re.findall(r"^\| (F-\d+) \|", section(tree.text(tree.root / "docs/PROTOCOL.md"), "10. Requests") or "", re.M))
    for path in tree.files:
        if path.suffix not in (".md", ".rt", ".antt", ".edit", ".rs", ".c", ".h") or ".ci" in path.parts:
            continue
        for number, line in lines_of(tree, path):
            for cited in re.findall(r"\b(?:DECISIONS|decisions?) (\d+(?:(?:, | and | to )\d+)*)", line):
                for one in re.findall(r"\d+", cited):
                    if int(one) not in here and int(one) not in moved:
                        yield path, number, f"there is no decision {one}"
            for cited in re.findall(r"\bF-[1-9]\d*\b", line):
                if cited not in requests:
                    yield path, number, f"PROTOCOL, section 10, has no {cited}"


def line_faults(tree):
    """Lines of pages, tables aside, are short, and links inside a page lead to a heading of it."""
    for page in tree.pages:
        text = tree.text(page)
        headings = {re.sub(r"[^\w\- ]", "", title.lower()).replace(" ", "-") for title in re.findall(r"^#+ (.*)$", text, re.M)}
        for number, line in lines_of(tree, page):
            if len(line) > LONGEST_LINE and not line.startswith("|"):
                yield page, number, f"a line of {len(line)} characters"
            for target in re.findall(r"\]\(#([^)]*)\)", line):
                if target not in headings:
                    yield page, number, f"no heading is called {target}"
