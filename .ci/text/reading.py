"""What a reader must believe: which files of definitions the promises of entry points and the theorems reach.

A name is reached if it is in the promise of an entry point or is a theorem, or is in the text of a definition that is reached. Where a name comes from is
said by the `use` lines of its file. Names of the prover's library and of the types that code declares lead to no file.
"""

import re
from functools import cached_property

from tree import ANTT_DEFINED, ANTT_MODIFIERS, ANTT_NAME, names_defined, without_comments

USE = re.compile(r"^\s*(?:ghost\s+)?use\s+Rattle\.(\w+)\.specs\.([\w.]+?)(?:\.\{([^}]*)\}|\s+as\s+(\w+))?;?$", re.M)
ITEM = re.compile(rf"^[ ]*{ANTT_MODIFIERS}(?:(record|data)[ ]+)?({ANTT_NAME})")
TOKEN = re.compile(r"[^\s(){},;]+")


def imports(text):
    """Names that the use lines of a file bring: name -> (crate, module, name there), and shortened modules: name -> (crate, module)."""
    names, modules = {}, {}
    for crate, module, listed, short in USE.findall(text):
        if "declared" in module:
            continue
        for item in listed.split(",") if listed else []:
            there, _, here = item.strip().partition(" as ")
            names[here.strip() or there] = (crate, module, there)
        if short:
            modules[short] = (crate, module)
    return names, modules


class Definitions:
    """One file of definitions: which text belongs to which of its names."""

    def __init__(self, text):
        text = without_comments(text, ".antt")
        self.names, self.modules = imports(text)
        self.texts = {}  # name -> text; a field or a case has the text of its record or data
        self.shared = ""  # what modules take, which is part of every definition
        item, depth, whole = None, 0, False
        for line in text.split("\n"):
            indent = len(line) - len(line.lstrip())
            if not line.strip() or re.match(r"\s*(?:ghost )?use ", line):
                continue
            if re.match(r"\s*(?:module|open)\b", line):
                self.shared += line + "\n"
                item = None
                continue
            inside = item is not None and indent > depth
            if not (inside and (whole or indent > depth + 2)) and any(pattern.match(line) for pattern in ANTT_DEFINED):
                found = ITEM.match(line)
                item, depth, whole = found.group(2), indent, found.group(1) is not None
            if item is not None:
                self.texts[item] = self.texts.get(item, "") + line + "\n"
        for name, body in list(self.texts.items()):
            for part in names_defined(body, ".antt"):
                self.texts.setdefault(part, body)

    def reached_by(self, text):
        """The names that a text of this file speaks of: (crate or None for this file, module, name)."""
        for token in TOKEN.findall(text):
            head, _, tail = token.partition(".")
            if token in self.names:
                yield self.names[token]
            elif head in self.modules and tail:
                yield (*self.modules[head], tail)
            elif token in self.texts:
                yield None, None, token


class Reading:
    """What is reached from the promises of entry points and from the theorems."""

    def __init__(self, tree):
        self.tree = tree
        self.read = {}
        self.reached = set()

    def file(self, crate, module):
        return self.tree.root / "crates" / crate / "specs" / (module.replace(".", "/") + ".antt")

    def definitions(self, path):
        if path not in self.read:
            self.read[path] = Definitions(self.tree.text(path)) if path.exists() else None
        return self.read[path]

    def reach(self, path, name):
        """Everything that a name of a file leads to."""
        waiting = [(path, name)]
        while waiting:
            path, name = waiting.pop()
            known = self.definitions(path)
            if known is None or (path, name) in self.reached or name not in known.texts:
                continue
            self.reached.add((path, name))
            for crate, module, there in known.reached_by(known.texts[name] + known.shared):
                waiting.append((path, there) if crate is None else (self.file(crate, module), there))

    def promise(self, path, function):
        """The contract of a function or method in a file of code: what is between its parameters and its body; None if there is no such function."""
        text = without_comments(self.tree.text(path), ".rt")
        found = re.search(rf"\bfn {function}\b.*?\n *\{{\n", text, re.S)
        return found and re.sub(r"^.*?(?=\n\s*(?:requires|ensures)|\n *\{)", "", found.group(0), count=1, flags=re.S)

    def reach_promise(self, path, function):
        """Reaches what a promise says; gives a fault if the function is no entry point."""
        contract = self.promise(path, function)
        where = path.relative_to(self.tree.root)
        if contract is None:
            return f"{where} has no function {function}"
        if "requires" in contract:
            return f"{function} of {where} is no entry point: it has a requires"
        names, modules = imports(without_comments(self.tree.text(path), ".rt"))
        for token in TOKEN.findall(contract):
            head, _, tail = token.partition(".")
            if token in names:
                crate, module, there = names[token]
                self.reach(self.file(crate, module), there)
            elif head in modules and tail:
                self.reach(self.file(*modules[head]), tail)
        return None

    @cached_property
    def exported(self):
        """The exported calls: (file, function)."""
        code = [path for path in self.tree.files if path.suffix == ".rt"]
        return [(path, name) for path in code for name in re.findall(r'extern "C" fn (\w+)', self.tree.code(path))]

    @property
    def files(self):
        return {path for path, _ in self.reached}
