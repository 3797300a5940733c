#!/usr/bin/env python3
"""Spells the repository's own definitions and lemmas as today's Rattle does: words in snake case, types in camel case.

usage: respell.py [--check]        at the top of the repository, once, after the kit's port.py and before any edit by hand

A name that specs/ or proofs/ declares and that has a capital after a small letter, or a dash, is spelled with underscores. A type in a name keeps its
capital and its dash, as in Bytes-append. A lemma that would have a definition's name ends in _lem. What a file imports from a library, what Rattle makes for a function's goals, functions of src/, strings and
file names stay. Pages are respelled between backquotes. Where two names of one file would fall together, it says so and writes nothing.
"""

import collections
import glob
import os
import re
import sys

NAME = re.compile(r'[^\s(){}.;,@"«»\[\]`|:=!?&]+(?:[|:=!?&]+[^\s(){}.;,@"«»\[\]`|:=!?&]+)*')
DECLARED = re.compile(r"(?m)^ *(?:\| )?((?:(?:unfoldable|abbrev|pub|pattern|data|record) )*)([^\s:{}().,]+)(?: \{[^{}\n]*\})*(?: \([^()\n]*\))* :(?= |$)")
SEVERAL = re.compile(r"(?m)^ +((?:[^\s:{}().,=λ→∷]+ )+[^\s:{}().,=λ→∷]+) :(?= |$)")
USE = re.compile(r"(?m)^ *(?:pub |ghost )*use ([^\s{;]+?)(?:\.?\{([^{}]*)\})?(?: as ([^\s;]+))?;?\s*$")
# A name whose plain spelling means something else already: what it is called instead.
OTHER = {
    "to_room": "to_room_lem",
    "turned_down": "turned_down_lem",
    "in-range": "in_range_lem",
    "in_order": "in_order_lem",
    "noRoom": "no_room_hand",
}


def read(path):
    with open(path, encoding="utf-8") as f:
        return f.read()


def antt_files():
    return sorted(glob.glob("crates/*/specs/**/*.antt", recursive=True) + glob.glob("crates/*/proofs/**/*.antt", recursive=True))


def is_of_function(path):
    """Whether the file is the proof of one function, whose names are mostly made by Rattle."""
    folder, name = os.path.split(path)
    return name in ("Proof.antt", "Answers.antt", "Invariants.antt") and os.path.basename(folder) not in ("proofs", "specs")


def snake(word):
    return re.sub(r"(?<=[a-z0-9₀-₉'])[A-Z]+", lambda m: "_" + m[0].lower(), word)


def respelled(name):
    if name in OTHER:
        return OTHER[name]
    parts = [it if it[:1].isupper() else snake(it) for it in name.split("-")]
    text = parts[0]
    for before, it in zip(parts, parts[1:]):
        text += ("-" if before[:1].isupper() or it[:1].isupper() else "_") + it
    return text


def own_names(texts):
    names, in_specs = set(), set()
    for path, text in texts.items():
        if is_of_function(path):
            continue
        for m in DECLARED.finditer(text):
            names.add(m[2])
            if "/specs/" in path:
                in_specs.add(m[2])
        # Several constructors or fields of one type, on one line.
        for m in SEVERAL.finditer(text):
            names |= set(m[1].split()) - {"pub"}
    changed = {n: respelled(n) for n in names if not n[:1] in "-_◌" and re.search(r"[a-z]", n)}
    turned_to = {s for n, s in changed.items() if "-" not in n and n != s}
    definitions = turned_to | {n for n in in_specs if "-" not in n}
    lemmas = {n: s + "_lem" for n, s in changed.items() if "-" in n and s in definitions}
    lemmas |= {n: s + "_lem" for n, s in changed.items() if n == s and n not in in_specs and s in turned_to}
    return {n: s for n, s in (changed | lemmas | {n: s for n, s in OTHER.items() if n in names}).items() if n != s}


def fields_of(texts):
    """The fields of records, by name: these are respelled behind a dot too."""
    fields = set()
    for path, text in texts.items():
        inside = None
        for line in text.split("\n"):
            indent = len(line) - len(line.lstrip())
            if inside is not None and line.strip() and indent <= inside:
                inside = None
            if re.match(r" *(?:pub )?(?:pattern )?record ", line) and re.search(r"\bwhere\s*$", line):
                inside = indent
            elif inside is not None:
                m = re.match(r" *(?:pub )?([^:=(){}]+?) :(?: |$)", line)
                if m:
                    fields |= set(m[1].split())
    return fields


def is_own(module, crates):
    steps = module.split(".")
    return steps[0] == "Rattle" and len(steps) > 1 and steps[1] in crates


def imports(text, crates):
    """What a file takes from libraries, by name, and the short names of modules of the repository."""
    lent, short = set(), set()
    for m in USE.finditer(text):
        own = is_own(m[1], crates)
        for it in re.findall(r"[^\s,]+(?: as [^\s,]+)?", m[2] or ""):
            if not own:
                lent.add(it.split()[-1])
        if m[3] and own and not re.search(r"\.(Goals|Given|Tie|Lts|Statement)$", m[1]):
            short.add(m[3])
        if not m[2] and not m[3] and own:
            short.add(m[1].split(".")[-1])
    return lent, short


def turned(text, path, names, crates, fields):
    lent, short = imports(text, crates)
    stays = set(lent)
    if is_of_function(path):
        stays |= {m[2] for m in DECLARED.finditer(text)}

    def word(m):
        it = m[0]
        if it not in names or it in stays:
            return it
        at = m.start()
        if "-" in it and at and text_of[at - 1] == ".":
            before = re.search(r"[^\s(){};,@\[\]]*$", text_of[:at])[0].rstrip(".")
            # A field of a record; but what Rattle makes for a function's goals stands behind c and its places.
            made = before == "c" or before.endswith(".before")
            if it in fields and not (made and is_of_function(path)):
                return names[it]
            if before.split(".")[-1] not in short and not is_own(before, crates):
                return it
        return names[it]

    out = []
    for line in text.split("\n"):
        at = line.find("--") if re.search(r"(^|\s)--(\s|$)", line) else -1
        if at >= 0:
            at = re.search(r"(^|\s)--(\s|$)", line).start()
        code, rest = (line, "") if at < 0 else (line[:at], line[at:])
        text_of = code
        code = NAME.sub(word, code)
        rest = re.sub(r"`[^`]*`", lambda q: NAME.sub(lambda m: names.get(m[0], m[0]), q[0]), rest)
        out.append(code + rest)
    return "\n".join(out)


RUST = re.compile(r"(?<![\w'-])[A-Za-z_][\w'-]*(?![\w'])")


def turned_source(text, names, crates):
    lent, _ = imports(text.replace(";", ";\n").replace(";\n\n", ";\n"), crates)
    parts = re.split(r'("(?:[^"\\\n]|\\.)*")', text)
    # A name with underscores is a function's here, and not a lemma's.
    word = lambda m: names[m[0]] if m[0] in names and m[0] not in lent and ("-" in m[0] or re.search("[A-Z]", m[0])) else m[0]
    return "".join(p if i % 2 else RUST.sub(word, p) for i, p in enumerate(parts))


def paths_apart(text):
    """The text without the parts of paths, which stand behind a dot or before one."""
    return re.sub(r"Rattle\.[^\s{};]*|(?m:^ *--.*$)|(?<![^\s(])[cw]\.[^\s(){},]*", "_", text)


def functions_apart(text, names):
    """The text without the names of functions that are called, declared or brought in, which may be those of their definitions."""
    text = re.sub(r"(?m)^ *(?:pub )?use [^;]*;", "", text)
    return re.sub(r"(?<![\w'-])(?:fn |pub fn )?[a-z]\w*(?=(?:<[^()\n]*>)?\()", "_", text)


def fallen_together(old, new, path, find):
    """Words of a file that were two and are one."""
    was, now = find.findall(old), find.findall(new)
    met = collections.defaultdict(set)
    if len(was) != len(now):
        return [f"{path}: {len(was)} words have become {len(now)}"]
    for a, b in zip(was, now):
        met[b].add(a)
    return [f"{path}: {' and '.join(sorted(v))} would both be {k}" for k, v in sorted(met.items()) if len(v) > 1]


def main(argv):
    if not os.path.isdir("crates") or argv not in ([], ["--check"]):
        print(__doc__, file=sys.stderr)
        return 2
    crates = set(os.listdir("crates"))
    texts = {p: read(p) for p in antt_files()}
    names = own_names(texts)
    fields = fields_of(texts)
    written, met = {}, []
    for p, t in texts.items():
        new = turned(t, p, names, crates, fields)
        met += fallen_together(paths_apart(t), paths_apart(new), p, NAME)
        written[p] = new
    for p in sorted(glob.glob("crates/*/src/**/*.rt", recursive=True)):
        t = read(p)
        texts[p], written[p] = t, turned_source(t, names, crates)
        met += fallen_together(functions_apart(t, names), functions_apart(written[p], {}), p, RUST)
    for p in ["README.md", "CONTRIBUTING.md", *sorted(glob.glob("docs/**/*.md", recursive=True)), *sorted(glob.glob("compare/*.md"))]:
        t = read(p)
        texts[p] = t
        written[p] = re.sub(r"`[^`\n]*`", lambda q: RUST.sub(lambda m: names.get(m[0], m[0]) if re.search("[A-Z-]", m[0]) else m[0], q[0]), t)
    spelled = collections.defaultdict(set)
    for a, b in names.items():
        spelled[b].add(a)
    for b, a in sorted(spelled.items()):
        if len(a) > 1:
            print(f"look: {' and '.join(sorted(a))} are both {b} now")
    if met:
        print("\n".join(met))
        print(f"respell: {len(met)} places where names fall together; nothing is written")
        return 1
    n = 0
    for p, t in written.items():
        if t != texts[p]:
            n += 1
            if "--check" not in argv:
                with open(p, "w", encoding="utf-8") as f:
                    f.write(t)
    print(f"respell: {len(names)} names, {n} files")
    return 0


if __name__ == "__main__":
    raise SystemExit(main(sys.argv[1:]))
