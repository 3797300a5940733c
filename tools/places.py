#!/usr/bin/env python3
"""Places in src/ that read like an older Rattle, by the points of docs/DESIGN-PASS.md: tools/places.py [--list POINT] [ROOT].

It goes by text and knows no types: a row is a place to look at. With --list it prints each place of a point.
"""
import argparse
import collections
import pathlib
import re

FUNCTION = re.compile(r"^( *)(?:pub(?:\(crate\))? )?fn (\w+)(?:<[^(]*>)?\(", re.M)
ENUM = re.compile(r"^(?:pub )?enum (\w+)[^{]*\{\n(.*?)^\}", re.M | re.S)
STRUCT = re.compile(r"^(?:pub )?struct (\w+)[^{;]*\{\n(.*?)^\}", re.M | re.S)
REFUSING = {"Refused", "Bad", "Nothing", "Nowhere", "Closed"}
LENGTH = re.compile(r"\b(count|used|length|size|end|place|numbers|blocks): (u8|usize)\b")
COMPARING = re.compile(r"^(equal|same|is_same|is_older|smaller|larger|less|before|earlier|later|later_than)$")
CONVERTING = re.compile(r"(^|_)(number_of|fault_number|number|kind|answer|number_in|party_in|party_bytes|bytes)$")
FACT = re.compile(r"\b([A-Z][A-Za-z]+(?: (?:[a-z]\w*\.)*[a-z]\w*)+)")
PARAMETER = re.compile(r"\b(\w+): ([^,)]+)")


def sources(root):
    for path in sorted(pathlib.Path(root, "crates").glob("*/src/**/*.rt")):
        yield str(path.relative_to(root)), path.read_text()


def line(text, at):
    return text.count("\n", 0, at) + 1


def functions(text):
    """Name, place, head and body of each function."""
    for found in FUNCTION.finditer(text):
        end = re.compile(r"^%s\}" % found.group(1), re.M).search(text, found.end())
        body = re.compile(r"^%s\{\n|\{\n" % found.group(1), re.M).search(text, found.end())
        if end and body and body.start() < end.start():
            yield found.group(2), found.start(), text[found.start():body.start()], text[body.end():end.start()]


def shaped(name, variants):
    names = re.findall(r"^    (\w+)", variants, re.M)
    return bool(REFUSING & set(names)) and len(names) < 9


def own_results(files):
    for path, text in files:
        for found in ENUM.finditer(text):
            if shaped(found.group(1), found.group(2)):
                yield path, line(text, found.start()), "enum " + found.group(1)


def flags(files):
    for path, text in files:
        for found in STRUCT.finditer(text):
            for flag in re.finditer(r"^    (?:pub )?(\w+): bool,", found.group(2), re.M):
                yield path, line(text, found.start(2) + flag.start()), f"flag {found.group(1)}.{flag.group(1)}"


def numbered(files):
    for path, text in files:
        for name, at, _, body in functions(text):
            arms = re.findall(r"=> \d+,$|=> \d+\n", body, re.M)
            if len(arms) > 1:
                yield path, line(text, at), f"numbers in fn {name}"


def shape(text):
    text = re.sub(r"//[^\n]*", "", text)
    text = re.sub(r"\b\d+\w*\b", "0", text)
    return re.sub(r"\s+", " ", re.sub(r"\b[A-Za-z_]\w*\b", lambda w: w.group() if w.group() in KEPT else "x", text))


KEPT = {"if", "else", "let", "mut", "while", "for", "in", "match", "return", "loop", "as", "true", "false", "break"}


def twins(files):
    alike = collections.defaultdict(list)
    for path, text in files:
        for name, at, _, body in functions(text):
            if body.count("\n") >= 4:
                alike[shape(body)].append((path, line(text, at), f"fn {name}"))
    for group in alike.values():
        if len(group) > 1:
            for path, at, name in group:
                yield path, at, f"{name} (one of {len(group)})"


def loops(files):
    for path, text in files:
        for found in re.finditer(r"^ *(while|loop)\b[^\n]*", text, re.M):
            yield path, line(text, found.start()), found.group().strip()
        for name, at, _, body in functions(text):
            if re.search(r"(?<![\w.:])%s\(" % name, body):
                yield path, line(text, at), f"fn {name} calls itself"


def by_hand(files):
    for path, text in files:
        for name, at, _, _ in functions(text):
            if COMPARING.search(name) or CONVERTING.search(name):
                yield path, line(text, at), f"fn {name}"


def repeated(files):
    facts = collections.defaultdict(list)
    groups = collections.defaultdict(list)
    for path, text in files:
        for name, at, head, _ in functions(text):
            for clause in re.findall(r"requires[^{]*\{(.*?)\}", head, re.S):
                for fact in set(FACT.findall(clause)):
                    facts[fact].append((path, line(text, at), name))
            names = [a for a, _ in PARAMETER.findall(head.split(")")[0])]
            for pair in set(zip(names, names[1:])):
                groups[pair].append((path, line(text, at), name))
    for fact, places in sorted(facts.items()):
        if len(places) > 2:
            yield *places[0][:2], f"{fact}: in clauses of {len(places)} functions"
    for pair, places in sorted(groups.items()):
        if len(places) > 9:
            yield *places[0][:2], f"parameters {', '.join(pair)}: of {len(places)} functions"


def lengths(files):
    for path, text in files:
        for found in STRUCT.finditer(text):
            if LENGTH.search(found.group(2)):
                yield path, line(text, found.start()), f"struct {found.group(1)}"


def switches(files):
    for path, text in files:
        for found in re.finditer(r"^ *match \w*\.?(kind|step|phase|word)\b[^\n]*|^ *if (\w+\.)?kind (==|<=|<) [^\n]*", text, re.M):
            yield path, line(text, found.start()), found.group().strip()


def alone(root):
    for path in sorted(pathlib.Path(root, "crates").glob("*/proofs/**/Answers.antt")):
        answers = re.findall(r"^\S+ [^:\n]*= (.*)$", path.read_text(), re.M)
        if answers and all(a in ("search rules", "tt", "omega arith") for a in answers) and "unfolding" not in path.read_text():
            yield str(path.relative_to(root)), 1, "answers that a tactic closes"


POINTS = {
    "1a": ("enums of the shape of Option or Result", own_results),
    "1b": ("flags in structs", flags),
    "1c": ("functions from cases to numbers", numbered),
    "2": ("functions of one shape", twins),
    "3": ("while, loop and recursion", loops),
    "4": ("comparisons and conversions by hand", by_hand),
    "5": ("facts and parameters that stand in many functions", repeated),
    "6": ("structs with a length or a place", lengths),
    "7": ("switches on a kind or a step", switches),
}


def main():
    reader = argparse.ArgumentParser(description=__doc__.split("\n")[0])
    reader.add_argument("--list", metavar="POINT")
    reader.add_argument("root", nargs="?", default=".")
    asked = reader.parse_args()
    files = list(sources(asked.root))
    for point, (what, places) in [*POINTS.items(), ("8", ("answer files that a tactic closes", None))]:
        found = list(places(files)) if places else list(alone(asked.root))
        if asked.list is None:
            print(f"{point:3} {len(found):4}  {what}")
        elif asked.list == point:
            for path, at, text in found:
                print(f"{path}:{at}: {text}")


if __name__ == "__main__":
    main()
