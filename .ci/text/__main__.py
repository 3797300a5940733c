"""python3 .ci/text: whether the pages say what is there. Prints a line for each fault, page, line and what is wrong, and then exits with 1.

Checked: every path and name in backquotes, and every path of a command line, is in the tree (cites.py); the reading list of MAP is what promises and
theorems reach (reading.py); crates.txt, the layers of MAP, numbers of crates and edits, minutes, decisions and requests that are cited, lengths of lines
and links (counts.py); the bindings in Rust, that they declare what the header declares (bindings.py). Not checked: what a sentence says beyond that, and
the notes of docs/landings, each of which speaks of its own commit, and of docs/PORT.md, which speaks of what has gone.
"""

import sys
from pathlib import Path

from bindings import binding_faults
from cites import cite_faults
from counts import crate_faults, layer_faults, line_faults, number_faults, reading_faults, reference_faults
from tree import Tree

CHECKS = [cite_faults, reading_faults, layer_faults, crate_faults, number_faults, reference_faults, line_faults, binding_faults]


def main():
    tree = Tree(Path(__file__).resolve().parents[2])
    found = [fault for check in CHECKS for fault in check(tree)]
    for path, number, what in found:
        print(f"{path.relative_to(tree.root)}{f':{number}' if number else ''}: {what}")
    print(f"text: {len(found)} faults in {len(tree.pages)} pages, crates.txt and the bindings")
    return 1 if found else 0


if __name__ == "__main__":
    sys.exit(main())
