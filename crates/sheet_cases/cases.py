#!/usr/bin/env python3
"""Writes the cases of this crate and of the sheet program, from the words of the request and of the specification alone: the histories (data/, and
../sheet/stdin), their names (args), and what the programs must print for them (stdout, and ../sheet/stdout). It reads no output of the programs.

A sheet: pages of 60 lines of 72 columns, a newline after each line. An operation has one line, in the order found: place (3 columns), kind (1), start (10),
end (10), time (20), writer (1), sequence (10), caller (1), right-aligned, one space between, then spaces. 59 operations a page; the 60th line of each page
has its number, right-aligned. An empty history has one page."""
import os

WIDTHS = [3, 1, 10, 10, 20, 1, 10, 1]
UNKNOWN = 4294967295
FOLDER = os.path.dirname(os.path.abspath(__file__))


def precedes(a, b):
    return a[2] < b[1] or (a[2] == b[1] and a[6] == b[6] != 0)


def judge(rows):
    """('refused', n), ('pair', a, b) or ('order', indices), for rows of (kind, start, end, time, writer, sequence, caller) that are well formed."""
    stamp = [r[3:6] for r in rows]
    written = [stamp[i] for i, r in enumerate(rows) if r[0] == "W"]
    if len(rows) > 64 or any(r[1] >= r[2] for r in rows) or len(set(written)) < len(written) or any(0 in s for s in written):
        return ("refused", 18)
    if any(r[0] == "R" and s != (0, 0, 0) and s not in written for r, s in zip(rows, stamp)):
        return ("refused", 19)
    for j, b in enumerate(rows):
        for i, a in enumerate(rows):
            after = stamp[i] > stamp[j] or (stamp[i] == stamp[j] and a[0] == "R" and b[0] == "W")
            if precedes(a, b) and after:
                return ("pair", i + 1, j + 1)
    return ("order", sorted(range(len(rows)), key=lambda i: (stamp[i], rows[i][0] == "R", rows[i][2], i)))


def sheet(rows, order):
    placed = [(place + 1,) + rows[i] for place, i in enumerate(order)]
    pages = [placed[k:k + 59] for k in range(0, len(placed), 59)] or [[]]
    text = ""
    for number, page in enumerate(pages, 1):
        lines = [" ".join(str(x).rjust(w) for x, w in zip(op, WIDTHS)) for op in page]
        assert all(len(line) == 63 for line in lines)
        lines += [""] * (59 - len(lines))
        text += "".join(line.ljust(72) + "\n" for line in lines) + str(number).rjust(72) + "\n"
    assert len(text) == len(pages) * 60 * 73
    return text


def answer(rows):
    verdict = judge(rows)
    if verdict[0] == "refused":
        return f"refused {verdict[1]}\n"
    if verdict[0] == "pair":
        return f"no order {verdict[1]} {verdict[2]}\n"
    return sheet(rows, verdict[1])


def lines(rows):
    return "".join(" ".join(map(str, r)) + "\n" for r in rows)


def reads(n):
    """n reads of stamp zero that all overlap; the last lines end first, so that places go against line numbers."""
    return [("R", 0, 1000 - i, 0, 0, 0, i % 9) for i in range(n)]


def mixed(n):
    """Writes by eight clients and reads of them, all of them overlapping, the larger stamps first."""
    rows = []
    for i in reversed(range(n // 2)):
        stamp = (i // 8 + 1, i % 8 + 1, 4000000000 + i)
        rows += [("R", i, 10 ** (i % 10) + 100, *stamp, i % 9), ("W", i, 4000000000, *stamp, (i + 1) % 9)]
    return rows


EXAMPLE = [("W", 1, 4, 1, 2, 1, 2), ("R", 2, 6, 0, 0, 0, 0), ("R", 5, 8, 1, 2, 1, 3)]
LARGEST = ("W", 4294967294, UNKNOWN, 2 ** 64 - 1, 8, UNKNOWN, 8)

CASES = [
    ("empty", []),
    ("one", [("R", 0, 1, 0, 0, 0, 0)]),
    ("document_order", EXAMPLE),
    ("document_no_order", [EXAMPLE[0], ("R", 5, 6, 0, 0, 0, 0), EXAMPLE[2]]),
    ("largest", [LARGEST, ("R", 0, UNKNOWN, *LARGEST[3:6], 8)]),
    ("end_not_known", [("W", 7, UNKNOWN, 1, 1, 1, 1), ("R", 8, 9, 0, 0, 0, 1)]),
    ("one_desk", [("W", 1, 4, 1, 2, 1, 2), ("R", 4, 6, 0, 0, 0, 2)]),
    ("two_desks", [("W", 1, 4, 1, 2, 1, 2), ("R", 4, 6, 0, 0, 0, 3)]),
    ("digits", [("R", 10 ** k - 1, 10 ** (k + 1) - 1, 0, 0, 0, 0) for k in range(9)]
     + [("W", 3, UNKNOWN, 10 ** k, 1 + k % 8, 10 ** (k % 10), k % 9) for k in range(20)]),
    ("lines_9", reads(9)),
    ("lines_10", reads(10)),
    ("lines_58", mixed(58)),
    ("lines_59", reads(59)),
    ("lines_60", [("R", 0, 1, 0, 0, 0, 0)] * 60),
    ("lines_60_mixed", mixed(60)),
    ("lines_64", reads(64)),
    ("lines_64_mixed", mixed(64)),
    ("lines_65", reads(65)),
    ("equal_start_end", [("R", 6, 6, 0, 0, 0, 0)]),
    ("unlisted", [("R", 1, 2, 7, 1, 1, 0)]),
    # of several offending pairs the one whose later operation, the one preceded, has the smallest line
    ("choices_differ", [("W", 10, 11, 5, 1, 1, 0), ("W", 8, 9, 2, 1, 2, 0), ("W", 1, 2, 3, 1, 3, 0), ("W", 20, 21, 1, 1, 4, 0)]),
    ("later_in_first_line", [("R", 9, 10, 0, 0, 0, 0), ("W", 1, 2, 2, 1, 1, 0), ("R", 5, 6, 0, 0, 0, 0)]),
]
# histories that are no text of such rows, with the answer
DAMAGED = [
    ("no_last_newline", lines(EXAMPLE)[:-1], "refused 18\n"),
    ("six_fields", "R 1 2 0 0 0\n", "refused 18\n"),
    ("caller_past", "R 1 2 0 0 0 9\n", "refused 18\n"),
    ("only_newline", "\n", "refused 18\n"),
    ("too_long", "R 0 1 0 0 0 0\n" * 300, "refused 18\n"),
]


def write(path, text):
    path = os.path.join(FOLDER, path)
    os.makedirs(os.path.dirname(path), exist_ok=True)
    with open(path, "w", newline="\n") as file:
        file.write(text)


def main():
    cases = [(name, lines(rows), answer(rows)) for name, rows in CASES] + DAMAGED
    assert len(lines([LARGEST])) == 60 and len(set(name for name, _, _ in cases)) == len(cases)
    for name, text, _ in cases:
        write("data/" + name, text)
    write("args", "".join(name + "\n" for name, _, _ in cases))
    write("stdout", "".join(f"{name}\n{expected}" for name, _, expected in cases))
    write("../sheet/stdin", lines(EXAMPLE))
    write("../sheet/stdout", answer(EXAMPLE))


if __name__ == "__main__":
    main()
