"""The header and the bindings in Rust: include/semduoli.rs declares the calls and the numbers of include/semduoli.h, all of them and no others, and no
other file in Rust declares a call. Sizes that depend on parameters and parts of an answer are macros of the header alone."""

import re

TYPES = {"size_t": "usize", "uint64_t": "u64", "const uint8_t *": "*const u8", "uint8_t *": "*mut u8"}
C_CALL = re.compile(r"^(?!static)(\w[\w ]*[ *])(semduoli_\w+)\(([^)]*)\);", re.M)
C_NUMBER = re.compile(r"^(?:#define[ ]+|[ ]+)SEMDUOLI_(\w+)[ =]+(?:\(\(size_t\))?(\d+)\)?,?[ ]*$", re.M)
RUST_CALL = re.compile(r"\bfn\s+(semduoli_\w+)\(([^)]*)\)([^;]*);")
RUST_NUMBER = re.compile(r"\bconst\s+(\w+):[^=]*=\s*([^;]*);")


def in_rust(declared):
    """A type of C as it is in Rust."""
    return TYPES.get(" ".join(declared.split()), declared)


def header_calls(text):
    """Of each call of a header its arguments and what it answers, as they are in Rust."""
    calls = {}
    for answer, name, arguments in C_CALL.findall(text):
        pairs = [re.fullmatch(r"(.*[ *])(\w+)", " ".join(one.split())) for one in arguments.split(",")]
        calls[name] = [f"{pair.group(2)}: {in_rust(pair.group(1))}" for pair in pairs if pair], f"-> {in_rust(answer)}"
    return calls


def rust_calls(text):
    """The same of the calls that a file in Rust declares."""
    listed = lambda arguments: [" ".join(one.split()) for one in arguments.split(",") if one.strip()]
    return {name: (listed(arguments), answer.strip()) for name, arguments, answer in RUST_CALL.findall(text)}


def differences(what, here, there):
    """What is in one table and not in the other."""
    for name in here.keys() - there.keys():
        yield f"the header has no {what} {name}"
    for name in there.keys() - here.keys():
        yield f"the {what} {name} of the header is missing"


def call_faults(here, there):
    """In which arguments and answers the calls differ that both tables have."""
    for name in here.keys() & there.keys():
        (given, answer), (right, right_answer) = here[name], there[name]
        if len(given) != len(right):
            yield f"{name} has {len(given)} arguments, in the header {len(right)}"
        else:
            yield from (f"{name} has {one}, in the header it is {other}" for one, other in zip(given, right) if one != other)
        if answer != right_answer:
            yield f"{name} has {answer}, in the header it is {right_answer}"


def binding_faults(tree):
    """What include/semduoli.rs says otherwise than the header, and calls that are declared elsewhere."""
    page, header = tree.root / "include/semduoli.rs", tree.code(tree.root / "include/semduoli.h")
    text = tree.code(page)
    calls, right_calls = rust_calls(text), header_calls(header)
    numbers, right_numbers = dict(RUST_NUMBER.findall(text)), dict(C_NUMBER.findall(header))
    found = [*differences("call", calls, right_calls), *differences("number", numbers, right_numbers), *call_faults(calls, right_calls)]
    both = numbers.keys() & right_numbers.keys()
    found += [f"{name} is {numbers[name]}, in the header {right_numbers[name]}" for name in both if numbers[name] != right_numbers[name]]
    yield from ((page, 0, what) for what in sorted(found))
    for path in tree.files:
        if path.suffix == ".rs" and path != page:
            yield from ((path, 0, f"declares {name}: include/semduoli.rs does") for name in rust_calls(tree.code(path)))
