"""manual.py PROGRAM FOLDER: writes the manual page semduoli.1 and the completion for bash, from what PROGRAM's `help` says, into FOLDER.

The commands and their options are said once, in the program; what is about the machine as a whole is in manual.head and manual.tail beside this file.
SOURCE_DATE_EPOCH is the page's date.
"""

import os
import re
import subprocess
import sys
import time
from pathlib import Path

HERE = Path(__file__).resolve().parent
# an argument or an option of clap's help, and what is said of it on the same line
ENTRY = re.compile(r"^ {2,8}(-\S.*?|[<\[]\S+?)(?: {2,}(\S.*))?$")
COMMAND = re.compile(r"^ {2}([a-z][a-z-]*)(?: {2,}(.*))?$")
OPTION = re.compile(r"--[a-z][a-z-]*")


def help_of(program, words):
    """The program's help about a command, in sections: {title, "" for what comes first: lines}."""
    said = subprocess.run([program, "help", *words], check=True, capture_output=True, text=True).stdout
    sections, title = {"": []}, ""
    for line in said.splitlines():
        if re.match(r"^[A-Z][a-z]+:$", line):
            title = line[:-1]
            sections[title] = []
        elif line.startswith("Usage: "):
            sections["Usage"] = [line[len("Usage: ") :]]
        elif line and not line.startswith(" "):
            sections[""].append(line)
        else:
            sections[title].append(line)
    return sections


def entries(lines):
    """Arguments, options or commands: (as it is written, what is said of it)."""
    found = []
    for line in lines:
        entry = ENTRY.match(line) or COMMAND.match(line)
        if entry:
            found.append([entry.group(1), entry.group(2) or ""])
        elif line.strip() and found:
            found[-1][1] = f"{found[-1][1]} {line.strip()}".strip()
    return found


def commands(program, words=()):
    """All commands, those with further commands in their place: (words, sections)."""
    sections = help_of(program, words)
    for name, _ in entries(sections.get("Commands", [])):
        if name != "help":
            yield from commands(program, (*words, name))
    if "Commands" not in sections:
        yield words, sections


def roff(text):
    """Plain text for the manual's formatter."""
    return re.sub(r"^([.'])", r"\\&\1", text.replace("\\", "\\e").replace("-", "\\-"), flags=re.M)


def entry_roff(written, said):
    return f".TP\n.B {roff(written)}\n{roff(said)}\n"


def command_roff(words, sections):
    text = f".SS {roff(' '.join(words))}\n{roff(' '.join(sections['']))}\n.PP\n.nf\n{roff(sections['Usage'][0])}\n.fi\n"
    own = [e for title in ("Arguments", "Options") for e in entries(sections.get(title, []))]
    return text + "".join(entry_roff(*e) for e in own if "--help" not in e[0] and "--json" not in e[0])


def page(program):
    top = help_of(program, ())
    version = subprocess.run([program, "--version"], check=True, capture_output=True, text=True).stdout.split()[-1]
    date = time.strftime("%Y-%m-%d", time.gmtime(int(os.environ["SOURCE_DATE_EPOCH"])))
    text = f'.TH SEMDUOLI 1 "{date}" "semduoli {version}" "User Commands"\n' + (HERE / "manual.head").read_text(encoding="utf-8")
    text += ".SH OPTIONS\n" + "".join(entry_roff(*e) for e in entries(top["Options"]))
    text += ".SH COMMANDS\n" + "".join(command_roff(*c) for c in commands(program))
    codes = next(line for line in top[""] if line.startswith("Exit codes: ")).removeprefix("Exit codes: ").rstrip(".")
    text += ".SH EXIT STATUS\n" + "".join(entry_roff(*code.split(" ", 1)) for code in codes.split("; "))
    return text + (HERE / "manual.tail").read_text(encoding="utf-8")


def completion(program):
    cases, first, second = [], [], {}
    for words, sections in commands(program):
        own = [option for written, _ in entries(sections.get("Options", [])) for option in OPTION.findall(written)]
        cases.append(f"        '{' '.join(words)}') words='{' '.join(own)}' ;;\n")
        first += [words[0]] if words[0] not in first else []
        if len(words) > 1:
            second.setdefault(words[0], []).append(words[1])
    cases += [f"        '{one}') words='{' '.join(more)}' ;;\n" for one, more in second.items()]
    nested = "".join(f"    [ \"${{COMP_WORDS[1]}}\" != {one} ] || [ \"$COMP_CWORD\" -le 2 ] || command=\"{one} ${{COMP_WORDS[2]}}\"\n" for one in second)
    return (
        "# Completion for bash: commands and options, else files.\n"
        "_semduoli() {\n    local command=${COMP_WORDS[1]} words\n"
        f"{nested}    [ \"$COMP_CWORD\" -gt 1 ] || command=\n    case $command in\n        '') words='{' '.join(first)} help --json --help --version' ;;\n"
        f"{''.join(cases)}    esac\n    mapfile -t COMPREPLY < <(compgen -W \"$words\" -- \"${{COMP_WORDS[COMP_CWORD]}}\")\n}}\n"
        "complete -o default -F _semduoli semduoli\n"
    )


def main():
    program, folder = sys.argv[1], Path(sys.argv[2])
    (folder / "semduoli.1").write_text(page(program), encoding="utf-8")
    (folder / "completion").write_text(completion(program), encoding="utf-8")


if __name__ == "__main__":
    main()
