#!/usr/bin/env python3
"""Checks what the documents say against the sources: run by .ci/run after the gate.

- docs/PROVED.md has a section for each crate of crates.txt, in that order, and each public function with a contract of
  its own is named in its crate's section.
- Each function and each clause that a line of docs/PROVED.md names exists: a line names functions in backticks up to
  its first colon, each with the names of its clauses in parentheses behind it.
- Each link in README.md and docs/ leads to a file, and to a heading of it where it names one.

Prints what is wrong, a line each, and then how much was looked at.
"""

import os
import re
import sys

TOP = os.path.dirname(os.path.dirname(os.path.abspath(__file__)))
NAMED = re.compile(r"`([\w:]+)`(?: \(((?:`\w+`(?:, )?)+)\))?(?:, )?")
BLOCK = re.compile(r"^(?:pub )?(impl|trait)\b(?:<[^>]*>)? *(?:[\w:]+(?:<[^>]*>)? for )?(\w+)")
CALL = re.compile(r"^( *)(pub )?fn (\w+)")
CLAUSE = re.compile(r"^\s+ensures (?:(\w+) )?\{")


def crates():
    """The names in crates.txt, in its order."""
    with open(f"{TOP}/crates.txt", encoding="utf-8") as lines:
        return [it.split(":")[0].split()[0] for it in lines if ":" in it.partition("#")[0]]


def calls_of(crate):
    """For each function of a crate that its root hands out, the names of its clauses; '' for one without a name."""
    found, handed_out = {}, set()
    folder = f"{TOP}/crates/{crate}/src"
    for here, _, files in os.walk(folder):
        for file in sorted(files):
            if file.endswith(".rt") and "test" not in file:
                with open(f"{here}/{file}", encoding="utf-8") as it:
                    text = it.read()
                if file in ("lib.rt", "main.rt"):
                    handed_out.update(re.findall(r"^pub (?:fn|struct|enum|trait|type) (\w+)", text, re.M))
                    for names in re.findall(r"^pub use ([^;]+);", text, re.M):
                        handed_out.update(re.findall(r"\w+", names))
                read_calls(text.split("\n"), found)
    return {call: clauses for call, clauses in found.items() if call.partition("::")[0] in handed_out}


def read_calls(lines, found):
    block, kind, name = None, None, None
    for line in lines:
        if line == "}":
            block = kind = name = None
        opened = BLOCK.match(line)
        if opened:
            kind, block = opened.group(1), opened.group(2)
            is_of_trait = " for " in line.partition("{")[0]
        call = CALL.match(line)
        if call:
            inside = bool(call.group(1)) and block
            seen = call.group(2) or (inside and kind == "trait" and line.startswith("    fn"))
            name = None
            if seen and not (inside and is_of_trait):
                name = f"{block}::{call.group(3)}" if inside else call.group(3)
            if name:
                found.setdefault(name, set())
        clause = CLAUSE.match(line)
        if clause and name:
            found[name].add(clause.group(1) or "")


def sections(text):
    """The lines below each heading that names a crate."""
    found, name = {}, None
    for line in text.split("\n"):
        heading = re.match(r"^#+ `?(\w+)`?$", line)
        if line.startswith("#"):
            name = heading.group(1) if heading else None
            if name:
                found[name] = []
        elif name:
            found[name].append(line)
    return found


def check_proved(wrong):
    with open(f"{TOP}/docs/PROVED.md", encoding="utf-8") as it:
        # a line may go on in lines that begin with two blanks
        told = sections(re.sub(r"\n  (?=\S)", " ", it.read()))
    order, clauses = crates(), 0
    if [it for it in told if it in order] != order:
        wrong.append("docs/PROVED.md: the crates do not stand in the order of crates.txt, or one is missing")
    for crate, lines in told.items():
        if crate not in order:
            wrong.append(f"docs/PROVED.md: there is no crate {crate}")
            continue
        calls, named = calls_of(crate), set()
        for line in lines:
            head = line.partition(": ")[0]
            if not head.startswith("- `"):
                continue
            for call, names in NAMED.findall(head):
                named.add(call)
                if call not in calls:
                    wrong.append(f"docs/PROVED.md: {crate} has no function {call}")
                for clause in re.findall(r"\w+", names):
                    clauses += 1
                    if clause not in calls.get(call, {clause}):
                        wrong.append(f"docs/PROVED.md: {call} of {crate} has no clause {clause}")
        for call in sorted(calls):
            if calls[call] and call not in named:
                wrong.append(f"docs/PROVED.md: {call} of {crate} is not named")
    return len(told), clauses


def anchors(file):
    """The names of a document's headings, as links name them."""
    found = set()
    with open(file, encoding="utf-8") as lines:
        for line in lines:
            if line.startswith("#"):
                words = line.lstrip("#").strip().lower()
                found.add(re.sub(r"[^\w\- ]", "", words).replace(" ", "-"))
    return found


def check_links(wrong):
    count = 0
    pages = ["README.md", "bench/README.md"] + [f"docs/{it}" for it in sorted(os.listdir(f"{TOP}/docs"))]
    for page in pages:
        with open(f"{TOP}/{page}", encoding="utf-8") as it:
            text = it.read()
        for target in re.findall(r"\]\(([^)\s]+)\)", text):
            if "://" in target:
                continue
            count += 1
            path, _, anchor = target.partition("#")
            file = os.path.normpath(f"{TOP}/{os.path.dirname(page)}/{path}") if path else f"{TOP}/{page}"
            if not os.path.exists(file):
                wrong.append(f"{page}: the link {target} leads nowhere")
            elif anchor and anchor not in anchors(file):
                wrong.append(f"{page}: {target} names no heading")
    return count


def main():
    wrong = []
    parts, clauses = check_proved(wrong)
    links = check_links(wrong)
    for line in wrong:
        print(line)
    print(f"documents: {parts} crates, {clauses} clauses, {links} links looked at, {len(wrong)} wrong")
    return 1 if wrong else 0


if __name__ == "__main__":
    sys.exit(main())
