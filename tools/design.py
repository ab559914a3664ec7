#!/usr/bin/env python3
"""Counts, in the sources of the crates, what docs/DESIGN-PASS.md speaks of.

    tools/design.py           prints how many places each pattern has
    tools/design.py -l        and each of them
    tools/design.py -l FOLDER the same of another checkout
"""

import glob
import re
import sys

listed = "-l" in sys.argv
folder = next((a for a in sys.argv[1:] if not a.startswith("-")), ".")

# What is found by the text of a line: its point, its name and its pattern.
LINES = [
    ("1", "enums", r"^\s*(pub(\(crate\))? )?enum "),
    ("1", "constants that are numbers for a kind", r"const (EXACT|MIXED|SIZE|COMPONENT|PLACE|EXTRA): u8"),
    ("1", "codes taken apart or put together", r"[/%*] PLACES|PLACES [+*]"),
    ("1", "numbers for a refusal that is handed on", r"(Refusal|Refused|End)\(u64, u64\)"),
    ("3", "while and loop", r"^\s*(while|loop)\b"),
    ("3", "counted on by hand", r"^\s*\w+ [+-]= (1|8|64|BLOCK|STRETCH);"),
    ("4", "helpers for what the library has", r"fn (least|sign|copy|fill|low_first|wide|eight|one|none|marked|join|number|of|is_number)\b"),
    ("6", "tables named apart, one for even and one for odd", r"\b(evens|odds): &"),
]

# A function's head, from `fn` up to its body or contract.
HEAD = re.compile(r"^ *(?:pub(?:\(crate\))? )?(?:extern \"C\" )?fn (\w+)[^(]*\(([^)]*)\)", re.M)


def parameters(text):
    """How many parameters a list has; commas inside < > and [ ] part nothing."""
    depth, count, last = 0, 0, ""
    for c in text:
        if c in "<[":
            depth += 1
        elif c in ">]":
            depth -= 1
        elif c == "," and depth == 0:
            count += bool(last.strip())
            last = ""
            continue
        last += c
    return count + bool(last.strip())


# A clause that asks something, its facts, and what may stand before a value that has the same name wherever it comes from.
ASKS = re.compile(r"^\s*requires (?:\w+ )?\{ (.*) \}$")
OWNER = re.compile(r"\b(made|plan|self|layout|weighing|set|search|template)\.(now\.|old\.)?(?=\w)")


def facts(clause):
    """The facts that a clause joins by ×, without the parentheses around each."""
    depth, last, all_of_it = 0, "", []
    for part in re.split(r"( × )", clause):
        if part == " × " and depth == 0:
            all_of_it.append(last)
            last = ""
            continue
        last += part
        depth += part.count("(") - part.count(")")
    for fact in [*all_of_it, last]:
        fact = fact.strip()
        yield OWNER.sub("", fact[1:-1].strip() if fact.startswith("(") and fact.endswith(")") else fact)


asked = {}
found = {}
for path in sorted(glob.glob(folder + "/crates/*/src/*.rt")):
    text = open(path, encoding="utf-8").read()
    short = path[len(folder) + len("/crates/"):]
    function = ""
    for n, line in enumerate(text.split("\n"), 1):
        if line.lstrip().startswith("//"):
            continue
        head = re.match(r"^ *(?:pub(?:\(crate\))? )?(?:extern \"C\" )?fn (\w+)", line)
        function = head[1] if head else function
        clause = ASKS.match(line)
        for fact in facts(clause[1]) if clause else []:
            asked.setdefault((short.split("/")[0], fact), set()).add(function)
        for point, name, pattern in LINES:
            if re.search(pattern, line):
                found.setdefault((point, name), []).append(f"{short}:{n}: {line.strip()}")
    for head in HEAD.finditer(text):
        count = parameters(head[2])
        if count >= 8:
            n = text.count("\n", 0, head.start()) + 1
            found.setdefault(("5", "functions with eight parameters or more"), []).append(f"{short}:{n}: {head[1]}, {count}")
        if re.search(r"\bletters: &\[u8\]", head[2]) and re.search(r"\blengths: &\[u32\]", head[2]):
            n = text.count("\n", 0, head.start()) + 1
            found.setdefault(("5", "functions with letters and lengths apart"), []).append(f"{short}:{n}: {head[1]}")
for (crate, fact), functions in sorted(asked.items()):
    if len(functions) >= 3:
        found.setdefault(("5", "facts that three functions of a crate ask or more"), []).append(f"{crate}: {fact}: {', '.join(sorted(functions))}")
for key in sorted(found):
    print(f"{key[0]}  {key[1]}: {len(found[key])}")
    if listed:
        for place in found[key]:
            print("     " + place)
