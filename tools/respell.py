#!/usr/bin/env python3
"""Brings the names of this repository's own definitions and lemmas to today's spelling, once, after port.py.

usage: tools/respell.py          at the top of the repository: rewrites crates/ in place
       tools/respell.py --list   prints old and new names, and those that fall together

Words are in snake case (`walk-in` is `walk_in`, `Letter-BASES` is `letter_bases`, `toldLeg` is `told_leg`), facts in camel case
(`Leads-to` is `LeadsTo`), and a test that ended in a question mark says so in words (`text?` is `is_text`). The letters A, C, G, T, the
motifs and the sets that the paper names by capital letters, and the names of goals in a function's own folder stay as they are.
"""
import os
import re
import sys

TESTS = {
    "two?": "is_two", "few?": "is_few", "listed?": "is_listed", "left?": "has_left", "marked?": "is_marked",
    "extended-marked?": "is_extended_marked", "more?": "has_more", "ended-told?": "is_ended_told", "text?": "is_text",
    "header?": "is_header", "space-or-tab?": "is_space_or_tab", "text-first?": "has_text_first", "no-room?": "has_no_room",
    "rising?": "is_rising", "ended?": "is_ended", "letter?": "is_letter", "some?": "has_some", "all?": "all_pass",
    "member?": "is_member", "passes?": "is_passing", "sized?": "is_sized", "blank?": "is_blank", "size-kind?": "has_size_kind",
    "component-kind?": "has_component_kind", "place-kind?": "has_place_kind", "size-blank?": "is_size_blank",
    "allowance-blank?": "is_allowance_blank", "component-blank?": "is_component_blank", "place-blank?": "is_place_blank",
    "size-record?": "is_size_record", "component-record?": "is_component_record", "place-record?": "is_place_record",
    "component-records?": "are_component_records", "place-rule?": "meets_place_rule", "sums?": "adds_up", "laid-out?": "is_laid_out",
    "kind?": "has_kind", "unnamed-blank?": "is_unnamed_blank", "well-formed?": "is_well_formed", "in-range?": "is_in_range",
    "number?": "is_number_text", "run?": "is_run", "follows?": "is_following", "within?": "is_within", "partner?": "is_partner",
    "in-body?": "is_in_body",
}
# Those that would fall together with another name.
APART = {
    "line-room": "line_has_room", "page-rows": "rows_of_page", "record-bytes": "record_is_bytes", "row-long": "row_slot_long",
    "bit-or": "either_bit",
}

DECLARED = re.compile(r"^(\s*)(?:(abbrev pub|unfoldable pub|abbrev|unfoldable|pub record|record|pub data|data|pub)\s+)?([^\s:(){}]+)\s+(?:[({].*?)?:\s")
IMPORT = re.compile(r"use\s+([\w.\u00b7'-]+?)\.\{([^}]*)\}")
TOKEN = re.compile(r"[^\s(){}\[\].,;\"`«»⟦⟧]+")


def crates():
    with open("crates.txt", encoding="utf-8") as f:
        return [l.split(":")[0].split()[0] for l in f if ":" in l and not l.startswith("#")]


def modules():
    """The files of definitions and of laws, without those in a function's own folder."""
    for c in crates():
        for kind in ("specs", "proofs"):
            folder = f"crates/{c}/{kind}"
            if os.path.isdir(folder):
                for f in sorted(os.listdir(folder)):
                    if f.endswith(".antt"):
                        yield f"{folder}/{f}"


def respelt(name):
    if name in TESTS:
        return TESTS[name]
    if name in APART:
        return APART[name]
    if not name.isascii() and "-" not in name:
        return name
    if re.fullmatch(r"[a-z]+([A-Z][a-z0-9]*)+", name):
        return re.sub(r"([A-Z])", lambda m: "_" + m.group(1).lower(), name)
    if "-" not in name or name.startswith("-") or name.endswith("-"):
        return name
    if re.fullmatch(r"[A-Z][a-z]+(-[a-z]+)+", name) and name in FACTS:
        return "".join(w.capitalize() for w in name.split("-"))
    return name.replace("SequenceSet", "sequence_set").lower().replace("-", "_")


FACTS = {"Leads-to", "Led-to", "Added-to"}


def names():
    found, fields = {}, set()
    for p in modules():
        record = False
        with open(p, encoding="utf-8") as f:
            for line in f:
                if line.strip() and not line.startswith((" ", "--")):
                    record = "where" in line and ("record" in line or "data" in line)
                m = DECLARED.match(line)
                if not m:
                    continue
                indent, word, name = m.groups()
                if name in ("--", "|", "→", "let", "where") or (indent and not word and not record and "/proofs/" not in p):
                    continue
                new = respelt(name)
                if new != name:
                    found[name] = new
                    if record and indent:
                        fields.add(name)
    return found, fields


def imported(text):
    """Names that a file imports from elsewhere than this repository's crates."""
    own = set(crates())
    out = set()
    for path, items in IMPORT.findall(text):
        parts = path.split(".")
        if not (parts[0] == "Rattle" and len(parts) > 1 and parts[1] in own):
            out |= {w.strip().split(" as ")[0] for w in items.split(",")} | {w.strip().split(" as ")[-1] for w in items.split(",")}
    return out


def declared_here(text):
    return {m.group(3) for m in map(DECLARED.match, text.splitlines()) if m and not m.group(1)}


def turn(text, table, fields, skip):
    def one(m):
        t = m.group(0)
        if t not in table or t in skip:
            return t
        i = m.start()
        if i and text[i - 1] == "." and t not in fields:
            before = re.search(r"[\w']+\.$", text[max(0, i - 60):i])
            if not before or not before.group(0)[0].isupper():
                return t
        return table[t]
    return TOKEN.sub(one, text)


def by_line(text, mark, table, fields, skip):
    """Code as it is; of a comment only what stands between backticks."""
    out = []
    for line in text.split("\n"):
        at = line.find(mark)
        code, comment = (line, "") if at < 0 else (line[:at], line[at:])
        comment = re.sub(r"`[^`]*`", lambda m: turn(m.group(0), table, fields, skip), comment)
        out.append(code + "\0" + comment)
    whole = "\n".join(out)
    parts = re.split(r"(\0[^\n]*)", whole)
    return "".join(p[1:] if p.startswith("\0") else turn(p, table, fields, skip) for p in parts)


def main():
    table, fields = names()
    if "--list" in sys.argv:
        taken = {}
        for old, new in sorted(table.items()):
            taken.setdefault(new, []).append(old)
        every = set()
        for p in modules():
            with open(p, encoding="utf-8") as f:
                every |= {m.group(3) for m in map(DECLARED.match, f) if m}
        for old, new in sorted(table.items()):
            together = len(taken[new]) > 1 or (new in every and new not in table)
            print(f"{old} {new}" + (" TOGETHER" if together else ""))
        return
    for root, dirs, files in os.walk("crates"):
        dirs[:] = sorted(d for d in dirs if d != "out")
        for f in sorted(files):
            p = os.path.join(root, f)
            if not f.endswith((".antt", ".rt", ".edit")):
                continue
            with open(p, encoding="utf-8") as h:
                text = h.read()
            skip = imported(text)
            parts = p.split(os.sep)
            if parts[2] == "proofs" and len(parts) > 4:
                # The goals that a function's own file answers keep the names that the check gives them.
                skip |= declared_here(text)
            new = by_line(text, "//" if f.endswith(".rt") else "--", table, fields, skip)
            if new != text:
                with open(p, "w", encoding="utf-8") as h:
                    h.write(new)


if __name__ == "__main__":
    main()
