#!/usr/bin/env python3
"""Holds the operators' program, over random sets, to an enumeration of its own.

    tests/beside/places.py cli/target/release/tulfasheq [--sets 300] [--seed 35]

It is run by hand, beside the gate, since it needs bedtools and gt
(Debian: bedtools, genometools). For each set it compares

- the table of `search` with the enumeration's motifs, supports, occurrences,
  their order, and the last line;
- `places` of every motif of the table, as TSV, BED and GFF, with the
  enumeration's occurrences, whole and in pages laid end to end; of a motif
  alone; of a job; and of a table without its last line (status 8);
- the letters that `bedtools getfasta -split` cuts out with the motif's;
- what `gt gff3validator` says: no error and no warning, also of two outputs
  that were joined, whose IDs stay apart.

It ends with 0 if nothing differs, and else with 1; the files of a set that
differs are kept, and their folder is told.
"""

import argparse
import os
import random
import re
import shutil
import subprocess
import sys
import tempfile
import time

sys.dont_write_bytecode = True

import enumeration
import forms
from sets import Set, drawn, in_shape

UNFINISHED = 8


class Differs(Exception):
    """Something is not what the enumeration says."""


def same(what, got, wanted):
    """Two texts or numbers must be the same."""
    if got == wanted:
        return
    if isinstance(got, bytes) and isinstance(wanted, bytes):
        lines, others = got.split(b"\n"), wanted.split(b"\n")
        for i, (line, other) in enumerate(zip(lines, others), 1):
            if line != other:
                raise Differs(f"{what}: line {i}\n  is     {line!r}\n  wanted {other!r}")
        raise Differs(f"{what}: {len(lines)} lines, wanted {len(others)}")
    raise Differs(f"{what}: is {got!r}, wanted {wanted!r}")


class Trial:
    """One set: its files in a folder, and the program run over them."""

    def __init__(self, program, folder, number, chance):
        self.program, self.folder, self.chance = program, folder, chance
        self.set = Set(chance)
        self.template = self.set.shape()
        self.fasta = self.file("set.fa", self.set.file)
        self.table = os.path.join(folder, "table.tsv")
        found = enumeration.occurrences(self.set.sequences, self.set.template, self.set.allowances)
        self.motifs = enumeration.frequent(found, self.set.quorum)
        self.found = found
        self.rows = forms.laid(self.set, [(m, found[m]) for m in self.motifs])
        self.number = number

    def file(self, name, data):
        path = os.path.join(self.folder, name)
        with open(path, "wb") as to:
            to.write(data)
        return path

    def run(self, *words, status=0):
        """What the program writes, if it ends as it should."""
        done = subprocess.run([self.program, *words], stdin=subprocess.DEVNULL,
                              capture_output=True, check=False)
        told = " ".join(words)
        if done.returncode != status:
            raise Differs(f"{told}\n  ended with {done.returncode}, wanted {status}\n"
                          f"  {done.stderr.decode(errors='replace')}")
        return done.stdout

    def places(self, form, *words, status=0):
        """`places` in a form: the lines before the rows, and the rows."""
        return forms.parted(form, self.run("places", *words, "--" + form, status=status))

    def of_table(self, form, *words, status=0):
        """`places` of every motif of the table."""
        return self.places(form, self.template, self.fasta, "--list", self.table,
                           *self.set.options(), *words, status=status)

    def check(self):
        """All comparisons."""
        self.check_table()
        rows = {form: self.check_form(form) for form in self.forms()}
        self.check_refused()
        self.check_pages(self.chance.choice(self.forms()))
        self.check_motif()
        self.check_unfinished()
        if self.chance.random() < 0.3:
            self.check_job(rows)
        if self.set.told_apart:
            self.check_cut_out(rows["bed"])
        if "gff" in rows:
            self.check_joined()

    def forms(self):
        """The forms that can hold the names of the set."""
        return ["tsv"] + ["bed"] * self.set.bed + ["gff"] * self.set.gff

    def check_table(self):
        """The search's table."""
        words = ["search", self.template, self.set.asked, self.fasta, *self.set.options()]
        if self.chance.random() < 0.5:
            self.file("table.tsv", self.run(*words))
        else:
            same("standard output", self.run(*words, "--out", self.table), b"")
        with open(self.table, "rb") as table:
            lines = table.read()
        rows, _, end = lines.rstrip(b"\n").rpartition(b"\n")
        same("the table", rows + b"\n", forms.table(self.set, self.motifs, self.found))
        self.check_end(end.decode())

    def check_end(self, end):
        """The table's last line."""
        values = dict(part.split(" ", 1) for part in end.removeprefix("# end: ").split(", "))
        mixed = self.set.allowances
        taken = enumeration.steps(self.set.sequences, self.set.template, mixed, self.set.quorum)
        wanted = {
            "steps": taken,
            "rows": len(self.motifs),
            "template": self.template,
            "mixed": "no" if mixed is None else ",".join(map(str, mixed)),
            "quorum": self.set.quorum,
            "sequences": len(self.set.sequences),
            "letters": sum(map(len, self.set.sequences)),
        }
        for name, value in wanted.items():
            same(f"the last line's {name}", values.get(name), str(value))
        sums = values["sum"] + values["table"]
        if not end.startswith("# end: ") or not re.fullmatch("[0-9a-f]{32}", sums):
            raise Differs(f"the last line: {end}")

    def check_form(self, form):
        """The places of the whole table in a form."""
        before, rows = self.of_table(form)
        forms.check_before(form, self.set, before, same)
        same(form, forms.without_hex(form, rows), forms.rows(form, self.rows))
        if form == "gff":
            self.validate(before + rows)
        return rows

    def check_refused(self):
        """A name that a form cannot hold: nothing is written."""
        for form in {"bed", "gff"} - set(self.forms()):
            same(form, self.of_table(form, status=3), (b"", b""))

    def check_pages(self, form):
        """Pages laid end to end are the whole list; behind it there is none."""
        before, whole = self.of_table(form)
        size = self.chance.randint(len(self.rows) // 5 + 1, len(self.rows) + 2)
        laid = b""
        for first in range(0, len(self.rows) + 1, size):
            top, rows = self.of_table(form, "--from", str(first), "--rows", str(size))
            same("a page's header", top, before)
            laid += rows
        same("pages", laid, whole)
        end = len(self.rows)
        same("behind the last row", self.of_table(form, "--from", str(end)), (before, b""))
        same("beyond", self.of_table(form, "--from", str(end + 1), status=3), (b"", b""))

    def check_motif(self):
        """A motif alone: one that is listed, or any."""
        if self.motifs and self.chance.random() < 0.8:
            motif = self.chance.choice(self.motifs)
        else:
            motif = tuple("".join(self.chance.choices("ACGT", k=size))
                          for size, _, _ in self.set.template)
        form = self.chance.choice(self.forms())
        rows = forms.rows(form, forms.laid(self.set, [(motif, self.found.get(motif, []))]))
        spelled = self.chance.choice([self.set.motif(motif), "".join(motif)])
        words = [self.template, spelled, self.fasta, *self.set.options()]
        same("a motif", forms.without_hex(form, self.places(form, *words)[1]), rows)
        # Its own shape is its template, and its letters tell whether it is mixed.
        alone = self.places(form, self.set.motif(motif), self.fasta)[1]
        same("a motif alone", forms.without_hex(form, alone), rows)

    def check_unfinished(self):
        """A table without its last line: its places, and a status of its own."""
        with open(self.table, "rb") as table:
            lines = table.read().splitlines(keepends=True)
        cut = self.file("cut.tsv", b"".join(lines[:-1]))
        form = self.chance.choice(self.forms())
        _, rows = self.places(form, self.template, self.fasta, "--list", cut,
                              *self.set.options(), status=UNFINISHED)
        same("a table that is not whole", forms.without_hex(form, rows), forms.rows(form, self.rows))

    def check_job(self, wanted):
        """The same search as a job."""
        job = os.path.join(self.folder, "set.job")
        table = self.run("search", self.template, self.set.asked, self.fasta,
                         *self.set.options(), "--job", job)
        with open(self.table, "rb") as other:
            same("a job's table", table, other.read())
        for form, rows in wanted.items():
            same(f"a job's {form}", forms.without_hex(form, self.places(form, "--job", job)[1]),
                 forms.without_hex(form, rows))

    def check_cut_out(self, bed):
        """The letters that bedtools cuts out of the sequences at the blocks."""
        if not bed:
            return
        plain = b"".join(b">" + name + b"\n" + letters.encode() + b"\n"
                         for name, letters in self.set.records if letters)
        cut = tool("bedtools", "getfasta", "-split", "-tab",
                   "-fi", self.file("plain.fa", plain), "-bed", self.file("rows.bed", bed))
        lines = cut.splitlines()
        same("bedtools' lines", len(lines), len(self.rows))
        for line, row in zip(lines, self.rows):
            letters = line.rpartition(b"\t")[2].decode()
            motif = "".join(row.motif)
            fits = len(letters) == len(motif) and all(
                base in enumeration.BASES[x] for base, x in zip(letters, motif))
            if not fits:
                raise Differs(f"bedtools cuts out {letters} for {motif}")

    def check_joined(self):
        """Two outputs in one file: of two templates, and of two motifs."""
        other, allowances = drawn(self.chance, self.set.sequences)
        shape = in_shape(other, ["N" * size for size, _, _ in other])
        mixed = [] if allowances is None else ["--mixed", ",".join(map(str, allowances))]
        table = os.path.join(self.folder, "other.tsv")
        self.run("search", shape, self.set.asked, self.fasta, *mixed, "--out", table)
        outputs = [self.of_table("gff")]
        if (shape, allowances) != (self.template, self.set.allowances):
            outputs.append(self.places("gff", shape, self.fasta, "--list", table, *mixed))
        self.join(outputs)
        if len(self.motifs) > 1:
            two = self.chance.sample(self.motifs, 2)
            self.join([self.places("gff", self.template, self.set.motif(motif), self.fasta,
                                   *self.set.options()) for motif in two])

    def join(self, outputs):
        """The rows of all outputs under the first one's header."""
        joined = b"".join(rows for _, rows in outputs)
        ids = re.findall(rb"ID=([^;\n]*)", joined)
        same("IDs that are apart", len(set(ids)), len(ids))
        self.validate(outputs[0][0] + joined)

    def validate(self, gff):
        """What gt says of a GFF file."""
        said = tool("gt", "gff3validator", self.file("rows.gff", gff))
        same("gt gff3validator", said, b"input is valid GFF3\n")


def tool(*words):
    """What another program writes, which must have nothing to complain of."""
    done = subprocess.run(words, stdin=subprocess.DEVNULL, capture_output=True, check=False)
    # bedtools says that it makes an index.
    said = re.sub(rb"index file \S* not found, generating...\n", b"", done.stderr)
    if done.returncode != 0 or said:
        raise Differs(f"{' '.join(words)}\n  {said.decode(errors='replace')[:500]}")
    return done.stdout


def main():
    words = argparse.ArgumentParser(description="compares places with an enumeration")
    words.add_argument("program")
    words.add_argument("--sets", type=int, default=300)
    words.add_argument("--seed", type=int, default=35)
    words.add_argument("--first", type=int, default=1, help="the first set's number")
    asked = words.parse_args()
    program = os.path.abspath(asked.program)
    for name in ["bedtools", "gt"]:
        if shutil.which(name) is None:
            sys.exit(f"{name} is not on the PATH")
    begun, rows, motifs, mixed, differ = time.time(), 0, 0, 0, 0
    for number in range(asked.first, asked.first + asked.sets):
        folder = tempfile.mkdtemp(prefix=f"places-{number}-")
        try:
            trial = Trial(program, folder, number, random.Random(f"{asked.seed} {number}"))
            rows, motifs = rows + len(trial.rows), motifs + len(trial.motifs)
            mixed += trial.set.allowances is not None
            trial.check()
            shutil.rmtree(folder)
        except Differs as why:
            differ += 1
            print(f"set {number} ({folder}): {why}", flush=True)
    took = time.time() - begun
    print(f"{asked.sets} sets ({mixed} mixed), {motifs} motifs, {rows} rows: "
          f"{differ} differ; {took:.0f} s")
    sys.exit(differ > 0)


if __name__ == "__main__":
    main()
