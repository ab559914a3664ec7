"""The table of a search, and occurrences as TSV, BED and GFF, as
docs/OPERATORS.md and the formats' own rules have them."""

import re
from collections import namedtuple

# A row of a list: its number in the whole list, the motif, as components and as
# it is listed, the record, and the first and last letter of each component.
Row = namedtuple("Row", "number motif spelled name sequence parts")


def laid(set_, listed):
    """The occurrences of motifs laid end to end."""
    rows = []
    for motif, found in listed:
        spelled = set_.motif(motif)
        for sequence, starts in found:
            parts = [(start, start + size - 1)
                     for start, (size, _, _) in zip(starts, set_.template)]
            rows.append(Row(len(rows), motif, spelled, set_.names[sequence - 1], sequence, parts))
    return rows


def table(set_, motifs, found):
    """A table without its last line."""
    lines = ["motif\tsupport\toccurrences"]
    for motif in motifs:
        sequences = {number for number, _ in found[motif]}
        lines.append(f"{set_.motif(motif)}\t{len(sequences)}\t{len(found[motif])}")
    return "".join(line + "\n" for line in lines).encode()


def escaped(name, stands):
    """A name with % and two digits for each byte that may not stand."""
    return "".join(chr(b) if stands(b) else f"%{b:02X}" for b in name).encode("latin-1")


def in_tsv(name):
    """Control characters and % are escaped."""
    return escaped(name, lambda b: b >= 32 and b not in (127, ord("%")))


def in_gff(name):
    """GFF3's own list of what may stand in a line's first column."""
    return escaped(name, lambda b: re.match(r"[a-zA-Z0-9.:^*$@!+_?|-]", chr(b)) and b < 128)


def rows(form, rows_):
    """The lines of rows in a form."""
    return b"".join({"tsv": tsv, "bed": bed, "gff": gff}[form](row) for row in rows_)


def tsv(row):
    starts = "".join(f"\t{first}" for first, _ in row.parts)
    return b"%s\t%s\t%d%s\n" % (row.spelled.encode(), in_tsv(row.name), row.sequence,
                                starts.encode())


def bed(row):
    start, end = row.parts[0][0] - 1, row.parts[-1][1]
    sizes = ",".join(str(last - first + 1) for first, last in row.parts)
    starts = ",".join(str(first - 1 - start) for first, _ in row.parts)
    whole = f"{start}\t{end}\t{row.spelled}\t0\t+\t{start}\t{end}\t0"
    return row.name + f"\t{whole}\t{len(row.parts)}\t{sizes}\t{starts}\n".encode()


def gff(row):
    """The lines of an occurrence, in whose ID the sum is left out."""
    def line(kind, first, last, attributes):
        columns = f"\ttulfasheq\t{kind}\t{first}\t{last}\t.\t+\t.\t{attributes}\n"
        return in_gff(row.name) + columns.encode()
    name = row.spelled.replace(",", "%2C")
    lines = line("nucleotide_motif", row.parts[0][0], row.parts[-1][1],
                 f"ID=o.{row.number};Name={name}")
    if len(row.parts) > 1:
        for first, last in row.parts:
            lines += line("DNA_motif", first, last, f"Parent=o.{row.number}")
    return lines


def without_hex(form, lines):
    """GFF without the sums in its IDs."""
    if form != "gff":
        return lines
    return re.sub(rb"(\t(?:ID|Parent)=o)[0-9a-f]+\.", rb"\1.", lines)


def parted(form, lines):
    """What stands before the rows, and the rows."""
    if form == "bed":
        return b"", lines
    if form == "tsv":
        header, end, rest = lines.partition(b"\n")
        return header + end, rest
    end = re.match(rb"(?:##[^\n]*\n)*", lines).end()
    return lines[:end], lines[end:]


def check_before(form, set_, before, same):
    """The header of a form."""
    if form == "tsv":
        starts = "".join(f"\tstart{i}" for i in range(1, len(set_.template) + 1))
        same("header", before, f"motif\tname\tsequence{starts}\n".encode())
    if form == "gff":
        lines = before.splitlines(keepends=True)
        same("the first line", lines[:1], [b"##gff-version 3\n"])
        # A line for each name, of the longest record that has it.
        longest = {}
        for name, letters in set_.records:
            longest[name] = max(longest.get(name, 0), len(letters))
        regions = [b"##sequence-region %s 1 %d\n" % (in_gff(name), length)
                   for name, length in longest.items() if length > 0]
        same("the regions", sorted(lines[1:]), sorted(regions))
