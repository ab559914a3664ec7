"""Random sets of sequences under odd names, and random templates for them.

A set is small enough to be enumerated: where a template can be set down in more
ways than ROOM, another is drawn.
"""

import math

from enumeration import count

ROOM = 40_000

# Names as they are found in files, and such as a format may stumble over.
FOUND = ["chr1", "NC_000913.3", "gi|556503834|ref|NC_000913.3|", "sp|P0A7B8|HSLV",
         "scaffold_12:100-200", "a%20b", "100%", "%", "%%41", "a;b=c,d&e", "x'y\"z",
         "atrack", "visibility", "1#", "a>b", "-", ".", "*", "\\t", "a[0,3]b", "ID=o0",
         "é".encode().decode("latin-1"), "\xff\xfe", "ä".encode("latin-1").decode("latin-1")]
# Those that BED cannot hold, or that bedtools takes for a header's first word.
NOT_IN_BED = ["#a", "track", "browser", "a\x01b", "\x0b", "\x7f", "\x1b[2J", "#", "tracks",
              "browser1"]


class Set:
    """Records (name, letters), a template, a quorum and, of a mixed search,
    allowances; and for which formats the names will do."""

    def __init__(self, random):
        plain = random.random() < 0.6
        self.gff = plain or random.random() < 0.75
        self.records = records(random, plain, self.gff)
        self.names = [name for name, _ in self.records]
        self.bed = all(map(in_bed, self.names))
        # Whether bedtools can tell the records by their names.
        self.told_apart = self.bed and len(set(self.names)) == len(self.names)
        self.sequences = [letters for _, letters in self.records]
        self.template, self.allowances = drawn(random, self.sequences)
        self.quorum, self.asked = quorum(random, len(self.records))
        self.file = fasta(random, self.records)

    def shape(self):
        return in_shape(self.template, ["N" * size for size, _, _ in self.template])

    def motif(self, motif):
        """A motif as it is listed."""
        return in_shape(self.template, motif)

    def options(self):
        """The search's options."""
        if self.allowances is None:
            return []
        each = self.allowances
        one = len(set(each)) == 1
        return ["--mixed", str(each[0]) if one else ",".join(map(str, each))]


def in_bed(name):
    """Whether a name can stand in BED."""
    return (0 < len(name) <= 255 and not name.startswith(b"#")
            and not name.startswith((b"track", b"browser"))
            and not any(b <= 32 or b == 127 for b in name))


def in_shape(template, texts):
    """Texts of the components with the ranges between them."""
    shape = texts[0]
    for (_, low, high), text in zip(template[1:], texts[1:]):
        shape += f"[{low},{high}]{text}"
    return shape


def records(random, plain, gff):
    """1 to 12 records of 0 to 200 letters."""
    names = []
    for _ in range(random.randint(1, 12)):
        name = named(random, plain)
        while plain and name in names:
            name = named(random, plain)
        if names and not plain and random.random() < 0.2:
            name = random.choice(names)
        names.append(name)
    if not gff:
        names[random.randrange(len(names))] = b""
    # Few different letters, at times, so that much occurs often.
    letters = random.choice(["ACGT", "ACGT", "ACGT", "ACG", "AT", "C"])
    most = random.choice([0, 5, 30, 100, 200, 200])
    return [(name, "".join(random.choices(letters, k=random.randint(0, most)))) for name in names]


def named(random, plain):
    """A name."""
    kind = random.random()
    if kind < 0.5:
        name = random.choice(FOUND if plain else FOUND + NOT_IN_BED)
    elif kind < 0.6:
        name = "L" * random.randint(100, 255 if plain else 2_000)
    else:
        bytes_ = [b for b in range(33, 256) if b != 127]
        name = "n" + "".join(map(chr, random.choices(bytes_, k=random.randint(0, 12))))
    return name.encode("latin-1")


def fasta(random, records_):
    """A file of the records: in lines of any length, with line ends of either
    kind, empty lines, and text behind the names."""
    end = random.choice([b"\n", b"\n", b"\r\n"])
    lines = []
    for name, letters in records_:
        behind = random.choice([b"", b"", b" the rest", b"\tof > it"])
        lines.append(b">" + name + behind)
        width = random.choice([1, 7, 60, 1_000])
        lines += [letters[i:i + width].encode() for i in range(0, len(letters), width)]
        if random.random() < 0.1:
            lines.append(b"")
    file = end.join(lines)
    return file if random.random() < 0.1 else file + end


def drawn(random, sequences):
    """A template, with allowances where the search is a mixed one, that can be
    set down in not too many ways, counted once for each motif that fits."""
    while True:
        template = [(random.randint(1, 4), 0, 0)]
        for _ in range(random.randint(0, 4)):
            low = random.choice([0, 0, 1, 2, random.randint(0, 12)])
            high = min(12, low + random.choice([0, 1, 2, 3, random.randint(0, 12)]))
            template.append((random.randint(1, 4), low, high))
        allowances = None
        ways = sum(count(template, len(sequence)) for sequence in sequences)
        if random.random() < 0.4 and sum(size for size, _, _ in template) <= 16:
            allowances = [random.randint(0, min(2, size)) for size, _, _ in template]
            for (size, _, _), most in zip(template, allowances):
                # A base stands in six letters that stand for several.
                ways *= sum(math.comb(size, i) * 6 ** i for i in range(most + 1))
        if ways <= ROOM:
            return template, allowances


def quorum(random, records_):
    """A quorum, and how it is asked for: a number, or a share, which is the
    least number that reaches it."""
    if random.random() < 0.7:
        number = random.choice([1, random.randint(1, records_), random.randint(1, records_)])
        return number, str(number)
    tenths = random.randint(1, 1_000)
    return -(-records_ * tenths // 1_000), f"{tenths // 10}.{tenths % 10}%"
