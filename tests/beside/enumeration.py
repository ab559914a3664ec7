"""What a search and a list of occurrences hold, by the definitions alone.

Written from Zhang and Zaki (2006) and docs/RULES.md, and from no code of the
program: every way to set down a template's components in a sequence is tried,
one after the other. So it is slow, and takes small sets.

A template is a list of components (length, l, u): its letters, and the fewest
and the most positions between it and the component before. Allowances are None
of an exact search, else the most mixed letters of each component.
"""

import itertools

# The letters of a motif in their order, and the bases that each stands for.
BASES = {
    "A": "A", "C": "C", "G": "G", "T": "T",
    "R": "AG", "Y": "CT", "K": "GT", "M": "AC", "S": "CG", "W": "AT",
    "B": "CGT", "D": "AGT", "H": "ACT", "V": "ACG",
}
PLACE = {letter: place for place, letter in enumerate(BASES)}
COVERING = {base: [x for x in BASES if base in BASES[x]] for base in "ACGT"}


def settings(template, length):
    """Every way to set down the components in so many letters: the starts,
    from 1, the first start slowest."""
    def after(i, end):
        if i == len(template):
            yield ()
            return
        size, low, high = template[i]
        # Before the first component there may be any number of letters.
        gaps = range(length) if i == 0 else range(low, high + 1)
        for gap in gaps:
            start = end + gap + 1
            if start + size - 1 > length:
                break
            for rest in after(i + 1, start + size - 1):
                yield (start,) + rest
    return after(0, 0)


def count(template, length):
    """How many ways there are."""
    ways = [1] * (length + 1)  # by the letters that are left, of no component
    for i in range(len(template) - 1, -1, -1):
        size, low, high = template[i]
        gaps = range(length + 1) if i == 0 else range(low, high + 1)
        ways = [sum(ways[left - gap - size] for gap in gaps if gap + size <= left)
                for left in range(length + 1)]
    return ways[length]


def word(sequence, template, starts):
    """The letters that stand at a setting, a text for each component."""
    return tuple(sequence[start - 1:start - 1 + size]
                 for start, (size, _, _) in zip(starts, template))


def covers(text, allowance):
    """The texts that fit a component's letters, with at most so many letters
    that stand for several bases."""
    if allowance is None:
        return [text]
    found = [""]
    for base in text:
        found = [before + x for before in found for x in COVERING[base]
                 if mixed(before + x) <= allowance]
    return found


def mixed(text):
    """How many letters stand for several bases."""
    return sum(len(BASES[x]) > 1 for x in text)


def motifs_of(letters, allowances):
    """The motifs that fit the letters of a setting."""
    each = allowances or [None] * len(letters)
    return itertools.product(*(covers(text, most) for text, most in zip(letters, each)))


def in_letter_order(motif):
    return [PLACE[x] for x in "".join(motif)]


def occurrences(sequences, template, allowances):
    """Every motif that occurs, with all of its occurrences in their order: the
    sequence's number, from 1, and the starts."""
    found = {}
    for number, sequence in enumerate(sequences, 1):
        fitting = {}
        for starts in settings(template, len(sequence)):
            letters = word(sequence, template, starts)
            if letters not in fitting:
                fitting[letters] = list(motifs_of(letters, allowances))
            for motif in fitting[letters]:
                found.setdefault(motif, []).append((number, starts))
    return found


def support(rows):
    """How many sequences hold a motif."""
    return len({number for number, _ in rows})


def frequent(found, quorum):
    """The motifs that enough sequences hold, in letter order."""
    enough = (motif for motif, rows in found.items() if support(rows) >= quorum)
    return sorted(enough, key=in_letter_order)


def steps(sequences, template, allowances, quorum):
    """How many candidates a whole search examines: every letter that may stand
    behind a frequent prefix shorter than a motif. The empty one is frequent."""
    taken = 0
    for i, (size, low, high) in enumerate(template):
        most = allowances and allowances[i]
        for letters in range(size):
            if letters == 0:
                # The prefix ends with the component before, whole.
                cut, given = template[:i], allowances and allowances[:i]
            else:
                cut = template[:i] + [(letters, low, high)]
                given = allowances and allowances[:i + 1]
            for prefix in prefixes(sequences, cut, given, quorum):
                used = mixed(prefix[-1]) if letters else 0
                taken += 4 if most is None or used >= most else len(BASES)
    return taken


def prefixes(sequences, cut, allowances, quorum):
    """The prefixes that enough sequences hold."""
    if not cut:
        return [()]
    held = {}
    for sequence in sequences:
        standing = {word(sequence, cut, starts) for starts in settings(cut, len(sequence))}
        for prefix in {m for letters in standing for m in motifs_of(letters, allowances)}:
            held[prefix] = held.get(prefix, 0) + 1
    return [prefix for prefix, sequences_ in held.items() if sequences_ >= quorum]
