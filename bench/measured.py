"""Reads the systems and what the three programs measured of them, and holds their answers against one another."""
import math
import sys

PROGRAMS = ("rattle", "plain", "rgrow")


class Measured:
    """A system: its fields, and for each program the least and the median time of its runs in nanoseconds."""

    def __init__(self, line, answers):
        fields = dict(word.split("=", 1) for word in line.split()[1:])
        number = lambda key: int(fields[key])
        self.series, self.rows, self.cols = fields["series"], number("rows"), number("cols")
        self.need, self.candidates = number("need"), number("candidates")
        self.legal = legal(fields)
        self.least = {name: min(int(words[2]) for words in all) for name, all in answers.items()}
        medians = {name: sorted(int(words[3]) for words in all) for name, all in answers.items()}
        self.median = {name: all[len(all) // 2] for name, all in medians.items()}

    def each(self, program):
        """Nanoseconds a candidate."""
        return self.least[program] / self.candidates

    def ratio(self, program):
        return self.least[program] / self.least["plain"]


def legal(fields):
    """The least and the greatest number of legal strands on a bay, by the rule."""
    numbers = lambda key: [int(item) for item in fields.get(key, "").split(",") if item]
    cells = iter(numbers("cells"))
    bound = set(zip(cells, cells))
    bottoms, cols = numbers("strand_glues")[4::5], int(fields["cols"])
    seeds = {row * cols + col: strand for row, col, strand in zip(*[iter(numbers("seeds"))] * 3)}
    offsets, tiles = numbers("offsets"), numbers("tiles")
    counts = []
    for bay, glue in enumerate(numbers("scaffold")):
        strands = {0} | {strand for strand, bottom in enumerate(bottoms) if strand and (glue, bottom) in bound}
        if bay in seeds:
            strands = {seeds[bay]}
        listed = tiles[offsets[bay] : offsets[bay + 1]] if offsets else []
        counts.append(len(strands & set(listed)) if listed else len(strands))
    return min(counts), max(counts)


def lines(file):
    with open(file) as text:
        return text.read().splitlines()


def measured(out, rounds):
    """Every system, once all programs have answered the same energies and both ledgers are the same."""
    systems = lines(f"{out}/systems")
    answers = {name: [[line.split() for line in lines(f"{out}/{name}.{i + 1}")] for i in range(rounds)] for name in PROGRAMS}
    all = []
    for at, line in enumerate(systems):
        here = {name: [each[at] for each in answers[name]] for name in PROGRAMS}
        energies = {words[0] for words_of in here.values() for words in words_of}
        left = {words[1] for name in ("rattle", "plain") for words in here[name]}
        if len(energies) != 1 or len(left) != 1:
            sys.exit(f"system {at}: the answers differ: energies {energies}, ledgers and layouts {left}")
        all.append(Measured(line, here))
    return all


def mean(ratios):
    """The geometric mean."""
    return math.exp(sum(map(math.log, ratios)) / len(ratios))


# Of each series: what varies in it, what does not, and how it is read off a system.
SERIES = {
    "bays": ("bays", "four rows, 5 legal strands a bay", lambda s: s.rows * s.cols),
    "strands": ("legal strands a bay", "3×12", lambda s: s.legal[1]),
    "rows": ("rows of the ledger", "60 bays, 5 legal strands a bay", lambda s: s.need),
}
