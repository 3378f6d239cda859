"""The rules for the least-energy run, read on their own: refusals 1 to 5 and 7 to 10, the ledger, the trace.

Nothing here comes from the Rust. Beside each refusal stands what the Rust is known to do there (verdicts.py). The Rust has
no ledger: its line is the energy and the layout, and the rules add the rest. Where energies tie its layout is any of
several, so that the line is the rules', and the Rust's has to be a legal layout of the same energy.
"""

from itertools import product
from math import inf, prod

from casefile import read_number, read_or, write_float, write_list
from energy_rules import edge, is_asked, site
from names_rules import kept, when
from systems_rules import EAST, NORTH, R, SOUTH, WEST, System, legal_sets, read_constraints, scan, shapes, system
from verdicts import CANNOT, PANICS, judged

# The rules' limit of rows; the rows up to which the Rust is asked, whose tables grow likewise; the rows that a line shows.
LIMIT, ASKED, SHOWN = 1_048_576, 65_536, 256

# Where the Rust answers though 01 refuses, and where its layout is by the order of a hash map.
SHORT = "a ledger shorter than the need"
NO_SUM = "a scan sum that is NaN or minus infinity"
TIE = "energies that tie, a layout by hash order"


def need(counts, short):
    """The rows of all blocks, of the numbers of legal strands in scan order and the grid's shorter side."""
    return sum(prod(counts[max(0, bay - short) : bay]) for bay in range(1, len(counts) + 1))


def rows_needed(s, sets):
    """The need of a system, of the legal strands of each bay."""
    return need([len(sets[bay]) for bay in scan(s)], min(s.rows, s.cols))


class Run:
    """The ledger of a system: a block for each bay in scan order, of each choice of strands on the last bays its energy, the
    strand that left, and whether another leaving strand gives the same. `bad` if an energy is NaN or minus infinity."""

    def __init__(self, s, sets):
        self.s, self.order, self.short = s, scan(s), min(s.rows, s.cols)
        self.sets = [sorted(sets[bay]) for bay in self.order]
        # The sides by which a bay meets the previous major line, and the previous bay of its own.
        sides = [(SOUTH, NORTH), (EAST, WEST)]
        line, along = sides if s.cols <= s.rows else reversed(sides)
        self.line, self.along = self._bonds(line), self._bonds(along)
        self.bad, self.blocks = False, [{(): (0.0, 0, False)}]
        for step in range(len(self.order)):
            self.blocks.append(self._block(step))
            if self.bad:
                break

    def _bonds(self, sides):
        strands = sorted(set().union(*self.sets))
        return {(a, b): edge(self.s, a, b, *sides) for a, b in product(strands, repeat=2)}

    def added(self, step, before, previous, strand):
        """What a bay adds: (bay + bond to the previous major line) + bond to the previous bay of this line."""
        energy = site(self.s, self.order[step], strand)
        if step >= self.short:
            energy += self.line[before, strand]
        if step % self.short > 0:
            energy += self.along[previous, strand]
        return energy

    def _block(self, step):
        """The rows after a bay, oldest bay slowest, newest fastest."""
        before, rows = self.blocks[-1], {}
        leavers = self.sets[step - self.short] if step >= self.short else [None]
        known = {}
        for window in product(*self.sets[max(0, step + 1 - self.short) : step + 1]):
            *older, strand = window
            previous = older[-1] if older else None
            best = None
            for leaver in leavers:
                key = (leaver, previous, strand)
                if key not in known:
                    known[key] = self.added(step, *key)
                energy = before[self.earlier(step, window, leaver)][0] + known[key]
                self.bad = self.bad or not energy > -inf
                if best is None or energy < best[0]:
                    best = (energy, leaver or 0, False)
                elif energy == best[0]:
                    best = (*best[:2], True)
            rows[window] = best
        return rows

    def earlier(self, step, window, leaver):
        """The choice before this one, of which the leaving strand is known."""
        return window[:-1] if step < self.short else (leaver, *window[:-1])

    def least(self):
        """The least sum, its layout row by row, and whether another layout has it."""
        last = self.blocks[-1]
        window = min(last, key=lambda choice: last[choice][0])
        total = last[window][0]
        tied = [row[0] for row in last.values()].count(total) > 1
        layout = [0] * self.s.bays
        for step in reversed(range(self.s.bays)):
            layout[self.order[step]] = window[-1]
            _, leaver, also = self.blocks[step + 1][window]
            tied = tied or also
            window = self.earlier(step, window, leaver)
        return total, layout, tied

    def scan_sum(self, layout):
        """The scan sum of a legal layout, or None."""
        strands = [layout[bay] for bay in self.order]
        if any(strand not in legal for strand, legal in zip(strands, self.sets)):
            return None
        total = 0.0
        for step, strand in enumerate(strands):
            total += self.added(step, strands[step - self.short], strands[step - 1], strand)
        return total

    def rows(self):
        return [row for block in self.blocks[1:] for row in block.values()]


def _least(s, total, layout):
    return f"least {write_float(total * (R * s.kelvin))} layout={write_list(layout)}"


def _ledger(run):
    """What the line says of the ledger, of which the Rust has nothing."""
    rows = run.rows()
    told = f" need={len(rows)}"
    if len(rows) <= SHOWN:
        energies, leaving = [write_float(row[0]) for row in rows], [row[1] for row in rows]
        told += f" energies={write_list(energies)} leaving={write_list(leaving)}"
    return told


def _ties(run, total):
    """Whether a line of the Rust's is the least energy and a legal layout that has it."""

    def fits(rust):
        layout = [int(strand) for strand in rust.partition("layout=")[2].split(",")]
        return rust == _least(run.s, total, layout) and run.scan_sum(layout) == total

    return fits


def _filled(s, sets, reasons, askable):
    """The verdict once a ledger is made, or would be: 10, or the answer."""
    run = Run(s, sets)
    if run.bad:
        return judged(reasons + when(True, "10 cleared", NO_SUM), [], None, askable)
    total, layout, tied = run.least()
    told, rest = _least(s, total, layout), _ledger(run)
    verdict = judged(reasons, [], told + rest, askable)
    if verdict.rust == "answer":
        verdict.answer, verdict.rest = told, rest
        if tied:
            verdict.line, verdict.difference = verdict.line or told + rest, verdict.difference or TIE
            verdict.answer, verdict.fits = None, _ties(run, total)
    return verdict


def _before(s, offsets, tiles, layout):
    """1 to 5. Systems that 1 to 3 refuse, and slices that it has not, are not put to the Rust."""
    reasons = system(s, True) + shapes(s, offsets, tiles, layout)
    return kept([(line, PANICS if line.startswith("refused 4") else CANNOT) for line, _ in reasons])


def _mfe_configuration(fields):
    s = System(fields)
    offsets, tiles = read_constraints(fields)
    layout = read_or(fields, "layout_length", read_number, s.bays)
    lent = [read_or(fields, key, read_number, None) for key in ["energies_length", "leaving_length"]]
    reasons = _before(s, offsets, tiles, layout)
    if reasons:
        return judged(reasons, [], None, is_asked(s))
    sets = legal_sets(s, offsets, tiles)
    rows = rows_needed(s, sets)
    askable = is_asked(s) and rows <= ASKED
    empty = [bay for bay in scan(s) if not sets[bay]]
    reasons = when(empty, f"7 {empty[0]}" if empty else "", PANICS) + when(rows > LIMIT, 8, CANNOT)
    if reasons:
        return judged(kept(reasons), [], None, askable)
    reasons = kept(when(any(length is not None and length < rows for length in lent), f"9 {rows}", SHORT))
    if reasons and not askable:
        return judged(reasons, [], None, False)
    return _filled(s, sets, reasons, askable)


CALLS = {"mfe_configuration": _mfe_configuration}
