"""Ways to break a case on systems: each spoils one thing that a refusal of the rules speaks of.

A fault takes the draw and the fields, and gives new fields. Where several are put into one case, those that 01 tests last
go first, because they need the fields in order.
"""

from casefile import write_float
from draw import NAN, OUTSIDE
from draw_systems import INFINITE, NOT_FINITE, UNKNOWN, lists_of, seed_of, with_lists

HUGE, MOST = 2**64 - 1, 2**32 - 1
NO_LOG = [INFINITE[0], *NAN]


def put(**values):
    return lambda draw, fields: {**fields, **values}


def replaced(fields, key, place, item):
    return {**fields, key: fields[key][:place] + [item] + fields[key][place + 1 :]}


def shorter(key):
    return lambda draw, fields: {**fields, key: fields[key][:-1]}


def longer(key):
    """One item more, like the last, or 0."""
    return lambda draw, fields: {**fields, key: fields[key] + (fields[key][-1:] or [0])}


def side(key, size):
    """A side of another size; of a huge one the sets' length is given, because no table has the right one."""

    def fault(draw, fields):
        given = fields.get("sets_length", len(fields["scaffold"]) if size > 33 else None)
        return {**fields, key: size, "sets_length": given}

    return fault


def matrix(key, by):
    return lambda draw, fields: {**fields, key: min(fields["glues"], 256) ** 2 + by}


def kelvin(draw, fields):
    return {**fields, "kelvin": draw.pick([write_float(draw.pick(OUTSIDE)), draw.pick(NAN)])}


def glue(draw, fields):
    """A glue number that is not below the count, somewhere in the strands' or the scaffold's."""
    key = draw.pick(["strand_glues", "scaffold"])
    place = draw.between(0, len(fields[key]) - 1)
    return replaced(fields, key, place, draw.pick([fields["glues"], fields["glues"], fields["glues"] + 1, 2**31, MOST]))


def energy(draw, fields):
    """A ΔG or a ΔS, or both, that is not finite, in a cell of its own or one that was there."""
    cells = fields["cells"]
    a, b = (draw.between(0, fields["glues"] - 1) for _ in range(2))
    a, b, dg, ds = draw.pick(cells) if cells and draw.often(1, 2) else (a, b, *draw.cell())
    which = draw.between(0, 2)
    dg, ds = dg if which == 0 else draw.pick(NOT_FINITE), ds if which == 1 else draw.pick(NOT_FINITE)
    return {**fields, "cells": [cell for cell in cells if cell[:2] != (a, b)] + [(a, b, dg, ds)]}


def log(draw, fields):
    """A logarithm that is none; where there is only strand 0's, an energy instead."""
    if fields["strands"] < 2:
        return energy(draw, fields)
    return replaced(fields, "logs", draw.between(1, fields["strands"] - 1), draw.pick(NO_LOG))


def seed(draw, fields):
    """A seed off the grid, or of a strand that is not there, before or after the others."""
    row, col, strand = (draw.between(0, fields[key] - 1) for key in ["rows", "cols", "strands"])
    off = draw.pick([0, 0, 1, MOST - 64])
    rows, cols, strands = fields["rows"] + off, fields["cols"] + off, fields["strands"] + off
    bad = draw.pick([[rows, col, strand], [row, cols, strand], [row, col, strands]])
    seeds = fields["seeds"]
    return {**fields, "seeds": draw.pick([bad + seeds, seeds + bad, seeds + bad + bad])}


def sets(draw, fields):
    """Sets of another length."""
    right = fields["rows"] * fields["cols"]
    return {**fields, "sets_length": draw.pick([right - 1, right + 1, right + 1, 0 if right > 1 else 2])}


def ordered(fields):
    """The system under constraints in order, empty ones if it had none."""
    return with_lists(fields, lists_of(fields))


def offsets(draw, fields):
    """Offsets of a wrong count, that do not begin at 0, that fall, or that end beside the tiles' number."""
    fields = ordered(fields)
    starts, end = fields["offsets"], len(fields["tiles"])
    place = draw.between(0, len(starts) - 1)
    wrong = [starts[:-1], starts[1:], starts + [end], [], [0], [1, *starts[1:]], [HUGE, *starts[1:]]]
    wrong += [[*starts[:-1], last] for last in [end + 1, HUGE, end - 1 if end else 1]]
    wrong += [starts[:place] + [end + 1] + starts[place + 1 :]]
    return {**fields, "offsets": draw.pick(wrong)}


def none_legal(draw, fields):
    """Lists that leave one or several bays nothing: unknown numbers alone, or not the seed."""
    lists = lists_of(fields)
    for bay in draw.some(range(len(lists)), draw.between(1, 3)):
        kept, strands = seed_of(fields, bay), fields["strands"]
        unknown = [strands, strands + 1, *(number for number in UNKNOWN if number >= strands)]
        others = [] if kept is None else [strand for strand in range(strands) if strand != kept]
        lists[bay] = draw.some(unknown, draw.between(1, 3)) + draw.some(others, 2)
    return with_lists(fields, lists)


ONES = [side(key, size) for key in ["rows", "cols"] for size in [0, 33, 2**32, HUGE]]
ONES += [put(strands=size) for size in [0, 65, 66, HUGE]] + [put(glues=size) for size in [0, 257]]
ONES += [put(glues=size, delta_g_length=1, entropy_length=1) for size in [258, 2**32, HUGE]] + [kelvin] * 4
ONES += [change(key) for key in ["strand_glues", "scaffold", "logs"] for change in [shorter, longer]] + [longer("seeds")]
ONES += [matrix(key, by) for key in ["delta_g_length", "entropy_length"] for by in [-1, 1]]

# Each refusal with its faults, those that 01 tests last in front.
FAULTS = {7: [none_legal], 5: [sets, offsets, offsets], 4: [seed], 3: [energy, log], 2: [glue], 1: ONES}


def broken(draw, fields, numbers):
    """The system with a fault of each of these refusals."""
    for number, faults in FAULTS.items():
        if number in numbers:
            fields = draw.pick(faults)(draw, fields)
    return fields
