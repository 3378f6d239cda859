#!/usr/bin/env python3
"""Has other tools write the sheets of this folder: oracle/sheets/make.py

It needs ssconvert, soffice, sqlite3, mlr and perl with Text::CSV. Each grid goes in as plain comma-separated text; what a
tool wrote stays here byte by byte, whatever it made of the grid: WAY/GRID_ROWSxCOLS.csv. README.md has the ways and the
versions that these files are from.
"""

import csv
import subprocess
import tempfile
from pathlib import Path

HERE = Path(__file__).parent
LONG = list(range(64))
GRIDS = {
    # a lone 0, a 0 among others, blanks, the last field blank
    "lone_zero": [[[0], [], [1]], [[2, 0], [0], []]],
    # nothing but lone zeros
    "zeros": [[[0], [0]], [[0], [0]], [[0], [0]]],
    # the last record and the last column blank
    "blank_edges": [[[1], [2], []], [[0], [3, 4], []], [[], [], []]],
    # a record and a column blank in the middle
    "blank_middle": [[[1], [], [2]], [[], [], []], [[3], [], [0]]],
    # nothing but blanks
    "all_blank": [[[], []], [[], []]],
    # one column, with a blank in the middle
    "column": [[[0]], [[]], [[5, 7]]],
    # large numbers, and lists that look like dates and thousands
    "numbers": [[[4294967295], [1, 2, 2024], [12, 31]], [[1000000], [1, 0], [1, 234, 567]]],
    # all 64 strands of a system in a list
    "long": [[LONG, []], [[0], LONG[::-1]]],
    # more rows than columns, a lone 0 in every third bay
    "plate": [[[[0], [], [row, column + 1]][(row + column) % 3] for column in range(4)] for row in range(12)],
}


def cell(tiles):
    return " ".join(map(str, tiles))


def number_or_text(tiles):
    """As a spreadsheet has it: a lone number is one, all else is text."""
    return tiles[0] if len(tiles) == 1 else cell(tiles)


def by_python(lines, name, **form):
    with open(name, "w", newline="", encoding="ascii") as out:
        csv.writer(out, **form).writerows(lines)


PYTHON = {
    "python_excel": {"dialect": "excel"},
    "python_unix": {"dialect": "unix"},
    "python_nonnumeric": {"quoting": csv.QUOTE_NONNUMERIC},
    "python_cr": {"lineterminator": "\r"},
}

# The commands of each way, from in.csv to out.csv.
GNUMERIC_IN = ["ssconvert", "-I", "Gnumeric_stf:stf_csvtab", "in.csv"]
GNUMERIC_SHOWN = ["ssconvert", "-T", "Gnumeric_stf:stf_assistant", "-O"]
GNUMERIC_SHOWN += ["separator=, eol=windows quoting-mode=always format=preserve"]
HIDE_ZEROS = """zcat x.gnumeric | sed 's/Format="General"/Format="0;-0;;@"/' > y.gnumeric"""
CALC = ["soffice", "--headless", "--convert-to"]
CALC_QUOTED = "csv:Text - txt - csv (StarCalc):44,34,76,1,,0,true,true,false"
PERL = 'my $c = Text::CSV->new({binary => 1, eol => "\\r\\n"}); open my $i, "<", "in.csv"; open my $o, ">", "out.csv";'
PERL += "while (my $r = $c->getline($i)) { $c->print($o, $r) }"
COMMANDS = {
    "gnumeric_ods": [[*GNUMERIC_IN, "x.ods"], ["ssconvert", "x.ods", "out.csv"]],
    "gnumeric_xlsx": [[*GNUMERIC_IN, "x.xlsx"], ["ssconvert", "x.xlsx", "out.csv"]],
    "gnumeric_shown": [[*GNUMERIC_IN, "x.gnumeric"], [*GNUMERIC_SHOWN, "x.gnumeric", "out.csv"]],
    "gnumeric_hidden": [[*GNUMERIC_IN, "x.gnumeric"], ["sh", "-c", HIDE_ZEROS], [*GNUMERIC_SHOWN, "y.gnumeric", "out.csv"]],
    "calc_ods": [[*CALC, "ods", "in.csv"], ["mv", "in.ods", "out.ods"], [*CALC, "csv", "out.ods"]],
    "calc_xlsx": [[*CALC, "xlsx", "in.csv"], ["mv", "in.xlsx", "out.xlsx"], [*CALC, "csv", "out.xlsx"]],
    "calc_quoted": [[*CALC, "ods", "in.csv"], ["mv", "in.ods", "out.ods"], [*CALC, CALC_QUOTED, "out.ods"]],
    "miller": [["sh", "-c", "mlr --csv --implicit-csv-header --headerless-csv-output cat in.csv > out.csv"]],
    "perl": [["perl", "-MText::CSV", "-e", PERL]],
}


def by_sqlite(columns):
    names = ", ".join(f"c{number}" for number in range(columns))
    table = f"create table t({names});"
    return [["sqlite3", ":memory:", table, ".mode csv", ".import in.csv t", ".once out.csv", "select * from t;"]]


def made(way, grid, rows):
    (HERE / way).mkdir(exist_ok=True)
    return HERE / way / f"{grid}_{len(rows)}x{len(rows[0])}.csv"


def make(grid, rows):
    for way, form in PYTHON.items():
        mixed = form.get("quoting") == csv.QUOTE_NONNUMERIC
        lines = [[number_or_text(tiles) if mixed else cell(tiles) for tiles in row] for row in rows]
        by_python(lines, made(way, grid, rows), **form)
    for way, commands in {**COMMANDS, "sqlite": by_sqlite(len(rows[0]))}.items():
        with tempfile.TemporaryDirectory() as folder:
            plain = "".join(",".join(map(cell, row)) + "\r\n" for row in rows)
            (Path(folder) / "in.csv").write_text(plain, "ascii", newline="")
            for command in commands:
                subprocess.run(command, cwd=folder, check=True, capture_output=True)
            made(way, grid, rows).write_bytes((Path(folder) / "out.csv").read_bytes())


if __name__ == "__main__":
    for grid, rows in GRIDS.items():
        make(grid, rows)
