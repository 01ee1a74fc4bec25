#!/usr/bin/env python3
"""What LibreOffice made, beside what ./flare year wrote; tests/workbook calls it.

    tests/workbook_compare.py day DAY FOLDER      DAY.site, DAY.csv and FOLDER/{minutes,sheet}.csv, beside FOLDER/workbook-{Site,Day}.csv
    tests/workbook_compare.py opened FOLDER MARK  FOLDER/{minutes,sheet}.csv, with that decimal mark, beside the .fods that they opened as
"""
import csv
import sys
import xml.etree.ElementTree as tree
from decimal import Decimal, InvalidOperation

OFFICE, TABLE = (f"{{urn:oasis:names:tc:opendocument:xmlns:{name}:1.0}}" for name in ("office", "table"))
READINGS, RULE, FIGURES = slice(1, 14), 23, slice(25, 28)  # columns of the sheet Day
YEAR_ROW = 13  # of sheet.csv, after its heading and the months


def difference(words):
    sys.exit(f"difference: {words}")


def table(path, separator=","):
    with open(path, encoding="utf-8", newline="") as file:
        return list(csv.reader(file, delimiter=separator))


def numbers(cells):
    try:
        return [Decimal(cell) if cell else None for cell in cells]
    except InvalidOperation:
        return difference(f"not all are numbers: {cells}")


# ---- The workbook's day. ----

def compare_site(day, sheet):
    with open(day + ".site", encoding="utf-8") as file:
        lines = [line.split("#")[0].split() for line in file]
    for (name, value), (sheet_name, sheet_value, *_) in zip(filter(None, lines), sheet, strict=True):
        plain = value.replace(".", "").isdigit()
        if name != sheet_name or (Decimal(value) != Decimal(sheet_value) if plain else value != sheet_value):
            difference(f"the site has {name} {value}, the workbook {sheet_name} {sheet_value}")


def compare_minutes(told, readings, workbook):
    """The readings and the rule are the same, the three figures at most 1 mg apart; gives how many minutes are."""
    apart = 0
    for minute, read, row in zip(told, readings, workbook, strict=True):
        _, time, rule, *figures = minute
        if not time == read[0] == row[0][:16] or numbers(read[READINGS]) != numbers(row[READINGS]):
            difference(f"{time}: the readings are {read}, in the workbook {row[:READINGS.stop]}")
        off = max(abs(a - b) for a, b in zip(numbers(figures), numbers(row[FIGURES]), strict=True))
        if rule != row[RULE] or off > 1:
            difference(f"{time}: rule {rule} and {figures} mg, in the workbook rule {row[RULE]} and {row[FIGURES]}")
        apart += off > 0
    return apart


def compare_sums(year, sums, kilograms, tonnes, gwp):
    """At most 1 mg for each minute; of the CO2 equivalent, as many times the GWP."""
    _, minutes, gas, *figures = year
    if (minutes, gas) != (sums[1], sums[3]):
        difference(f"{minutes} minutes, {gas} with gas; in the workbook {sums[1]} and {sums[3]}")
    most = Decimal(int(minutes)) / 1000000
    there = [*kilograms[FIGURES], tonnes[FIGURES.start + 1]]
    for a, b, off in zip(numbers(figures), numbers(there), [most, most, most, gwp * most / 1000], strict=True):
        if abs(a - b) > off:
            difference(f"the sums are {figures} in kg and t, in the workbook {there}")


def compare_day(day, folder):
    site = table(folder + "/workbook-Site.csv")[2:14]
    compare_site(day, site)
    _, sums, kilograms, tonnes, _, _, *workbook = table(folder + "/workbook-Day.csv")
    apart = compare_minutes(table(folder + "/minutes.csv")[1:], table(day + ".csv")[1:], workbook)
    compare_sums(table(folder + "/sheet.csv")[YEAR_ROW], sums, kilograms, tonnes, int(site[2][1]))
    rules = " ".join(sorted({row[RULE] for row in workbook}))
    print(f"workbook: {len(workbook)} minutes, of the rules {rules}, and their sums hold; {apart} of them are 1 mg apart")


# ---- What ./flare year wrote, opened. ----

def opened_cells(row):
    """Type and value of each cell; cells that are alike stand there once, with how often they come."""
    for cell in row.iter(TABLE + "table-cell"):
        kind = cell.get(OFFICE + "value-type")
        for _ in range(int(cell.get(TABLE + "number-columns-repeated", 1)) if kind else 0):
            yield kind, cell.get(OFFICE + "value") or cell.get(OFFICE + "date-value") or "".join(cell.itertext()).strip()


def opened_rows(path):
    for row in tree.parse(path).iter(TABLE + "table-row"):
        cells = list(opened_cells(row))
        for _ in range(int(row.get(TABLE + "number-rows-repeated", 1)) if cells else 0):
            yield cells


def compare_opened(folder, name, mark):
    """Words are in the heading and before the year's sums; a time opens as a date, and all else as the number that it is."""
    separator = next(letter for letter in "\t;," if letter in open(f"{folder}/{name}.csv").readline())
    rows = table(f"{folder}/{name}.csv", separator)
    for line, (words, cells) in enumerate(zip(rows, opened_rows(f"{folder}/{name}.fods"), strict=True), 1):
        for column, word, (kind, value) in zip(rows[0], words, cells, strict=True):
            expected = "string" if line == 1 or word == "year" else "date" if column == "time" else "float"
            if kind != expected or (kind == "float" and float(value) != float(word.replace(mark, "."))):
                difference(f"{folder}/{name}.csv, line {line}, {column}: {word} opens as {kind} {value}, not as {expected}")
    return len(rows)


def main():
    if len(sys.argv) != 4 or sys.argv[1] not in ("day", "opened"):
        sys.exit(__doc__)
    _, what, first, second = sys.argv
    if what == "day":
        return compare_day(first, second)
    rows = [compare_opened(first, name, second) for name in ("sheet", "minutes")]
    print(f"workbook: {rows[0]} lines of sheet.csv and {rows[1]} of minutes.csv open as numbers, with the mark {second}")
    return None


if __name__ == "__main__":
    sys.exit(main())
