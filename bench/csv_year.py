#!/usr/bin/env python3
"""The shortest way to a year's methane in Python, for bench/run: the csv module, and fed of each row in whole mg, rounded up.

Usage: bench/csv_year.py FILE, a CSV as tests/year_inputs.py makes it: semicolons, and percent with a decimal comma and four decimals.
No rule, no check, no file written: less than ./flare year does.
"""
import csv
import sys

with open(sys.argv[1], encoding="utf-8-sig", newline="") as file:
    rows = csv.reader(file, delimiter=";")
    header = next(rows)
    litres, methane = header.index("litres"), header.index("ch4_percent")
    fed = 0
    for row in rows:
        if row[litres] != "0":
            ppm = int(row[methane].replace(",", ""))
            fed += (716 * int(row[litres]) * ppm + 999999) // 1000000
print("fed", fed)
