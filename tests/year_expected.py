#!/usr/bin/env python3
"""What `./flare year --records` must write of a site file and a CSV: the converter's records, and the reference's figures of them.

    tests/year_expected.py REFERENCE CASE ..    each CASE is a folder with `site` and `minutes`

Into CASE/expected go minutes.csv, sheet.csv, records and `summary`, which is what is printed without the names of the rules; or
`fault` alone, the first thing that is wrong: its kind, the line, and the columns of which one is to be named, or - for none.
REFERENCE is the program of tests/reference_main.c.
"""
import os
import subprocess
import sys

from converter import Clock, Fault, Minutes, read_site, site_record


def reference_lines(reference, words, records):
    done = subprocess.run([reference, *words], input=records, stdout=subprocess.PIPE, check=True)
    return done.stdout.decode().split("\n")[:-1]


def decimals(value, places, mark):
    """The whole number of the last place, written out: 1234567 with six places is 1.234567."""
    whole, rest = divmod(value, 10**places)
    return f"{whole}{mark}{rest:0{places}}"


def sheet_of(lines, separator):
    """Twelve months and the year; the words of a line are `month 1 minutes .. gas .. fed .. emitted .. destroyed .. co2e ..`."""
    mark = "," if separator == ";" else "."
    rows = [["month", "minutes", "minutes_with_gas", "fed_kg", "emitted_kg", "destroyed_kg", "co2e_t"]]
    for words in map(str.split, lines):
        if words[0] not in ("month", "total"):
            continue
        name, figures = (words[1], words[3::2]) if words[0] == "month" else ("year", words[1::2])
        minutes, gas, fed, emitted, destroyed, co2e = figures
        kilograms = (decimals(int(mg), 6, mark) for mg in (fed, emitted, destroyed))
        rows.append([name, minutes, gas, *kilograms, decimals(int(co2e), 9, mark)])
    return "".join(separator.join(row) + "\n" for row in rows)


def minutes_of(lines, clock, separator):
    """The words of a line are `minute 0 rule 3 fed .. emitted .. destroyed ..`."""
    text = [separator.join(["minute", "time", "rule", "fed_mg", "emitted_mg", "destroyed_mg"])]
    for line in lines:
        _, minute, _, rule, _, fed, _, emitted, _, destroyed = line.split(" ")
        text.append(separator.join([minute, clock.text(int(minute)), rule, fed, emitted, destroyed]))
    return "\n".join(text) + "\n"


def summary_of(lines, end):
    counts = {rule: 0 for rule in "0124563789"}
    for line in lines:
        counts[line.split(" ", 4)[3]] += 1
    return "".join(f"rule {rule} minutes {count}\n" for rule, count in counts.items()) + "\n".join(end) + "\n"


def expected(reference, site, minutes):
    """The files that must come out, by name; or a Fault is raised."""
    values, days = read_site(site)
    words, head = list(map(str, days)), site_record(values)
    first = reference_lines(reference, words, head)[0]
    if first.startswith("site refused"):
        raise Fault(first)
    reader, later = Minutes(Clock(values["year"])), None
    try:
        reader.read(minutes)
    except Fault as fault:
        later = fault
    records = head + b"".join(reader.records)
    *lines, total, year = reference_lines(reference, words, records)
    if lines and " refused " in lines[-1]:
        raise Fault("refused " + lines[-1].split()[-1], reader.lines[len(lines) - 1])
    if later:
        raise later
    separator = reader.separator.decode()
    months = reference_lines(reference, ["--months", *words], records)
    return {"records": records, "minutes.csv": minutes_of(lines, reader.clock, separator).encode(),
            "sheet.csv": sheet_of(months, separator).encode(), "summary": summary_of(lines, [total, year]).encode()}


def contents(*path):
    with open(os.path.join(*path), "rb") as file:
        return file.read()


def main():
    if len(sys.argv) < 3:
        sys.exit("usage: tests/year_expected.py REFERENCE CASE ..")
    for case in sys.argv[2:]:
        try:
            files = expected(sys.argv[1], contents(case, "site"), contents(case, "minutes"))
        except Fault as fault:
            files = {"fault": fault.text().encode()}
        os.makedirs(os.path.join(case, "expected"), exist_ok=True)
        for name, data in files.items():
            with open(os.path.join(case, "expected", name), "wb") as file:
                file.write(data)


if __name__ == "__main__":
    main()
