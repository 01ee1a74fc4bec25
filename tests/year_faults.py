"""Inputs with one fault each, of every kind that `./flare year` names, on a line by chance; tests/year_inputs.py writes them."""
import datetime

from year_texts import NAMES, Csv, Site, rows_of, site_bytes

LINES = 160  # at most, before the bad one

# ---- Bad site files: each gives the entries and which of them is wrong, and the fault. ----

BAD_VALUES = {
    "method": ["Default", "0", "", "measured each", "default,"], "year": ["1999", "2100", "27", "2027.0", "", "MMXX"],
    "gwp": ["0", "101", "28.0", "-1", "+28", ""], "height": ["100001", "-1", "12.0", "12m", "4294967297", "99999999999999999999"],
    "diameter": ["0", "100001", "1e3", "", "0x10"], "lowest_temperature": ["-50.1", "1500.1", "20.00", ".5", "-", "--5", "1.5.0", "6553.6"],
    "highest_temperature": ["1500,1", "-51", "9000", "900 C", "1.100", "", "1,2,3"], "lowest_flow": ["100001", "-1", "1 000", "1,000", ""],
    "highest_flow": ["100001", "20.000", "4294967296", "x"], "maintenance_days": ["3661", "-1", "30.0", "thirty", ""],
    "maintained": ["2026-13-01", "2027-02-30", "1.1.2027", "2027-1-1", "27-01-01", "", "2027-01-01 00:00"],
}


def bad_sites(chance):
    """Maker after maker: (entries, place of the bad one or None, kind, column)."""
    for name, values in BAD_VALUES.items():
        for value in chance.sample(values, 2):
            site = Site(chance, False)
            entries = site.entries(chance)
            if name == "maintained":
                entries = [entry for entry in entries if entry[0] != name] + [(name, value)]
                yield entries, len(entries) - 1, "site-value", name
            else:
                place = [entry[0] for entry in entries].index(name)
                entries[place] = (name, value)
                yield entries, place, "site-value", name
    for name in chance.sample(NAMES, 3):
        entries = Site(chance, False).entries(chance)
        yield [entry for entry in entries if entry[0] != name], None, "missing-name", name
        twice = next(entry for entry in entries if entry[0] == name)
        yield entries + [twice], len(entries), "name-twice", name
    for name in "Year", "wind", "year:", "maintained_days":
        entries = Site(chance, False).entries(chance)
        yield entries + [(name, "5")], len(entries), "unknown-name", None
    yield from bad_dates(chance)


def bad_dates(chance):
    site = Site(chance, False)
    site.maintained = []
    others = site.entries(chance)
    dates = lambda days: [("maintained", (datetime.date(site.year, 1, 1) + datetime.timedelta(day)).isoformat()) for day in days]
    for days in [5, 5], [5, 4], [-3661], [366], list(range(65)):
        entries = dates(days) + others if chance.random() < 0.5 else others + dates(days)
        yield entries, len(days) - 1 + (len(others) if entries[0][0] != "maintained" else 0), "site-value", "maintained"


REFUSED_SITES = [
    (7, {"lowest_temperature": 9000, "highest_temperature": 8999}), (7, {"lowest_flow": 9, "highest_flow": 8}),
    (8, {"height": 2000, "diameter": 1000}), (9, {"maintenance_days": 0}),
]


def refused_sites(chance):
    """The same, of fields that each are right."""
    for number, change in REFUSED_SITES:
        site = Site(chance, True)
        vars(site).update(change)
        yield site.entries(chance), None, f"site-refused-{number}", None


# ---- Bad minutes. ----

BAD_CELLS = {
    "minute": ["", "x", "-1", "0.0", "4294967296", "99999999999999999999999", " 0", "1e3", "2027-01-01 00:00"],
    "time": ["", "{y}-02-{after} 00:00", "{y}-01-01", "{y}-01-01 24:00", "{y}-01-01 00:60", "{y}-01-01  00:00",
             "{y}-01-01 00:00:30", "{p}-01-01 00:00", "{n}-01-01 00:00", "01.01.{y} 00:00", "{y}-01-01 0:00", "{y}-1-1 00:00",
             "{y}-01-01t00:00", "{y}-01-01 00:00Z", "0"],
    "flame": ["", "2", "yes", "1.0", "-0"], "litres": ["", "x", "-5", "12.5", "12,5", "4294967296", "1e3", "1 000", "100l"],
    "temperature": ["x", ".5", "+5", "850.00", "3276.8", "-3276.8", "-", "--1", "8 50", "n/a", "#N/A", "1.000", "850.5.5"],
    "ppm": ["x", "-1", "500000.0", "4294967296", " 5", "5e5", "50%"],
    "percent": ["x", "-1", "50.00001", ".5", "429496.7296", "1.00000", "50 ", "5..", "#DIV/0!"],
    "exhaust_ch4_mg_m3": ["x", "-1", "4294967296", "5.5"],
}
HOW_MANY = {"minute": 4, "time": 6, "flame": 3, "litres": 4, "temperature": 5, "ch4_ppm": 2, "ch4_percent": 3, "n2_ppm": 1, "h2s_percent": 2,
            "exhaust_o2_ppm": 1, "exhaust_o2_percent": 2, "exhaust_ch4_mg_m3": 2}


def with_gas(chance, csv, site):
    """A row that is good, has gas and has every reading."""
    for row in rows_of(chance, site, 500, csv.quantities):
        if row["litres"] and row["gas"] and len(row["gas"]) == 7 and row["temperature"] is not None and row["exhaust"]:
            return row
    raise LookupError


def file_with(chance, names, separator=None):
    """A measured site and a way to write its minutes that has these columns among others."""
    while True:
        site = Site(chance, True)
        csv = Csv(chance, site)
        there = {"ch4", "temperature", "exhaust"} <= csv.quantities and set(names) <= set(csv.names)
        if site.highest_flow > 0 and there and separator in (None, csv.separator):
            return site, csv


def bad_cells(chance):
    """(site, csv, last line's cells, kind, columns) of each kind of value that is none."""
    for name, number in HOW_MANY.items():
        for text in chance.sample(BAD_CELLS.get(name) or BAD_CELLS[name.rsplit("_", 1)[1]], number):
            site, csv = file_with(chance, [name])
            text = text.format(y=site.year, p=site.year - 1, n=site.year + 1, after=30 if site.year % 4 == 0 else 29)
            if csv.separator == "," and "," in text:
                text = f'"{text}"'
            yield site, csv, {name: text}, "value", name
    for name, text in ("temperature", '"850,5"'), ("ch4_percent", '"50,5"'):  # no decimal comma beside separating ones
        yield *file_with(chance, [name], ","), {name: text}, "value", name
    for name in "ch4_percent", "co2_ppm", "n2_percent":
        yield *file_with(chance, [name]), {name: ""}, "value", name
    for name in "exhaust_ch4_mg_m3", "exhaust_o2_ppm", "exhaust_o2_percent":
        site, csv = file_with(chance, [name])
        oxygen = next(column for column in csv.names if column.startswith("exhaust_o2"))
        yield site, csv, {name: ""}, "half-exhaust", oxygen + "|exhaust_ch4_mg_m3"


REFUSED_ROWS = [  # the refusal, what is changed in a good row (its number by so much), and a column that must be there
    (13, {"number": 1}, "time"), (13, {"number": -1}, "minute"), (13, {"number": 600000}, "minute"), (14, {"litres": 100001}, "litres"),
    (16, {"gas": [10, 11]}, "co_ppm"), (17, {"temperature": 15001}, "temperature"), (17, {"temperature": -501}, "temperature"),
    (18, {"exhaust": (210000, 5)}, "exhaust_ch4_mg_m3"), (18, {"exhaust": (90000, 50001)}, "exhaust_ch4_mg_m3"),
    (19, {"gas": [100000, 0, 0, 200001]}, "o2_percent"), (15, {"gas": [1000001]}, "flame"),
]


def refused_row(chance, csv, site, number, change):
    """A row that would be good as that minute, but for the change."""
    row = with_gas(chance, csv, site)
    row.update(change, number=number + change.get("number", 0))
    row["gas"] = row["gas"] + [0] * (7 - len(row["gas"]))
    return row


BAD_HEADERS = [  # the names that are added, or the one that is taken away
    ("unknown-column", ["Flame"]), ("unknown-column", ["ch4"]), ("unknown-column", [" time"]), ("unknown-column", ["", "#last"]),
    ("unknown-column", ["Zeit\xE9"]), ("column-twice", ["flame"]), ("column-twice", ["litres"]), ("two-columns", ["minute", "time"]),
    ("two-columns", ["ch4_ppm", "ch4_percent"]), ("two-columns", ["exhaust_o2_ppm", "exhaust_o2_percent"]),
    ("many-columns", [f"#{number}" for number in range(33)]), ("missing-column", "minute"), ("missing-column", "flame"), ("missing-column", "litres"),
]


def bad_headers(chance):
    """(site, csv with a wrong header, kind)."""
    for kind, change in BAD_HEADERS:
        site, csv = file_with(chance, [])
        if kind == "missing-column":
            csv.names.remove(csv.number if change == "minute" else change)
        else:
            csv.names += [name for name in change if name not in csv.names or kind == "column-twice"]
        csv.trailing = 0
        yield site, csv, kind


# ---- The cases: site file, minutes, and what was intended. ----

def bad_cases(chance):
    any_lines = lambda: chance.randint(0, LINES)
    for entries, place, kind, column in [*bad_sites(chance), *refused_sites(chance)]:
        text, lines = site_bytes(chance, entries)
        csv = Csv(chance, Site(chance))
        yield text, csv.text(csv.line(csv.names), [])[0], f"{kind} {'-' if place is None else lines[place]} {column or '-'}\n"
    for site, csv, kind in bad_headers(chance):
        text, lines = csv.text(csv.line(csv.names), [])
        yield site_bytes(chance, site.entries(chance))[0], text, f"{kind} {lines[0]} -\n"
    for site, csv, change, kind, column in bad_cells(chance):
        good = csv.good(site, any_lines())
        row = with_gas(chance, csv, site)
        row["number"] = len(good)
        cells = [change.get(name, cell) for name, cell in zip(csv.names, csv.cells(row))]
        yield case_of(chance, site, csv, [*good, csv.line(cells)], kind, column)
    for refusal, change, name in REFUSED_ROWS:
        site, csv = file_with(chance, [name])
        good = csv.good(site, max(2, any_lines()))
        cells = csv.cells(refused_row(chance, csv, site, len(good), change))
        yield case_of(chance, site, csv, [*good, csv.line(cells)], f"refused-{refusal}", "-")
    for extra in "7", '"x"', " ":
        site, csv = file_with(chance, [])
        csv.trailing = csv.short = 0
        good = csv.good(site, any_lines() + 1)
        good[-1] += csv.separator * chance.randint(1, 3) + extra
        yield case_of(chance, site, csv, good, "beyond", "-")


def case_of(chance, site, csv, lines, kind, column):
    text, numbers = csv.text(csv.line(csv.names), lines)
    return site_bytes(chance, site.entries(chance))[0], text, f"{kind} {numbers[-1]} {column}\n"
