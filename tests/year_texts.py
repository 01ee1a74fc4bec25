"""Site files and CSVs of minutes as people and spreadsheets write them, by chance; tests/year_inputs.py and year_faults.py use them."""
import datetime

GASES = "ch4", "co", "co2", "o2", "h2", "h2s", "nh3", "n2"
NAMES = ("method", "year", "gwp", "height", "diameter", "lowest_temperature", "highest_temperature", "lowest_flow", "highest_flow",
         "maintenance_days")


def tenths(chance, value, marks=".,"):
    """A number of tenths as one of the texts that mean it."""
    whole, rest = divmod(abs(value), 10)
    sign = "-" if value < 0 or (value == 0 and chance.random() < 0.2) else ""
    mark = chance.choice(marks)
    return f"{sign}{whole}" + (f"{mark}{rest}" if rest else chance.choice(["", mark, mark + "0"]))


def percent(chance, value, marks):
    """ppm as percent: four decimals, or only those that are not 0, or some between."""
    whole, rest = divmod(value, 10000)
    digits = f"{rest:04}"
    least = len(digits.rstrip("0"))
    kept = chance.choice([least, 4, chance.randint(least, 4)])
    return f"{whole}{chance.choice(marks)}{digits[:kept]}" if kept or chance.random() < 0.3 else f"{whole}"


# ---- Site files. ----

class Site:
    """The ten values, the temperatures in tenths, and the dates of maintenance."""

    def __init__(self, chance, measured=None):
        measured = chance.random() < 0.6 if measured is None else measured
        self.year = chance.randint(2000, 2099)
        self.diameter = chance.randint(1, 9999)
        twice = 2 * self.diameter
        heights = [twice + 1, 5 * twice, 5 * twice + 1, chance.randint(twice + 1, 100000)]
        self.height = chance.choice(heights if measured else heights + [0, twice, chance.randint(0, twice)])
        self.method = "measured" if measured else "default"
        self.gwp = chance.choice([1, 28, 100, chance.randint(1, 100)])
        self.lowest_temperature, self.highest_temperature = self.limits(chance, -500, 7000, 15000)
        self.lowest_flow, self.highest_flow = self.limits(chance, 0, 9000, 100000)
        self.maintenance_days = chance.choice([1, 3660, chance.randint(1, 400)]) if measured else chance.choice([0, 3660])
        self.maintained = self.dates(chance, chance.choice([0, 1, 2, 5, 64]))
        if chance.random() < 0.7:  # in time at the year's beginning
            self.maintained = [date for date in self.maintained if date < str(self.year)][:63] + [f"{self.year}-01-01"]

    @staticmethod
    def limits(chance, least, middle, most):
        """The ends of a specification: as far apart as they may be, the same, or something between."""
        lowest = chance.choice([least, middle, chance.randint(least, middle)])
        return lowest, chance.choice([lowest, most, chance.randint(middle, most), chance.randint(middle, most)])

    def dates(self, chance, count, least=-3660, most=364):
        first = datetime.date(self.year, 1, 1)
        days = sorted(chance.sample(range(least, most + 1), count))
        return [(first + datetime.timedelta(day)).isoformat() for day in days]

    def entries(self, chance):
        """The lines' names and values, in any order but that of the dates."""
        entries = [(name, self.written(chance, name)) for name in NAMES]
        chance.shuffle(entries)
        places = sorted(chance.choices(range(len(NAMES) + 1), k=len(self.maintained)))
        for place, date in zip(reversed(places), reversed(self.maintained)):
            entries.insert(place, ("maintained", date))
        return entries

    def written(self, chance, name):
        value = getattr(self, name)
        return tenths(chance, value) if name.endswith("temperature") else str(value)


def site_bytes(chance, entries):
    """The text, and for each entry its line."""
    blanks = lambda least: "".join(chance.choices(" \t", k=chance.randint(least, 3)))
    text, lines, line = "", [], 0
    for name, value in entries:
        while chance.random() < 0.2:
            text += chance.choice(["", "# a comment", " \t # 100 %; year 1999", "\t"]) + chance.choice(["\n", "\r\n"])
            line += 1
        line += 1
        lines.append(line)
        text += blanks(0) + name + blanks(1) + value + blanks(0)
        text += chance.choice(["", "", "# " + name + " 7", "#"]) + chance.choice(["\n", "\r\n"])
    if chance.random() < 0.2:
        text = text.rstrip("\r\n")
    return (b"\xEF\xBB\xBF" if chance.random() < 0.2 else b"") + text.encode(), lines


# ---- Minutes. ----

def rows_of(chance, site, count, quantities):
    """The numbers of each minute; a quantity that has no column is absent or 0, and nitrogen is what the others leave."""
    edges = lambda low, high, least, most: [max(least, low - 1), low, high, min(most, high + 1)]
    temperatures = edges(site.lowest_temperature, site.highest_temperature, -500, 15000) + [0, -1, 9]
    flows = edges(site.lowest_flow, site.highest_flow, 0, 100000)
    for number in range(count):
        row = {"number": number, "flame": int(chance.random() < 0.85), "temperature": None, "exhaust": None}
        inside = (chance.randint(site.lowest_flow, site.highest_flow) for _ in range(9))
        row["litres"] = chance.choice([0, *flows, *inside])
        if "ch4" not in quantities:
            row["litres"] = 0
        if "temperature" in quantities and chance.random() < 0.9:
            inside = (chance.randint(site.lowest_temperature, site.highest_temperature) for _ in range(9))
            row["temperature"] = chance.choice([*temperatures, *inside])
        if "exhaust" in quantities and chance.random() < 0.9:
            row["exhaust"] = chance.choice([0, 209999, chance.randint(60000, 120000)]), chance.choice([0, 50000, chance.randint(0, 300)])
        row["gas"] = gas_of(chance, quantities, row["litres"])
        yield row


def gas_of(chance, quantities, litres):
    """All but nitrogen, in ppm; with 0 litres often nothing, or anything that fits."""
    if litres == 0 and chance.random() < 0.8:
        return None if chance.random() < 0.7 else [chance.choice([0, 7, 2**32 - 1]) if gas in quantities else 0 for gas in GASES[:-1]]
    methane = chance.choice([1000000, chance.randint(400000, 700000), chance.randint(1, 1000000)])
    gas, left = [methane], 1000000 - methane
    for name in GASES[1:-1]:
        most = left if name == "co2" else min(left, 2 * methane) if name == "o2" else min(left, methane)
        gas.append(chance.choice([0, most, most // 100, chance.randint(0, most)]) if name in quantities else 0)
        left -= gas[-1]
    return gas


class Csv:
    """How one file is written: separator, marks, columns in their order with their units, and what spreadsheets add."""

    def __init__(self, chance, site):
        self.chance, self.year = chance, site.year
        self.separator = chance.choice(",;\t")
        self.marks = "." if self.separator == "," else chance.choice([".", ",", ".,"])
        self.ends = chance.choice([["\n"], ["\r\n"], ["\n", "\r\n"]])
        self.quoting, self.blank, self.trailing, self.short = (chance.choice([0, 0, 0.02, 0.5]) for _ in range(4))
        gases = [gas for gas in GASES if chance.random() < 0.6]
        self.quantities = {"ch4", *gases} if chance.random() < 0.95 else set()
        self.quantities |= {name for name in ("temperature", "exhaust") if chance.random() < (0.9 if site.method == "measured" else 0.5)}
        self.number = chance.choice(["minute", "time"])
        self.names = [self.number, "flame", "litres"] + ["temperature"] * ("temperature" in self.quantities)
        self.names += [gas + chance.choice(["_ppm", "_percent"]) for gas in GASES if gas in self.quantities]
        if "exhaust" in self.quantities:
            self.names += [chance.choice(["exhaust_o2_ppm", "exhaust_o2_percent"]), "exhaust_ch4_mg_m3"]
        self.names += chance.choices(["#", "#remarks", "#flame", "# by hand"], k=chance.choice([0, 0, 1, 3]))
        chance.shuffle(self.names)

    def cells(self, row):
        return [self.cell(name, row) for name in self.names]

    def cell(self, name, row):
        if name in ("flame", "litres"):
            return str(row[name])
        if name == "minute":
            return "0" * (self.chance.random() < 0.01) + str(row["number"])
        if name == "time":
            moment = datetime.datetime(self.year, 1, 1) + datetime.timedelta(minutes=row["number"])
            return moment.strftime(f"%Y-%m-%d{self.chance.choice(' T')}%H:%M") + self.chance.choice(["", ":00"])
        if name == "temperature":
            return "" if row[name] is None else tenths(self.chance, row[name], self.marks)
        if name.startswith("#"):
            return self.chance.choice(["", "7", "leer", '"a%sb"' % self.separator, '"say ""hm""%s now"' % self.separator, "\xE9"])
        if name.startswith("exhaust"):
            value = None if row["exhaust"] is None else row["exhaust"][name == "exhaust_ch4_mg_m3"]
        else:
            gas = row["gas"]
            place = GASES.index(name.split("_")[0])
            value = None if gas is None else gas[place] if place < len(gas) else max(0, 1000000 - sum(gas))
        if value is None:
            return ""
        return percent(self.chance, value, self.marks) if name.endswith("percent") else str(value)

    def line(self, cells):
        quoted = [f'"{cell}"' if '"' not in cell and self.chance.random() < self.quoting else cell for cell in cells]
        if self.chance.random() < self.short:
            while quoted and not quoted[-1]:
                quoted.pop()
        if self.chance.random() < self.trailing:
            quoted += [""] * self.chance.choice([1, 3, 40 if cells is not self.names and self.chance.random() < 0.1 else 2])
        return self.separator.join(quoted)

    def text(self, header, lines):
        """The bytes, and the lines' numbers: that of the header first."""
        out, numbers = [], []
        for line in [header, *lines]:
            while self.chance.random() < self.blank:
                out.append(self.separator * self.chance.choice([0, 1, 5]))
            out.append(line)
            numbers.append(len(out))
        ends = [self.chance.choice(self.ends) for _ in out]
        if self.chance.random() < 0.3:
            ends[-1] = ""
        text = "".join(line + end for line, end in zip(out, ends)).encode("latin-1")
        return (b"\xEF\xBB\xBF" if self.chance.random() < 0.3 else b"") + text, numbers

    def good(self, site, count):
        return [self.line(self.cells(row)) for row in rows_of(self.chance, site, count, self.quantities)]
