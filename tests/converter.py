"""Another way from a site file and a CSV of minutes to records, or to the first thing that is wrong with them.

Written from what `./flare year` promises and from document 01, without a look at crates. Whole numbers only, no float.
What the numbers of a record mean is not judged here: tests/year_expected.py leaves that to the reference.
"""
import datetime
import re
import struct

BYTE_ORDER_MARK = b"\xEF\xBB\xBF"
MOST_SITE_BYTES, MOST_LINE_BYTES, MOST_FIELDS, MOST_MAINTAINED = 65536, 65535, 32, 64
LARGEST, LARGEST_SIGNED, WHOLE_GAS = 2**32 - 1, 2**15 - 1, 1000000
EARLIEST_DAY = -3660


class Fault(Exception):
    """What is wrong first: the kind, the line from 1 (None where no line is to blame), the columns that may be named."""

    def __init__(self, kind, line=None, *columns):
        super().__init__(kind, line, columns)
        self.kind, self.line, self.columns = kind, line, columns

    def text(self):
        return f"{self.kind.replace(' ', '-')} {self.line or '-'} {'|'.join(self.columns) or '-'}\n"


# ---- Numbers and dates: each gives None for a text that is none. ----

def decimal(text, marks, scale, most):
    """The number times 10^scale. A mark may stand only where decimals may; `marks` are those that count."""
    whole, decimals = text, b""
    for mark in marks if scale else ():
        if mark in text:
            whole, _, decimals = text.partition(mark)
            break
    if not whole.isdigit() or (decimals and not decimals.isdigit()) or len(decimals) > scale:
        return None
    digits = (whole + decimals.ljust(scale, b"0")).lstrip(b"0")
    value = int(digits or b"0") if len(digits) < 20 else most + 1
    return value if value <= most else None


def signed_decimal(text, marks, scale):
    value = decimal(text.removeprefix(b"-"), marks, scale, LARGEST_SIGNED)
    return -value if value is not None and text[:1] == b"-" else value


DATE = re.compile(rb"[0-9]{4}-[0-9]{2}-[0-9]{2}")
TIME = re.compile(rb"([0-9]{4}-[0-9]{2}-[0-9]{2})[ T]([01][0-9]|2[0-3]):([0-5][0-9])(:00)?")


def day_of(year, text):
    """The days from 1 January of the year; the machine's calendar has the house's leap years from 1901 to 2099."""
    if not DATE.fullmatch(text):
        return None
    try:
        date = datetime.date.fromisoformat(text.decode())
    except ValueError:
        return None
    day = (date - datetime.date(year, 1, 1)).days
    return day if day >= EARLIEST_DAY and date.year <= year else None


class Clock:
    """The minutes of one year: from text, and as text."""

    def __init__(self, year):
        first, days = datetime.date(year, 1, 1), 366 if year % 4 == 0 else 365
        self.dates = [(first + datetime.timedelta(day)).isoformat() for day in range(days)]
        self.days = {date.encode(): day for day, date in enumerate(self.dates)}

    def minute(self, text):
        found = TIME.fullmatch(text)
        day = self.days.get(found[1]) if found else None
        return None if day is None else day * 1440 + int(found[2]) * 60 + int(found[3])

    def text(self, minute):
        return f"{self.dates[minute // 1440]} {minute // 60 % 24:02}:{minute % 60:02}"


# ---- The site file. ----

def whole_from(least, most):
    def read(text):
        value = decimal(text, b"", 0, most)
        return value if value is not None and value >= least else None
    return read


def degrees(text):
    value = signed_decimal(text, (b".", b","), 1)
    return value if value is not None and -500 <= value <= 15000 else None


SITE = {  # in the order of the record
    "method": lambda text: {b"default": 0, b"measured": 1}.get(text),
    "year": whole_from(2000, 2099), "gwp": whole_from(1, 100),
    "height": whole_from(0, 100000), "diameter": whole_from(1, 100000),
    "lowest_temperature": degrees, "highest_temperature": degrees,
    "lowest_flow": whole_from(0, 100000), "highest_flow": whole_from(0, 100000),
    "maintenance_days": whole_from(0, 3660),
}


def text_lines(data):
    """Number, from 1, and text of each line; a line's end is LF or CR LF, and nothing stands after the last."""
    lines = data.removeprefix(BYTE_ORDER_MARK).split(b"\n")
    if not lines[-1]:
        lines.pop()
    return enumerate(lines, 1)


def maintained_days(year, dates):
    """The list, from (line, text) in the file's order."""
    days = []
    for line, text in dates:
        day = day_of(year, text)
        if day is None or (days and day <= days[-1]) or len(days) == MOST_MAINTAINED:
            raise Fault("site value", line, "maintained")
        days.append(day)
    return days


def read_site(data):
    """The ten values by name, and the maintenance list."""
    if len(data) > MOST_SITE_BYTES:
        raise Fault("long site")
    values, dates = {}, []
    for line, text in text_lines(data):
        words = re.split(rb"[ \t]+", text.removesuffix(b"\r").partition(b"#")[0].strip(b" \t"))
        if words == [b""]:
            continue
        name = words[0].decode("latin-1")
        if name != "maintained" and name not in SITE:
            raise Fault("unknown name", line)
        if name in values:
            raise Fault("name twice", line, name)
        value = words[1] if len(words) == 2 else b""
        if name == "maintained":
            dates.append((line, value))
            continue
        values[name] = SITE[name](value)
        if values[name] is None:
            raise Fault("site value", line, name)
    for name in SITE:
        if name not in values:
            raise Fault("missing name", None, name)
    return values, maintained_days(values["year"], dates)


def site_record(values):
    return struct.pack(">HBBHHIIhhIIH", 28, 1, *(values[name] for name in SITE))


# ---- The header of the minutes. ----

GASES = "ch4", "co", "co2", "o2", "h2", "h2s", "nh3", "n2"
QUANTITY = {"minute": "minute", "time": "minute", "flame": "flame", "temperature": "temperature", "litres": "litres",
            "exhaust_ch4_mg_m3": "exhaust_ch4"}
for gas in (*GASES, "exhaust_o2"):
    QUANTITY[gas + "_ppm"] = QUANTITY[gas + "_percent"] = gas


def separator_of(text):
    return b"\t" if b"\t" in text else b";" if b";" in text else b","


def fields_of(text, separator):
    """The cells of a line, without their quotes; a separator between quotes parts nothing."""
    if b'"' not in text:
        return text.split(separator)
    fields, field, quoted = [], b"", False
    for piece in re.split(b'(["%s])' % separator, text):
        quoted ^= piece == b'"'
        if piece == separator and not quoted:
            fields.append(field)
            field = b""
        else:
            field += piece
    return [field[1:-1] if len(field) > 1 and field[:1] == field[-1:] == b'"' else field for field in [*fields, field]]


def columns_of(line, fields):
    """For each quantity its place and its name."""
    if len(fields) > MOST_FIELDS:
        raise Fault("many columns", line)
    while fields and not fields[-1]:
        fields.pop()
    columns = {}
    for place, field in enumerate(fields):
        name = field.decode("latin-1")
        if name.startswith("#"):
            continue
        if name not in QUANTITY:
            raise Fault("unknown column", line)
        if QUANTITY[name] in columns:
            raise Fault("column twice" if columns[QUANTITY[name]][1] == name else "two columns", line)
        columns[QUANTITY[name]] = place, name
    for quantity in "minute", "flame", "litres":
        if quantity not in columns:
            raise Fault("missing column", line)
    return columns, len(fields)


# ---- The rows. ----

class Minutes:
    """Reads the rows below one header; `records` and the `lines` they came from grow up to the first fault."""

    def __init__(self, clock):
        self.clock, self.records, self.lines = clock, [], []
        self.separator = None

    def read(self, data):
        for line, text in text_lines(data):
            if len(text) > MOST_LINE_BYTES:
                raise Fault("long line", line)
            text = text.removesuffix(b"\r")
            separator = self.separator or separator_of(text)
            if not text.strip(separator):
                continue
            fields = fields_of(text, separator)
            if self.separator is None:
                self.separator = separator
                self.marks = (b".",) if separator == b"," else (b".", b",")
                self.columns, self.count = columns_of(line, fields)
            else:
                self.records.append(self.record(line, fields))
                self.lines.append(line)
        if self.separator is None:
            raise Fault("no header")

    def record(self, line, fields):
        if any(fields[self.count:]):
            raise Fault("beyond", line)
        self.line, self.fields = line, fields
        number = self.number("minute", self.clock.minute) if self.columns["minute"][1] == "time" else self.whole("minute")
        flags = self.whole("flame", 1)
        litres = self.whole("litres")
        temperature, exhaust = 0, (0, 0)
        if self.cell("temperature"):
            flags |= 2
            temperature = self.number("temperature", lambda text: signed_decimal(text, self.marks, 1))
        gas = [self.gas(name, litres) for name in GASES[:-1]]
        gas.append(self.gas("n2", litres) if "n2" in self.columns else max(0, WHOLE_GAS - sum(gas)))
        if self.cell("exhaust_o2") or self.cell("exhaust_ch4"):
            flags |= 4
            exhaust = self.exhaust()
        return struct.pack(">HBIBhI8III", 52, 1, number, flags, temperature, litres, *gas, *exhaust)

    def cell(self, quantity):
        place = self.columns.get(quantity, (MOST_FIELDS,))[0]
        return self.fields[place] if place < len(self.fields) else b""

    def number(self, quantity, read):
        value = read(self.cell(quantity))
        if value is None:
            raise Fault("value", self.line, self.columns[quantity][1])
        return value

    def whole(self, quantity, most=LARGEST):
        return self.number(quantity, lambda text: decimal(text, self.marks, 0, most))

    def fraction(self, quantity):
        """In ppm: whole as it stands, or percent with four decimals."""
        scale = 4 if self.columns[quantity][1].endswith("percent") else 0
        return self.number(quantity, lambda text: decimal(text, self.marks, scale, LARGEST))

    def gas(self, name, litres):
        if name not in self.columns or (litres == 0 and not self.cell(name)):
            return 0
        return self.fraction(name)

    def exhaust(self):
        both = "exhaust_o2", "exhaust_ch4"
        if not all(map(self.cell, both)):
            raise Fault("half exhaust", self.line, *(self.columns[name][1] for name in both if name in self.columns))
        return self.fraction(both[0]), self.whole(both[1])
