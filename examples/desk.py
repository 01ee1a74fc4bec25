#!/usr/bin/env python3
"""The account of a flare with its days of maintenance, by ./flare desk; Python 3.8 or later is all it needs.

    python3 examples/desk.py                              the example day, with maintenance on 20 December
    python3 examples/desk.py FILE 2026-12-20 2027-03-22   a record file, and its days of maintenance, or none
    python3 examples/desk.py --months FILE 2026-12-20     the same, with the sums of each month before the total

A day is a date, or a number that counts from 0 for 1 January of the site's year: -12 is the 20 December before it.
Prints the total, the year and the share destroyed. Exit status: 0, 1 after a refusal, 2 after a failure.
"""
import datetime
import os
import sys
from subprocess import PIPE, Popen

HERE = os.path.dirname(os.path.realpath(__file__))
FLARE = os.path.join(os.path.dirname(HERE), "flare")  # where ./flare is: change this in a copy of the script
EXAMPLE = [os.path.join(HERE, "tall-measured-day"), "-12"]
SITE_BYTES, MINUTE_BYTES = 30, 54
OVERDUE = 7  # the rule of a minute whose maintenance is overdue


class Refused(Exception):
    """The rules refuse a record, or the list of days."""


class Failed(Exception):
    """The desk gave no answer, or did not understand."""


class Desk:
    """./flare desk, kept open through a pipe; ./flare desk --help lists what it can be asked."""

    def __enter__(self):
        self.program = Popen([FLARE, "desk"], stdin=PIPE, stdout=PIPE, encoding="ascii")
        return self

    def __exit__(self, *_):
        self.program.communicate()  # closes the pipe, and the desk ends

    def ask(self, *words):
        """Sends the words as one line, and gives the line that is the answer."""
        try:
            print(*words, file=self.program.stdin, flush=True)
            answer = self.program.stdout.readline()
        except BrokenPipeError:
            answer = ""
        if not answer.endswith("\n"):
            raise Failed(f"the desk ended with status {self.program.wait()} and did not answer '{words[0]}'")
        if answer.startswith(("what?", "no account")):
            raise Failed(f"the desk answered '{words[0]}' with '{answer[:-1]}'")
        if "refused" in answer.split():
            raise Refused(f"{words[0]}: {answer[:-1]}")
        return answer[:-1]


def day_of(word, year):
    """The day that the word names, as the desk counts days."""
    try:
        if word.lstrip("-").isdigit():
            return int(word)
        return (datetime.date.fromisoformat(word) - datetime.date(year, 1, 1)).days
    except ValueError:
        raise Failed(f"'{word}' is not a day: give a date as 2026-12-20, or a day of the site's year as -12")


def add_up(desk, records, words, by_month):
    """Opens the account of a record file, with maintenance on these days, and adds its minutes. Gives how it stands."""
    site = records.read(SITE_BYTES).hex()
    year = int(desk.ask("site", site).split()[4])  # site method 1 year 2027 ..
    desk.ask("open", site, "days", *[day_of(word, year) for word in words])
    while record := records.read(MINUTE_BYTES):
        desk.ask("add", record.hex())
    total = desk.ask("total")  # total A gas G fed F emitted E destroyed D co2e C
    try:
        closed = desk.ask("close")
    except Refused:  # minutes are missing
        closed = f"year {year} open"
    fed, destroyed = int(total.split()[5]), int(total.split()[9])
    share = f"{100 * destroyed / fed:.1f} % destroyed" if fed else "no gas"
    overdue = desk.ask("counts").split()[1 + OVERDUE]
    if not words and overdue != "0":
        print(f"desk.py: no maintenance days were given, and {overdue} minutes count as overdue: is that so?", file=sys.stderr)
    months = [desk.ask("month", month) for month in range(1, 13)] if by_month else []
    return "".join(line + "\n" for line in [*months, total, closed, share, f"minutes overdue: {overdue}"])


def main(name, *words, by_month):
    try:
        with open(name, "rb") as records, Desk() as desk:
            text = add_up(desk, records, words, by_month)
        os.write(1, text.encode())  # standard output, at once: print would meet a full disk only when all is over
    except Refused as refusal:
        print(f"desk.py: {refusal}; ./flare --help explains the number", file=sys.stderr)
        return 1
    except (Failed, OSError) as failure:
        print(f"desk.py: {failure}", file=sys.stderr)
        return 2
    return 0


if __name__ == "__main__":
    if sys.argv[1:] in (["-h"], ["--help"]):
        print(__doc__, end="")
        sys.exit(0)
    asked = [word for word in sys.argv[1:] if word != "--months"]
    sys.exit(main(*(asked or EXAMPLE), by_month="--months" in sys.argv[1:]))
