"""Writes a real job: the month strips of a year, filed, joined, cut and searched.

A day is a glyph, its weekday as in ISO 8601: Monday 1, Sunday 7. The numbers that later commands name are those
that the plain model of jobs answers, and so are the lines expected.

    python3 tools/year_job.py          writes stdin and stdout of crates/strip_job
    python3 tools/year_job.py table    prints the table of the printout in docs/JOBS.md
"""

import calendar
import sys
from pathlib import Path

from jobs_by_the_rules import command, line, printed, take
from shelf_by_the_rules import Model

# A common year whose February is four whole weeks: 1 February is a Monday.
YEAR = 2027

# The glyph of a day on which nobody works. Weekdays are 1 to 7.
HOLIDAY = 8

WEEK = 7


def month(year, number):
    """The strip of a month: the weekday of each of its days."""
    first, days = calendar.monthrange(year, number)
    return [1 + (first + day) % WEEK for day in range(days)]


class Job:
    """A job as it grows. Each command that prints a line is kept with what the line means."""

    def __init__(self):
        self.bytes = b""
        self.model = Model("glyphs")
        self.told = []

    def add(self, letter, operands, meaning, tray=()):
        """Adds a command, after the glyphs that it takes, and answers the number that its line names, if any."""
        text = line(self.model, tray, letter, operands)
        spelled = f"{len(tray)} C, T" if letter == "T" else " ".join([letter, *map(str, operands)])
        self.told.append((len(self.bytes), spelled, text, meaning))
        self.bytes += take(tray) if letter == "T" else command(letter, *operands)
        words = text.split()
        return int(words[1]) if words[1].isdigit() else None

    def take(self, glyphs, meaning):
        return self.add("T", [], meaning, glyphs)

    def join(self, left, right, meaning):
        return self.add("J", [left, right], meaning)

    def cut(self, number, start, size, meaning):
        return self.add("K", [number, start, size], meaning)

    def places(self, number, pattern, field, meaning):
        """Asks where a pattern stands in a field; each is a start and a length."""
        return self.add("F", [number, *pattern, *field], meaning)


def file_months(job):
    """The twelve months; those that begin alike and are as long have one number."""
    names = calendar.month_name
    days = calendar.day_name
    numbers = {}
    months = []
    for at in range(1, 13):
        strip = month(YEAR, at)
        what = f"{names[at]}: {len(strip)} days from a {days[strip[0] - 1]} on"
        known = [names[other + 1] for other, other_strip in enumerate(months) if other_strip == strip]
        numbers[names[at]] = job.take(strip, what + (f"; the strip of {known[0]}, so its number" if known else ""))
        months.append(strip)
    return numbers


def file_next_january(job, may):
    strip = month(YEAR + 1, 1)
    number = job.take(strip, "January of the next year: 31 days from a Saturday on, as May has them; no row is added")
    assert number == may


def join_year(job, months):
    """Quarters out of months, half years out of quarters, the year out of both."""
    names = list(calendar.month_name)[1:]
    quarters = []
    for at in range(4):
        first, second, third = names[3 * at : 3 * at + 3]
        both = job.join(months[first], months[second], f"{first} and {second}")
        quarters.append(job.join(both, months[third], f"and {third}: quarter {at + 1}"))
    first = job.join(quarters[0], quarters[1], "the first half of the year")
    second = job.join(quarters[2], quarters[3], "the second half")
    return quarters, job.join(first, second, "the year: 365 days")


def cut_parts(job, months, quarters, year):
    """Parts that are cut have the numbers of the strips that they are equal to."""
    second = job.cut(year, 90, 91, "days 91 to 181 of the year: quarter 2, under the number that joining gave it")
    assert second == quarters[1]
    week = job.cut(months["February"], 0, WEEK, "the first week of February, Monday to Sunday")
    same = job.cut(months["January"], 3, WEEK, "4 to 10 January, from the first Monday on: the same week")
    assert same == week
    fortnight = job.join(week, week, "two weeks")
    february = job.join(fortnight, fortnight, "four weeks: February is nothing else, and has the number")
    assert february == months["February"]
    job.cut(february, 28, 1, "29 February: the part leaves the strip of 28 days")
    cut = job.cut(months["March"], 0, 28, "the first 28 days of March are the strip of February, which begins alike")
    assert cut == february
    april = job.cut(months["July"], 0, 30, "July without its last day is April: they begin alike and differ in length")
    assert april == months["April"]


def search_weeks(job, months, year):
    """Where weeks stand. A field is shorter than twice the pattern, so a week is asked for in 13 days at most."""
    january = months["January"]
    job.places(january, (3, 7), (0, 13), "the week from Monday on in 1 to 13 January: at place 3, which is 4 January")
    job.places(january, (3, 7), (11, 13), "in 12 to 24 January: at place 17, 18 January")
    job.places(january, (3, 7), (4, 9), "in 5 to 13 January no whole week from Monday on stands")
    job.places(january, (3, 7), (0, 31), "the whole month is too long a field for a week: ask in parts")
    job.places(january, (3, 14), (0, 27), "two weeks from Monday on in 1 to 27 January: at 3 and 10, 4 and 11 January")
    job.places(months["February"], (0, 14), (0, 28), "28 days are twice 14: too long by one day")
    job.places(months["February"], (0, 14), (0, 27), "two weeks in 1 to 27 February: at 0 and 7")
    job.places(year, (0, 183), (0, 365), "the first 183 days again in the year: at 0, 7, 14 and on, 27 places")


def mark_holiday(job, months):
    """1 January becomes a holiday. The strip that differs in this one day is never taken for January's."""
    january = month(YEAR, 1)
    marked = job.take([HOLIDAY] + january[1:], "January with its first day marked as a holiday (glyph 8): another number")
    rest = job.cut(months["January"], 1, 30, "January from the second day on")
    holiday = job.take([HOLIDAY], "the holiday alone")
    again = job.join(holiday, rest, "the holiday and the rest: the number of the marked January")
    assert again == marked
    october = job.take(month(YEAR, 10), "October as it was: its number stands, and is still that of the unmarked January")
    assert october == months["January"]
    job.join(months["December"], 1025, "a mistaken number: none is above 1,024, the rows of a shelf")


def year_job():
    job = Job()
    months = file_months(job)
    file_next_january(job, months["May"])
    quarters, year = join_year(job, months)
    cut_parts(job, months, quarters, year)
    search_weeks(job, months, year)
    mark_holiday(job, months)
    assert printed(job.bytes).decode().splitlines() == [text for _, _, text, _ in job.told]
    return job


def main():
    job = year_job()
    if sys.argv[1:] == ["table"]:
        print("| place | command | printed | meaning |\n|---|---|---|---|")
        for place, spelled, text, meaning in job.told:
            print(f"| {place} | {spelled} | `{text}` | {meaning} |")
        return
    crate = Path(__file__).resolve().parent.parent / "crates" / "strip_job"
    (crate / "stdin").write_bytes(job.bytes)
    (crate / "stdout").write_bytes(printed(job.bytes))


if __name__ == "__main__":
    main()
