#!/usr/bin/env python3
"""Draws what `velkatsa coverage` reports: a row for each channel, a cell for each day, the darker the more of the day is there.

    velkatsa coverage --journal F 2024-02-01 2024-02-29 | coverage_svg.py 2024-02-01 2024-02-29 > picture.svg
    coverage_svg.py REPORT > picture.svg

REPORT is a file, and else the report is read from standard input. START and END are the first and the last day of the picture;
without them these are the first and the last that the report has. A cell tells its per cent where the mouse is over it, if there
are not too many. Needs Python's standard library alone.
"""
import datetime
import re
import sys
from html import escape

LINE = re.compile(r"(\S+ \S+ \S+ \S+) (\d{4}-\d\d-\d\d) \d+ (\d+\.\d\d)")
# From which per cent on a shade is drawn, how the legend names it, and its colour.
SHADES = [(0.0, "under 25 %", "#c6dbef"), (25.0, "25 %", "#85b9dc"), (50.0, "50 %", "#4a90c6"), (75.0, "75 %", "#1f66a9"),
          (100.0, "all of it", "#0b3d78")]
NOTHING = "#f1f3f5"
MOST_TITLES = 4000
MONTHS = "Jan Feb Mar Apr May Jun Jul Aug Sep Oct Nov Dec".split()


def read(lines):
    """The per cent by channel and day, channels in the order of the report."""
    found = {}
    for number, line in enumerate(lines, 1):
        parts = LINE.fullmatch(line.rstrip("\n"))
        if not parts:
            sys.exit(f"coverage_svg.py: line {number} is none of a report: {line.rstrip()}")
        found.setdefault(parts[1], {})[datetime.date.fromisoformat(parts[2])] = float(parts[3])
    return found


def shade(percent):
    """The number of the shade of a per cent."""
    return max(number for number, (least, _, _) in enumerate(SHADES) if percent >= least)


def ticks(first, days):
    """The days that have a line and a date, with these: of days, weeks, months or years, whichever fit."""
    dates = [first + datetime.timedelta(day) for day in range(days)]
    if days <= 12:
        return [(day, f"{date.day} {MONTHS[date.month - 1]}") for day, date in enumerate(dates)]
    if days <= 75:
        return [(day, f"{date.day} {MONTHS[date.month - 1]}") for day, date in enumerate(dates) if day % 7 == 0]
    if days <= 800:
        return [(day, f"{MONTHS[date.month - 1]} {date.year}" if date.month == 1 or day < 31 else MONTHS[date.month - 1])
                for day, date in enumerate(dates) if date.day == 1 and (days <= 400 or date.month % 3 == 1)]
    return [(day, str(date.year)) for day, date in enumerate(dates) if date.month == date.day == 1]


class Picture:
    """Where things stand, in pixels."""

    def __init__(self, channels, first, days):
        self.channels, self.first, self.days = channels, first, days
        self.width = max(2.0, min(24.0, 960 / days))
        self.height = max(9.0, min(24.0, 760 / max(1, len(channels))))
        self.gap = 2 if self.width >= 10 else 1 if self.width >= 5 else 0
        self.letters = min(12.0, self.height * 0.85)
        self.left = 16 + 0.62 * self.letters * max([len(name) for name in channels] + [8])
        self.top = 64
        self.right = self.left + days * self.width
        self.bottom = self.top + len(channels) * self.height

    def at(self, day, row):
        """The corner of a cell."""
        return self.left + day * self.width, self.top + row * self.height

    def legend(self):
        """What the shades are."""
        x, parts = 16.0, []
        for text, colour in [("nothing", NOTHING)] + [(text if number in (0, len(SHADES) - 1) else f"from {text}", colour)
                                                      for number, (_, text, colour) in enumerate(SHADES)]:
            parts.append(f'<rect x="{x:.1f}" y="14" width="12" height="12" rx="2" fill="{colour}" stroke="#adb5bd" stroke-width="0.5"/>')
            parts.append(f'<text x="{x + 17:.1f}" y="24" font-size="12">{text}</text>')
            x += 34 + 6.6 * len(text)
        return parts

    def axis(self):
        """Lines and dates over the days that have them, as far apart as the dates are long."""
        parts, free = [], 0.0
        for day, text in ticks(self.first, self.days):
            x = self.left + day * self.width
            parts.append(f'<path d="M{x:.1f} {self.top - 6}V{self.bottom:.1f}" stroke="#ced4da" stroke-width="1"/>')
            if x >= free:
                parts.append(f'<text x="{x + 2:.1f}" y="{self.top - 10}" font-size="11">{text}</text>')
                free = x + 8 + 6.4 * len(text)
        return parts

    def row(self, number, name, percents, has_titles):
        """The name of a channel, and its cells: one path of each shade, and rectangles that tell where there are few."""
        tall, wide = self.height - max(1, self.gap), self.width - self.gap
        y = self.top + number * self.height
        parts = [f'<text x="{self.left - 8:.1f}" y="{y + self.height / 2 + self.letters * 0.35:.1f}" font-size="{self.letters:.1f}" '
                 f'text-anchor="end">{escape(name)}</text>']
        cells = {}
        for date, percent in sorted(percents.items()):
            day = (date - self.first).days
            if 0 <= day < self.days:
                cells.setdefault(shade(percent), []).append((day, f"{escape(name)} {date}: {percent:.2f} %"))
        for kind, found in sorted(cells.items()):
            colour = SHADES[kind][2]
            if has_titles:
                for day, text in found:
                    x, _ = self.at(day, number)
                    parts.append(f'<rect x="{x:.1f}" y="{y:.1f}" width="{wide:.1f}" height="{tall:.1f}" fill="{colour}"><title>{text}</title></rect>')
                continue
            corners = "".join(f"M{self.at(day, number)[0]:.1f} {y:.1f}h{wide:.1f}v{tall:.1f}h-{wide:.1f}z" for day, _ in found)
            parts.append(f'<path d="{corners}" fill="{colour}"/>')
        return parts

    def lines(self):
        """The picture."""
        last = self.first + datetime.timedelta(self.days - 1)
        width, height = max(self.right, 560) + 16, self.bottom + 16
        yield (f'<svg xmlns="http://www.w3.org/2000/svg" width="{width:.0f}" height="{height:.0f}" '
               f'viewBox="0 0 {width:.0f} {height:.0f}" font-family="system-ui, sans-serif" fill="#212529">')
        yield f"<title>What is held from {self.first} to {last}</title>"
        yield f'<rect width="{width:.0f}" height="{height:.0f}" fill="#ffffff"/>'
        yield from self.legend()
        yield f'<rect x="{self.left:.1f}" y="{self.top}" width="{self.right - self.left:.1f}" height="{self.bottom - self.top:.1f}" fill="{NOTHING}"/>'
        yield from self.axis()
        has_titles = sum(len(percents) for percents in self.channels.values()) <= MOST_TITLES
        for number, (name, percents) in enumerate(self.channels.items()):
            yield from self.row(number, name, percents, has_titles)
        yield "</svg>"


def main(words):
    """Reads a report and writes the picture of it."""
    dates = [datetime.date.fromisoformat(word) for word in words if re.fullmatch(r"\d{4}-\d\d-\d\d", word)]
    files = [word for word in words if not re.fullmatch(r"\d{4}-\d\d-\d\d", word)]
    if len(dates) not in (0, 2) or len(files) > 1 or (dates and dates[1] < dates[0]):
        sys.exit(__doc__)
    with open(files[0], encoding="ascii") if files else sys.stdin as report:
        channels = read(report)
    found = [day for percents in channels.values() for day in percents] or dates
    if not found:
        sys.exit("coverage_svg.py: the report has no line")
    first, last = dates or (min(found), max(found))
    print("\n".join(Picture(channels, first, (last - first).days + 1).lines()))


if __name__ == "__main__":
    main(sys.argv[1:])
