"""Draws time series as an SVG chart, for examples/plot and docs/picture.py.

Times are whole milliseconds and values are Decimals. A chart has layers, which are drawn in the order given.
"""
import datetime
import decimal
import itertools
import math
import xml.sax.saxutils

SECOND, MINUTE, HOUR, DAY = 1_000, 60_000, 3_600_000, 86_400_000
WIDTH, HEIGHT = 760, 300
RIGHT = WIDTH - 28
LETTER = 7
COLOURS = ["#1f5f99", "#d1571b", "#2f8f46", "#8a4fbf", "#a87900", "#c2387a", "#2f8790", "#6b6b6b"]

# Earlier times are counted from some midnight and shown as hours. Later ones are dates, as far as there is a calendar.
FIRST_DATE, LAST_DATE = 366 * DAY, 253_402_300_799_999
TIME_STEPS = [
    *(count * size for size in (1, 10, 100) for count in (1, 2, 5)),
    *(count * size for size in (SECOND, MINUTE) for count in (1, 2, 5, 10, 15, 30)),
    *(count * HOUR for count in (1, 2, 4, 6, 12)),
    *(count * DAY for count in (1, 2, 5, 10, 30, 90, 180, 365)),
]
MOST_STEPS = 7


def text_of(word):
    """A word as XML text. What XML can't hold is replaced."""
    shown = "".join(letter if letter.isprintable() else "\N{REPLACEMENT CHARACTER}" for letter in word)
    return xml.sax.saxutils.escape(shown)


class Layer:
    """A label for the legend or None, a colour, and rows with a time first. Each row covers this many milliseconds."""

    width = 0

    def __init__(self, label, colour, rows, width=0):
        self.label, self.colour, self.rows, self.width = label, colour, rows, width

    def times(self):
        return [time for row in self.rows for time in (row[0], row[0] + self.width)]

    def values(self):
        return [value for row in self.rows for value in row[1:]]


class Dots(Layer):
    """A dot for each sample."""

    def marks(self, x, y):
        yield f'<g fill="{self.colour}">'
        yield from (f'<circle cx="{x(time):.1f}" cy="{y(value):.1f}" r="3"/>' for time, value in self.rows)
        yield "</g>"

    def swatch(self, x, y):
        yield f'<circle fill="{self.colour}" cx="{x + 12}" cy="{y}" r="3"/>'


class Line(Layer):
    """A line from sample to sample. Few samples have dots too."""

    dash = ""

    def marks(self, x, y):
        yield line_through([(x(time), y(value)) for time, value in self.rows], self.colour, self.dash)
        if len(self.rows) <= 100:
            yield from Dots(self.label, self.colour, self.rows).marks(x, y)

    def swatch(self, x, y):
        yield line_through([(x, y), (x + 24, y)], self.colour, self.dash)


class Steps(Line):
    """A line that is level over each bucket, with a gap where there is no bucket."""

    def marks(self, x, y):
        corners, end = [], None
        for time, value in self.rows:
            if corners and time != end:
                yield line_through(corners, self.colour, self.dash)
                corners = []
            end = time + self.width
            corners += [(x(time), y(value)), (x(end), y(value))]
        if corners:
            yield line_through(corners, self.colour, self.dash)


class Band(Layer):
    """The values between two over each bucket."""

    def marks(self, x, y):
        yield f'<g fill="{self.colour}" fill-opacity="0.2">'
        for time, low, high in self.rows:
            place, width = x(time), x(time + self.width) - x(time)
            yield f'<rect x="{place:.1f}" y="{y(high):.1f}" width="{width:.1f}" height="{y(low) - y(high):.1f}"/>'
        yield "</g>"

    def swatch(self, x, y):
        yield f'<rect fill="{self.colour}" fill-opacity="0.2" x="{x}" y="{y - 6}" width="24" height="12"/>'


def line_through(corners, colour, dash):
    points = " ".join(f"{x:.1f},{y:.1f}" for x, y in corners)
    dashed = f' stroke-dasharray="{dash}"' if dash else ""
    return f'<polyline fill="none" stroke="{colour}" stroke-width="2"{dashed} points="{points}"/>'


def value_ticks(least, greatest):
    """Round values from one not above the least to one not below the greatest, and the places to show of them."""
    if least == greatest:
        least, greatest = least - 1, greatest + 1
    power = (greatest - least).adjusted() - 1
    steps = (decimal.Decimal(digit).scaleb(power + up) for up in itertools.count() for digit in (1, 2, 5))
    step = next(step for step in steps if (greatest - least) / step <= 5)
    first, last = math.floor(least / step), math.ceil(greatest / step)
    return [place * step for place in range(first, last + 1)], max(0, -step.adjusted())


def time_step(first, last):
    longer = (365 * DAY * 10**power * count for power in itertools.count() for count in (2, 5, 10))
    most = MOST_STEPS if last <= LAST_DATE else 3
    return next(step for step in itertools.chain(TIME_STEPS, longer) if last - first <= most * step)


def clock_text(time, step):
    """The time of day, to the minute, or finer if the steps are."""
    minutes, rest = divmod(time, MINUTE)
    shown = f"{minutes // 60:02}:{minutes % 60:02}"
    if step % MINUTE:
        shown += f":{rest // SECOND:02}"
    if step % SECOND:
        shown += f".{rest % SECOND:03}"
    return shown


def time_ticks(first, last):
    """Pairs of a time and the lines of text below it."""
    step = time_step(first, last)
    shows_dates = last >= FIRST_DATE
    day = None
    for time in range(-(-first // step) * step, last + 1, step):
        if last > LAST_DATE:
            yield time, [str(time)]
        elif not shows_dates:
            yield time, [clock_text(time, step) if step < DAY else f"day {time // DAY}"]
        else:
            date = (datetime.datetime(1970, 1, 1) + datetime.timedelta(days=time // DAY)).strftime("%Y-%m-%d")
            clock = [] if step >= DAY else [clock_text(time % DAY, step)]
            yield time, clock + ([] if clock and day == date else [date])
            day = date


def legend(layers, left):
    """The swatches and labels in rows, and the number of rows."""
    parts, x, row = [], left, 0
    for layer in layers:
        if layer.label is None:
            continue
        width = 32 + LETTER * len(layer.label) + 20
        if x > left and x + width > WIDTH:
            x, row = left, row + 1
        y = 16 + 20 * row
        parts += layer.swatch(round(x), y)
        parts.append(f'<text x="{x + 32:.0f}" y="{y + 4}">{text_of(layer.label)}</text>')
        x += width
    return parts, row + 1


def draw(title, layers, unit=""):
    """The chart as the text of an SVG file. At least one layer has a row."""
    with decimal.localcontext() as context:
        context.prec = 60
        return drawn(title, layers, unit)


def drawn(title, layers, unit):
    times = [time for layer in layers for time in layer.times()]
    values = [value for layer in layers for value in layer.values()]
    first, last = min(times), max(times)
    if first == last:
        first, last = max(first - SECOND, 0), last + SECOND
    ticks, places = value_ticks(min(values), max(values))
    tick_texts = [f"{tick:,.{places}f}{unit}" for tick in ticks]
    below = list(time_ticks(first, last))
    left = max(44, round(16 + LETTER * max(map(len, tick_texts))))
    keys, rows = legend(layers, left)
    top, bottom = 14 + 20 * rows, HEIGHT - 20 - 14 * max([len(lines) for _, lines in below] + [1])

    def x(time):
        return left + (RIGHT - left) * (time - first) / (last - first)

    def y(value):
        return bottom - float((bottom - top) * (value - ticks[0]) / (ticks[-1] - ticks[0]))

    parts = [
        f'<svg xmlns="http://www.w3.org/2000/svg" viewBox="0 0 {WIDTH} {HEIGHT}" width="{WIDTH}" height="{HEIGHT}">',
        f"<title>{text_of(title)}</title>",
        "<style>text { font: 12px sans-serif; fill: #444 } .value { text-anchor: end } .time { text-anchor: middle }",
        ".grid { stroke: #ddd }</style>",
        f'<rect width="{WIDTH}" height="{HEIGHT}" fill="#fff"/>',
    ]
    for tick, shown in zip(ticks, tick_texts):
        parts.append(f'<line class="grid" x1="{left}" y1="{y(tick):.1f}" x2="{RIGHT}" y2="{y(tick):.1f}"/>')
        parts.append(f'<text class="value" x="{left - 8}" y="{y(tick) + 4:.1f}">{shown}</text>')
    for tick, lines in below:
        parts.append(f'<line class="grid" x1="{x(tick):.1f}" y1="{top}" x2="{x(tick):.1f}" y2="{bottom}"/>')
        for row, shown in enumerate(lines):
            parts.append(f'<text class="time" x="{x(tick):.1f}" y="{bottom + 18 + 14 * row}">{shown}</text>')
    for layer in layers:
        if layer.rows:
            parts += layer.marks(x, y)
    return "\n".join([*parts, *keys, "</svg>"]) + "\n"
