#!/usr/bin/env python3
"""Draws docs/day.svg: a day of samples with its averages, from the replies in examples/attic.out.

    docs/picture.py            writes the picture
    docs/picture.py --check    says whether the existing picture is the one that it would write

examples/plot draws the series of a running server in the same way.
"""
import decimal
import pathlib
import re
import signal
import sys

HERE = pathlib.Path(__file__).resolve().parent
EXAMPLES = HERE.parent / "examples"
REPLIES = EXAMPLES / "attic.out"
PICTURE = HERE / "day.svg"

sys.dont_write_bytecode = True
sys.path.insert(0, str(EXAMPLES))
import chart

BUCKET = 2 * chart.HOUR


def rows_under(heading, shown):
    """The rows of the reply under a heading: times with their values."""
    after = shown.split(f'"{heading}"\n')[1]
    own = after.split('\n"')[0]
    rows = re.findall(r"^ *\d+\) 1\) \(integer\) (\d+)\n +2\) (\S+)$", own, re.MULTILINE)
    return [(int(time), decimal.Decimal(value)) for time, value in rows]


def drawn(shown):
    samples = rows_under("All samples", shown)
    averages = rows_under("Per two hours: the averages of the rule, including the open bucket", shown)
    least = rows_under("Per two hours: the minimum", shown)
    greatest = rows_under("Per two hours: the maximum", shown)
    between = [(time, low, high) for (time, low), (_, high) in zip(least, greatest)]
    blue, red = chart.COLOURS[:2]
    return chart.draw(
        "Degrees in an attic on one day: samples, averages, minimum and maximum",
        [
            chart.Band("from minimum to maximum", blue, between, BUCKET),
            chart.Steps("two-hour averages", red, averages, BUCKET),
            chart.Dots("a sample per half hour", blue, samples),
        ],
        "°",
    )


def main(words):
    if words == ["--help"]:
        print(__doc__.strip())
        return
    if words not in ([], ["--check"]):
        print("docs/picture.py: it takes the word --check, or none (--help tells more)", file=sys.stderr)
        sys.exit(2)
    picture = drawn(REPLIES.read_text(encoding="utf-8"))
    if words == ["--check"]:
        if not PICTURE.exists() or PICTURE.read_text(encoding="utf-8") != picture:
            sys.exit("docs/day.svg is not what docs/picture.py draws: run docs/picture.py")
        print("docs/day.svg: as drawn from examples/attic.out")
    else:
        PICTURE.write_text(picture, encoding="utf-8")


# It ends quietly where its reader has gone.
signal.signal(signal.SIGPIPE, signal.SIG_DFL)
main(sys.argv[1:])
