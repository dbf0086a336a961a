#!/usr/bin/env python3
"""Draws the bursts of `parblock run --trace` as an SVG: for each burst its workers, over the stamps.

    ./parblock run --trace < examples/depot_and_bank.json | tools/trace_svg.py > trace.svg
    ./parblock run --trace < examples/depot_and_bank.json | tools/trace_svg.py --html > trace.html

A box is the run of a transaction, from the stamp at its begin to the stamp at its finish, in the row of its worker.
What is printed before the first burst is left out.
"""

import argparse
import re
import sys
from html import escape

sys.dont_write_bytecode = True
import html_page  # noqa: E402

STEP = 24
ROW = 28
LEFT = 90
COLOURS = ["#8ecae6", "#ffb703", "#b7e4c7", "#e5989b", "#cdb4db", "#f9dcc4", "#a9def9", "#d0f4de"]


BURST = re.compile("burst ([a-z][a-z0-9_]*) ([0-9]+) ([0-9]+)")
SPAN = re.compile("span ([0-9]+) ([0-9]+) ([0-9]+) ([0-9]+)")


def bursts(lines):
    """The bursts, each as its title and its spans, from the lines of a run."""
    found = []
    for at, line in enumerate(lines, 1):
        if burst := BURST.fullmatch(line):
            found.append((f"{burst[1]}, block {burst[2]}", int(burst[3]), []))
        elif found:
            span = SPAN.fullmatch(line)
            numbers = span and tuple(int(word) for word in span.groups())
            if not span or not numbers[2] < numbers[3] or numbers[3] >= 2 * found[-1][1]:
                raise ValueError(f"line {at} is no span of this burst: {line[:80]}")
            found[-1][2].append(numbers)
    if not found:
        raise ValueError("nothing to draw: no line begins with `burst` (was it `run --trace`?)")
    for title, count, spans in found:
        if len(spans) != count:
            raise ValueError(f"{title} has {len(spans)} spans and says {count}")
    return found


def svg(found):
    """The lines of the picture."""
    widest = max((2 * count for _, count, _ in found), default=0)
    body, y = [], 8
    for title, _, spans in found:
        body.append(f'<text x="8" y="{y + 14}" font-weight="bold">{escape(title)}</text>')
        y += 22
        workers = sorted({worker for _, worker, _, _ in spans})
        for row, worker in enumerate(workers):
            body.append(f'<text x="8" y="{y + row * ROW + 18}">worker {worker}</text>')
        for number, worker, begin, finish in spans:
            x, top = LEFT + begin * STEP, y + workers.index(worker) * ROW
            width = (finish - begin) * STEP
            colour = COLOURS[(worker - 1) % len(COLOURS)]
            body.append(f'<rect x="{x}" y="{top + 3}" width="{width}" height="{ROW - 6}" fill="{colour}" stroke="#333"/>')
            body.append(f'<text x="{x + 4}" y="{top + 18}">{number}</text>')
        y += len(workers) * ROW + 10
    width = max([LEFT + widest * STEP + 16] + [24 + 8 * len(title) for title, _, _ in found])
    head = f'<svg xmlns="http://www.w3.org/2000/svg" width="{width}" height="{y}" font-family="monospace" font-size="12" style="background:white">'
    return [head] + body + ["</svg>"]


if __name__ == "__main__":
    parser = argparse.ArgumentParser(prog="trace_svg", description="Draws the bursts of `parblock run --trace`.")
    parser.add_argument("--html", action="store_true", help="a page in place of an SVG")
    given = parser.parse_args()
    try:
        picture = svg(bursts(sys.stdin.buffer.read().decode().splitlines()))
        print("\n".join(html_page.page("Bursts of a run", picture) if given.html else picture))
    except UnicodeDecodeError:
        sys.exit("trace_svg: the input is no UTF-8, so `run` didn't print it")
    except ValueError as error:
        sys.exit(f"trace_svg: {error}")
