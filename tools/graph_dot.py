#!/usr/bin/env python3
"""Draws what `parblock graph` prints, as a DOT graph, an SVG or a page.

    ./parblock graph < examples/relay.json | tools/graph_dot.py | dot -Tsvg > relay.svg
    ./parblock graph < examples/relay.json | tools/graph_dot.py --svg > relay.svg
    ./parblock graph < examples/relay.json | tools/graph_dot.py --html > relay.html

With --svg or --html the picture is laid out here, in layers, and a browser opens it by itself.
Each agreed block is a box, each transaction in it a node, and each line `after` the arrows to it from what it waits for.
Rejected requests and the count of blocks are left out.
"""

import argparse
import re
import sys

sys.dont_write_bytecode = True
import graph_layout  # noqa: E402
import html_page  # noqa: E402


def quoted(text):
    return '"' + text.replace("\\", "\\\\").replace('"', '\\"') + '"'


NUMBER = "[1-9][0-9]*"
NAME = "[a-z][a-z0-9_]*"
HEAD = re.compile(f"(?:blocks (?:0|{NUMBER})|rejected {NUMBER} {NAME})")
BLOCK = re.compile(f"block ({NUMBER}) ([0-9a-f]+)")
TXN = re.compile(f"txn ({NUMBER}) ({NAME}) ({NAME}) after (none|{NUMBER}(?: {NUMBER})*)")
CONFIG = re.compile(f"config {NAME} tau {NUMBER} agents {NAME}(?: {NAME})*")


def dot(lines):
    """The lines of a DOT graph, from the lines that `graph` prints."""
    if not lines:
        raise ValueError("nothing to draw: `graph` printed nothing")
    out = ["digraph blocks {", "  rankdir=LR;", "  node [shape=box];"]
    block = None
    edges = []
    for at, line in enumerate(lines, 1):
        if head := BLOCK.fullmatch(line):
            if block is not None:
                out.append("  }")
            block = head[1]
            out.append(f"  subgraph cluster_{block} {{")
            out.append(f"    label={quoted('block ' + block + ' ' + head[2][:8])};")
        elif block is not None and (txn := TXN.fullmatch(line)):
            number, app, op, after = txn.groups()
            node = f"b{block}t{number}"
            out.append(f"    {node} [label={quoted(number + ' ' + app + ' ' + op)}];")
            edges += [f"  b{block}t{earlier} -> {node};" for earlier in after.split() if earlier != "none"]
        elif block is not None and CONFIG.fullmatch(line):
            out.append(f"    b{block}config [label={quoted(line)}];")
        elif not HEAD.fullmatch(line):
            raise ValueError(f"line {at} is none that `graph` prints there: {line[:80]}")
    if block is not None:
        out.append("  }")
    return out + edges + ["}"]


def drawn(lines, form):
    """The lines of the picture in this form. A DOT graph is made in each case: it says which line is none."""
    graph = dot(lines)
    if form == "svg":
        return graph_layout.svg(lines)
    if form == "html":
        return html_page.page("Agreed blocks", graph_layout.svg(lines))
    return graph


if __name__ == "__main__":
    parser = argparse.ArgumentParser(prog="graph_dot", description="Draws what `parblock graph` prints.")
    parser.add_argument("--svg", dest="form", action="store_const", const="svg", help="an SVG in place of a DOT graph")
    parser.add_argument("--html", dest="form", action="store_const", const="html", help="a page in place of a DOT graph")
    given = parser.parse_args()
    try:
        print("\n".join(drawn(sys.stdin.buffer.read().decode().splitlines(), given.form)))
    except UnicodeDecodeError:
        sys.exit("graph_dot: the input is no UTF-8, so `graph` didn't print it")
    except ValueError as error:
        sys.exit(f"graph_dot: {error}")
