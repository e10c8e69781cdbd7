#!/usr/bin/env python3
"""plot.py: a chart of captures from 1 to 64 FIFOs that cat feeds at full speed, by this dumpcap and Wireshark's.

For each number of FIFOs, which have the packets together, both capture them several times in turn, and the most packets a second that
stand in the file are taken. It prints them in a table and writes the chart as docs/sources.svg. Where Wireshark's dumpcap isn't
installed it says so, and the chart has this one's line alone. Where this dumpcap's file hasn't all packets, or its exit isn't 0, it says
so and ends with 1, without a chart. The files are in memory. It is run by hand."""
import math
import os
import sys
from xml.sax.saxutils import escape

sys.dont_write_bytecode = True
import base

COUNTS = [1, 2, 4, 8, 16, 32, 64]
WIDTH, HEIGHT, LEFT, RIGHT, UPPER, LOWER = 720, 440, 60, 690, 90, 350
COLORS = ("#1f5fa8", "#c4581a")


def rate(words, stream, sources, packets, folder):
    """Packets a second that stand in the file, and what is wrong with a whole capture: nothing, or some words."""
    out = os.path.join(folder, "out")
    base.remove(out)
    fifos = base.make_fifos(folder, sources)
    run = base.measured(words(fifos, out), [stream] * sources, fifos, folder)
    found = base.packets_of(out)
    base.remove(out)
    return found / run.seconds, "" if found == packets and run.exit == 0 else f"{found} of {packets} packets in the file, exit {run.exit}"


def measure(options, folder):
    """The best rates by tool and number of FIFOs, and the faults of this dumpcap."""
    tools = {"this dumpcap": lambda fifos, out: base.capture_words(options.program, fifos, out)}
    if base.installed("dumpcap"):
        tools["Wireshark's dumpcap"] = lambda fifos, out: base.capture_words("dumpcap", fifos, out, "-q")
    rates, faults, stream = {tool: [] for tool in tools}, [], os.path.join(folder, "in")
    for sources in COUNTS:
        share = options.packets // sources
        base.write_classic(stream, share)
        best = dict.fromkeys(tools, 0)
        for _ in range(options.runs):
            for tool, words in tools.items():
                found, wrong = rate(words, stream, sources, share * sources, folder)
                best[tool] = max(best[tool], found)
                if wrong and tool == "this dumpcap":
                    faults.append(f"FAILED: {sources} FIFOs: {wrong}")
        for tool in tools:
            rates[tool].append(best[tool])
    return rates, faults


def step_of(most):
    """A round step of the vertical axis with which four to ten lines reach the most."""
    power = 10 ** math.floor(math.log10(most / 4))
    return next(power * factor for factor in (1, 2, 2.5, 5, 10) if power * factor * 8 >= most)


def text(x, y, words, anchor="middle", more=""):
    """Words of the chart."""
    return f'<text x="{x:.1f}" y="{y:.1f}" text-anchor="{anchor}"{more}>{escape(words)}</text>'


def line(x, y, to_x, to_y, color, width=1):
    """A straight line of the chart."""
    return f'<line x1="{x:.1f}" y1="{y:.1f}" x2="{to_x:.1f}" y2="{to_y:.1f}" stroke="{color}" stroke-width="{width}"/>'


def across(sources):
    """The place of a number of FIFOs, by its logarithm."""
    return LEFT + 20 + math.log2(sources) / math.log2(COUNTS[-1]) * (RIGHT - LEFT - 40)


def axes(step, steps):
    """The lines and words of both axes."""
    parts = []
    for k in range(steps + 1):
        y = LOWER - k / steps * (LOWER - UPPER)
        parts += [line(LEFT, y, RIGHT, y, "#dddddd" if k else "#444444"), text(LEFT - 8, y + 4, f"{k * step / 1e6:.4g}", "end")]
    for sources in COUNTS:
        parts += [line(across(sources), LOWER, across(sources), LOWER + 5, "#444444"), text(across(sources), LOWER + 20, str(sources))]
    parts += [line(LEFT, UPPER, LEFT, LOWER, "#444444"), text((LEFT + RIGHT) / 2, LOWER + 42, "FIFOs read at once")]
    return parts + [text(LEFT - 36, UPPER - 16, "million packets a second in the file", "start")]


def curve(values, most, color):
    """The line of a tool, with a dot for each number of FIFOs."""
    places = [(across(sources), LOWER - value / most * (LOWER - UPPER)) for sources, value in zip(COUNTS, values)]
    parts = [line(*one, *next_one, color, 2.5) for one, next_one in zip(places, places[1:])]
    return parts + [f'<circle cx="{x:.1f}" cy="{y:.1f}" r="4" fill="{color}"/>' for x, y in places]


def legend(tools):
    """The names of the lines, in a row above the chart."""
    parts = []
    for k, tool in enumerate(tools):
        x = RIGHT - 340 + 170 * k
        parts += [f'<rect x="{x}" y="{UPPER - 22}" width="22" height="4" fill="{COLORS[k]}"/>', text(x + 28, UPPER - 16, tool, "start")]
    return parts


def chart(rates, caption):
    """The chart as SVG."""
    step = step_of(max(value for values in rates.values() for value in values))
    steps = max(1, math.ceil(max(value for values in rates.values() for value in values) / step))
    parts = [f'<svg xmlns="http://www.w3.org/2000/svg" width="{WIDTH}" height="{HEIGHT}" viewBox="0 0 {WIDTH} {HEIGHT}"',
             ' font-family="sans-serif" font-size="13" fill="#222222">',
             f'<rect width="{WIDTH}" height="{HEIGHT}" fill="#ffffff"/>',
             text(WIDTH / 2, 24, "Packets in the file, by the number of FIFOs", more=' font-size="16"'), *axes(step, steps)]
    for color, values in zip(COLORS, rates.values()):
        parts += curve(values, steps * step, color)
    return "\n".join([*parts, *legend(rates), text(WIDTH / 2, HEIGHT - 18, caption, more=' font-size="11"'), "</svg>"]) + "\n"


def main():
    """Reads the words, measures and writes the chart."""
    parser = base.parser_of(__doc__)
    parser.add_argument("--packets", type=int, default=2_000_000, help="64-byte packets of all FIFOs together (2000000)")
    parser.add_argument("--runs", type=int, default=3, help="runs of each point, of which the best counts (3)")
    parser.add_argument("--out", default=os.path.join(base.top, "docs", "sources.svg"), help="the chart's file (docs/sources.svg)")
    options = base.options_of(parser)
    with base.work_folder() as folder:
        rates, faults = measure(options, folder)
    base.table(["FIFOs", *map(str, COUNTS)], [[tool, *(f"{value:,.0f}" for value in values)] for tool, values in rates.items()])
    if faults:
        sys.exit("\n".join(faults))
    with open(options.out, "w") as file:
        file.write(chart(rates, f"{options.packets:,} packets of 64 bytes in all, fed by cat; best of {options.runs}. {base.machine()}"))
    print(f"written: {options.out}")


main()
