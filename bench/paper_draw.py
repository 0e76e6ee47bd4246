#!/usr/bin/python3
"""Draws charts as SVG by the distribution's matplotlib. `bench/paper` passes their descriptions as JSON on standard input: a list of
objects with `path`, `kind` (`lines` or `bars`), `title`, `across`, `up`, `places`, and `series`, which has for each name a list with
a spread (least, median, greatest) or null for each place.
"""
import json
import os
import sys

import matplotlib

matplotlib.use("svg")
from matplotlib import pyplot  # noqa: E402

COLOURS = ("#0072b2", "#d55e00", "#009e73", "#cc79a7", "#e69f00", "#56b4e9")
MARKS = "osD^vP"
STYLE = {
    "svg.hashsalt": "paper", "svg.fonttype": "none", "font.size": 10, "axes.grid": True, "axes.grid.axis": "y", "grid.color": "#dddddd",
    "axes.axisbelow": True, "axes.spines.top": False, "axes.spines.right": False, "axes.prop_cycle": matplotlib.cycler(color=COLOURS),
}


def errors_of(values):
    """Returns the distances of the medians to the least and the greatest values."""
    return [[it[1] - it[0] for it in values], [it[2] - it[1] for it in values]]


def add_lines(axes, number, name, values):
    """Draws a line through the medians, each with its spread. The places are evenly spaced."""
    at = [n for n, it in enumerate(values) if it]
    values = [it for it in values if it]
    axes.errorbar(at, [it[1] for it in values], yerr=errors_of(values), label=name, marker=MARKS[number], markersize=5, capsize=2)


def add_bars(axes, number, name, values, count):
    """Draws a bar for each median, with its spread."""
    wide = 0.8 / count
    at = [n + wide * (number - (count - 1) / 2) for n, it in enumerate(values) if it]
    values = [it for it in values if it]
    axes.bar(at, [it[1] for it in values], wide * 0.92, yerr=errors_of(values), label=name, capsize=2, ecolor="#333333")


def draw(picture):
    figure, axes = pyplot.subplots(figsize=(7.5, 4))
    series = picture["series"]
    for number, (name, values) in enumerate(series.items()):
        if picture["kind"] == "bars":
            add_bars(axes, number, name, values, len(series))
        else:
            add_lines(axes, number, name, values)
    axes.set_title(picture["title"], loc="left")
    axes.set_xlabel(picture["across"])
    axes.set_ylabel(picture["up"])
    axes.set_xticks(range(len(picture["places"])), picture["places"])
    axes.set_ylim(bottom=0)
    axes.legend(loc="upper left", bbox_to_anchor=(1.01, 1), frameon=False)
    os.makedirs(os.path.dirname(picture["path"]), exist_ok=True)
    figure.savefig(picture["path"], format="svg", bbox_inches="tight", metadata={"Date": None})
    pyplot.close(figure)


def main():
    with matplotlib.rc_context(STYLE):
        for picture in json.load(sys.stdin):
            draw(picture)


if __name__ == "__main__":
    main()
