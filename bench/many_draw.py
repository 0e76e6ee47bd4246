"""Draws the results of bench/many, which are JSON on standard input, as SVG.

    many_draw.py FILE
"""
import json
import sys

import matplotlib

matplotlib.use("svg")
from matplotlib import pyplot as plt  # noqa: E402

MET, MISSED = "#0072b2", "#d55e00"


def draw(axes, judgements, what, title):
    """Draws one bar per row, with its spread, and a mark at its goal."""
    for place, it in enumerate(judgements):
        values, wanted = it[what], it[f"wanted_{what}"]
        if values is None:
            continue
        median, least, greatest = values
        is_met = median >= wanted if what == "rate" else median <= wanted
        axes.barh(place, median, color=MET if is_met else MISSED, height=0.6)
        axes.errorbar(median, place, xerr=[[median - least], [greatest - median]], color="black", capsize=2, linewidth=1)
        axes.plot([wanted, wanted], [place - 0.42, place + 0.42], color="black", linewidth=2.5)
    axes.axvline(1, color="grey", linewidth=0.8, linestyle=":")
    axes.set_title(title)
    axes.set_xlim(left=0)


def main():
    judgements = json.load(sys.stdin)
    plt.rcParams.update({"svg.hashsalt": "many", "font.size": 9})
    figure, (left, right) = plt.subplots(1, 2, sharey=True, figsize=(10, 0.36 * len(judgements) + 1.4))
    draw(left, judgements, "rate", "rate, wanted at least")
    draw(right, judgements, "cost", "processor time, wanted at most")
    names = [it["name"] + (" *" if it["against"] == "C" else "") for it in judgements]
    left.set_yticks(range(len(names)), names)
    left.invert_yaxis()
    figure.supxlabel("relative to nginx, * to a C server that sends from memory; thick marks: wanted", fontsize=9)
    figure.tight_layout()
    figure.savefig(sys.argv[1], metadata={"Date": None})


main()
