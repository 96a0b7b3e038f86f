"""Draws bars from standard input into an SVG. It is run by a Python that has matplotlib."""

import json
import sys

import matplotlib

matplotlib.use("svg")
matplotlib.rcParams["svg.hashsalt"] = "remixdb"  # So the same figures give the same file.

from matplotlib import pyplot  # noqa: E402

COLORS = {"time": "#4878a8", "memory": "#d08a3c"}


def main(path: str) -> None:
    bars = json.load(sys.stdin)
    loads = list(dict.fromkeys(bar["load"] for bar in bars))
    figure, axes = pyplot.subplots(figsize=(8, 1 + 0.8 * len(loads)))
    for bar in bars:
        median, least, greatest = bar["ratio"]
        place = loads.index(bar["load"]) + (-0.2 if bar["what"] == "time" else 0.2)
        axes.barh(place, median, height=0.36, color=COLORS[bar["what"]])
        axes.plot([least, greatest], [place, place], color="black", linewidth=1.5)
        axes.plot([bar["aim"]] * 2, [place - 0.18, place + 0.18], color="#b03030", linewidth=2)
    axes.axvline(1, color="#888888", linewidth=1, linestyle=":")
    axes.set_yticks(range(len(loads)))
    axes.set_yticklabels(loads)
    axes.set_ylim(len(loads) - 0.5, -0.5)
    axes.set_xlim(left=0)
    axes.set_xlabel("RemixDB over the plain program (1 is as much)")
    marks = [pyplot.Line2D([], [], color=color, linewidth=8) for color in COLORS.values()]
    marks += [pyplot.Line2D([], [], color="black"), pyplot.Line2D([], [], color="#b03030", linewidth=2)]
    names = [*COLORS, "least to greatest", "aim, at most"]
    figure.legend(marks, names, loc="upper center", ncol=4, frameon=False)
    figure.tight_layout(rect=(0, 0, 1, 0.93))
    figure.savefig(path, metadata={"Date": None})


if __name__ == "__main__":
    main(sys.argv[1])
