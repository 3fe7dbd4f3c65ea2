"""Figures of a delay over the flow, with 95 % intervals, as SVG, PDF or PNG."""

from . import interrupts
from .faults import BadWord

KINDS = (".svg", ".pdf", ".png")
COLOURS = ("#0072B2", "#009E73", "#D55E00", "#CC79A7", "#E69F00", "#56B4E9", "#444444")
MARKS = "osD^vPX"
LEAST = 0.1


def _modules():
    """What draws; loaded where it is needed."""
    try:
        import matplotlib
    except ImportError:
        raise BadWord("figures need matplotlib; apt-get install --no-install-recommends python3-matplotlib") from None
    matplotlib.use("Agg")
    from matplotlib import pyplot
    return matplotlib, pyplot


def draw(path, title, lines, across="demand, vehicles an hour", up="mean delay, s"):
    """Draws lines, each a name with points (x, mean, half of the interval or None)."""
    if path.suffix not in KINDS:
        raise BadWord(f"{path} must end in one of {', '.join(KINDS)}")
    with interrupts.held():
        matplotlib, pyplot = _modules()
    matplotlib.rcParams.update({"svg.hashsalt": "aim-sumo", "svg.fonttype": "none", "pdf.fonttype": 42})
    figure, axes = pyplot.subplots(figsize=(7.6, 4.4), layout="constrained")
    for place, (name, points) in enumerate(lines.items()):
        xs, means, halves = zip(*points)
        shown = [max(mean, LEAST) for mean in means]
        low = [min(half or 0.0, mean - LEAST) if mean > LEAST else 0.0 for mean, half in zip(means, halves)]
        axes.errorbar(
            xs, shown, yerr=[low, [half or 0.0 for half in halves]], label=name, capsize=3, linewidth=1.8,
            color=COLOURS[place % len(COLOURS)], marker=MARKS[place % len(MARKS)], markersize=5)
    axes.set_yscale("log")
    axes.set(title=title, xlabel=across, ylabel=f"{up} (least shown: {LEAST:g})")
    axes.yaxis.set_major_formatter(matplotlib.ticker.FuncFormatter(lambda value, _: f"{value:g}"))
    axes.grid(True, which="major", color="#dddddd")
    axes.legend(loc="upper left", bbox_to_anchor=(1.01, 1.0), frameon=False)
    made = {"Date": None} if path.suffix == ".svg" else {"CreationDate": None} if path.suffix == ".pdf" else {}
    figure.savefig(path, metadata=made)
    pyplot.close(figure)
