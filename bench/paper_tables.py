"""Figures as text: medians and ratios with their spread, tables of Markdown, and their places in a document."""
import statistics

MISSING = "not installed"


def spread(values):
    """Returns the least, the median and the greatest of some values, or None if there are no values."""
    return (min(values), statistics.median(values), max(values)) if values else None


def ratios(above, below):
    """Returns the spread of the ratios of each round."""
    return spread([one / other for one, other in zip(above, below)]) if above and below else None


def plain(value):
    """Returns a figure with at most three digits, or a whole number."""
    return f"{value:,.0f}" if value >= 100 else f"{value:.3g}"


def text_of(it):
    """Returns a median with its least and greatest value, as text."""
    return MISSING if it is None else f"{plain(it[1])} ({plain(it[0])} to {plain(it[2])})"


def times_of(it):
    """Returns a ratio with its spread, as text."""
    return MISSING if it is None else f"{it[1]:.2f} ({it[0]:.2f} to {it[2]:.2f})"


def count_of(value):
    """Returns a number of instructions, as text."""
    return "not counted" if value is None else f"{value:,.0f}"


def size_of(length):
    return f"{length:,} B" if length < 1_000 else f"{length // 1_000} KB"


def table(heads, rows):
    """Returns a table in Markdown."""
    lines = ["| " + " | ".join(heads) + " |", "|" + "---|" * len(heads)]
    return "\n".join(lines + ["| " + " | ".join(row) + " |" for row in rows])


def put_between(text, name, block):
    """Returns the text with a block between the marks of this name."""
    first, last = f"<!-- made by bench/paper: {name} -->\n", "<!-- end -->"
    before, mark, rest = text.partition(first)
    if not mark or last not in rest:
        raise ValueError(f"no place for {name}")
    return before + first + "\n" + block + "\n\n" + last + rest.partition(last)[2]
