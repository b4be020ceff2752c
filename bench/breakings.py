"""Pages by `--break fit` beside those by `words` and `any`, for real.py and csv_real.py."""
import re
import sys
from collections import Counter
from pathlib import Path

sys.path.insert(0, str(Path(__file__).resolve().parent.parent / "integrations" / "python"))
from tablelayout.places import width_of  # noqa: E402

WIDTHS = (40, 60, 80, 120, 200)
BREAKINGS = ("fit", "words", "any")


def words_of(text):
    """The words of a text, between which white space of ASCII stands."""
    return re.findall(r"[^ \t\n\f\r]+", text)


def broken_words(words, page, message):
    """How many words do not stand whole on a page, though they are no wider than the number of its message."""
    found = re.search(r" break (\d+)$", message)
    whole = Counter(it for it in words if not found or width_of(it) <= int(found[1]))
    return sum((whole - Counter(words_of(page))).values())


class Breakings:
    """How many pages fit by each breaking, and by `fit` how many words are broken that stay whole by its message."""

    def __init__(self):
        self._fit, self._broken = Counter(), Counter()

    def compare(self, words, ask):
        """Asks for the pages of a table of these words: for a width and a breaking the page, or None, and the message."""
        for width in WIDTHS:
            for breaking in BREAKINGS:
                page, message = ask(width, breaking)
                self._fit[width, breaking] += page is not None
                if page is not None and breaking == "fit":
                    self._broken[width] += broken_words(words, page, message)

    def broken(self):
        """How many words are broken that may not be."""
        return sum(self._broken.values())

    def __str__(self):
        lines = ["width " + " ".join(f"{it:>6}" for it in BREAKINGS) + " broken"]
        for width in WIDTHS:
            lines.append(f"{width:5} " + " ".join(f"{self._fit[width, it]:6}" for it in BREAKINGS) + f" {self._broken[width]:6}")
        return "\n".join(lines)
