"""What stands in a cell of a page, as paragraphs of lines, and the tables between them."""
from __future__ import annotations

import re
from typing import Callable, Dict, FrozenSet, List, NamedTuple, Tuple, Union
from xml.etree.ElementTree import Element

from .forming import number_in
from .places import width_of
from .texts import BLANK, ends_of_marks, without_controls
from .web import events, name_of, visible_children

# The lines of a paragraph. A BLANK in them is a space at which no line breaks.
Paragraph = Tuple[str, ...]
Block = Union[Paragraph, Element]

_BLOCKS = frozenset(
    "address article aside blockquote body caption center dd details dialog dir div dl dt fieldset figcaption figure footer form "
    "h1 h2 h3 h4 h5 h6 header hgroup html legend li listing main menu nav ol p plaintext pre search section summary table td th "
    "tr ul xmp".split())
_PREFORMATTED = frozenset("listing plaintext pre xmp".split())
_LISTS = frozenset("dir menu ol ul".split())
_INDENTS = {"blockquote": 2, "dd": 2}
_WHOLES = frozenset("br hr img input select table textarea".split())
_RULE = "-----"

# A space of preformatted text, until its line is written.
_KEPT = "\1"
_SPACES = re.compile("[ \t\n\f\r]+")
_TAB_COLUMNS = 8

_RAISABLE = "0123456789+-\u2212=()"
# The characters of each kind of script, and the sign for what has none.
_SCRIPTS = {
    "sup": (dict(zip(_RAISABLE, "⁰¹²³⁴⁵⁶⁷⁸⁹⁺⁻⁻⁼⁽⁾")), "^"),
    "sub": (dict(zip(_RAISABLE, "₀₁₂₃₄₅₆₇₈₉₊₋₋₌₍₎")), "_"),
}
_AROUND = {"q": ("\u201c", "\u201d"), "rt": ("(", ")")}


class _Indent(NamedTuple):
    columns: int
    marker: str


class _List:
    """The numbers of a list, or its one sign."""

    def __init__(self, element: Element) -> None:
        self.is_ordered = name_of(element) == "ol"
        self.kind = element.get("type", "1")
        self.step = -1 if "reversed" in element.attrib else 1
        count = sum(name_of(it) == "li" for it in visible_children(element))
        self.next = number_in(element, "start", count if self.step < 0 else 1)

    def marker(self, item: Element) -> str:
        """The marker of the next item."""
        if not self.is_ordered:
            return "- "
        number = number_in(item, "value", self.next)
        self.next = number + self.step
        return f"{_numeral(number, item.get('type', self.kind))}. "


def _letters(number: int) -> str:
    letters = ""
    while number > 0:
        number, last = divmod(number - 1, 26)
        letters = chr(ord("a") + last) + letters
    return letters


_ROMAN = ((1000, "m"), (900, "cm"), (500, "d"), (400, "cd"), (100, "c"), (90, "xc"), (50, "l"), (40, "xl"), (10, "x"), (9, "ix"),
          (5, "v"), (4, "iv"), (1, "i"))


def _roman(number: int) -> str:
    numeral = ""
    for value, letters in _ROMAN:
        numeral += letters * (number // value)
        number %= value
    return numeral


def _numeral(number: int, kind: str) -> str:
    if not 0 < number < 4000 or kind not in ("a", "A", "i", "I"):
        return str(number)
    numeral = _letters(number) if kind in ("a", "A") else _roman(number)
    return numeral.upper() if kind.isupper() else numeral


def script_text(name: str, text: str) -> str:
    """The text of a ``sup`` or ``sub``: in characters of that kind where all have one, else after ``^`` or ``_``."""
    characters, sign = _SCRIPTS[name]
    if all(it in characters or it.isspace() for it in text):
        return "".join(characters.get(it, it) for it in text)
    return f"{sign}({text})" if text.strip() else text


def field_text(field: Element) -> str:
    """What a field of a form shows."""
    kind = field.get("type", "text").lower()
    if kind in ("checkbox", "radio"):
        sign = ("x" if kind == "checkbox" else "*") if "checked" in field.attrib else " "
        return f"[{sign}]" if kind == "checkbox" else f"({sign})"
    if kind == "image":
        return image_text(field)
    value = field.get("value", {"submit": "Submit", "reset": "Reset"}.get(kind, field.get("placeholder", "")))
    return f"[{value}]" if kind in ("submit", "reset", "button") else value


def image_text(image: Element) -> str:
    """An image's alternative text in brackets; nothing if it has none."""
    text = image.get("alt", image.get("title", ""))
    return f"[{text}]" if text.strip() else ""


def _option_text(option: Element) -> str:
    return option.get("label") or "".join(option.itertext())


def select_text(select: Element) -> str:
    """The chosen options of a list of options: without any the first, unless several may be chosen."""
    options = list(select.iter("option"))
    chosen = [it for it in options if "selected" in it.attrib]
    if "multiple" in select.attrib:
        chosen = chosen or options
    else:
        chosen = chosen[-1:] or options[:1]
    return ", ".join(_option_text(it) for it in chosen)


def _finished(pieces: List[str]) -> str:
    """The text of a line, with white space as HTML has it, and the spaces of preformatted text kept."""
    text = _SPACES.sub(" ", "".join(pieces)).strip(" ").rstrip(" " + _KEPT)
    body = text.lstrip(_KEPT)
    kept = re.sub(f"{_KEPT}+", lambda spaces: BLANK * (len(spaces[0]) - 1) + " ", body)
    return BLANK * (len(text) - len(body)) + kept


class _Flow:
    """The blocks of a cell, as far as they are read."""

    def __init__(self) -> None:
        self.blocks: List[Block] = []
        self._lines: List[str] = []
        self._pieces: List[str] = []
        self._indents: List[_Indent] = []
        self._lists: List[_List] = []
        self._preformatted = 0
        # Where the scripts begin that are open, in `_pieces`, and after how many lines.
        self._scripts: List[Tuple[int, int]] = []
        self._line_count = 0

    def text(self, text: str) -> None:
        """Adds text, with the line ends of preformatted text."""
        text = without_controls(text)
        if not self._preformatted:
            self._pieces.append(text)
            return
        for number, line in enumerate(text.replace("\r\n", "\n").replace("\r", "\n").split("\n")):
            if number:
                self.end_line(keeps_empty=True)
            self._keep_spaces(line)

    def _keep_spaces(self, line: str) -> None:
        for number, part in enumerate(line.split("\t")):
            if number:
                column = width_of("".join(self._pieces))
                self._pieces.append(_KEPT * (_TAB_COLUMNS - column % _TAB_COLUMNS))
            self._pieces.append(part.replace(" ", _KEPT))

    def end_line(self, keeps_empty: bool = False) -> None:
        """Ends the line: an empty one is kept in preformatted text, and elsewhere ends the paragraph."""
        text = _finished(self._pieces)
        self._pieces = []
        self._line_count += 1
        if text or keeps_empty and self._lines:
            self._lines.append(self._indentation() + (text or BLANK))
        elif not keeps_empty:
            self._end_lines()

    def _indentation(self) -> str:
        """What stands before a line: for each indentation its marker, which stands once, or spaces."""
        before = "".join(it.marker.replace(" ", BLANK) or BLANK * it.columns for it in self._indents)
        self._indents = [_Indent(it.columns, "") for it in self._indents]
        return before

    def _end_lines(self) -> None:
        while self._lines and not self._lines[-1].strip(BLANK):
            self._lines.pop()
        if self._lines:
            self._lines[-1] += ends_of_marks("".join(self._lines))
            self.blocks.append(tuple(self._lines))
        self._lines = []

    def end_paragraph(self) -> None:
        """Ends the paragraph, if there is one."""
        if _finished(self._pieces):
            self.end_line()
        self._pieces = []
        self._end_lines()

    def _add_markers(self) -> None:
        """A marker that has no text yet stands on a line of its own."""
        if any(it.marker for it in self._indents):
            self._lines.append(self._indentation().rstrip(BLANK))
            self._end_lines()

    def start(self, element: Element) -> None:
        """Enters an element."""
        name = name_of(element)
        if name in _BLOCKS:
            self.end_paragraph()
        if name in _LISTS:
            self._lists.append(_List(element))
        elif name == "li":
            marker = self._lists[-1].marker(element) if self._lists else "- "
            self._indents.append(_Indent(len(marker), marker))
        elif name in _INDENTS:
            self._indents.append(_Indent(_INDENTS[name], ""))
        elif name in _SCRIPTS:
            self._scripts.append((len(self._pieces), self._line_count))
        elif name in _AROUND:
            self._pieces.append(_AROUND[name][0])
        self._preformatted += name in _PREFORMATTED

    def end(self, element: Element) -> None:
        """Leaves an element."""
        name = name_of(element)
        if name in _BLOCKS:
            self.end_paragraph()
        if name in _LISTS:
            self._lists.pop()
        elif name == "li":
            self._add_markers()
            self._indents.pop()
        elif name in _INDENTS:
            self._indents.pop()
        elif name in _SCRIPTS:
            self._end_script(name)
        elif name in _AROUND:
            self._pieces.append(_AROUND[name][1])
        self._preformatted -= name in _PREFORMATTED

    def _end_script(self, name: str) -> None:
        begin, line = self._scripts.pop()
        if line == self._line_count:
            self._pieces[begin:] = [script_text(name, "".join(self._pieces[begin:]))]

    def whole(self, element: Element) -> None:
        """Adds an element that is not entered."""
        _ADD_WHOLE[name_of(element)](self, element)

    def _line_break(self, _: Element) -> None:
        self.end_line(keeps_empty=self._preformatted > 0)

    def _rule(self, _: Element) -> None:
        self.end_paragraph()
        self._pieces.append(_RULE)
        self.end_paragraph()

    def _image(self, image: Element) -> None:
        self._pieces.append(without_controls(image_text(image)))

    def _field(self, field: Element) -> None:
        self._pieces.append(without_controls(field_text(field)))

    def _select(self, select: Element) -> None:
        self._pieces.append(without_controls(select_text(select)))

    def _text_area(self, area: Element) -> None:
        self._preformatted += 1
        self.text("".join(area.itertext()))
        self._preformatted -= 1

    def _table(self, table: Element) -> None:
        self.end_paragraph()
        self._add_markers()
        self.blocks.append(table)


_ADD_WHOLE: Dict[str, Callable[[_Flow, Element], None]] = {
    "br": _Flow._line_break, "hr": _Flow._rule, "img": _Flow._image, "input": _Flow._field, "select": _Flow._select,
    "table": _Flow._table, "textarea": _Flow._text_area,
}


def blocks_of(cell: Element) -> List[Block]:
    """The paragraphs of a cell, or of any element, and the tables between them."""
    return _read(cell, _WHOLES)


def flat_blocks_of(element: Element) -> List[Block]:
    """The paragraphs of an element, those of the cells of tables in it among them."""
    return _read(element, _WHOLES - {"table"})


def _read(element: Element, wholes: FrozenSet[str]) -> List[Block]:
    flow = _Flow()
    for kind, it in events(element, wholes):
        if isinstance(it, str):
            flow.text(it)
        elif kind == "start":
            flow.start(it)
        elif kind == "end":
            flow.end(it)
        else:
            flow.whole(it)
    flow.end_paragraph()
    return flow.blocks
