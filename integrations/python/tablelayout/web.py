"""HTML as it is on the web, as the tree that the HTML Standard's parser makes of it."""
from __future__ import annotations

from typing import Iterator, List, Optional, Tuple, Union
from xml.etree.ElementTree import Element

from .packages import need

# Elements that are never rendered, or whose text is for others.
_HIDDEN = frozenset(
    "area base basefont bgsound datalist frame frameset head iframe link meta noembed noframes param rp script source style "
    "template title track".split())
_HIDDEN_IN_SVG = frozenset("defs desc metadata script style symbol title".split())
_HIDDEN_IN_MATH = frozenset(("annotation", "annotation-xml"))
_SVG, _MATH = "{http://www.w3.org/2000/svg}", "{http://www.w3.org/1998/Math/MathML}"

Event = Tuple[str, Union[Element, str]]


def parse(data: bytes, encoding: Optional[str] = None) -> Element:
    """The tree of a page. Elements of HTML have no namespace.

    Without ``encoding`` it is found as the standard says: by a byte order mark, a ``meta`` element; otherwise it is UTF-8
    if the bytes are, and else windows-1252. Raises MissingPackage if there is no html5lib.
    """
    html5lib = need("html5lib", "python3-html5lib")
    parser = html5lib.HTMLParser(tree=html5lib.getTreeBuilder("etree"), namespaceHTMLElements=False)
    tree: Element = parser.parse(data, override_encoding=encoding, default_encoding=_default_encoding(data), useChardet=False)
    return tree


def written(tree: Element) -> bytes:
    """A parsed page in UTF-8, with all its tags. Raises MissingPackage."""
    html5lib = need("html5lib", "python3-html5lib")
    data: bytes = html5lib.serialize(tree, tree="etree", encoding="utf-8", omit_optional_tags=False, quote_attr_values="always")
    return data


def _default_encoding(data: bytes) -> str:
    try:
        data.decode("utf-8")
    except UnicodeDecodeError:
        return "windows-1252"
    return "utf-8"


def name_of(element: Element) -> str:
    """The element's name, with its namespace in braces if it is none of HTML; empty for a comment."""
    return element.tag if isinstance(element.tag, str) else ""


def is_hidden(element: Element) -> bool:
    """Whether nothing of the element is shown."""
    name = name_of(element)
    if name.startswith(_SVG):
        return name[len(_SVG):] in _HIDDEN_IN_SVG
    if name.startswith(_MATH):
        return name[len(_MATH):] in _HIDDEN_IN_MATH
    return (not name or name in _HIDDEN or "hidden" in element.attrib
            or name == "dialog" and "open" not in element.attrib
            or name == "input" and element.get("type", "").lower() == "hidden")


def visible_children(element: Element) -> List[Element]:
    """The element's children that are shown."""
    return [child for child in element if not is_hidden(child)]


def events(root: Element, wholes: "frozenset[str]") -> Iterator[Event]:
    """What is shown inside an element, in order.

    An event is a kind and an element or a text: ``text``; ``start`` and ``end`` of an element; or ``whole`` for an element
    whose name is one of ``wholes``, which is not entered.
    """
    if root.text:
        yield "text", root.text
    # The elements that are entered, each with the number of its next child. Pages are nested deeper than calls may be.
    entered = [(root, 0)]
    while entered:
        element, number = entered.pop()
        if number < len(element):
            entered.append((element, number + 1))
            child = element[number]
            if is_hidden(child):
                yield from _text(child.tail)
            elif name_of(child) in wholes:
                yield "whole", child
                yield from _text(child.tail)
            else:
                yield "start", child
                yield from _text(child.text)
                entered.append((child, 0))
        elif entered:
            yield "end", element
            yield from _text(element.tail)


def _text(text: Optional[str]) -> Iterator[Event]:
    if text:
        yield "text", text


def tables_of(root: Element) -> List[Element]:
    """The tables of a page that are shown and inside no other, in order."""
    return [it for kind, it in events(root, frozenset(("table",))) if kind == "whole" and isinstance(it, Element)]
