"""The text of an element as the parser has it, to compare with what is laid out."""
import html
import re
import unicodedata

# What no browser shows, said once more and not taken from what is tested.
UNSHOWN = {"script", "style", "template", "title", "head", "noframes", "noembed", "iframe", "rp", "datalist",
           "select", "textarea", "annotation", "annotation-xml", "desc", "metadata", "defs", "symbol"}


def own_text(element):
    """All text inside an element but what is not shown. Fields of forms are left out."""
    texts, left = [], [(element, True)]
    while left:
        it, is_entered = left.pop()
        if isinstance(it, str):
            texts.append(it)
            continue
        tag = it.tag.rpartition("}")[2] if isinstance(it.tag, str) else None
        is_shown = is_entered and tag is not None and tag not in UNSHOWN and "hidden" not in it.attrib and not (
            tag == "dialog" and "open" not in it.attrib)
        if it is not element and it.tail:
            left.append((it.tail, True))
        if is_shown or it is element:
            left.extend((child, True) for child in reversed(list(it)))
            left.append((it.text or "", True))
    return "".join(texts)


def characters(text):
    """The characters of a text without white space, and each script as what it is a script of."""
    text = unicodedata.normalize("NFKC", re.sub("[\0-\x08\x0b\x0e-\x1f\x7f-\x9f]", "\ufffd", text))
    return "".join(it for it in text if not it.isspace()).replace("\u2212", "-")


def written_text(fragment):
    """The text of a fragment of the subset."""
    return html.unescape(re.sub(r"<[^>]*>", "", fragment))


def lost(wanted, found):
    """The first character of `wanted` that does not stand in `found` in this order, with what is around it; or nothing."""
    place = 0
    for number, it in enumerate(wanted):
        place = found.find(it, place) + 1
        if not place:
            return wanted[max(0, number - 20):number + 20]
    return ""
