"""Types in words, as `list<i64>` or `records<a: i32, b: text?>`, written of nodes and read again; and where in a column a node
lies."""

import json
import re
from typing import NamedTuple, Tuple

from . import carried
from .arguments import shown, wrong
from .nodes import (BINARY_VIEW, BOOL, BY_ARRAY, DICTIONARY, FIXED_SIZE_LIST, LIST_VIEW, NON_NULLABLE, NUMBERS, STRUCT, UTF8_VIEW)
from .nodes import ends, part_count, parts_of

NAMES = {BOOL: "bool", UTF8_VIEW: "text", BINARY_VIEW: "bytes", **{kind: name for name, kind in NUMBERS.items()}}
FLOATS = {"e": "f16", "f": "f32", "g": "f64"}
_PLAIN_NAME = re.compile(r"[^\W\d]\w*")
_PLAIN_FORMAT = re.compile(r"[\w:+/.-]+")


class Type(NamedTuple):
    """A type: a word, or the format of what is carried, with its parts, the names of columns or that of an extension, and the
    size of lists of one size."""

    word: str
    parts: Tuple["Type", ...] = ()
    names: Tuple[str, ...] = ()
    size: int = 0
    nullable: bool = False


# ---- written

def name_text(name):
    """The name of a column, in quotes where it is no plain word."""
    return name if _PLAIN_NAME.fullmatch(name) else json.dumps(name, ensure_ascii=False)


def _format_text(text):
    """A format that a column is carried under."""
    if text.startswith("d:"):
        return f"decimal {text}"
    return FLOATS.get(text) or (text if _PLAIN_FORMAT.fullmatch(text) else json.dumps(text, ensure_ascii=False))


def _column_names(node):
    return [str(name, "utf-8", "backslashreplace") for name in node.buffers]


def _written_carried(one, part):
    """The text of what is carried, whose column has this one."""
    if one.word in ("", *carried.MAPS):
        text = part
    elif one.word == carried.NULL:
        text = "null"
    elif one.word == carried.ORDERED:
        text = f"ordered {part}" if part.startswith("dictionary<") else part
    else:
        text = _format_text(one.word)
    return text if one.extension is None else f"extension<{json.dumps(one.extension, ensure_ascii=False)}, {text}>"


def _written(node, parts):
    """The text of a node's type, whose parts have these, but for its `?`."""
    if node.kind == STRUCT:
        columns = (f"{name_text(name)}: {part}" for name, part in zip(_column_names(node), parts))
        return f"records<{', '.join(columns)}>"
    if node.kind == DICTIONARY:
        return f"dictionary<{parts[0]}, {parts[1]}>"
    if node.kind == FIXED_SIZE_LIST:
        return f"list<{parts[0]}, {node.size}>"
    return f"list<{parts[0]}>" if node.kind == LIST_VIEW else NAMES[node.kind]


def types_of(nodes):
    """The text of the type of each node."""
    found, made, after = carried.all_of(nodes), {}, ends(nodes)
    maps = {one.inner for one in found.values() if one.word in carried.MAPS}
    entries = {carried.entries_of(nodes, inner) for inner in maps}
    nulls = {one.place for one in found.values() if one.word == carried.NULL}
    for place in reversed(range(len(nodes))):
        node, parts = nodes[place], [made[part] for part in parts_of(nodes, place, after)]
        if place in found:
            text = _written_carried(found[place], parts[0])
        elif place in maps:
            text = parts[0]
        else:
            text = f"map<{parts[0]}, {parts[1]}>" if place in entries else _written(node, parts)
        nullable = node.validity != NON_NULLABLE and place not in entries and place not in nulls
        made[place] = text + "?" * (nullable and text[-1] != "?")
    return made


# ---- where a node lies

def _steps(nodes, place, after):
    """The words for the parts of a node, with that of its validity before."""
    node = nodes[place]
    if node.kind == STRUCT:
        own = [f".{name_text(name)}" for name in _column_names(node)]
        own = [""] if carried.says_so(node) else own
    else:
        own = {DICTIONARY: ["|codes", ""], FIXED_SIZE_LIST: ["[]"], LIST_VIEW: ["[]", "|offsets", "|sizes"]}.get(node.kind, [])
    words = ["|validity"] * (node.validity == BY_ARRAY) + own
    return zip(words, [place + 1] + [after[part] for part in _all_parts(nodes, place, after)])


def _all_parts(nodes, place, after):
    """The places of all parts of a node."""
    places = [place + 1]
    for _ in range(part_count(nodes[place]) - 1):
        places.append(after[places[-1]])
    return places[: part_count(nodes[place])]


def path_of(nodes, wanted, name=""):
    """The path of names to a node, the word of what it is a part of there, as `a[].b` and `offsets`, and the array of that
    path."""
    after, place, top, path, part = ends(nodes), 0, 0, name_text(name) if name else "", ""
    while place != wanted:
        word, place = next(step for step in _steps(nodes, place, after) if step[1] <= wanted < after[step[1]])
        if word[:1] == "|":
            part = part or word[1:]
        elif not part:
            path, top = path + word, place
    return path.lstrip("."), part, top


# ---- read

_LEAF = re.compile(r"bool|text|bytes|null|[ui](?:8|16|32|64)|f(?:16|32|64)")
_OPEN = re.compile(r"(list|records|map|dictionary|ordered dictionary|extension)\s*<\s*")
_EXTENSION = re.compile(r'("(?:[^"\\]|\\.)*")\s*,\s*')
_NAME = re.compile(r'([^\W\d]\w*|"(?:[^"\\]|\\.)*")\s*:\s*')
_FORMAT = re.compile(r'decimal\s+(d:[0-9]+,-?[0-9]+(?:,[0-9]+)?)|(t[\w:+/.-]+|w:[0-9]+)|("(?:[^"\\]|\\.)*")')
_SIZE = re.compile(r"\s*,\s*([0-9]+)\s*>")
_COMMA, _CLOSE, _NULL = re.compile(r"\s*,\s*"), re.compile(r"\s*>"), re.compile(r"\s*\?")
_COUNTS = {"list": 1, "map": 2, "dictionary": 2, "ordered dictionary": 2, "extension": 1}
_FORMATS = {text: format for format, text in FLOATS.items()}


class _Reader:
    """Reads the text of a type. Nests that are open wait, so that no text is too deep."""

    def __init__(self, text):
        self.text, self.place, self.open = text.strip(), 0, []

    def refuse(self):
        taken = "a type, as list<i64> or records<a: i32, b: text?>"
        return wrong(ValueError, "type", taken, f"{shown(self.text)}, of which {shown(self.text[self.place :])} is not read")

    def met(self, pattern):
        """What stands here, where it is of this pattern."""
        found = pattern.match(self.text, self.place)
        if found:
            self.place = found.end()
        return found

    def name(self, pattern=_NAME):
        """The name of a column, or of an extension."""
        found = self.met(pattern)
        if not found:
            raise self.refuse()
        return self.unquoted(found[1])

    def unquoted(self, text):
        """What stands in quotes, where a text is in quotes."""
        try:
            return json.loads(text) if text[0] == '"' else text
        except ValueError:
            raise self.refuse() from None

    def leaf(self):
        """A type without parts."""
        found = self.met(_LEAF)
        if found:
            return Type(_FORMATS.get(found[0], found[0]))
        begin, found = self.place, self.met(_FORMAT)
        text = found and self.unquoted(found[1] or found[2] or found[3])
        if not text or not carried.format_of(text):
            self.place = begin
            raise self.refuse()
        return Type(text)

    def begun(self):
        """Whether a nest begins here, which then waits for its parts; False where it has none, and ends at once. None of a leaf."""
        found = self.met(_OPEN)
        if not found:
            return None
        nest = (found[1], [], [])
        self.open.append(nest)
        if found[1] == "extension":
            nest[2].append(self.name(_EXTENSION))
        elif found[1] == "records":
            if self.met(_CLOSE):
                return False
            nest[2].append(self.name())
        return True

    def ended(self):
        """The nest that ends here, or None where another part follows."""
        word, parts, names = self.open[-1]
        size = self.met(_SIZE) if word == "list" else None
        if size:
            return Type("fixed", tuple(parts), size=int(size[1]))
        if len(parts) == _COUNTS.get(word, len(parts)) and self.met(_CLOSE):
            return Type(word, tuple(parts), tuple(names))
        if not self.met(_COMMA) or len(parts) == _COUNTS.get(word):
            raise self.refuse()
        if word == "records":
            names.append(self.name())
        return None

    def nullable(self, kind):
        return kind._replace(nullable=kind.word == "null" or bool(self.met(_NULL)))

    def read(self):
        """The whole type."""
        while True:
            begun = self.begun()
            if begun:
                continue
            kind = self.nullable(self.leaf() if begun is None else Type(*self.open.pop()[:1]))
            kind = self.closed(kind)
            if kind:
                return kind

    def closed(self, kind):
        """The type that is read where no nest is open any more, after this part; else None."""
        while self.open:
            self.open[-1][1].append(kind)
            ended = self.ended()
            if not ended:
                return None
            self.open.pop()
            kind = self.nullable(ended)
        if self.place != len(self.text):
            raise self.refuse()
        return kind


def type_from(text):
    """The type that a text tells, as it is written of a column."""
    if not isinstance(text, str):
        raise wrong(TypeError, "type", "a text, as 'list<i64>'", shown(text))
    return _Reader(text).read()
