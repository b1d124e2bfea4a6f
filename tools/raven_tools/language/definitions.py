"""Definitions of indexes: what the texts of a map and of a reduce say together, or for which cause they are none."""

import dataclasses
import json

from raven_tools.language import maps, reduces, tokens


class Refusal(Exception):
    """Texts that are no definition: the part, `Map` or `Reduce`, how many of its bytes are before what is refused, and the kind."""

    def __init__(self, part: str, at: int, kind: str):
        super().__init__(f"{kind} at {at} of the {part}")
        self.part = part
        self.at = at
        self.kind = kind


@dataclasses.dataclass(frozen=True)
class Static:
    map: maps.Map
    reduce: reduces.Reduce | None
    map_text: str = dataclasses.field(compare=False)
    reduce_text: str | None = dataclasses.field(compare=False)

    def scope(self) -> list[str]:
        """The collections that are read: the mapped one, and then those that are loaded from, in the order of the text."""
        loaded = [name for tree in maps.expressions_of(self.map) for name in loads_of(tree)]
        return list(dict.fromkeys([self.map.collection, *loaded]))

    def fields(self) -> list[str]:
        return sorted({name for name, _ in self.map.members}, key=str.encode)

    def row(self) -> dict:
        return row_of({"Kind": "static", "Map": self.map_text, "Reduce": self.reduce_text})


@dataclasses.dataclass(frozen=True)
class Auto:
    collection: str
    paths: tuple[list[str], ...]  # of names

    def scope(self) -> list[str]:
        return [self.collection]

    def fields(self) -> list[str]:
        return sorted({".".join(path) for path in self.paths}, key=str.encode)

    def row(self) -> dict:
        return row_of({"Collection": self.collection, "Fields": self.paths, "Kind": "auto"})


def loads_of(tree: tuple) -> list[str]:
    """The collections that `LoadDocument` names in an expression, that of a load after those of its id."""
    inner = [name for part in tree if isinstance(part, tuple) for name in loads_of(part)]
    return [*inner, tree[2]] if tree[0] == "load" else inner


def row_of(members: dict) -> dict:
    """The body by which a definition is put into the collection `@indexes`, which is of the second version."""
    return {"@metadata": {"@collection": "@indexes"}, **members, "Version": 2}


def json_of(value: object) -> str:
    return json.dumps(value, ensure_ascii=False, separators=(",", ":"), sort_keys=True)


def read(part, text):
    """What the text of a part spells, with its reader."""
    reader = (maps.Reader if part == "Map" else reduces.Reader)(tokens.tokens_of(text))
    try:
        return (reader.map() if part == "Map" else reader.reduce()), reader
    except tokens.Refusal as refusal:
        raise Refusal(part, refusal.at, refusal.kind) from None


def check_reduce(map_tree, reduce, reader):
    if {name for name, _ in map_tree.members} != {name for name, _ in reduce.members}:
        raise Refusal("Reduce", 0, "FieldsDiffer")
    at = reduces.irreducible(reduce, reader)
    if at is not None:
        raise Refusal("Reduce", at, "NotReducible")


def parse(map_text: str, reduce_text: str | None = None) -> Static:
    """The definition of the texts. Each cause is looked for in the map and then in the reduce, before the next one is."""
    texts = {"Map": map_text, "Reduce": reduce_text}
    texts = {part: text for part, text in texts.items() if text is not None}
    for part, text in texts.items():
        if len(text.encode()) > tokens.LONGEST:
            raise Refusal(part, tokens.LONGEST, "TooLarge")
    found = {part: read(part, text) for part, text in texts.items()}
    for kind, place in (("UnknownName", "unknown"), ("DuplicateField", "doubled")):
        for part, (_, reader) in found.items():
            if getattr(reader, place) is not None:
                raise Refusal(part, getattr(reader, place), kind)
    (map_tree, _), (reduce, reader) = found["Map"], found.get("Reduce", (None, None))
    if reduce:
        check_reduce(map_tree, reduce, reader)
    return Static(map_tree, reduce, map_text, reduce_text)
