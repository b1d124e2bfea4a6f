"""Reduces: the tree that a text spells. Its refusals are those of maps."""

import dataclasses

from raven_tools.language import maps
from raven_tools.language.tokens import MOST_MEMBERS, Token

FOLDS = ("Sum", "Min", "Max")


@dataclasses.dataclass(frozen=True)
class Reduce:
    var: str
    group: str  # the name behind `into`
    key: tuple[str, ...]
    # of (name, value); a value is ("key", part), ("fold", kind, variable, field) or ("quotient", variable, field, variable, field)
    members: tuple


class Reader(maps.Reader):
    """Reads the tokens of a reduce. Which members are allowed depends on the key."""

    def __init__(self, tokens: list[Token]):
        super().__init__(tokens)
        self.group = None
        self.key = []
        self.key_at = None
        self.is_new = False  # whether the key is in `new { }`
        self.places: dict[str, int] = {}  # of each member

    def reduce(self) -> Reduce:
        self.word("from")
        var = self.variable().value
        self.bound.add(var)
        for word in ("in", "results", "group"):
            self.word(word)
        self.use(self.variable())
        self.word("by")
        self.read_key()
        self.word("into")
        self.group = self.new_variable()
        self.bound.add(self.group)
        self.word("select")
        self.word("new")
        members = self.members()
        self.of_kind("end")
        return Reduce(var, self.group, tuple(self.key), tuple(members))

    def new_variable(self):
        token = self.variable()
        if token.value in self.bound:
            self.miss(token)
        return token.value

    def read_key(self):
        self.key_at = self.token.at
        self.is_new = self.is_word("new")
        if not self.is_new:
            self.key = [self.part()]
            return
        self.take()
        self.mark("{")
        self.key = [self.part()]
        while self.is_mark(","):
            self.take()
            self.key.append(self.part())
        self.mark("}")

    def part(self):
        self.use(self.variable())
        return self.name_behind()

    def name_behind(self):
        self.mark(".")
        return self.of_kind("name").value

    def member(self, before):
        at = self.token.at
        if self.token.kind == "name" and before == MOST_MEMBERS:
            raise self.too_large()
        first = self.of_kind("name").value
        if first == self.group and self.is_new and not self.is_mark("="):
            self.mark(".")
            self.word("Key")
            name = self.name_behind()
            value = ("key", name)
        else:
            self.mark("=")
            name, value = first, self.value()
        self.places.setdefault(name, at)
        return name, value

    def value(self):
        self.word(self.group)
        self.mark(".")
        if not self.is_word("Key", *FOLDS):
            raise self.unexpected()
        kind = self.take().value
        if kind == "Key":
            return ("key", self.key_part())
        folded = self.folded()
        if kind == "Sum" and self.is_mark("/"):
            self.take()
            return ("quotient", *folded, *self.sum())
        return ("fold", kind, *folded)

    def sum(self):
        """A Sum, where nothing else may stand."""
        self.word(self.group)
        self.mark(".")
        self.word("Sum")
        return self.folded()

    def key_part(self):
        if len(self.key) > 1 or self.is_new and self.is_mark("."):
            return self.name_behind()
        return self.key[0]

    def folded(self):
        self.mark("(")
        own = self.new_variable()
        self.mark("=>")
        again = self.variable()
        if again.value != own:
            self.miss(again)
        field = self.name_behind()
        self.mark(")")
        return own, field


def is_summed(reduce: Reduce, field: str) -> bool:
    """Whether a member of this name is the sum of the field."""
    value = dict(reduce.members).get(field, ())
    return value[:2] == ("fold", "Sum") and value[-1] == field


def keeps_name(reduce: Reduce, name: str, value: tuple) -> bool:
    kind, *_, source = value
    if kind == "quotient":
        return is_summed(reduce, value[2]) and is_summed(reduce, source)
    return source == name and (kind == "fold" or source in reduce.key)


def irreducible(reduce: Reduce, reader: Reader) -> int | None:
    """The place that keeps groups from being reduced once more: a member that does not keep its name, or a key with a part without one."""
    for name, value in reduce.members:
        if not keeps_name(reduce, name, value):
            return reader.places[name]
    kept = {value[1] for _, value in reduce.members if value[0] == "key"}
    return None if kept.issuperset(reduce.key) else reader.key_at


def printed_fold(reduce: Reduce, kind: str, var: str, field: str) -> str:
    return f"{reduce.group}.{kind}({var} => {var}.{field})"


def printed_value(reduce: Reduce, value: tuple) -> str:
    if value[0] == "fold":
        return printed_fold(reduce, *value[1:])
    if value[0] == "quotient":
        return f"{printed_fold(reduce, 'Sum', *value[1:3])} / {printed_fold(reduce, 'Sum', *value[3:])}"
    return f"{reduce.group}.Key" + (f".{value[1]}" if len(reduce.key) > 1 else "")


def printed(reduce: Reduce) -> str:
    """The one text that each reduce has, whatever text it was read from."""
    key = ", ".join(f"{reduce.var}.{part}" for part in reduce.key)
    key = key if len(reduce.key) == 1 else f"new {{ {key} }}"
    members = ", ".join(f"{name} = {printed_value(reduce, value)}" for name, value in reduce.members)
    return f"from {reduce.var} in results group {reduce.var} by {key} into {reduce.group} select new {{ {members} }}"
