"""Random reduces over the fields of a map: good ones, other spellings of one, and ones that are broken at some place."""

import random

from raven_tools.language import reduces
from raven_tools.making.maps import STRANGE, Maps

VARIABLES = ["r", "x", "_", "R", "results1"]
GROUPS = ["g", "G", "Key", "Sum", "by1"]
FOLDED = ["x", "y", "Min", "a1", "k"]


class Reduces(Maps):
    """Makes reduces by chance. Trees are those of `raven_tools.language.reduces`."""

    def __init__(self, source: random.Random):
        super().__init__(source)

    def fold(self, name, var, group):
        own = self.one_of([word for word in FOLDED if word not in (var, group)])
        return ("fold", self.one_of(reduces.FOLDS), own, name)

    def quotient(self, field, by, var, group):
        return ("quotient", *self.fold(field, var, group)[2:], *self.fold(by, var, group)[2:])

    def reduce_of(self, fields: list[str]) -> reduces.Reduce:
        """Some of the fields are the parts of the key, and the others are folded."""
        names = self.random.sample(fields, len(fields))
        key = names[: self.one_of([1, 1, 1, 2, len(names)])]
        var, group = self.one_of(VARIABLES), self.one_of(GROUPS)
        values = {name: ("key", name) if name in key else self.fold(name, var, group) for name in names}
        sums = [name for name, value in values.items() if value[:2] == ("fold", "Sum")]
        if sums and self.chance(40):
            folded = [name for name, value in values.items() if value[0] == "fold" and (len(sums) > 1 or name not in sums)]
            for name in self.random.sample(folded, min(len(folded), 1)):
                left = [summed for summed in sums if summed != name]
                values[name] = self.quotient(self.one_of(left), self.one_of(left), var, group)
        return reduces.Reduce(var, group, tuple(key), tuple(self.random.sample(list(values.items()), len(values))))

    def other_reduce(self, tree: reduces.Reduce) -> reduces.Reduce:
        """The reduce with a part, a field or a name changed, which mostly refuses it."""
        key, members = list(tree.key), list(tree.members)
        at = self.random.randrange(len(members))
        name, value = members[at]
        kind = self.random.randrange(8)
        if kind == 0:
            members.pop(at)
        if kind == 1:
            members.append(("Other", ("fold", "Sum", "x", "Other")))
        if kind == 2:
            members[at] = (name, self.fold(name, tree.var, tree.group))
        if kind == 3:
            members[at] = (name, ("key", self.one_of([*key, name, "Other"])))
        if kind == 4:
            key.append(self.one_of([*key, "Other"]))
        if kind == 5:
            members[at] = (name, ("fold", "Min", "x", "Other"))
        if kind == 7:
            others = [other for other, _ in members] + ["Other"]
            members[at] = (name, self.quotient(self.one_of(others), self.one_of(others), tree.var, tree.group))
        if kind == 6:
            members.append(self.one_of(members))
        return reduces.Reduce(tree.var, tree.group, tuple(key), tuple(members or tree.members))

    def spelled_fold(self, tree, kind, own, field):
        return [tree.group, ".", kind, "(", own, "=>", own, ".", field, ")"]

    def spelled_value(self, tree, value, is_new):
        if value[0] == "fold":
            return self.spelled_fold(tree, *value[1:])
        if value[0] == "quotient":
            return [*self.spelled_fold(tree, "Sum", *value[1:3]), "/", *self.spelled_fold(tree, "Sum", *value[3:])]
        return [tree.group, ".", "Key", *([".", value[1]] if is_new else [])]

    def reduce_tokens(self, tree: reduces.Reduce) -> list[str]:
        """The tokens of one of the spellings of a reduce."""
        is_new = len(tree.key) > 1 or self.chance(40)
        parts = [token for part in tree.key for token in (tree.var, ".", part, ",")][:-1]
        tokens = ["from", tree.var, "in", "results", "group", tree.var, "by"]
        tokens += ["new", "{", *parts, "}"] if is_new else parts
        tokens += ["into", tree.group, "select", "new", "{"]
        for name, value in tree.members:
            is_short = is_new and value == ("key", name) and self.chance(60)
            tokens += [*([] if is_short else [name, "="]), *self.spelled_value(tree, value, is_new), ","]
        if self.chance(85):
            tokens.pop()
        return [*tokens, "}"]

    def reduce_text(self, fields: list[str]) -> str:
        """Mostly a good one."""
        tree = self.reduce_of(fields)
        if self.chance(15):
            tree = self.other_reduce(tree)
        tokens = self.reduce_tokens(tree)
        if self.chance(10):
            tokens = self.replaced(tokens, [*STRANGE, tree.group, tree.var, "Key", "=>", "results"])
        return self.joined(tokens)
