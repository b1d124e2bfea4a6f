"""The canonical spelling of maps."""

from raven_tools.language.maps import Map


def quoted(text: str) -> str:
    spelled = text.replace("\\", "\\\\").replace('"', '\\"')
    return '"' + spelled.replace("\n", "\\n").replace("\r", "\\r").replace("\t", "\\t") + '"'


def operand(tree: tuple) -> str:
    """In parentheses if it has an operator itself."""
    return f"({printed_expression(tree)})" if tree[0] in ("if", "binary", "unary") else printed_expression(tree)


def printed_expression(tree: tuple) -> str:
    kind, *parts = tree
    if kind == "if":
        test, yes, no = map(operand, parts)
        return f"{test} ? {yes} : {no}"
    if kind == "binary":
        return f"{operand(parts[1])} {parts[0]} {operand(parts[2])}"
    if kind == "unary":
        return parts[0] + operand(parts[1])
    if kind == "dot":
        return f"{operand(parts[0])}.{parts[1]}"
    if kind == "load":
        return f"LoadDocument({printed_expression(parts[0])}, {quoted(parts[1])})"
    if kind == "text":
        return quoted(parts[0])
    if kind == "flag":
        return "true" if parts[0] else "false"
    return "null" if kind == "null" else str(parts[0])


def printed_clause(clause: tuple) -> str:
    word, *var, value = clause
    return " ".join([word, *(name + " =" for name in var), printed_expression(value)])


def printed(tree: Map) -> str:
    """The one text that each map has, whatever text it was read from."""
    clauses = "".join(printed_clause(clause) + " " for clause in tree.clauses)
    members = ", ".join(f"{name} = {printed_expression(value)}" for name, value in tree.members)
    return f"from {tree.var} in docs.{tree.collection} {clauses}select new {{ {members} }}"
