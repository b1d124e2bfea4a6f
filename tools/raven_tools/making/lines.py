"""The lines of a script, each without its end."""

from raven_tools import model


def put(name: str, body: str = "{}") -> str:
    return f"PUT {name} {body}"


def put_if(name: str, vector: str, body: str) -> str:
    return f"PUTIF {name} {vector} {body}"


def delete(name: str) -> str:
    return f"DEL {name}"


def delete_if(vector: str, name: str) -> str:
    return f"DELIF {vector} {name}"


def get(name: str) -> str:
    return f"GET {name}"


def bulk(*commands: str) -> str:
    return f'BULK {{"Commands":[{",".join(commands)}]}}'


def command(kind: str, name: str, members: str = "") -> str:
    """A command of a transaction; further members begin with a comma."""
    return f'{{"Id":"{name}","Type":"{kind}"{members}}}'


def put_command(name: str, document: str = "{}", members: str = "") -> str:
    return command("PUT", name, f'{members},"Document":{document}')


def definition(name: str, text: str, reduce: str | None = None) -> str:
    """A definition by the text of a map, and by that of a reduce, if there is one."""
    members = {"Name": name, "Map": text}
    return "INDEX " + model.write_json(members if reduce is None else {**members, "Reduce": reduce})


def ask(query: str, **members: object) -> str:
    """A question with this query, and with further members."""
    return "ASK " + model.write_json({"Query": query, **members})
