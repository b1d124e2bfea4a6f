"""The lines of a script: what each asks, and the reply to it."""

import collections.abc
import re

from raven_tools.model import answers, batches, cleaning, multi, optimiser, slots, tidying
from raven_tools.model.asking import Ask, answer_to, read_query
from raven_tools.model.database import Database, Reply
from raven_tools.model.definitions import Static
from raven_tools.model.documents import fault_of
from raven_tools.model.json import Json, read_json, write_json
from raven_tools.model.limits import MAX_BATCH, MAX_ID, MAX_LOOKS, MAX_NAME, MAX_PARTS, MAX_WORKER
from raven_tools.model.refused import Refused
from raven_tools.model.transactions import Command
from raven_tools.scalars import is_number


def lines(data: bytes) -> list[bytes]:
    """Each line ends at a LF, which the last may lack; one CR before the LF is taken off."""
    pieces = data.split(b"\n")
    last = pieces.pop()
    ended = [piece[:-1] if piece.endswith(b"\r") else piece for piece in pieces]
    return ended + [last] if last else ended


def arguments(text: str, count: int) -> list[str]:
    """So many arguments, one space behind each, and the rest; none of them is empty."""
    parts = text.split(" ", count)
    if len(parts) <= count or not all(parts):
        raise Refused("UnknownLine")
    return parts


def number(text: str, least: int, most: int) -> int:
    found = int(text) if re.fullmatch(r"[0-9]{1,16}", text, re.ASCII) else -1
    if not least <= found <= most:
        raise Refused("UnknownLine")
    return found


def id_of(text: str) -> str:
    fault = fault_of(text, MAX_ID)
    if fault:
        raise fault
    return text


def name_of(text: str) -> str:
    fault = fault_of(text, MAX_NAME)
    if fault:
        raise fault
    return text


def object_of(value: Json, member: str) -> dict[str, Json]:
    if not isinstance(value, dict):
        raise Refused("BadMember", Name=member)
    return value


def text_of(value: Json, member: str) -> str:
    if not isinstance(value, str):
        raise Refused("BadMember", Name=member)
    return value


def is_collection(text: str) -> bool:
    return not text.startswith("@") or text == "@empty"


def is_field(text: str) -> bool:
    return not any(mark in text for mark in " .()")


def put_of(name: str, expected: str | None, text: str) -> Command:
    """A fault of the JSON is reported before one of the id, and that before a body that is no object."""
    body = read_json(text.encode())
    return Command(id_of(name), expected, object_of(body, "body"))


def put_line(database: Database, rest: str) -> Reply:
    name, text = arguments(rest, 1)
    return database.write(put_of(name, None, text))


def put_if_line(database: Database, rest: str) -> Reply:
    name, vector, text = arguments(rest, 2)
    return database.write(put_of(name, vector, text))


def delete_line(database: Database, rest: str) -> Reply:
    return database.write(Command(id_of(rest), None))


def delete_if_line(database: Database, rest: str) -> Reply:
    vector, name = arguments(rest, 1)
    return database.write(Command(id_of(name), vector))


def command_of(item: Json) -> Command:
    """A command of a transaction. Its members are tested in this order."""
    item = object_of(item, "Commands")
    if item.get("Type") not in ("PUT", "DELETE"):
        raise Refused("BadMember", Name="Type")
    name = id_of(text_of(item.get("Id"), "Id"))
    vector = item.get("ChangeVector")
    if vector is not None:
        text_of(vector, "ChangeVector")
    body = object_of(item.get("Document"), "Document") if item["Type"] == "PUT" else None
    return Command(name, vector, body)


def commands_of(value: Json) -> list[Command]:
    """The commands of a transaction."""
    commands = object_of(value, "body").get("Commands")
    if not isinstance(commands, list):
        raise Refused("BadMember", Name="Commands")
    return [command_of(item) for item in commands]


def bulk_line(database: Database, rest: str) -> Reply:
    return database.bulk(commands_of(read_json(rest.encode())))


def get_line(database: Database, rest: str) -> Reply:
    return answers.get(database, id_of(rest))


def auto_line(database: Database, rest: str) -> Reply:
    collection, field = arguments(rest, 1)
    if not is_collection(collection) or not is_field(field):
        raise Refused("UnknownLine")
    return {"Index": optimiser.index_for(database, optimiser.Shape(collection, ((field,),))).name}


def map_of(members: dict[str, Json]) -> str:
    """The text of the map. `Maps`, a list of one text, counts if both are there, and is missed if none is."""
    if "Map" in members and "Maps" not in members:
        return text_of(members["Map"], "Map")
    maps = members.get("Maps")
    if not isinstance(maps, list) or len(maps) != 1:
        raise Refused("BadMember", Name="Maps")
    return text_of(maps[0], "Maps")


def definition_of(members: dict[str, Json]) -> tuple[str, Static]:
    """The name and the definition. The members are tested in this order, and the texts are read behind them."""
    name = name_of(text_of(members.get("Name"), "Name"))
    text = map_of(members)
    reduce = members.get("Reduce")
    if reduce is not None:
        text_of(reduce, "Reduce")
    return name, Static(text, reduce)


def index_line(database: Database, rest: str) -> Reply:
    return slots.define(database, *definition_of(object_of(read_json(rest.encode()), "body")))


def maps_of(members: dict[str, Json]) -> list[str]:
    """Two to eight texts."""
    maps = members.get("Maps")
    if not isinstance(maps, list) or not 2 <= len(maps) <= MAX_PARTS:
        raise Refused("BadMember", Name="Maps")
    return [text_of(text, "Maps") for text in maps]


def parts_of(members: dict[str, Json]) -> list[tuple[str, Static]]:
    """The names and the definitions of several maps into one reduce. All texts are read before an index is defined."""
    name = text_of(members.get("Name"), "Name")
    name_of(multi.name_of(name, 1))
    maps = maps_of(members)
    reduce = text_of(members.get("Reduce"), "Reduce")
    return [(multi.name_of(name, number), Static(text, reduce)) for number, text in enumerate(maps, 1)]


def multi_line(database: Database, rest: str) -> Reply:
    return multi.define(database, parts_of(object_of(read_json(rest.encode()), "body")))


def drop_line(database: Database, rest: str) -> Reply:
    return slots.remove(database, name_of(rest))


def switch_line(database: Database, rest: str) -> Reply:
    return slots.switch(database, name_of(rest))


def pump_line(database: Database, rest: str) -> Reply:
    """The number is tested before the name, which may follow it."""
    first, *name = rest.split(" ", 1)
    most = number(first, 1, MAX_BATCH)
    if name == [""]:
        raise Refused("UnknownLine")
    return batches.pump(database, most, *map(name_of, name))


def read_line(database: Database, rest: str) -> Reply:
    """The numbers are tested before the name."""
    worker, most, name = arguments(rest, 2)
    return batches.read(database, number(worker, 0, MAX_WORKER), number(most, 1, MAX_BATCH), name_of(name))


def publish_line(database: Database, rest: str) -> Reply:
    return batches.publish(database, number(rest, 0, MAX_WORKER))


def find_line(database: Database, rest: str) -> Reply:
    index, field, text = arguments(rest, 2)
    return answers.find(database, name_of(index), field, text)


def stale_line(database: Database, rest: str) -> Reply:
    return answers.stale(database, name_of(rest))


def query_line(database: Database, rest: str) -> Reply:
    return answer_to(database, Ask(read_query(rest)))


def number_of(members: dict[str, Json], name: str, least: int | None = None, most: int | None = None) -> int | None:
    """A member that may be missing, in which case it is None."""
    value = members.get(name)
    if name in members and not is_number(value):
        raise Refused("BadMember", Name=name)
    if value is not None and (least is not None and value < least or most is not None and value > most):
        raise Refused("BadMember", Name=name)
    return value


def ask_of(value: Json) -> Ask:
    """The members are tested in this order, and the text is read behind them. One caller never waits, so looks change nothing."""
    members = object_of(value, "body")
    text = text_of(members.get("Query"), "Query")
    parameters = object_of(members.get("QueryParameters", {}), "QueryParameters")
    start, size = number_of(members, "Start"), number_of(members, "PageSize")
    cutoff = number_of(members, "CutoffEtag", least=0)
    if not isinstance(members.get("WaitForNonStaleResults", False), bool):
        raise Refused("BadMember", Name="WaitForNonStaleResults")
    number_of(members, "Looks", 1, MAX_LOOKS)
    return Ask(read_query(text), parameters, start or 0, size, cutoff)


def ask_line(database: Database, rest: str) -> Reply:
    return answer_to(database, ask_of(read_json(rest.encode())))


def mask_line(database: Database, rest: str) -> Reply:
    return multi.answer_to(database, ask_of(read_json(rest.encode())))


COMMANDS: dict[str, collections.abc.Callable[[Database, str], Reply]] = {
    "PUT": put_line,
    "PUTIF": put_if_line,
    "DEL": delete_line,
    "DELIF": delete_if_line,
    "BULK": bulk_line,
    "GET": get_line,
    "AUTO": auto_line,
    "INDEX": index_line,
    "DROP": drop_line,
    "SWITCH": switch_line,
    "PUMP": pump_line,
    "READ": read_line,
    "PUBLISH": publish_line,
    "FIND": find_line,
    "STALE": stale_line,
    "QUERY": query_line,
    "ASK": ask_line,
    "MULTI": multi_line,
    "MASK": mask_line,
}
# Lines without arguments.
ALONE: dict[str, collections.abc.Callable[[Database], Reply]] = {
    "STATS": answers.stats,
    "INDEXES": answers.listed,
    "TIDY": tidying.tidy,
    "CLEAN": cleaning.clean,
}


def asked(database: Database, line: bytes) -> Reply:
    try:
        text = line.decode("utf-8")
    except UnicodeDecodeError:
        raise Refused("UnknownLine") from None
    if text in ALONE:
        return ALONE[text](database)
    word, rest = arguments(text, 1)
    if word not in COMMANDS:
        raise Refused("UnknownLine")
    return COMMANDS[word](database, rest)


def answer(database: Database, line: bytes) -> Reply:
    """The reply to a line with bytes."""
    try:
        return asked(database, line)
    except Refused as refused:
        return refused.reply


def replies(data: bytes, database: Database | None = None) -> bytes:
    """The bytes that are written for a script, over an empty database if none is given."""
    database = database or Database()
    written = [write_json(answer(database, line)) + "\n" for line in lines(data) if line]
    return "".join(written).encode()
