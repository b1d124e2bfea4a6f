"""Scripts at each limit, and of each way in which a line can be wrong."""

import collections.abc

from raven_tools import model
from raven_tools.making import lines
from raven_tools.making.lines import command, put_command
from raven_tools.making.random_scripts import BAD_JSON, FILL, NUMBERS, SIZES, padded
from raven_tools.model.limits import MAX_NOTES

Named = collections.abc.Iterator[tuple[str, str]]


def put(name: str, body: str = "{}") -> str:
    return lines.put(name, body) + "\n"


def delete(name: str) -> str:
    return lines.delete(name) + "\n"


def bulk(*commands: str) -> str:
    return lines.bulk(*commands) + "\n"


def of(collection: str) -> str:
    return f'{{"F":"x","@metadata":{{"@collection":"{collection}"}}}}'


def nested(depth: int) -> str:
    return f'{{"D":{"[" * (depth - 1)}{"]" * (depth - 1)}}}'


def at_an_id(name: str) -> str:
    """Each line that has an id, with this one."""
    first, second = model.vector_of(1), model.vector_of(2)
    every = [put(name), f"GET {name}\n", f"PUTIF {name} {first} {{}}\n", f"DELIF {second} {name}\n", put(name), delete(name)]
    return "".join(every) + bulk(command("DELETE", "a"), put_command(name), command("DELETE", name)) + "STATS\n"


def sizes(extra: int) -> Named:
    """Scripts with something that is so much longer than may be."""
    yield "a body", put("a", padded(FILL + extra)) + "STATS\n"
    yield "a body in a transaction", bulk(put_command("a"), put_command("b", padded(FILL + extra))) + "GET b\nSTATS\n"
    yield "an id", at_an_id("i" * (model.MAX_ID + extra))
    name = "n" * (model.MAX_NAME + extra)
    yield "a name", f"FIND {name} F x\nSTALE {name}\n"
    yield "an automatic name", f"AUTO {'c' * (model.MAX_NEW_NAME - 9 + extra)} F\nFIND Auto/1 F x\n"
    body = {"@metadata": {}, "Collection": "C", "Fields": [[""]], "Kind": "auto"}
    yield "a definition", f"AUTO C {'f' * (model.MAX_BODY - len(model.write_json(body)) + extra)}\nSTATS\n"
    yield "brackets", put("a", nested(model.MAX_DEPTH + extra)) + "GET a\n"
    yield "brackets in a transaction", bulk(put_command("a", nested(model.MAX_DEPTH - 3 + extra))) + "GET a\n"
    first = put("a")
    yield "a script", first + "\n" * (model.MAX_SCRIPT - len(first) + extra)


def bodies() -> Named:
    """Scripts with bodies that are written in another way than they are read."""
    yield "a body that is as long written as read", put("a", '{"F":"' + '\\"' * (FILL // 2) + '"}')
    yield "a body that is longer written than read", put("a", '{"F":"' + "\\b" * (FILL // 2 + 1) + '"}')
    yield "a body that is shorter written than read", put("a", '{"F":"' + "\\u0041" * (FILL - 1) + '"' + " " * 1000 + "}")
    for name in model.OWN:
        yield f"a member {name} that goes out", put("a", f'{{"F":"{"x" * FILL}","@metadata":{{"{name}":"y"}}}}') + "STATS\n"
    yield "a member that stays", put("a", f'{{"F":"{"x" * FILL}","@metadata":{{"@other":"y"}}}}') + "STATS\n"
    yield "each number", "".join(put("a", f'{{"N":{n}}}') + put("a", f'{{"N":{n},"N":1}}') + "GET a\n" for n in NUMBERS)
    texts = [(put("a", n), put("a", f'{{"N":{n}}}'), f"BULK {n}\n", bulk(put_command("a", n))) for n in BAD_JSON]
    yield "each text that is no JSON", "".join("".join(each) for each in texts)


def indexes() -> Named:
    """Scripts with many indexes, and with many batches."""
    many = "".join(f"AUTO c{number} F\n" for number in range(model.MAX_SLOTS + 2))
    yield "more indexes than may be", many + "AUTO c0 F\nPUMP 1\nSTATS\n"
    letters = [[mark.upper() if number >> at & 1 else mark for at, mark in enumerate("abcdefgh")] for number in range(256)]
    same = "".join(f"AUTO {''.join(marks)} F\n" for marks in letters)
    yield "names that differ in case alone", same + "AUTO ABCDEFGH F\nPUMP 1\nFIND auto/abcdefgh/byf/255 F x\n"
    yield "names of control characters", "".join(f"AUTO c{at}\tx F\nFIND Auto/{at + 1} F x\n" for at in range(4))
    yield "each size of a batch", "".join(f"PUMP {number}\n" for number in SIZES)
    rows = "".join(put(f"u/{number}", of("U")) for number in range(300))
    yield "batches", f"AUTO U F\n{rows}" + "PUMP 1\nPUMP 7\nSTALE Auto/U/ByF\n" * 20 + "PUMP 65536\nFIND Auto/U/ByF F X\n"
    gone = "".join(delete(f"U/{number}") + "STALE Auto/U/ByF\nPUMP 1\n" for number in range(0, 300, 9))
    found = "FIND Auto/U/ByF F x\nSTALE Auto/U/ByF\nSTATS\n"
    yield "batches of tombstones", f"AUTO U F\n{rows}PUMP 280\n{gone}{found}PUMP 5\n{found}PUMP 200\n{found}"


def transactions() -> Named:
    """Scripts with long transactions."""
    many = [put_command(f"u/{number % 500}", padded(1)) for number in range(2000)]
    found = "STATS\nPUMP 100\nFIND Auto/@empty/ByF F X\n"
    late = command("DELETE", "u/1", ',"ChangeVector":""')
    yield "a long transaction", "AUTO @empty F\n" + bulk(*many) + found + bulk(*many, late) + found
    twice = [put_command("a"), command("DELETE", "A"), command("DELETE", "a"), put_command("A")] * 100
    yield "an id over and over", bulk(*twice) + bulk(*twice, command("DELETE", "a")) + "GET a\nSTATS\n"


def faults() -> Named:
    """Scripts with several faults in one line, of which the first in order has to be reported."""
    names = ["", "i" * 513, "a\\tb", "@index/a", "a"]
    texts = ["[" * 101, "[", "[1.5]", "[1]", "{}", padded(FILL + 1)]
    yield "faults of a body and an id", "".join(put(name or "b", text) for name in [*names, "a\tb"] for text in texts)
    members = [',"ChangeVector":7,"Document":[]', ',"ChangeVector":"x","Document":[]', ',"ChangeVector":"","Document":{}']
    members += [',"ChangeVector":null', ""]
    items = ["7", "[]", "{}", '{"Type":7,"Id":7}', command("put", ""), '{"Type":"PUT","Id":7,"ChangeVector":7}']
    items += [command(kind, name, more) for kind in ("PUT", "DELETE") for name in names for more in members]
    yield "faults of a command", "".join(bulk(item) + bulk(command("DELETE", "b"), item, "7") for item in items)
    whole = ["[" * 101, "[", "1.5", "[]", "7", "{}", '{"Commands":null}', '{"Commands":{}}', '{"commands":[]}']
    whole += [' {"Commands" : [ ] } ', '{"Commands":[],"Commands":[7]}', '{"Commands":[7],"Commands":[]}']
    yield "faults of a transaction", "".join(f"BULK {text}\n" for text in whole)
    bodies = [padded(FILL + 1), "{}", of("C")]
    vectors = ["x", model.vector_of(1), model.vector_of(3)]
    puts = [f"PUTIF {name} {vector} {body}\n" for name in "abc" for vector in vectors for body in bodies]
    deletions = [f"DELIF {vector} {name}\n" for name in ("@index/a", *"abc") for vector in vectors]
    rest = [f"PUTIF @INDEX/a x {bodies[0]}\n", "DEL b\n", "DEL c\n", "DEL @INDEX/c\n", "GET @index/c\n", "STATS\n"]
    yield "faults of a write", put("a", of("C")) + put("b", of("C")) + delete("b") + "".join(puts + rest + deletions + rest)


def switches() -> Named:
    """As many switches as may be noted, and what is left to do then."""
    texts = [f"from u in docs.U select new {{ u.{field} }}" for field in "AB"]
    taken_over = [lines.definition("U", text) + "\nSWITCH U\n" for text in texts]
    first = lines.definition("U", texts[1]) + "\n" + lines.definition("V", texts[0]) + "\n" + lines.definition("V", texts[1]) + "\n"
    asked = "".join(f"QUERY from index 'U' where {field} = 1\n" for field in "AB")
    last = f"SWITCH V\nTIDY\nSWITCH V\n{taken_over[1]}TIDY\nSWITCH W\n{asked}INDEXES\nDROP V\nDROP U\nSWITCH U\nSTATS\n"
    yield "more switches than may be noted", first + "".join(taken_over) * (MAX_NOTES // 2 - 1) + taken_over[0] + last


def at_the_limits() -> collections.abc.Iterator[tuple[str, bytes]]:
    """Scripts at the limits, with their names."""
    for extra in (-1, 0, 1):
        for name, script in sizes(extra):
            yield f"{name} at the limit {extra:+}", script.encode()
    others = [("nothing", ""), ("a blank line without an end", "\r"), ("each line of an id", at_an_id("users/1"))]
    for name, script in [*others, *bodies(), *indexes(), *transactions(), *faults(), *switches()]:
        yield name, script.encode()
