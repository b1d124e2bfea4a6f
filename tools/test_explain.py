#!/usr/bin/env python3
"""Tests of the tool that explains refusals: what it prints was worked out by hand, and each refusal of the examples has its row.

    tools/test_explain.py

It needs no program. It ends with 0 if every test holds, and otherwise at the first assertion that does not.
"""

import sys

sys.dont_write_bytecode = True
from raven_tools import examples, explaining, model

# An empty line has no reply. A character outside ASCII has several bytes, and an escape of JSON has none of its own.
SCRIPT = r"""PUT a {}

INDEX {"Name":"\u0041","Map":"from u in docs.Users where u.A == \"\u00e9\" select new { v.Name }"}
QUERY from Users were Age = 3
ASK {"Query":"from Users\nwhere A = 'é' 'é'"}
MASK {"Query":"from index Net"}
MULTI {"Maps":["from u in docs.Users select new { u.A }","from o in docs.Orders select new { p.A }"],"Name":"N","Reduce":"from r in results group r by r.A into g select new { A = g.Key }"}
PUT b {"N":1.5}
GET c
STATS
"""
REPLIES = """{"ChangeVector":"A:1-AAAAAAAAAAAAAAAAAAAAAA","Id":"a"}
{"At":52,"Error":"UnknownName","Part":"Map"}
{"At":11,"Error":"Unexpected"}
{"At":26,"Error":"Unexpected"}
{"At":11,"Error":"Unexpected"}
{"At":35,"Error":"UnknownName","Part":"Map"}
{"Error":"NumberNotWhole"}
{"Error":"NoDocument","Id":"c"}
"""
PRINTED = """line 3: INDEX {"Name":"\\u0041","Map":"from u in docs.Users where u.A == \\"\\u00e9\\" select new { v.Name }"}
  {"At":52,"Error":"UnknownName","Part":"Map"}
  rom u in docs.Users where u.A == "é" select new { v.Name }
                                                    ^
line 4: QUERY from Users were Age = 3
  {"At":11,"Error":"Unexpected"}
  from Users were Age = 3
             ^
line 5: ASK {"Query":"from Users\\nwhere A = 'é' 'é'"}
  {"At":26,"Error":"Unexpected"}
  where A = 'é' 'é'
                ^
line 6: MASK {"Query":"from index Net"}
  {"At":11,"Error":"Unexpected"}
  from index Net
             ^
line 7: MULTI {"Maps":["from u in docs.Users select new { u.A }","from o in docs.Orders select new { p.A }"]..
  {"At":35,"Error":"UnknownName","Part":"Map"}
  from o in docs.Orders select new { p.A }
                                     ^
line 8: PUT b {"N":1.5}
  {"Error":"NumberNotWhole"}
line 9: GET c
  {"Error":"NoDocument","Id":"c"}
the replies end before line 10
"""


def printed(script: bytes, replies: bytes) -> str:
    """What is printed, without the sentences of the table."""
    return "".join(f"{line}\n" for line in explaining.explain(script, replies) if not line.startswith("  if "))


def test_worked_out() -> None:
    whole = model.replies(SCRIPT.encode())
    assert whole.startswith(REPLIES.encode()), whole.decode()
    found = printed(SCRIPT.encode(), REPLIES.encode())
    assert found == PRINTED, found


def test_ends() -> None:
    assert printed(b"STATS\n", b"") == "the replies end before line 1\n"
    assert printed(b"STATS\n", b'{"Error":"UnknownLine"}\n{"Error":"Unk') == 'line 1: STATS\n  {"Error":"UnknownLine"}\n'
    assert printed(b"\n", b"{}\n{}\n") == "there are 2 replies too many\n"


def test_each_refusal_has_a_row() -> None:
    table = explaining.causes()
    seen = set()
    for example in examples.every():
        for written in example.expected.split(b"\n")[:-1]:
            reply = model.read_json(written)
            if "Error" in reply:
                seen.add(reply["Error"])
                assert explaining.when_of(reply, table), f"{example.name}: {written.decode()}"
    assert len(seen) > 20, seen


def test_long_lines() -> None:
    query = "from Users where " + " and ".join(["A = 1"] * 30) + " 7"
    found = printed(f"QUERY {query}\n".encode(), f'{{"At":{len(query) - 1},"Error":"Unexpected"}}\n'.encode()).split("\n")
    assert found[0] == f"line 1: {('QUERY ' + query)[:100]}..", found[0]
    assert found[2] == "  " + query[-51:] and found[3] == " " * 52 + "^", found


if __name__ == "__main__":
    test_worked_out()
    test_ends()
    test_each_refusal_has_a_row()
    test_long_lines()
    print("explanations hold")
