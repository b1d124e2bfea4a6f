"""Scripts with the replies that were worked out for them, as tests spell them: lines behind `> `, and replies behind `< `.

`{B}` is the base id. `[Users]` as a member of a document puts it into that collection.
"""

import re

from raven_tools import model


def expanded(text: str) -> str:
    text = text.replace("{B}", model.BASE)
    return re.sub(r"(,|\{)\[([A-Z][a-z]*)\]", r'\1"@metadata":{"@collection":"\2"}', text)


def halves(transcript: str) -> tuple[bytes, bytes]:
    """The script, and what is written for it."""
    lines = expanded(transcript).strip().split("\n")
    script, replies = ("".join(line[2:] + "\n" for line in lines if line.startswith(mark)).encode() for mark in "><")
    return script, replies


def holds(transcript: str, database: model.Database | None = None) -> None:
    """Fails at the first reply that is not the one that was worked out."""
    script, replies = halves(transcript)
    found = model.replies(script, database)
    for at, (expected, reply) in enumerate(zip(replies.split(b"\n"), found.split(b"\n"))):
        assert expected == reply, f"reply {at + 1}:\n  {reply.decode()}\nin place of\n  {expected.decode()}"
    assert replies.count(b"\n") == found.count(b"\n"), found.decode()


def replies_of(*lines: str, database: model.Database | None = None) -> list[dict]:
    written = model.replies(expanded("\n".join(lines)).encode(), database)
    return [model.read_json(reply) for reply in written.split(b"\n")[:-1]]
