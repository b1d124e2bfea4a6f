"""The responses over HTTP: the status of each reply and each end, and the bytes."""

from raven_tools.model.database import Reply
from raven_tools.model.json import write_json
from raven_tools.model.refused import Refused

PHRASES = {
    200: "OK",
    201: "Created",
    204: "No Content",
    400: "Bad Request",
    404: "Not Found",
    409: "Conflict",
    413: "Payload Too Large",
    415: "Unsupported Media Type",
    431: "Request Header Fields Too Large",
    503: "Service Unavailable",
    507: "Insufficient Storage",
}
NO_CONTENT = 204
TOO_LARGE = 413
# The errors of each status.
ERRORS = {
    400: "NotJson NumberNotWhole TooDeep Empty TooLong Control BadMember Unexpected UnknownName DuplicateField FieldsDiffer NotReducible "
    "TooLarge ClauseOrder BadNumber NoParameter NoField NotGrouped BadPage ReservedName NameTooLong ReservedId",
    404: "NoRoute NoDatabase NoDocument NoIndex NoReplacement",
    409: "CollectionChanged Conflict NotFresh",
    503: "KeeperFault",
    507: "StoreFull EtagsSpent TooManyIndexes NotesFull",
}
STATUSES = {error: status for status, errors in ERRORS.items() for error in errors.split()}
# The ends that are answered.
ENDS = {"BadHead": 400, "HeadTooLarge": 431, "BodyTooLarge": 413, "Encoded": 415, "BadChunk": 400}


def status_of_error(reply: Reply) -> int:
    """A document that is too large has its own status; its reply tells how long it is, which that of a text does not."""
    return TOO_LARGE if reply["Error"] == "TooLarge" and "Len" in reply else STATUSES[str(reply["Error"])]


def refusal(refused: Refused) -> tuple[int, Reply]:
    return status_of_error(refused.reply), refused.reply


def response(status: int, reply: Reply, closes: bool) -> bytes:
    """The bytes of a response. One without content has neither a body nor what describes it."""
    body = write_json(reply).encode()
    lines = [f"HTTP/1.1 {status} {PHRASES[status]}"]
    if closes:
        lines.append("Connection: close")
    if status != NO_CONTENT:
        lines += [f"Content-Length: {len(body)}", "Content-Type: application/json; charset=utf-8"]
    head = "".join(line + "\r\n" for line in [*lines, ""]).encode()
    return head if status == NO_CONTENT else head + body


def response_to_end(end: str) -> bytes | None:
    """The last response of a session whose bytes are refused; None if the end is not answered."""
    return response(ENDS[end], {"Error": end}, True) if end in ENDS else None
