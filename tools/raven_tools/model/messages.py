"""What the program writes to standard error: a line when a server listens, and at the end the name of the status and its cause."""

# What is said of a status, with the file, and with the etag, the end or the port that the status names. Of Usage see usage.py.
SENTENCES = {
    "ReadFault": "standard input cannot be read",
    "WriteFault": "standard output cannot be written",
    "KeptFault": "the documents in {file} cannot be read",
    "KeptBad": "the stored row with etag {detail} in {file} is not valid",
    "DoorFault": "cannot listen on 127.0.0.1:{detail}: the port is in use",
    "NoThread": "a thread cannot be started",
    "InputTooLarge": "the script has more than 16,777,216 bytes",
    "NoMemory": "out of memory",
    "HttpRefused": "the bytes are no further request: {detail}",
    "Enough": "1,000 requests are answered, the most of one session",
}
# Why a file is not opened.
CAUSES = {
    "NoMemory": "out of memory",
    "NoFolder": "no such folder",
    "NoPermission": "no permission",
    "Folder": "it is a folder",
    "NotRegular": "it or its log is no regular file, or has a second name",
    "InUse": "it is in use",
    "Journal": "it has a rollback journal: open it with sqlite3 first",
    "NotADatabase": "it is no database of SQLite",
    "Unreadable": "it is a database of SQLite that is damaged or of a kind that is not read",
    "Foreign": "it is a database of another program",
    "NotAPath": "to SQLite this is no path: write ./ before it",
    "Disk": "a read or a write failed, or the disk is full",
}
ESCAPES = {'"': '\\"', "\\": "\\\\", "\t": "\\t", "\n": "\\n", "\r": "\\r", "\0": "\\0"}


def quoted(path: str) -> str:
    """A path between quotes. What cannot be printed is written as a number."""
    return '"' + "".join(ESCAPES.get(sign) or (sign if sign.isprintable() else f"\\u{{{ord(sign):x}}}") for sign in path) + '"'


def listening(port: int, file: str | None = None) -> str:
    """What a server writes once clients can connect."""
    place = "in memory, lost when it ends" if file is None else f"in {quoted(file)}"
    return f"raven: listening on 127.0.0.1:{port}, documents {place}\n"


def message_of(status: str, file: str = "") -> str:
    """What is written at the end. The file is that of the arguments, which has been opened."""
    name, _, detail = status.partition(" ")
    second = f"raven: {SENTENCES[name].format(detail=detail, file=quoted(file))}\n" if name in SENTENCES else ""
    return f"raven: {name}\n{second}"


def unopened(file: str, cause: str) -> str:
    """What is written if the file is not opened. The cause is a name of the list above, or what the system says."""
    name = "NoMemory" if cause == "NoMemory" else "KeptFault"
    return f"raven: {name}\nraven: cannot open {quoted(file)}: {CAUSES.get(cause, cause)}\n"
