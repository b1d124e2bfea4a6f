"""How long, how deep and how many things may be, and the base id of a database that is given none."""

import dataclasses

MAX_SCRIPT = 16_777_216
MAX_ID = 512
MAX_NAME = 214
MAX_NEW_NAME = 200
MAX_BODY = 1_048_576
MAX_DEPTH = 100
MAX_SLOTS = 256
MAX_NOTES = 65_536
MAX_ROWS = 4_000_000
MAX_ETAG = 9_007_199_254_740_991
MAX_BATCH = 65_536
MAX_WORKER = 15
MAX_LOOKS = 64
# The maps of one MULTI.
MAX_PARTS = 8
# Of an automatic index that is made wider: its fields, and the bytes of their joined paths.
MAX_FIELDS = 64
MAX_PATHS = 65_536
MAX_HEAD = 16_384
MAX_REQUEST_BODY = 4_194_304
MAX_CHUNK_LINE = 64
MAX_REQUESTS = 1_000
BASE = "A" * 22


@dataclasses.dataclass(frozen=True)
class Limits:
    """What a database may have of some things. The program has these; tests may ask for less."""

    slots: int = MAX_SLOTS
    notes: int = MAX_NOTES
