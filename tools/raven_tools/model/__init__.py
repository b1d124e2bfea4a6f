"""A second opinion on `raven run`: a small model of its lines, written from the rules and not from the program.

It keeps everything in plain dictionaries and counts anew for each question, so it is slow and easy to read.
"""

from raven_tools.model.database import Database
from raven_tools.model.definitions import Auto, AutoReduce, Static
from raven_tools.model.documents import OWN, collection_of, fault_of, stored, vector_of
from raven_tools.model.indexes import Batch, Index, Note
from raven_tools.model.json import quoted, read_json, write_json
from raven_tools.model.limits import (
    BASE,
    MAX_BATCH,
    MAX_BODY,
    MAX_DEPTH,
    MAX_ETAG,
    MAX_ID,
    MAX_NAME,
    MAX_NEW_NAME,
    MAX_ROWS,
    MAX_SCRIPT,
    MAX_SLOTS,
    Limits,
)
from raven_tools.model.lines import answer, lines, replies
from raven_tools.model.moments import MOMENT, MOMENTS, at_no_moment
from raven_tools.model.refused import Refused
from raven_tools.model.store import Row, Store
from raven_tools.texts import folded, size
