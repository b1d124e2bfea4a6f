"""The moments that documents show."""

import datetime
import re

# The moment of each line if no clock is given. A program with a clock shows others: `at_no_moment` puts this one in their place.
MOMENT = "1970-01-01T00:00:00.0000000Z"
MOMENTS = re.compile(rb'"@last-modified":"([0-9]{4}-[0-9]{2}-[0-9]{2}T[0-9]{2}:[0-9]{2}:[0-9]{2}\.[0-9]{7}Z)"')


def moment_text(moment: int) -> str:
    """A moment in microseconds since 1970, as a document shows it."""
    return (datetime.datetime(1970, 1, 1) + datetime.timedelta(microseconds=moment)).strftime("%Y-%m-%dT%H:%M:%S.%f0Z")


def at_no_moment(written: bytes) -> bytes:
    """What was written, with each moment of a document replaced by that of 1970."""
    return MOMENTS.sub(f'"@last-modified":"{MOMENT}"'.encode(), written)
