"""Ids, names and documents."""

from raven_tools.model.json import Json
from raven_tools.model.limits import BASE
from raven_tools.model.refused import Refused

# The members of `@metadata` that the server writes itself.
OWN = ("@id", "@change-vector", "@last-modified", "@index-score", "@collection")


def fault_of(text: str, most: int) -> Refused | None:
    """Why a text can be no id or name: it has 1 to so many bytes and no control characters. None if it can be one."""
    data = text.encode()
    if not data:
        return Refused("Empty")
    if len(data) > most:
        return Refused("TooLong", Len=len(data))
    for at, byte in enumerate(data):
        if byte < 0x20 or byte == 0x7F:
            return Refused("Control", At=at)
    return None


def collection_of(body: dict[str, Json]) -> str:
    metadata = body.get("@metadata")
    collection = metadata.get("@collection") if isinstance(metadata, dict) else None
    return collection if isinstance(collection, str) and collection else "@empty"


def stored(body: dict[str, Json]) -> dict[str, Json]:
    """What is kept: `@metadata` is an object without the members that the server writes itself."""
    metadata = body.get("@metadata")
    if not isinstance(metadata, dict):
        metadata = {}
    kept = {name: value for name, value in metadata.items() if name not in OWN}
    return {**body, "@metadata": kept}


def vector_of(etag: int, base: str = BASE) -> str:
    return f"A:{etag}-{base}"
