"""Texts: how they are compared, how long they are, and where a sentence ends."""

import re

UPPER = {code: code + 32 for code in range(ord("A"), ord("Z") + 1)}


def folded(text: str) -> str:
    """Ids and names are compared as this: ASCII letters in lower case, all else as it is."""
    return text.translate(UPPER)


def size(text: str) -> int:
    return len(text.encode())


def first_sentence(text: str) -> str:
    end = re.search(r"\.(?=\s|$)", text)
    return text[: end.end()] if end else text
