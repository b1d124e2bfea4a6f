"""The language in which indexes are defined: what a text spells, or for which cause it is refused, and what a map gives.

It is written from the rules of docs/index-language.md and not from the program. Trees are tuples, of which the first part
says what they are, so two trees are the same if they are equal. `definitions` has maps and reduces together.
"""

from raven_tools.language.groups import rows_of
from raven_tools.language.maps import Map, expressions_of, parse, scope_of
from raven_tools.language.meaning import Failed, entry_of
from raven_tools.language.spelling import printed, printed_expression, quoted
from raven_tools.language.tokens import (
    DEEPEST,
    GREATEST,
    LEAST,
    LEVEL_OF,
    LONGEST,
    MOST_MEMBERS,
    MOST_OPERATORS,
    RESERVED,
    Refusal,
    Token,
    tokens_of,
)
