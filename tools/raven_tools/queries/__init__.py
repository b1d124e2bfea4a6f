"""The language of queries: what a text says, or at which token it is refused, and the canonical text of what it says.

It is written from the rules of docs/query-language.md and not from the program.
"""

from raven_tools.queries.parsing import parse
from raven_tools.queries.printing import printed
from raven_tools.queries.tokens import DEEPEST, LONGEST, MOST_FIELDS, Refusal, Token, tokens_of
from raven_tools.queries.trees import Query
