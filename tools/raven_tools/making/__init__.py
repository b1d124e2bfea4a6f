"""Scripts, each out of its seed or of a case.

`Maker` spells the lines that every script has. Its profiles say of which ids, bodies and vectors, and how often each line comes:

- `random_scripts`, in which something is wrong now and then;
- `map_scripts`, mostly good lines, of maps and of documents that load one another;
- `totals_scripts`, mostly reduces with quotients, and questions about their rows;
- `multi_scripts`, mostly several maps into one reduce, what replaces a part, and questions about their rows;
- `query_scripts`, mostly good queries, over indexes that lag behind;
- `slot_scripts`, mostly definitions under names that serve, switches, and batches that are held meanwhile;
- `choice_scripts`, mostly queries that choose, make and widen automatic indexes, and tidyings;
- `crash_scripts` and `load_scripts`, writes over a file;
- `random_cases`, any of these over a keeper in memory that fails.

`limit_scripts` and `case_scripts` are at each limit and of each case in `worked`. `worked_slots` has scripts of replacements,
`worked_choices` those of queries that choose an index, and `worked_multi` those of several maps into one reduce.

`http_calls` makes calls over HTTP, out of the lines of scripts too, and `http_sessions` spells them as bytes. `worked_http` has bytes with
what they are read as and what is answered, and `http_rounds` makes runs of the command `http` out of both.
"""

from raven_tools.making import choice_scripts, map_scripts, multi_scripts, query_scripts, random_scripts, slot_scripts, totals_scripts

# The kinds of random scripts, in turn.
MAKERS = [
    random_scripts.RandomMaker,
    map_scripts.MapMaker,
    map_scripts.MeaningMaker,
    query_scripts.QueryMaker,
    random_scripts.RandomMaker,
    map_scripts.LagMaker,
    map_scripts.MapMaker,
    query_scripts.QueryMaker,
    *[slot_scripts.SlotMaker] * 4,
    *[choice_scripts.ChoiceMaker] * 4,
    *[totals_scripts.TotalsMaker] * 2,
    *[multi_scripts.MultiMaker] * 3,
]
