"""Scripts with their replies, all worked out by hand, of replacements of indexes and of batches that workers hold."""

from raven_tools.transcripts import halves

# An index is built beside the one of its name. It is switched in once it has everything that it reads, and not before.
BUILT_BESIDE = """
> INDEX {"Map":"from u in docs.Users select new { u.Name }","Name":"U"}
> PUT users/1 {[Users]}
> PUT users/2 {[Users]}
> PUMP 64
> INDEX {"Map":"from u in docs.Users select new { u.Age }","Name":"U"}
> PUMP 1 ReplacementOf/U
> PUT users/3 {"Age":7,[Users]}
> SWITCH U
> PUMP 1 ReplacementOf/U
> PUMP 1 ReplacementOf/U
> QUERY from index 'U' where Age = 7 select Age
> TIDY
> QUERY from index 'U' where Age = 7 select Age
> STATS
> SWITCH U
< {"Index":"U"}
< {"ChangeVector":"A:2-{B}","Id":"users/1"}
< {"ChangeVector":"A:3-{B}","Id":"users/2"}
< {"Pumped":[{"From":0,"Index":"U","To":3}]}
< {"Index":"ReplacementOf/U"}
< {"Pumped":[{"From":0,"Index":"ReplacementOf/U","To":2}]}
< {"ChangeVector":"A:5-{B}","Id":"users/3"}
< {"Error":"NotFresh","IndexEtag":2,"Newest":5}
< {"Pumped":[{"From":2,"Index":"ReplacementOf/U","To":3}]}
< {"Pumped":[{"From":3,"Index":"ReplacementOf/U","To":5}]}
< {"Error":"NoField","Name":"Age"}
< {"Retired":[],"Switched":["U"]}
< {"Includes":{},"IndexEtag":5,"IndexName":"U","IsStale":false,"Results":[{"Age":7}],"TotalResults":1}
< {"CountOfDocuments":3,"CountOfIndexes":1,"CountOfTombstones":0,"LastDocEtag":7}
< {"Error":"NoReplacement"}
"""

HELD_ACROSS_A_WRITE = """
> AUTO C F
> PUT x {"F":"a",[C]}
> READ 0 64 Auto/C/ByF
> READ 1 64 Auto/C/ByF
> PUT x {"F":"b",[C]}
> PUBLISH 0
> PUBLISH 1
> PUBLISH 1
> FIND Auto/C/ByF F a
< {"Index":"Auto/C/ByF"}
< {"ChangeVector":"A:2-{B}","Id":"x"}
< {"From":0,"To":2}
< {"From":0,"To":2}
< {"ChangeVector":"A:3-{B}","Id":"x"}
< {"From":0,"Index":"Auto/C/ByF","To":2}
< {"Error":"Passed","Now":2}
< {"Error":"NothingHeld"}
< {"Ids":["x"],"IndexEtag":2,"IsStale":true}
"""

HELD_ACROSS_A_REMOVAL = """
> AUTO C F
> PUT x {"F":"a",[C]}
> READ 0 64 Auto/C/ByF
> DROP Auto/C/ByF
> PUBLISH 0
> PUBLISH 0
> AUTO C F
> PUBLISH 0
< {"Index":"Auto/C/ByF"}
< {"ChangeVector":"A:2-{B}","Id":"x"}
< {"From":0,"To":2}
< {"Removed":"Auto/C/ByF"}
< {"Error":"Gone","Number":1}
< {"Error":"NothingHeld"}
< {"Index":"Auto/C/ByF"}
< {"Error":"NothingHeld"}
"""

# A batch is of a number. After a switch the number of what was built beside serves the name, and the old one is gone.
HELD_ACROSS_A_SWITCH = """
> INDEX {"Map":"from u in docs.Users select new { u.Name }","Name":"U"}
> PUT users/1 {"Age":7,"Name":"Ada",[Users]}
> INDEX {"Map":"from u in docs.Users select new { u.Age }","Name":"u"}
> READ 0 64 ReplacementOf/U
> PUT c/1 {[C]}
> READ 1 64 replacementof/u
> READ 2 64 U
> PUBLISH 0
> SWITCH u
> PUBLISH 1
> PUBLISH 2
> PUBLISH 2
> QUERY from index 'u' where Age = 7 select Age
> GET @index/u
> INDEXES
< {"Index":"U"}
< {"ChangeVector":"A:2-{B}","Id":"users/1"}
< {"Index":"ReplacementOf/U"}
< {"From":0,"To":3}
< {"ChangeVector":"A:4-{B}","Id":"c/1"}
< {"From":0,"To":4}
< {"From":0,"To":4}
< {"From":0,"Index":"ReplacementOf/U","To":3}
< {"Etag":5,"Switched":"U"}
< {"From":3,"Index":"U","To":4}
< {"Error":"Gone","Number":1}
< {"Error":"NothingHeld"}
< {"Includes":{},"IndexEtag":4,"IndexName":"U","IsStale":false,"Results":[{"Age":7}],"TotalResults":1}
< {"@metadata":{"@change-vector":"A:5-{B}","@collection":"@indexes","@id":"@index/U",\
"@last-modified":"1970-01-01T00:00:00.0000000Z"},"Kind":"static","Map":"from u in docs.Users select new { u.Age }","Reduce":null,"Version":2}
< {"Results":[{"Definition":{"Kind":"static","Map":"from u in docs.Users select new { u.Age }","Reduce":null,"Version":2},\
"Entries":1,"Errors":0,"Etag":4,"IsStale":false,"Name":"U"}]}
"""

# What is read is not in the index yet. If nothing is to do, what was held is dropped; a name of no index, or of none that can be,
# leaves it.
READ_AGAIN = """
> READ 0 64 Auto/C/ByF
> AUTO C F
> READ 0 64 Auto/C/ByF
> PUBLISH 0
> PUT x {"F":"a",[C]}
> PUT y {"F":"a",[C]}
> READ 15 1 auto/c/byf
> FIND Auto/C/ByF F a
> READ 15 64 none
> READ 15 64 a\tb
> PUBLISH 15
> READ 3 64 Auto/C/ByF
> PUMP 64
> READ 3 64 Auto/C/ByF
> PUBLISH 3
< {"Error":"NoIndex","Name":"Auto/C/ByF"}
< {"Index":"Auto/C/ByF"}
< {"From":0,"To":0}
< {"Error":"NothingHeld"}
< {"ChangeVector":"A:2-{B}","Id":"x"}
< {"ChangeVector":"A:3-{B}","Id":"y"}
< {"From":0,"To":2}
< {"Ids":[],"IndexEtag":0,"IsStale":true}
< {"Error":"NoIndex","Name":"none"}
< {"At":1,"Error":"Control"}
< {"From":0,"Index":"Auto/C/ByF","To":2}
< {"From":2,"To":3}
< {"Pumped":[{"From":2,"Index":"Auto/C/ByF","To":3}]}
< {"From":3,"To":3}
< {"Error":"NothingHeld"}
"""

# What is built beside an index is an index by its name: it is brought on, listed, asked and removed by it.
AS_INDEXES = """
> INDEX {"Map":"from u in docs.U select new { u.A }","Name":"Foo"}
> INDEX {"Map":"from u in docs.U select new { u.B }","Name":"FOO"}
> PUT u {"A":"x","B":"y"}
> PUT v {"A":"x","B":"y",[U]}
> PUMP 64
> FIND replacementof/foo B Y
> STALE ReplacementOf/Foo
> QUERY from index 'replacementOf/foo' select B
> STATS
> INDEXES
> SWITCH ReplacementOf/Foo
> DROP ReplacementOf/foo
> SWITCH Foo
< {"Index":"Foo"}
< {"Index":"ReplacementOf/Foo"}
< {"ChangeVector":"A:3-{B}","Id":"u"}
< {"ChangeVector":"A:4-{B}","Id":"v"}
< {"Pumped":[{"From":0,"Index":"Foo","To":4},{"From":0,"Index":"ReplacementOf/Foo","To":4}]}
< {"Ids":["v"],"IndexEtag":4,"IsStale":false}
< {"IndexEtag":4,"IsStale":false,"Newest":4}
< {"Includes":{},"IndexEtag":4,"IndexName":"ReplacementOf/Foo","IsStale":false,"Results":[{"B":"y"}],"TotalResults":1}
< {"CountOfDocuments":2,"CountOfIndexes":2,"CountOfTombstones":0,"LastDocEtag":4}
< {"Results":[{"Definition":{"Kind":"static","Map":"from u in docs.U select new { u.A }","Reduce":null,"Version":2},"Entries":1,"Errors":0,\
"Etag":4,"IsStale":false,"Name":"Foo"},{"Definition":{"Kind":"static","Map":"from u in docs.U select new { u.B }","Reduce":null,"Version":2},\
"Entries":1,"Errors":0,"Etag":4,"IsStale":false,"Name":"ReplacementOf/Foo"}]}
< {"Error":"NoReplacement"}
< {"Removed":"ReplacementOf/Foo"}
< {"Error":"NoReplacement"}
"""

# Definitions may be read too. A switch writes one, so what reads them and comes later in the same tidying is no longer fresh.
TIDIED_IN_TURN = """
> INDEX {"Map":"from o in docs.Orders select new { o.A }","Name":"early"}
> INDEX {"Map":"from o in docs.Orders let d = LoadDocument(o.A, \\"@indexes\\") select new { d.Map }","Name":"Late"}
> INDEX {"Map":"from o in docs.Orders select new { o.B }","Name":"early"}
> INDEX {"Map":"from o in docs.Orders let d = LoadDocument(o.B, \\"@indexes\\") select new { d.Map }","Name":"Late"}
> PUMP 64
> TIDY
> SWITCH Late
> PUMP 64
> TIDY
< {"Index":"early"}
< {"Index":"Late"}
< {"Index":"ReplacementOf/early"}
< {"Index":"ReplacementOf/Late"}
< {"Pumped":[{"From":0,"Index":"early","To":0},{"From":0,"Index":"Late","To":4},{"From":0,"Index":"ReplacementOf/early","To":0},\
{"From":0,"Index":"ReplacementOf/Late","To":4}]}
< {"Retired":[],"Switched":["early"]}
< {"Error":"NotFresh","IndexEtag":4,"Newest":6}
< {"Pumped":[{"From":4,"Index":"Late","To":6},{"From":0,"Index":"early","To":0},{"From":4,"Index":"ReplacementOf/Late","To":6}]}
< {"Retired":[],"Switched":["Late"]}
"""


# The row with the greatest etag stays. Once a tombstone is cleaned its id may be put into another collection.
CLEANED = """
> PUT a {[Users]}
> DEL a
> PUT a {[Teams]}
> CLEAN
> PUT b {}
> CLEAN
> PUT a {[Teams]}
> STATS
> CLEAN
< {"ChangeVector":"A:1-{B}","Id":"a"}
< {"Deleted":true,"Id":"a"}
< {"At":0,"Error":"CollectionChanged","From":"Users"}
< {"Cleaned":0,"Upto":1}
< {"ChangeVector":"A:3-{B}","Id":"b"}
< {"Cleaned":1,"Upto":2}
< {"ChangeVector":"A:4-{B}","Id":"a"}
< {"CountOfDocuments":2,"CountOfIndexes":0,"CountOfTombstones":0,"LastDocEtag":4}
< {"Cleaned":0,"Upto":3}
"""

# A batch that is held has a document whose tombstone was cleaned since: it is not put in.
HELD_ACROSS_A_CLEANING = """
> AUTO Users F
> PUT x {"F":"a",[Users]}
> READ 0 64 Auto/Users/ByF
> DEL x
> PUT y {}
> CLEAN
> PUBLISH 0
> PUMP 64
> FIND Auto/Users/ByF F a
< {"Index":"Auto/Users/ByF"}
< {"ChangeVector":"A:2-{B}","Id":"x"}
< {"From":0,"To":2}
< {"Deleted":true,"Id":"x"}
< {"ChangeVector":"A:4-{B}","Id":"y"}
< {"Cleaned":1,"Upto":3}
< {"Error":"Cleaned","Upto":3}
< {"Pumped":[{"From":0,"Index":"Auto/Users/ByF","To":0}]}
< {"Ids":[],"IndexEtag":0,"IsStale":false}
"""

# An index that has read something keeps the tombstones that it has still to read. A batch that has read all that goes is put in.
CLEANED_BEHIND_AN_INDEX = """
> AUTO Users F
> PUT x {"F":"a",[Users]}
> DEL x
> PUT y {"F":"a",[Users]}
> PUMP 1
> DEL y
> PUT z {}
> CLEAN
> READ 0 64 Auto/Users/ByF
> PUT u {}
> DEL u
> PUT v {}
> PUMP 64
> DEL v
> CLEAN
> PUBLISH 0
> READ 1 64 Auto/Users/ByF
> PUT w {"F":"a",[Users]}
> READ 1 64 Auto/Users/ByF
> PUMP 64
> CLEAN
> PUBLISH 1
> FIND Auto/Users/ByF F a
< {"Index":"Auto/Users/ByF"}
< {"ChangeVector":"A:2-{B}","Id":"x"}
< {"Deleted":true,"Id":"x"}
< {"ChangeVector":"A:4-{B}","Id":"y"}
< {"Pumped":[{"From":0,"Index":"Auto/Users/ByF","To":3}]}
< {"Deleted":true,"Id":"y"}
< {"ChangeVector":"A:6-{B}","Id":"z"}
< {"Cleaned":1,"Upto":3}
< {"From":3,"To":6}
< {"ChangeVector":"A:7-{B}","Id":"u"}
< {"Deleted":true,"Id":"u"}
< {"ChangeVector":"A:9-{B}","Id":"v"}
< {"Pumped":[{"From":3,"Index":"Auto/Users/ByF","To":9}]}
< {"Deleted":true,"Id":"v"}
< {"Cleaned":2,"Upto":9}
< {"Error":"Passed","Now":9}
< {"From":9,"To":9}
< {"ChangeVector":"A:11-{B}","Id":"w"}
< {"From":9,"To":11}
< {"Pumped":[{"From":9,"Index":"Auto/Users/ByF","To":11}]}
< {"Cleaned":1,"Upto":10}
< {"Error":"Passed","Now":11}
< {"Ids":["w"],"IndexEtag":11,"IsStale":false}
"""

# With their names.
WORKED = {
    "built beside": BUILT_BESIDE,
    "held across a write": HELD_ACROSS_A_WRITE,
    "held across a removal": HELD_ACROSS_A_REMOVAL,
    "held across a switch": HELD_ACROSS_A_SWITCH,
    "read again": READ_AGAIN,
    "as indexes": AS_INDEXES,
    "tidied in turn": TIDIED_IN_TURN,
    "cleaned": CLEANED,
    "held across a cleaning": HELD_ACROSS_A_CLEANING,
    "cleaned behind an index": CLEANED_BEHIND_AN_INDEX,
}


def scripts() -> list[tuple[str, bytes]]:
    """Each with its name."""
    return [(name, halves(transcript)[0]) for name, transcript in WORKED.items()]
