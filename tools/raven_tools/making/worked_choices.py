"""Scripts with their replies, all worked out by hand, of queries that choose an index, and of what tidying removes."""

from raven_tools.transcripts import halves

ORDERED = """
> PUT users/1 {"Age":9,[Users]}
> PUT users/2 {"Age":10,[Users]}
> PUT users/3 {[Users]}
> QUERY from Users order by Age select Age
> PUMP 64
> QUERY from Users order by Age select Age
> QUERY from Users order by Age as long select Age
< {"ChangeVector":"A:1-{B}","Id":"users/1"}
< {"ChangeVector":"A:2-{B}","Id":"users/2"}
< {"ChangeVector":"A:3-{B}","Id":"users/3"}
< {"Includes":{},"IndexEtag":0,"IndexName":"Auto/Users/ByAge","IsStale":true,"Results":[],"TotalResults":0}
< {"Pumped":[{"From":0,"Index":"Auto/Users/ByAge","To":4}]}
< {"Includes":{},"IndexEtag":4,"IndexName":"Auto/Users/ByAge","IsStale":false,\
"Results":[{"Age":null},{"Age":10},{"Age":9}],"TotalResults":3}
< {"Includes":{},"IndexEtag":4,"IndexName":"Auto/Users/ByAge","IsStale":false,\
"Results":[{"Age":null},{"Age":9},{"Age":10}],"TotalResults":3}
"""

# The narrower index answers as long as it alone is fresh, and goes once the other one has come as far.
NARROW_AND_WIDE = """
> PUT users/1 {"Age":36,"Name":"Ada",[Users]}
> QUERY from Users where Name = 'ada' select Name
> PUMP 64
> QUERY from Users where Name = 'ada' and Age = 36 select Name
> QUERY from Users where Name = 'ada' select Name
> PUMP 64
> TIDY
> QUERY from Users where Name = 'ada' select Name
< {"ChangeVector":"A:1-{B}","Id":"users/1"}
< {"Includes":{},"IndexEtag":0,"IndexName":"Auto/Users/ByName","IsStale":true,"Results":[],"TotalResults":0}
< {"Pumped":[{"From":0,"Index":"Auto/Users/ByName","To":2}]}
< {"Includes":{},"IndexEtag":0,"IndexName":"Auto/Users/ByAgeAndName","IsStale":true,"Results":[],"TotalResults":0}
< {"Includes":{},"IndexEtag":2,"IndexName":"Auto/Users/ByName","IsStale":false,"Results":[{"Name":"Ada"}],"TotalResults":1}
< {"Pumped":[{"From":2,"Index":"Auto/Users/ByName","To":2},{"From":0,"Index":"Auto/Users/ByAgeAndName","To":3}]}
< {"Retired":["Auto/Users/ByName"],"Switched":[]}
< {"Includes":{},"IndexEtag":3,"IndexName":"Auto/Users/ByAgeAndName","IsStale":false,"Results":[{"Name":"Ada"}],"TotalResults":1}
"""

# A question of one more field makes an index of both, which takes the place of the first one once it has come as far.
WIDENED = """
> PUT users/1 {"Age":36,"Name":"Ada",[Users]}
> QUERY from Users where Name = 'ada' select Name
> PUMP 64
> QUERY from Users where Name = 'ada' and Age = 36 select Name
> TIDY
> QUERY from Users where Name = 'ada' select Name
> PUMP 64
> TIDY
> QUERY from Users where Name = 'ada' select Name
> GET @index/Auto/Users/ByName
> GET @index/Auto/Users/ByAgeAndName
> STATS
< {"ChangeVector":"A:1-{B}","Id":"users/1"}
< {"Includes":{},"IndexEtag":0,"IndexName":"Auto/Users/ByName","IsStale":true,"Results":[],"TotalResults":0}
< {"Pumped":[{"From":0,"Index":"Auto/Users/ByName","To":2}]}
< {"Includes":{},"IndexEtag":0,"IndexName":"Auto/Users/ByAgeAndName","IsStale":true,"Results":[],"TotalResults":0}
< {"Retired":[],"Switched":[]}
< {"Includes":{},"IndexEtag":2,"IndexName":"Auto/Users/ByName","IsStale":false,"Results":[{"Name":"Ada"}],"TotalResults":1}
< {"Pumped":[{"From":2,"Index":"Auto/Users/ByName","To":2},{"From":0,"Index":"Auto/Users/ByAgeAndName","To":3}]}
< {"Retired":["Auto/Users/ByName"],"Switched":[]}
< {"Includes":{},"IndexEtag":3,"IndexName":"Auto/Users/ByAgeAndName","IsStale":false,"Results":[{"Name":"Ada"}],"TotalResults":1}
< {"Error":"NoDocument","Id":"@index/Auto/Users/ByName"}
< {"@metadata":{"@change-vector":"A:3-{B}","@collection":"@indexes","@id":"@index/Auto/Users/ByAgeAndName",\
"@last-modified":"1970-01-01T00:00:00.0000000Z"},"Collection":"Users","Fields":[["Age"],["Name"]],"Kind":"auto","Version":2}
< {"CountOfDocuments":1,"CountOfIndexes":1,"CountOfTombstones":0,"LastDocEtag":4}
"""

GROUPED = """
> PUT orders/1 {"Cents":4,"Company":"c",[Orders]}
> PUT orders/2 {"Cents":6,"Company":"c",[Orders]}
> QUERY from Orders group by Company select Company, count(), sum(Cents)
> PUMP 64
> QUERY from Orders group by Company select Company, count(), sum(Cents)
> QUERY from Orders select Cents
> INDEXES
< {"ChangeVector":"A:1-{B}","Id":"orders/1"}
< {"ChangeVector":"A:2-{B}","Id":"orders/2"}
< {"Includes":{},"IndexEtag":0,"IndexName":"Auto/Orders/ByCentsAndCountReducedByCompany","IsStale":true,"Results":[],"TotalResults":0}
< {"Pumped":[{"From":0,"Index":"Auto/Orders/ByCentsAndCountReducedByCompany","To":3}]}
< {"Includes":{},"IndexEtag":3,"IndexName":"Auto/Orders/ByCentsAndCountReducedByCompany","IsStale":false,\
"Results":[{"Cents":10,"Company":"c","Count":2}],"TotalResults":1}
< {"Includes":{},"IndexEtag":3,"IndexName":"collection/Orders","IsStale":false,"Results":[{"Cents":4},{"Cents":6}],"TotalResults":2}
< {"Results":[{"Definition":{"Collection":"Orders","Groups":[["Company"]],"Kind":"auto-reduce","Sums":[["Cents"]],"Version":2},\
"Entries":2,"Errors":0,"Etag":3,"IsStale":false,"Name":"Auto/Orders/ByCentsAndCountReducedByCompany"}]}
"""

# What is asked of the groups of some documents, by the question and by the name of its index.
OF_GROUPS = """
> PUT companies/c {"Name":"Cee",[Companies]}
> PUT o/1 {"Company":"companies/c","N":{"Cents":9223372036854775807},[Orders]}
> PUT o/2 {"Company":"companies/c","N":{"Cents":9223372036854775807},[Orders]}
> PUT o/3 {"Company":"d","N":{"Cents":"7"},[Orders]}
> PUT o/4 {"Company":[1],"N":{"Cents":5},[Orders]}
> PUT o/5 {"N":{"Cents":-5},[Orders]}
> PUT o/6 {"Company":"D",[Orders]}
> QUERY from Orders group by Company where sum(N.Cents) = 1
> PUMP 64
> QUERY from Orders group by Company
> QUERY from Orders group by Company where count() > 1 select sum(N.Cents), count() as Many, Company as Of include Company
> QUERY from Orders group by Company where sum(N.Cents) <= 0 order by count() as long desc, Company desc select Company
> QUERY from index 'Auto/Orders/ByCountAndN.CentsReducedByCompany' where count() = 2 and sum(N.Cents) = 0
> QUERY from index 'Auto/Orders/ByCountAndN.CentsReducedByCompany' where Company = 'd' order by sum(N.Cents) select count() as N
> QUERY from index 'Auto/Orders/ByCountAndN.CentsReducedByCompany' select sum(N)
> QUERY from index 'Auto/Orders/ByCountAndN.CentsReducedByCompany' select N.Cents
> FIND Auto/Orders/ByCountAndN.CentsReducedByCompany Company d
< {"ChangeVector":"A:1-{B}","Id":"companies/c"}
< {"ChangeVector":"A:2-{B}","Id":"o/1"}
< {"ChangeVector":"A:3-{B}","Id":"o/2"}
< {"ChangeVector":"A:4-{B}","Id":"o/3"}
< {"ChangeVector":"A:5-{B}","Id":"o/4"}
< {"ChangeVector":"A:6-{B}","Id":"o/5"}
< {"ChangeVector":"A:7-{B}","Id":"o/6"}
< {"Includes":{},"IndexEtag":0,"IndexName":"Auto/Orders/ByCountAndN.CentsReducedByCompany","IsStale":true,"Results":[],"TotalResults":0}
< {"Pumped":[{"From":0,"Index":"Auto/Orders/ByCountAndN.CentsReducedByCompany","To":8}]}
< {"Includes":{},"IndexEtag":8,"IndexName":"Auto/Orders/ByCountAndN.CentsReducedByCompany","IsStale":false,\
"Results":[{"Company":null,"Count":2},{"Company":"companies/c","Count":2},{"Company":"D","Count":1},{"Company":"d","Count":1}],\
"TotalResults":4}
< {"Includes":{"companies/c":{"@metadata":{"@change-vector":"A:1-{B}","@collection":"Companies","@id":"companies/c",\
"@last-modified":"1970-01-01T00:00:00.0000000Z"},"Name":"Cee"}},"IndexEtag":8,\
"IndexName":"Auto/Orders/ByCountAndN.CentsReducedByCompany","IsStale":false,\
"Results":[{"Many":2,"N.Cents":0,"Of":null},{"Many":2,"N.Cents":"18446744073709551614","Of":"companies/c"}],"TotalResults":2}
< {"Includes":{},"IndexEtag":8,"IndexName":"Auto/Orders/ByCountAndN.CentsReducedByCompany","IsStale":false,\
"Results":[{"Company":null},{"Company":"D"},{"Company":"d"}],"TotalResults":3}
< {"Includes":{},"IndexEtag":8,"IndexName":"Auto/Orders/ByCountAndN.CentsReducedByCompany","IsStale":false,\
"Results":[{"Company":null,"count()":2,"sum(N.Cents)":0}],"TotalResults":1}
< {"Includes":{},"IndexEtag":8,"IndexName":"Auto/Orders/ByCountAndN.CentsReducedByCompany","IsStale":false,\
"Results":[{"N":1},{"N":1}],"TotalResults":2}
< {"Error":"NoField","Name":"sum(N)"}
< {"Error":"NoField","Name":"N.Cents"}
< {"Ids":[],"IndexEtag":8,"IsStale":false}
"""

# A count has no field in an index without groups. There a path is a field if its joined form is one, and any may be selected.
OF_FIELDS = """
> PUT x {"A":{"B":1},"C":2,[C]}
> QUERY from C where A.B = 1 select C, A
> PUMP 64
> QUERY from C where A.B = 1 select C, A
> QUERY from index 'auto/c/bya.b' where A.B = 1
> QUERY from index 'auto/c/bya.b' where A = 1
> QUERY from index 'auto/c/bya.b' where count() = 1
> QUERY from index 'auto/c/bya.b' select sum(A.B)
> QUERY from C where count() = 1
> QUERY from C group by A.B where C = 1
< {"ChangeVector":"A:1-{B}","Id":"x"}
< {"Includes":{},"IndexEtag":0,"IndexName":"Auto/C/ByA.B","IsStale":true,"Results":[],"TotalResults":0}
< {"Pumped":[{"From":0,"Index":"Auto/C/ByA.B","To":2}]}
< {"Includes":{},"IndexEtag":2,"IndexName":"Auto/C/ByA.B","IsStale":false,"Results":[{"A":{"B":1},"C":2}],"TotalResults":1}
< {"Includes":{},"IndexEtag":2,"IndexName":"Auto/C/ByA.B","IsStale":false,"Results":[{"@metadata":{"@change-vector":"A:1-{B}",\
"@collection":"C","@id":"x","@last-modified":"1970-01-01T00:00:00.0000000Z"},"A":{"B":1},"C":2}],"TotalResults":1}
< {"Error":"NoField","Name":"A"}
< {"Error":"NoField","Name":"count()"}
< {"Error":"NoField","Name":"sum(A.B)"}
< {"Error":"NotGrouped","Name":"count()"}
< {"Error":"NotGrouped","Name":"C"}
"""

# A question without a field has an index without one, which has each document of the collection.
OF_NO_FIELDS = """
> PUT x {[C]}
> PUT y {[D]}
> QUERY from C where true select F
> PUMP 64
> QUERY from C where not true or true select F
> FIND Auto/C/By F x
< {"ChangeVector":"A:1-{B}","Id":"x"}
< {"ChangeVector":"A:2-{B}","Id":"y"}
< {"Includes":{},"IndexEtag":0,"IndexName":"Auto/C/By","IsStale":true,"Results":[],"TotalResults":0}
< {"Pumped":[{"From":0,"Index":"Auto/C/By","To":3}]}
< {"Includes":{},"IndexEtag":3,"IndexName":"Auto/C/By","IsStale":false,"Results":[{"F":null}],"TotalResults":1}
< {"Ids":[],"IndexEtag":3,"IsStale":false}
"""

# The answer is that of the store with the new definition, up to the cutoff.
UP_TO_A_CUTOFF = """
> PUT x {[C]}
> ASK {"CutoffEtag":0,"Query":"from C where F = 1"}
> ASK {"CutoffEtag":1,"Query":"from C where F = 1"}
> ASK {"Looks":3,"Query":"from C where F = 1","WaitForNonStaleResults":true}
> STATS
< {"ChangeVector":"A:1-{B}","Id":"x"}
< {"Includes":{},"IndexEtag":0,"IndexName":"Auto/C/ByF","IsStale":false,"Results":[],"TotalResults":0}
< {"Includes":{},"IndexEtag":0,"IndexName":"Auto/C/ByF","IsStale":true,"Results":[],"TotalResults":0}
< {"Includes":{},"IndexEtag":0,"IndexName":"Auto/C/ByF","IsStale":true,"Results":[],"TotalResults":0}
< {"CountOfDocuments":1,"CountOfIndexes":1,"CountOfTombstones":0,"LastDocEtag":2}
"""


# With their names.
WORKED = {
    "ordered": ORDERED,
    "narrow and wide": NARROW_AND_WIDE,
    "widened": WIDENED,
    "grouped": GROUPED,
    "of groups": OF_GROUPS,
    "of fields": OF_FIELDS,
    "of no fields": OF_NO_FIELDS,
    "up to a cutoff": UP_TO_A_CUTOFF,
}


def scripts() -> list[tuple[str, bytes]]:
    """Each with its name."""
    return [(name, halves(transcript)[0]) for name, transcript in WORKED.items()]
