"""Scripts with their replies, all worked out by hand, of several maps into one reduce."""

from raven_tools.transcripts import halves

DEFINED = """
> MULTI {"Maps":["from o in docs.Orders select new { o.Company, Total = o.Cents }",\
"from r in docs.Refunds select new { r.Company, Total = -r.Cents }"],"Name":"Net",\
"Reduce":"from r in results group r by r.Company into g select new { Company = g.Key, Total = g.Sum(x => x.Total) }"}
> PUT orders/1 {"Cents":10,"Company":"c",[Orders]}
> PUT refunds/1 {"Cents":4,"Company":"c",[Refunds]}
"""
DEFINED_REPLIES = """
< {"Indexes":["Net/1","Net/2"]}
< {"ChangeVector":"A:3-{B}","Id":"orders/1"}
< {"ChangeVector":"A:4-{B}","Id":"refunds/1"}
"""

# The flag is true as long as one of the parts is stale, whichever it is.
FIRST_PART_FIRST = DEFINED + """
> PUMP 64 Net/1
> MASK {"Query":"from index 'Net'"}
> PUMP 64
> MASK {"Query":"from index 'Net'"}
> MASK {"Query":"from index 'Gross'"}
""" + DEFINED_REPLIES + """
< {"Pumped":[{"From":0,"Index":"Net/1","To":4}]}
< {"Includes":{},"IndexEtag":0,"IndexName":"Net","IsStale":true,"Results":[{"Company":"c","Total":10}],"TotalResults":1}
< {"Pumped":[{"From":4,"Index":"Net/1","To":4},{"From":0,"Index":"Net/2","To":4}]}
< {"Includes":{},"IndexEtag":4,"IndexName":"Net","IsStale":false,"Results":[{"Company":"c","Total":6}],"TotalResults":1}
< {"Error":"NoIndex","Name":"Gross"}
"""

SECOND_PART_FIRST = DEFINED + """
> PUMP 64 Net/2
> MASK {"Query":"from index 'Net'"}
> MASK {"CutoffEtag":2,"Query":"from index 'Net'"}
> MASK {"CutoffEtag":3,"Query":"from index 'Net'"}
> PUMP 64
> MASK {"Query":"from index 'NET' where Total < 7 order by Total as long select Total as T"}
> MASK {"Query":"from index 'Net' where Total > 6"}
> MASK {"Query":"from index 'Net' select Other"}
> MASK {"Query":"from index 'Net' where count() = 1"}
> MASK {"Query":"from Orders"}
> MASK {"Query":"from index 'Net' where Company = $p"}
> MASK {"Query":"from index 'Net/1'"}
> DROP Net/1
> MASK {"Query":"from index 'Net'"}
""" + DEFINED_REPLIES + """
< {"Pumped":[{"From":0,"Index":"Net/2","To":4}]}
< {"Includes":{},"IndexEtag":0,"IndexName":"Net","IsStale":true,"Results":[{"Company":"c","Total":-4}],"TotalResults":1}
< {"Includes":{},"IndexEtag":0,"IndexName":"Net","IsStale":false,"Results":[{"Company":"c","Total":-4}],"TotalResults":1}
< {"Includes":{},"IndexEtag":0,"IndexName":"Net","IsStale":true,"Results":[{"Company":"c","Total":-4}],"TotalResults":1}
< {"Pumped":[{"From":0,"Index":"Net/1","To":4},{"From":4,"Index":"Net/2","To":4}]}
< {"Includes":{},"IndexEtag":4,"IndexName":"NET","IsStale":false,"Results":[{"T":6}],"TotalResults":1}
< {"Includes":{},"IndexEtag":4,"IndexName":"Net","IsStale":false,"Results":[],"TotalResults":0}
< {"Error":"NoField","Name":"Other"}
< {"Error":"NoField","Name":"count()"}
< {"Error":"NoIndex","Name":"Orders"}
< {"Error":"NoParameter","Name":"p"}
< {"Error":"NoIndex","Name":"Net/1"}
< {"Removed":"Net/1"}
< {"Error":"NoIndex","Name":"Net"}
"""

# The quotient of the rows of several maps is that of their sums together.
MEANS = """
> MULTI {"Maps":["from o in docs.Orders select new { o.Company, Total = o.Cents, Count = 1, Mean = 0 }",\
"from r in docs.Refunds select new { r.Company, Total = -r.Cents, Count = 1, Mean = 0 }"],"Name":"M",\
"Reduce":"from r in results group r by r.Company into g select new { Company = g.Key, Total = g.Sum(x => x.Total), \
Count = g.Sum(x => x.Count), Mean = g.Sum(x => x.Total) / g.Sum(x => x.Count) }"}
> PUT orders/1 {"Cents":10,"Company":"c",[Orders]}
> PUT orders/2 {"Cents":11,"Company":"c",[Orders]}
> PUT refunds/1 {"Cents":30,"Company":"c",[Refunds]}
> PUMP 64
> QUERY from index 'M/1'
> QUERY from index 'M/2'
> MASK {"Query":"from index 'M'"}
< {"Indexes":["M/1","M/2"]}
< {"ChangeVector":"A:3-{B}","Id":"orders/1"}
< {"ChangeVector":"A:4-{B}","Id":"orders/2"}
< {"ChangeVector":"A:5-{B}","Id":"refunds/1"}
< {"Pumped":[{"From":0,"Index":"M/1","To":5},{"From":0,"Index":"M/2","To":5}]}
< {"Includes":{},"IndexEtag":5,"IndexName":"M/1","IsStale":false,"Results":[{"Company":"c","Count":2,"Mean":10,"Total":21}],"TotalResults":1}
< {"Includes":{},"IndexEtag":5,"IndexName":"M/2","IsStale":false,"Results":[{"Company":"c","Count":1,"Mean":-30,"Total":-30}],"TotalResults":1}
< {"Includes":{},"IndexEtag":5,"IndexName":"M","IsStale":false,"Results":[{"Company":"c","Count":3,"Mean":-3,"Total":-9}],"TotalResults":1}
"""

# The parts before one that is refused stand. A part that serves already gets a replacement.
STANDING = """
> AUTO C F
> MULTI {"Maps":["from o in docs.O select new { o.A }","from p in docs.P select new { p.A }"],"Name":"N",\
"Reduce":"from r in results group r by r.A into g select new { A = g.Key }"}
> MULTI {"Maps":["from o in docs.O select new { o.A }","from q in docs.Q select new { q.A }","from p in docs.P select new { p.A }"],"Name":"n",\
"Reduce":"from r in results group r by r.A into g select new { A = g.Key }"}
> MASK {"Query":"from index 'N'"}
> INDEX {"Map":"from u in docs.U select new { u.A }","Name":"N/4"}
> MASK {"Query":"from index 'N'"}
> MULTI {"Maps":["from o in docs.O select new { o.A }","from p in docs.P select new { p.A }"],"Name":"auto/x",\
"Reduce":"from r in results group r by r.A into g select new { A = g.Key }"}
< {"Index":"Auto/C/ByF"}
< {"Indexes":["N/1","N/2"]}
< {"Indexes":["N/1","ReplacementOf/N/2","n/3"]}
< {"Includes":{},"IndexEtag":0,"IndexName":"N","IsStale":false,"Results":[],"TotalResults":0}
< {"Index":"N/4"}
< {"Error":"NotOneReduce","Number":6}
< {"Error":"ReservedName"}
"""

WORKED = {"first part first": FIRST_PART_FIRST, "second part first": SECOND_PART_FIRST, "means": MEANS, "standing": STANDING}


def scripts() -> list[tuple[str, bytes]]:
    """Each with its name."""
    return [(name, halves(transcript)[0]) for name, transcript in WORKED.items()]
