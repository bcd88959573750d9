"""A plain machine: what each command has to answer, worked out in the plainest way.

It shares no code with the server and knows nothing of its parts. It is to be read beside docs/COMMANDS.md, docs/QUERY.md
and the command references of Redis and RediSearch, which these follow: each rule stands in one place, nothing is indexed
or kept, and every search looks at every hash. A fault raises, and ends the command.
The machine has no clock: each command may be told a moment.

    texts.py           the words, the tags and the number of a value
    wire.py            faults, replies and requests
    lexer.py           the lexemes of a query
    attributes.py      slop and order of a part of a query
    grammar.py         a query's lexemes to its tree, each fault at its offset
    matching.py        what a tree finds
    expressions.py     expressions: their tree and their value
    reader.py          a command's words from the left
    options.py         the options of FT.SEARCH
    steps.py           the parts of FT.AGGREGATE
    pipeline.py        the rows of FT.AGGREGATE, step by step
    cursors.py         cursors, and FT.CURSOR
    schemas.py         the words of FT.CREATE and FT.ALTER, and which documents are members
    told.py            what FT.INFO tells of an index
    hashes.py          the hashes, and the commands of Redis
    transactions.py    what becomes of the commands between MULTI and EXEC
    machine.py         the indexes, the commands of RediSearch, and the table of all commands

    rows.py            rows of sessions, read and written

    drawn_values.py    random values, numbers and names
    drawn_schemas.py   random indexes
    drawn_queries.py   random queries
    drawn_options.py   random options of FT.SEARCH
    drawn_aggregates.py    random parts of FT.AGGREGATE, and expressions
    drawn_cursors.py   random words of WITHCURSOR and FT.CURSOR
    drawn_faults.py    random faults of a command's words
    drawn_transactions.py  random transactions
    sessions.py        random sessions, each of a seed and a number
"""
