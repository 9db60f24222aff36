"""Cases that are drawn at random, for the model and the command to be compared on.

    tables      documents of tables, good ones
    spoiling    documents with something wrong, and bytes with something wrong
    messages    values and messages of a table, in any of their spellings
    days        accounts, and frames for a host
    cases       the cases: words, files and an input

Each drawing is a function of its `draw`, a `random.Random`: the same seed draws the same case again.
"""
