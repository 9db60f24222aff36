"""A second model of the command, in plain Python, to be read and to be compared with the first.

It is written from the pages in docs/ and shares nothing with the crates. It keeps no index and no running sum, and it takes
no care of speed: where a page says "the first reversal of its key", the model looks for it through the whole journal.

One file has one subject. In the order in which a message meets them:

    json_text        a JSON text, and its whole numbers            docs/TABLES.md
    characters       the classes of characters                     docs/TABLES.md
    row, part        a row of a table; how a value is written      docs/TABLES.md
    table            which tables are good, the built-in ones      docs/TABLES.md
    table_document   a document of a table                         docs/TABLES.md
    host_rows        the rows that a host needs                    docs/TABLES.md
    message_type     the four digits of a message type             README.md, docs/ORDERS.md
    bitmap           which elements a message has                  docs/ELEMENTS.md
    message          a message                                     docs/ELEMENTS.md
    reading          bytes to a message, piece by piece            docs/FAULTS.md
    packing          a message to bytes                            docs/FAULTS.md
    showing          a message as lines, with stars                docs/JOBS.md
    order, verdict   what a message asks                           docs/ORDERS.md
    request          the message that asks for an order            docs/ORDERS.md
    response         what a message gets                           docs/ORDERS.md
    accounts         a document of accounts                        docs/ISSUER.md
    journal          entries, and the sums over all of them        docs/ISSUER.md
    issuer           the code of an order                          docs/ISSUER.md
    frames, host     a stream of frames                            docs/HOST.md
    command          words, files and an input to an output        docs/JOBS.md, docs/FAULTS.md

What the model leaves out: devices and memory that fail, `serve` and its port, and the acquirer's end.
"""
