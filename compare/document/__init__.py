"""A model of document 01, and of the requests of document 02 that are built, written from the documents and their readings (docs/DECISIONS.md), and not
from the code.

Each module is a chapter: packed, lists, columns, temporal, values, event, fields, check, record, image, and rows for request 1; request 4 is in refusal
and temporal, request 6 in record. Sentences of the documents stand in quotation marks where the rule is. `lines` reads a line of the program `cases` (docs/CASES.md) and
answers it.
"""
