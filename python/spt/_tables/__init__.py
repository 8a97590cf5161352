"""The command line `python -m spt`: it answers from a table of roads, a CSV file for example, by the names in it.

It has a file for each part: the options, tables, the graph of a table, lists of names, the rows of each answer, and the command
as a whole.
"""

from ._command import main

__all__ = ["main"]
