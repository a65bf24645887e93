"""A slow reading of docs/FORMATS.md, docs/RULES-AND-COST.md and docs/MOVES.md, to hold the built desk against.

It is written from those pages alone, and shares no code with the desk: each module follows its page sentence by sentence, and walks
over the whole day wherever the desk keeps something. bench/fuzz.py asks both and compares what they give.

rows         lines, fields and values of text files and comma files
files        what each of the 16 files is by itself
day          the join of the 13 files of the day, and the day that comes of it
situation    what the orders make of a day, and how far it has gone
plan         a plan: rows of legs, and paths of passengers
rules        the fifteen rules, and the first item that a plan breaks
cost         the six terms
moves        the steps of a move
fallback     batches, states, answers
near         the moves near a plan, and the search
texts        what is written: journal, plan and items
generated    the day that `gen` makes up
words        the words of a command
expected     what is expected of a whole run: status, report and files
disk         the same over folders of the disk
stored       journal.bin: the events of a journal as records
"""
