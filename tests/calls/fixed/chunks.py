"""The fixed calls, in the first chunks, a list of functions.

They are written out so that each is sure to be made; what lies between them is
left to the random chunks. The dirt around them is random all the same.
"""

from calls.fixed import (
    base, cell_swaps, diagrams, filling, moves, reads, row_logs, rows, same_cells, writes,
)

CHUNKS = base.FIRST + [diagrams.all_calls, rows.all_calls]
CHUNKS += writes.CHUNKS + reads.CHUNKS + row_logs.CHUNKS + filling.CHUNKS
CHUNKS += cell_swaps.CHUNKS + moves.CHUNKS + same_cells.CHUNKS
CHUNKS += base.LAST
