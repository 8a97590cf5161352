"""NetworkX's shortest paths by spt: a backend of NetworkX 3.4 and later.

    NETWORKX_BACKEND_PRIORITY=spt python3 program.py     # or, in a program: networkx.config.backend_priority = ["spt"]

Nothing else in the program changes. A graph is read once, at the first call, and kept in NetworkX's own cache
(`G.__networkx_cache__`), which every method that changes the graph clears. If spt can't take a graph or an argument, NetworkX does
the work itself, and its log (logger `networkx`, level DEBUG) says why. docs/PYTHON.md has a table of what spt takes.

Answers are NetworkX's: whole numbers are exact, and floats are added along each path in NetworkX's order and are the least such
sums, to the last bit. Of several shortest paths from a source, it is the one that NetworkX finds.
"""

from __future__ import annotations

from importlib.util import find_spec
from typing import Any

from _spt_networkx import FUNCTIONS

if find_spec("numpy") is not None:
    from ._dispatch import can_run, convert_from_nx, convert_to_nx, on_start_tests, should_run
    from ._many import (
        all_pairs_dijkstra, all_pairs_dijkstra_path, all_pairs_dijkstra_path_length, all_pairs_shortest_path,
        all_pairs_shortest_path_length, average_shortest_path_length, closeness_centrality, eccentricity,
    )
    from ._pairs import (
        bidirectional_dijkstra, bidirectional_shortest_path, dijkstra_path, dijkstra_path_length, has_path, shortest_path,
        shortest_path_length,
    )
    from ._sources import (
        dijkstra_predecessor_and_distance, multi_source_dijkstra, multi_source_dijkstra_path, multi_source_dijkstra_path_length,
        single_source_dijkstra, single_source_dijkstra_path, single_source_dijkstra_path_length, single_source_shortest_path,
        single_source_shortest_path_length, single_target_shortest_path, single_target_shortest_path_length, voronoi_cells,
    )

    __all__ = [*FUNCTIONS, "can_run", "convert_from_nx", "convert_to_nx", "on_start_tests", "should_run"]
else:

    def can_run(name: str, args: Any, kwargs: Any) -> str:  # type: ignore[misc]
        """Returns why no function can run: then NetworkX does the work, and its log says so."""
        return "NumPy isn't installed, which spt needs as a backend"

    def __getattr__(name: str) -> Any:
        # (NetworkX asks only functions that are there whether they can run)
        if name in (*FUNCTIONS, "should_run", "convert_from_nx", "convert_to_nx"):
            return can_run
        raise AttributeError(name)
