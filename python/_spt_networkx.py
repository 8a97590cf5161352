"""What NetworkX asks about the backend spt while it is imported: its functions and its settings.

It stands apart from the package `spt`, so that `import networkx` loads neither NumPy nor libspt.so for it.
"""

from __future__ import annotations

from typing import Any, Dict

FUNCTIONS = (
    "all_pairs_dijkstra",
    "all_pairs_dijkstra_path",
    "all_pairs_dijkstra_path_length",
    "all_pairs_shortest_path",
    "all_pairs_shortest_path_length",
    "average_shortest_path_length",
    "bidirectional_dijkstra",
    "bidirectional_shortest_path",
    "closeness_centrality",
    "dijkstra_path",
    "dijkstra_path_length",
    "dijkstra_predecessor_and_distance",
    "eccentricity",
    "has_path",
    "multi_source_dijkstra",
    "multi_source_dijkstra_path",
    "multi_source_dijkstra_path_length",
    "shortest_path",
    "shortest_path_length",
    "single_source_dijkstra",
    "single_source_dijkstra_path",
    "single_source_dijkstra_path_length",
    "single_source_shortest_path",
    "single_source_shortest_path_length",
    "single_target_shortest_path",
    "single_target_shortest_path_length",
    "voronoi_cells",
)
SETTINGS = {
    # graphs with fewer nodes are left to NetworkX, which is as quick there
    "least_nodes": 200,
    # whether each path is made when it is first looked at
    "lazy_paths": True,
    # how many threads compute the trees of functions with many sources
    "workers": 1,
}


def get_info() -> Dict[str, Any]:
    """Returns what NetworkX wants to know of a backend; the settings become `networkx.config.backends.spt`."""
    return {
        "backend_name": "spt",
        "project": "spt",
        "package": "spt",
        "short_summary": "Shortest paths by a proved engine; floats as NetworkX adds them, to the last bit.",
        "default_config": dict(SETTINGS),
        "functions": {name: {} for name in FUNCTIONS},
    }
