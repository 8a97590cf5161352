"""The command line `python -m spt`, from small tables whose answers were worked out by hand."""

import array
import gzip
import io
import json
import os
import subprocess
import sys
import tempfile
import types
import unittest

from unittest import mock

import samples
import spt

from spt._tables import main

ROADS = """u,v,minutes,two-way
Depot,Mill,2.5,yes
Mill,Quay,4,no
Depot,Quay,7.25,no
Quay,Depot,7.25,No
Quay,Church,1.75,1
"Inn, Old",Mill,0.5,false
"""
FORM = ["--from", "u", "--to", "v", "--length", "minutes", "--unit", "0.01"]
SECONDS = 60


class Frame(dict):
    """A frame of one row, as far as it is read."""

    columns = property(list)

    def __len__(self):
        return 1


class Folder(unittest.TestCase):
    """A folder with tables, in which the command line is called."""

    def setUp(self):
        folder = tempfile.TemporaryDirectory()
        self.addCleanup(folder.cleanup)
        self.folder = folder.name
        self.put("roads.csv", ROADS)

    def put(self, name, text):
        with open(f"{self.folder}/{name}", "wb") as file:
            file.write(text if isinstance(text, bytes) else text.encode())

    def read(self, name):
        with open(f"{self.folder}/{name}", "rb") as file:
            return file.read().decode()

    def call(self, *words, given=""):
        """The status, the output and the errors."""
        streams = [io.TextIOWrapper(io.BytesIO(it), newline="") for it in (given.encode(), b"", b"")]
        here = os.getcwd()
        os.chdir(self.folder)
        try:
            with mock.patch.multiple(sys, stdin=streams[0], stdout=streams[1], stderr=streams[2]):
                status = main(list(words))
        finally:
            os.chdir(here)
        for stream in streams[1:]:
            stream.flush()
        return status, *(stream.buffer.getvalue().decode() for stream in streams[1:])

    def process(self, *words, options=(), **known):
        """The same by a process of its own."""
        known = {**os.environ, "PYTHONPATH": os.path.dirname(os.path.dirname(spt.__file__)), **known}
        words = [sys.executable, *options, "-m", "spt", *words]
        done = subprocess.run(words, cwd=self.folder, env=known, capture_output=True, text=True, timeout=SECONDS)
        return done.returncode, done.stdout, done.stderr

    def gives(self, wanted, *words, **more):
        self.assertEqual(self.call(*words, **more), (0, wanted, ""))

    def of(self, wanted, command, *words):
        """Compares the answer from roads.csv."""
        self.gives(wanted, command, "roads.csv", *FORM, *words)

    def refused(self, wanted, *words, status=2):
        self.assertEqual(self.call(*words), (status, "", f"spt: {wanted}\n"))


class Trees(Folder):
    FROM_DEPOT = """source,vertex,distance,predecessor
Depot,Depot,0.00,
Depot,Mill,2.50,Depot
Depot,Quay,6.50,Mill
Depot,Church,8.25,Quay
"""

    def test_tree(self):
        self.of(self.FROM_DEPOT, "tree", "--source", "Depot")

    def test_within(self):
        wanted = "source,vertex,distance,predecessor\nDepot,Depot,0.00,\nDepot,Mill,2.50,Depot\nDepot,Quay,6.50,Mill\n"
        self.of(wanted, "tree", "--source", "Depot", "--within", "6.5")
        self.of(wanted, "tree", "--source", "Depot", "--within", "8.2499")

    def test_towards(self):
        wanted = """to,vertex,distance,next
Quay,Depot,6.50,Mill
Quay,Mill,4.00,Quay
Quay,Quay,0.00,
Quay,"Inn, Old",4.50,Mill
"""
        self.of(wanted, "tree", "--source", "Quay", "--towards")

    def test_sources(self):
        self.put("sources.csv", "place,beds\nMill,2\n\nChurch,7\n")
        wanted = """source,vertex,distance,predecessor
Mill,Depot,11.25,Quay
Mill,Mill,0.00,
Mill,Quay,4.00,Mill
Mill,Church,5.75,Quay
Church,Church,0.00,
"""
        self.of(wanted, "tree", "--sources", "sources.csv")
        self.of(wanted, "tree", "--sources", "sources.csv", "--workers", "2")
        self.of(wanted, "tree", "--source", "Mill", "--source", "Church", "--workers", "all")

    def test_both_ways(self):
        wanted = """source,vertex,distance,predecessor
Church,Depot,9.00,Quay
Church,Mill,11.50,Depot
Church,Quay,1.75,Church
Church,Church,0.00,
"""
        self.of(wanted, "tree", "--source", "Church", "--both-ways", "two-way")
        wanted = """source,vertex,distance,predecessor
Church,Depot,8.25,Mill
Church,Mill,5.75,Quay
Church,Quay,1.75,Church
Church,"Inn, Old",6.25,Mill
Church,Church,0.00,
"""
        self.of(wanted, "tree", "--source", "Church", "--both-ways")

    def test_nearest(self):
        self.put("depots.csv", "depot\nQuay\nDepot\n")
        wanted = """vertex,source,distance,predecessor
Depot,Depot,0.00,
Mill,Depot,2.50,Depot
Quay,Quay,0.00,
Church,Quay,1.75,Quay
"""
        self.of(wanted, "nearest", "--sources", "depots.csv")
        wanted = """vertex,to,distance,next
Depot,Depot,0.00,
Mill,Quay,4.00,Quay
Quay,Quay,0.00,
"Inn, Old",Quay,4.50,Mill
"""
        self.of(wanted, "nearest", "--sources", "depots.csv", "--towards")
        self.of(wanted.replace('"Inn, Old",Quay,4.50,Mill\n', ""), "nearest", "--sources", "depots.csv", "--towards", "--within", "4")


class Tables(Folder):
    def test_matrix(self):
        self.put("places.csv", "place\nChurch\nDepot\n")
        words = ["matrix", "--source", "Depot", "--source", "Church", "--targets", "places.csv"]
        self.of("source,Church,Depot\nDepot,8.25,0.00\nChurch,0.00,\n", *words)
        self.of("source,Church,Depot\nDepot,8.25,0.00\nChurch,0.00,\n", *words, "--workers", "2")
        self.of("to,Church,Depot\nDepot,,0.00\nChurch,0.00,8.25\n", *words, "--towards")
        wanted = "source,target,distance\nDepot,Church,8.25\nDepot,Depot,0.00\nChurch,Church,0.00\nChurch,Depot,\n"
        self.of(wanted, *words, "--long")

    def test_pairs(self):
        self.put("trips.csv", "from,to,who\nDepot,Church,a\nChurch,Depot,b\nMill,Mill,c\nDepot,Church,d\n")
        wanted = """source,target,distance,predecessor
Depot,Church,8.25,Quay
Church,Depot,,
Mill,Mill,0.00,
Depot,Church,8.25,Quay
"""
        self.of(wanted, "pairs", "--pairs", "trips.csv")
        wanted = """source,target,distance,predecessor,path
Depot,Church,8.25,Quay,Depot > Mill > Quay > Church
Church,Depot,,,
Mill,Mill,0.00,,Mill
Depot,Church,8.25,Quay,Depot > Mill > Quay > Church
"""
        self.of(wanted, "pairs", "--pairs", "trips.csv", "--paths", "--workers", "3")

    def test_pairs_towards(self):
        self.put("trips.csv", "to,from\nDepot,Church\nChurch,Depot\n")
        self.of("to,from,distance,next\nDepot,Church,,\nChurch,Depot,8.25,Mill\n", "pairs", "--pairs", "trips.csv", "--towards")
        wanted = "to,from,distance,next,path\nDepot,Church,,,\nChurch,Depot,8.25,Mill,Depot > Mill > Quay > Church\n"
        self.of(wanted, "pairs", "--pairs", "trips.csv", "--towards", "--paths")

    def test_routes(self):
        self.put("trips.csv", "from,to\nDepot,Church\nChurch,Depot\nMill,Mill\n")
        wanted = """source,target,step,vertex,distance
Depot,Church,0,Depot,0.00
Depot,Church,1,Mill,2.50
Depot,Church,2,Quay,6.50
Depot,Church,3,Church,8.25
Church,Depot,,,
Mill,Mill,0,Mill,0.00
"""
        self.of(wanted, "routes", "--pairs", "trips.csv")
        self.put("trips.csv", "to,from\nQuay,Depot\nQuay,Mill\nQuay,Church\nQuay,Quay\n")
        wanted = """to,from,step,vertex,distance
Quay,Depot,0,Depot,0.00
Quay,Depot,1,Mill,2.50
Quay,Depot,2,Quay,6.50
Quay,Mill,0,Mill,0.00
Quay,Mill,1,Quay,4.00
Quay,Church,,,
Quay,Quay,0,Quay,0.00
"""
        self.of(wanted, "routes", "--pairs", "trips.csv", "--towards")

    def test_streets(self):
        self.put("trips.csv", "from,to\nDepot,Church\nChurch,Depot\nMill,Mill\nDepot,Church\n")
        wanted = """pair,step,from,to,row,length
1,1,Depot,Mill,2,2.50
1,2,Mill,Quay,3,4.00
1,3,Quay,Church,6,1.75
2,,,,,
4,1,Depot,Mill,2,2.50
4,2,Mill,Quay,3,4.00
4,3,Quay,Church,6,1.75
"""
        self.of(wanted, "routes", "--pairs", "trips.csv", "--streets")
        self.of(wanted, "routes", "--pairs", "trips.csv", "--streets", "--workers", "2")
        self.put("trips.csv", "from,to\nChurch,Depot\n")
        wanted = """pair,step,from,to,row,length
1,1,Church,Quay,6,1.75
1,2,Quay,Mill,3,4.00
1,3,Mill,Depot,2,2.50
"""
        self.of(wanted, "routes", "--pairs", "trips.csv", "--streets", "--both-ways")
        wanted = "pair,step,from,to,row,length\n1,1,Church,Quay,6,1.75\n1,2,Quay,Depot,5,7.25\n"
        self.of(wanted, "routes", "--pairs", "trips.csv", "--streets", "--both-ways", "two-way")
        # of parallel roads the shortest, then the first; blank rows count, too
        roads = "name,u,v,minutes\nlong,A,B,2\n\nfirst,A,B,1.5\nsecond,A,B,1.5\n\"B, C\",B,C,1\n"
        self.put("named.csv", roads)
        self.put("trips.csv", "to,from\nC,A\nA,C\n")
        wanted = 'pair,step,from,to,row,length,name,u\n1,1,A,B,4,1.50,first,A\n1,2,B,C,6,1.00,"B, C",B\n2,,,,,,,\n'
        words = ["routes", "named.csv", *FORM, "--pairs", "trips.csv", "--towards"]
        self.gives(wanted, *words, "--column", "name", "--column", "u")
        self.gives(wanted, *words, "--streets", "--column", "name", "--column", "u")
        self.refused("named.csv: no column 'km': the columns are name, u, v, minutes", *words, "--column", "km")
        for title in ("length", "name"):
            told = f"--column {title}: the answer has a column of this title already"
            self.refused(told, *words, "--column", "name", "--column", title, status=1)

    def test_streets_of_graphs(self):
        self.put("pairs.csv", "from,to\n1,4\n4,1\n")
        path = f"{samples.HOME}/examples/diamond.gr"
        arcs = [line.split()[1:] for line in samples.read("examples/diamond.gr").splitlines() if line.startswith("a")]
        first, second = arcs.index(["1", "2", "3"]) + 1, arcs.index(["2", "4", "2"]) + 1
        wanted = f"pair,step,from,to,row,length\n1,1,1,2,{first},3\n1,2,2,4,{second},2\n2,,,,,\n"
        self.gives(wanted, "routes", path, "--pairs", "pairs.csv", "--streets")
        self.refused(f"{path}: --column is for tables: this is the file of a graph", "routes", path, "--pairs", "pairs.csv", "--column", "x", status=1)

    def test_progress(self):
        self.put("trips.csv", "from,to\nDepot,Church\nDepot,Mill\nMill,Mill\n")
        for words, count in ((["routes"], "3 of 3 pairs"), (["pairs", "--paths"], "3 of 3 pairs"), (["pairs"], "2 of 2 sources")):
            status, _, told = self.call(words[0], "roads.csv", *FORM, "--pairs", "trips.csv", "--progress", *words[1:])
            self.assertEqual((status, told), (0, f"spt: {count}, 0 s, 0 s left\n"))

    def test_routes_of_an_older_library(self):
        self.put("trips.csv", "from,to\nDepot,Church\n")
        with mock.patch.object(spt._graph, "HAS_ROUTES", False):
            told = "the library is older than 1.6: it has no spt_graph_route or spt_graph_routes"
            for words in (["routes"], ["pairs", "--paths"]):
                self.refused(told, words[0], "roads.csv", *FORM, "--pairs", "trips.csv", *words[1:])
            self.of("source,target,distance,predecessor\nDepot,Church,8.25,Quay\n", "pairs", "--pairs", "trips.csv")

    def test_many_pairs_of_a_source(self):
        self.put("trips.csv", 'from,to\nMill,Depot\nMill,Quay\nMill,Church\nMill,"Inn, Old"\nMill,Mill\n')
        wanted = """source,target,distance,predecessor,path
Mill,Depot,11.25,Quay,Mill > Quay > Depot
Mill,Quay,4.00,Mill,Mill > Quay
Mill,Church,5.75,Quay,Mill > Quay > Church
Mill,"Inn, Old",,,
Mill,Mill,0.00,,Mill
"""
        self.of(wanted, "pairs", "--pairs", "trips.csv", "--paths")


class Maps(Folder):
    """Answers as GeoJSON."""

    PLACES = """place,lon,lat
Church,10.53,49.52
Depot,10.5,49.5
Elsewhere,0,0
"Inn, Old",-10.5,-49.5
Mill,10.51,49.5
Quay,10.52,49.51
"""
    AXES = ["--places", "places.csv", "--x", "lon", "--y", "lat"]

    def setUp(self):
        super().setUp()
        self.put("places.csv", self.PLACES)

    def features(self, command, *words):
        """The properties, the kind and the coordinates of each feature."""
        status, output, told = self.call(command, "roads.csv", *FORM, *words, *self.AXES)
        self.assertEqual((status, told), (0, ""))
        found = json.loads(output)
        self.assertEqual((found["type"], {it["type"] for it in found["features"]} <= {"Feature"}), ("FeatureCollection", True))
        # (a feature without a geometry is one whose place isn't known)
        geometries = [it["geometry"] or {"type": None, "coordinates": None} for it in found["features"]]
        return [(it["properties"], at["type"], at["coordinates"]) for it, at in zip(found["features"], geometries)]

    def test_points(self):
        wanted = [
            ({"source": "Depot", "vertex": "Depot", "distance": 0.0, "predecessor": None}, "Point", [10.5, 49.5]),
            ({"source": "Depot", "vertex": "Mill", "distance": 2.5, "predecessor": "Depot"}, "Point", [10.51, 49.5]),
            ({"source": "Depot", "vertex": "Quay", "distance": 6.5, "predecessor": "Mill"}, "Point", [10.52, 49.51]),
        ]
        self.assertEqual(self.features("tree", "--source", "Depot", "--within", "7"), wanted)
        found = self.features("nearest", "--source", "Quay", "--source", "Church", "--towards")
        self.assertEqual([told["to"] for told, *_ in found], ["Quay", "Quay", "Quay", "Quay", "Church"])
        self.assertEqual(found[3][1:], ("Point", [-10.5, -49.5]))

    def test_lines(self):
        self.put("trips.csv", "from,to\nDepot,Church\nChurch,Depot\nMill,Mill\nDepot,Church\n")
        far = [[10.5, 49.5], [10.53, 49.52]]
        path = [far[0], [10.51, 49.5], [10.52, 49.51], far[1]]
        forth = {"source": "Depot", "target": "Church", "distance": 8.25}
        back = {"source": "Church", "target": "Depot", "distance": None}
        still = {"source": "Mill", "target": "Mill", "distance": 0.0}
        wanted = [(forth, "LineString", path), (back, None, None), (still, "Point", [10.51, 49.5]), (forth, "LineString", path)]
        self.assertEqual(self.features("routes", "--pairs", "trips.csv"), wanted)
        found = self.features("pairs", "--pairs", "trips.csv")
        self.assertEqual([it[1:] for it in found], [("LineString", far), *(it[1:] for it in wanted[1:3]), ("LineString", far)])
        self.assertEqual(found[0][0], {**forth, "predecessor": "Quay"})
        self.put("trips.csv", "to,from\nChurch,Depot\n")
        told = {"to": "Church", "from": "Depot", "distance": 8.25}
        self.assertEqual(self.features("pairs", "--pairs", "trips.csv", "--towards"), [({**told, "next": "Mill"}, "LineString", far)])
        self.assertEqual(self.features("routes", "--pairs", "trips.csv", "--towards"), [(told, "LineString", path)])

    def test_streets(self):
        self.put("trips.csv", "from,to\nQuay,Church\nChurch,Depot\nMill,Mill\nDepot,Mill\n")
        quay, mill = [[10.52, 49.51], [10.53, 49.52]], [[10.5, 49.5], [10.51, 49.5]]
        none = dict.fromkeys(("step", "from", "to", "row", "length", "two-way"))
        wanted = [
            ({"pair": 1, "step": 1, "from": "Quay", "to": "Church", "row": 6, "length": 1.75, "two-way": "1"}, "LineString", quay),
            ({"pair": 2, **none}, None, None),
            ({"pair": 4, "step": 1, "from": "Depot", "to": "Mill", "row": 2, "length": 2.5, "two-way": "yes"}, "LineString", mill),
        ]
        self.assertEqual(self.features("routes", "--pairs", "trips.csv", "--streets", "--column", "two-way"), wanted)

    def test_graphs(self):
        spt.Graph(2, [(1, 2, 7)]).save(f"{self.folder}/two.packed")
        self.put("places.csv", "number,x,y\n1,10,50\n2,11,51\n")
        status, output, _ = self.call("tree", "two.packed", "--source", "1", "--places", "places.csv", "-o", "two.geojson")
        self.assertEqual((status, output), (0, ""))
        self.assertEqual([it["properties"]["distance"] for it in json.loads(self.read("two.geojson"))["features"]], [0, 7])
        self.put("none.csv", "from,to\n")
        self.refused("none.csv: there are no rows below the header", "pairs", "two.packed", "--pairs", "none.csv", "--places", "places.csv")

    def test_faults(self):
        words = ["tree", "roads.csv", *FORM, "--source", "Depot"]
        self.refused("--x: a column of the file of --places, which isn't given", *words, "--x", "lon", status=1)
        self.refused("places.csv: no column 'x': the columns are place, lon, lat", *words, "--places", "places.csv")
        self.put("places.csv", self.PLACES.replace("Mill,10.51,49.5\n", ""))
        self.refused("places.csv: no row for 'Mill', which is in roads.csv", *words, *self.AXES)
        for row, column, cell, kind, most in ((6, "lon", "far", "longitude", 180), (7, "lat", "5517000", "latitude", 90), (6, "lat", "nan", "latitude", 90)):
            cells = {"lon": "10", "lat": "49", column: cell}
            self.put("places.csv", self.PLACES.replace(("Mill,10.51,49.5", "Quay,10.52,49.51")[row - 6], f"M,{cells['lon']},{cells['lat']}"))
            told = f"{cell!r} is not a {kind}: GeoJSON has degrees, from -{most} to {most}"
            self.refused(f"places.csv: row {row}, column {column!r}: {told}", *words, *self.AXES)
        self.refused("places.csv: the output is an input", *words, *self.AXES, "-o", "places.csv", status=1)


class Files(Folder):
    TREE = "source,vertex,distance,predecessor\n1,1,0,\n1,2,3,1\n1,3,3,1\n1,4,5,2\n"
    LESS = "source,vertex,distance,predecessor\nA,A,0.0,\nA,B,1.5,A\n"

    def test_gr(self):
        path = f"{samples.HOME}/examples/diamond.gr"
        self.gives(self.TREE, "tree", path, "--source", "1")
        self.gives(self.TREE[: self.TREE.index("1,4")], "tree", path, "--source", "1", "--within", "3")
        self.gives("source,2,1\n4,2,5\n", "matrix", path, "--source", "4", "--target", "2", "--target", "1", "--both-ways")
        self.put("diamond.gr.gz", gzip.compress(samples.read("examples/diamond.gr").encode()))
        self.gives(self.TREE, "tree", "diamond.gr.gz", "--source", "1")
        self.put("pairs.csv", "from,to\n1,4\n1,1\n")
        self.gives("source,target,distance,predecessor\n1,4,5,2\n1,1,0,\n", "pairs", path, "--pairs", "pairs.csv")

    def test_packed(self):
        spt.Graph(4, samples.DIAMOND).save(f"{self.folder}/diamond.packed")
        self.gives(self.TREE, "tree", "diamond.packed", "--source", "1")
        spt.Graph.from_frame({"u": ["A"], "v": ["B"], "w": [1.5]}, "u", "v", "w", unit=0.5).save(f"{self.folder}/named.packed")
        self.gives(self.LESS, "tree", "named.packed", "--source", "A")
        spt.Graph.from_frame({"u": [7], "v": [9], "w": [2]}, "u", "v", "w").save(f"{self.folder}/numbers.packed")
        self.gives("source,vertex,distance,predecessor\n7,7,0,\n7,9,2,7\n", "tree", "numbers.packed", "--source", "7")

    def test_forms_of_tables(self):
        words = ["--from", "u", "--to", "v", "--length", "w", "--unit", "0.5", "--source", "A"]
        for name, text in (
            ("semicolons.csv", "u;w;v\nA;1.5;B\n"),
            ("tabs.tsv", "u\tw\tv\nA\t1.5\tB\n"),
            ("mark.csv", "\ufeffu, v, w\r\nA, B, 1.5\r\n,,\r\n"),
            ("packed.csv.gz", gzip.compress(b"u,v,w\nA,B,1.5\n")),
        ):
            self.put(name, text)
            self.gives(self.LESS, "tree", name, *words)
        self.gives(self.LESS, "tree", "-", *words, given="u,v,w\nA,B,1.5\n")

    def test_zeros(self):
        self.put("zeros.csv", "u,v,w\nA,B,0\nB,C,0.2\nC,D,1.5\n")
        words = ["tree", "zeros.csv", "--from", "u", "--to", "v", "--length", "w", "--source", "A", "--zero", "unit"]
        wanted = "source,vertex,distance,predecessor\nA,A,0.0,\nA,B,0.5,A\nA,C,1.0,B\nA,D,2.5,C\n"
        self.gives(wanted, *words, "--unit", "0.5")
        self.put("zeros.csv", "u,v,w\nA,B,0\nB,C,2\n")
        self.gives("source,vertex,distance,predecessor\nA,A,0,\nA,B,1,A\nA,C,3,B\n", *words)

    def test_parquet(self):
        # (pandas reads these files only with a further package)
        self.put("roads.parquet", "PAR1")
        words = ["tree", "roads.parquet", "--from", "u", "--to", "v", "--length", "w", "--unit", "0.5", "--source", "5"]
        frame = Frame(u=array.array("i", [5]), v=array.array("i", [6]), w=array.array("d", [1.5]))
        with mock.patch.dict(sys.modules, pandas=types.SimpleNamespace(read_parquet=lambda file: frame)):
            self.gives("source,vertex,distance,predecessor\n5,5,0.0,\n5,6,1.5,5\n", *words)
            frame["v"] = types.SimpleNamespace(tolist=lambda: [None])
            self.refused("roads.parquet: row 2, column 'v': empty, but a name is needed", *words)
        with mock.patch.dict(sys.modules, pandas=None):
            told = "import of pandas halted; None in sys.modules"
            self.refused(f"roads.parquet: a Parquet file needs pandas and pyarrow: {told}", *words)

    def test_output(self):
        self.of("", "tree", "--source", "Depot", "-o", "times.csv")
        self.assertEqual(self.read("times.csv"), Trees.FROM_DEPOT)
        self.refused(
            "--source: 'Dpot' is not in the columns 'u' and 'v' of roads.csv",
            "tree", "roads.csv", *FORM, "--source", "Dpot", "-o", "times.csv",
        )
        self.assertEqual(self.read("times.csv"), Trees.FROM_DEPOT)
        told = self.call("matrix", "roads.csv", *FORM, "--source", "Depot", "--target", "Mill", "--progress")
        self.assertEqual(told, (0, "source,Mill\nDepot,2.50\n", "spt: 1 of 1 sources, 0 s, 0 s left\n"))
        self.assertEqual(sorted(os.listdir(self.folder)), ["roads.csv", "times.csv"])


class Faults(Folder):
    def of_text(self, wanted, text, *words):
        """Compares the error of a table with this text."""
        self.put("bad.csv", text)
        self.refused(wanted, "tree", "bad.csv", "--from", "u", "--to", "v", "--length", "w", "--source", "A", *words)

    def test_files(self):
        self.refused("none.csv: No such file or directory", "tree", "none.csv", *FORM, "--source", "Depot")
        self.refused("none.csv: No such file or directory", "tree", "roads.csv", *FORM, "--sources", "none.csv")
        self.refused(
            "none/times.csv: No such file or directory", "tree", "roads.csv", *FORM, "--source", "Depot", "-o", "none/times.csv"
        )
        self.put("bad.csv.gz", "u,v\n")
        wanted = "bad.csv.gz: not a gzip file, or a damaged one: Not a gzipped file (b'u,')"
        self.refused(wanted, "tree", "bad.csv.gz", *FORM, "--source", "Depot")
        self.put("bad.gr", "p sp 2 1\na 1 2 0\n")
        wanted = "bad.gr: line 2: 5 OutOfRange W\nlengths are whole numbers from 1 to 4294967295"
        self.refused(wanted, "tree", "bad.gr", "--source", "1")

    def test_tables(self):
        self.of_text("bad.csv: the file is empty", "")
        self.of_text("bad.csv: there are no rows below the header", "u,v,w\n")
        self.of_text("bad.csv: no column 'w': the columns are u, v, minutes", "u,v,minutes\nA,B,1\n")
        self.of_text("bad.csv: more than one column 'v': the columns are u, v, v, w", "u,v,v,w\nA,B,C,1\n")
        self.of_text("bad.csv: row 3: 4 cells, but the header has 3", "u,v,w\nA,B,1\nA,B,2,5\n")
        self.of_text("bad.csv: line 3: not in UTF-8: save the file as CSV in UTF-8", b"u,v,w\nA,B,1\nA,\xfc,1\n")

    def test_cells(self):
        front, zero = "u,v,w\nA,B,1\n\n", "; --zero unit counts 0 as one unit"
        self.of_text("bad.csv: row 4, column 'v': empty, but a name is needed", front + "A,,1\n")
        self.of_text("bad.csv: row 4, column 'w': empty, but a length is needed", front + "A,B,\n")
        self.of_text("bad.csv: row 4, column 'w': 'far' is not a number", front + "A,B,far\n")
        self.of_text("bad.csv: row 4, column 'w': 'nan' is not a number", front + "A,B,nan\n")
        self.of_text("bad.csv: row 4, column 'w': '2,5' is not a number: write the decimals behind a point", front + 'A,B,"2,5"\n')
        self.of_text("bad.csv: row 4, column 'w': -3 is not a length: lengths are above 0", front + "A,B,-3\n")
        self.of_text(f"bad.csv: row 4, column 'w': 0 is not a length: lengths are above 0{zero}", front + "A,B,0\n", "--unit", "0.01")
        self.of_text("bad.csv: row 4, column 'w': 2.5 is a fraction: choose a unit, such as --unit 0.01", front + "A,B,2.5\n")
        self.of_text("bad.csv: row 4, column 'w': 4294967296 is more than 4294967295: choose a --unit", front + "A,B,4294967296\n")
        wanted = "bad.csv: row 4, column 'w': 0.004 rounds to 0 in the unit 0.01: choose a smaller --unit, or --zero unit to count it as 0.01"
        self.of_text(wanted, front + "A,B,0.004\n", "--unit", "0.01")
        wanted = "bad.csv: row 4, column 'w': 5e9 is more than 4294967295 times the unit 1: choose a larger --unit"
        self.of_text(wanted, front + "A,B,5e9\n", "--unit", "1")
        wanted = "bad.csv: row 3, column 'both': 'maybe' is not yes or no, true or false, 1 or 0"
        self.of_text(wanted, "u,v,w,both\nA,B,1,no\nB,A,1,maybe\n", "--both-ways", "both")

    def test_names(self):
        words = ["roads.csv", *FORM]
        self.put("places.csv", "place\nDepot\nDpot\n")
        wanted = "places.csv: row 3, column 'place': 'Dpot' is not in the columns 'u' and 'v' of roads.csv"
        self.refused(wanted, "tree", *words, "--sources", "places.csv")
        self.put("pairs.csv", "a,b\nDepot,Mill\nDepot,Dpot\n")
        wanted = "pairs.csv: row 3, column 'b': 'Dpot' is not in the columns 'u' and 'v' of roads.csv"
        self.refused(wanted, "pairs", *words, "--pairs", "pairs.csv")
        self.put("bare.csv", "Depot\nMill\n")
        wanted = "bare.csv: row 1: 'Depot' is a vertex, but the first row is for titles of columns: put one above it"
        self.refused(wanted, "tree", *words, "--sources", "bare.csv")
        self.refused("places.csv: a header and 2 columns of names are needed", "pairs", *words, "--pairs", "places.csv")
        path = f"{samples.HOME}/examples/diamond.gr"
        for name in ("5", "0", "01", "A", "-1", "1.0"):
            self.refused(f"--source: {name!r} is not a vertex (1 to 4) of {path}", "tree", path, f"--source={name}")

    def test_options(self):
        words, path = ["tree", "roads.csv"], f"{samples.HOME}/examples/diamond.gr"
        for wanted, given in (
            ("roads.csv: --from, --to and --length: not given: the columns are u, v, minutes, two-way", [*words, "--source", "A"]),
            ("--source NAME or --sources FILE is needed", [*words, *FORM]),
            ("--source and --sources can't be used together", [*words, *FORM, "--source", "Depot", "--sources", "x.csv"]),
            ("--target NAME or --targets FILE is needed", ["matrix", *words[1:], *FORM, "--source", "Depot"]),
            (f"{path}: --unit is for tables: this is the file of a graph", ["tree", path, "--unit", "2", "--source", "1"]),
            (f"{path}: --zero is for tables: this is the file of a graph", ["tree", path, "--zero", "unit", "--source", "1"]),
            (f"{path}: --both-ways with a column is for tables: this is the file of a graph", ["tree", path, "--both-ways", "x"]),
            ("--within 2.5: must be a whole number, as the lengths have no unit", ["tree", path, "--source", "1", "--within", "2.5"]),
            (
                "--within 99999999999999 is out of range: in a graph of 4 vertices it is from 0 to 17592186044414",
                ["tree", path, "--source", "1", "--within", "99999999999999"],
            ),
            ("standard input twice: only one file can be `-`", ["tree", "-", *FORM, "--sources", "-"]),
            ("roads.csv: the output is an input", [*words, *FORM, "--source", "Depot", "-o", "./roads.csv"]),
        ):
            self.refused(wanted.replace("roads.csv: the output", "./roads.csv: the output"), *given, status=1)
        self.assertEqual(self.read("roads.csv"), ROADS)

    def test_words(self):
        status, output, told = self.call("tree", "roads.csv", *FORM, "--source", "Depot", "--unit", "0")
        self.assertEqual((status, output), (1, ""))
        self.assertEqual(told, "spt: argument --unit: '0' is not above 0\nfor help: python -m spt tree --help\n")
        status, output, told = self.call()
        self.assertEqual((status, output, told.splitlines()[-1]), (1, "", "for help: python -m spt --help"))

    def test_page(self):
        page = samples.read("docs/PYTHON.md")
        self.put("roads.csv", page.split("```csv\n")[1].split("```")[0])
        block = page.split("    python3 -m spt ")[1].split("\n\n")[0].splitlines()
        self.gives("".join(f"{line.strip()}\n" for line in block[1:]), *block[0].split())

    def test_processes(self):
        words = ["tree", "roads.csv", *FORM, "--source"]
        self.assertEqual(self.process(*words, "Depot"), (0, Trees.FROM_DEPOT, ""))
        wanted = "spt: --source: 'Dpot' is not in the columns 'u' and 'v' of roads.csv\n"
        self.assertEqual(self.process(*words, "Dpot"), (2, "", wanted))
        status, output, told = self.process("tree", "--help")
        self.assertEqual((status, told), (0, ""))
        self.assertIn("--sources FILE", output)

    def test_without_a_library(self):
        self.put("libspt.so", "no library")
        self.put("program.py", "try:\n    import spt\nexcept ImportError as error:\n    print(type(error).__name__)\n")
        for name, why in (("none.so", "cannot open shared object file: No such file or directory"), ("libspt.so", "file too short")):
            path = f"{self.folder}/{name}"
            told = f"spt: {path}: {why}; set SPT_LIBRARY to the path of libspt.so (docs/PYTHON.md)\n"
            for words in (["tree", "roads.csv", *FORM, "--source", "Depot"], ["--help"], []):
                self.assertEqual(self.process(*words, SPT_LIBRARY=path), (2, "", told))
            # (a program can go on without)
            known = {**os.environ, "SPT_LIBRARY": path, "PYTHONPATH": os.path.dirname(os.path.dirname(spt.__file__))}
            done = subprocess.run([sys.executable, f"{self.folder}/program.py"], env=known, capture_output=True, text=True)
            self.assertEqual((done.stdout, done.stderr), ("LibraryNotFound\n", ""))

    def test_closed_streams(self):
        words = [sys.executable, "-m", "spt", "tree", "-", *FORM, "--source", "Depot"]
        known = {**os.environ, "PYTHONPATH": os.path.dirname(os.path.dirname(spt.__file__))}
        for closed, told in ((">&-", "standard output is closed: -o OUT writes to a file"), ("<&-", "standard input is closed")):
            shell = ["sh", "-c", f'exec "$@" {closed}', "sh", *words]
            done = subprocess.run(shell, cwd=self.folder, env=known, input=ROADS, capture_output=True, text=True, timeout=SECONDS)
            self.assertEqual((done.returncode, done.stdout, done.stderr), (2, "", f"spt: {told}\n"))

    def test_where_it_is_not_installed(self):
        # (without the folders in which packages are looked for)
        status, output, told = self.process("--help", options=("-I", "-S"))
        self.assertEqual((status, output, told.splitlines()[1:]), (1, "", []))
        self.assertRegex(told, "No module named '?spt")


if __name__ == "__main__":
    unittest.main()
