"""Packed graphs, and the names and the unit beside them, as a plain writer and a plain reader have them (tests/packed.py)."""

import array
import builtins
import contextlib
import copy
import gzip
import io
import json
import math
import os
import pathlib
import pickle
import random
import stat
import sys
import tempfile
import threading
import types
import unittest

from unittest import mock

import samples
import spt

from samples import WAYS, networkx, numpy, pandas

# (first the plain writer and reader, since the others look for modules of bench/, which has another of this name)
sys.path.insert(0, f"{samples.HOME}/tests")
import packed  # noqa: E402

import hints  # noqa: E402

from cases.shared import FRONT, GREATEST, summed, words  # noqa: E402

# the example of the specification, in the order of its file, and its words there
EXAMPLE = [(1, 2, 3), (1, 3, 3), (2, 4, 2), (3, 4, 2), (1, 4, 6)]
WORDS = [0x54505389, 0x011A0A0D, 4, 5, 0, 3, 4, 5, 5, 2, 3, 3, 3, 4, 6, 4, 2, 4, 2, 0x556A5DD1, 0, 0x55CAEA2C, 6]
TOWN = {"from": ["Depot", "Mill", "Depot", "Quay"], "to": ["Mill", "Quay", "Quay", "Depot"], "minutes": [2.5, 4, 7.25, 1]}


def changed(*changes):
    """The bytes of the example with some words changed, each by its place."""
    return words(*(dict(changes).get(place, word) for place, word in enumerate(WORDS)))


def saved(graph):
    """The bytes that a graph is packed into."""
    file = io.BytesIO()
    graph.save(file)
    return file.getvalue()


def load(data, **named):
    return spt.Graph.load(io.BytesIO(data), **named)


def first_fault(data):
    """The first fault of bytes that are to be a packed graph, as a plain reader tells it; None where there is none."""
    with mock.patch.object(packed, "MOST_VERTICES", GREATEST["32"][1]):
        try:
            packed.spelled(data)
        except packed.Fault as fault:
            return str(fault)
    return None


def drawn(seed):
    return packed.drawn_graph(random.Random(seed))


def town(**changes):
    return spt.Graph.from_frame({**TOWN, **changes}, "from", "to", "minutes", unit=0.25)


class Examples(unittest.TestCase):
    """The worked examples of the specification that are of packed graphs."""

    def test_example_1(self):
        wanted = words(*WORDS)
        self.assertEqual(len(wanted), 92)
        for arcs in (EXAMPLE, EXAMPLE[::-1], sorted(EXAMPLE, key=lambda it: it[2])):
            self.assertEqual(saved(spt.Graph(4, arcs)), wanted)
        self.assertEqual(saved(load(wanted)), wanted)
        self.assertEqual(saved(spt.Graph.read(io.BytesIO(wanted))), wanted)
        self.assertEqual(samples.triples(load(wanted).arcs.tolist()), sorted(EXAMPLE))

    def test_example_3(self):
        wanted = words(*WORDS)
        for data, fault in (
            (wanted[:50], (48, 7, "TooFew", None)), (wanted + b"x", (92, 6, "TooMany", None)), (changed((2, 0)), (8, 5, "OutOfRange", "N")),
            (changed((3, 1073741825)), (12, 5, "OutOfRange", "M")), (changed((5, 0)), (64, 5, "OutOfRange", "W")),
            (changed((6, 1)), (24, 5, "OutOfRange", "E")), (changed((1, 0x021A0A0D)), (4, 10, "OtherForm", None)),
            (changed((9, 0)), (36, 5, "OutOfRange", "V")), (changed((9, 5)), (36, 5, "OutOfRange", "V")),
            (changed((19, 0)), (76, 11, "OtherSum", None)), (b"\x89", (0, 7, "TooFew", None)),
        ):
            for call in (spt.Graph.load, spt.Graph.read):
                with self.assertRaises(spt.Fault) as told:
                    call(io.BytesIO(data))
                it, (byte, number, kind, field) = told.exception, fault
                self.assertEqual((it.byte, it.line, it.number, it.kind, it.field), (byte, None, number, kind, field))
                self.assertEqual(str(it), f"gr: byte {byte}: {number} {kind}{' ' + field if field else ''}\n{it.hint}")
                for twin in (copy.copy(it), pickle.loads(pickle.dumps(it))):
                    self.assertEqual((str(twin), vars(twin)), (str(it), vars(it)))
        with self.assertRaises(spt.Fault) as told:
            spt.Graph.read(io.BytesIO(b""))
        self.assertEqual((told.exception.line, told.exception.byte, told.exception.kind), (1, None, "NoProblem"))

    def test_example_4(self):
        alone = summed(*FRONT, 1, 0, 0, 0)
        self.assertEqual((len(alone), saved(spt.Graph(1))), (40, alone))
        self.assertEqual((load(alone).n, load(alone).m, load(alone).arcs.tolist()), (1, 0, []))
        loop = spt.Graph(1, [(1, 1, 5)], both_ways=True)
        self.assertEqual((loop.m, loop.arcs.tolist()), (2, [1, 1, 5, 1, 1, 5]))


class Packed(unittest.TestCase):
    def test_by_lot(self):
        for seed in range(60):
            n, arcs = drawn(seed)
            wanted = packed.packed(n, arcs)
            draw = random.Random(seed)
            given, sources = draw.sample(arcs, len(arcs)), [draw.randint(1, n) for _ in range(3)]
            graph, loaded = spt.Graph(n, given), load(wanted)
            self.assertEqual((saved(graph), saved(loaded)), (wanted, wanted), seed)
            self.assertEqual((loaded.n, loaded.m, repr(loaded)), (graph.n, graph.m, repr(graph)))
            self.assertEqual(list(loaded.trees(sources, workers=2)), list(graph.trees(sources)))
            self.assertEqual(loaded.nearest(sources), graph.nearest(sources))
            self.assertEqual(loaded.matrix(sources, sources).tolist(), graph.matrix(sources, sources).tolist())
            for way in WAYS:
                with mock.patch.dict(sys.modules, way):
                    again = load(wanted)
                    self.assertEqual(samples.triples(again.arcs.tolist()), sorted(arcs), seed)
                    self.assertTrue(again.arcs.readonly)
                    self.assertIsNone(again.check(graph.tree(sources[0])))
            buffers = []
            outside = pickle.dumps(load(wanted), 5, buffer_callback=buffers.append)
            twins = [pickle.loads(outside, buffers=[bytearray(it) for it in buffers]), copy.copy(load(wanted)), copy.deepcopy(load(wanted))]
            twins += [pickle.loads(pickle.dumps(load(wanted), protocol)) for protocol in range(pickle.HIGHEST_PROTOCOL + 1)]
            for twin in twins:
                self.assertEqual((samples.triples(twin.arcs.tolist()), twin.tree(sources[0])), (sorted(arcs), graph.tree(sources[0])))

    def test_faults(self):
        seen = set()
        for n, arcs in packed.SAMPLES:
            whole = packed.packed(n, arcs)
            most = whole[:8] + words(2**32 - 1) + whole[12:]
            for name, data in (*packed.faulty(whole), ("too many vertices", most)):
                fault = first_fault(data)
                if fault is None:
                    # what is changed is a graph, too
                    self.assertEqual(saved(load(data)), data, name)
                    continue
                seen.add(fault.split(": ")[1])
                with self.assertRaises(spt.Fault, msg=name) as told:
                    load(data)
                self.assertEqual(str(told.exception).split("\n")[0], f"gr: {fault}", name)
                if data[:1] == whole[:1]:
                    with self.assertRaises(spt.Fault, msg=name) as told:
                        spt.Graph.read(io.BytesIO(data))
                    self.assertEqual(str(told.exception).split("\n")[0], f"gr: {fault}", name)
        self.assertEqual(seen, {"7 TooFew", "6 TooMany", "10 OtherForm", "11 OtherSum", *(f"5 OutOfRange {it}" for it in "NMEVW")})

    def test_second_lines(self):
        # those that the program tells of the same bytes (tests/hints.py)
        most = "N is a number from 1 to 4294967294"
        cases = [(name, data, fault, told.split("; with --both-ways")[0]) for name, data, fault, _, told in hints.PACKED_GRAPHS]
        cases = [(name, data, fault, most if fault.endswith(" N") else told) for name, data, fault, told in cases if name != "many vertices"]
        self.assertGreater(len(cases), 10)
        for name, data, fault, hint in cases:
            with self.assertRaises(spt.Fault) as told:
                load(data)
            self.assertEqual((str(told.exception), told.exception.hint), (f"gr: {fault}\n{hint}", hint), name)

    def test_no_text(self):
        # whatever isn't packed is refused at its first word, and told what it is
        text = b"p sp 2 1\na 1 2 3\n"
        other = "no packed graph of spt; Graph.read takes the text of a graph, too"
        cut = "the packed graph was cut or changed; copy it again, or pack it again by spt pack"
        for data, fault, hint in (
            (text, "byte 0: 10 OtherForm", other), (text[:3], "byte 0: 7 TooFew", other), (b"", "byte 0: 7 TooFew", cut),
            (gzip.compress(text), "byte 0: 10 OtherForm", "compressed with gzip; give gzip.open(path), or a name that ends in .gz"),
        ):
            with self.assertRaises(spt.Fault) as told:
                load(data)
            self.assertEqual(str(told.exception), f"gr: {fault}\n{hint}")
        with tempfile.TemporaryDirectory() as folder:
            path = os.path.join(folder, "some.gr")
            with open(path, "wb") as file:
                file.write(text)
            with self.assertRaises(spt.Fault) as told:
                spt.Graph.load(path)
            self.assertEqual(str(told.exception), f"{path}: byte 0: 10 OtherForm\n{other}")
            self.assertEqual(spt.Graph.read(path).arcs.tolist(), [1, 2, 3])

    def test_files(self):
        graph, wanted = spt.Graph(4, EXAMPLE), words(*WORDS)
        with tempfile.TemporaryDirectory() as folder:
            for path in (f"{folder}/a", pathlib.Path(folder, "b.gr"), f"{folder}/c.gz"):
                graph.save(path)
                self.assertEqual(os.listdir(folder), [os.path.basename(path)])
                with gzip.open(path) if str(path).endswith(".gz") else open(path, "rb") as file:
                    self.assertEqual(file.read(), wanted)
                for call in (spt.Graph.load, spt.Graph.read):
                    self.assertEqual(samples.triples(call(path).arcs.tolist()), sorted(EXAMPLE))
                os.remove(path)
            with open(f"{folder}/open", "wb", buffering=0) as file:
                graph.save(file)
            with open(f"{folder}/open", "rb") as file:
                self.assertEqual(file.read(), wanted)
            with open(f"{folder}/open", "rb") as file:
                self.assertEqual(saved(spt.Graph.load(file)), wanted)
            with open(f"{folder}/open", "rb") as file:
                self.assertEqual(saved(spt.Graph.read(file)), wanted)
            for call in (spt.Graph.load, spt.Graph.read):
                with self.assertRaises(FileNotFoundError):
                    call(f"{folder}/none")

    def test_an_open_file_may_take_less(self):
        class Slow(io.RawIOBase):
            taken = b""

            def writable(self):
                return True

            def write(self, data):
                self.taken += bytes(data[:7])
                return min(7, len(data))

        class Silent:
            taken = b""

            def write(self, data):
                self.taken += data

        for file in (Slow(), Silent()):
            spt.Graph(4, EXAMPLE).save(file)
            self.assertEqual(file.taken, words(*WORDS))
        for taken in (None, 0):
            with mock.patch.object(Slow, "write", return_value=taken), self.assertRaisesRegex(OSError, "92 bytes are left"):
                spt.Graph(4, EXAMPLE).save(Slow())

    def test_numbers_are_made_late(self):
        # neither a load nor an answer makes them, and they are made once
        with mock.patch.object(spt._kept, "numbers_of", side_effect=AssertionError):
            graph = load(words(*WORDS))
            twin = copy.copy(graph)
            self.assertEqual((graph.n, graph.m, repr(graph)), (4, 5, "Graph of 4 vertices and 5 arcs"))
            self.assertEqual((graph.path(1, 4), graph.pair(1, 4), graph.tree(1).path(4)), ([1, 2, 4], spt.Pair(5, 2), [1, 2, 4]))
            self.assertEqual((graph.tree(1, within=3).path(4), graph.nearest([2, 3]).path(4)), (None, [2, 4]))
            self.assertEqual((graph.matrix([1], [4]).tolist(), graph.path(4, 1, towards=True)), ([[5]], [1, 2, 4]))
            self.assertEqual(pickle.loads(pickle.dumps(graph)).path(1, 4), [1, 2, 4])
            self.assertEqual(saved(graph), words(*WORDS))
        with mock.patch.object(spt._kept, "numbers_of", wraps=spt._kept.numbers_of) as made:
            self.assertEqual(samples.triples(graph.arcs.tolist()), sorted(EXAMPLE))
            self.assertIs(graph.arcs, twin.arcs)
            self.assertIsNone(graph.check(graph.tree(1)))
            self.assertEqual(samples.triples(pickle.loads(pickle.dumps(twin)).arcs.tolist()), sorted(EXAMPLE))
            self.assertEqual(made.call_count, 1)

    def test_numbers_are_made_by_one_thread(self):
        graph, found = load(packed.packed(*drawn(7))), []
        with mock.patch.object(spt._kept, "numbers_of", wraps=spt._kept.numbers_of) as made:
            threads = [threading.Thread(target=lambda: found.append(graph.arcs)) for _ in range(8)]
            for thread in threads:
                thread.start()
            for thread in threads:
                thread.join()
        self.assertEqual((made.call_count, len(found), len(set(map(id, found)))), (1, 8, 1))

    @unittest.skipIf(numpy is None, "NumPy isn't installed")
    def test_scipy(self):
        arcs = samples.by_lot(50, 300, 3)
        graph = spt.Graph(50, arcs)
        self.assertEqual((load(saved(graph)).to_scipy() != graph.to_scipy()).nnz, 0)
        wanted = spt.dijkstra(graph, return_predecessors=True)
        for told, it in zip(spt.dijkstra(load(saved(graph)), return_predecessors=True), wanted):
            self.assertTrue((told == it).all())

    def test_changed_while_it_was_pickled(self):
        text = pickle.dumps(load(words(*WORDS)), 2)
        place = text.index(words(*WORDS[9:11]))
        with self.assertRaises(spt.Fault):
            pickle.loads(text[:place] + b"\x05" + text[place + 1 :])

    def test_refused_by_the_library(self):
        library = spt._library
        graph = load(words(*WORDS))
        calls = {"spt_graph_share": library.library.spt_graph_share, "spt_graph_free": library.library.spt_graph_free}
        told = {
            "spt_graph_load": lambda *given: library.Packed(library.MEMORY),
            "spt_graph_save": lambda *given: library.Saved(library.MEMORY),
            "spt_graph_turned": lambda *given: library.Answer(library.MEMORY),
            "spt_graph_both_ways": lambda *given: library.Answer(library.MEMORY),
            "spt_graph_new": lambda *given: library.Answer(library.OK),
        }
        with mock.patch.object(spt._kept, "library", types.SimpleNamespace(**calls, **told)):
            for call in (
                lambda: load(words(*WORDS)), lambda: saved(graph), lambda: graph.arcs, lambda: pickle.dumps(graph), graph.turned,
                lambda: graph.tree(1, towards=True), lambda: spt.Graph(2, both_ways=True),
            ):
                with self.assertRaises(MemoryError):
                    call()
        # what was refused is made later
        self.assertEqual((graph.arcs[1], graph.turned().path(4, 1)), (2, [4, 2, 1]))
        with mock.patch.object(graph._kept, "m", 2**30 + 1), self.assertRaisesRegex(spt.SptError, "1073741825 arcs can't be packed"):
            saved(graph)

    def test_an_older_library(self):
        graph = spt.Graph(4, EXAMPLE)
        with mock.patch.object(spt._graph, "HAS_PACKED", False):
            for call in (
                lambda: load(words(*WORDS)), lambda: saved(graph), lambda: spt.Graph.read(io.BytesIO(words(*WORDS))), graph.turned,
                lambda: graph.tree(4, towards=True), lambda: graph.trees([4], towards=True), lambda: graph.nearest([4], towards=True),
                lambda: graph.matrix([4], [1], towards=True), lambda: graph.pair(4, 1, towards=True),
                lambda: graph.path(4, 1, towards=True), lambda: spt.Graph(4, EXAMPLE, both_ways=True),
                lambda: spt.Graph.read(io.BytesIO(b"p sp 2 1\na 1 2 3\n"), both_ways=True),
            ):
                with self.assertRaisesRegex(spt.SptError, "older than 1.4"):
                    call()
            # what needs none of its calls
            self.assertEqual((graph.path(1, 4), pickle.loads(pickle.dumps(graph)).path(1, 4)), ([1, 2, 4],) * 2)
            self.assertEqual(town(**{"two-way": [1, 0, 0, 0]}).path("Depot", "Quay"), ["Depot", "Mill", "Quay"])


class Beside(unittest.TestCase):
    """Names and units, which are in a file beside the packed one."""

    def setUp(self):
        folder = tempfile.TemporaryDirectory()
        self.addCleanup(folder.cleanup)
        self.folder, self.path = folder.name, os.path.join(folder.name, "town")

    def files(self):
        return sorted(os.listdir(self.folder))

    def beside(self, **changes):
        """What is beside, after these changes."""
        with open(f"{self.path}.json") as file:
            told = {**json.load(file), **changes}
        with open(f"{self.path}.json", "w") as file:
            json.dump(told, file)
        return told

    def again(self, graph):
        graph.save(self.path)
        return spt.Graph.load(self.path)

    def test_what_is_written(self):
        graph = town()
        graph.save(self.path)
        self.assertEqual(self.files(), ["town", "town.json"])
        with open(self.path, "rb") as file:
            data = file.read()
        self.assertEqual(data, packed.packed(3, samples.triples(graph.arcs.tolist())))
        told = {"spt": 1, "n": 3, "m": 4, "sum": data[-16:].hex(), "unit": 0.25, "names": ["Depot", "Mill", "Quay"]}
        self.assertEqual(self.beside(), told)

    def test_round_trips(self):
        for call in (spt.Graph.load, spt.Graph.read):
            graph = town()
            graph.save(self.path)
            told = call(self.path)
            self.assertEqual((told.names, told.unit, told.n, told.m), (graph.names, 0.25, 3, 4))
            self.assertEqual((told.tree("Depot"), told.path("Depot", "Quay")), (graph.tree("Depot"), ["Depot", "Mill", "Quay"]))
            self.assertEqual(pickle.loads(pickle.dumps(told)).tree("Depot"), graph.tree("Depot"))
        # a unit alone, and names alone
        told = self.again(spt.Graph(2, [(1, 2, 0.3)], unit=0.1))
        self.assertEqual((told.unit, told.names, told.tree(1, within=0.3).path(2)), (0.1, None, [1, 2]))
        names = ["", "é\n\"", "\ud800", "漢", -1, 2**80, 2.5, -0.0, True, 1e308]
        columns = {"u": names, "v": names[1:] + names[:1], "w": range(1, len(names) + 1)}
        told = self.again(spt.Graph.from_frame(columns, "u", "v", "w"))
        self.assertEqual((list(told.names), told.unit), (names, None))
        self.assertEqual(list(map(type, told.names)), list(map(type, names)))
        # both ways, with the names of the file
        town().save(self.path)
        told = spt.Graph.load(self.path, both_ways=True)
        self.assertEqual((told.m, told.path("Mill", "Depot"), told.unit), (8, ["Mill", "Depot"], 0.25))

    @unittest.skipIf(numpy is None, "NumPy isn't installed")
    def test_numbers_of_numpy(self):
        names = [numpy.int64(7), numpy.str_("Mill"), numpy.float32(0.5), numpy.bool_(False)]
        columns = {"u": names, "v": names[1:] + names[:1], "w": [1, 2, 3, 4]}
        graph = spt.Graph.from_frame(columns, "u", "v", "w")
        told = self.again(graph)
        self.assertEqual((told.names, list(map(type, told.names))), ((7, "Mill", 0.5, False), [int, str, float, bool]))
        self.assertEqual(told.path(names[0], names[2]), [7, "Mill", 0.5])
        told = self.again(spt.Graph.from_frame({"u": numpy.array([70, 80], "uint16"), "v": numpy.array([80, 90], "uint16"), "w": [1, 2]}, "u", "v", "w"))
        self.assertEqual((told.names, told.path(70, 90)), ((70, 80, 90), [70, 80, 90]))

    @unittest.skipIf(pandas is None, "pandas isn't installed")
    def test_frames(self):
        frame = pandas.DataFrame(TOWN)
        graph = spt.Graph.from_frame(frame, "from", "to", "minutes", unit=0.25)
        told = self.again(graph)
        self.assertTrue(told.tree("Depot").frame().equals(graph.tree("Depot").frame()))

    @unittest.skipIf(networkx is None, "NetworkX isn't installed")
    def test_nodes(self):
        theirs = networkx.Graph()
        theirs.add_weighted_edges_from([("a", 1, 3), (1, "c", 4)])
        told = self.again(spt.Graph.from_networkx(theirs))
        self.assertEqual((told.names, told.path("c", "a")), (("a", 1, "c"), ["c", 1, "a"]))

    def test_names_that_are_refused(self):
        class Name(str):
            pass

        kept = town()
        kept.save(self.path)
        others = [(1, 2), frozenset("a"), b"bytes", Name("name"), math.inf, 2 + 0j, range(3)]
        others += [numpy.datetime64("2020-01-01"), numpy.complex64(1)] if numpy else []
        for name in others:
            graph = spt.Graph.from_frame({"u": ["a", "b"], "v": ["b", name], "w": [1, 2]}, "u", "v", "w")
            with self.assertRaisesRegex(TypeError, r"^vertex 3 has the name .* names to be saved are strings, numbers"):
                graph.save(self.path)
            self.assertEqual(self.files(), ["town", "town.json"])
            self.assertEqual(spt.Graph.load(self.path).names, kept.names)

    def test_the_file_beside_of_another_graph(self):
        graph, other = town(), town(minutes=[2.5, 4, 7.25, 2])
        for change in ({"sum": "0" * 32}, {"n": 4}, {"m": 5}):
            graph.save(self.path)
            self.beside(**change)
            for call in (spt.Graph.load, spt.Graph.read):
                with self.assertRaisesRegex(ValueError, "town.json has the names or the unit of another graph than .*town: save"):
                    call(self.path)
        graph.save(self.path)
        with open(self.path, "wb") as file:
            file.write(packed.packed(3, samples.triples(other.arcs.tolist())))
        with self.assertRaisesRegex(ValueError, "of another graph"):
            spt.Graph.load(self.path)
        # an open file has none beside
        with open(self.path, "rb") as file:
            self.assertEqual(spt.Graph.load(file).names, None)

    def test_a_stale_file_is_taken_away(self):
        town().save(self.path)
        graph = spt.Graph(4, EXAMPLE)
        graph.save(self.path)
        self.assertEqual((self.files(), spt.Graph.load(self.path).names), (["town"], None))

    def test_a_file_beside_that_is_no_such(self):
        for text, told in (
            ('{"spt": 2, "names": []}', "has the form 2, and this version of spt reads form 1"), ("[]", "isn't what Graph.save wrote"),
            ("{", "isn't what"), ("", "isn't what"), ('{"n": 3}', "isn't what"),
        ):
            town().save(self.path)
            with open(f"{self.path}.json", "w") as file:
                file.write(text)
            with self.assertRaisesRegex(ValueError, told):
                spt.Graph.load(self.path)
            os.remove(f"{self.path}.json")
        for change in (
            {"unit": 0}, {"unit": "1"}, {"unit": -1.0}, {"unit": math.inf}, {"unit": True}, {"names": ["a", "b"]}, {"names": ["a", "b", "b"]},
            {"names": ["a", "b", ["c"]]}, {"names": ["a", "b", "c", "c"]}, {"names": "abc"}, {"names": [1, True, 2]}, {"names": []}, {"names": {"a": 1, "b": 2, "c": 3}},
        ):
            town().save(self.path)
            self.beside(**change)
            with self.assertRaisesRegex(ValueError, "isn't what Graph.save wrote"):
                spt.Graph.load(self.path)

    def test_a_file_of_the_users(self):
        # the file beside is replaced, or taken away, only where a graph was saved there
        with open(f"{self.path}.json", "w") as file:
            file.write('{"type": "FeatureCollection"}')
        for graph in (town(), spt.Graph(4, EXAMPLE)):
            with self.assertRaisesRegex(FileExistsError, "town.json isn't what Graph.save wrote"):
                graph.save(self.path)
            with open(f"{self.path}.json") as file:
                self.assertEqual((self.files(), file.read()), (["town.json"], '{"type": "FeatureCollection"}'))

    def test_an_open_file_has_no_names(self):
        for graph in (town(), spt.Graph(2, [(1, 2, 3)], unit=0.5), town()._numbered(0.5)):
            file = io.BytesIO()
            with self.assertRaisesRegex(ValueError, "^an open file takes no names and no unit beside the packed graph: give the path"):
                graph.save(file)
            self.assertEqual(file.getvalue(), b"")
        with self.assertRaises(IsADirectoryError):
            spt.Graph(4, EXAMPLE).save(self.folder)
        self.assertEqual(self.files(), [])

    def test_a_pipe(self):
        # (as devices are: to replace one of these would be worse)
        os.mkfifo(self.path)
        found = []
        reader = threading.Thread(target=lambda: found.append(spt.Graph.load(self.path)), daemon=True)
        with self.assertRaisesRegex(ValueError, "town takes no names and no unit beside the packed graph"):
            town().save(self.path)
        self.assertTrue(stat.S_ISFIFO(os.stat(self.path).st_mode))
        reader.start()
        spt.Graph(4, EXAMPLE).save(self.path)
        reader.join(30)
        self.assertEqual((found[0].path(1, 4), self.files()), ([1, 2, 4], ["town"]))
        self.assertTrue(stat.S_ISFIFO(os.stat(self.path).st_mode))

    def test_nothing_is_lost(self):
        # wherever it fails, the graph that was saved before is there, whole, with its names
        graph, other = town(), town(minutes=[2.5, 4, 7.25, 2], **{"from": ["Depot", "Hill", "Depot", "Quay"]})
        calls = {"os.fsync": os.fsync, "os.replace": os.replace, "shutil.copymode": None, "builtins.open": builtins.open}
        calls["spt._files._write"] = spt._files._write
        for name, call in calls.items():
            for turn in range(2):
                for it in (other, spt.Graph(4, EXAMPLE)):
                    graph.save(self.path)
                    failing = mock.Mock(side_effect=[*[mock.DEFAULT] * turn, OSError(28, "No space left on device"), *[mock.DEFAULT] * 9], wraps=call)
                    with mock.patch(name, failing), contextlib.suppress(OSError):
                        it.save(self.path)
                        self.assertLessEqual(failing.call_count, turn)
                    if name == "os.replace" and turn:
                        # between the two: what is left belongs together, or is refused
                        if it is other:
                            with self.assertRaisesRegex(ValueError, "of another graph"):
                                spt.Graph.load(self.path)
                        self.assertLessEqual({"town"}, set(self.files()))
                    elif failing.call_count > turn:
                        told = spt.Graph.load(self.path)
                        self.assertEqual((told.names, told.tree("Depot")), (graph.names, graph.tree("Depot")), (name, turn))
                    self.assertEqual(set(self.files()) - {"town", "town.json"}, set(), (name, turn))

    def test_links_and_modes(self):
        place = os.path.join(self.folder, "place")
        spt.Graph(1).save(place)
        self.assertEqual(stat.S_IMODE(os.stat(place).st_mode), 0o666 & ~self.mask())
        os.chmod(place, 0o640)
        os.symlink(place, self.path)
        spt.Graph(4, EXAMPLE).save(self.path)
        self.assertTrue(os.path.islink(self.path))
        self.assertEqual((spt.Graph.load(place).n, stat.S_IMODE(os.stat(place).st_mode)), (4, 0o640))
        self.assertEqual(self.files(), ["place", "town"])

    def mask(self):
        mask = os.umask(0)
        os.umask(mask)
        return mask

    def test_the_order_of_writing(self):
        # all is on the disk before anything is replaced, and the graph is replaced before its names
        for graph, wanted in (
            (town(), ["fsync", "fsync", "replace town", "replace town.json"]), (spt.Graph(4, EXAMPLE), ["fsync", "replace town", "remove town.json"]),
        ):
            told = []

            def noted(name, call):
                def noting(*given):
                    place = "" if name == "fsync" else os.path.basename(given[-1])
                    if not place.startswith("."):
                        told.append(f"{name} {place}".strip())
                    return call(*given)

                return mock.patch(f"os.{name}", noting)

            with noted("fsync", os.fsync), noted("replace", os.replace), noted("remove", os.remove):
                graph.save(self.path)
            self.assertEqual(told, wanted)

    def test_a_file_system_without_sync(self):
        with mock.patch("os.fsync", side_effect=OSError(22, "Invalid argument")):
            town().save(self.path)
        self.assertEqual(spt.Graph.load(self.path).names, ("Depot", "Mill", "Quay"))

    def test_compressed(self):
        path = f"{self.path}.gz"
        town().save(path)
        with open(path, "rb") as file:
            first = file.read()
        # (with no time in it)
        self.assertEqual((self.files(), first[:2], first[4:8]), (["town.gz", "town.gz.json"], b"\x1f\x8b", bytes(4)))
        for call in (spt.Graph.load, spt.Graph.read):
            self.assertEqual(call(path).tree("Depot"), town().tree("Depot"))
        town().save(path)
        with open(path, "rb") as file:
            self.assertEqual(file.read(), first)


class Whole(unittest.TestCase):
    def test_many_arcs(self):
        n, m = 20_000, 100_000
        numbers = samples.by_lot(n, m, 5, samples.LONGEST)
        arcs = sorted(samples.triples(numbers))
        graph = spt.Graph(n, numbers)
        data = saved(graph)
        self.assertEqual(data, packed.packed(n, arcs))
        for way in WAYS:
            with mock.patch.dict(sys.modules, way):
                self.assertEqual(load(data).arcs, array.array("I", (number for arc in arcs for number in arc)))


if __name__ == "__main__":
    unittest.main()
