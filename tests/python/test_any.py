"""Any small graph, form, unit and change, drawn by Hypothesis where it is installed: answers by their definitions."""

import array
import atexit
import io
import math
import os
import shutil
import tempfile
import unittest

import samples
import spt

# what Hypothesis keeps is written nowhere beside the tests
os.environ["HYPOTHESIS_STORAGE_DIRECTORY"] = tempfile.mkdtemp()
atexit.register(shutil.rmtree, os.environ["HYPOTHESIS_STORAGE_DIRECTORY"], ignore_errors=True)
try:
    from hypothesis import HealthCheck, given, settings
    from hypothesis import strategies as draw
except ImportError:
    raise unittest.SkipTest("Hypothesis isn't installed") from None
try:
    import numpy
    import scipy.sparse
except ImportError:
    numpy = None

FAR = spt.UNREACHED
LONGEST = samples.LONGEST
# (each run draws the same)
settings.register_profile("spt", deadline=None, database=None, derandomize=True, suppress_health_check=list(HealthCheck))
settings.load_profile("spt")


@draw.composite
def graphs(pick, lengths=draw.one_of(draw.integers(1, 4), draw.integers(1, LONGEST))):
    """A number of vertices, and arcs."""
    n = pick(draw.integers(1, 8))
    vertex = draw.integers(1, n)
    return n, pick(draw.lists(draw.tuples(vertex, vertex, lengths), max_size=20))


def part(tree, limit):
    """The distances and predecessors of a tree up to a limit."""
    pairs = [(d, p) if d <= limit else (FAR, 0) for d, p in zip(tree.distances, tree.predecessors)]
    return [list(column) for column in zip(*pairs)]


def lists(told):
    return [list(told.distances), list(told.predecessors)]


class Answers(unittest.TestCase):
    @given(graphs(), draw.data())
    def test_by_definition(self, graph, data):
        n, arcs = graph
        graph, vertex = spt.Graph(n, arcs), draw.integers(1, n)
        sources, targets = (data.draw(draw.lists(vertex, max_size=4)) for _ in range(2))
        limit, workers = data.draw(draw.integers(0, 20) | draw.integers(0, spt.reach(n))), data.draw(draw.integers(1, 4))
        trees = list(graph.trees(sources, workers=workers, delta=data.draw(draw.none() | draw.integers(1, spt.reach(n)))))
        for source, tree in zip(sources, trees):
            distances = samples.distances_from(arcs, n, source)
            self.assertEqual(lists(tree), [distances, samples.smallest_predecessors(arcs, source, distances)])
            self.assertEqual([graph.pair(source, it) for it in range(1, n + 1)], [tree.pair(it) for it in range(1, n + 1)])
            self.assertEqual([graph.path(source, it) for it in range(1, n + 1)], [tree.path(it) for it in range(1, n + 1)])
            self.assertIsNone(graph.check(tree))
        self.assertEqual([lists(it) for it in graph.trees(sources, within=limit, workers=workers)], [part(it, limit) for it in trees])
        told = graph.matrix(sources, targets, workers=workers).distances
        self.assertEqual(told.tolist(), [[tree.distances[it - 1] for it in targets] for tree in trees])
        nearest = [min((tree.distances[it] for tree in trees), default=FAR) for it in range(n)]
        self.assertEqual(list(graph.nearest(sources).distances), nearest)
        self.assertEqual(list(graph.nearest(sources, within=limit).distances), [it if it <= limit else FAR for it in nearest])

    @given(graphs(), draw.data())
    def test_ways(self, graph, data):
        n, arcs = graph
        graph, back, file = spt.Graph(n, arcs), [(head, tail, length) for tail, head, length in arcs], io.BytesIO()
        graph.save(file)
        kept, source = spt.Graph.load(io.BytesIO(file.getvalue())), data.draw(draw.integers(1, n))
        both = spt.Graph.load(io.BytesIO(file.getvalue()), both_ways=True)
        for told, wanted in ((kept, arcs), (kept.turned(), back), (both, arcs + back)):
            self.assertEqual(samples.triples(told.arcs.tolist()), sorted(wanted))
            distances = samples.distances_from(wanted, n, source)
            self.assertEqual(lists(told.tree(source)), [distances, samples.smallest_predecessors(wanted, source, distances)])
        tree = kept.tree(source, towards=True)
        self.assertEqual((lists(tree), kept.check(tree)), (lists(kept.turned().tree(source)), None))
        lengths = {}
        for tail, head, length in arcs:
            lengths[tail, head] = min(length, lengths.get((tail, head), length))
        for target in range(1, n + 1):
            path, pair = tree.path(target), kept.pair(source, target, towards=True)
            self.assertEqual((kept.path(source, target, towards=True), tree.pair(target)), (path, pair))
            if path is not None:
                self.assertEqual((path[0], path[-1], sum(map(lengths.get, zip(path, path[1:])))), (target, source, pair.distance))

    @given(graphs(), draw.data())
    def test_one_number_changed(self, graph, data):
        n, arcs = graph
        graph, place = spt.Graph(n, arcs), data.draw(draw.integers(0, n - 1))
        tree = graph.tree(data.draw(draw.integers(1, n)))
        columns = [array.array("Q", tree.distances), array.array("I", tree.predecessors)]
        column, most = data.draw(draw.sampled_from([(columns[0], 2**64 - 1), (columns[1], LONGEST)]))
        column[place] = data.draw(draw.integers(0, most).filter(lambda it: it != column[place]))
        self.assertEqual(graph.check(spt.Tree(tree.source, *columns)), place + 1)

    @given(graphs(), draw.data())
    def test_names_are_the_numbers(self, graph, data):
        n, arcs = graph
        names = data.draw(draw.lists(draw.integers() | draw.text(max_size=3), min_size=n, max_size=n, unique=True))
        rows = [*((names[it], names[it], 1) for it in range(n)), *((names[tail - 1], names[head - 1], length) for tail, head, length in arcs)]
        tails, heads, lengths = zip(*rows)
        named, plain = spt.Graph.from_frame({"u": tails, "v": heads, 3: lengths}, "u", "v", 3), spt.Graph(n, arcs)
        self.assertEqual((named.names, named.n, named.m), (tuple(names), n, n + len(arcs)))
        source, target = (data.draw(draw.integers(1, n)) for _ in range(2))
        path = plain.path(source, target)
        self.assertEqual(named.path(names[source - 1], names[target - 1]), path and [names[it - 1] for it in path])
        self.assertEqual(named.tree(names[source - 1]).source, names[source - 1])
        self.assertEqual(lists(named.tree(names[source - 1])), lists(plain.tree(source)))


class Given(unittest.TestCase):
    @given(graphs(), draw.sampled_from("bBhHiIlLqQ"), draw.integers(1, 3), draw.booleans())
    def test_forms(self, graph, format, gap, are_rows):
        n, arcs = graph
        try:
            flat = array.array(format, sum(arcs, ()))
        except OverflowError:
            return
        spread = array.array(format, [it for number in flat for it in (number, *[7] * (gap - 1))])
        given = memoryview(spread)[::gap]
        if are_rows and arcs:
            given = memoryview(given.tobytes()).cast(format, (len(arcs), 3))
        self.assertEqual(samples.triples(spt.Graph(n, given).arcs.tolist()), arcs)

    @given(graphs(), draw.data())
    def test_the_first_row_that_is_none(self, graph, data):
        n, arcs = graph
        wrong = data.draw(draw.sampled_from([(0, 1, 1), (1, n + 1, 1), (-1, 1, 1), (1, 1, 0), (1, 1, -5), (1, 1, 2**32), (2**40, 1, 1)]))
        place = data.draw(draw.integers(0, len(arcs)))
        rows = [*arcs[:place], wrong, *arcs[place:], (0, 0, 0)]
        for given in (rows, array.array("q", sum(rows, ()))):
            with self.assertRaises(spt.BadArc) as told:
                spt.Graph(n, given)
            self.assertEqual((told.exception.index, tuple(told.exception.arc)), (place, wrong))
            self.assertTrue(str(told.exception).startswith(f"arc {place} (row {place + 1}): "))

    @given(draw.floats(1e-9, 1e9), draw.floats(1e-9, 1e9))
    def test_units(self, length, unit):
        whole = round(length / unit)
        forms = [[(1, 2, length), (2, 3, unit)], array.array("d", [1, 2, length, 2, 3, unit])]
        for given in forms:
            if not 1 <= whole <= LONGEST:
                with self.assertRaisesRegex(spt.BadArc, "smaller unit" if whole < 1 else "larger unit"):
                    spt.Graph(3, given, unit=unit)
                continue
            graph = spt.Graph(3, given, unit=unit)
            self.assertEqual(graph.arcs.tolist()[2::3], [whole, 1])
            # a distance lies within what is told of it, and within nothing less
            told = graph._terms.told(whole)
            self.assertLessEqual(abs(told - length), unit * (0.5 + 1e-6))
            for within, reached in ((told, 2), (math.nextafter(told, 0), 1), (graph._terms.told(whole + 1), 3)):
                self.assertEqual(sum(it != FAR for it in graph.tree(1, within=within).distances), reached)


@unittest.skipIf(numpy is None, "SciPy isn't installed")
class Dijkstra(unittest.TestCase):
    @given(
        draw.integers(0, 10**6),
        draw.sampled_from([None, 3, -1, [0, 7, 7], [[1, 2], [3, 4]], []]),
        draw.sampled_from([math.inf, 12.5, 7, 0, 0.5, 99, 1e300, 10**30, "float32", "int64"]),
        draw.tuples(*[draw.booleans()] * 4),
        draw.sampled_from([numpy.asarray, scipy.sparse.csr_matrix, scipy.sparse.csc_matrix, scipy.sparse.coo_matrix] if numpy else [None]),
    )
    def test_every_choice(self, seed, indices, limit, flags, form):
        # as SciPy answers, but for which of several predecessors, and sources that are as near
        by_lot, (directed, before, unweighted, nearest) = numpy.random.default_rng(seed), flags
        if nearest and indices is None:
            # (SciPy has no answer for min_only without indices)
            indices = [5]
        matrix = form(numpy.where(by_lot.random((12, 12)) < 0.2, by_lot.integers(1, 30, (12, 12)), 0))
        limit = getattr(numpy, limit)(20.25) if isinstance(limit, str) else limit
        words = (matrix, directed, indices, before, unweighted)
        wanted = scipy.sparse.csgraph.dijkstra(*words, float(limit), nearest)
        found = spt.dijkstra(*words, limit, nearest, workers=2)
        self.assertEqual(isinstance(wanted, tuple) and len(wanted), isinstance(found, tuple) and len(found))
        for theirs, ours in zip(*((it if isinstance(it, tuple) else (it,)) for it in (wanted, found))):
            self.assertEqual((ours.shape, ours.dtype), (theirs.shape, theirs.dtype))
            same = ours == theirs if ours.dtype == numpy.float64 else (ours < 0) == (theirs < 0)
            self.assertTrue(same.all())


if __name__ == "__main__":
    unittest.main()
