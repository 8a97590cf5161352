"""A randomly generated town as a street graph in OSMnx's form, for docs/PYTHON.md. It needs NetworkX and NumPy, and no network."""

import networkx
import numpy

# The town's centre in degrees, and how many metres a degree has there.
CENTRE, METRES = numpy.array([10.89, 49.89]), numpy.array([71_800, 111_200])
# Speed limits in km/h, by OpenStreetMap's tag `highway`.
SPEEDS = {"residential": 30, "primary": 50, "trunk": 80}
# The town of the recipes has a grid of 65 by 65 junctions, with main roads in these rows and columns, and a ring road of 120.
SIDE, MAIN_ROADS, RING = 65, (8, 21, 32, 42, 56), 120


def course(east, scale=1):
    """How many metres north of the centre the river flows, at these metres east of it."""
    return scale * (420 * numpy.sin(east / scale / 900) + 0.2 * east / scale - 350)


def river():
    """Returns the river's course through the town as points (x, y), for maps."""
    east = numpy.linspace(-2800, 2800, 200)
    return numpy.stack([east, course(east)], 1) / METRES + CENTRE


def places(side, scale, draw):
    """The junctions' places in metres from the centre: a bent grid, and the ring road behind it."""
    at = numpy.arange(side * side)
    grid = (numpy.stack([at % side, at // side], 1) - side // 2) * 100.0
    bend = 130 * numpy.sin(grid[:, ::-1] / 700 + [0.4, 1.9]) + 60 * numpy.sin(grid / 310 + [2.0, 0.7])
    angle = numpy.linspace(0, 2 * numpy.pi, round(RING * scale), endpoint=False)
    radius = scale * (1750 + 190 * numpy.sin(2 * angle + 0.6) + 90 * numpy.cos(3 * angle))
    ring = numpy.stack([radius * numpy.cos(angle), radius * numpy.sin(angle)], 1)
    return numpy.concatenate([grid + bend + draw.normal(0, 11, grid.shape), ring])


def is_in_town(place, scale):
    """Whether each place lies within the town's outline."""
    angle = numpy.arctan2(place[:, 1], place[:, 0])
    return numpy.hypot(*place.T) < scale * (2850 + 260 * numpy.sin(3 * angle + 1) + 130 * numpy.sin(7 * angle))


def streets(side, scale, place, draw):
    """Yields each street: its junctions, its tag `highway`, and whether it is two-way."""
    is_there, is_north = is_in_town(place, scale), place[:, 1] > course(place[:, 0], scale)
    main_roads = {round(line * scale) for line in MAIN_ROADS}
    for at in range(side * side):
        column, row = at % side, at // side
        for beside, is_inside, line in ((at + 1, column < side - 1, row), (at + side, row < side - 1, column)):
            if not (is_inside and is_there[at] and is_there[beside]):
                continue
            if line in main_roads:
                yield at, beside, "primary", True
            elif is_north[at] == is_north[beside] and draw.random() > 0.13:
                yield *((at, beside) if draw.random() < 0.5 else (beside, at)), "residential", draw.random() > 0.2
    for at in range(side * side, len(place)):
        yield at, at + 1 if at + 1 < len(place) else side * side, "trunk", True
        if at % 8 == 0:
            nearest = numpy.argsort(numpy.hypot(*(place[: side * side] - place[at]).T))[:2]
            yield from ((at, int(junction), "primary", True) for junction in nearest)


def town(side=SIDE, seed=1):
    """Returns a town as OSMnx would: junctions with `x` and `y` in degrees, and streets.

    A street has its `length` in metres, its tag `highway`, and its `travel_time` in seconds. A river flows through the town, with
    bridges on main roads and on the ring road alone. The ring road surrounds the centre. One residential street in five is one-way.
    `side` is the town's width in blocks.
    """
    draw, scale = numpy.random.default_rng(seed), side / SIDE
    place = places(side, scale, draw)
    graph = networkx.MultiDiGraph(crs="EPSG:4326")
    for tail, head, highway, is_two_way in streets(side, scale, place, draw):
        metres = round(float(numpy.hypot(*(place[head] - place[tail]))) * 1.02, 3)
        seconds = metres / (SPEEDS[highway] / 3.6)
        for start, end in [(tail, head), (head, tail)][: 1 + is_two_way]:
            graph.add_edge(500_000_000 + start, 500_000_000 + end, length=metres, highway=highway, travel_time=seconds)
    for node in graph:
        graph.nodes[node].update(zip("xy", (place[node - 500_000_000] / METRES + CENTRE).tolist()))
    return graph
