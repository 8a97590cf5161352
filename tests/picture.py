#!/usr/bin/env python3
"""Pictures of runs, as `spt replay FILE --svg` writes them: beside the reports of the examples, and beside a plain machine on
randomly generated programmes.

Each must be well-formed and have a bar for each call of the report, with its text, once; a mark for each step, of the plain machine's
kind; and for each lost exchange a line to the store that beat it and one to the load whose word it expected. A run of 60 steps has
a picture, one of 61 none. docs/lost_exchange.svg must be what the program writes.

A picture of 60 steps must be narrow: at most 2,500 pixels wide where numbers have at most 10 digits, and little more with the longest
that there are. Its columns are as wide as what stands in them needs, no two texts overlap, each stretch of a word tells what it holds,
and names of lanes come again within 700 pixels. It has a role, a title that names the run and a description that tells its calls, for
readers of screens; and colours for light pages and for dark ones, told well enough apart in both: 4.5 to 1 for texts, 3 to 1 for marks.

Usage: python3 tests/picture.py [--program PROGRAM]

The last line is 'N passed, M failed'.
"""

import argparse
import glob
import os
import random
import re
import sys
import tempfile
import xml.etree.ElementTree as ElementTree

sys.dont_write_bytecode = True
from cases.shared import GREATEST  # noqa: E402
from harness import HOME, Count, run as started  # noqa: E402

SVG = "{http://www.w3.org/2000/svg}"
TOO_MANY = "spt: replay: more than 60 steps\nspt: a picture shows at most 60 steps; without --svg the report has them all\n"
WIDEST = 2500  # with numbers of at most 10 digits
FARTHEST_NAME = 700  # from one name of a lane to the next
# how wide a picture of 60 steps with the longest numbers of a layout is at most
WIDEST_OF = {"20": 3250, "24": 3050, "28": 2650, "32": WIDEST}

program = f"{HOME}/spt"
counted = Count()


def count(name, holds, told=""):
    counted.of(f"{name} {told}", holds)


def replay(path, *words):
    return started(program, "replay", path, *words)


# ## The plain machine


def read_programme(text):
    """Words at the start, the items of each actor, and the actors of the steps."""
    words, items, steps = {}, {}, []
    for line in text.splitlines():
        word, *rest = line.split() or ["c"]
        if word == "i":
            words[int(rest[0])] = (int(rest[1]), int(rest[2]))
        elif word == "s":
            steps.append(int(rest[0]))
        elif word in "ora":
            items.setdefault(int(rest[0]), []).append((word, *map(int, rest[1:])))
    return words, items, steps


def run(words, items, steps):
    """Of each step its kind, and where it lost an exchange the steps of the load and of the store."""
    at, shown, stores = {}, [], {}
    for number, actor in enumerate(steps, 1):
        mine = at.setdefault(actor, {"item": 0, "offer": None, "held": None, "load": None})
        row = items.get(actor, [])
        if mine["offer"] is None:
            if mine["item"] >= len(row):
                shown.append(("rest",))
                continue
            kind, *numbers = row[mine["item"]]
            if kind != "o":
                found = words.get(numbers[0])
                shown.append(("load",))
                if kind == "a" and found is not None and found[0] + numbers[2] <= 2**36 - 2:
                    mine.update(offer=(numbers[1], (found[0] + numbers[2], numbers[0])), load=None)
                else:
                    mine["item"] += 1
                continue
            mine.update(offer=(numbers[0], (numbers[1], numbers[2])), load=None)
        vertex, pair = mine["offer"]
        found = words.get(vertex)
        won = mine["load"] is not None and mine["held"] == found
        if won:
            words[vertex] = pair
            stores[vertex] = number
            shown.append(("won",))
        else:
            shown.append(("load",) if mine["load"] is None else ("lost", mine["load"], stores[vertex]))
        if won or (found is not None and found <= pair):
            mine.update(item=mine["item"] + 1, offer=None, load=None)
        else:
            mine.update(held=found, load=number)
    return shown


# ## Pictures


def of_class(tree, tag, *names):
    return [it for it in tree.iter(SVG + tag) if it.get("class", "").split()[: len(names)] == list(names)]


def ties_of(tree, steps):
    """Of each lost exchange its step, that of the load and that of the store."""
    loads = {}
    for path in of_class(tree, "path", "expected"):
        words = path.get("d").split()
        loads[steps[int(words[0][1:])]] = steps[int(words[-2])]
    stores = {steps[int(it.get("x2"))]: steps[int(it.get("x1"))] for it in of_class(tree, "line", "beaten") if it.find(SVG + "title") is not None}
    return sorted((lost, loads[lost], stores.get(lost)) for lost in loads), len(stores)


def check_picture(name, programme, path, widest=WIDEST, options=()):
    """The picture of this programme beside its report and the plain machine, and its form."""
    status, report, _ = replay(path, *options)
    svg_status, text, err = replay(path, "--svg", *options)
    count(f"{name}: status", (status, svg_status, err) == (0, 0, ""), err)
    tree = ElementTree.fromstring(text)
    calls = [line.rsplit(" ", 2) for line in report.splitlines() if line[0] in "or"]
    numbers = {int(it.get("x")): int(it.text) for it in of_class(tree, "text", "number")}
    wanted = run(*read_programme(programme))

    count(f"{name}: a number for each step", list(numbers.values()) == list(range(1, len(wanted) + 1)))
    count(f"{name}: a bar for each call", len(of_class(tree, "rect", "bar")) == len(calls))
    count(f"{name}: texts", ["".join(it.itertext()) for it in of_class(tree, "text", "text")] == [call[0] for call in calls])
    titles = [it.find(SVG + "title").text for it in of_class(tree, "rect", "bar")]
    count(f"{name}: titles", titles == [f"steps {first} to {last}: {what}" for what, first, last in calls])
    marks = of_class(tree, "g", "mark")
    count(f"{name}: marks", [it.get("class").split()[1] for it in marks] == [step[0] for step in wanted])
    count(f"{name}: acts", sum(len(of_class(it, "circle", "ring")) for it in marks) == len(calls))
    ties, stores = ties_of(tree, numbers)
    lost = [(number, *step[1:]) for number, step in enumerate(wanted, 1) if step[0] == "lost"]
    count(f"{name}: ties", ties == lost and stores == len(lost), f"{ties} {lost}")
    totals = next(line for line in report.splitlines() if line.startswith("t "))
    count(f"{name}: totals", totals == f"t {len(of_class(tree, 'g', 'mark', 'won'))} {len(lost)}")
    check_form(name, tree, text, widest)
    check_names_for_readers(name, tree, programme, calls, lost)
    return tree


# ## The form of a picture

# Of each class of texts the size of its font, and how wide a character of a common font is at most, as a part of that size.
FONTS = {"text": (11, 0.602), "value": (11, 0.602), "again": (11, 0.7), "name": (12, 0.7), "number": (12, 0.65), "note": (12, 0.65)}


def lines_of(it):
    """The lines of a text, and where each begins or ends."""
    x, y = float(it.get("x")), float(it.get("y"))
    lines = [(x, y, (it.text or "").strip())]
    for part in it.iter(SVG + "tspan"):
        y += float(part.get("dy"))
        lines.append((float(part.get("x")), y, part.text.strip()))
    return lines


def boxes_of(tree):
    """Of each line of text outside the legend: left, right, top, bottom and the text."""
    legend = {id(it) for group in tree.iter(SVG + "g") if group.get("transform") for it in group.iter()}
    boxes = []
    for it in tree.iter(SVG + "text"):
        names = it.get("class").split()
        size, part = FONTS[names[-1]]
        anchored = "end" if names == ["name"] or it.get("text-anchor") == "end" else "middle" if names == ["number"] else "start"
        for x, y, text in lines_of(it) if id(it) not in legend else []:
            width = len(text) * size * part
            left = x - {"start": 0, "middle": width / 2, "end": width}[anchored]
            boxes.append((left, left + width, y - 0.8 * size, y + 0.2 * size, text))
    return boxes


def overlap(one, other):
    return one[0] < other[1] and other[0] < one[1] and one[2] < other[3] and other[2] < one[3]


def far_names(tree, end):
    """Lanes whose names stand too far from one another, or from the end of the picture."""
    places = {}
    for it in of_class(tree, "text", "name"):
        places.setdefault(it.text, []).append(float(it.get("x")))
    return [(name, at) for name, at in places.items() if max(b - a for a, b in zip(sorted(at), sorted(at)[1:] + [end])) > FARTHEST_NAME]


def check_stretches(name, tree):
    """Each stretch of a word tells what it holds, within its bounds."""
    held = [it for it in tree.iter(SVG + "rect") if it.get("class") in ("word", "unreached")]
    values = of_class(tree, "text", "value")
    titles = [it.find(SVG + "title").text for it in held]
    count(f"{name}: what words hold", titles == ["".join(it.itertext()) for it in values], f"{len(held)} stretches, {len(values)} values")
    for it, value in zip(held, values):
        left, top = float(it.get("x")), float(it.get("y"))
        right, bottom = left + float(it.get("width")), top + float(it.get("height"))
        size, part = FONTS["value"]
        fits = [left < x and x + len(text) * size * part < right and top < y - 0.8 * size and y + 0.2 * size < bottom for x, y, text in lines_of(value)]
        count(f"{name}: within its stretch", all(fits), "".join(value.itertext()))


def check_form(name, tree, text, widest):
    """What every picture keeps, whatever it shows."""
    width, height = float(tree.get("width")), float(tree.get("height"))
    end = max([float(it.get("x2")) for it in of_class(tree, "line", "lane")])
    count(f"{name}: width", width <= widest and tree.get("viewBox") == f"0 0 {width:.0f} {height:.0f}", f"{width:.0f} px")
    boxes = boxes_of(tree)
    over = [(a[4], b[4]) for place, a in enumerate(boxes) for b in boxes[:place] if overlap(a, b)]
    count(f"{name}: no two texts overlap", not over, over[:5])
    out = [box[4] for box in boxes if box[0] < 0 or box[1] > width or box[2] < 0 or box[3] > height]
    count(f"{name}: texts within the picture", not out, out[:5])
    count(f"{name}: names of lanes come again", not far_names(tree, end), far_names(tree, end)[:3])
    check_stretches(name, tree)
    strange = [it.tag for it in tree.iter() if it.tag in (SVG + "script", SVG + "image", SVG + "use", SVG + "a", SVG + "foreignObject")]
    strange += [key for it in tree.iter() for key in it.keys() if key.startswith("on") or key.endswith("href")]
    strange += re.findall(r"url\(|@import|<!|<\?|&(?!lt;|gt;|amp;|quot;)", text)
    count(f"{name}: stands alone", not strange and text.count("http") == 1, strange)


def check_names_for_readers(name, tree, programme, calls, lost):
    """A role, a title that names the run, and a description that tells its calls and its lost exchanges."""
    title, told = tree[0], tree[1]
    count(f"{name}: role", tree.get("role") == "img" and tree.get("aria-labelledby") is not None)
    count(f"{name}: title and desc first", (title.tag, told.tag) == (SVG + "title", SVG + "desc"), (title.tag, told.tag))
    pointed = (tree.get("aria-labelledby"), tree.get("aria-describedby")) == (title.get("id"), told.get("id"))
    count(f"{name}: they are pointed to", pointed and title.get("id") != told.get("id"))
    problem = next(line.split() for line in programme.splitlines() if line.startswith("p "))
    steps, actors = len(re.findall("^s ", programme, re.M)), int(problem[3])
    words = len({it.text for it in of_class(tree, "text", "name") if it.text.startswith("word")})
    parts = [f"{n} {what}" + ("s" if n != 1 else "") for n, what in ((steps, "step"), (actors, "actor"), (words, "word"))]
    count(f"{name}: the title names the run", title.text == f"A run of {parts[0]} by {parts[1]} on {parts[2]}", title.text)
    wanted = [f"Steps {first} to {last}: {what}." for what, first, last in calls]
    wanted += [f"The exchange at step {number} was lost to the store at step {store}." for number, _, store in lost]
    told_at = [(told.text or "").find(" " + it) for it in wanted]
    count(f"{name}: the description tells all", told_at == sorted(told_at) and -1 not in told_at, (told.text or "")[:60].strip())


# ## Colours


def rules_of(style):
    """The rules of a sheet: selectors and what they set."""
    found = re.findall(r"([^{}]+)\{([^{}]*)\}", style)
    return [([it.strip() for it in names.split(",")], dict(re.findall(r"([a-z-]+): *([^;}]+?) *(?:;|$)", sets))) for names, sets in found]


def colour(rules, element, name, sets):
    """What the rules set for an element of a class: a class goes before an element, a later rule before an earlier one."""
    by = {}
    for names, what in rules:
        for it in names:
            if it in (element, f".{name}") and sets in what:
                by[it] = what[sets]
    return by.get(f".{name}", by.get(element))


def brightness(shade):
    digits = shade.lstrip("#")
    digits = "".join(it * 2 for it in digits) if len(digits) == 3 else digits
    parts = [int(digits[at : at + 2], 16) / 255 for at in (0, 2, 4)]
    red, green, blue = (it / 12.92 if it <= 0.03928 else ((it + 0.055) / 1.055) ** 2.4 for it in parts)
    return 0.2126 * red + 0.7152 * green + 0.0722 * blue


def contrast(one, other):
    low, high = sorted((brightness(one), brightness(other)))
    return (high + 0.05) / (low + 0.05)


def check_shades(name, rules, is_dark):
    """The contrasts of texts and marks with what they stand on."""
    ground = colour(rules, "rect", "ground", "fill")
    count(f"{name}: ground", ground is not None and (brightness(ground) < 0.05 if is_dark else brightness(ground) > 0.9), ground)
    if ground is None:
        return
    cells = [colour(rules, "rect", it, "fill") for it in ("word", "unreached")]
    bars = [colour(rules, "rect", it, "fill") for it in ("shorter", "smaller", "kept", "read")]
    for it in ("text", "number", "note", "name", "again", "value"):
        shade = colour(rules, "text", it, "fill")
        worst = min(contrast(shade, under) for under in (cells if it == "value" else [ground]))
        count(f"{name}: text {it}", worst >= 4.5, f"{worst:.2f}")
    for it, sets in (("dot", "fill"), ("cross", "stroke"), ("ring", "stroke"), ("dash", "stroke"), ("stores", "stroke"), ("beaten", "stroke"), ("expected", "stroke")):
        shade = colour(rules, "line", it, sets)
        under = [ground] if it in ("dash", "stores", "expected") else [ground, *bars]
        worst = min(contrast(shade, one) for one in under)
        count(f"{name}: mark {it}", worst >= 3, f"{worst:.2f}")
    for it in ("text", "again"):
        count(f"{name}: the rim of {it}", colour(rules, "text", it, "stroke") == ground)


def check_colours(tree):
    """Both sets of colours, of which the dark one stands in a block of its own."""
    style = tree.find(SVG + "style").text
    block = re.search(r"@media \(prefers-color-scheme: dark\) \{((?:[^{}]*\{[^{}]*\})*)\s*\}", style)
    count("a block for dark pages", block is not None)
    light = rules_of(style.replace(block.group(0), "") if block else style)
    dark = rules_of(block.group(1) if block else "")
    check_shades("light", light, False)
    check_shades("dark", light + dark, True)


# ## Programmes


def drawn_by_lot(seed, steps, actors=4, least=1, most=30, preds=5):
    """A programme of four words and so many actors, with so many steps and with offers between two distances."""
    lot = random.Random(seed)
    lines = [f"p rep 4 {actors}", "i 1 0 0"]
    for _ in range(10 * actors if actors > 1 else 60):
        actor, vertex, other = lot.randint(1, actors), lot.randint(1, 4), lot.randint(1, 4)
        lines.append(
            lot.choice(
                [
                    f"o {actor} {vertex} {lot.randint(least, most)} {lot.randint(0, preds)}",
                    f"r {actor} {vertex}",
                    f"a {actor} {vertex} {other} {lot.randint(1, 9)}",
                ]
            )
        )
    lines += [f"s {lot.randint(1, actors)}" for _ in range(steps)]
    return "\n".join(lines) + "\n"


def reads_of(dist, pred):
    """Sixty reads of one word by one actor: as much text as there can be."""
    return f"p rep 65536 1\ni 65536 {dist} {pred}\n" + "r 1 65536\ns 1\n" * 60


def stores_from(dist, pred):
    """Thirty stores to one word by one actor, from this distance down."""
    return "p rep 65536 1\n" + "".join(f"o 1 65536 {dist - k} {pred}\ns 1\ns 1\n" for k in range(30))


def some_long():
    """Reads of a word of few digits, and of one of many in their midst."""
    reads = [2 if 20 < k <= 30 else 1 for k in range(60)]
    return "p rep 2 1\ni 1 7 1\ni 2 68719476734 268435454\n" + "".join(f"r 1 {vertex}\ns 1\n" for vertex in reads)


def crowd():
    """Sixty-four actors, of whom some make a step."""
    lot = random.Random(64)
    offers = "".join(f"o {actor} 1 {10**9 - actor} 1\n" for actor in range(1, 65))
    return "p rep 1 64\n" + offers + "".join(f"s {lot.randint(1, 24)}\n" for _ in range(60))


def check_widths(tree):
    """Columns are as wide as what stands in them needs: wide ones where long texts stand, and narrow ones elsewhere."""
    at = [float(it.get("x")) for it in of_class(tree, "text", "number")]
    steps = [b - a for a, b in zip(at, at[1:])]
    wide, narrow = sum(steps[20:30]), sum(steps[:10])
    count("columns as wide as they need", wide > 1.1 * narrow and sum(steps[40:50]) == narrow, f"{narrow} {wide}")


def check_long_runs(folder):
    """Pictures of 60 steps with many digits, and of many actors."""
    path = f"{folder}/long.rep"

    def check(name, programme, widest=WIDEST, *options):
        with open(path, "w") as it:
            it.write(programme)
        return check_picture(name, programme, path, widest, options)

    for actors in (1, 2, 4, 7):
        for digits in (5, 8, 10):
            programme = drawn_by_lot(10 * actors + digits, 60, actors, 10 ** (digits - 1), 10**digits - 1, 10**6)
            check(f"{actors} actors, {digits} digits", programme)
    for bits, longest in GREATEST.items():
        check(f"the longest reads of {bits} bits", reads_of(*longest), WIDEST_OF[bits], "--pred-bits", bits)
        check(f"the longest stores of {bits} bits", stores_from(*longest), WIDEST_OF[bits], "--pred-bits", bits)
    check("reads of ten digits", reads_of(9999999999, 9999999))
    check("stores of ten digits", stores_from(9999999999, 9999999))
    check("64 actors", crowd())
    check_colours(check("one step", "p rep 1 1\nr 1 1\ns 1\n"))
    check("no step", "p rep 1 1\nr 1 1\n")
    check_widths(check("some long ones", some_long()))


def main():
    global program
    parser = argparse.ArgumentParser()
    parser.add_argument("--program", default=program)
    program = parser.parse_args().program
    for path in sorted(glob.glob(f"{HOME}/examples/*.rep")):
        with open(path) as it:
            check_picture(os.path.basename(path), it.read(), path)
    with open(f"{HOME}/docs/lost_exchange.svg") as it:
        count("docs/lost_exchange.svg", replay(f"{HOME}/examples/lost_exchange.rep", "--svg")[1] == it.read())
    with tempfile.TemporaryDirectory() as folder:
        path = f"{folder}/run.rep"
        for seed in range(20):
            programme = drawn_by_lot(seed, 3 * seed + 3)
            with open(path, "w") as it:
                it.write(programme)
            check_picture(f"lot {seed}", programme, path)
        with open(path, "w") as it:
            it.write(drawn_by_lot(20, 61))
        count("61 steps have no picture", replay(path, "--svg") == (2, "", TOO_MANY))
        count("61 steps have a report", replay(path)[0] == 0)
        check_long_runs(folder)
    return counted.end() or not counted.passed


if __name__ == "__main__":
    sys.exit(main())
