"""The kit's command rt as a module, for what works over the libraries that `rt ci` has just proved, which no other `rt` takes.

Where this kit lacks what the scripts call, each script says so in one line as it begins.
"""

import importlib.machinery
import importlib.util
import os
import shutil
import sys

# what the scripts call: of the gate, of the other commands, and of a crate
CALLED = {
    "rt": ["Crate", "KIT", "checked", "edited", "in_lanes", "must_fail", "need", "rtlib", "unread"],
    "rtlib": ["Crate", "RATTLE", "crates_below", "fmt", "guarded", "lock", "stop_on_unread", "text_of"],
    "rtlib.Crate": ["below", "build_rlib", "build_static", "call", "count", "cuts_libraries", "has_tests", "run", "stamp", "verdict_on_tests", "words"],
}


def load(name):
    """A module of the kit: `rt` is the gate, `rtlib` the other commands. Where something is gone, the script ends with a line that says what."""
    if name == "rt":
        # (the gate itself stops where the other is short of something)
        load("rtlib")
    path = shutil.which("rt") or sys.exit("kit: the Rattle kit's command rt isn't on the path (README.md)")
    path = os.path.join(os.path.dirname(os.path.realpath(path)), "rt" if name == "rt" else f"{name}.py")
    loader = importlib.machinery.SourceFileLoader(name, path)
    made = importlib.util.module_from_spec(importlib.util.spec_from_loader(name, loader))
    sys.modules[name] = made
    loader.exec_module(made)
    missing = gone(made)
    if missing:
        sys.exit(f"kit: {path} has no {', '.join(missing)}, which scripts of build/ and tests/ call; build/kit.py lists what they need of a kit")
    return made


def gone(module):
    """What the scripts call of a module of the kit, or of the one below it, and isn't there."""
    below = getattr(module, "rtlib", None)
    places = {module.__name__: module, **({"rtlib": below} if below else {})}
    places["rtlib.Crate"] = getattr(places.get("rtlib"), "Crate", None)
    return [f"{place}.{name}" for place, its in places.items() if its for name in CALLED[place] if not hasattr(its, name)]
