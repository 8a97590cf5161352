#!/usr/bin/env python3
"""Builds crates/spt_c/out/libspt_c.a over the libraries that `rt ci` has just proved in this folder.

Usage: python3 build/archive.py

`rt lib` takes no library of `rt ci`, and would prove them all once more. So this calls what `rt lib` calls, of the kit's own module: the
crate itself is proved from nothing.
"""

import os
import sys

sys.dont_write_bytecode = True
import kit  # noqa: E402

HOME = os.path.dirname(os.path.dirname(os.path.realpath(__file__)))
CRATE = "spt_c"


def main():
    folder = os.path.join(HOME, "crates", CRATE)
    os.chdir(folder)
    rtlib = kit.load("rtlib")
    rtlib.guarded()
    rtlib.Crate.cuts_libraries = True
    crate = next(it for it in rtlib.crates_below(folder) if it.name == CRATE)
    crate.out = sys.stdout
    os.makedirs("out", exist_ok=True)
    return crate.build_static(["--jobs", str(os.cpu_count() or 1)])


if __name__ == "__main__":
    sys.exit(main())
