#!/usr/bin/env python3
"""The toolchain's `rt`, which makes the sum of each crate's sources once, and knows what memory a check takes at most.

    python3 -B benches/gate/rt.py ci        # any words of rt

`rt` sums up a crate's sources anew for each path in crates.txt that leads to it, tens of thousands of times for the
highest ones: minutes before a check there begins, one crate at a time. Nothing of a source changes while `rt` runs, so
a sum is kept by its crate's folder here.

`rt` gives a check that no other waits beside the processors that are idle, as far as memory holds that, and reckons
that a check of this repository takes up to 11.6 GB, so that two run at once where four would. No check took more than
6.5 GB and most under 3, in part files of libraries that they share, so no more than MOST is reckoned here for one.

All else is the toolchain's. If its `rt` is made otherwise, it is run as it is.
"""

import importlib.machinery
import importlib.util
import os
import shutil
import sys

RT = os.path.realpath(shutil.which("rt") or "rt")

# What a check is reckoned to take at most, in bytes: four of them at once have room in 24 GB.
MOST = 4_700_000_000


def loaded():
    """The toolchain's rt as a module, if it is one that has such sums."""
    try:
        loader = importlib.machinery.SourceFileLoader("toolchain_rt", RT)
        made = importlib.util.module_from_spec(importlib.util.spec_from_loader("toolchain_rt", loader))
        loader.exec_module(made)
        parts = made.rtlib.Crate.stamp, made.need, made.main
        return made if all(callable(part) for part in parts) else None
    except Exception:  # another toolchain's
        return None


def keep_sums(crate):
    """Has crates of this class make their sum once."""
    sums, stamp = {}, crate.stamp

    def kept(self):
        if self.folder not in sums:
            sums[self.folder] = stamp(self)
        return sums[self.folder]

    crate.stamp = kept


def reckon_less(made):
    """Has no check be reckoned to take more than MOST."""
    need = made.need
    made.need = lambda crate: min(need(crate), MOST)


def main():
    sys.dont_write_bytecode = True
    made = loaded()
    if made is None:
        os.execv(RT, [RT, *sys.argv[1:]])
    keep_sums(made.rtlib.Crate)
    reckon_less(made)
    sys.exit(made.main(sys.argv[1:]))


if __name__ == "__main__":
    main()
