"""Shows that a hub with a spool file loses nothing that it has acknowledged when it is killed at any moment.

    python3 examples/trials/spool_kills.py PROGRAM [--kills 500] [--seed N] [--old]

Two customers have two lines each and use the same node names and job numbers. Their peers send files on SYSIN and
SYSOUT (most of a few records, some of 500), take files, refuse some, and LIST, HOLD, RELEASE, REROUTE and CANCEL their
own, all at random. The program is killed (SIGKILL) 5 to 400 ms after the first session is up, one time in ten already
within 50 ms of its start. What it had sent until then counts as heard. Then, while no hub runs, it is asserted of the
spool file, and of its files as `njehub files` lists and exports them:

- SQLite's integrity_check of a copy is ok;
- each file whose completion came is there with every byte, by SQLite and by `--export`, and none is there whose removal
  was answered (a peer's completion by the hub's next frame, CANCEL by its reply), and none whose end was not yet sent;
- a file is Held where HOLD was the last that was answered, READY where not, and goes where REROUTE said;
- what was sent and not answered may have happened or not;
- the order of arrival is that of the last listing, with new files after it, each after those whose completion came
  before its end went out;
- LIST and what comes at the peers agree with all this while the hub runs.

The program is started on the same file, and so on. At the end the peers take all that is left, and nothing is. The
table has a row for each 10 kills; the last line says "right", or the script ends with status 1, says what is wrong,
and keeps the folder with the spool file as it was found. `--old` plays the runs without a spool file, and checks what
can be: the peers' words.
"""

import random
import sys
import time

from hub import options_of, row
from spool_model import Wrong
from spool_runs import Runs

WIDTHS = (6, 9, 9, 9, 9, 11, 11)


def kills(runs, count):
    row(WIDTHS, "kills", "seconds", "frames", "whole", "taken", "there", "size KB")
    begin = time.monotonic()
    for at in range(1, count + 1):
        runs.run(None if runs.chance.random() < 0.1 else runs.chance.uniform(0.005, 0.4))
        runs.check()
        if at % 10 == 0 or at == count:
            row(WIDTHS, at, f"{time.monotonic() - begin:.0f}", *runs.counts.values(), runs.size())


def main():
    options = options_of(
        __doc__,
        (("--kills",), {"type": int, "default": 500}),
        (("--exports",), {"type": int, "default": 5, "help": "new files of a customer to be exported after each kill"}),
        (("--seed",), {"type": int, "default": None, "help": "of what is drawn; the times of the machine stay"}),
    )
    seed = random.randrange(10**6) if options.seed is None else options.seed
    print(f"seed {seed}")
    runs = Runs(options, seed)
    try:
        kills(runs, options.kills)
        runs.empty()
    except Wrong as wrong:
        print(f"WRONG: {wrong}\nthe spool file, its copy and the log are in {runs.folder}")
        sys.exit(1)
    runs.clear()
    print("right")


if __name__ == "__main__":
    main()
