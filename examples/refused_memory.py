"""Refuses each request for memory of the program in turn, and has each of its reads and writes fail, or fall short, in turn.

    python3 examples/refused_memory.py [PROGRAM]

With no PROGRAM, `rt run` proves and builds it first. A small library, which `cc` compiles, stands between the program and
the C library and has one call go amiss. It is run by hand: the gate knows nothing of it.

Of each stored script the program is run once for each of its calls, and must end so:

- where a request for memory is refused, with status 2 and `njehub: U3 Memory` or `njehub: K9 Memory`, and a beginning of the
  whole output, in whole lines;
- where a read or a write fails, with status 2 and `njehub: device`, and a beginning of the whole output;
- where a read or a write moves one byte alone, with status 0 and the whole output;
- run again with nothing amiss, with status 0 and the whole output.
"""

import os
import subprocess
import sys
import tempfile

TOP = os.path.dirname(os.path.dirname(os.path.abspath(__file__)))

RUNS = os.path.join(TOP, "crates", "tests_runs", "data")

# Each script with its folder and its table file, if it has one: a sign-on; two contacts and a command; a file that goes out; one
# whose customer has little room left; one that comes in, is listed, rerouted and sent back.
SCRIPTS = [
    (RUNS, "signed_on", None),
    (RUNS, "contacts_and_list", None),
    (RUNS, "file_goes_out", "two_networks.toml"),
    (RUNS, "little_room", "quota_of_sixteen.toml"),
    (RUNS, "taken_in_and_sent_back", "two_networks.toml"),
]

NO_MEMORY = (b"njehub: U3 Memory\n", b"njehub: K9 Memory\n")

DEVICE = (b"njehub: device\n",)

# What goes amiss, as the library between is told.
MEMORY = "memory"

AMISS = (MEMORY, "a read fails", "a read falls short", "a write fails", "a write falls short")

WHOLE = "whole output"

# AMISS names what goes amiss and AT which call, counted from 1. How many such calls there were is written to the file TOLD in
# the end. Calls that move nothing aren't counted as reads or writes.
BETWEEN = r"""
#define _GNU_SOURCE
#include <dlfcn.h>
#include <errno.h>
#include <stdio.h>
#include <stdlib.h>
#include <string.h>
#include <sys/syscall.h>
#include <unistd.h>

static long had, at;
static const char *amiss = "";

__attribute__((constructor)) static void begin(void) {
  if (getenv("AMISS")) amiss = getenv("AMISS");
  if (getenv("AT")) at = atol(getenv("AT"));
}

__attribute__((destructor)) static void tell(void) {
  const char *told = getenv("TOLD");
  long count = had;
  FILE *file = told ? fopen(told, "w") : NULL;
  if (file) { fprintf(file, "%ld", count); fclose(file); }
}

static int is_bad(const char *what) { return !strcmp(amiss, what) && ++had == at; }

extern void *__libc_malloc(size_t);
extern void *__libc_realloc(void *, size_t);

void *malloc(size_t size) { return is_bad("memory") ? NULL : __libc_malloc(size); }

void *realloc(void *old, size_t size) { return is_bad("memory") ? NULL : __libc_realloc(old, size); }

static ssize_t moved(long call, const char *fails, const char *short_of, int file, void *bytes, size_t count) {
  if (is_bad(fails)) { errno = EIO; return -1; }
  if (count > 1 && is_bad(short_of)) count = 1;
  return syscall(call, file, bytes, count);
}

ssize_t read(int file, void *bytes, size_t count) {
  return moved(SYS_read, "a read fails", "a read falls short", file, bytes, count);
}

ssize_t write(int file, const void *bytes, size_t count) {
  return moved(SYS_write, "a write fails", "a write falls short", file, (void *)bytes, count);
}
"""


def built():
    """The program, proved and built."""
    folder = os.path.join(TOP, "crates", "njehub")
    subprocess.run(["rt", "run", "--", "replay"], cwd=folder, stdin=subprocess.DEVNULL, check=True)
    return os.path.join(folder, "out", "njehub")


def read(folder, name):
    with open(os.path.join(folder, name), "rb") as file:
        return file.read()


class Case:
    """A script, with how it is run and what it prints."""

    def __init__(self, program, work, folder, name, tables):
        self.words = [program, "replay"] + (["--tables", os.path.join(folder, tables)] if tables else [])
        self.script = read(folder, name + ".script")
        self.whole = read(folder, name + ".out")
        self.between = os.path.join(work, "between.so")
        self.told = os.path.join(work, "told")

    def run(self, amiss, at):
        """How the program ends where this call goes amiss, and how many such calls there were."""
        words = {"LD_PRELOAD": self.between, "AMISS": amiss, "AT": str(at), "TOLD": self.told}
        ended = subprocess.run(self.words, input=self.script, capture_output=True, env=words, timeout=60)
        with open(self.told) as file:
            return ended, int(file.read())

    def is_whole(self, ended):
        return (ended.returncode, ended.stdout, ended.stderr) == (0, self.whole, b"")

    def is_refused(self, ended, lines):
        begun = self.whole.startswith(ended.stdout)
        whole_lines = lines is DEVICE or ended.stdout in (b"", self.whole) or ended.stdout.endswith(b"\n")
        return ended.returncode == 2 and ended.stderr in lines and begun and whole_lines


def tried(case, amiss):
    """How many calls there were, how often the program ended with each line, and the calls at which it ended otherwise."""
    ended, count = case.run(amiss, 0)
    if not case.is_whole(ended):
        return count, {}, [0]
    ends, others = {}, []
    for at in range(1, count + 1):
        ended, _ = case.run(amiss, at)
        line = WHOLE if case.is_whole(ended) else ended.stderr.decode().strip()
        ends[line] = ends.get(line, 0) + 1
        if "short" in amiss:
            good = line == WHOLE
        else:
            good = case.is_refused(ended, NO_MEMORY if amiss == MEMORY else DEVICE)
        again, _ = case.run(amiss, 0)
        if not (good and case.is_whole(again)):
            others.append(at)
    return count, ends, others


def main():
    program = os.path.abspath(sys.argv[1]) if len(sys.argv) > 1 else built()
    bad = 0
    with tempfile.TemporaryDirectory() as work:
        source = os.path.join(work, "between.c")
        with open(source, "w") as file:
            file.write(BETWEEN)
        subprocess.run(["cc", "-O1", "-shared", "-fPIC", "-o", os.path.join(work, "between.so"), source], check=True)
        for folder, name, tables in SCRIPTS:
            case = Case(program, work, folder, name, tables)
            for amiss in AMISS:
                count, ends, others = tried(case, amiss)
                bad += len(others) + (count == 0)
                told = ", ".join(f"{line} {times}" for line, times in sorted(ends.items()))
                print(f"{name}: {amiss}: {count} calls: {told}" + (f"; OTHERWISE at {others}" if others else ""))
    print("all as they must" if not bad else f"{bad} otherwise")
    return 1 if bad else 0


if __name__ == "__main__":
    sys.exit(main())
