"""Shows what nmap's two scripts for NJE over TCP/IP find of a hub: the right password alone, and the right node alone.

    python3 examples/trials/tcp_nmap.py PROGRAM

nmap is to be installed, with its scripts `nje-node-brute` and `nje-pass-brute`, which are written for mainframes. A hub
BUREAU has a line for LYON, over TCP/IP, with a password, and one for METZ without. Where passwords are sought nmap is
told to begin with one guess at a time (`brute.start=1`): of two at once a line answers the second that it is taken, and
the script gives up. The rows:

- the passwords: of a list that has the right one neither first nor last; of one that doesn't have it; and for METZ,
  whose line takes any, one or more of them, until a guess comes while the line is taken, which ends nmap;
- the nodes: who may call at the hub, if its name is known; and what the name of the hub is, if it isn't: nothing, since
  a refusal tells no name.

In each row are the words that nmap says are valid. The last line says "right", or the script ends with status 1.
"""

import pathlib
import re
import shutil
import subprocess
import sys
import tempfile

from hub import Hub, customer_of, free_ports, line_of, options_of, row

WIDTHS = (44, 34, 34, 6)
LIMIT = 300

WRONG = ["ALPHA", "BRAVO", "CHARLIE", "DELTA", "ECHO"]
NODES = ["PARIS", "BUREAU", "OSLO", "LYON", "ROMA", "A", "LYON2"]


def nmap(port, script, **arguments):
    """What nmap says of a port by a script: the lines that say that something is valid."""
    given = [f"{name}={value}" if name == "passdb" else f"{script}.{name}={value}" for name, value in arguments.items()]
    given = ",".join(given + ["brute.start=1"] * ("passdb" in arguments))
    words = ["nmap", "-Pn", "-n", "-p", str(port), "--script", f"+{script}", "--script-args", given, "127.0.0.1"]
    done = subprocess.run(words, stdin=subprocess.DEVNULL, capture_output=True, text=True, timeout=LIMIT)
    guesses = re.search(r"Performed (\d+) guesses", done.stdout)
    found = re.findall(r"(\S+) - Valid credentials", done.stdout)
    return found, int(guesses[1]) if guesses else 0, done.stdout


def show(what, answer, wanted, least, takes_any=False):
    found, guesses, said = answer
    right = (bool(found) and set(found) <= set(wanted) if takes_any else found == wanted) and guesses >= least
    row(WIDTHS, what, ", ".join(found) or "nothing", f"{guesses} guesses", "right" if right else "WRONG")
    if not right:
        print(f"    wanted: {', '.join(wanted) or 'nothing'}, of {least} guesses at least\n" + said)
    return right


def listed(folder, name, words):
    there = pathlib.Path(folder, name)
    there.write_text("".join(f"{word}\n" for word in words))
    return str(there)


def main():
    options = options_of(__doc__)
    if not shutil.which("nmap"):
        sys.exit("nmap isn't on this machine")
    lyon, metz = free_ports(2)
    lines = [line_of("a1", "LYON", port=lyon, protocol="tcp", password="SECRET"), line_of("a2", "METZ", port=metz, protocol="tcp")]
    table = "capacity = 100\n" + customer_of("ACME", "BUREAU", 100, lines, [("LYON", "a1"), ("METZ", "a2")])
    with tempfile.TemporaryDirectory(prefix="nmap.") as folder, Hub(options, table) as hub:
        hub.serves()
        has, hasnt = (listed(folder, name, words) for name, words in (("has", WRONG[:3] + ["SECRET"] + WRONG[3:]), ("hasnt", WRONG)))
        nodes, names = listed(folder, "nodes", NODES), dict(ohost="BUREAU", rhost="LYON")
        row(WIDTHS, "what is sought", "valid", "", "")
        right = [
            show("LYON's password, among others", nmap(lyon, "nje-pass-brute", passdb=has, **names), ["Password:SECRET"], 4),
            show("LYON's password, which isn't there", nmap(lyon, "nje-pass-brute", passdb=hasnt, **names), [], len(WRONG)),
            show("METZ's password", nmap(metz, "nje-pass-brute", passdb=hasnt, ohost="BUREAU", rhost="METZ"),
                 [f"Password:{word}" for word in WRONG], 1, takes_any=True),
            show("who may call at BUREAU", nmap(lyon, "nje-node-brute", ohost="BUREAU", hostlist=nodes), ["BUREAU:LYON"], len(NODES) - 1),
            show("the hub's name", nmap(lyon, "nje-node-brute", hostlist=nodes), [], len(NODES)),
        ]
        if not hub.runs():
            print(f"the program has ended: {hub.log()[-2:]}")
            right.append(False)
        told = {re.sub(r"\d{3,5}", "N", line.split(" ", 1)[1]) for line in hub.log() if " a1: " in line}
        print("the log says of it:\n    " + "\n    ".join(sorted(told)))
    print("right" if all(right) else f"{right.count(False)} rows are wrong")
    sys.exit(not all(right))


if __name__ == "__main__":
    main()
