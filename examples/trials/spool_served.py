"""The program with a spool file: it is started and killed, and between two runs its files are checked."""

import os
import pathlib
import shutil
import sqlite3
import subprocess

from frames import DATA_SET_HEADER, field
from hub import customer_of, free_ports, line_of
from spool_model import Wrong


def tables_of(books, quota, files=256):
    """A table file of customers with two lines each, to LYON and METZ, with NICE behind LYON and PARIS behind METZ; and
    the ports, two a customer."""
    ports = free_ports(2 * len(books))
    text = f"capacity = {quota * len(books)}\n"
    for at, book in enumerate(books):
        names = [f"c{at}l{line}" for line in (0, 1)]
        lines = [line_of(names[line], node, port=ports[2 * at + line]) for line, node in enumerate(("LYON", "METZ"))]
        routes = [("LYON", names[0]), ("NICE", names[0]), ("METZ", names[1]), ("PARIS", names[1])]
        text += customer_of(book.name, "BUREAU", quota, lines, routes).replace("files = 256", f"files = {files}")
    return text, ports


class Served:
    """The program, with a table file and a spool file in a folder."""

    def __init__(self, program, folder, table, spool=None, is_old=False):
        self.program, self.folder, self.is_old = program, pathlib.Path(folder), is_old
        self.spool, self.table = pathlib.Path(spool or self.folder / "spool.db"), self.folder / "tables.toml"
        self.told, self.process = self.folder / "log", None
        self.table.write_text(table)

    def start(self, *words, **given):
        line = [self.program, "serve", "--tables", str(self.table), *words]
        line += [] if self.is_old else ["--spool", str(self.spool)]
        with self.told.open("wb") as log:
            self.process = subprocess.Popen(line, stdin=subprocess.DEVNULL, stdout=log, stderr=log, **given)

    def ends(self, seconds):
        """Waits so long for its end, and says whether it came."""
        try:
            self.process.wait(seconds)
        except subprocess.TimeoutExpired:
            return False
        return True

    def kill(self):
        """SIGKILL, to what this object started."""
        if self.process and self.process.poll() is None:
            self.process.kill()
        return self.process.wait() if self.process else None

    def log(self):
        return self.told.read_text(errors="replace").splitlines()

    def files(self, *words, spool=None):
        """Runs `njehub files`, and says its status, standard output and standard error."""
        line = [self.program, "files", "--spool", str(spool or self.spool), *words]
        done = subprocess.run(line, stdin=subprocess.DEVNULL, capture_output=True, timeout=60)
        return done.returncode, done.stdout, done.stderr.decode(errors="replace")

    def listed(self, spool=None):
        """The listing of all customers."""
        status, out, err = self.files(spool=spool)
        if status:
            raise Wrong(f"files: status {status}: {err}")
        return out.decode(errors="replace").splitlines()

    def exported(self, book, entry, spool=None):
        status, out, err = self.files("--customer", book.name, "--export", entry.name, "--raw", spool=spool)
        if status:
            raise Wrong(f"files --export {entry.name}: status {status}: {err}")
        return out

    def copy(self, folder):
        """A copy of the spool file and its log in a new folder."""
        folder = pathlib.Path(folder)
        folder.mkdir(parents=True, exist_ok=True)
        for name in (self.spool, pathlib.Path(f"{self.spool}-wal")):
            target = folder / name.name
            target.unlink(missing_ok=True)
            if name.exists():
                shutil.copyfile(name, target)
                os.chmod(target, 0o600)
        return folder / self.spool.name


def raw_of(records):
    """What `--raw` writes of these records: their bytes, one after the other."""
    return b"".join(record for _, record in records)


FILES_QUERY = "select customer, key, number, owner_node, kind, to_node from files"

RECORDS_QUERY = pathlib.Path(__file__).with_name("read_spool.sql").read_text()


def records_now(kind, to_node, records):
    """A file's records by its row: if its node has the mark, the headers that name its destination name that node."""
    if not to_node.startswith(">"):
        return records
    now, before = [], None
    for srcb, record in records:
        if kind == "SYSIN" and before is None:
            now.append((srcb, record[:84] + field(to_node[1:]) + record[92:]))
        elif kind == "SYSOUT" and srcb == DATA_SET_HEADER and before != DATA_SET_HEADER:
            now.append((srcb, record[:8] + field(to_node[1:]) + record[16:]))
        else:
            now.append((srcb, record))
        before = srcb
    return now


def check_tables(copy, bytes_of):
    """SQLite's own word on a copy of the spool, and the bytes of all files, which `bytes_of` takes by their key."""
    connection = sqlite3.connect(copy)
    found = connection.execute("pragma integrity_check").fetchall()
    if found != [("ok",)]:
        raise Wrong(f"integrity_check: {found[:3]}")
    has_files = connection.execute("select 1 from sqlite_master where name = 'files'").fetchall()
    for customer, key, number, node, kind, to_node in connection.execute(FILES_QUERY) if has_files else ():
        records = connection.execute(RECORDS_QUERY, {"key": key}).fetchall()
        places = [place for place, _, _ in records]
        if places != list(range(len(records))):
            raise Wrong(f"{customer}: {node}.{number} has records at places {places}")
        stood = [(srcb, bytes.fromhex(data)) for _, srcb, data in records]
        bytes_of[customer, f"{node}.{number}"] = records_now(kind, to_node, stood)
    connection.close()


def check_spool(served, books, folder, choose=lambda shown: shown):
    """All that must hold between two runs: SQLite's own check, the listing, and all bytes, those of the chosen files as
    they are exported too."""
    copy, rows = served.copy(folder), {}
    if copy.exists() and not copy.read_bytes().startswith(b"\0"):  # such a file is still being made, and has nothing
        check_tables(copy, rows)
    copy = served.copy(folder)  # again, as the check may have written the log into the file
    lines = served.listed(copy)
    for book in books:
        shown = book.listing([line for line in lines if line.startswith(f"{book.name} ")])
        lines = [line for line in lines if not line.startswith(f"{book.name} ")]
        for entry in shown:
            (node,) = entry.to
            if rows.get((book.name, entry.name)) != entry.bytes_for(node):
                raise Wrong(f"{book.name}: {entry.name} has other records")
        for entry in choose(shown):
            (node,) = entry.to
            if served.exported(book, entry, copy) != raw_of(entry.bytes_for(node)):
                raise Wrong(f"{book.name}: {entry.name} is exported with other bytes")
    if lines:
        raise Wrong(f"files of nobody: {lines}")
    return sum(len(book.sure()) for book in books)
