#!/usr/bin/env python3
"""Makes each call of the built program fail in turn, and looks at what comes of it.

  bench/faults/run.py PROGRAM [--runs NAME,..] [--most N]

fail.c beside this script is compiled by `cc` and loaded before the C library. Each run below is made once without a fault, and then once for each of its
calls: an allocation (memory), a read of the input, a write of the output, a call on the file of records (keep). So that each allocation can be tried, a
copy of the program is made there in which it fails; `host`, which has a file of records, is run anew for each. Of other calls than allocations every
second, third and so on is taken where there are more than N, 2,000 if not told. Once more each of these calls fails with all later ones of its kind.
What is asked of each:

  memory   status 6, and what was written is a prefix of what the run without a fault writes, up to the end of a line, or of `host` to that of a unit;
           or all is as in that run
  read     status 4, and just the lines were run whose line feed had been read
  write    status 5, and what was written is such a prefix
  keep     10 with nothing written; or a word on standard error, and 9, or 0 where the records have the end of each order; or all is as without a fault
  short    a read, write or call on the file that moves one byte changes nothing; the status and all that is written are the same

Besides each run is made with a broken pipe and with a full disk as its output, which must end with 5, and with no input at all, which must end with 4
(`audit` and `check` write nothing before they have read all).

What `sim` and `replay` wrote is judged by tools/laws_of_transcripts. After each run of `host` its file of records is opened by a run without a fault, which
must take it; where memory, a read or a write failed, it is a prefix of the file that the run without a fault leaves.
"""
import argparse
import collections
import importlib.util
import itertools
import os
import subprocess
import sys
import tempfile

sys.dont_write_bytecode = True
HERE = os.path.dirname(os.path.abspath(__file__))
TOP = os.path.normpath(os.path.join(HERE, "..", ".."))
sys.path.insert(0, os.path.join(TOP, "tools"))
from laws_of_transcripts.judge import violations  # noqa: E402

NO_MEMORY, READ_FAULT, WRITE_FAULT, UNDONE, KEEPER_FAULT = 6, 4, 5, 9, 10
KINDS = ("memory", "read", "write", "keep")
# the rows of records that are asked for (docs/RECORDS.md)
ROW_COMMAND, ROW_BEGIN, ROW_END, SUCCESS = 1, 4, 5, 255
STATUS = {"memory": NO_MEMORY, "read": READ_FAULT, "write": WRITE_FAULT}
# name: words, the input (a file of the repository, or what another run wrote) and the most bytes of a read
RUNS = {
    "evening": (["sim"], "crates/zwave_console/stdin", 16), "lock": (["sim"], "examples/lock.txt", 8), "long": (["sim"], "examples/long.txt", 8),
    "restart": (["sim"], "examples/restart.txt", 8), "replay": (["replay"], "examples/foreign.txt", 8), "include": (["include"], "examples/adding.txt", 4),
    "events": (["events"], "examples/events.txt", 8), "check": (["check", "--from", "host"], "examples/units.txt", 8), "audit": (["audit"], "evening", 256),
    "host": (["host", "set 2 on", "interview 2", "get 2", "probe", "wait 20"], "port", 1),
}
# what `sim` is asked for the bytes that the chip sends in the run of `host`
ASKED = b"set 2 on\ninterview 2\nget 2\nprobe\ntick 20\n"

# how a call fails: alone; with all later ones; or it moves one byte
ALONE, ON, SHORT = "", ", and all later ones", ", one byte"

Ended = collections.namedtuple("Ended", "status out said kept")


def hostile():
    """The script that knows the units of a host."""
    where = importlib.util.spec_from_file_location("hostile", os.path.join(TOP, "bench", "hostile", "run.py"))
    made = importlib.util.module_from_spec(where)
    where.loader.exec_module(made)
    return made


def are_done(kept):
    """Whether each command of the records has ended with success."""
    rows = [[int(number) for number in line[1:-1].split(b",")] for line in kept.split(b"\n")[:-1]]
    carried = {(row[1], row[2]): row[3] for row in rows if row[0] == ROW_BEGIN}
    done = {carried[row[1], row[2]] for row in rows if row[0] == ROW_END and row[3] == SUCCESS}
    return {row[1] for row in rows if row[0] == ROW_COMMAND} == done


class Faults:
    """The program with the library, and what was found."""

    def __init__(self, options, folder):
        self.options, self.folder = options, folder
        self.library, self.records, self.sums, self.copies = (os.path.join(folder, name) for name in ("fail.so", "records", "sums", "copies"))
        subprocess.run(["cc", "-O2", "-shared", "-fPIC", "-o", self.library, os.path.join(HERE, "fail.c")], check=True)
        self.judged, self.wrong, self.fault_of_units = {}, 0, hostile().fault_of_units

    def call(self, words, data, records=None, seconds=120, **faults):
        """Runs the program; each word of `faults` is a variable of fail.c."""
        env = {f"FAULT_{name.upper()}": str(value) for name, value in faults.items()}
        env.update(LD_PRELOAD=self.library, FAULT_SUMS=self.sums)
        if records:
            env["ZWAVE_RECORDS"] = records
        with tempfile.TemporaryFile() as given:
            given.write(data)
            given.seek(0)
            ran = subprocess.run([self.options.program, *words], stdin=given, stdout=subprocess.PIPE, stderr=subprocess.PIPE, env=env, timeout=seconds)
        kept = b""
        if records and os.path.exists(records):
            with open(records, "rb") as file:
                kept = file.read()
        return Ended(ran.returncode, ran.stdout, ran.stderr, kept)

    def run(self, name, data, **faults):
        """A run from no records."""
        if os.path.exists(self.records):
            os.remove(self.records)
        return self.call(RUNS[name][0], data, self.records if name == "host" else None, **faults)

    def laws(self, name, out, is_whole):
        """What the laws say of what was written, once for each text; of a table that is not whole they say nothing."""
        if RUNS[name][0][0] not in ("sim", "replay"):
            return None
        if (out, is_whole) not in self.judged:
            lines = out.decode().split("\n")[:-1]
            if not is_whole:
                lines = list(itertools.takewhile(lambda line: not line.startswith("end "), lines))
            found = violations(lines, alone=RUNS[name][0][0] == "replay")
            self.judged[out, is_whole] = f"{found[0].law}: {found[0].text}" if found else None
        return self.judged[out, is_whole]

    def fault_of(self, name, kind, how, base, ended, data, at):
        """What is wrong with a run of which that call failed, or None."""
        if how == SHORT or ended[:3] == base[:3] and kind in ("memory", "keep"):
            return None if ended == base else f"{ended.status} in place of {base.status}, or other output"
        if kind == "keep":
            is_right = not ended.out if ended.status == KEEPER_FAULT else ended.status == UNDONE or ended.status == 0 and are_done(ended.kept)
            return self.fault_of_records(ended) if is_right and ended.said else f"{ended.status}, said {ended.said!r}"
        if ended.status != STATUS[kind] or ended.said:
            return f"{ended.status} in place of {STATUS[kind]}, said {ended.said!r}"
        if not base.out.startswith(ended.out) or name != "host" and ended.out and not ended.out.endswith(b"\n"):
            return "what was written is no prefix of what is written without a fault"
        if kind == "memory" and name == "host" and self.fault_of_units(ended.out):
            return self.fault_of_units(ended.out)
        if kind == "read" and name not in ("host", "audit", "check"):
            read = data[:(at - 1) * RUNS[name][2]]
            lines = [line for line in read[:read.rfind(b"\n") + 1].split(b"\n") if line.split() and line[:1] != b"#"]
            if ended.out.count(b"\n> ") + ended.out.startswith(b"> ") != len(lines):
                return f"{len(lines)} lines were read"
        if not base.kept.startswith(ended.kept):
            return "the records are no prefix of those without a fault"
        return self.fault_of_records(ended) if name == "host" else self.laws(name, ended.out, False)

    def fault_of_records(self, ended):
        """Whether a later run takes the records."""
        if not ended.kept:
            return None
        after = self.call(["host", "wait 1"], b"", self.records)
        return None if after.status in (0, UNDONE) else f"a later run ends with {after.status}: {after.said!r}"

    def each(self, name, kind, how, base, data, count):
        """The calls of that kind that are to fail, and how the run ends at each."""
        faults = {"kind": kind, "piece": RUNS[name][2], "short": int(how == SHORT), "on": int(how == ON)}
        if kind == "memory" and name != "host":
            ended = self.run(name, data, seconds=36000, copies=self.copies, **faults)
            if ended != base:
                raise SystemExit(f"{name}: a run with copies is not as one without")
            yield from self.ends_of_copies(base)
            return
        for at in range(1, count + 1, max(1, -(-count // self.options.most))):
            yield at, self.run(name, data, at=at, **faults)

    def ends_of_copies(self, base):
        """The number of each copy, and how it ended."""
        with open(self.copies, "rb") as file:
            for line in file:
                at, status, before, size, words = map(int, line.split())
                out, said = base.out[:before] + file.read(size), file.read(words)
                yield at, Ended(os.waitstatus_to_exitcode(status), out, said, b"")

    def all_of(self, name, kind, how, base, data, count):
        """Each call of that kind in turn."""
        ends = collections.Counter()
        for at, ended in self.each(name, kind, how, base, data, count):
            ends[ended.status] += 1
            fault = self.fault_of(name, kind, how, base, ended, data, at)
            if fault:
                self.wrong += 1
                print(f"{name}, {kind} {at}{how}: {fault}", flush=True)
        told = " ".join(f"{status}:{times}" for status, times in sorted(ends.items()))
        print(f"{name}: {kind}{how}: {count} calls, {sum(ends.values())} failed in turn, statuses {told}", flush=True)

    def broken(self, name, data):
        """Ends of the line that are broken from the first byte on."""
        env = {"PATH": os.environ["PATH"]}
        there, gone = os.pipe()
        os.close(there)
        for what, output, source, wanted in (("a broken pipe", gone, True, WRITE_FAULT), ("a full disk", os.open("/dev/full", os.O_WRONLY), True, WRITE_FAULT),
                                             ("no input", os.open("/dev/null", os.O_WRONLY), False, READ_FAULT)):
            with tempfile.TemporaryFile() as given:
                given.write(data)
                given.seek(0)
                ends = {"stdin": given} if source else {"preexec_fn": lambda: os.close(0)}
                ran = subprocess.run([self.options.program, *RUNS[name][0]], stdout=output, stderr=subprocess.PIPE, env=env, timeout=120, **ends)
            os.close(output)
            if ran.returncode != wanted or ran.stderr:
                self.wrong += 1
                print(f"{name}, {what}: {ran.returncode} in place of {wanted}, said {ran.stderr!r}", flush=True)

    def examine(self, name, data):
        """A run without a fault, and all with one."""
        base = self.run(name, data, piece=RUNS[name][2])
        with open(self.sums, encoding="ascii") as file:
            counts = dict(zip(KINDS, map(int, file.read().split())))
        print(f"{name}: status {base.status}, {len(base.out)} bytes, laws: {self.laws(name, base.out, True) or 'none broken'}", flush=True)
        self.broken(name, data)
        for kind in KINDS:
            for how in (ALONE, ON, SHORT)[:2 if kind == "memory" else 3]:
                if counts[kind]:
                    self.all_of(name, kind, how, base, data, counts[kind])


def read(name):
    with open(os.path.join(TOP, name), "rb") as file:
        return file.read()


def main():
    parser = argparse.ArgumentParser(description=__doc__, formatter_class=argparse.RawDescriptionHelpFormatter)
    parser.add_argument("program", type=os.path.abspath)
    parser.add_argument("--runs", default=",".join(RUNS))
    parser.add_argument("--most", type=int, default=2000)
    options = parser.parse_args()
    with tempfile.TemporaryDirectory() as folder:
        faults = Faults(options, folder)
        evening = faults.call(["sim"], read("crates/zwave_console/stdin")).out
        asked = faults.call(["sim"], ASKED).out
        port = b"".join(bytes.fromhex(line[2:].decode()) for line in asked.split(b"\n") if line.startswith(b"c "))
        for name in options.runs.split(","):
            where = RUNS[name][1]
            faults.examine(name, {"evening": evening, "port": port}.get(where) or read(where))
    print(f"{faults.wrong} wrong", flush=True)
    return 1 if faults.wrong else 0


if __name__ == "__main__":
    sys.exit(main())
