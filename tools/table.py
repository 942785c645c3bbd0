#!/usr/bin/env python3
"""The table of a script's runs by the Rust: from the oracle's log of the script, with an observation at the end of each run.

usage: table.py ORACLE SCRIPT [JUDGE] > TABLE
A run that the oracle ends (`outside`) has no row of its own there, nor has one that sends on a cable (`c`), which the Rust has not: such scripts are
refused, or, where judge.py is given, the run's row is the judge's, which goes on there and says of each microframe what it dropped. Lines that show
or set what the Rust has not (`x`, `j`) are left out before either reads a run.
"""
import re, subprocess, sys

HEADING = "run\tmicroframes\tframes received\tframes sent\tcredit\tbad blocks\tinput transfers\toutput transfers\tunderruns\trestarts\tenumerations\tMIDI descriptors\tMIDI asleep\tMIDI packets sent\tvendor bytes\trefused calls\tdropped bytes"
# the fields of an observation (the oracle's README), in the order of the columns
FIELDS = [31, 34, 35, 4, 36, 32, 33, 39, 42, 43, 37, 38, 40, 41]


def log_of(command, text):
    return subprocess.run(command, input=text.encode(), stdout=subprocess.PIPE, stderr=subprocess.DEVNULL, check=True).stdout.decode().rstrip("\n").split("\n")


def single(line):
    """A line, or, of one that asks for several microframes, each of them; `x 1` stands behind each."""
    if line[:2] not in ("u ", "U "):
        return [line]
    asked = [int(n, 16) for n in line.split(" ")[1:]]
    count, time, step = asked if line[0] == "U" else (1, asked[0], 0)
    return [part for k in range(count) for part in ("u %x" % (time + k * step), "x 1")]


def rows(oracle, script, judge):
    for run in re.split(r"(?m)^n", script)[1:]:
        lines = [line for line in ("n" + run).rstrip("\n").split("\n") if not re.match(r"[jx] ", line)] + ["o"]
        log = log_of([oracle], "\n".join(lines) + "\n") if not any(line.startswith("c ") for line in lines) else ["outside"]
        if "outside" in log and judge is None:
            sys.exit("a run leaves the oracle's domain")
        if "outside" in log:
            log = log_of([sys.executable, judge, "-8"], "\n".join([lines[0], "j 1"] + [part for line in lines[1:] for part in single(line)]) + "\n")
        last = [line for line in log if line.startswith("o ")][-1].split(" ")
        dropped = sum(int(line.split(" ")[3], 16) for line in log if line.startswith("x 1 "))
        yield [int(last[f], 16) for f in FIELDS] + [sum(line.startswith("refused") for line in log), dropped]


def main():
    oracle, script = sys.argv[1:3]
    table = list(rows(oracle, open(script).read(), sys.argv[3] if len(sys.argv) > 3 else None))
    print(HEADING)
    for k, row in enumerate(table):
        print("\t".join(map(str, [k + 1] + row)))
    print("\t".join(["all"] + [str(sum(column) % 2**64) for column in zip(*table)]))


if __name__ == "__main__":
    main()
