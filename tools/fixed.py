#!/usr/bin/env python3
"""Makes the fixed list that the gate replays: scripts chosen to reach every kind of event, and the Rust's log of them; behind them runs with the
lines that the Rust has not, and the judge's log.

usage: fixed.py FOLDER-OF-THE-ORACLE-PROGRAMS WORKED-EXAMPLES JUDGE SCRIPT LOG
The list is the worked examples of document 01 (the oracle's examples/worked.txt), one long run (the received ring full, the stream counter
round), of generated runs those that a greedy choice needs, and the chosen runs of blocks.py (first bytes, lengths, silence, late waits). Each
candidate of the greedy choice is run by itself with the oracle's figures (-c), and the smallest script that shows an event not seen yet is
taken, until no candidate shows a new one. In generated runs microframes log nothing, but the record is observed after every eighth line of
microframes and at the end. JUDGE is judge.py; it runs the whole list, and its log is to begin with the Rust's. The runs behind the Rust's are those of
added.py, which has what their new lines are to answer.
"""
import os, re, subprocess, sys

sys.dont_write_bytecode = True
import added
import blocks

PAGE, TABLE = 0xFC0B0000, 0x40000000
KINDS = [("real", 21, 120), ("fuzz", 21, 200), ("time", 21, 20)]


def runs_of(text):
    """A script's runs, each from its line `n` on."""
    return ["n" + part for part in re.split(r"(?m)^n", text)[1:]]


def observed(run):
    """The run with no lines for microframes, and observations in their place."""
    out, seen = [], 0
    for line in run.rstrip("\n").split("\n"):
        if re.match(r"h [12]$", line) or line.startswith("#"):
            continue
        out.append(line)
        if line[0] == "n":
            out.append("h 0")
        if line[0] in "uU":
            seen += 1
            if seen % 8 == 0:
                out.append("o")
    return "\n".join(out + ["o"]) + "\n"


def figures(oracle, script):
    """The events that a script shows: the names of all figures that are not 0."""
    done = subprocess.run([oracle, "-c"], input=script.encode(), capture_output=True)
    events = set()
    for line in done.stderr.decode().split("\n"):
        m = re.match(r"\s*(.*?)\s\s+(.*)$", line)
        if not m or m.group(1).startswith(("runs that left", "largest", "longest", "microframes")):
            continue
        for k, n in enumerate(re.findall(r"\d+", m.group(2))):
            if int(n):
                events.add((m.group(1), k))
    left = "outside" in done.stdout.decode()
    return events, left


def long_run():
    """Audio for 9,600 microframes: input descriptors of 88 blocks each, and one for output that is made ready again each time."""
    word = lambda a, v: "w %x %08x" % (a, v)
    out = ["n 100000 bb80 0 0 0 0 0 0 0", "h 0", word(PAGE + 0x158, TABLE), word(PAGE + 0x140, 1), "U 192 0 1", word(PAGE + 0x144, 0), "U 64 0 1"]
    for _ in range(9):
        out += [word(PAGE + 0x1C0, 0x10001), "u 0"]
    chain, data, size = TABLE + 0x1000, TABLE + 0x10000, 88 * 368
    out.append("f %x %x 7" % (data, size))
    for k in range(112):
        td = chain + 64 * k
        pages = "".join("%08x" % (data + 4096 * p) for p in range(9))
        out.append("w %x %08x%08x%s" % (td, td + 64, size << 16 | 0x80, pages))
    room, into = TABLE + 0x400, TABLE + 0x20000
    out.append("w %x %08x%08x%08x" % (room, room, 0x01708080, into))
    out += [word(TABLE + 0x1C8, chain), word(TABLE + 0x188, room), "d 4 1b0 80008"]
    for k in range(9600):
        out += [word(room + 4, 0x01708080), "d 4 1b0 8", "u 0"]
        if k % 600 == 0:
            out.append("o")
    return "\n".join(out + ["o", "T 10", "o"]) + "\n"


def chosen(oracle, gen):
    """The candidates that the greedy choice takes."""
    candidates = []
    for kind, seed, count in KINDS:
        text = subprocess.run([gen, kind, str(seed), str(count)], capture_output=True).stdout.decode()
        for k, run in enumerate(runs_of(text)):
            run = observed(run)
            events, left = figures(oracle, run)
            candidates.append((len(run), "%s %d, run %d" % (kind, seed, k + 1), run, events | ({("outside", 0)} if left else set())))
    candidates.sort()
    seen, taken = figures(oracle, long_run())[0], []
    while True:
        best = max(candidates, key=lambda c: (len(c[3] - seen) / c[0]))
        if not best[3] - seen:
            break
        seen |= best[3]
        taken.append(best)
    return taken, set().union(*(c[3] for c in candidates)) | seen


def main():
    folder, examples, judge, script, log = sys.argv[1:]
    oracle, gen = os.path.join(folder, "oracle"), os.path.join(folder, "gen")
    taken, events = chosen(oracle, gen)
    text = "# The worked examples of document 01 that a run can show.\n" + open(examples).read()
    text += "# One long run: the received ring full, the stream counter round.\n" + long_run()
    for size, name, run, new in taken:
        text += "# gen %s\n%s" % (name, run)
    for name, run in blocks.chosen():
        text += "# %s.\n%s" % (name, run.text())
    rust = subprocess.run([oracle], input=text.encode(), stdout=subprocess.PIPE, check=True).stdout.decode()
    whole, answers = added.behind(judge, text)
    if not answers.startswith(rust):
        sys.exit("the judge and the Rust differ on the list")
    open(script, "w").write(whole)
    open(log, "w").write(answers)
    print("%d generated runs, %d events" % (len(taken), len(events)), file=sys.stderr)


if __name__ == "__main__":
    main()
