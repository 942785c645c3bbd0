#!/usr/bin/env python3
"""Runs with the script lines that the Rust has not (docs/SCRIPT.md, "What the port adds"), and what the new lines are to answer.

usage: added.py JUDGE SCRIPT LOG, where JUDGE is judge.py, the host by documents 01 and 02 in Python, which shares no code with the port; or
added.py SEED RUNS, which writes random runs of busy endpoints for `tools/judged busy SEED RUNS`.
`fixed.py` ends the gate's fixed list so: behind the runs with the Rust's log come the chosen ones here, with the judge's. What each `x` line
answers, and of S-2 each `c` line and each look at sent packets, was reckoned by hand from documents 01 and 02 and stands beside it; a judge that
answers otherwise ends this program.
"""
import random, re, subprocess, sys

TABLE = 0x40000000
LISTS, DATA = TABLE + 0x1000, TABLE + 0xA000
IOC, ACTIVE, LAST = 0x8000, 0x80, 1


def fnv(numbers):
    """FNV-1a of bytes, in 64 bits."""
    all = 0xCBF29CE484222325
    for n in numbers:
        all = (all ^ n) * 0x100000001B3 % 2**64
    return all


class Run:
    def __init__(self, name, stack=0, midi=0, serial=0, table=TABLE):
        """A run whose firmware has started the controller and its list of queue heads; its microframes log nothing."""
        self.name, self.table, self.lines, self.answers = name, table, [], {}
        self.add("n 10000 7 %d %d %d 0 0 0 0" % (stack, midi, serial), "h 0", "d 4 158 %x" % table, "d 4 140 1")

    def add(self, *lines):
        self.lines += lines
        return self

    def asks(self, line, answer):
        """A line, with what it answers."""
        self.answers[len(self.lines)] = answer
        return self.add(line)

    def says(self, answer, *lines):
        """These lines and `x 1`, with what that line answers."""
        return self.add(*lines).asks("x 1", "x 1 " + answer)

    def sends(self, answer, *lines):
        """Lines that send, each with this answer."""
        for line in lines:
            self.asks(line, answer)
        return self

    def cables(self, came="", **packers):
        """`x 2`: the cables that bytes came on, a digit each, and the packers that are not a new host's, as c5="status held sysex"."""
        of = ["x 2 %x %x" % (len(came), fnv(int(digit, 16) for digit in came))] + [packers.pop("c%x" % cable, "0 0 0") for cable in range(16)]
        assert not packers
        return self.asks("x 2", " ".join(of))

    def out(self, *packets):
        """A microframe whose MIDI output stores these packets, and a look at them."""
        self.list(1, 0, [(4 * len(packets), IOC, DATA)], LISTS).primed(2).add("u 0")
        return self.asks("p %x %x" % (DATA, 4 * len(packets)), "p " + "".join(packets).replace(" ", "").lower())

    def head(self, endpoint, into):
        """The queue head's place of the next descriptor: 64 bytes each, OUT before IN."""
        return self.table + 64 * (2 * endpoint + into) + 8

    def list(self, endpoint, into, descriptors, at):
        """A list of descriptors from an address on, each a total, flags and its first page pointer, and the queue head that names it."""
        for k, (total, flags, page) in enumerate(descriptors):
            after = LAST if k + 1 == len(descriptors) else at + 32 * (k + 1)
            self.add("w %x %08x%08x%08x%s" % (at + 32 * k, after, total << 16 | flags | ACTIVE, page, "0" * 32))
        return self.add("w %x %08x" % (self.head(endpoint, into), at))

    def enumerating(self):
        """Up to the microframe that posts the first setup, which asks for 64 bytes."""
        return self.add("U 192 0 0", "d 4 144 40", "U 51 0 0", "u 0")

    def streaming(self):
        """Up to the microframe whose control step ends enumeration; the four requests end by stalls."""
        self.enumerating()
        for k in range(4):
            self.add("d 4 1c0 1", "u 0", *["u 0"] * (k < 3))
        return self

    def block(self, page):
        """A good block towards the host, and a descriptor for one back."""
        self.add("w %x 07" % DATA)
        self.list(3, 1, [(368, IOC, DATA)], LISTS)
        return self.list(3, 0, [(368, IOC, page)], LISTS + 0x40)

    def primed(self, bits):
        return self.add("d 4 1b0 %x" % bits)


def stages(name, count, flags):
    """Endpoint 0 in one microframe: descriptors of one byte each for the data stage, the last with these flags, and 64 for the status stage."""
    run = Run(name).enumerating()
    run.list(0, 1, [(1, 0, DATA + k) for k in range(count - 1)] + [(1, flags, DATA + count - 1)], LISTS)
    run.list(0, 0, [(0, 0, 0)] * 63 + [(0, IOC, 0)], LISTS + 0x1000)
    return run.primed(0x10001).says("80 0", "u 0").add("o")


def runs():
    first = Run("No microframe yet; one in Idle; a setup that is posted; a new run has no microframe yet either").says("0 0").says("0 0", "u 0")
    first.add("U 192 0 0", "d 4 144 40", "U 51 0 0").says("0 0", "u 0")

    busy = Run("Enumeration ends and all streams run: a block each way, eight of nine MIDI descriptors, a packet, a vendor read; then the ninth", 1, 1).streaming()
    busy.add("m f8").block(DATA + 0x1000)
    busy.list(1, 1, [(4, 0, DATA + 0x2000)] * 9, LISTS + 0x80)
    busy.list(1, 0, [(4, IOC, DATA + 0x2100)], LISTS + 0x200).list(2, 1, [(4, IOC, DATA + 0x2200)], LISTS + 0x240)
    busy.primed(0xE000A).says("c 0", "u 0").add("o").says("1 0", "u 0")
    busy.says("1 0", "m 90", "g 1 2 3 4 5 6 7 8 9 a b c", "t", "d 4 144 0", "r 4 144", "p %x 4" % TABLE).says("0 0", "u 0").add("o")

    empty = Run("A MIDI descriptor of no bytes without IOC is retired, and counted by no counter of the record", 0, 1).streaming()
    empty.list(1, 1, [(0, 0, 0)], LISTS).primed(0x20000).says("1 0", "u 0").add("o")

    idle = Run("A descriptor that is not active ends its list and is not retired; its endpoint is un-primed", 0, 1).streaming()
    idle.add("w %x %08x%08x" % (LISTS, LAST, 4 << 16), "w %x %08x" % (idle.head(1, 1), LISTS)).primed(0x20000).says("0 0", "u 0").add("o")

    serial = Run("Serial, one descriptor each way", 0, 0, 1).streaming().add("s 41")
    serial.list(2, 1, [(4, IOC, DATA)], LISTS).list(2, 0, [(4, IOC, DATA + 0x100)], LISTS + 0x40).primed(0x40004).says("2 0", "u 0").add("o")

    on = Run("A block sent to address 0 is dropped; with j 1 the run goes on, and the microframe logs what h asks").streaming()
    on.block(0).primed(0x80008).add("j 1", "h 1").says("2 170", "u 0").says("0 0", "u 0").add("h 0", "o")

    off = Run("The same without j: the run that went on does not count for this one").streaming().block(0).primed(0x80008).add("u 0", "x 1")
    back = Run("The same with j 1 and then j 0").streaming().block(0).primed(0x80008).add("j 1", "j 0", "u 0", "x 1", "o")

    many = Run("Several microframes of one line, the first of which drops a block: x tells of the last").streaming()
    many.block(0).primed(0x80008).add("j 1").says("0 0", "U 3 0 1").add("o")
    return [
        first,
        stages("Data and status stage in one microframe, 64 descriptors each", 64, IOC),
        stages("The same with 65 for the data stage and no IOC: the 64 bytes asked for end it", 65, 0),
        busy,
        empty,
        idle,
        serial,
        on,
        off,
        back,
        many,
    ] + cable_runs()


def cable_runs():
    """S-2: sixteen packers, one queue, and the cables of what comes in."""
    apart = Run("SysEx on cable 1 survives a note on cable 0: three packets in the order of their sends", 1).cables().streaming()
    apart.sends("ok", "c 1 f001").cables(c1="0 2 1").sends("ok", "c 0 903c40").cables(c0="90 0 0", c1="0 2 1").sends("ok", "c 1 02f7").cables(c0="90 0 0").add("o")
    apart.out("09 90 3C 40", "14 F0 01 02", "15 F7 00 00").cables(c0="90 0 0").add("o")

    own = Run("Running status and held bytes are each cable's own; m is cable 0", 1).streaming()
    own.sends("ok", "m 903c", "c 2 903c", "c 3 c0", "c e 2f", "c f f0").cables(c0="90 2 0", c2="90 2 0", c3="c0 0 0", cf="0 1 1")
    own.sends("ok", "c f f7", "c 3 05", "c 2 40", "c 0 41", "m 3d42", "c 2 3c00", "c 3 f6").cables(c0="90 0 0", c2="90 0 0").add("o")
    own.out("F6 F0 F7 00", "3C C0 05 00", "29 90 3C 40", "09 90 3C 41", "09 90 3D 42", "29 90 3C 00", "35 F6 00 00").add("o")

    above = Run("Above f there is no cable, in an empty send neither, nor where a number of eight bits would be one; all stays")
    above.sends("ok", "c e 90", "c f -", "c 000000000000000f -").sends("refused 8", "c 10 -", "c 10 903c40", "c ff f8", "c 100 f8", "c 10e 3c40", "c 1000000000000000 -", "c ffffffffffffffff f8")
    above.cables(ce="90 0 0").add("o")

    shared = Run("The cables share the queue: 4,092 bytes of cable 4, a packet of cable 5, and 7 for each, which leaves its packer")
    shared.sends("ok", "c 4 " + "f8" * 1023, "c 5 f8").sends("refused 7", "c 6 f8", "c 4 f8", "m f8").sends("ok", "c 6 f0", "c 6 -", "m -").sends("refused 7", "c 6 01f7")
    shared.cables(c6="0 1 1").sends("refused 8", "c 10 f8", "c 10 -").add("o")

    came = Run("Cables of what two descriptors bring, as often as the packet has bytes; a microframe that receives none; what is sent between leaves them", 0, 1).streaming()
    came.add("w %x 09903c403ff80000fcc1050070010203" % DATA, "w %x 24f0010225f70000" % (DATA + 0x100), "w %x 57010203" % (DATA + 0x200))
    came.list(1, 1, [(16, 0, DATA), (8, IOC, DATA + 0x100)], LISTS).primed(0x20000).add("h 1", "u 0").cables("0003ff2222").sends("ok", "c 9 90").cables("0003ff2222", c9="90 0 0")
    came.add("u 0").cables(c9="90 0 0").list(1, 1, [(4, IOC, DATA + 0x200)], LISTS).primed(0x20000).add("u 0").cables("555", c9="90 0 0").add("o")

    fresh = Run("A new run has no microframe yet").cables()

    serial = Run("Serial bytes have no cable", 0, 0, 1).streaming().add("w %x 41424344" % DATA)
    serial.list(2, 1, [(4, IOC, DATA)], LISTS).primed(0x40000).add("h 1", "u 0").cables().add("o")
    return [apart, own, above, shared, came, fresh, serial]


def busy(dice):
    """Endpoints with random lists, in enumeration or while streaming; queue heads, descriptors and data in and out of the windows."""
    table = dice.choice([TABLE] * 6 + [0x8BFFF800, 0])
    run = Run("", *[dice.randrange(2) for _ in range(3)], table)
    run.add("j %d" % (dice.randrange(8) > 0), "f %x 1000 7" % DATA)
    dice.choice([run.enumerating, run.streaming])().add("x 1")
    pages = [DATA, DATA + 0xFF0, DATA, 0x8BFFFFF0, 0xFC0B0FF0, 0]
    for microframe in range(dice.randrange(2, 12)):
        for endpoint in range(4):
            for into in range(2):
                count = dice.choice([0, 1, 1, 2, 9]) if endpoint else dice.choice([0, 1, 2, 63, 64, 65, 66])
                totals = dice.choice([[368], [0, 1, 4, 64, 368], [4]] if endpoint else [[0], [1], [0, 1, 4, 64]])
                flags = [dice.choice([0, 0, 0, IOC]) for _ in range(count)]
                at = LISTS + 0x1000 * (2 * endpoint + into) if dice.randrange(16) else dice.choice([0x8BFFFFE0, 0xFC0B0E00, 0x8C000000])
                if count:
                    run.list(endpoint, into, [(dice.choice(totals), f, dice.choice(pages)) for f in flags], at)
        run.add(dice.choice(["m 903c40", "s 414243", "g 1 2 3 4 5 6 7 8 9 a b c", "p %x 4" % TABLE]))
        run.primed(dice.choice([0x10001, 0xF000F, 0xF000F, dice.randrange(16) << 16 | dice.randrange(16)])).add(dice.choice(["u 0", "u 0", "U 3 0 1"]), "x 1")
    return run.add("o")


def text():
    return "".join("# %s.\n%s\n" % (run.name, "\n".join(run.lines)) for run in runs())


def end(before):
    """A last run, which a number behind `j` that is none ends, and the program with it; and its log, by hand: the judge reads any number there."""
    return "# A bad line ends the program.\nn 1000 7 0 0 0 0 0 0 0\nj 2\nx 1\n", "n %x\nbad line\n" % (len(re.findall(r"(?m)^n", before)) + 1)


def log(judge, script):
    """The judge's log of a script that ends with these runs, which is to have their answers."""
    # -8: going does not end a suspend yet
    whole = subprocess.run([sys.executable, judge, "-8"], input=script.encode(), stdout=subprocess.PIPE, check=True).stdout.decode()
    logs = re.split(r"(?m)^(?=n )", whole)
    for run, part in zip(reversed(runs()), reversed(logs)):
        held_to(run, part.split("\n"))
    return whole


def held_to(run, log):
    """Ends the program where a line of a run that has an answer has another in the run's log."""
    at, mode = 0, 1
    for k, line in enumerate(run.lines):
        if run.answers.get(k, log[at]) != log[at]:
            sys.exit("%s: the judge answers %r to %r, where %r was reckoned" % (run.name, log[at], line, run.answers[k]))
        letter, *words = line.split(" ")
        mode = int(words[0]) if letter == "h" else mode
        if letter not in "hjwf" and (mode or letter not in "uU"):
            at += int(words[0], 16) if letter == "U" else 1
        if log[at - 1] == "outside":
            return


def behind(judge, before):
    """A script with these runs behind it, and its log."""
    script = before + text()
    last, answer = end(script)
    return script + last, log(judge, script) + answer


def main():
    if len(sys.argv) == 3:
        seed, count = map(int, sys.argv[1:])
        dice = random.Random(seed)
        print("".join("\n".join(busy(dice).lines) + "\n" for _ in range(count)), end="")
        return
    judge, script, into = sys.argv[1:]
    for path, content in zip((script, into), behind(judge, "")):
        open(path, "w").write(content)


if __name__ == "__main__":
    main()
