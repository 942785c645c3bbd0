#!/usr/bin/env python3
"""Scripts of audio blocks whose first bytes, lengths and order lie near those of good ones.

usage: blocks.py SEED RUNS > SCRIPT
The oracle's `gen` seldom makes a bad block that resembles a good one (docs/DIFFERENCES.md, "What was compared"): this is a kind of its own for
`tools/differential blocks SEED RUNS`. `chosen` is what `fixed.py` puts into the gate's fixed list. Nothing here knows what the host does: the
firmware stalls every setup, so that streaming starts after a known number of microframes, and then makes descriptors ready.
"""
import random, sys

PAGE, TABLE, STATIC = 0xFC0B0000, 0x40000000, 0x80000000
USBCMD, USBSTS, EPLISTADDR, EPPRIME, EPCR0 = 0x140, 0x144, 0x158, 0x1B0, 0x1C0
BLOCK, MOST = 368, 32767
# bytes of a good block's first, 07, with one bit changed, and others that a wrong test may take
NEAR = [7 ^ 1 << k for k in range(8)] + [0, 1, 4, 8, 9, 0x0A, 0x70, 0x77, 0xF7, 0xF8, 0xFF]


class Firmware:
    """The lines of a run. Queue heads lie at the start of dynamic memory, descriptors behind them, sent blocks at +2000, data from +4000 on."""

    def __init__(self, length=0x10000, space=7, stack=0, midi=0, gone=()):
        self.lines, self.time, self.step = [], 0, 1
        spans = "".join(" %x %x" % span for span in gone)
        self.line("n %x %x %x %x 0 0 0 0 %x%s" % (length, space, stack, midi, len(gone), spans))
        self.line("h 0")
        self.register(EPLISTADDR, TABLE)

    def line(self, text):
        self.lines.append(text)

    def store(self, address, data):
        """Bytes into memory, long stretches of one value as a fill."""
        data, k, begun = bytes(data), 0, 0
        while k < len(data):
            n = len(data[k:]) - len(data[k:].lstrip(data[k:k + 1]))
            if n >= 24:
                self.plain(address + begun, data[begun:k])
                self.line("f %x %x %x" % (address + k, n, data[k]))
                begun = k + n
            k += n
        self.plain(address + begun, data[begun:])

    def plain(self, address, data):
        for k in range(0, len(data), 256):
            self.line("w %x %s" % (address + k, data[k:k + 256].hex()))

    def word(self, address, value):
        self.line("w %x %08x" % (address, value))

    def register(self, offset, value):
        self.word(PAGE + offset, value)

    def microframes(self, n=1):
        if n == 0:
            return
        self.line("u %x" % self.time if n == 1 else "U %x %x %x" % (n, self.time, self.step))
        self.time += n * self.step

    def seen(self, n):
        """Microframes whose records are logged."""
        self.line("h 1")
        for _ in range(n):
            self.microframes()
        self.line("h 0")

    def to_stream(self):
        """From Idle or Vbus to Stream: RS, 401 and 81 microframes, and each setup stalled."""
        self.register(USBCMD, 1)
        self.microframes(402)
        self.register(USBSTS, 0)
        self.microframes(100)
        self.stalls()

    def stalls(self):
        """Each setup stalled, up to the end of enumeration."""
        for _ in range(9):
            self.register(EPCR0, 0x10001)
            self.microframes()

    def descriptor(self, at, total, pointers, following=1, flags=0x8080):
        words = [following, total << 16 | flags] + list(pointers)
        self.line("w %x %s" % (at, "".join("%08x" % x for x in words)))

    def ready(self, endpoint, at, total, pointers, flags=0x8080):
        """One descriptor at the head of audio input (7) or output (6), primed."""
        self.descriptor(at, total, pointers, flags=flags)
        self.word(TABLE + 64 * endpoint + 8, at)
        self.line("d 4 %x %x" % (EPPRIME, 1 << 19 if endpoint == 7 else 1 << 3))

    def reads(self, total, data=TABLE + 0x4000, wait=True):
        """An input descriptor over bytes that lie there in a row, and the microframes until its budget is met."""
        self.ready(7, TABLE + 0x1000, total, [(data & ~0xFFF) + 4096 * k if k else data for k in range(9)])
        if wait:
            self.microframes(max(1, -(-total // BLOCK)))

    def sends(self, total=BLOCK):
        """An output descriptor, a microframe, and what it brought."""
        self.store(TABLE + 0x2000, bytes([0x55]) * BLOCK)
        self.ready(6, TABLE + 0x1400, total, [TABLE + 0x2000], 0x80)
        self.microframes()
        self.line("p %x %x" % (TABLE + 0x2000, BLOCK))
        self.line("o")

    def gives(self, words):
        self.line("g " + " ".join("%x" % w for w in words))

    def text(self):
        return "\n".join(self.lines) + "\n"


def block(first, k):
    """A block with that first byte; all other bytes from the fifth on differ from their neighbours, and none is 07."""
    return bytes([first, 0, k >> 8 & 255, k & 255]) + bytes(0x80 | (31 * k + 7 * i) & 127 for i in range(4, BLOCK))


# ---- the chosen runs

def first_bytes():
    """Every first byte, between two good blocks."""
    f = Firmware()
    f.to_stream()
    for k in range(3):
        f.store(TABLE + 0x4000 + BLOCK * k, block(7, k))
    for first in range(256):
        f.line("w %x %02x" % (TABLE + 0x4000 + BLOCK, first))
        f.reads(3 * BLOCK)
        if first % 8 == 7:
            f.line("o")
    f.line("T 100")
    f.line("o")
    return f


def lengths():
    """Runs about each multiple of a block's length: of bytes 07 throughout, and with 07 at the blocks' starts alone."""
    f = Firmware()
    f.to_stream()
    totals = [0, 1, 2, 31, 32, 33, 100, 335, 336, 366, 367, 368, 369, 399, 400, 401, 735, 736, 737, 800, 1103, 1104, 1105, MOST - 15, MOST]
    for whole in (True, False):
        f.store(TABLE + 0x4000, bytes([7]) * MOST if whole else bytes([0]) * MOST)
        for k in range(90 * (not whole)):
            f.line("w %x 07" % (TABLE + 0x4000 + BLOCK * k))
        for total in totals:
            f.reads(total)
            f.line("o")
    return f


def subsets():
    """Runs of three and of four blocks, each set of them bad, and the frames that came."""
    f = Firmware()
    f.to_stream()
    for k in range(4):
        f.store(TABLE + 0x4000 + BLOCK * k, block(7, k))
    for count in (3, 4):
        for bad in range(1 << count):
            for k in range(count):
                f.line("w %x %02x" % (TABLE + 0x4000 + BLOCK * k, 9 if bad >> k & 1 else 7))
            f.reads(BLOCK * count)
            f.line("o")
            for _ in range(2):
                f.line("t")
            f.line("T 40")
            f.line("t")
    return f


def silence():
    """Blocks sent: of frames alone, of three frames and silence, of silence alone, of frames again."""
    f = Firmware(space=14)
    f.to_stream()
    for k in range(6):
        f.store(TABLE + 0x4000 + BLOCK * k, block(7, k))
    f.reads(6 * BLOCK)
    for k in range(10):
        f.gives([(k + 1) << 24 | (c + 1) << 16 | 0x8001 + 256 * k + c for c in range(12)])
    for _ in range(3):
        f.sends()
    for k in range(15):
        f.gives([2**32 - 12 * k - c - 1 for c in range(12)])
    for _ in range(2):
        f.sends()
    f.sends(100)
    f.sends()
    return f


def passes(f):
    """From the microframe after VBUS came or the device left to the first setup and its drop, with the records at each wait's end."""
    f.microframes(398)
    f.seen(4)
    f.register(USBSTS, 0)
    f.microframes(77)
    f.register(EPCR0, 0)
    f.seen(5)
    f.microframes(15996)
    f.seen(5)


def waits():
    """The waits of VBUS, reset and request after a gone span, after the device left, and after a second gone span with 131,072 microframes before
    it; then those of an input descriptor's budget and of the timers."""
    spans = [(0x1000000, 0x1000010), (0x2000000, 0x2000010)]
    f = Firmware(stack=1, midi=1, gone=spans)
    f.to_stream()
    for k, (begun, end) in enumerate(spans):
        f.microframes(0x20000 * k)
        f.time = begun - 1
        f.seen(3)
        f.time = end - 1
        f.seen(2)
        passes(f)
        if k == 0:
            f.register(USBCMD, 0)
            f.seen(1)
            f.register(USBCMD, 1)
            passes(f)
        f.stalls()
    for k in range(5):
        f.store(TABLE + 0x4000 + BLOCK * k, block(7, k))
    f.reads(5 * BLOCK, wait=False)
    f.seen(6)
    f.sends()
    for offset, value in ((0x80, 1000), (0x84, 0xC1000000), (0x88, 250), (0x8C, 0xC0000000)):
        f.line("d 4 %x %x" % (offset, value))
    f.seen(20)
    f.line("o")
    return f


def chosen():
    """The runs of the fixed list, each with its name."""
    return [
        ("Every first byte of a block, between two good blocks", first_bytes()),
        ("Runs about each multiple of a block's length", lengths()),
        ("Runs of three and four blocks, each set of them bad", subsets()),
        ("Blocks sent, of frames and of silence", silence()),
        ("Waits late in a run: VBUS, reset, request, budget, timers", waits()),
    ]


# ---- generated runs

class Choice:
    """Choices that depend on the seed alone."""

    def __init__(self, seed):
        self.source = random.Random(seed)

    def below(self, n):
        return int(self.source.random() * n)

    def of(self, xs):
        return xs[self.below(len(xs))]

    def percent(self, p):
        return self.below(100) < p


def first_byte(r):
    return 7 if r.percent(55) else r.of(NEAR) if r.percent(85) else r.below(256)


def total_of(r):
    """Mostly a multiple of a block's length, or a few bytes beside it."""
    blocks = r.of([1, 1, 1, 2, 2, 3, 3, 4, 5, 8]) if r.percent(97) else r.of([30, 88, 89])
    beside = r.of([0, 0, 0, 0, 0, -1, 1, -2, 2, -BLOCK + 1, 31 - BLOCK, 32, 336 - BLOCK, r.below(BLOCK), 400 - BLOCK])
    return max(0, min(MOST, BLOCK * blocks + beside))


def body(r, total):
    """The run's bytes: first bytes at the blocks' starts, and between them one value, 07 often, or any bytes."""
    data = bytearray([r.of([0, 7, 7, 9, r.below(256)])]) * total
    if r.percent(30):
        for k in range(total):
            data[k] = r.below(256)
    else:
        for _ in range(6 * (total > 0)):
            data[r.below(total)] = r.below(256)
    for k in range(0, total, BLOCK):
        data[k] = first_byte(r)
    return data


def placed(r, f, data):
    """The bytes through nine page pointers, in a row or scattered; the pointers."""
    # pages of dynamic memory from +4000 on and of static memory: 12 and 16
    pages = [TABLE + 0x4000 + 4096 * k for k in range(12)] + [STATIC + 4096 * k for k in range(16)]
    if r.percent(50):
        start = r.below(2)
        taken = pages[start:start + 9]
    else:
        taken = []
        while len(taken) < 9:
            taken.append(pages.pop(r.below(len(pages))))
    offset = 0 if r.percent(40) else r.below(4096) if r.percent(70) else 4096 - 1 - r.below(4)
    at, page = offset, 0
    k = 0
    while k < len(data):
        n = min(4096 - at, len(data) - k)
        f.store(taken[page] + at, data[k:k + n])
        k, at, page = k + n, 0, page + 1
    return [taken[0] + offset] + [p | r.below(4096) * r.percent(30) for p in taken[1:]]


def generated(r):
    stack = r.percent(40)
    gone = [(0x100000, 0x100004)] if r.percent(25) else []
    f = Firmware(space=r.of([7, 8, 14, 64]), stack=int(stack), midi=int(r.percent(30)), gone=gone)
    f.to_stream()
    f.line("h 1")
    for _ in range(4 + r.below(12)):
        # a list of up to three input descriptors
        count = r.of([1, 1, 1, 2, 3])
        totals = [total_of(r) for _ in range(count)]
        while sum(totals) > MOST:
            totals.pop()
        for k, total in enumerate(totals):
            pointers = placed(r, f, body(r, total))
            flags = 0x80 * r.percent(95) | 0x8000 * r.percent(80)
            f.descriptor(TABLE + 0x1000 + 64 * k, total, pointers, TABLE + 0x1040 + 64 * k if k + 1 < len(totals) else 1, flags)
        f.word(TABLE + 64 * 7 + 8, TABLE + 0x1000)
        f.line("d 4 %x %x" % (EPPRIME, 1 << 19))
        for _ in range(r.below(10)):
            f.gives([r.below(2**32) for _ in range(12)])
        needed = sum(max(1, -(-total // BLOCK)) for total in totals)
        for _ in range(min(needed, 12) + r.of([0, 0, 0, 1, -1])):
            if r.percent(60):
                f.ready(6, TABLE + 0x1400, r.of([BLOCK, BLOCK, BLOCK, 367, 369, 736, 100, 0]), [TABLE + 0x2000 + r.below(64), TABLE + 0x3000], 0x80)
            f.microframes()
        if needed > 12:
            f.line("h 0")
            f.microframes(needed - 12)
            f.line("h 1")
        f.line("p %x %x" % (TABLE + 0x2000, BLOCK))
        if r.percent(30):
            f.line("t")
        if r.percent(30):
            f.line("T %x" % r.below(40))
        f.line("o")
        if stack and r.percent(4):
            f.register(USBCMD, 0)
            f.microframes()
            f.line("h 0")
            f.to_stream()
            f.line("h 1")
        if gone and r.percent(10):
            f.time = 0x100000
            f.microframes(5)
            f.line("h 0")
            f.to_stream()
            f.line("h 1")
    f.line("T bb80")
    f.line("o")
    return f


def main():
    seed, runs = int(sys.argv[1]), int(sys.argv[2])
    r = Choice(seed)
    print("# blocks %d %d" % (seed, runs))
    for _ in range(runs):
        sys.stdout.write(generated(r).text())


if __name__ == "__main__":
    main()
