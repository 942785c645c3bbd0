#!/usr/bin/env python3
"""Compares the port's interface choice with the Rust's over descriptor sets, good and damaged.

    config.py RUST PORT [--cases N] [--seed S]   compare; exit 1 at the first difference, with the set in hexadecimal
    config.py RUST --answers FILE                write the Rust's answers for a file of hexadecimal lines
    config.py --sets                             write the chosen sets (crates/configlist/stdin)

RUST is the Rust's `config`: one set on standard input, run once for each set, two at a time.
PORT is the port's `configlist`: a line of hexadecimal for each set, run once for all."""
import argparse
import multiprocessing
import random
import subprocess
import sys

SIZES = [0, 8, 32, 33, 60, 64, 88, 88, 88, 368, 368, 512, 1023, 1024, 2047, 2048, 2136, 0x0C58, 0xFFFF]


def interface(number, alternate, cls=0xFF, length=9):
    return (bytes([length, 4, number, alternate, 1, cls, 0, 0, 0]) + bytes(length))[:length]


def endpoint(address, size, attributes=3, length=7):
    return (bytes([length, 5, address, attributes, size & 255, size >> 8, 1]) + bytes(length))[:length]


def other(kind, length):
    return (bytes([length, kind]) + bytes(range(1, length + 1)))[:length]


HEADER = bytes([9, 2, 0x80, 0, 3, 1, 0, 0x80, 50])


def overbridge():
    """A device with two vendor interfaces of three alternates, audio-like, behind a header."""
    parts = [HEADER]
    for number, address in ((1, 0x83), (2, 0x03)):
        parts.append(interface(number, 0))
        for alternate, size in ((1, 64), (2, 88), (3, 88)):
            parts += [interface(number, alternate), endpoint(address, size)]
    return b''.join(parts)


def many(numbers, alternate=1, size=64):
    return b''.join(interface(n % 256, alternate) + endpoint(0x83, size) for n in numbers)


def chosen():
    """Sets chosen for what each shows."""
    one = interface(1, 2) + endpoint(0x83, 368)
    sets = [
        b'',  # nothing
        one,  # the worked example of document 01
        HEADER + one,  # behind a configuration header
        overbridge(),  # the later of two equal alternates
        overbridge()[:-1],  # the last descriptor cut
        overbridge()[:-7],  # the last descriptor missing
        interface(1, 1) + endpoint(0x83, 88) + interface(1, 2) + endpoint(0x83, 88),  # an equal size takes the later alternate
        interface(1, 1) + endpoint(0x83, 88) + interface(1, 2) + endpoint(0x83, 87),  # a smaller size does not
        interface(1, 1) + endpoint(0x83, 88) + interface(1, 2) + endpoint(0x83, 89),  # a larger one does
        interface(1, 1) + endpoint(0x83, 88) + interface(2, 1) + endpoint(0x83, 8),  # a new interface overwrites with less
        interface(1, 1) + endpoint(0x83, 88) + interface(2, 1) + endpoint(0x83, 8) + interface(1, 3) + endpoint(0x83, 9),  # then 9 is more
        interface(1, 1) + endpoint(0x83, 368) + endpoint(0x03, 88),  # both directions of one alternate
        interface(1, 1) + endpoint(0x03, 33) + interface(1, 2) + endpoint(0x83, 16),  # each direction has its own slot
        interface(1, 1) + endpoint(0x83, 2048),  # bit 11 is not of the size
        interface(1, 1) + endpoint(0x83, 0x1858),  # additional transactions
        interface(1, 1) + endpoint(0x03, 0xFFFF),  # all bits: 2047
        interface(1, 1) + endpoint(0x83, 2047) + interface(1, 2) + endpoint(0x83, 2048),  # 2048 counts as 0
        interface(1, 0) + endpoint(0x83, 368),  # alternate 0
        interface(1, 0) + endpoint(0x83, 368) + interface(1, 1) + endpoint(0x83, 8),  # alternate 0, then 1
        interface(1, 1, 0x01) + endpoint(0x83, 368),  # another class
        interface(1, 1, 0xFE) + endpoint(0x83, 368),  # a class one below
        interface(1, 1) + interface(1, 2, 0x00) + endpoint(0x83, 368),  # the vendor interface is not the one being read
        interface(1, 1) + endpoint(0x83, 368, 0),  # control
        interface(1, 1) + endpoint(0x83, 368, 1),  # isochronous
        interface(1, 1) + endpoint(0x83, 368, 2),  # bulk
        interface(1, 1) + endpoint(0x83, 368, 0xFF),  # interrupt, with bits above
        interface(1, 1, length=8) + endpoint(0x83, 368),  # an interface descriptor too short
        interface(1, 1, length=12) + endpoint(0x83, 368),  # a longer one
        interface(1, 1) + endpoint(0x83, 368, length=6),  # an endpoint descriptor too short
        interface(1, 1) + endpoint(0x83, 368, length=9),  # a longer one
        endpoint(0x83, 368),  # an endpoint before any interface
        interface(1, 1) + other(0x24, 24) + endpoint(0x83, 88),  # a class descriptor between
        interface(1, 1) + bytes([1]) + endpoint(0x83, 88),  # a length of 1 ends the walk
        interface(1, 1) + bytes([0, 0]) + endpoint(0x83, 88),  # a length of 0 too
        interface(1, 1) + endpoint(0x83, 88) + bytes([7]),  # one byte is left
        interface(1, 1) + endpoint(0x83, 88) + bytes([2, 5]),  # a descriptor of two bytes
        interface(1, 1) + endpoint(0x83, 88) + bytes([255]) + bytes(253),  # a descriptor one byte longer than what is left
        interface(0, 255) + endpoint(0x80, 0) + interface(255, 254) + endpoint(0x7F, 1),  # the ends of the ranges
        interface(3, 1) + endpoint(0x83, 88) + interface(1, 1) + endpoint(0x83, 88) + interface(3, 2) + endpoint(0x83, 88),  # order of appearance
        many(range(40)),  # forty interfaces
        many(range(256)),  # every interface number
        many(range(255, -1, -1)) + many(range(256), 2, 64) + many([7, 9], 3, 63),  # all of them twice, and two smaller
    ]
    return sets


def good(rng, length, numbers):
    out = HEADER if rng.random() < 0.5 else b''
    while len(out) < length:
        kind = rng.random()
        if kind < 0.45:
            cls = 0xFF if rng.random() < 0.8 else rng.choice([0, 1, 3, 8, 0xFE])
            out += interface(rng.choice(numbers), rng.choice([0, 1, 1, 2, 3, rng.randrange(256)]), cls, rng.choice([9] * 12 + [8, 10]))
        elif kind < 0.92:
            address = rng.choice([0x83, 0x03, 0x83, 0x03, rng.randrange(256)])
            attributes = 3 if rng.random() < 0.8 else rng.randrange(256)
            size = rng.choice(SIZES) if rng.random() < 0.8 else rng.randrange(65536)
            out += endpoint(address, size, attributes, rng.choice([7] * 12 + [6, 9]))
        else:
            out += other(rng.randrange(256), rng.randrange(2, 30))
    return out


def damaged(rng, data):
    data = bytearray(data)
    for _ in range(rng.randrange(1, 5)):
        kind = rng.randrange(4)
        at = rng.randrange(len(data) + 1)
        if kind == 0 and at < len(data):
            data[at] ^= 1 << rng.randrange(8)
        elif kind == 1 and at < len(data):
            data[at] = rng.randrange(256)
        elif kind == 2:
            data = data[:at] if rng.random() < 0.3 else data[:len(data) - rng.randrange(min(9, len(data) + 1))]
        else:
            data[at:at] = bytes(rng.randrange(256) for _ in range(rng.randrange(1, 4)))
    return bytes(data)


def generated(rng):
    if rng.random() < 0.01:
        # a large set: every interface number in some order, some again, sixteen bytes a pair
        if rng.random() < 0.5:
            numbers = list(range(256))
            rng.shuffle(numbers)
            numbers += [rng.randrange(256) for _ in range(rng.randrange(20))]
            data = many(numbers[:rng.choice([256, 270, 300])], rng.randrange(1, 256), rng.choice(SIZES))
        else:
            data = good(rng, rng.randrange(400, 4000), list(range(256)))
    else:
        data = good(rng, rng.randrange(400), [rng.randrange(256) for _ in range(rng.choice([1, 2, 3, 8]))])
    kind = rng.random()
    if kind < 0.5:
        return data
    if kind < 0.97:
        return damaged(rng, data)
    return bytes(rng.choice([2, 4, 5, 7, 9, 0xFF, rng.randrange(256)]) for _ in range(rng.randrange(60)))


RUST = None


def ask(data):
    return subprocess.run([RUST], input=data, stdout=subprocess.PIPE, check=True).stdout


def rust_answers(sets):
    with multiprocessing.Pool(2) as pool:
        return pool.map(ask, sets, chunksize=200)


def split(text):
    """The answers of one output, by the count of pairs in each heading; a refusal is an answer of one line."""
    lines, answers, i = text.splitlines(keepends=True), [], 0
    while i < len(lines):
        words = lines[i].split()
        more = int(words[2]) if len(words) == 3 and words[2].isdigit() else 0
        answers.append(b''.join(lines[i:i + 1 + more]))
        i += 1 + more
    return answers


def main():
    global RUST
    parser = argparse.ArgumentParser(description=__doc__, formatter_class=argparse.RawDescriptionHelpFormatter)
    parser.add_argument('rust', nargs='?')
    parser.add_argument('port', nargs='?')
    parser.add_argument('--answers', metavar='FILE')
    parser.add_argument('--sets', action='store_true')
    parser.add_argument('--cases', type=int, default=100000)
    parser.add_argument('--seed', type=int, default=1)
    options = parser.parse_args()
    if options.sets:
        for data in chosen():
            print(data.hex())
        return 0
    RUST = options.rust
    if options.answers:
        with open(options.answers) as lines:
            sets = [bytes.fromhex(line) for line in lines.read().split('\n')[:-1]]
        sys.stdout.buffer.write(b''.join(rust_answers(sets)))
        return 0
    rng = random.Random(options.seed)
    sets = chosen()
    while len(sets) < options.cases:
        sets.append(generated(rng))
    want = rust_answers(sets)
    text = ''.join(data.hex() + '\n' for data in sets).encode()
    got = split(subprocess.run([options.port], input=text, stdout=subprocess.PIPE, check=True).stdout)
    for i, data in enumerate(sets):
        if i >= len(got) or got[i] != want[i]:
            print('case %d differs: %s' % (i, data.hex()))
            print('Rust: %r' % want[i])
            print('port: %r' % (got[i] if i < len(got) else b''))
            return 1
    if len(got) != len(sets):
        print('the port gave %d answers to %d sets' % (len(got), len(sets)))
        return 1
    counts = [int(answer.split()[2]) for answer in want]
    print('%d cases compared, all equal: %d bytes, longest %d; %d with pairs, %d with 256, %d with an input size, %d with an output size' % (
        len(sets), sum(map(len, sets)), max(map(len, sets)), sum(c > 0 for c in counts), counts.count(256),
        sum(not a.startswith(b'0 ') for a in want), sum(a.split()[1] != b'0' for a in want)))
    return 0


if __name__ == '__main__':
    sys.exit(main())
