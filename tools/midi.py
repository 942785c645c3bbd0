#!/usr/bin/env python3
"""midi.py RUST PORT [a] [b] [c] [--count N] [--workers N]: the source's `midilist` and the port's on the same inputs.

RUST and PORT are the paths of the two programs. The parts, all three where none is named:
  a   every byte string of length 0, 1 and 2, a process for each
  b   every byte string of length 3, 4 and 5 over seventeen bytes that between them take each way through the packer, many to a process;
      those of length 3 alone too, since only the last line of an output says how many bytes are held
  c   random strings of 0 to 300 bytes from a fixed seed, with many status bytes, a process for each (--count, 100,000 by default)
It prints how many strings each part compared. At the first difference it prints the input in hexadecimal and exits with 1."""
import itertools
import multiprocessing
import os
import random
import sys
import tempfile

KINDS = bytes.fromhex('00 40 80 90 C0 D0 E0 F0 F1 F2 F3 F4 F5 F6 F7 F8 FF')

# After any string these bytes leave a packer with status 0 and nothing held, as a new one is. The first F7 ends SysEx if one runs; the
# second then stands outside SysEx, where it counts as a status, and a status drops what is held; F6 clears that status.
RESET = bytes.fromhex('F7 F7 F6')
BATCH = 20000
CHUNK = 512
SEED = 20261115

programs = []


def start(paths):
    """Keep the two paths, and a file of each worker's own for the input and for each output."""
    global programs, files
    programs = paths
    folder = tempfile.mkdtemp(prefix='midi.')
    files = [os.open(os.path.join(folder, name), os.O_RDWR | os.O_CREAT) for name in ('input', 'output')]
    for name in ('input', 'output'):
        os.unlink(os.path.join(folder, name))
    os.rmdir(folder)


def run(path, data):
    """What a program writes for an input, with its status."""
    source, sink = files
    os.ftruncate(source, 0)
    os.pwrite(source, data, 0)
    os.lseek(source, 0, os.SEEK_SET)
    os.ftruncate(sink, 0)
    os.lseek(sink, 0, os.SEEK_SET)
    moves = [(os.POSIX_SPAWN_DUP2, source, 0), (os.POSIX_SPAWN_DUP2, sink, 1)]
    child = os.posix_spawn(path, [path], {}, file_actions=moves)
    status = os.waitpid(child, 0)[1]
    return status, os.pread(sink, os.fstat(sink).st_size, 0)


def differ(data):
    return run(programs[0], data) != run(programs[1], data)


def single(strings):
    """The first string, alone in its process, on which the two programs differ."""
    for data in strings:
        if differ(data):
            return data
    return None


def joined(strings):
    """The same with the strings in one input, each from a fresh packer; a difference is narrowed to its first string."""
    together = lambda part: b''.join(data + RESET for data in part)
    if not differ(together(strings)):
        return None
    low, high = 0, len(strings)
    while high - low > 1:
        middle = (low + high) // 2
        if differ(together(strings[:middle])):
            high = middle
        else:
            low = middle
    return strings[high - 1]


def chunks(strings, size):
    strings = iter(strings)
    while True:
        part = list(itertools.islice(strings, size))
        if not part:
            return
        yield part


def part_a():
    for length in range(3):
        for data in itertools.product(range(256), repeat=length):
            yield bytes(data)


def part_b(lengths):
    for length in lengths:
        for data in itertools.product(KINDS, repeat=length):
            yield bytes(data)


def part_c(count):
    draw = random.Random(SEED)
    for _ in range(count):
        status = draw.choice((0.1, 0.3, 0.6))
        data = bytearray()
        for _ in range(draw.randrange(301)):
            if draw.random() >= status:
                data.append(draw.randrange(0x80))
            elif draw.random() < 0.5:
                data.append(draw.randrange(0xF0, 0x100))
            else:
                data.append(draw.randrange(0x80, 0x100))
        yield bytes(data)


def compare(pool, name, strings, how, size):
    total = 0
    sizes = []

    def counted():
        for part in chunks(strings, size):
            sizes.append(len(part))
            yield part
    for number, found in enumerate(pool.imap(how, counted())):
        if found is not None:
            print(f'part {name}: the programs differ on: {found.hex(" ").upper() or "(nothing)"}', flush=True)
            pool.terminate()
            sys.exit(1)
        total += sizes[number]
    print(f'part {name}: {total} strings, all alike', flush=True)


def main():
    words, options = [], {'--count': 100000, '--workers': 2}
    given = iter(sys.argv[1:])
    for word in given:
        if word in options:
            options[word] = int(next(given))
        else:
            words.append(word)
    if len(words) < 2 or not set(words[2:]) <= set('abc'):
        sys.exit(__doc__)
    parts = words[2:] or ['a', 'b', 'c']
    paths = [os.path.abspath(path) for path in words[:2]]
    with multiprocessing.Pool(options['--workers'], start, (paths,)) as pool:
        if 'a' in parts:
            compare(pool, 'a', part_a(), single, CHUNK)
        if 'b' in parts:
            compare(pool, 'b, alone', part_b([3]), single, CHUNK)
            compare(pool, 'b, joined', part_b([3, 4, 5]), joined, BATCH)
        if 'c' in parts:
            compare(pool, 'c', part_c(options['--count']), single, CHUNK)


if __name__ == '__main__':
    main()
