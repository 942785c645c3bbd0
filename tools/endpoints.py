#!/usr/bin/env python3
"""Compares the port's runs over transfer descriptors with the Rust's, one microframe at a time.

    endpoints.py ORACLE PORT [--cases N] [--seed S]   compare N generated cases; exit 1 at the first difference, with the run's lines that led to it
    endpoints.py ORACLE --answers                     write the Rust's answers to the chosen script (crates/endpoints/stdout)
    endpoints.py --script                             write the chosen script (crates/endpoints/stdin)

ORACLE is the Rust's program of that name, PORT the port's `endpoints`. The Rust runs whole microframes, so each of its runs is
first brought to where a microframe does nothing but a run: a serial host that streams runs endpoint 2, input and then
output; a host that has just asked for 64 bytes of a descriptor runs endpoint 0, input and, once that is done or 64 bytes are
there, output of nothing. Those first lines are the Rust's alone; then both clear the windows and read the same lines.
What a request's microframe answers is the Rust's `o` line behind it, since only that has the reply's hash.
A run ends where a byte is stored outside the windows, and where the request ends: both go on at the next `n`."""
import argparse
import random
import subprocess
import sys

DYNAMIC, STATIC, PAGE = 0x40000000, 0x80000000, 0xFC0B0000
USBCMD, USBSTS, USBINTR, FRINDEX, EPLISTADDR, OTGSC, EPSR, EPCOMPLETE, EPCR0 = (PAGE + off for off in (0x140, 0x144, 0x148, 0x14C, 0x158, 0x1A4, 0x1B8, 0x1BC, 0x1C0))
LENGTHS = (0x1000, 0x2000, 0x4000, 0x10000)
ACTIVE, IOC = 0x80, 0x8000
TOTALS = [0, 1, 2, 3, 4, 31, 32, 64, 511, 512, 513, 4095, 4096, 4097, 20480, 32767]
SERIAL_IN, SERIAL_OUT = (0x140, 0x40000), (0x100, 4)
CONTROL_IN, CONTROL_OUT = (0x40, 0x10000), (0, 1)
# EPLISTADDR for the setups of the first lines; the reset is over once URI is clear
FIRST = ['h 0', f'w {USBCMD:x} 00000001', f'w {EPLISTADDR:x} 40000000', 'U 1a0 0 1', f'w {USBSTS:x} 00000000', 'U 60 0 1']
# a stall drops each of the four setups
STREAM = FIRST + [f'w {EPCR0:x} 00010001', 'U 2 0 0'] * 4 + ['h 2']


def text(data):
    return bytes(data).hex() or '-'


def put(address, data):
    return f'w {address % 2**32:x} {text(data)}'


def word(address, *values):
    return put(address, b''.join((v % 2**32).to_bytes(4, 'big') for v in values))


def fill(address, count, byte):
    return f'f {address:x} {count:x} {byte:x}'


def cleared(length):
    return [fill(DYNAMIC, length, 0), fill(STATIC, 0x10000, 0), fill(PAGE, 0x1000, 0)]


def control_run(length, lines):
    """The run as the Rust reads it, and as the port does."""
    new = f'n {length:x} 7 0 0 0 0 0 0 0'
    asked = [part for line in lines for part in ((line, 'o') if line[:1] == 'u' else (line,))]
    return [new] + FIRST + cleared(length) + asked, [new] + cleared(length) + lines


def serial_run(length, lines):
    new = f'n {length:x} 7 0 0 1 0 0 0 0'
    return [new] + STREAM + cleared(length) + lines, [new] + cleared(length) + lines


def registers(**values):
    """The register page anew: zeros, the run bit, and words by name."""
    lines = [fill(PAGE, 0x1000, 0), word(USBCMD, 1)]
    return lines + [word(globals()[name], value) for name, value in values.items()]


def queue_head(address, current, pointer, token=0):
    return word(address + 4, current, pointer, token)


def descriptor(address, pointer, total, pages, flags=ACTIVE | IOC):
    return word(address, pointer, total << 16 | flags, *pages)


# ---- the chosen script

def chosen_serial():
    head_in, head_out = DYNAMIC + 0x140, DYNAMIC + 0x100
    pages = [DYNAMIC + 0x1000 * k for k in (1, 2, 3, 4, 5, 6, 7, 8)]
    lines = ['# pages whose bytes differ, and differ at their ends'] + [line for k, at in enumerate(pages) for line in (fill(at, 0x1000, 0x11 * (k + 1)), put(at, range(16 * k, 16 * k + 4)), put(at + 0xFFC, range(16 * k + 4, 16 * k + 8)))]
    lines += ['# nothing is primed', 's 01020304'] + registers() + ['u 0']
    lines += ['# input of 5 bytes that asks for an interrupt; the list ends, so that the endpoint is primed no more']
    lines += registers(EPLISTADDR=DYNAMIC, EPSR=0x40000, USBINTR=1, FRINDEX=0x3FFF) + [queue_head(head_in, 0, DYNAMIC + 0x400), descriptor(DYNAMIC + 0x400, 1, 5, [DYNAMIC + 0x1234]), put(DYNAMIC + 0x1234, b'hello'), 'u 0', 'p 40000140 10', 'p 40000400 20', 'p fc0b0140 80', 'u 1']
    for total in TOTALS:
        lines += [f'# input of {total} bytes, without an interrupt, from the end of a page']
        lines += registers(EPLISTADDR=DYNAMIC, EPSR=0x40000) + [queue_head(head_in, 0, DYNAMIC + 0x400), descriptor(DYNAMIC + 0x400, 1, total, [pages[0] + 0xFFE] + pages[1:], ACTIVE), 'u 0']
    for total in TOTALS:
        lines += [f'# output of {total} bytes where 600 are queued, of which a microframe takes 512']
        lines += ['s ' + text(k % 251 for k in range(600)) if total in (0, 64, 4096) else 's 0a0b0c0d'] + registers(EPLISTADDR=DYNAMIC, EPSR=4) + [queue_head(head_out, 0, DYNAMIC + 0x400), descriptor(DYNAMIC + 0x400, 1, total, [pages[0] + 0xFFE] + pages[1:]), 'u 0']
    lines += ['# both ways in one microframe, and a second descriptor that stays active: the endpoints stay primed']
    lines += registers(EPLISTADDR=DYNAMIC, EPSR=0xFFFFFFFF) + [queue_head(head_in, 0, DYNAMIC + 0x400), queue_head(head_out, 0, DYNAMIC + 0x440), descriptor(DYNAMIC + 0x400, DYNAMIC + 0x420, 3, pages), descriptor(DYNAMIC + 0x420, 1, 4, pages), descriptor(DYNAMIC + 0x440, DYNAMIC + 0x460, 3, pages), descriptor(DYNAMIC + 0x460, 1, 4, pages), 'u 0', 'u 0', 'u 0']
    lines += ['# by way of the current descriptor, whose own pointer was set later']
    lines += registers(EPLISTADDR=DYNAMIC, EPSR=0x40000) + [queue_head(head_in, DYNAMIC + 0x41F, 1), word(DYNAMIC + 0x400, DYNAMIC + 0x440), descriptor(DYNAMIC + 0x440, 1, 4, pages), 'u 0']
    lines += ['# no current descriptor'] + registers(EPLISTADDR=DYNAMIC, EPSR=0x40000) + [queue_head(head_in, 0x1F, 1), 'u 0']
    lines += ['# an inactive descriptor ends the list'] + registers(EPLISTADDR=DYNAMIC, EPSR=0x40004) + [queue_head(head_in, 0, DYNAMIC + 0x400), queue_head(head_out, 0, DYNAMIC + 0x400), descriptor(DYNAMIC + 0x400, 1, 4, pages, IOC), 'u 0']
    lines += ['# low bits in the pointers to a descriptor'] + registers(EPLISTADDR=DYNAMIC + 0x7FF, EPSR=0x40000) + [queue_head(head_in, 0, DYNAMIC + 0x41E), descriptor(DYNAMIC + 0x400, DYNAMIC + 0x41E, 4, pages), 'u 0', 'p 40000140 10']
    lines += ['# a descriptor that is its own next'] + registers(EPLISTADDR=DYNAMIC, EPSR=0x40000) + [queue_head(head_in, 0, DYNAMIC + 0x400), descriptor(DYNAMIC + 0x400, DYNAMIC + 0x400, 4, pages), 'u 0']
    lines += ['# a descriptor that is its own queue head'] + registers(EPLISTADDR=DYNAMIC, EPSR=0x40000) + [word(head_in, 1, 4 << 16 | ACTIVE, head_in, pages[1]), 'u 0', 'p 40000140 10']
    lines += ['# output over the descriptor\'s own pointers and token, over the queue head, and over EPSR']
    for at in (DYNAMIC + 0x404, DYNAMIC + 0x408, head_out + 4, EPSR, FRINDEX, EPCOMPLETE):
        lines += ['s ' + text(range(0x10, 0x34))] + registers(EPLISTADDR=DYNAMIC, EPSR=4) + [queue_head(head_out, 0, DYNAMIC + 0x400), descriptor(DYNAMIC + 0x400, DYNAMIC + 0x440, 36, [at] + pages), 'u 0', 'p 40000100 10', 'p 40000400 20']
    lines += ['# output whose second page is that of its own descriptor: all pointers are read before the first store']
    lines += ['s ' + text(range(0x40, 0x80))] + registers(EPLISTADDR=DYNAMIC, EPSR=4) + [queue_head(head_out, 0, DYNAMIC), descriptor(DYNAMIC, 1, 64, [pages[0] + 0xFF8, DYNAMIC, pages[2]]), 'u 0', 'p 40000000 40']
    lines += ['# queue heads and a descriptor on the register page: USBINTR is the pointer of the input\'s queue head, OTGSC a token that is not active, then one that is']
    for otg in (0, 5 << 16 | ACTIVE | IOC):
        lines += registers(EPLISTADDR=PAGE, EPSR=0x400C4, USBINTR=PAGE + 0x1A0, USBSTS=0, FRINDEX=0x4440, OTGSC=otg) + ['u 0', 'p fc0b0140 90']
    lines += ['# a descriptor whose token is USBSTS, whose second pointer is FRINDEX and whose fifth is EPLISTADDR']
    lines += registers(EPLISTADDR=DYNAMIC, EPSR=0x40000, USBSTS=20480 << 16 | ACTIVE | IOC, USBINTR=pages[0] + 0xFFE, FRINDEX=pages[2]) + [queue_head(head_in, 0, PAGE + 0x140), 'u 0', 'p fc0b0140 90', 'p 40000140 10']
    lines += registers(EPLISTADDR=PAGE, EPSR=0x40000, USBINTR=STATIC + 0x20) + [descriptor(STATIC + 0x20, 1, 9, [STATIC + 0xFFFC, STATIC]), 'u 0', 'p fc0b0140 90']
    lines += ['# input from no window is zeros'] + registers(EPLISTADDR=STATIC, EPSR=0x40000) + [queue_head(STATIC + 0x140, 0, STATIC + 0x400), descriptor(STATIC + 0x400, 1, 9, [0x10, 0x20]), 'u 0']
    lines += ['# output to no window ends the run', 's 010203'] + registers(EPLISTADDR=STATIC, EPSR=4) + [queue_head(STATIC + 0x100, 0, STATIC + 0x400), descriptor(STATIC + 0x400, 1, 9, [0x10, 0x20]), 'u 0', 'u 0', 'p 40000000 4']
    return lines


def chain(base, totals, flags, last=1):
    """Descriptors one behind another, from an address on; the last one's pointer is given."""
    return [descriptor(base + 32 * k, base + 32 * (k + 1) if k + 1 < len(totals) else last, total, [DYNAMIC + 0x3000 + k], flags) for k, total in enumerate(totals)]


def chosen_control():
    """Lists of a request's cases: each is a run of its own."""
    head_in, head_out, td = DYNAMIC + 0x40, DYNAMIC, DYNAMIC + 0x1000
    start = [put(DYNAMIC + 0x3000, range(256))] + registers(EPLISTADDR=DYNAMIC, EPSR=0x10001, USBINTR=1) + [queue_head(head_in, 0, td), queue_head(head_out, 0, td + 0x1000)]
    given = [descriptor(td + 0x1000, 1, 0, [])]
    runs = [['# 18 bytes that ask for an interrupt, and the status at once'] + start + given + chain(td, [18], ACTIVE | IOC) + ['u 0']]
    runs.append(['# the same with no status yet: the next microframe is status only'] + start + chain(td, [18], ACTIVE | IOC) + ['u 0', word(EPSR, 0x10001)] + chain(td, [18], ACTIVE | IOC) + given + ['u 0'])
    runs.append(['# a status that asks for no interrupt is not the end'] + start + [descriptor(td + 0x1000, 1, 0, [], ACTIVE)] + chain(td, [18], ACTIVE | IOC) + ['u 0'])
    runs.append(['# 60 bytes without an interrupt stay in the data stage; 4 more are enough'] + start + given + chain(td, [20, 40], ACTIVE) + ['u 0', word(EPSR, 0x10001), queue_head(head_in, 0, td)] + chain(td, [4], ACTIVE) + ['u 0'])
    runs.append(['# more than 64 bytes are cut'] + start + chain(td, [63, 2, 1, 0, 5], ACTIVE) + ['u 0'])
    runs.append(['# 66 descriptors: a microframe runs 64 of them, and the endpoint stays primed'] + start + chain(td, [0] * 66, ACTIVE) + ['u 0', 'u 0'])
    runs.append(['# 64 descriptors in a ring'] + start + chain(td, [0] * 64, ACTIVE, td) + ['u 0'])
    runs.append(['# 66 descriptors that the status stage retires, though they move nothing'] + start + chain(td, [1], ACTIVE | IOC) + chain(td + 0x1000, [7] * 66, ACTIVE) + ['u 0', 'u 0'])
    runs.append(['# an inactive descriptor ends the list'] + start + chain(td, [3, 4], ACTIVE) + [word(td + 0x24, 4 << 16), 'u 0'])
    runs.append(['# one descriptor, its own next'] + start + chain(td, [3], ACTIVE, td) + ['u 0'])
    runs.append(['# queue heads on the register page'] + registers(EPLISTADDR=PAGE, EPSR=0x10001) + [queue_head(PAGE + 0x40, 0, td), queue_head(PAGE, 0, td + 0x1000)] + given + chain(td, [9, 9], ACTIVE | IOC) + ['u 0'])
    return [control_run(0x10000, lines) for lines in runs]


def chosen():
    return chosen_control() + [serial_run(0x10000, chosen_serial()), serial_run(0x1000, ['# the same after a run that ended'] + registers() + ['u 0'])]


# ---- generated cases

def mirrored(rng, length, address):
    if DYNAMIC <= address < STATIC and rng.random() < 0.2:
        return DYNAMIC + address % length + length * rng.randrange(DYNAMIC // length)
    if STATIC <= address < 0x8C000000 and rng.random() < 0.2:
        return STATIC + address % 0x10000 + 0x10000 * rng.randrange(0xC00)
    return address


def list_address(rng, length):
    kind = rng.random()
    if kind < 0.6:
        base = DYNAMIC + 0x800 * rng.randrange(length // 0x800)
    elif kind < 0.8:
        base = STATIC + 0x800 * rng.randrange(32)
    elif kind < 0.97:
        base = PAGE + rng.choice([0, 0, 0, 0x800])
    else:
        base = rng.choice([0, 0x3FFFF800, 0x8C000000, 0xFFFFF800])
    return mirrored(rng, length, base) + (rng.randrange(0x800) if rng.random() < 0.2 else 0)


def descriptor_address(rng, length, head):
    kind = rng.random()
    if kind < 0.45:
        return mirrored(rng, length, DYNAMIC + 32 * rng.randrange(length // 32))
    if kind < 0.65:
        return mirrored(rng, length, STATIC + 32 * rng.randrange(0x800))
    if kind < 0.8:
        return PAGE + rng.choice([0x1A0, 0x1A0, 0x140, 0x100, 0x180, 0xFE0, 0x200, 32 * rng.randrange(128)])
    if kind < 0.95:
        return (head + rng.choice([0, 0, 0, 32, -32])) % 2**32
    return rng.choice([STATIC - 32, STATIC, 0x8BFFFFE0, DYNAMIC, 0, 0x3FFFFFE0, 0xFFFFFFE0, PAGE - 32, PAGE + 0x1000])


def page_pointer(rng, length, near, inside):
    kind = rng.random()
    if kind < 0.35:
        base = mirrored(rng, length, DYNAMIC + 0x1000 * rng.randrange(length // 0x1000))
    elif kind < 0.55:
        base = mirrored(rng, length, STATIC + 0x1000 * rng.randrange(16))
    elif kind < 0.65:
        base = PAGE
    elif kind < 0.95 or inside:
        base = rng.choice(near)
        if inside and not reached(base):
            base = DYNAMIC
    else:
        base = rng.choice([0, 0x3FFFF000, 0x8C000000, PAGE - 0x1000, PAGE + 0x1000, 0xFFFFF000, rng.getrandbits(32)])
    return base


def reached(address):
    return DYNAMIC <= address < 0x8C000000 or PAGE <= address < PAGE + 0x1000


def first_pointer(rng, length, near, inside):
    base = page_pointer(rng, length, near, inside)
    kind = rng.random()
    if kind < 0.3:
        return base
    base &= ~0xFFF
    if kind < 0.6:
        return base + rng.choice([0, 1, 0xFFF, 0xFFE, 0xFF0, 0xFFC])
    return base + rng.randrange(0x1000)


def total_bytes(rng):
    kind = rng.random()
    if kind < 0.4:
        return rng.randrange(100)
    if kind < 0.7:
        return rng.choice(TOTALS)
    return rng.getrandbits(15) if kind < 0.75 else rng.randrange(1200)


def token(rng):
    flags = (ACTIVE if rng.random() < 0.9 else 0) | (IOC if rng.random() < 0.6 else 0)
    if rng.random() < 0.3:
        flags |= rng.getrandbits(32) & 0x80007F7F
    return total_bytes(rng) << 16 | flags


def next_pointer(rng, length, td, head):
    kind = rng.random()
    if kind < 0.35:
        return rng.choice([1, 1, 1, rng.getrandbits(32) | 1])
    if kind < 0.5:
        return td | rng.choice([0, 0, 2, 0x1E])
    if kind < 0.9:
        return descriptor_address(rng, length, head) | rng.choice([0, 0, 0, rng.getrandbits(5) & 0x1E])
    return rng.getrandbits(32)


def direction(rng, length, base, offset, inside):
    """A queue head and what it leads to."""
    head = (base + offset) % 2**32
    td = descriptor_address(rng, length, head)
    near = [td, td + 4, td + 8, td + 12, head, head + 4, head + 8, EPSR, EPSR - 2, FRINDEX, EPCOMPLETE, USBSTS, base + 0x140]
    lines = []
    if rng.random() < 0.8:
        pages = [page_pointer(rng, length, near, inside) | (rng.getrandbits(12) if rng.random() < 0.3 else 0) for _ in range(8)]
        if rng.random() < 0.2:
            pages[1] = pages[0]
        lines.append(word(td, next_pointer(rng, length, td, head), token(rng), first_pointer(rng, length, near, inside), *pages))
    if rng.random() < 0.3:
        lines.append(word(descriptor_address(rng, length, head), next_pointer(rng, length, td, head), token(rng)))
    kind = rng.random()
    if kind < 0.75:
        lines.append(queue_head(head, rng.choice([0, td, rng.getrandbits(32)]), td | rng.choice([0, 0, 0, rng.getrandbits(5) & 0x1E]), rng.getrandbits(32)))
    elif kind < 0.9:
        current = descriptor_address(rng, length, head)
        lines += [word(current, td), queue_head(head, current | rng.getrandbits(5), 1 | rng.getrandbits(32))]
    elif kind < 0.95:
        lines.append(queue_head(head, rng.getrandbits(5), 1))
    if rng.random() < 0.5:
        lines.reverse()
    return lines


def page_words(rng, base, primed):
    lines = [fill(PAGE, 0x1000, 0)] if rng.random() < 0.7 else [put(PAGE, rng.randbytes(0x200))]
    values = {EPLISTADDR: base, FRINDEX: rng.choice([0, 7, 0x3FFE, 0x3FFF, 0x4000, 0xFFFFFFFF, rng.getrandbits(14), rng.getrandbits(32)]), USBINTR: rng.choice([0, 1, 0x80, 0x81, rng.getrandbits(32)]),
              USBSTS: rng.choice([0, 0, 0x41, rng.getrandbits(32)]), OTGSC: rng.choice([0, 0, 0x08080000, rng.getrandbits(32)]), EPCOMPLETE: rng.choice([0, rng.getrandbits(32)])}
    lines += [word(a, v) for a, v in values.items()]
    sure = word(EPSR, rng.choice([primed, primed, primed, 0xFFFFFFFF, primed | rng.getrandbits(32), primed & rng.getrandbits(32)]))
    return lines, [sure, word(EPCR0, 0), word(USBCMD, 1 | rng.getrandbits(32) if rng.random() < 0.2 else 1)]


def serial_case(rng, length, inside=True):
    base = list_address(rng, length)
    lines, last = page_words(rng, base, rng.choice([SERIAL_IN[1], SERIAL_OUT[1], SERIAL_IN[1] | SERIAL_OUT[1]]))
    base &= ~0x7FF
    if rng.random() < 0.1:
        lines.append(put(mirrored(rng, length, DYNAMIC + rng.randrange(length)), rng.randbytes(rng.randrange(1, 2000))))
    if rng.random() < 0.6:
        lines.append('s ' + text(rng.randbytes(rng.choice([0, 1, 3, 36, 64, 200, 511, 512, 513, 600]))))
    lines += direction(rng, length, base, SERIAL_IN[0], False) + direction(rng, length, base, SERIAL_OUT[0], inside)
    if rng.random() < 0.8:
        lines += last
    else:
        lines = lines[:1] + last + lines[1:] + last[2:]
    lines.append('u 0')
    while rng.random() < 0.3:
        lines += last + ['u 1']
    return lines


def control_case(rng, length):
    base = list_address(rng, length)
    lines, last = page_words(rng, base, rng.choice([0x10000, 0x10001, 0x10001]))
    base &= ~0x7FF
    lines.append(put(mirrored(rng, length, DYNAMIC + rng.randrange(length)), rng.randbytes(rng.randrange(1, 600))))
    for offset, _ in (CONTROL_IN, CONTROL_OUT):
        head = base + offset
        kind = rng.random()
        if kind < 0.45:
            count = rng.choice([1, 2, 2, 3, 4, 10, 63, 64, 65, 70])
            at = rng.choice([DYNAMIC, STATIC, STATIC + 0x8000]) + 32 * rng.randrange(16)
            flags = ACTIVE | (IOC if rng.random() < 0.3 else 0)
            totals = [rng.choice([0, 0, 1, 2, 8, 20, 63, 64, 65] + TOTALS) if count < 5 else rng.choice([0, 0, 0, 1, 2]) for _ in range(count)]
            lines += chain(at, totals, flags, rng.choice([1, at, at + 32 * rng.randrange(count), rng.getrandbits(32)])) + [queue_head(head, 0, at)]
            if rng.random() < 0.5:
                lines.append(word(at + 32 * rng.randrange(count) + 4, token(rng)))
        else:
            lines += direction(rng, length, base, offset, True)
    lines += last + ['u 0']
    while rng.random() < 0.4:
        lines += direction(rng, length, base, rng.choice([0, 0x40]), True) + last + ['u 1']
    return lines


def generated(rng, cases):
    """Half of the cases are of requests, each a run; the others are runs of some serial cases, the last of which may store outside the windows."""
    runs, done = [], cases // 2
    for _ in range(cases // 2):
        length = rng.choice(LENGTHS)
        runs.append(control_run(length, control_case(rng, length)))
    while done < cases:
        length = rng.choice(LENGTHS)
        count = min(rng.choice([2, 5, 20, 40]), cases - done)
        lines = [line for _ in range(count - 1) for line in serial_case(rng, length)] + serial_case(rng, length, False)
        runs.append(serial_run(length, lines))
        done += count
    return runs


# ---- both programs

def run(program, script):
    done = subprocess.run([program], input=script.encode(), stdout=subprocess.PIPE, check=True)
    return done.stdout.decode().splitlines()


def by_run(answers):
    """The answers to each run: those from one `n` line to the next."""
    parts = []
    for line in answers:
        if line.startswith('n '):
            parts.append([])
        parts[-1].append(line)
    return parts


def serial_answer(line):
    words = line.split(' ')
    return ' '.join(['u'] + [words[i] for i in (44, 47, 48, 14, 49, 50, 51)]) if words[0] == 'u' else line


def control_answers(part):
    """A request's answers, up to its end."""
    answers = []
    for line in part:
        words = line.split(' ')
        if words[0] == 'o':
            answers.append(' '.join(['u'] + [words[i] for i in (44, 7, 8, 10, 59, 49, 50, 51)]))
            if words[7] == '0':
                break
        else:
            answers.append(line)
    return answers


def rust(oracle, runs):
    """The Rust's answers to each run, as the port gives them."""
    parts = by_run(run(oracle, ''.join(line + '\n' for lines, _ in runs for line in lines)))
    return [control_answers(part) if ' 7 0 0 0 ' in lines[0] else [serial_answer(line) for line in part] for (_, lines), part in zip(runs, parts)]


def port_script(runs):
    return [line for _, lines in runs for line in lines]


def asks(lines):
    return [j for j, line in enumerate(lines) if line[:1] not in ('w', 'f', '#', '')]


def compare(oracle, port, runs):
    """The first difference: the lines of the run that led to it, and both answers; or None."""
    want, got = rust(oracle, runs), by_run(run(port, '\n'.join(port_script(runs)) + '\n'))
    for (_, lines), right, left in zip(runs, want, got):
        if right != left:
            k = next((k for k, (a, b) in enumerate(zip(right, left)) if a != b), min(len(right), len(left)))
            places = asks(lines)
            return lines[:places[min(k, len(places) - 1)] + 1], (right + ['(no answer)'])[min(k, len(right))], (left + ['(no answer)'])[min(k, len(left))]
    if not len(want) == len(got) == len(runs):
        sys.exit(f'{len(runs)} runs: the Rust answers {len(want)} and the port {len(got)}')
    control = [a.split(' ') for (_, lines), part in zip(runs, want) if ' 7 0 0 0 ' in lines[0] for a in part if a[:1] == 'u']
    serial = [a.split(' ') for (_, lines), part in zip(runs, want) if ' 7 0 0 1 ' in lines[0] for a in part if a[:1] == 'u']
    print(f'{len(runs)} runs: {len(serial)} microframes on endpoint 2, {sum(a[2] != "0" for a in serial)} with bytes received; {len(control)} on endpoint 0, {sum(a[2] == "0" for a in control)} that ended the request and {sum(a[4] != "0" for a in control)} that left a reply; {sum("outside" in part for part in want)} runs ended outside the windows; all alike')
    return None


def main():
    parser = argparse.ArgumentParser(description=__doc__, formatter_class=argparse.RawDescriptionHelpFormatter)
    parser.add_argument('oracle', nargs='?')
    parser.add_argument('port', nargs='?')
    parser.add_argument('--answers', action='store_true')
    parser.add_argument('--script', action='store_true')
    parser.add_argument('--cases', type=int, default=40000)
    parser.add_argument('--seed', type=int, default=1)
    options = parser.parse_args()
    if options.script:
        print('\n'.join(port_script(chosen())))
        return 0
    if options.answers:
        print('\n'.join(line for part in rust(options.oracle, chosen()) for line in part))
        return 0
    rng = random.Random(options.seed)
    different = compare(options.oracle, options.port, chosen() + generated(rng, options.cases))
    if different:
        lines, want, got = different
        print('\n'.join(lines))
        print(f'the Rust answers {want}')
        print(f'the port answers {got}')
        return 1
    return 0


if __name__ == '__main__':
    sys.exit(main())
