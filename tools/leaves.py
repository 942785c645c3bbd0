#!/usr/bin/env python3
"""Compares the port's registers, timers, MIDI sends and memory windows with the Rust's over scripts of calls.

    leaves.py ORACLE PORT [--cases N] [--seed S]   compare N generated runs; exit 1 at the first difference, with the run's lines that led to it
    leaves.py ORACLE --answers FILE                write the Rust's answers to a script (crates/leaves/stdout)
    leaves.py --script                             write the chosen script (crates/leaves/stdin)

ORACLE is the Rust's program of that name, PORT the port's `leaves`; both read the same script, once.
A run of the Rust has its host gone from the first microframe on, so that a microframe does nothing but its timers.
That first microframe also does the going, which stores to OTGSC, PORTSC1 and USBSTS and leaves the line low. So each run
begins with `u 0` on a page of zeros, whose answer is the same on both sides, and then writes the page, whose bytes are not.
A run of the windows has no microframe; its dynamic memory is of each length that the port takes."""
import argparse
import random
import subprocess
import sys

NEW = 'n 1000 7 0 1 0 0 0 0 1 0 ffffffffffffffff'
PAGE = 0xFC0B0000
USBCMD, USBSTS, USBINTR, FRINDEX, EPLISTADDR, EPNAK, PORTSC1, OTGSC = 0x140, 0x144, 0x148, 0x14C, 0x158, 0x178, 0x184, 0x1A4
EPSETUPSR, EPPRIME, EPFLUSH, EPSR, EPCOMPLETE, EPCR0 = 0x1AC, 0x1B0, 0x1B4, 0x1B8, 0x1BC, 0x1C0
LOAD, CONTROL = (0x80, 0x88), (0x84, 0x8C)
REGISTERS = [USBCMD, USBSTS, USBINTR, FRINDEX, EPLISTADDR, EPNAK, PORTSC1, OTGSC, EPSETUPSR, EPPRIME, EPFLUSH, EPSR, EPCOMPLETE, EPCR0, 0x80, 0x84, 0x88, 0x8C]
OUTSIDE = [0xFFC, 0xFFD, 0xFFE, 0xFFF, 0x1000, 0x1001, 0x1002, 0x1004, 0x1144, 0x4140, 0x7FFFFFFC, 0xFFFFFFFC, 0xFFFFFFFE, 0xFFFFFFFF]
LENGTHS = (0x1000, 0x2000, 0x4000, 0x8000, 0x10000)
DYNAMIC, STATIC, STATIC_END = 0x40000000, 0x80000000, 0x8C000000
RUN, RESET, REPEAT = 1 << 31, 1 << 30, 1 << 24
WHOLE = 'p fc0b0000 1000'


def text(data):
    return bytes(data).hex() or '-'


def read(size, off):
    return f'r {size:x} {off:x}'


def write(size, off, value):
    return f'd {size:x} {off:x} {value:x}'


def store(off, data):
    return f'w {(PAGE + off) % 2**32:x} {text(data)}'


def store_word(off, value):
    return store(off, value.to_bytes(4, 'big'))


def send(data):
    return f'm {text(data)}'


# ---- the chosen script

def begin(comment):
    return ['# ' + comment, NEW, 'u 0', store(USBSTS, bytes(OTGSC + 4 - USBSTS))]


def chosen_accesses():
    lines = begin('each run begins with the microframe in which the Rust\'s host goes, and with the registers that it changes, from USBSTS to OTGSC, set back to 0')
    lines += ['o', WHOLE]
    lines += ['# reads of one, two and four bytes']
    lines += [store(0x100, range(0x11, 0x19))] + [read(1, 0x100), read(1, 0x103), read(2, 0x100), read(2, 0x102), read(4, 0x100), read(4, 0x104)]
    lines += ['# refused: not aligned']
    lines += [read(2, 0x101), read(4, 0x101), read(4, 0x102), read(4, 0x103)]
    lines += ['# refused: sizes 0, 3, 5 to 8 and beyond']
    lines += [read(s, 0x100) for s in (0, 3, 5, 6, 7, 8, 0x10, 0xFFFFFFFF)]
    lines += ['# the last places of the page, and refused: places past it']
    lines += [store(0xFFC, [0xA1, 0xA2, 0xA3, 0xA4]), read(1, 0xFFF), read(2, 0xFFE), read(4, 0xFFC)]
    lines += [read(1, 0x1000), read(2, 0x1000), read(4, 0x1000), read(2, 0xFFF), read(4, 0x4140), read(1, 0xFFFFFFFF), read(2, 0xFFFFFFFE), read(4, 0xFFFFFFFC)]
    lines += ['# bytes are stored on the page only, and seen as 0 outside it; addresses go on at 0']
    lines += [store(-2, range(1, 5)), store(0xFFE, range(5, 9)), 'p fc0affff 4', 'p fc0b0ffe 4', 'w fffffffe 01020304', 'p fffffffe 4', 'p fc0b0000 0', 'w fc0b0100 -', 'p fc0b00ff a']
    lines += ['# plain writes: the low bits of the value, whatever stands above them']
    lines += [write(1, 0x200, 0x12345678), write(2, 0x202, 0x12345678), write(4, 0x204, 0x12345678), 'p fc0b0200 8', write(1, 0xFFF, 0x100), write(2, 0xFFE, 0xFFFF0000), write(4, 0xFFC, 0xFFFFFFFF), 'p fc0b0ffc 4']
    lines += ['# refused writes change nothing']
    lines += [write(0, 0x200, 1), write(3, 0x200, 1), write(8, 0x200, 1), write(2, 0x201, 1), write(4, 0x202, 1), write(1, 0x1000, 1), write(4, 0x4144, 1), write(4, 0xFFFFFFFC, 1), 'p fc0b0200 8', 'o']
    return lines


def chosen_registers():
    lines = begin('USBCMD: its reset bit is never seen by four bytes, and never stored by them')
    lines += [write(4, USBCMD, 0xFFFFFFFF), 'p fc0b0140 4', store_word(USBCMD, 0x00080003), read(4, USBCMD), read(2, USBCMD + 2), read(1, USBCMD + 3), write(1, USBCMD + 3, 2), 'p fc0b0140 4', read(4, USBCMD), write(4, USBCMD, 2), 'p fc0b0140 4']
    lines += ['# USBSTS, EPNAK, EPSETUPSR and EPCOMPLETE: a 1 clears its bit']
    for off in (USBSTS, EPNAK, EPSETUPSR, EPCOMPLETE):
        lines += [store_word(off, 0xF0F0A55A), write(4, off, 0x0F0FA50F), read(4, off)]
    lines += ['# by one or two bytes the same registers are plain']
    for off in (USBSTS, OTGSC, EPPRIME):
        lines += [store_word(off, 0x01020304), write(1, off, 0xFF), write(2, off + 2, 0xA5A5), f'p {PAGE + off:x} 4']
    lines += [store_word(off, 0) for off in (USBSTS, OTGSC)]
    lines += ['# OTGSC: bits 16 to 22 clear by a 1, bits 8 to 14 stay, the rest is plain']
    lines += [store_word(OTGSC, 0x007F7F00), write(4, OTGSC, 0xFF00FFFF), read(4, OTGSC), write(4, OTGSC, 0x00150000), read(4, OTGSC), store_word(OTGSC, 0), write(4, OTGSC, 0xFFFFFFFF), read(4, OTGSC), write(4, OTGSC, 0x08000000), read(4, OTGSC)]
    lines += ['# EPPRIME sets bits of EPSR and EPFLUSH clears them; both are stored as 0 and read as 0']
    lines += [store_word(EPPRIME, 0x11111111), store_word(EPFLUSH, 0x22222222), read(4, EPPRIME), read(4, EPFLUSH), read(2, EPPRIME), read(1, EPFLUSH), write(4, EPPRIME, 0x00030001), read(4, EPSR), write(4, EPPRIME, 0x00000004), read(4, EPSR), 'p fc0b01b0 c', write(4, EPFLUSH, 0x00010004), read(4, EPSR), write(4, EPFLUSH, 0xFFFFFFFF), 'p fc0b01b0 c']
    lines += ['# the other registers are plain, and so are the places beside those above']
    for off in (USBINTR, FRINDEX, EPLISTADDR, PORTSC1, EPSR, EPCR0, USBCMD - 4, EPNAK + 4):
        lines += [write(4, off, 0xC3C3F00F), write(4, off, 0x5A5A0FF0 + off), read(4, off)]
    return lines + [WHOLE]


def chosen_line():
    lines = begin('the line: an enabled bit of USBSTS, as each listed four-byte write finds it')
    lines += [store_word(USBSTS, 0x00000044), 'o', write(4, USBINTR, 0x40), 'o', write(4, USBSTS, 4), 'o', write(4, USBINTR, 0), 'o', write(4, EPNAK, 0), 'o', write(4, USBINTR, 0x40), write(4, EPCOMPLETE, 0), 'o', write(4, USBSTS, 0x40), 'o']
    lines += ['# writes of one and two bytes, refused ones and those of the caller leave it']
    lines += [write(2, USBSTS + 2, 0x40), 'o', write(4, 0x1000, 0), 'o', write(4, EPSETUPSR, 0), 'o', store_word(USBSTS, 0), 'o', write(1, USBSTS, 0), 'o', write(4, USBCMD, 0), 'o']
    lines += ['# the line: an OTGSC status bit whose enabling bit stands, of seven']
    for bit in (0, 6, 7):
        lines += [store_word(OTGSC, 1 << (16 + bit) | 1 << (24 + bit)), write(4, EPFLUSH, 0), 'o', store_word(OTGSC, 1 << (16 + bit)), write(4, EPPRIME, 0), 'o']
    lines += [store_word(OTGSC, 0x00080000), write(4, OTGSC, 0x08000000), 'o', write(4, OTGSC, 0x08080000), 'o', read(4, OTGSC)]
    return lines


def microframes(count):
    return [f'u {k + 1:x}' for k in range(count)]


def timer(k, load, control):
    return [write(4, LOAD[k], load), write(4, CONTROL[k], control)]


def chosen_timers():
    lines = begin('timer 0, one shot of 1,000: it expires in the ninth microframe, stops, and its bit of USBSTS stands')
    lines += timer(0, 1000, RUN) + microframes(10) + [read(4, USBSTS), read(4, CONTROL[0])]
    lines += ['# again, with its interrupt enabled: the line follows']
    lines += [write(4, USBSTS, 0x01000000), write(4, USBINTR, 0x01000000), 'o'] + timer(0, 200, RUN) + microframes(2) + ['o', write(4, USBSTS, 0x01000000), 'o']
    lines += begin('timer 1, repeating at 1,000: it goes on at what is left and 1 and the load')
    lines += timer(1, 1000, RUN | REPEAT) + [write(4, USBINTR, 0x02000000)] + microframes(9) + [write(4, USBSTS, 0x02000000)] + microframes(8) + [read(4, USBSTS), read(4, CONTROL[1])]
    for load in (0, 124, 125):
        lines += begin(f'one shot of {load} on timer 0, and repeating at {load} on timer 1')
        lines += timer(0, load, RUN) + timer(1, load, RUN | REPEAT) + microframes(2) + [read(4, USBSTS)]
    lines += begin('a load\'s bits above 24 are not of it, and a control word\'s other bits stay')
    lines += timer(0, 0xFF0000FF, RUN | 0x00ABCDEF) + timer(1, 0x010000FF, RUN | REPEAT | 0x3E123456) + microframes(3) + [read(4, off) for off in (0x84, 0x8C, USBSTS)]
    lines += begin('a reset bit alone unloads a timer, and goes')
    lines += timer(0, 1000, RUN) + microframes(2) + [write(4, CONTROL[0], RESET)] + microframes(1) + [read(4, CONTROL[0]), write(4, CONTROL[0], RUN)] + microframes(1)
    lines += ['# with the run bit it loads anew']
    lines += [write(4, CONTROL[0], RUN | RESET)] + microframes(2) + [read(4, CONTROL[0])]
    lines += ['# where the timer also expires, the reset bit comes back with the word that is stored, unless the timer repeats']
    lines += timer(0, 100, RUN | RESET) + timer(1, 100, RUN | RESET | REPEAT) + microframes(1) + [read(4, CONTROL[0]), read(4, CONTROL[1])] + microframes(2) + [read(4, CONTROL[0]), read(4, USBSTS)]
    lines += begin('without its run bit a timer keeps its count; a load written while it counts waits for the next start')
    lines += timer(0, 500, RUN | REPEAT) + microframes(1) + [write(4, CONTROL[0], REPEAT)] + microframes(2) + timer(0, 2000, RUN | REPEAT) + microframes(5)
    lines += ['# both timers expire in one microframe']
    lines += [write(4, CONTROL[0], RESET), write(4, CONTROL[1], RESET)] + microframes(1) + timer(0, 1, RUN) + timer(1, 2, RUN) + [write(4, USBINTR, 0x03000000)] + microframes(1) + [read(4, USBSTS), write(4, USBSTS, 0x01000000), 'o', write(4, USBSTS, 0x02000000), 'o', WHOLE]
    return lines


def observed(*sends):
    return [line for data in sends for line in (send(bytes.fromhex(data) if isinstance(data, str) else data), 'o')]


def chosen_sends():
    lines = begin('a message in one send, in parts, and by running status; data with no status is dropped; an empty send')
    lines += ['o'] + observed('', '4041', '903c40', '90', '3c', '41', '3e42', 'c00506', 'd07fe00040')
    lines += ['# a status byte drops what is held']
    lines += observed('903c', '804000')
    lines += ['# system common: F1 and F3 have one byte, F2 two, and no status runs on after them']
    lines += observed('f12223', 'f33435', 'f2010203')
    lines += ['# F4 and F5 count as messages of three bytes; a stray F7 too']
    lines += observed('f4010203', 'f5010203', 'f7030405', 'f7')
    lines += ['# F6 at once, also with bytes held, which stay held with no status']
    lines += observed('f6', '903cf6', '40', '903c40')
    lines += ['# realtime anywhere, and it disturbs nothing']
    lines += observed('90f83cfa40', 'f001fe02ff', 'f7')
    lines += begin('SysEx that ends in each place of a packet, and in parts')
    lines += observed('f0f7', 'f001f7', 'f00102f7', 'f0010203f7', 'f001', '0203', 'f7')
    lines += ['# status bytes inside SysEx are its bytes, F0 and F6 too; afterwards no status runs']
    lines += observed('903cf090c0', 'f0f6f4f5', 'f7', '3c40')
    lines += begin('4,092 bytes in the queue: one packet more fits, two do not, and a refused send changes nothing')
    lines += observed(b'\xf8' * 1023, 'f8f8', '903c403c40', '903c', 'f840', '40', '')
    lines += ['# 4,096 bytes in the queue: bytes that make no packet are taken, a packet is not']
    lines += observed('3c', '40', 'f8', 'f001', '02', 'f7', '90')
    lines += begin('1,024 packets in one send fit, 1,025 do not')
    lines += observed(b'\xf8' * 1025, b'\xf8' * 1024)
    lines += begin('the same with notes by running status, whose last send leaves a byte over')
    lines += observed(b'\x90' + b'\x3c\x40' * 1023 + b'\x3c', '403c40', '40')
    return lines


def new_run(length):
    return NEW.replace('1000', f'{length:x}', 1)


def put(address, data):
    return f'w {address % 2**32:x} {text(data)}'


def fill(address, count, byte):
    return f'f {address % 2**32:x} {count:x} {byte:x}'


def look(address, count):
    return f'p {address % 2**32:x} {count:x}'


def chosen_windows():
    lines = []
    for length in LENGTHS:
        last = DYNAMIC + length - 1
        lines += [f'# dynamic memory of {length:x}: zeros, its first and last bytes, and their mirrors', new_run(length)]
        lines += [look(DYNAMIC, 4), look(last - 1, 4), put(DYNAMIC, [0xA1]), put(last, [0xA2]), look(DYNAMIC - 2, 4), look(last - 1, 4), look(DYNAMIC + length, 2), look(DYNAMIC + 3 * length - 1, 2), look(STATIC - 2, 4)]
        lines += [put(last + length, [0xB1, 0xB2, 0xB3]), look(DYNAMIC, 4), look(last - 1, 4)]
        lines += ['# from the last address of dynamic memory into static memory, and its mirrors']
        lines += [put(STATIC - 3, range(1, 7)), look(STATIC - 4, 8), look(last - 3, 8), look(STATIC + 0x10000, 4), look(STATIC_END - 0x10000, 4)]
    lines += ['# static memory\'s last addresses: its last byte, and nothing behind it']
    lines += [put(STATIC_END - 2, range(0x11, 0x15)), look(STATIC_END - 3, 6), look(STATIC + 0xFFFD, 4), look(STATIC + 0x1FFFE, 4)]
    lines += ['# the page, and nothing on either side']
    lines += [put(PAGE - 2, range(0x21, 0x26)), look(PAGE - 2, 6), put(PAGE + 0xFFE, range(0x31, 0x36)), look(PAGE + 0xFFD, 6), fill(PAGE - 4, 0x1008, 0x5A), look(PAGE - 4, 8), look(PAGE + 0xFFC, 8), look(PAGE + 0x7FE, 4)]
    lines += ['# around address 0, below dynamic memory, and between the windows']
    lines += [put(-2, range(0x41, 0x45)), look(-2, 4), put(DYNAMIC - 2, range(0x51, 0x55)), look(DYNAMIC - 2, 4), put(0xA0000000, [0x61]), look(0xA0000000, 1), fill(-0x10, 0x20, 0xFF), look(-0x10, 0x20)]
    lines += ['# fills: of no byte, over a whole memory and round it, the last byte of which wins']
    lines += [fill(DYNAMIC, 0, 0x77), look(DYNAMIC, 2), fill(DYNAMIC + 0x100, 0x10001, 0x77), fill(DYNAMIC + 0x100, 1, 0x78), look(DYNAMIC + 0xFE, 4), look(DYNAMIC, 2), fill(STATIC - 2, 0x10002, 0x79), look(STATIC - 3, 5), look(STATIC + 0xFFFF, 2)]
    lines += ['# a new run is zeros again', new_run(0x2000), look(DYNAMIC, 0x10), look(STATIC, 0x10), look(STATIC + 0xFFF0, 0x10), look(PAGE, 0x10), look(PAGE + 0xFF0, 0x10)]
    return lines


def chosen():
    return chosen_accesses() + chosen_registers() + chosen_line() + chosen_timers() + chosen_sends() + chosen_windows()


# ---- generated runs

def value(rng):
    kind = rng.randrange(10)
    if kind < 4:
        return rng.getrandbits(32)
    if kind < 5:
        return 0xFFFFFFFF
    if kind < 7:
        return 1 << rng.randrange(32)
    if kind < 8:
        return 0xFFFFFFFF ^ (1 << rng.randrange(32))
    return rng.choice([0, 1, 2, 3, 0xFF, 0x10001, 0x007F0000, 0x7F00, 0x7F7F0000, 0x41])


def page(rng):
    kind = rng.random()
    if kind < 0.3:
        return bytes(4096)
    if kind < 0.8:
        return rng.randbytes(4096)
    data = bytearray(4096)
    for off in REGISTERS:
        data[off:off + 4] = value(rng).to_bytes(4, 'big')
    return bytes(data)


def access(rng):
    size = rng.choice([4] * 10 + [1, 1, 1, 2, 2, 2, 0, 3, 5, 6, 7, 8, rng.randrange(9), rng.getrandbits(32)])
    kind = rng.random()
    if kind < 0.6:
        off = rng.choice(REGISTERS)
    elif kind < 0.8:
        off = rng.choice(REGISTERS) + rng.randrange(-8, 9)
    elif kind < 0.9:
        off = rng.randrange(4096)
    else:
        off = rng.choice(OUTSIDE + [rng.getrandbits(32)])
    if size in (2, 4) and rng.random() < 0.7:
        off -= off % size
    return size, off


def start(rng):
    return [NEW, 'u 0', store(0, page(rng))]


def accesses_run(rng):
    lines = start(rng)
    for _ in range(300):
        size, off = access(rng)
        if rng.random() < 0.4:
            lines.append(read(size, off))
        else:
            lines.append(write(size, off, value(rng)))
            if rng.random() < 0.5:
                lines.append(read(4, off - off % 4))
        kind = rng.random()
        if kind < 0.06:
            lines.append('o')
        elif kind < 0.09:
            lines.append(store(rng.choice(REGISTERS) + rng.randrange(-4, 5), rng.randbytes(rng.randrange(1, 9))))
        elif kind < 0.1:
            lines.append(store(rng.choice([-3, 0xFFD]), rng.randbytes(6)))
        elif kind < 0.13:
            lines.append(f'p {PAGE + rng.choice(REGISTERS + [-4, 0xFFC]) - 2:x} 8')
    return lines + ['o', WHOLE]


def load(rng):
    kind = rng.random()
    if kind < 0.6:
        n = rng.choice([0, 1, 123, 124, 125, 126, 249, 250, 251, 1000])
    elif kind < 0.8:
        n = rng.randrange(3000)
    else:
        n = rng.getrandbits(24)
    return n | (rng.randrange(256) << 24 if rng.random() < 0.2 else 0)


def control(rng):
    word = RUN if rng.random() < 0.85 else 0
    word |= RESET if rng.random() < 0.25 else 0
    word |= REPEAT if rng.random() < 0.5 else 0
    return word | (rng.getrandbits(24) if rng.random() < 0.3 else 0) | (rng.getrandbits(5) << 25 if rng.random() < 0.1 else 0)


def timers_run(rng):
    lines = start(rng)
    if rng.random() < 0.8:
        lines += [write(4, USBINTR, rng.choice([0, 1 << 24, 1 << 25, 3 << 24, 0xFFFFFFFF])), write(4, USBSTS, 0xFFFFFFFF), store_word(OTGSC, 0)]
    for k in (0, 1):
        lines += timer(k, load(rng), control(rng))
    for _ in range(40):
        lines += [f'u {rng.getrandbits(rng.choice([8, 32, 63])):x}' for _ in range(rng.choice([1, 1, 2, 3, 5, 9]))]
        k = rng.randrange(2)
        kind = rng.randrange(8)
        if kind == 0:
            lines.append(write(4, CONTROL[k], control(rng)))
        elif kind == 1:
            lines.append(write(4, LOAD[k], load(rng)))
        elif kind == 2:
            lines += timer(k, load(rng), control(rng))
        elif kind == 3:
            lines.append(write(4, USBSTS, rng.choice([1 << 24, 1 << 25, 3 << 24, 0xFFFFFFFF])))
        elif kind == 4:
            lines.append(store_word(CONTROL[k], control(rng)))
        elif kind == 5:
            lines.append(write(4, USBINTR, rng.choice([0, 1 << 24, 1 << 25, 3 << 24, rng.getrandbits(32)])))
        else:
            lines += [read(4, USBSTS), read(4, CONTROL[k])]
    return lines + ['o', WHOLE]


def midi_bytes(rng):
    kind = rng.randrange(12)
    if kind == 0:
        return b''
    if kind < 3:
        return rng.randbytes(rng.randrange(1, 30))
    if kind < 5:
        return bytes(rng.choice([rng.randrange(128), rng.randrange(0x80, 0x100), rng.randrange(0xF0, 0x100)]) for _ in range(rng.randrange(1, 20)))
    out = b''
    for _ in range(rng.randrange(1, 6)):
        form = rng.randrange(7)
        if form == 0:
            out += bytes([rng.randrange(0x80, 0xF0)]) + bytes(rng.randrange(128) for _ in range(rng.randrange(7)))
        elif form == 1:
            out += b'\xf0' + bytes(rng.randrange(128) for _ in range(rng.randrange(12))) + (b'\xf7' if rng.random() < 0.8 else b'')
        elif form == 2:
            out += bytes([rng.randrange(0xF8, 0x100)])
        elif form == 3:
            out += bytes([rng.randrange(0xF1, 0xF8)]) + bytes(rng.randrange(128) for _ in range(rng.randrange(3)))
        elif form == 4:
            out += b'\xf7'
        else:
            out += bytes(rng.randrange(128) for _ in range(rng.randrange(4)))
    return out


def sends_run(rng):
    lines = start(rng)
    kind = rng.random()
    if kind < 0.3:
        lines += [send(b'\xf8' * (1024 - rng.randrange(12))), 'o']
    elif kind < 0.4:
        lines += [send(b'\x90' + b'\x3c\x40' * (1024 - rng.randrange(6)) + bytes(rng.randrange(2))), 'o']
    for _ in range(60):
        lines += [send(midi_bytes(rng)), 'o']
    for _ in range(rng.randrange(3)):
        big = rng.choice([b'\xf8' * rng.randrange(900, 1200), b'\xf0' + rng.randbytes(rng.randrange(2500, 4000)) + b'\xf7', b'\x90' + b'\x01\x02' * rng.randrange(700, 1100)])
        lines += [send(big), 'o', send(midi_bytes(rng)), 'o']
    return lines + [WHOLE]


def edge(rng, length):
    """An address at or near the end of a window, of one of its mirrors, or anywhere."""
    kind = rng.randrange(12)
    if kind < 2:
        at = DYNAMIC + rng.choice([0, length, length * rng.randrange(DYNAMIC // length + 1), DYNAMIC])
    elif kind < 4:
        at = STATIC + rng.choice([0, 0x10000, 0x10000 * rng.randrange(0xC01), 0xC000000])
    elif kind < 6:
        at = rng.choice([PAGE, PAGE + 0x1000])
    elif kind < 7:
        at = 0
    elif kind < 8:
        return DYNAMIC + rng.randrange(DYNAMIC)
    elif kind < 9:
        return STATIC + rng.randrange(STATIC_END - STATIC)
    elif kind < 10:
        return PAGE + rng.randrange(0x1000)
    elif kind < 11:
        return rng.getrandbits(32)
    else:
        at = rng.choice([DYNAMIC, STATIC, STATIC_END])
    return at + rng.choice([-1, 0, -2, 1, rng.randrange(-40, 40)])


def mirror(rng, length, address):
    """The address of the same byte in another mirror, or the address itself."""
    address %= 2**32
    if DYNAMIC <= address < STATIC:
        return DYNAMIC + address % length + length * rng.randrange(DYNAMIC // length)
    if STATIC <= address < STATIC_END:
        return STATIC + address % 0x10000 + 0x10000 * rng.randrange(0xC00)
    return address


def windows_run(rng):
    length = rng.choice(LENGTHS)
    lines = [new_run(length)]
    for _ in range(100):
        address = edge(rng, length)
        kind = rng.random()
        if kind < 0.75:
            count = rng.choice([1, 2, 3, 4, rng.randrange(1, 60)])
            lines.append(put(address, rng.randbytes(count)))
        elif kind < 0.78:
            count = rng.randrange(2000, 4200)
            lines.append(put(address, rng.randbytes(count)))
        else:
            count = rng.choice([0, 1, 5, rng.randrange(200), 0x1000, length, length + 1, rng.randrange(0x20000)])
            lines.append(fill(address, count, rng.randrange(256)))
        lines += [look(address - 2, min(count, 60) + 4), look(mirror(rng, length, address + count - 2) - 1, 6), look(edge(rng, length), rng.choice([1, 2, 4, 30]))]
    if rng.random() < 0.2:
        lines += [look(start + at, 0x2000) for start, size in ((DYNAMIC, length), (STATIC, 0x10000), (PAGE, 0x1000)) for at in range(0, size, 0x2000)]
    return lines


KINDS = [accesses_run, timers_run, sends_run, windows_run, accesses_run, timers_run, sends_run, accesses_run]


# ---- both programs

def answered(line):
    """A line of the oracle's log as the port answers it."""
    words = line.split(' ')
    if words[0] == 'o':
        words = ['o'] + [words[i] for i in (44, 26, 27, 28, 13, 55, 60)]
    elif words[0] == 'u':
        words = ['u'] + [words[i] for i in (20, 21, 22, 23, 44)]
    return ' '.join(words)


def run(program, script):
    done = subprocess.run([program], input=script.encode(), stdout=subprocess.PIPE, check=True)
    return done.stdout.decode().splitlines()


def rust(oracle, script):
    return [answered(line) for line in run(oracle, script)]


BAD = ['x', 'r', 'r ', 'r 4', 'r 4 ', 'r  4 140', 'r 4 140 ', 'r 4 140 0', ' r 4 140', 'r 4 0x140', 'r 4 14g', 'r 4 100000000', 'r 4 00000000000000140', 'R 4 140', 'rr 4 140', 'r4 140',
       'd 4 140', 'd 4 140 100000000', 'd 4 140 0 0', 'w', 'w fc0b0000', 'w fc0b0000 ', 'w fc0b0000 0', 'w fc0b0000 0g', 'w fc0b0000 00 00', 'w 100000000 00', 'w fc0b0000 --',
       'p fc0b0000', 'p fc0b0000 1 1', 'p - 1', 'm', 'm ', 'm 9', 'm 90 3c', 'm 903c4', 'm zz', 'm -0', 'u', 'u ', 'u 10000000000000000', 'u 1 1', 'u g', 'n', 'n ', 'n 800 7 0 1 0 0 0 0 0', 'n 1001 7 0 1 0 0 0 0 0', 'n 3000 7 0 1 0 0 0 0 0', 'n 10001 7 0 1 0 0 0 0 0',
       'f', 'f 40000000', 'f 40000000 1', 'f 40000000 1 ', 'f 40000000 1 100', 'f 40000000 1 g', 'f 40000000 1 1 1', 'f 100000000 1 1', 'f 40000000 100000000 1', 'o ', 'o 1', 'oo', '1', '-']


def compare_bad(oracle, port):
    """Lines that break the rules: the oracle stops at each with `bad line`, and the port answers so and goes on."""
    for line in BAD:
        stopped = subprocess.run([oracle], input=f'{NEW}\n{line}\n'.encode(), stdout=subprocess.PIPE, stderr=subprocess.DEVNULL)
        if stopped.returncode != 2:
            sys.exit(f'the Rust takes the line {line!r}')
    got = run(port, f'{NEW}\n' + ''.join(line + '\n' for line in BAD) + 'o\n')
    want = ['n 1'] + ['bad line'] * len(BAD)
    if got[:-1] != want or not got[-1].startswith('o '):
        at = next((i for i, (a, b) in enumerate(zip(got, want)) if a != b), len(want))
        sys.exit(f'the port does not refuse the line {BAD[at - 1]!r}')


def compare(oracle, port, runs):
    """The place of the first difference: run, line, and both answers; or None."""
    script = ''.join(line + '\n' for lines in runs for line in lines)
    want, got = rust(oracle, script), run(port, script)
    asked = [(i, j) for i, lines in enumerate(runs) for j, line in enumerate(lines) if line[:1] not in ('w', 'f', '#', '')]
    if len(want) != len(asked):
        sys.exit(f'the Rust gave {len(want)} answers to {len(asked)} lines')
    for k, (i, j) in enumerate(asked):
        if k >= len(got) or want[k] != got[k]:
            return i, j, want[k], got[k] if k < len(got) else '(no answer)'
    if len(got) != len(want):
        return len(runs) - 1, len(runs[-1]) - 1, '(no more)', got[len(want)]
    return None


def main():
    parser = argparse.ArgumentParser(description=__doc__, formatter_class=argparse.RawDescriptionHelpFormatter)
    parser.add_argument('oracle', nargs='?')
    parser.add_argument('port', nargs='?')
    parser.add_argument('--answers', metavar='FILE')
    parser.add_argument('--script', action='store_true')
    parser.add_argument('--cases', type=int, default=1600)
    parser.add_argument('--seed', type=int, default=1)
    options = parser.parse_args()
    if options.script:
        print('\n'.join(chosen()))
        return 0
    if options.answers:
        with open(options.answers) as script:
            print('\n'.join(rust(options.oracle, script.read())))
        return 0
    rng = random.Random(options.seed)
    runs = [chosen()] + [KINDS[k % len(KINDS)](rng) for k in range(options.cases)]
    different = compare(options.oracle, options.port, runs)
    if different:
        i, j, want, got = different
        print('\n'.join(runs[i][:j + 1]))
        print(f'the Rust answers {want}')
        print(f'the port answers {got}')
        return 1
    compare_bad(options.oracle, options.port)
    letters = [line[:1] for lines in runs for line in lines]
    through = sum(line[:1] == 'p' for lines in runs[1:] if not any(line[:1] == 'u' for line in lines) for line in lines)
    print(f'{letters.count("n")} runs: {letters.count("r") + letters.count("d")} accesses, {letters.count("m")} sends and {letters.count("u")} timer microframes, {letters.count("o")} observations and {letters.count("p") - through} looks at memory, and {through} looks in runs of the windows, all alike; {len(BAD)} bad lines refused by both')
    return 0


if __name__ == '__main__':
    sys.exit(main())
