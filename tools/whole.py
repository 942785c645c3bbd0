"""Whether the table of a script's part is whole, and the one table of all parts, with exact numbers; tools/spread uses it."""
import re
from collections import namedtuple

CELL = re.compile(rb"0|[1-9][0-9]{0,19}")
# the rows stand without their numbers; `bad` says that a bad line ends the table
Table = namedtuple("Table", "heading rows sums bad")


class NotWhole(Exception):
    """What a table lacks."""


def numbers(line, first, width):
    """The numbers of a row behind its first cell."""
    cells = line.split(b"\t")
    if cells[0] == first and len(cells) == width + 1 and all(CELL.fullmatch(cell) for cell in cells[1:]):
        found = [int(cell) for cell in cells[1:]]
        if max(found) < 2**64:
            return found
    raise NotWhole(f"where its row {first.decode()} must be stands {line[:60]!r}")


def added(a, b):
    return [(x + y) % 2**64 for x, y in zip(a, b)]


def whole(text, runs, heading):
    """The table that a part with so many `n` lines wrote; the first part's heading is that of all."""
    lines = text.split(b"\n")
    if lines.pop() != b"":
        raise NotWhole("its last line has no line end")
    bad = lines[-1:] == [b"bad line"]
    if bad:
        lines.pop()
    if len(lines) < 2 or not lines[0].startswith(b"run\t") or lines[0] != (heading or lines[0]):
        raise NotWhole("it has no heading, another one than part 1, or no `all` row")
    heading, *rows, last = lines
    width = heading.count(b"\t")
    sums, total = numbers(last, b"all", width), [0] * width
    # a bad line leaves out the runs behind it
    if len(rows) > runs or (len(rows) < runs and not bad):
        raise NotWhole(f"it has {len(rows)} rows")
    for k, row in enumerate(rows):
        number = b"%d" % (k + 1)
        if row != number + b"\tskipped":
            total = added(total, numbers(row, number, width))
        rows[k] = row[len(number) :]
    if total != sums:
        raise NotWhole("its `all` row is not the sum of its rows")
    return Table(heading, rows, sums, bad)


def join(tables, out):
    """Writes the table of all parts: the runs numbered through, the sums added. The tables end behind one that a bad line ends."""
    count, total = 0, None
    for table in tables:
        if total is None:
            out.write(table.heading + b"\n")
            total = [0] * len(table.sums)
        out.writelines(b"%d%b\n" % (count + k, row) for k, row in enumerate(table.rows, 1))
        count += len(table.rows)
        total = added(total, table.sums)
    out.write(b"\t".join([b"all"] + [b"%d" % n for n in total]) + b"\n")
    if table.bad:
        out.write(b"bad line\n")
