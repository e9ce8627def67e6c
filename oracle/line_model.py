#!/usr/bin/env python3
# A model of line two of a two-line element set, read and written, from document 02's words; it shares nothing with crates line and
# line_write. It makes the vectors of crates/vectors_line and nothing else:
#
#   oracle/line_model.py SGP4-VER.TLE > crates/vectors_line/data/lines.txt
#
# SGP4-VER.TLE is the file of the package python3-sgp4.
import sys

# name, first column, column of the point (None: there is none), last column, what pads it when written
FIELDS = [
    ("satellite", 3, None, 7, "0"),
    ("inclination", 9, 12, 16, " "),
    ("node", 18, 21, 25, " "),
    ("eccentricity", 27, None, 33, "0"),
    ("perigee", 35, 38, 42, " "),
    ("anomaly", 44, 47, 51, " "),
    ("mean motion", 53, 55, 63, " "),
    ("revolution", 64, None, 68, " "),
]
DIGITS = b"0123456789"


def check_digit(line):
    """The digits of columns 1 to 68 summed, each minus sign counting 1, modulo 10."""
    total = 0
    for b in line[:68]:
        if b in DIGITS:
            total += b - ord("0")
        elif b == ord("-"):
            total += 1
    return ord("0") + total % 10


def may_stand(line, column):
    """Whether the byte in a column may stand there."""
    byte = line[column - 1]
    for _, first, point, last, _ in FIELDS:
        if first <= column <= last:
            if column == point:
                return byte == ord(".")
            if byte in DIGITS:
                return True
            leading = all(b == ord(" ") for b in line[first - 1 : column])
            return leading and (point is None or column < point)
    return byte == ord(" ")


def read(line):
    """The eight numbers, or the fault: its place in document 02's order, and the column of a bad one."""
    if len(line) != 69:
        return (1, 0)
    if line[0] != ord("2"):
        return (2, 0)
    if line[68] != check_digit(line):
        return (3, 0)
    for column in range(2, 69):
        if not may_stand(line, column):
            return (4, column)
    numbers = []
    for _, first, point, last, _ in FIELDS:
        text = bytes(line[first - 1 : last]).decode().replace(".", "").replace(" ", "0")
        numbers.append(int(text))
    if numbers[1] > 180 * 10**4:
        return (5, 0)
    if any(numbers[i] >= 360 * 10**4 for i in (2, 4, 5)):
        return (6, 0)
    return numbers


def write(numbers):
    """The line, or the place of the first field that does not fit."""
    text = [" "] * 69
    text[0] = "2"
    for i, ((name, first, point, last, pad), x) in enumerate(zip(FIELDS, numbers)):
        limit = {1: 180 * 10**4 + 1, 2: 360 * 10**4, 4: 360 * 10**4, 5: 360 * 10**4}.get(i)
        if limit is not None and x >= limit:
            return i + 1
        width = last - first + 1
        if point is None:
            field = str(x).rjust(width, pad)
        else:
            behind = last - point
            field = "%d.%0*d" % (x // 10**behind, behind, x % 10**behind)
            field = field.rjust(width, pad)
        if len(field) > width:
            return i + 1
        text[first - 1 : last] = field
    line = bytearray("".join(text), "ascii")
    line[68] = check_digit(line)
    return bytes(line)


# ---- the vectors


def told(answer):
    if isinstance(answer, tuple):
        return "%d %d" % answer if answer[0] == 4 else "%d" % answer[0]
    return "0 " + " ".join(str(x) for x in answer)


def changed(line, changes, right):
    """A line with other bytes in some columns, its check digit made right again if that is asked."""
    new = bytearray(line)
    for column, byte in changes:
        new[column - 1] = byte
    if right:
        new[68] = check_digit(new)
    return bytes(new)


def letter(answer, column):
    if not isinstance(answer, tuple):
        return "0"
    if answer[0] == 4:
        assert answer[1] >= column
        return chr(ord("a") + answer[1] - column)
    return str(answer[0])


def numbers_text(numbers):
    return "".join("%010X " % x for x in numbers)


def read_record(line):
    answer = read(line)
    text = bytes(line).decode("latin-1")
    assert "\n" not in text
    if isinstance(answer, tuple):
        return "x %d %02X %s" % (answer[0], answer[1], text)
    return "r %s%s" % (numbers_text(answer), text)


def columns_record(line, byte):
    cases = [changed(line, [(c, byte)], True) for c in range(1, 69)]
    letters = "".join(letter(read(x), c) for c, x in enumerate(cases, 1))
    digits = "".join(chr(x[68]) for x in cases)
    return "c %02X %s %s %s" % (byte, line.decode(), letters, digits)


def bytes_record(line, column):
    cases = [changed(line, [(column, b)], column < 69) for b in range(256)]
    letters = "".join(letter(read(x), column) for x in cases)
    digits = "".join(chr(x[68]) if column < 69 else "0" for x in cases)
    return "a %02X %s %s %s" % (column, line.decode(), letters, digits)


def write_record(numbers, room):
    answer = write(numbers)
    if room < 69:
        told = "S"
    elif isinstance(answer, int):
        told = str(answer)
    else:
        told = "D" + answer.decode()
    return "w %02X %s%s" % (room, numbers_text(numbers), told)


def spelled(text):
    """A line from its text, its check digit made."""
    return changed(text.encode().ljust(69), [], True)


def main(path):
    out = []
    published = []
    for row in open(path, encoding="ascii"):
        if row.startswith("2 "):
            line = row[:69].encode()
            if line not in published:
                published.append(line)

    def say(text):
        out.append("# " + text)

    say("published: every line two of SGP4-VER.TLE; 33333 and 33335 have a wrong check digit there")
    out += [read_record(line) for line in published]
    say("published: the same with the check digit made right")
    out += [read_record(changed(line, [], True)) for line in published if line[68] != check_digit(line)]
    say("damaged: a byte in each of the columns 1 to 68 in turn, the check digit made right again")
    for line in published:
        for byte in (0x20, 0x2B, 0x2D, 0x2E, 0x30, 0x39, 0x41, 0x00, 0x0A, 0xFF):
            out.append(columns_record(line, byte))
    say("damaged: every one of the 256 bytes in each column of one line, the check digit made right again but in column 69")
    out += [bytes_record(published[0], c) for c in range(1, 70)]
    say("digits: the numbers of one line with each digit in each column")
    for c in range(3, 69):
        for d in DIGITS:
            line = changed(published[1], [(c, d)], True)
            if not isinstance(read(line), tuple):
                out.append(read_record(line))
    say("blanks: for the zeros that lead a field, as many as there may be, and one more")
    base = spelled("2 00007 000.0000 000.0000 0000000 000.0000 000.0000 00.0000000000000")
    for _, first, point, last, _ in FIELDS:
        end = last if point is None else point - 1
        for stop in range(first, last + 1):
            out.append(read_record(changed(base, [(c, 0x20) for c in range(first, stop + 1) if c != point], True)))
        for c in range(first, last + 1):
            if c != point:
                out.append(read_record(changed(base, [(c, 0x20)], True)))
        out.append(read_record(changed(base, [(c, 0x20) for c in range(first, end + 1)] + ([] if point is None else [(point, 0x20)]), True)))
    out.append(read_record(spelled("2           .0000    .0000            .0000    .0000   .00000000     ")))
    say("lengths: 0 to 100")
    whole = published[0] + b" 0123456789" * 3
    out += [read_record(whole[:n]) for n in range(101) if n != 69]
    say("order: several faults at once")
    l = published[0]
    for changes, right in (
        ([(1, 0x31), (69, 0x30), (2, 0x30)], False),
        ([(69, 0x30), (2, 0x41)], False),
        ([(2, 0x41), (12, 0x41), (9, 0x39)], True),
        ([(9, 0x33), (18, 0x39), (68, 0x41)], True),
        ([(9, 0x33), (18, 0x39)], True),
        ([(1, 0x31)], True),
    ):
        out.append(read_record(changed(l, changes, right)))
    say("minus signs count 1, wherever they stand")
    for c in (2, 8, 12, 17, 20, 30, 55, 68):
        out.append(read_record(changed(l, [(c, 0x2D)], True)))
        out.append(read_record(changed(l, [(c, 0x2D)], False)))
    say("ranges: least, greatest and one past, of each angle")
    for text in ("  0.0000", "180.0000", "180.0001", "359.9999", "360.0000", "999.9999"):
        for first in (9, 18, 35, 44):
            line = bytearray(l)
            line[first - 1 : first + 7] = text.encode()
            out.append(read_record(changed(bytes(line), [], True)))
    say("greatest: every field full")
    out.append(read_record(spelled("2 99999 180.0000 359.9999 9999999 359.9999 359.9999 99.9999999999999")))

    say("written: the numbers of every published line")
    accepted = keep = 0
    for line in published:
        numbers = read(changed(line, [], True))
        if not isinstance(read(line), tuple):
            accepted += 1
            keep += write(numbers) == line
        out.append(write_record(numbers, 69))
        out.append(write_record(numbers, 100))
    say("written: what is written is read, least and greatest of each field and one past it")
    base = read(published[0])
    greatest = (99999, 1800000, 3599999, 9999999, 3599999, 3599999, 9999999999, 99999)
    for i, top in enumerate(greatest):
        for x in (0, 1, 9, 10, top // 10, top - 1, top, top + 1, 10 * top + 9, 2**32 - 1):
            numbers = base[:i] + [min(x, 2**32 - 1) if i != 6 else x] + base[i + 1 :]
            out.append(write_record(numbers, 70))
            spelling = write(numbers)
            if not isinstance(spelling, int):
                assert read(spelling) == numbers
                out.append(read_record(spelling))
    for numbers in ([0] * 8, list(greatest)):
        out.append(write_record(numbers, 69))
        out.append(read_record(write(numbers)))
    say("written: two fields that do not fit; the first is named")
    for i in range(7):
        numbers = list(base)
        numbers[i] = greatest[i] + 1
        numbers[i + 1] = greatest[i + 1] + 1
        out.append(write_record(numbers, 69))
    say("written: 19 comes before the fields, at every length")
    for room in (0, 1, 17, 68):
        out.append(write_record(base, room))
        out.append(write_record([x + 1 for x in greatest], room))
    records = [x for x in out if x[0] != "#"]
    cases = sum({"c": 68, "a": 256}.get(x[0], 1) for x in records)
    print("# Answers of the calls on line two, for the program vectors_line.")
    print("# Made by oracle/line_model.py, which is written from document 02 alone: %d records, %d cases." % (len(records), cases))
    print("# Published lines: %d, of which %d are read, and %d of these are written again byte for byte." % (len(published), accepted, keep))
    print("# Numbers are hexadecimal: satellite, inclination, node, eccentricity, perigee, anomaly, mean motion, revolution. A record:")
    print("#   r  eight numbers; the line that is read as these")
    print("#   x  the fault's place in the order, the bad column or 00; the line")
    print("#   c  a byte; a line; its answers with the byte in each of the columns 1 to 68; the check digit put there")
    print("#   a  a column; a line; its answers with each of the 256 bytes in the column; the check digit put there")
    print("#   w  room; eight numbers; D and the line that is written, S for 19, or the place of the field that does not fit")
    print("# An answer of c and a is 0 for a line that is read, the fault's place, or a letter: a where the column is bad, b the next, and so on.")
    print("\n".join(out))


main(sys.argv[1])
