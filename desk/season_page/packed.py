"""Columns of whole numbers as short texts that a page can hold.

A column is coded by the differences of each number to the one before it, the first to 0. A difference of 0 is a byte 0
and behind it how many more of them follow; any other is folded (1, -1, 2, -2 become 2, 1, 4, 3). All are written seven
bits at a time, the lowest first, with the eighth bit set where more bits follow; and the bytes as base64.
"""
import base64

# What a number of a page's program holds exactly.
MOST = 2 ** 53


def put(out, number):
    while number > 127:
        out.append(number & 127 | 128)
        number >>= 7
    out.append(number)


def pack(column):
    out, last, zeros = bytearray(), 0, 0
    for number in column:
        difference, last = number - last, number
        if difference == 0:
            zeros += 1
            continue
        if zeros:
            out.append(0)
            put(out, zeros - 1)
            zeros = 0
        put(out, difference * 2 if difference > 0 else -difference * 2 - 1)
        if not -MOST < number < MOST or abs(difference) * 2 >= MOST:
            raise ValueError(f'{number} is too large for a page')
    if zeros:
        out.append(0)
        put(out, zeros - 1)
    return base64.b64encode(out).decode('ascii')


def numbers(data):
    number, shift = 0, 0
    for byte in data:
        number |= (byte & 127) << shift
        shift += 7
        if byte < 128:
            yield number
            number, shift = 0, 0


def unpack(text):
    """What pack was given: the page does the same."""
    column, last, coded = [], 0, numbers(base64.b64decode(text, validate=True))
    for code in coded:
        if code == 0:
            column.extend([last] * (next(coded) + 1))
            continue
        last += code // 2 if code % 2 == 0 else -(code + 1) // 2
        column.append(last)
    return column
