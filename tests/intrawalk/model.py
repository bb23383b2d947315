"""What intrawalk is to print, worked out from H.265 (April 2013) and document 01 alone, sample by sample; no line of it comes from the crates.

p is a function of (x, y), column and row relative to the block's first sample, as in the standard's text.
"""
import struct

ANGLES = (32, 26, 21, 17, 13, 9, 5, 2, 0, -2, -5, -9, -13, -17, -21, -26, -32, -26, -21, -17, -13, -9, -5, -2, 0, 2, 5, 9, 13, 17, 21, 26, 32)
INVERSE = dict(zip(range(11, 26), (-4096, -1638, -910, -630, -482, -390, -315, -256, -315, -390, -482, -630, -910, -1638, -4096)))
SIDES = range(8, 4097, 8)


def address(x, y, width, ctu):
    """6.5.2: the number of the 4 by 4 cell of sample (x, y) in decode order."""
    bits = ctu.bit_length() - 3
    per_row = (width + ctu - 1) // ctu
    cx, cy = x >> 2, y >> 2
    number = (per_row * (cy >> bits) + (cx >> bits)) << (2 * bits)
    for i in range(bits):
        number += ((cx >> i & 1) << (2 * i)) + ((cy >> i & 1) << (2 * i + 1))
    return number


def neighbours(plane, width, height, ctu, bits, x0, y0, n):
    """6.4.1 and 8.4.4.2.2: the samples beside the block, substituted, from p(-1, 2n-1) up to the corner and on to p(2n-1, -1)."""
    line = [(-1, y) for y in range(2 * n - 1, -2, -1)] + [(x, -1) for x in range(2 * n)]
    here = address(x0, y0, width, ctu)
    values = []
    for x, y in line:
        at_x, at_y = x0 + x, y0 + y
        there = 0 <= at_x < width and 0 <= at_y < height and address(at_x, at_y, width, ctu) <= here
        values.append(plane[at_y * width + at_x] if there else None)
    first = next((v for v in values if v is not None), 1 << (bits - 1))
    last = first
    for i, v in enumerate(values):
        last = last if v is None else v
        values[i] = last
    return dict(zip(line, values))


def smoothed(p, n, mode, bits):
    """8.4.4.2.3, with the strong form allowed."""
    distance = 10 if mode == 0 else min(abs(mode - 26), abs(mode - 10))
    if mode == 1 or n == 4 or distance <= {8: 7, 16: 1, 32: 0}[n]:
        return p
    out = dict(p)
    corner = p[-1, -1]
    flat = [abs(corner + end - 2 * middle) < 1 << (bits - 5) for end, middle in ((p.get((63, -1), 0), p.get((31, -1), 0)), (p.get((-1, 63), 0), p.get((-1, 31), 0)))]
    if n == 32 and all(flat):
        for i in range(63):
            out[-1, i] = ((63 - i) * corner + (i + 1) * p[-1, 63] + 32) >> 6
            out[i, -1] = ((63 - i) * corner + (i + 1) * p[63, -1] + 32) >> 6
        return out
    out[-1, -1] = (p[-1, 0] + 2 * corner + p[0, -1] + 2) >> 2
    for i in range(2 * n - 1):
        out[-1, i] = (p[-1, i + 1] + 2 * p[-1, i] + p[-1, i - 1] + 2) >> 2
        out[i, -1] = (p[i + 1, -1] + 2 * p[i, -1] + p[i - 1, -1] + 2) >> 2
    return out


def planar(p, n):
    shift = n.bit_length()
    return lambda x, y: ((n - 1 - x) * p[-1, y] + (x + 1) * p[n, -1] + (n - 1 - y) * p[x, -1] + (y + 1) * p[-1, n] + n) >> shift


def flat(p, n):
    mean = (sum(p[i, -1] + p[-1, i] for i in range(n)) + n) >> n.bit_length()

    def at(x, y):
        if n == 32 or (x and y):
            return mean
        if x == y == 0:
            return (p[-1, 0] + 2 * mean + p[0, -1] + 2) >> 2
        return ((p[x, -1] if y == 0 else p[-1, y]) + 3 * mean + 2) >> 2

    return at


def angular(p, n, mode, bits):
    angle, upright = ANGLES[mode - 2], mode >= 18
    main = (lambda i: p[i, -1]) if upright else (lambda i: p[-1, i])
    side = (lambda i: p[-1, i]) if upright else (lambda i: p[i, -1])
    ref = {i: main(i - 1) for i in range(n + 1)}
    if angle >= 0:
        ref.update((i, main(i - 1)) for i in range(n + 1, 2 * n + 1))
    elif n * angle >> 5 < -1:
        ref.update((i, side(-1 + (i * INVERSE[mode] + 128 >> 8))) for i in range(n * angle >> 5, 0))

    def at(x, y):
        along, across = (x, y) if upright else (y, x)
        if angle == 0 and n < 32 and along == 0:
            return max(0, min((1 << bits) - 1, main(0) + (side(across) - p[-1, -1] >> 1)))
        i, f = (across + 1) * angle >> 5, (across + 1) * angle & 31
        if f == 0:
            return ref[along + i + 1]
        return (32 - f) * ref[along + i + 1] + f * ref[along + i + 2] + 16 >> 5

    return at


def predicted(plane, width, height, ctu, bits, block):
    """A block's prediction from a plane, in rows."""
    row, col, n, mode = block
    p = smoothed(neighbours(plane, width, height, ctu, bits, col, row, n), n, mode, bits)
    at = planar(p, n) if mode == 0 else flat(p, n) if mode == 1 else angular(p, n, mode, bits)
    return [at(x, y) for y in range(n) for x in range(n)]


def refusal(width, height, ctu, bits, source, plan):
    """Document 01's checks in its order: number and block, or None."""
    if bits not in (8, 10, 12):
        return 1, 0
    if width not in SIDES or height not in SIDES or ctu not in (16, 32, 64):
        return 4, 0
    if any(v >> bits for v in source):
        return 7, 0
    cells = sorted((address(x, y, width, ctu), x, y) for y in range(0, height, 4) for x in range(0, width, 4))
    covered, first = set(), 0
    for k, (row, col, n, mode) in enumerate(plan):
        if n not in (4, 8, 16, 32):
            return 2, k
        if mode > 34:
            return 3, k
        if row % n or col % n or row + n > height or col + n > width or n > ctu:
            return 6, k
        while first < len(cells) and cells[first][1:] in covered:
            first += 1
        if first == len(cells) or cells[first][1:] != (col, row):
            return 9, k
        covered.update((x, y) for y in range(row, row + n, 4) for x in range(col, col + n, 4))
    return None if len(covered) == len(cells) else (10, 0)


def read(data):
    """The parts of an input, or None where number 12 is given."""
    if not 16 <= len(data) <= 65536:
        return None
    start = len(data) - 16
    at, plan_at, count, width, height, bits, ctu = struct.unpack("<IIHHHBB", data[start:])
    samples = width * height
    if samples > 8192 or count > 512 or at + 2 * samples > start or plan_at + 6 * count > start:
        return None
    source = list(struct.unpack_from(f"<{samples}H", data, at))
    plan = [struct.unpack_from("<HHBB", data, plan_at + 6 * k) for k in range(count)]
    return width, height, ctu, bits, source, plan


def output(data):
    """What is to be printed of an input."""
    parts = read(data)
    if parts is None:
        return "refused 12 0\n"
    width, height, ctu, bits, source, plan = parts
    no = refusal(*parts)
    if no:
        return "refused %d %d\n" % no
    work, plane, lines = [0] * len(source), [0] * len(source), []
    for block in plan:
        row, col, n, mode = block
        spots = [(row + r) * width + col + c for r in range(n) for c in range(n)]
        less = [source[i] - v for i, v in zip(spots, predicted(work, width, height, ctu, bits, block))]
        for i, d, v in zip(spots, less, predicted(plane, width, height, ctu, bits, block)):
            work[i] = source[i]
            plane[i] = max(0, min((1 << bits) - 1, v + d))
        lines.append("%d %d %d %d %d" % (*block, sum(map(abs, less))))
    lines.append("end %d %s" % (len(plan), "same" if plane == source else "differs"))
    return "\n".join(lines) + "\n"


def best(data):
    """Of a good input, a line for each block with the first mode whose sum of absolute residuals is the least, and that sum."""
    width, height, ctu, bits, source, plan = read(data)
    lines = []
    for row, col, n, _ in plan:
        own = [source[(row + r) * width + col + c] for r in range(n) for c in range(n)]
        sums = [sum(abs(a - b) for a, b in zip(own, predicted(source, width, height, ctu, bits, (row, col, n, m)))) for m in range(35)]
        lines.append("%d %d %d %d %d" % (row, col, n, sums.index(min(sums)), min(sums)))
    return lines


def encode(width, height, ctu, bits, source, plan, samples_at=None, plan_at=None, before=b"", between=b"", after=b"", count=None):
    """An input: samples, then records, then the trailer, with bytes put between them; the offsets given win over the true ones."""
    body = before + b"".join(struct.pack("<H", v) for v in source) + between
    at = len(body)
    body += b"".join(struct.pack("<HHBB", *b) for b in plan) + after
    count = len(plan) if count is None else count
    return body + struct.pack("<IIHHHBB", len(before) if samples_at is None else samples_at, at if plan_at is None else plan_at, count, width, height, bits, ctu)
