"""Random codestreams for bench/hostile.py: many tiles, components, precincts, layers and segments with empty packets, or one small tile
whose code-blocks have random passes and bytes. None violates a rule. Python's standard library is needed."""

import struct


def segment(code, body):
    return bytes([0xFF, code]) + struct.pack(">H", 2 + len(body)) + body


def siz(x1, y1, x0, y0, tw, th, factors):
    body = struct.pack(">H8IH", 0, x1, y1, x0, y0, tw, th, 0, 0, len(factors))
    return segment(0x51, body + b"".join(bytes([7, dx, dy]) for dx, dy in factors))


def up(number, by):
    return -(-number // by)


def tile_part(tile, body):
    return segment(0x90, struct.pack(">HIBB", tile, 14 + len(body), 0, 1)) + b"\xff\x93" + body


def extra_segments(rand, levels, comps):
    found = []
    if rand.random() < 0.3:
        found.append(segment(0x64, b"\x00\x01" + b"a comment"))
    if rand.random() < 0.2:
        found.append(segment(0x5D, bytes([rand.randrange(comps), 0x40]) + bytes([0x48]) * (3 * levels + 1)))
    if rand.random() < 0.2:
        found.append(segment(0x5E, bytes([rand.randrange(comps), 0, rand.randrange(5)])))
    rand.shuffle(found)
    return b"".join(found)


def precincts(low, high, levels, sizes):
    """How many precincts each resolution of a tile-component has, of which these are the corners."""
    found = []
    for res in range(levels + 1):
        step = 1 << levels - res
        count = 1
        for axis in (0, 1):
            start, end, size = up(low[axis], step), up(high[axis], step), 1 << sizes[res][axis]
            count *= up(end, size) - start // size if end > start else 0
        found.append(count)
    return found


def with_empty_packets(rand):
    x0, y0 = rand.randrange(20), rand.randrange(20)
    x1, y1 = x0 + rand.randint(1, 90), y0 + rand.randint(1, 90)
    tw, th = x0 + rand.randint(1, 100), y0 + rand.randint(1, 100)
    comps = rand.choice((1, 1, 3, 4))
    factors = [rand.choice(((1, 1), (2, 2), (2, 1))) for _ in range(comps)]
    levels, layers, order, scod = rand.randrange(4), rand.choice((1, 2, 5, 40)), rand.randrange(5), rand.randrange(4) * 2
    sizes = [(15, 15)] * (levels + 1)
    if rand.random() < 0.5:
        sizes = [(rand.randint(3, 9), rand.randint(3, 9)) for _ in range(levels + 1)]
        scod |= 1
    listed = bytes(down << 4 | across for across, down in sizes) if scod & 1 else b""
    cod = segment(0x52, struct.pack(">BBHB", scod, order, layers, 0) + bytes([levels, 4, 4, 0, 1]) + listed)
    qcd = segment(0x5C, bytes([0x40]) + bytes([0x48]) * (3 * levels + 1))
    data = b"\xff\x4f" + siz(x1, y1, x0, y0, tw, th, factors) + cod + qcd + extra_segments(rand, levels, comps)
    across, down = up(x1, tw), up(y1, th)
    for tile in range(across * down):
        column, row = tile % across, tile // across
        low, high = (max(x0, column * tw), max(y0, row * th)), (min(x1, (column + 1) * tw), min(y1, (row + 1) * th))
        count = 0
        for factor in factors:
            count += layers * sum(precincts([up(a, f) for a, f in zip(low, factor)], [up(a, f) for a, f in zip(high, factor)], levels, sizes))
        body = b"".join((b"\xff\x91\x00\x04" + struct.pack(">H", at & 0xFFFF) if scod & 2 else b"") + b"\x00" + (b"\xff\x92" if scod & 4 else b"")
                        for at in range(count))
        data += tile_part(tile, body)
    return data + b"\xff\xd9"


class Bits:
    """Header bits: a byte behind FF begins with a 0 (B.10.1)."""

    def __init__(self):
        self.done, self.now, self.left = bytearray(), 0, 8

    def put(self, text):
        for bit in text:
            self.left -= 1
            self.now |= int(bit) << self.left
            if self.left == 0:
                self.done.append(self.now)
                self.left = 7 if self.now == 0xFF else 8
                self.now = 0

    def bytes(self):
        room = 7 if self.done and self.done[-1] == 0xFF else 8
        if self.left < room or room == 7:
            self.done.append(self.now)
        return bytes(self.done)


def passes_word(count):
    """The code word of a number of coding passes (Table B.4)."""
    if count <= 2:
        return ("0", "10")[count - 1]
    if count <= 5:
        return "11" + format(count - 3, "02b")
    if count <= 36:
        return "1111" + format(count - 6, "05b")
    return "111111111" + format(count - 37, "07b")


def coded_bytes(rand, count):
    found = bytearray(rand.randrange(256) for _ in range(count))
    for at in range(count):
        if at + 1 == count and found[at] == 0xFF:
            found[at] = 0x7F
        if at and found[at - 1] == 0xFF and found[at] > 0x8F:
            found[at] &= 0x7F
    return bytes(found)


def packet(rand, blocks, planes):
    """A packet of new code-blocks, one in each band."""
    header, body = Bits(), b""
    header.put("1")
    for _ in range(blocks):
        zero = rand.randrange(planes)
        count = rand.randint(1, 3 * (planes - zero) - 2)
        size = rand.choice((0, 1, rand.randrange(60), rand.randrange(700)))
        extra = count.bit_length() - 1
        width = 3
        while size >> width + extra:
            width += 1
        header.put("1" + "0" * zero + "1" + passes_word(count) + "1" * (width - 3) + "0" + format(size, f"0{width + extra}b"))
        body += coded_bytes(rand, size)
    return header.bytes() + body


def with_blocks(rand):
    width, height = rand.randint(1, 64), rand.randint(1, 64)
    comps, levels, layers = rand.choice((1, 3)), rand.randrange(4), rand.choice((1, 1, 2, 7))
    exponent = rand.randint(1, 12)
    cod = segment(0x52, struct.pack(">BBHB", 0, 0, layers, 0) + bytes([levels, 4, 4, rand.choice((0, 8, 2, 32)), 1]))
    qcd = segment(0x5C, bytes([0x40]) + bytes([exponent << 3]) * (3 * levels + 1))
    data = b"\xff\x4f" + siz(width, height, 0, 0, width, height, [(1, 1)] * comps) + cod + qcd
    body, empty = b"", 0
    for res in range(levels + 1):
        step = 1 << levels - res + (res > 0)
        bands = 1
        if res:
            wide, high = width > step // 2, height > step // 2
            bands = wide + high + (wide and high)
        for _ in range(comps):
            body += packet(rand, bands, exponent + 1) if rand.random() < 0.8 else b"\x00"
            empty += 1
    return data + tile_part(0, body + b"\x00" * (empty * (layers - 1))) + b"\xff\xd9"


def generated(rand):
    """A codestream."""
    return with_blocks(rand) if rand.random() < 0.6 else with_empty_packets(rand)
