"""Random objects: items of every kind in their order, and damaged ones."""
from mmixmodel.expressions import Value, pure
from mmixmodel.trie import trie_of


class Objects:
    """Random objects: items of every kind in their order, and damaged ones."""

    def __init__(self, rng):
        self.rng = rng

    def tetra(self, number):
        """Four bytes."""
        return (number % (1 << 32)).to_bytes(4, "big")

    def item(self):
        """One item that may come between `pre` and `post`."""
        rng = self.rng
        code = rng.choice((0, 1, 1, 2, 3, 4, 5, 6, 7, 8, 99, 99, 99))
        start = rng.choice((0, 0, 0x20, 0x20, 0x40, 0x5F if rng.random() < 0.1 else 0))
        if code in (1, 3):
            low = rng.choice((0x100, 0x104, rng.randrange(1 << 12), rng.randrange(1 << 32)))
            if rng.random() < 0.5:
                return self.tetra(0x98 << 24 | code << 16 | start << 8 | 1) + self.tetra(low)
            return self.tetra(0x98 << 24 | code << 16 | 2) + self.tetra(start << 24) + self.tetra(low)
        if code == 2:
            return self.tetra(0x98020000 | rng.randrange(64))
        if code == 4:
            return self.tetra(0x98040000 | rng.randrange(8))
        if code == 5:
            width = rng.choice((16, 24))
            low = rng.randrange(4) if rng.random() < 0.5 else (1 << 24) + (1 << width) - rng.randrange(1, 4)
            return self.tetra(0x98050000 | width) + self.tetra(low)
        if code == 6:
            return self.tetra(0x98060001) + b"f.ms" if rng.random() < 0.7 else self.tetra(0x98060000)
        if code == 7:
            return self.tetra(0x98070000 | rng.randrange(9))
        if code == 8:
            pieces = (b"spec", self.tetra(0x98000001) + b"\x98abc")
            inner = b"".join(rng.choice(pieces) for _ in range(rng.randrange(3)))
            return self.tetra(0x98080000 | rng.randrange(9)) + inner + self.tetra(0x98070001)
        number = rng.choice((0, 0xFD000000, rng.randrange(1 << 32)))
        return self.tetra(0x98000001) + self.tetra(number) if code == 0 or number >> 24 == 0x98 else self.tetra(number)

    def trie(self):
        """A trie, some with left subtries and two-byte characters."""
        rng = self.rng
        rows = {}
        for serial in range(1, rng.randrange(1, 6)):
            name = b":" + bytes(rng.choice(b"abMin") for _ in range(rng.randrange(1, 5)))
            number = rng.choice((0, 5, 0x1234, 1 << 61, (1 << 61) + 0x777, (1 << 64) - 1))
            rows.setdefault(name, (name, rng.choice((pure(number), Value(True, number % 256))), serial))
        data = trie_of(sorted(rows.values()))
        return rng.choice((data, data, b"\x20:\x81\x00\xe9\x05\x81\x00", b"\x60\x01b\x00\x81:\x01a\x00\x82" + bytes(2),
                           b"", bytes(4)))

    def object(self):
        """A whole object."""
        rng = self.rng
        count = rng.randrange(3)
        data = self.tetra(0x98090100 | count) + b"time" * count
        data += self.tetra(0x98060001) + b".mms" if rng.random() < 0.9 else b""
        data += b"".join(self.item() for _ in range(rng.randrange(12)))
        g = rng.randrange(250, 256) if rng.random() < 0.9 else 32
        data += self.tetra(0x980A0000 | g)
        data += b"".join(rng.choice((bytes(8), rng.randbytes(8))) for _ in range(255 - g)) + (0x100).to_bytes(8, "big")
        trie = self.trie()
        return data + self.tetra(0x980B0000) + trie + self.tetra(0x980C0000 | len(trie) // 4)

    def damaged(self, data):
        """The object as it is, or cut, or with a few bytes changed."""
        rng = self.rng
        data = bytearray(data)
        kind = rng.random()
        if kind < 0.4:
            return bytes(data)
        if kind < 0.55:
            return bytes(data[:rng.randrange(len(data))])
        if kind < 0.65:
            return bytes(data) + rng.choice((bytes(4), b"\x98\x0c\0\x04", b"\0", rng.randbytes(4)))
        for _ in range(rng.randrange(1, 3)):
            at = rng.randrange(len(data))
            if kind < 0.85:
                data[at] = rng.choice((0, 1, 0x98, 0x80, data[at] ^ 1 << rng.randrange(8), rng.randrange(256)))
            elif kind < 0.93:
                del data[at // 4 * 4:at // 4 * 4 + 4]
            else:
                data[at // 4 * 4:at // 4 * 4] = rng.choice((bytes(4), self.item(),
                                                            self.tetra(0x98000000 | rng.randrange(13) << 16 | 1)))
            if not data:
                break
        return bytes(data)
