"""Memory: octas that are 0 where nothing was stored, in at most 65,536 pages of 4,096 bytes.

Every store makes its page, also a store of zero. What would begin one page more is refused and changes nothing.
"""

PAGES = 65536


class PagesFull(Exception):
    """A store would begin page 65,537."""


class Memory:
    """The memory outside of the stack area."""

    def __init__(self):
        self.octas = {}
        self.pages = set()

    def has_room(self, address):
        """Whether a store at an address needs no page too many."""
        return address >> 12 in self.pages or len(self.pages) < PAGES

    def octa(self, address):
        """The octa that holds an address."""
        return self.octas.get(address >> 3, 0)

    def tetra(self, address):
        """The tetra that holds an address."""
        return self.octa(address) >> (32 if address % 8 < 4 else 0) & 0xFFFFFFFF

    def store_octa(self, address, value):
        """Stores the octa that holds an address."""
        if not self.has_room(address):
            raise PagesFull()
        self.pages.add(address >> 12)
        self.octas[address >> 3] = value

    def join_tetra(self, address, tetra):
        """Joins a tetra with the one that holds an address by exclusive or."""
        self.store_octa(address, self.octa(address) ^ tetra << (32 if address % 8 < 4 else 0))

    def nonzero(self):
        """The nonzero octas with their addresses, ascending."""
        return [(key << 3, self.octas[key]) for key in sorted(self.octas) if self.octas[key]]
