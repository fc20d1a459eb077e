"""The register stack, in two forms between which no ordinary program should see a difference.

Register k is global where k >= G, local where k < L, and otherwise 0. PUSHJ hides local registers, and POP brings them
back. `ListStack` keeps all hidden registers in a list without a bound of its own. `WindowStack` keeps at most R - 1
hidden and local registers; the oldest ones go to the stack area in memory, and come back when POP or UNSAVE needs them.

Hidden and local registers together are at most 2^20. A call that would pass this is refused with 114 by the caller, who
asks `needed` first.
"""
from .faults import Stop, Wild

STACK_LIMIT = 1 << 20
SAVED_SPECIALS = 12


class Stack:
    """What both forms share: G and the global registers."""

    def __init__(self):
        self.g = 255
        self.globals = {255: 0}

    def get(self, k):
        """The value of $k."""
        if k >= self.g:
            return self.globals[k]
        return self.local(k) if k < self.l else 0

    def set(self, k, value):
        """Writes $k; with L <= k < G, L becomes k + 1 first, with zeros between."""
        if k >= self.g:
            self.globals[k] = value
            return
        self.grow_to(k + 1)
        self.set_local(k, value)

    def grow_to(self, count):
        """Makes the first registers local, so many, with zeros where they were not."""
        if count > self.l:
            self.append([0] * (count - self.l))

    def needed(self, k):
        """How many hidden and local registers there are after $k was made local."""
        return self.hidden_count() + (max(self.l, k + 1) if k < self.g else self.l)

    def needed_by_push(self, x):
        """How many hidden and local registers there are after PUSHJ $X."""
        return self.hidden_count() + max(self.l, x + 1 if x < self.g else self.l + 1)

    def needed_by_save(self):
        """How many hidden registers there are after SAVE: the locals, L, the globals, 12 specials, G with rA."""
        return self.hidden_count() + self.l + 1 + 256 - self.g + SAVED_SPECIALS + 1

    def set_global_start(self, g):
        """PUT rG: a register that is global only before or only after is 0."""
        self.globals = {k: self.globals[k] if k >= self.g else 0 for k in range(g, 256)}
        self.g = g

    def saved(self, specials, g_and_a):
        """What SAVE appends to the hidden registers."""
        values = [self.globals[k] for k in range(self.g, 256)]
        return self.locals_now() + [self.l] + values + specials + [g_and_a]

    def restore_globals(self, frame):
        """Takes G, the globals, the 12 specials and rA (its low 18 bits) from the upper part of a frame."""
        self.g = 256 - (len(frame) - 1 - SAVED_SPECIALS)
        values = frame[:256 - self.g]
        self.globals = dict(zip(range(self.g, 256), values))
        return frame[256 - self.g:-1], frame[-1] & 0x3FFFF

    def frame_start(self, index):
        """Finds the frame of UNSAVE that ends with an octa: its G, L and the number of its first octa.

        116 where G is below 32 or the frame reaches below the first octa.
        """
        g = self.octa_of(index) >> 56
        at_l = index - SAVED_SPECIALS - (256 - g) - 1
        if g < 32 or at_l < 0:
            raise Stop(116)
        count = self.octa_of(at_l) & 255
        if at_l < count:
            raise Stop(116)
        return g, count, at_l

    def results_of_pop(self, x):
        """What POP X returns: $(X-1) first, then $0 to $(X-2); where X > L, 0 and then all locals; none for X = 0."""
        values = self.locals_now()
        if x == 0:
            return []
        return [values[x - 1]] + values[:x - 1] if x <= self.l else [0] + values

    def refuse_pop(self):
        """115 where there is no hidden register, or at most k, the low byte of the last one. Else k."""
        count = self.hidden_count()
        if count == 0:
            raise Stop(115)
        k = self.hidden(count - 1) & 255
        if count <= k:
            raise Stop(115)
        return k


class ListStack(Stack):
    """All hidden registers in one list, and the locals in another."""

    def __init__(self):
        super().__init__()
        self.hidden_list = []
        self.locals = []

    @property
    def l(self):
        """rL."""
        return len(self.locals)

    def local(self, k):
        """A local register."""
        return self.locals[k]

    def set_local(self, k, value):
        """Writes a local register."""
        self.locals[k] = value

    def locals_now(self):
        """The local registers."""
        return list(self.locals)

    def append(self, values):
        """More local registers."""
        self.locals += values

    def hidden_count(self):
        """The number of hidden registers."""
        return len(self.hidden_list)

    def hidden(self, index):
        """A hidden register, counted from the oldest."""
        return self.hidden_list[index]

    def spilled(self):
        """A list has no stack memory, so it has no rS."""
        raise Wild()

    def octa_of(self, index):
        """A saved octa; what is not hidden is no business of a list."""
        return self.hidden_list[index]

    def stack_octa(self, index):
        """A list has no stack memory."""
        raise Wild()

    def set_stack_octa(self, index, value):
        """A list has no stack memory."""
        raise Wild()

    def push(self, x):
        """PUSHJ $X.

        Where X < L, the first X locals and the number X are hidden, and what follows $X stays. Where L <= X < G the
        locals, zeros up to X and the number X are hidden. Where X >= G the locals and the number L are hidden.
        """
        if x < self.l:
            self.hidden_list += self.locals[:x] + [x]
            self.locals = self.locals[x + 1:]
            return
        zeros = [0] * (x - self.l) if x < self.g else []
        self.hidden_list += self.locals + zeros
        self.hidden_list.append(x if x < self.g else self.l)
        self.locals = []

    def pop(self, x):
        """POP X: the last k + 1 hidden registers leave; the first k of them and the results are the locals, at most G.
        """
        k = self.refuse_pop()
        results = self.results_of_pop(x)
        start = len(self.hidden_list) - 1 - k
        self.locals = (self.hidden_list[start:start + k] + results)[:self.g]
        del self.hidden_list[start:]

    def save(self, specials, g_and_a):
        """SAVE: the frame is hidden, and no register stays local."""
        self.hidden_list += self.saved(specials, g_and_a)
        self.locals = []

    def unsave(self, index):
        """UNSAVE: the frame that ends with this octa comes back, and what is hidden ends below it."""
        g, count, at_l = self.frame_start(index)
        rest = self.restore_globals(self.hidden_list[at_l + 1:index + 1])
        self.locals = self.hidden_list[at_l - count:at_l][:g]
        del self.hidden_list[at_l - count:]
        return rest

    def cut(self, count):
        """PUT rL with a smaller number."""
        del self.locals[count:]


class WindowStack(Stack):
    """A window of R registers: `resident` are the hidden registers from number `start` on, and then the locals.

    After each growth the first resident register moves to the stack octa of number `start`, and `start` grows by 1,
    until there are fewer than R.
    """

    def __init__(self, ring):
        super().__init__()
        self.ring = ring
        self.start = 0
        self.octas = {}
        self.resident = []
        self.l = 0

    def local(self, k):
        """A local register."""
        return self.resident[len(self.resident) - self.l + k]

    def set_local(self, k, value):
        """Writes a local register."""
        self.resident[len(self.resident) - self.l + k] = value

    def locals_now(self):
        """The local registers."""
        return self.resident[len(self.resident) - self.l:]

    def append(self, values):
        """More local registers, for which older ones may have to go to the stack area."""
        self.resident += values
        self.l += len(values)
        while len(self.resident) >= self.ring:
            self.octas[self.start] = self.resident.pop(0)
            self.start += 1

    def hidden_count(self):
        """The number of hidden registers."""
        return self.start + len(self.resident) - self.l

    def hidden(self, index):
        """A hidden register, which comes from the stack area where it is no longer resident."""
        return self.stack_octa(index) if index < self.start else self.resident[index - self.start]

    def spilled(self):
        """The number of registers in the stack area; rS is their end."""
        return self.start

    def octa_of(self, index):
        """UNSAVE reads the stack area, wherever rS is."""
        return self.stack_octa(index)

    def stack_octa(self, index):
        """An octa of the stack area."""
        return self.octas.get(index, 0)

    def set_stack_octa(self, index, value):
        """Writes an octa of the stack area."""
        self.octas[index] = value

    def push(self, x):
        """PUSHJ $X. Where X >= G, X is taken as L and L grows by 1. Where L <= X < G, L becomes X + 1.

        $X becomes the number X, the registers $0 to $X join the hidden ones, and L falls by X + 1.
        """
        if x >= self.g:
            x = self.l
        self.append([0] * (x + 1 - self.l))
        self.set_local(x, x)
        self.l -= x + 1

    def pop(self, x):
        """POP X: k + 1 hidden registers come back; $k, the hole, gets $(X-1), and the other results follow it."""
        k = self.refuse_pop()
        start = self.hidden_count() - 1 - k
        back = [self.hidden(index) for index in range(start, start + k)]
        values = (back + self.results_of_pop(x))[:self.g]
        self.resident = self.resident[:max(0, start - self.start)] + values
        self.start = min(self.start, start)
        self.l = len(values)

    def save(self, specials, g_and_a):
        """SAVE writes all to memory, and leaves rS = rO."""
        for value in self.resident[:len(self.resident) - self.l] + self.saved(specials, g_and_a):
            self.octas[self.start] = value
            self.start += 1
        self.resident, self.l = [], 0

    def unsave(self, index):
        """UNSAVE reads the stack area downwards from this octa, and leaves rO = rS below the saved locals."""
        g, count, at_l = self.frame_start(index)
        rest = self.restore_globals([self.stack_octa(it) for it in range(at_l + 1, index + 1)])
        self.resident = [self.stack_octa(it) for it in range(at_l - count, at_l)][:g]
        self.l = len(self.resident)
        self.start = at_l - count
        return rest

    def cut(self, count):
        """PUT rL with a smaller number."""
        if count < self.l:
            del self.resident[len(self.resident) - self.l + count:]
            self.l = count


def stack_of(kind, ring):
    """A stack of the kind "list" or "window"."""
    return ListStack() if kind == "list" else WindowStack(ring)
