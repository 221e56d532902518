"""A plain machine that checks the entries of a trace: one memory, to which each store goes at once and from which an abort takes it back, where each load
has to find what is there, where no hart touches what another's transaction has stored to, nor stores to what one has loaded, and where SC stores only to a
block that its hart has reserved. It shares nothing with the program. What memory begins with is learned from what is loaded first.
"""
import re

ENTRY = re.compile(r"[0-7] (0x|abort )")
BLOCK = 32
ACCESS = re.compile(r"\| (load|store) ([124]) (0x[0-9a-f]{8})=(0x[0-9a-f]{8})")


class Plain:
    """One memory, and for each hart what its transaction has loaded and stored, byte by byte. What memory begins with is learned from what is loaded first."""

    def __init__(self):
        self.memory, self.loaded, self.before, self.depth, self.reserved = {}, {}, {}, {}, {}

    def others(self, hart, sets):
        return {addr for other, part in sets.items() if other != hart for addr in part}

    def access(self, hart, sort, size, addr, value):
        """What is wrong with an access, if anything is."""
        places = range(addr, addr + size)
        told = {it: value >> 8 * at & 0xFF for at, it in enumerate(places)}
        stored = self.others(hart, self.before)
        if stored.intersection(places) or sort == "store" and self.others(hart, self.loaded).intersection(places):
            return "an access to what another's transaction has used"
        for place in places:
            if sort == "load":
                if self.memory.setdefault(place, told[place]) != told[place]:
                    return "a load of what memory doesn't hold"
                if self.depth.get(hart):
                    self.loaded.setdefault(hart, set()).add(place)
            else:
                if self.depth.get(hart):
                    self.before.setdefault(hart, {}).setdefault(place, self.memory.get(place))
                self.memory[place] = told[place]
        return None

    def reserve(self, hart, name, accesses):
        """What is wrong with a conditional store, if anything is; and what the word makes of the reservations."""
        stored = {int(at, 16) // BLOCK for sort, _, at, _ in accesses if sort == "store"}
        if name.startswith("sc.w") and not stored <= {self.reserved.get(hart)}:
            return "a conditional store to what isn't reserved"
        self.reserved = {other: block for other, block in self.reserved.items() if other == hart or block not in stored}
        is_outermost = name == "tbegin" and not self.depth.get(hart) or name == "tcommit" and self.depth.get(hart) == 1
        if name.startswith("lr.w"):
            self.reserved[hart] = int(accesses[0][2], 16) // BLOCK
        elif name.startswith("sc.w") or is_outermost:
            self.reserved.pop(hart, None)
        return None

    def leave(self, hart):
        self.depth[hart] = 0
        self.loaded.pop(hart, None)
        self.before.pop(hart, None)

    def abort(self, hart):
        for place, before in self.before.get(hart, {}).items():
            # What nobody had loaded before is unknown again.
            if before is None:
                self.memory.pop(place)
            else:
                self.memory[place] = before
        self.reserved.pop(hart, None)
        self.leave(hart)

    def entry(self, line):
        """What is wrong with a line of the trace, if anything is."""
        words = line.split()
        hart = words[0]
        if words[1] == "abort":
            self.abort(hart)
        elif words[1].startswith("0x"):
            accesses = ACCESS.findall(line)
            for sort, size, at, value in accesses:
                fault = self.access(hart, sort, int(size), int(at, 16), int(value, 16))
                if fault:
                    return fault
            fault = self.reserve(hart, words[3], accesses)
            if fault:
                return fault
            if words[3] == "tbegin":
                self.depth[hart] = self.depth.get(hart, 0) + 1
            elif words[3] == "tcommit":
                self.depth[hart] -= 1
                if not self.depth[hart]:
                    self.leave(hart)
        return None


def wrong_entry(trace):
    """The first entry of a trace that the plain machine refuses, if there is one."""
    plain = Plain()
    for line in trace.splitlines():
        if ENTRY.match(line):
            fault = plain.entry(line)
            if fault:
                return f"{fault}: {line}"
    return None
