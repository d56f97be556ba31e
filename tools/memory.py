"""The bytes of the window, as far as the calls of a script tell them."""
import wording

# the length without a bench, greater than that of any window
NO_WINDOW = 1 << 32


class Memory:
    """Bytes by address, None for one that is not known. A new bench's are all zero; without a bench nothing is known."""

    def __init__(self, base=0, length=NO_WINDOW, rest=None):
        self.base, self.end, self.rest = base, base + length, rest
        self.bytes = {}
        # descriptors whose packet status word is the one that a delivery wrote: that word, None where it is not known
        self.delivered = {}
        # descriptors whose packet status word the device wrote last: whether that granted them
        self.granted = {}

    def length(self):
        return self.end - self.base

    def put(self, address, data):
        self.bytes.update(enumerate(data, address))
        for written in (self.delivered, self.granted):
            for place in list(written):
                if address < place + wording.DESCRIPTOR and place + wording.STATUS_WORD < address + len(data):
                    del written[place]

    def lose(self, address, length):
        self.put(address, [None] * length)

    def lose_all(self):
        self.bytes, self.rest, self.delivered, self.granted = {}, None, {}, {}

    def hand(self, place, granted):
        """The device writes the packet status word of the descriptor at a place, which grants or returns it. Its bytes are not
        told further."""
        self.lose(place + wording.STATUS_WORD, 4)
        self.granted[place] = granted

    def deliver(self, place, word):
        """So does a delivery. The word counts where it is looked at."""
        self.hand(place, False)
        self.delivered[place] = word

    def word(self, address):
        """The word at an address, or None where it is not known or not all in the window."""
        data = [self.bytes.get(address + k, self.rest) for k in range(4)]
        if None in data or address < self.base or self.end < address + 4:
            return None
        return wording.word(bytes(data), 0)

    def known(self):
        """Whether the window is."""
        return self.length() != NO_WINDOW

    def has(self, place):
        """Whether a descriptor at a place is all in the window; None where that is not known."""
        return self.base <= place <= self.end - wording.DESCRIPTOR if self.known() else None

    def grants(self, place):
        """Whether the descriptor at a place is granted; None where that is not known."""
        status = self.word(place + wording.STATUS_WORD)
        return self.granted.get(place) if status is None else status & wording.VALID == wording.VALID

    def descriptor(self, place):
        """Control, start address and next word of the descriptor at a place, which may not be known itself."""
        return [None if place is None else self.word(place + k) for k in (0, 4, 8)]

    def chain(self, first, number):
        """The addresses of so many descriptors in a row, by their next words, as far as these are known, lead on and lie in the
        window."""
        addresses, place = [], first
        while len(addresses) < number and place not in addresses and self.base <= place <= self.end - wording.DESCRIPTOR:
            addresses.append(place)
            following = self.word(place + wording.NEXT_WORD)
            if following is None:
                break
            place = wording.address(following)
        return addresses
