"""Circuits, by docs/FORMATS.md alone: their wires and rows, and the values that an honest
auctioneer gives them."""


class Circuit:
    """The wires, each a weight or None for a split one, and the rows, each (factor, wire) and a
    constant."""

    def __init__(self, seals, width):
        """What every auction shows: each bid has a copy, which is in range."""
        self.kinds = [None] * (2 * seals)
        self.seals, self.width, self.rows = seals, width, []
        self.ranges, self.selectors, self.couples = [], {}, []
        for j in range(seals):
            self.rows.append(([(1, j), (-1, seals + j)], 0))
        for j in range(seals):
            self.in_range([(1, seals + j)], 0)

    def unsold(self, reserve):
        for j in range(self.seals):
            self.in_range([(-1, self.seals + j)], reserve - 1)
        return self

    def sold(self, winners, price):
        """The positions of those who don't win."""
        losers = [j for j in range(self.seals) if j not in winners]
        for winner in winners:
            for j in losers:
                behind = -1 if j < winner else 0
                self.in_range([(1, self.seals + winner), (-1, self.seals + j)], behind)
        for j in losers:
            self.in_range([(-1, self.seals + j)], price)
        return losers

    def reach(self, winner, reserve):
        self.in_range([(1, self.seals + winner)], -reserve)
        return self

    def in_range(self, form, constant, more=0):
        first, pairs = len(self.kinds), range(self.width + more)
        self.kinds += [2**i for i in pairs]
        self.ranges.append((form, constant, first, len(pairs)))
        self.rows.append((form + [(-1, first + i) for i in pairs], constant))

    def no_block(self, his, his_own, hers, hers_own):
        """Two rows, of which a selector lets one be."""
        selector, top = len(self.kinds), 2**self.width
        self.kinds.append(1)
        self.couples.append((selector, his, his_own))
        copy = lambda j: self.seals + j
        self.in_range([(1, copy(his)), (-1, copy(his_own)), (-top, selector)], top, 1)
        self.in_range([(1, copy(hers)), (-1, copy(hers_own)), (top, selector)], 0, 1)

    def select(self, losers, price):
        first, most = len(self.kinds), 2**self.width - 1
        self.kinds += [1] * len(losers)
        if losers:
            self.rows.append(([(1, first + i) for i in range(len(losers))], -1))
        for i, j in enumerate(losers):
            self.selectors[j] = first + i
            self.in_range([(-most, first + i), (1, self.seals + j)], most - price)
        return self

    def values(self, inputs, price=None):
        """The honest values of all wires, by those of the inputs."""
        values = [*inputs, *inputs] + [0] * (len(self.kinds) - 2 * self.seals)
        at_the_price = [wire for j, wire in self.selectors.items() if inputs[j] == price]
        for wire in at_the_price[:1]:
            values[wire] = 1
        for wire, his, his_own in self.couples:
            values[wire] = 1 if inputs[his] >= inputs[his_own] else 0
        for form, constant, first, count in self.ranges:
            number = sum(factor * values[wire] for factor, wire in form) + constant
            assert 0 <= number < 2**count, "a form that isn't in range"
            for i in range(count):
                values[first + i] = number & 2**i
        return values


def matching_circuit(inputs, width, women):
    """The circuit of a matching, by each man's woman, counted from 1."""
    men, circuit = len(women), Circuit(inputs, width)
    for man, own in enumerate(women, 1):
        for woman in range(1, men + 1):
            if woman != own:
                his, hers = men * (man - 1) - 1, men * (men + woman - 1) - 1
                circuit.no_block(his + woman, his + own, hers + man,
                                 hers + women.index(woman) + 1)
    return circuit


def sale_circuit(inputs, width, price, winners):
    """The circuit of equal units, by the positions of the winners, counted from 1."""
    circuit = Circuit(inputs, width)
    return circuit.select(circuit.sold([winner - 1 for winner in winners], price), price)
