"""Circuits: the wires and rows that fix what a board or a claim file says of its seals."""


class Circuit:
    """The wires, each None for a split wire or the weight of a pair; and the rows, each a list of
    (factor, wire) with a constant. It begins with what every circuit shows of its inputs: each has
    a copy, which is in range."""

    def __init__(self, inputs, width):
        self.inputs, self.width = inputs, width
        self.wires = [None] * (2 * inputs)
        self.rows = [([(1, j), (-1, self.copy(j))], 0) for j in range(inputs)]
        for j in range(inputs):
            self.in_range([(1, self.copy(j))], 0)

    def copy(self, j):
        return self.inputs + j

    def in_range(self, terms, constant, width=None):
        """The row of a form that is in range: the pairs of its test set are taken away from it."""
        pairs = [(-1, self.pair(2**i)) for i in range(width or self.width)]
        self.rows.append((terms + pairs, constant))

    def pair(self, weight):
        self.wires.append(weight)
        return len(self.wires) - 1

    def unsold(self, reserve):
        for j in range(self.inputs):
            self.in_range([(-1, self.copy(j))], reserve - 1)

    def sold(self, winners, price):
        """Each winner is above each loser, or as high and in front; the price is no less than what
        the losers bid."""
        losers = self.losers(winners)
        for w in winners:
            for j in losers:
                self.in_range([(1, self.copy(w)), (-1, self.copy(j))], -1 if j < w else 0)
        for j in losers:
            self.in_range([(-1, self.copy(j))], price)

    def losers(self, winners):
        return [j for j in range(self.inputs) if j not in winners]

    def select(self, losers, price):
        """One of them bids the price: the selectors with the rows E and F. Where there is none,
        nothing."""
        selectors = [self.pair(1) for _ in losers]
        if losers:
            self.rows.append(([(1, selector) for selector in selectors], -1))
        most = 2**self.width - 1
        for selector, j in zip(selectors, losers):
            self.in_range([(-most, selector), (1, self.copy(j))], most - price)

    def either_at_least(self, first, second):
        """Of two pairs of inputs one has a left that is no less than its right: the one that a
        selector leaves as it is."""
        selector, most = self.pair(1), 2**self.width
        for (left, right), factor, constant in ((first, -most, most), (second, most, 0)):
            terms = [(1, self.copy(left)), (-1, self.copy(right)), (factor, selector)]
            self.in_range(terms, constant, self.width + 1)


def board_circuit(seals, width, reserve, winner, price):
    """The circuit of an auction. The winner is None where nothing is sold, and the reserve where
    the board can't name one."""
    circuit = Circuit(seals, width)
    if winner is None:
        circuit.unsold(reserve)
        return circuit
    circuit.sold([winner], price)
    if price == reserve:
        circuit.in_range([(1, circuit.copy(winner))], -reserve)
    else:
        circuit.select(circuit.losers([winner]), price)
    return circuit


def uniform_circuit(inputs, numbers):
    """The circuit of a sale of equal units at one price, or None where the public part isn't
    admitted."""
    if inputs > 64 or len(numbers) < 3 or not 1 <= numbers[0] <= 40:
        return None
    width, price, *positions = numbers
    ascend = all(one < other for one, other in zip(positions, positions[1:]))
    if price >= 2**width or not ascend or positions[0] < 1 or positions[-1] > inputs:
        return None
    if len(positions) == inputs and price > 0:
        return None
    winners = [position - 1 for position in positions]
    circuit = Circuit(inputs, width)
    circuit.sold(winners, price)
    circuit.select(circuit.losers(winners), price)
    return circuit


def matching_circuit(inputs, numbers):
    """The circuit of a stable matching, or None where the public part isn't admitted."""
    width, *women = numbers
    size = len(women)
    if not 1 <= width <= 16 or not 1 <= size <= 16 or inputs != 2 * size**2:
        return None
    if sorted(women) != list(range(1, size + 1)):
        return None
    circuit = Circuit(inputs, width)
    his = [woman - 1 for woman in women]
    for man in range(size):
        for woman in range(size):
            if woman != his[man]:  # these two don't both prefer each other
                he, she, hers = man * size, size * (size + woman), his.index(woman)
                circuit.either_at_least((he + woman, he + his[man]), (she + man, she + hers))
    return circuit


KINDS = {b"uniform": uniform_circuit, b"matching": matching_circuit}
