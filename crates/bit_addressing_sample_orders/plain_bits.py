"""Words as one list of bits, in an order: what the programs of cases take their expected values from."""

WORDS = {"u8": 8, "u16": 16, "u32": 32, "u64": 64, "u128": 128, "usize": 64}
ORDERS = {
    "lsb0": lambda bits, i: i,
    "msb0": lambda bits, i: bits - 1 - i,
    "fifth": lambda bits, i: (5 * i + 3) % bits,
    "hilo": lambda bits, i: i ^ 4,
}


class Memory:
    """Words as one list of bits, in an order of `ORDERS`."""

    def __init__(self, word, order, words):
        self.word, self.order, self.words = word, order, words
        self.bits, self.at = WORDS[word], ORDERS[order]

    def list(self):
        return [w >> self.at(self.bits, i) & 1 for w in self.words for i in range(self.bits)]

    def text(self, word):
        return f"{word:0{self.bits // 4}x}"

    def hex(self):
        return "".join(map(self.text, self.words))

    def of(self, bits):
        """The same words with this list."""
        cut = [bits[k : k + self.bits] for k in range(0, len(bits), self.bits)]
        words = [sum(bit << self.at(self.bits, i) for i, bit in enumerate(part)) for part in cut]
        return Memory(self.word, self.order, words)

    def put(self, place, new):
        """The same with these bits from a place on."""
        bits = self.list()
        return self.of(bits[:place] + new + bits[place + len(new) :])

    def piece(self, place, length):
        return self.list()[place : place + length]

    def touched(self, place, length):
        """How many words a stretch touches."""
        return (place + length - 1) // self.bits - place // self.bits + 1 if length else 0

    def head(self, *window):
        """The first words of a case."""
        return " ".join(map(str, (self.word, self.order, self.hex(), *window)))
