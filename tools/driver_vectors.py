#!/usr/bin/env python3
"""The first requests of a load driver, made from the published definitions of its generators.

It shares no code with the crate `load_driver`, whose tests have its output as expected values.
- PCG32 (XSH-RR 64/32) and PCG64 (XSL-RR 128/64): O'Neill, "PCG: A Family of Simple Fast Space-Efficient
  Statistically Good Algorithms for Random Number Generation", as Lcg64Xsh32 and Lcg128Xsl64 of the crate rand_pcg.
- seed_from_u64: as rand_core gives it to a generator with no rule of its own: the seed's bytes are words of PCG32.
- random_range(0..bound) over u64: as rand 0.9 and 0.10 draw a single value: Canon's method, with one more word.

usage: driver_vectors.py SEED COUNT BRANCH:ACCOUNTS..
"""
import sys
import oracle

MASK32, MASK64 = 2**32 - 1, 2**64 - 1
MULTIPLIER_64 = 6364136223846793005
MULTIPLIER_128 = 0x2360ED051FC65DA44385DF649FCCF645


def rotate_right(value, bits, width):
    bits %= width
    return (value >> bits | value << (width - bits)) & (2**width - 1)


def xsh_rr(state):
    return rotate_right(((state >> 18 ^ state) >> 27) & MASK32, state >> 59, 32)


def seed_bytes(number, length):
    """seed_from_u64: the state goes on before each word is taken of it."""
    out = b""
    while len(out) < length:
        number = (number * MULTIPLIER_64 + 11634580027462260723) & MASK64
        out += xsh_rr(number).to_bytes(4, "little")
    return out[:length]


class Pcg:
    """A state that goes on by a multiplier and an increment; both are seeded."""

    def __init__(self, number):
        seed = seed_bytes(number, self.BITS // 4)
        state = int.from_bytes(seed[: self.BITS // 8], "little")
        self.increment = int.from_bytes(seed[self.BITS // 8 :], "little") | 1
        self.state = state + self.increment
        self.step()

    def step(self):
        self.state = (self.state * self.MULTIPLIER + self.increment) % 2**self.BITS


class Pcg32(Pcg):
    """The word is taken of the state before it goes on."""

    BITS, MULTIPLIER = 64, MULTIPLIER_64

    def next_u32(self):
        word = xsh_rr(self.state)
        self.step()
        return word

    def next_u64(self):
        low = self.next_u32()
        return self.next_u32() << 32 | low


class Pcg64(Pcg):
    """The word is taken of the state after it goes on."""

    BITS, MULTIPLIER = 128, MULTIPLIER_128

    def next_u64(self):
        self.step()
        return rotate_right((self.state >> 64 ^ self.state) & MASK64, self.state >> 122, 64)


def draw(word, bound):
    generator = Pcg32(word)
    product = generator.next_u64() * bound
    result, low = product >> 64, product & MASK64
    if low > 2**64 - bound:
        more = generator.next_u64() * bound >> 64
        if low + more > MASK64:
            result += 1
    return result


def requests(seed, rows):
    rows = sorted(rows)
    words = Pcg64(seed)
    numbers = {}
    while True:
        place = draw(words.next_u64(), 10 * len(rows))
        branch, accounts = rows[place // 10]
        teller = 10 * (branch - 1) + 1 + place % 10
        x = draw(words.next_u64(), 100)
        pick = words.next_u64()
        if x < 85 or len(rows) == 1:
            account = 100000 * (branch - 1) + 1 + draw(pick, accounts)
        else:
            remote = [100000 * (b - 1) + i for b, n in rows if b != branch for i in range(1, n + 1)]
            account = remote[draw(pick, len(remote))]
        delta = draw(words.next_u64(), 1999999) - 999999
        numbers[teller] = numbers.get(teller, 0) + 1
        yield account, teller, branch, numbers[teller], delta


if __name__ == "__main__":
    seed, count = int(sys.argv[1]), int(sys.argv[2])
    rows = [tuple(int(n) for n in row.split(":")) for row in sys.argv[3:]]
    for _, request in zip(range(count), requests(seed, rows)):
        print(oracle.record(*request).decode().rstrip(), request)
