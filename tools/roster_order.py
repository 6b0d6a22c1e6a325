#!/usr/bin/env python3
"""The order of a roster's days, computed apart from the program.

    tools/roster_order.py SEED WEIGHT..

prints the place of each day's ticket, counted from 0, for tickets of these weights.

Written from the published definitions alone: the block function of ChaCha (D. J. Bernstein, 'ChaCha, a variant of Salsa20'; RFC 8439)
with 20 rounds, a 64-bit counter of blocks and a 64-bit number of the stream, here 0; the Fisher-Yates shuffle in Durstenfeld's form, from
the first place on; and, of the Rust crate `rand` (0.9 and 0.10), the two rules by which it draws: one 32-bit draw serves as many of the
growing bounds as their product fits (`IncreasingUniform`), and a draw below a bound is Canon's, with one more word where a carry may come.
"""
import sys

MASK = 2**32 - 1


def rotated(word, bits):
    return (word << bits | word >> (32 - bits)) & MASK


def quarter_round(x, a, b, c, d):
    for one, other, bits in ((a, b, 16), (c, d, 12), (a, b, 8), (c, d, 7)):
        x[one] = (x[one] + x[other]) & MASK
        third = d if one == a else b
        x[third] = rotated(x[third] ^ x[one], bits)


def block(key, counter, stream):
    start = [0x61707865, 0x3320646E, 0x79622D32, 0x6B206574]
    start += [int.from_bytes(key[4 * i : 4 * i + 4], "little") for i in range(8)]
    start += [counter & MASK, counter >> 32, stream & MASK, stream >> 32]
    x = list(start)
    for _ in range(10):
        for column in range(4):
            quarter_round(x, column, 4 + column, 8 + column, 12 + column)
        for diagonal in range(4):
            quarter_round(x, diagonal, 4 + (diagonal + 1) % 4, 8 + (diagonal + 2) % 4, 12 + (diagonal + 3) % 4)
    return [(one + other) & MASK for one, other in zip(x, start)]


def words(seed):
    """The 32-bit words of stream 0 under the key that is the seed: its eight bytes, low byte first, and 24 zero bytes."""
    key = seed.to_bytes(8, "little") + bytes(24)
    counter = 0
    while True:
        yield from block(key, counter, 0)
        counter += 1


def below(bound, draws):
    """A number below the bound: a word is read as a fraction; where the next digits could carry, one more word decides."""
    high, low = divmod(next(draws) * bound, 2**32)
    if low > 2**32 - bound:
        more = next(draws) * bound // 2**32
        if low + more >= 2**32:
            high += 1
    return high


def growing_choices(draws):
    """An index below 1, then one below 2, and so on."""
    yield 0
    bound = 1
    while True:
        first = bound + 1
        product, factors = first, 1
        while product * (first + factors) <= MASK:
            product *= first + factors
            factors += 1
        chunk = below(product, draws)
        for factor in range(factors):
            bound += 1
            if factor == factors - 1:
                yield chunk
            else:
                yield chunk % bound
                chunk //= bound


def order_of(seed, weights):
    places = [place for place, weight in enumerate(weights) for _ in range(weight)]
    choices = growing_choices(words(seed))
    for i in range(len(places)):
        j = next(choices)
        places[i], places[j] = places[j], places[i]
    return places


def main():
    # the first words of the all-zero key, as published with the cipher
    assert block(bytes(32), 0, 0)[:4] == [0xADE0B876, 0x903DF1A0, 0xE56A5D40, 0x28BD8653]
    seed, *weights = [int(word) for word in sys.argv[1:]]
    print(*order_of(seed, weights))


if __name__ == "__main__":
    main()
