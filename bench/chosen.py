#!/usr/bin/env python3
"""Prints a script whose keys are chosen to be dear, for the built program to run.

    bench/chosen.py places|select|insert COUNT [plain] | scalardb replay > /dev/null

`places` places COUNT namespaces. `select` reads COUNT keys in one transaction, on `ordered`. `insert` inserts COUNT rows into as many
partitions, a transaction each, on `hashed`. The keys have one value under the hash that the maps of the kit compute with a fixed
seed, so that such a map would look at all keys before it finds one; with `plain` they have the same length and different values.
"""
import sys

MULTIPLE, MASK = 0x9E3779B97F4A7C15, (1 << 64) - 1
FIRST = 0x243F6A8885A308D3
PRINTED = set(range(0x20, 0x7F)) - set(b"'\"\\")


def folded(a, b):
    product = a * b
    return (product & MASK) ^ (product >> 64)


def short(data):
    if len(data) >= 4:
        return int.from_bytes(data[:4], 'little') | int.from_bytes(data[-4:], 'little') << 32
    return data[0] | data[len(data) // 2] << 8 | data[-1] << 16 if data else 0


def hashed(state, data):
    """The state of the hash after these bytes."""
    if len(data) <= 8:
        return folded(state ^ short(data), MULTIPLE ^ (2 * len(data)))
    state, at = (state + len(data)) & MASK, 0
    word = lambda i: int.from_bytes(data[i:i + 8], 'little')
    while len(data) - at > 16:
        state, at = folded(word(at) ^ state, word(at + 8) ^ MULTIPLE), at + 16
    return folded(word(max(len(data) - 16, 0)) ^ state, word(len(data) - 8) ^ MULTIPLE)


def after_name(state, text):
    return hashed(hashed(state, text.encode()), b'\xff')


def before_text(state, number):
    """The state before the text of a partition of an INT and a TEXT."""
    for part in ((2).to_bytes(8, 'little'), b'\x02', number.to_bytes(4, 'little'), b'\x04'):
        state = hashed(state, part)
    return state


def chosen(state):
    """A number and the beginning of a text, after which the hash forgets what follows: a product with 0."""
    for number in range(1, 2_000_000):
        begin = ((before_text(state, number) + 16) & MASK).to_bytes(8, 'little')
        if PRINTED.issuperset(begin):
            return number, begin.decode()
    raise SystemExit('no such key')


def places(count):
    yield from (f'place n{i:06} ordered' for i in range(count))
    yield 'schema {"bank.account":{"partition-key":["id"],"columns":{"id":"INT","balance":"INT"}}}'
    yield from ('client a', '  BEGIN', '  INSERT INTO bank.account (id,balance) VALUES (1,1)', '  COMMIT')


def statements(kind, count, plain):
    number, begin = chosen(FIRST if kind == 'insert' else after_name(after_name(FIRST, 'a'), 't'))
    texts = [f'{i:08}{begin}' if plain else f'{begin}{i:08}' for i in range(count)]
    if kind == 'insert':
        yield 'place a hashed'
    yield 'schema {"a.t":{"partition-key":["x","y"],"columns":{"x":"INT","y":"TEXT","v":"INT"}}}'
    yield 'client c'
    if kind == 'select':
        yield '  BEGIN'
        yield from (f"  SELECT * FROM a.t WHERE x = {number} AND y = '{text}'" for text in texts)
        yield '  COMMIT'
        return
    for text in texts:
        yield from ('  BEGIN', f"  INSERT INTO a.t (x,y,v) VALUES ({number},'{text}',1)", '  COMMIT')


def main():
    words = sys.argv[1:]
    plain = words[2:] == ['plain']
    if len(words) not in (2, 3) or words[0] not in ('places', 'select', 'insert') or (len(words) == 3 and not plain):
        raise SystemExit(__doc__)
    kind, count = words[0], int(words[1])
    lines = places(count) if kind == 'places' else statements(kind, count, plain)
    sys.stdout.write('\n'.join([*lines, 'run', 'rest']) + '\n')


main()
