#!/usr/bin/env python3
"""Generators of console scripts.

    scripts.py --list                    the generators and what each reaches
    scripts.py NAME [SEED [BLOCKS]]      prints blocks of that generator

A generator yields blocks: lists of lines that begin with `new` or `pool` and need nothing before them (the first
of `nonsense` begins with the console as it starts). A block that sets the link, which `new` leaves as it
is, ends with `link newer plain`.
Those of STORE hold store calls alone, which the Rust can judge; those of REST the others too.
An exhaustive generator ends; the others go on for ever and are the same for the same seed.
"""
import binascii
import functools
import itertools
import random
import re
import sys

TOP = 2**64 - 1
NARROW = 2**32 - 1
FLAGS = ('normal', 'large')
WIDTHS = ('wide', 'narrow')
EDITIONS = ('newer', 'older')
TRAILERS = ('plain', 'crc')
# What can be written, each with and without a trailer: under the older edition there is no large file flag.
FORMS = (('newer', 'normal'), ('newer', 'large'), ('older', 'normal'))

# Capacities for which the Rust's fixed lists are built (store/src/main.rs).
FIXED = [*range(21), 24, 31, 32, 33, 64, 100, 128, 256, 512, 1000, 1024, 2048, 4095, 4096]
EDGE = [0, 1, 2, 2**31 - 1, 2**31, NARROW - 2, NARROW - 1, NARROW, NARROW + 1, NARROW + 2, 2**33,
        2**63 - 1, 2**63, TOP - 2, TOP - 1, TOP]


def words(*parts):
    return ' '.join(map(str, parts))


def link(edition, trailer='plain'):
    return words('link', edition, trailer)


def set_list(pairs, progress=0, mark='missing', size='open'):
    """Lines that make these pairs the counted list, and the record what is said."""
    flat = [n for pair in pairs for n in pair]
    pokes = [words('poke', at, *flat[at:at + 3000]) for at in range(0, len(flat), 3000)]
    return pokes + [words('load', progress, mark, len(pairs), size)]


def spans(bits):
    """The runs of ones of a number, as pairs: every coalesced list of small numbers."""
    out, at = [], 0
    while bits >> at:
        if bits >> at & 1:
            start = at
            while bits >> at & 1:
                at += 1
            out.append((start, at))
        at += 1
    return out


def ascending(rng, n, low, high):
    """A coalesced list of n ranges of numbers from low to high."""
    if high - low + 1 < 2 * n:
        n = (high - low + 1) // 2
    ends = sorted(rng.sample(range(low, high + 1), 2 * n)) if high - low < 2**62 else \
        sorted({rng.randint(low, high) for _ in range(2 * n)})
    return list(zip(ends[:len(ends) // 2 * 2:2], ends[1::2]))


# The store.

def store_remove_small(rng):
    """remove, every pair from 0 to 9 on every coalesced list of the offsets 0 to 7, full and with
    room for one more, both widths: whole, left, right, split, none, 1, 2, 3, 5."""
    for width, room in itertools.product(WIDTHS, (0, 1)):
        for bits in range(2**8):
            pairs = spans(bits)
            block = [words('new', width, len(pairs) + room)]
            for a, b in itertools.product(range(10), repeat=2):
                block += [*set_list(pairs), words('remove', a, b), 'show']
            yield block


def store_remove_places(rng):
    """remove of each part of each range (whole, left, right, split) and of the hole before it, on lists of 1, 2, 3,
    9 and 32 ranges from 0, around 2^32 and up to the width's largest number, full and with room, both widths: so each
    answer at the first, a middle and the last index."""
    for width, n, room in itertools.product(WIDTHS, (1, 2, 3, 9, 32), (0, 1)):
        most = NARROW if width == 'narrow' else TOP
        for top in (5 * n, NARROW) if most == NARROW else (5 * n, NARROW + 3 * n, TOP):
            pairs = [(top - 5 * i - 4, top - 5 * i) for i in reversed(range(n))]
            block = [words('new', width, n + room)]
            for s, e in pairs:
                for a, b in ((s, e), (s, s + 1), (s, e - 1), (s + 1, e), (e - 1, e), (s + 1, e - 1), (s + 2, s + 3),
                             (s - 1, s)):
                    block += [*set_list(pairs), words('remove', a, b), 'show']
            yield block


def inserted(pairs, s, e):
    """Lines that insert (s, e) into these pairs, with the list before and after."""
    return [*set_list(pairs), 'show', words('insert', s, e), 'show']


def insert_places():
    """(width, capacity, pairs, s, e) of every case of store_insert_places. Holes are six offsets wide."""
    for width, n, room in itertools.product(WIDTHS, (0, 1, 2, 3, 9, 32), (0, 1)):
        low = 10 * n + 5
        for top in (low, NARROW) if width == 'narrow' else (low, NARROW + 5 * n, TOP):
            pairs = [(top - 10 * i - 9, top - 10 * i - 5) for i in reversed(range(n))]
            first, last = pairs[0][0] if pairs else top, pairs[-1][1] if pairs else top - 5
            asked = [(first - 3, first - 1), (first - 3, first), (first - 1, first + 1), (last + 1, last + 3), (last, last + 3),
                     (last - 1, top), (first, last), (first - 1, last + 1), (first + 1, last - 1), (top - 1, top)]
            for s, e in pairs[:3] + pairs[-2:]:
                asked += [(s, e), (s + 1, e - 1), (s, s + 1), (e - 1, e), (s - 1, e + 1), (e, e + 6), (e, e + 3), (e + 3, e + 6),
                          (e + 1, e + 5), (e - 1, e + 7), (s + 1, e + 11), (s - 6, e + 6), (s, e + 1), (s - 1, e)]
            for s, e in dict.fromkeys(asked):
                if 0 <= s < e <= top:
                    yield width, n + room, pairs, s, e


def store_insert_places(rng):
    """insert of ranges that meet none, one, two or all of the ranges of lists of 0, 1, 2, 3, 9 and 32 ranges from 0, around
    2^32 and up to the width's largest number, full and with room, both widths: before, between and behind all, touching
    at the left, the right and both, inside, over one and across several; 1 only where nothing joins and the list is full."""
    for (width, capacity, _), cases in itertools.groupby(insert_places(), lambda case: case[:3]):
        yield [words('new', width, capacity), *(line for *_, pairs, s, e in cases for line in inserted(pairs, s, e))]


def insert_checks():
    """(width, capacity, pairs, length, count, s, e) of every case of store_insert_checks; length and count as they are lent."""
    above = NARROW + 1
    asked = [(5, 5), (9, 4), (4, 9), (20, 25), (above, above), (above, 5), (5, above), (50, 60), (0, 1), (above, TOP), (TOP, above),
             (NARROW, NARROW), (NARROW, 5), (5, NARROW), (NARROW - 1, NARROW), (NARROW, above), (0, TOP), (TOP, 0), (TOP, TOP)]
    lists = [[], [(10, 20)], [(10, 20), (30, 40)], [(10, 20), (15, 40)], [(10, 20), (20, 40)], [(30, 40), (10, 20)], [(10, 10), (30, 40)],
             [(20, 10), (30, 40)], [(10, 20), (40, 40)], [(10, 20), (10, 20)], [(10, 20), (30, above)], [(10, 20), (above, 5)]]
    for width, pairs, room in itertools.product(WIDTHS, lists, (0, 1)):
        n = len(pairs)
        for s, e in asked:
            yield width, n + room, pairs, 2 * (n + room), n, s, e
        for (length, count), (s, e) in itertools.product(((2 * n + 1, n), (2 * n, n + 1), (8194, n), (8192, 4097)), asked[:7]):
            yield width, n + room, pairs, length, count, s, e


def insert_check(pairs, length, count, s, e):
    return [*set_list(pairs), words('lend', length), words('load', 0, 'known', count, 'open'), words('insert', s, e),
            words('slots', 2 * len(pairs) + 2)]


def store_insert_checks(rng):
    """insert, the order of its checks 10, 2, 3, 4, 8, 1: ranges that fail none, one or two of 2, 3 and 4, joining and apart, on
    stores that are sound, empty, full, without capacity, not coalesced (overlapping, touching, descending, with an empty or a
    reversed pair; full too), of odd length, with a count above the capacity or a number above the narrow limit; both widths."""
    for (width, capacity, _), cases in itertools.groupby(insert_checks(), lambda case: case[:3]):
        yield [words('new', width, capacity), *(line for _, _, *case in cases for line in insert_check(*case))]


def store_insert_small(rng):
    """insert, every pair from 0 to 9 on every coalesced list of the offsets 0 to 7, full and with room for one more, both
    widths: inserted, 1, 2, 3."""
    for width, room in itertools.product(WIDTHS, (0, 1)):
        for bits in range(2**8):
            pairs = spans(bits)
            block = [words('new', width, len(pairs) + room)]
            for s, e in itertools.product(range(10), repeat=2):
                block += inserted(pairs, s, e)
            yield block


def store_insert_slots(rng):
    """insert on lists of 0 to 5 ranges with other numbers in the slots behind: slots given up hold (0, 0), slots past both
    counts stay, and a refusal changes none; both widths."""
    for width, n, room in itertools.product(WIDTHS, range(6), (0, 1, 2)):
        pairs = [(10 * i + 4, 10 * i + 8) for i in range(n)]
        for s, e in itertools.combinations([0, 1, *(x for i in range(n) for x in (10 * i + 4, 10 * i + 6, 10 * i + 8, 10 * i + 9))], 2):
            yield [words('new', width, n + room), words('poke', 2 * n, 91, 92, 93, 94, 95, 96), *set_list(pairs),
                   words('insert', s, e), words('slots', 2 * n + 6)]


def store_insert_full(rng):
    """insert into full lists of 1,000, 4,095 and 4,096 ranges, both widths: apart from all is 1, inside, touching and over one
    are taken, what fills a hole makes room for one range, and then it is full again; at last across some and over all."""
    for width, n in itertools.product(WIDTHS, (1000, 4095, 4096)):
        m = 5 * n
        block = [words('new', width, n), *set_list([(10 * i + 2, 10 * i + 8) for i in range(n)])]
        for s, e in ((0, 1), (m + 9, m + 11), (10 * n, 10 * n + 5), (m + 3, m + 5), (1, 2), (m + 8, m + 10), (10 * n - 2, 10 * n - 1),
                     (m - 32, m - 28), (10 * n, 10 * n + 5), (10 * n + 6, 10 * n + 7), (m + 29, m + 31), (m - 100, m + 100)):
            block.append(words('insert', s, e))
        yield [*block, 'show', words('slots', 2 * n), words('insert', 0, 20 * n), 'show', words('slots', 2 * n)]


def store_insert_history(rng):
    """Long histories of insert and remove alone on one store, whose list is so always coalesced: capacities from 0, offsets
    of a narrow space so that ranges meet, near 0, 2^32 and 2^64, both widths."""
    while True:
        width = rng.choice(WIDTHS)
        capacity = rng.choice(FIXED[:rng.choice((6, 21, 27))])
        space = rng.choice((8, 20, 60, 400))
        base = rng.choice((0, 0, NARROW - space // 2, NARROW - space, TOP - space))
        block = [words('new', width, capacity), 'show']
        for _ in range(150):
            a, b = base + rng.randint(0, space), base + rng.randint(0, space)
            if rng.random() < 0.95:
                a, b = sorted((a, b))
            if rng.random() < 0.5:
                b = min(TOP, a + rng.randint(1, 4))
            block += [words(rng.choice(('insert', 'insert', 'remove')), a, b), 'show']
        yield block


def store_coalesce_small(rng):
    """coalesce, every list of up to three pairs of the numbers 0 to 3, empty and reversed ones
    too, both widths."""
    pool = list(itertools.product(range(4), repeat=2))
    for width in WIDTHS:
        for n in range(4):
            lists = list(itertools.product(pool, repeat=n))
            for at in range(0, len(lists), 500):
                block = [words('new', width, 3)]
                for pairs in lists[at:at + 500]:
                    block += [*set_list(pairs), 'coalesce', 'show']
                yield block


def store_add_within_small(rng):
    """add and within, every pair from 0 to 4 on every list of up to two pairs of the numbers 0 to 3,
    full and with room, both widths: added, 1, 2, 3, yes, no."""
    pool = list(itertools.product(range(4), repeat=2))
    for width, n, room in itertools.product(WIDTHS, range(3), (0, 1)):
        for pairs in itertools.product(pool, repeat=n):
            block = [words('new', width, n + room)]
            for a, b in itertools.product(range(5), repeat=2):
                block += [*set_list(pairs), words('within', a, b), words('add', a, b), 'show']
            yield block


def store_octets_small(rng):
    """octets, every list of up to two pairs of numbers at the field's edges, both flags, buffers of
    the right length, one short, one long and none: octets, 6, 7."""
    pool = list(itertools.product((0, 258, NARROW, NARROW + 1, TOP), repeat=2))
    for n in range(3):
        for pairs in itertools.product(pool, repeat=n):
            block = [words('new', 'wide', 3), *set_list(pairs)]
            for flag, per in (('normal', 8), ('large', 16)):
                for length in sorted({max(0, n * per + d) for d in (-1, 0, 1)} | {0}):
                    block.append(words('octets', flag, length))
            yield block
    for pairs in itertools.product([(0, NARROW), (NARROW, 7)], repeat=2):
        yield [words('new', 'narrow', 2), *set_list(pairs), 'octets normal 16', 'octets large 32', 'octets large 16']


def store_edges(rng):
    """Every store call with numbers at and around 0, 2^31, 2^32, 2^63 and 2^64 - 1, on lists of such
    numbers, coalesced and not, both widths: 4 before and after 2 and 3, and 10 and 8."""
    while True:
        width = rng.choice(WIDTHS)
        most = NARROW if width == 'narrow' and rng.random() < 0.95 else TOP
        pool = [n for n in EDGE if n <= most]
        block = [words('new', width, rng.choice((2, 3, 4, 8)))]
        for _ in range(30):
            if rng.random() < 0.6:
                ends = sorted(rng.sample(pool, 2 * rng.randint(0, min(4, len(pool) // 2))))
                pairs = list(zip(ends[::2], ends[1::2]))
            else:
                pairs = [(rng.choice(pool), rng.choice(pool)) for _ in range(rng.randint(0, 4))]
            block += set_list(pairs)
            for _ in range(rng.randint(1, 4)):
                block += [one_call(rng, rng.choice(EDGE), rng.choice(EDGE), len(pairs)), 'show']
        yield block


def one_call(rng, a, b, count):
    kind = rng.randrange(15)
    if kind < 3:
        return words('add', a, b)
    if kind < 6:
        return words('insert', a, b)
    if kind < 10:
        return words('remove', a, b)
    if kind < 11:
        return 'coalesce'
    if kind < 13:
        return words('within', a, b)
    flag = rng.choice(FLAGS)
    length = count * (8 if flag == 'normal' else 16) + rng.choice((0, 0, 0, 0, 8, -8, 1))
    return words('octets', flag, max(0, length))


def store_history(rng):
    """Long histories of all six calls on one store that is never set afresh: capacities from 0,
    offsets of a narrow space so that ranges meet, near 0, 2^32 and 2^64, both widths."""
    while True:
        width = rng.choice(WIDTHS)
        capacity = rng.choice(FIXED[:rng.choice((6, 21, 27))])
        space = rng.choice((8, 20, 60, 400))
        base = rng.choice((0, 0, NARROW - space // 2, NARROW - space, TOP - space))
        block = [words('new', width, capacity)]
        count = 0
        for _ in range(300):
            a, b = base + rng.randint(0, space), base + rng.randint(0, space)
            if rng.random() < 0.9:
                a, b = sorted((a, b))
            a, b = min(a, TOP), min(b, TOP)
            kind = rng.random()
            if kind < 0.25:
                block.append(words('add', a, b))
                count += 1
            elif kind < 0.4:
                block += ['show', words('insert', a, b), 'show']
            elif kind < 0.55:
                block += ['coalesce', 'show']
            elif kind < 0.85:
                b = rng.choice((b, b, min(TOP, a + rng.randint(0, 3))))
                if rng.random() < 0.7:
                    block.append('coalesce')
                block += [words('remove', a, b), 'show']
            elif kind < 0.95:
                block.append(words('within', a, b))
            else:
                flag = rng.choice(FLAGS)
                block.append(words('octets', flag, rng.randint(0, 6) * (8 if flag == 'normal' else 16)))
        block.append('show')
        yield block


def store_lists(rng):
    """Lists of up to 4,096 ranges, ascending, reversed, in random order, overlapping, with empty and
    reversed pairs: coalesce, then removes inside, at the edges of, across and between ranges, inserts of
    the same kinds, adds up to a full store, octets; both widths, full and not."""
    while True:
        width = rng.choice(WIDTHS)
        n = min(4096, int(2 ** rng.uniform(0, 12.01)))
        capacity = rng.choice([c for c in FIXED if c >= n])
        most = NARROW if width == 'narrow' else TOP
        low = rng.choice((0, 0, max(0, NARROW - 8 * n), most - 8 * n))
        high = min(most, low + rng.choice((2 * n, 4 * n, 8 * n, 2**20)))
        block = [words('new', width, capacity)]
        kind = rng.choice(('ascending', 'reversed', 'shuffled', 'overlapping', 'any'))
        pairs = ascending(rng, n, low, high)
        if kind == 'reversed':
            pairs.reverse()
        elif kind == 'shuffled':
            rng.shuffle(pairs)
        elif kind == 'overlapping':
            starts = [rng.randint(low, high) for _ in range(n)]
            pairs = [(s, min(high, s + rng.randint(1, 9))) for s in starts]
        elif kind == 'any':
            pairs = [(rng.randint(low, high), rng.randint(low, high)) for _ in range(n)]
        block += set_list(pairs)
        for flag, per in (('normal', 8), ('large', 16)):
            if rng.random() < 0.3:
                block.append(words('octets', flag, len(pairs) * per))
        if kind != 'ascending' or rng.random() < 0.3:
            block += ['coalesce', 'show']
        for _ in range(20):
            s, e = rng.choice(pairs) if pairs else (low, high)
            inner = sorted((rng.randint(min(s, e), max(s, e)), rng.randint(min(s, e), max(s, e))))
            a, b = rng.choice([(s, e), (s, inner[1]), (inner[0], e), inner, (max(0, s - 1), e), (e, e + 1),
                               (max(0, s - 1), s), (rng.randint(low, high), rng.randint(low, high))])
            a, b = min(a, TOP), min(b, TOP)
            block += [words('within', a, b), words('remove', a, b)]
            if rng.random() < 0.3:
                block.append(words('insert', a, min(TOP, b + rng.choice((0, 0, 1, 5)))))
        block.append('show')
        for _ in range(rng.randint(0, 4)):
            block.append(words('add', rng.randint(low, high), rng.randint(low, high)))
        block.append('show')
        if rng.random() < 0.5:
            block += ['coalesce', 'show']
        yield block


def store_broken(rng):
    """Stores that are none, for every store call: an odd length, more than 4,096 pairs, a count
    above the capacity, wide numbers in a narrow store (10); uncoalesced lists for remove and insert (8,
    after 4, 2 and 3); slots past the count before and after a change; a size that is not progress, at which no
    store call looks."""
    while True:
        width = rng.choice(WIDTHS)
        capacity = rng.choice((0, 1, 2, 3, 5, 4096))
        block = [words('new', width, capacity)]
        for _ in range(12):
            pairs = [(rng.choice(EDGE[:9]), rng.choice(EDGE[:9])) for _ in range(rng.randint(0, 4))]
            block += set_list(pairs)
            if rng.random() < 0.5:
                block.append(words('lend', rng.choice((0, 1, 2, 3, 4, 7, 8, 10, 8191, 8192, 8193, 8194, 8200))))
            if rng.random() < 0.3:
                counts = (0, 1, 2, 3, 4096, 4097, 4100, 4101, 2**63, TOP)
                block.append(words('load', 0, 'known', rng.choice(counts), rng.choice(('open', 'open', 0, 5))))
            for _ in range(4):
                block.append(one_call(rng, rng.choice(EDGE[:10]), rng.choice(EDGE[:10]), len(pairs)))
            block += ['slots 12']
            if rng.random() < 0.1:
                block += ['show']
        yield block


# Events, PDUs, sequences, nonsense.

def events_small(rng):
    """The data event, every offset from 0 to 7 and length from 0 to 4, known, on every coalesced list
    of the offsets 0 to 4 and every progress from its end to 6, full and with room for one more; and
    waiting at every progress to 6, capacities 0 and 1: kept, noticed, 1, 2."""
    asked = list(itertools.product(range(8), range(5)))
    for bits in range(2**5):
        pairs = spans(bits)
        for progress, room in itertools.product(range(bits.bit_length(), 7), (0, 1)):
            block = [words('new', 'wide', len(pairs) + room)]
            for offset, length in asked:
                block += [*set_list(pairs, progress, 'known'), words('data', offset, length), 'show']
            yield block
    for progress, capacity in itertools.product(range(7), (0, 1)):
        block = [words('new', 'wide', capacity)]
        for offset, length in asked:
            block += [*set_list([(0, progress)] if progress else [], progress), words('data', offset, length), 'show']
        yield block


def events_history(rng):
    """Long histories of events from a fresh record or from progress near 2^32 or 2^64, capacities 0
    to 4,096, both widths, metadata first, late or never, data in order, in gaps, repeated, across
    several ranges; slots past the count; sequences in between: noticed, kept, known, 1, 2, 4, 9, 19."""
    while True:
        width = rng.choice(WIDTHS)
        capacity = rng.choice((0, 1, 1, 2, 2, 3, 4, 8, 30, 400, 4096))
        block = [words('new', width, capacity)]
        step = rng.choice((1, 3, 10, 1000))
        base = rng.choice((0, 0, 0, NARROW - 40 * step, TOP - 40 * step))
        late = rng.choice((0, 0, 0, 3, 20, 10**9))
        if base and late == 0 and rng.random() < 0.8:
            block.append(words('load', base, 'known', 0, 'open'))
        front = base
        for at in range(rng.choice((20, 150, 400))):
            if at == late or rng.random() < 0.01:
                block.append('metadata')
            kind = rng.random()
            if kind < 0.45:
                offset = front + rng.choice((0, 0, 1, 2, 5)) * rng.randint(1, step)
            else:
                offset = rng.randint(base, max(base, front))
            offset = min(offset, TOP)
            length = rng.choice((0,) + (1, 2, 5, 5, 20) * 6) * rng.randint(1, step)
            if rng.random() < 0.02:
                length = rng.choice((TOP - offset, TOP - offset + 1, TOP, max(0, NARROW - offset), NARROW + 1))
            length = min(length, TOP)
            front = max(front, min(offset + length, base + 60 * step, TOP))
            block.append(words('data', offset, length))
            if rng.random() < 0.3:
                block.append('show')
            if rng.random() < 0.1:
                block.append(words('slots', rng.choice((4, 10, 40))))
            if rng.random() < 0.05:
                block.append(words('nak 1 1 1 7 2', rng.choice(FLAGS), rng.choice((40, 64, 200)), 0, 16, 3200))
        yield block


def eof_places(rng):
    """The end of file and data at each place of a size, known and waiting, on lists that are empty, that the tail joins and that it
    does not join, full and with room, the size open, known and not progress, near 0, 2^32 and the width's largest number, both
    widths: ended, kept, noticed, 1, 10, 22 in every way that they can come; metadata and a sequence on each."""
    for base, width in ((0, 'wide'), (0, 'narrow'), (NARROW - 90, 'narrow'), (NARROW - 40, 'wide'), (TOP - 90, 'wide')):
        p = base + 50
        lists = [('known', p, []), ('known', p, [(p - 40, p - 30)]), ('known', p, [(p - 40, p - 30), (p - 20, p)]), ('missing', p, [(0, p)])]
        if base == 0:
            lists += [('known', 0, []), ('missing', 0, [])]
        for (mark, progress, pairs), room in itertools.product(lists, (0, 1)):
            block = [words('new', width, len(pairs) + room)]
            ends = [max(0, progress - 1), progress, progress + 1, progress + 9]
            events = [words('eof', z) for z in ends] + [words('data', max(0, z - 5), min(z, 5)) for z in ends[:3]]
            events += [words('data', max(0, progress - 37), 2), 'metadata', 'nak 1 1 1 7 2 large 64 0 2 128']
            for size, event in itertools.product(('open', progress, progress + 1), events):
                block += [*set_list(pairs, progress, mark, size), 'show', event, 'show']
            yield block


def sound_records(most):
    """(pairs, progress, mark) of every sound record of the offsets below 5 with a progress up to `most`."""
    for bits in range(2**5):
        for progress in range(bits.bit_length(), most + 1):
            yield spans(bits), progress, 'known'
    for progress in range(most + 1):
        yield [(0, progress)] if progress else [], progress, 'missing'


def shuffled(rng, *choices):
    """Every way to take one of each of the choices, in random order: so a short run has something of all."""
    every = list(itertools.product(*choices))
    rng.shuffle(every)
    return every


def eof_small(rng):
    """The end of file, every size from 0 to 8, known on every coalesced list of the offsets 0 to 4 and every progress to 6,
    and waiting at every progress to 6; full and with room for one more, the size open and known, both widths; then the same
    size again and another: ended, 1, 22."""
    for width, room, (pairs, progress, mark) in shuffled(rng, WIDTHS, (0, 1), sound_records(6)):
        block = [words('new', width, len(pairs) + room)]
        for size, z in itertools.product(('open', progress), range(9)):
            block += [*set_list(pairs, progress, mark, size), 'show', words('eof', z), 'show', words('eof', z), 'show',
                      words('eof', z + 1), 'show']
        yield block


def eof_data_small(rng):
    """Data once the size is known, every offset from 0 to 7 and length from 0 to 3, on every record of eof_small, full and with
    room for one more, both widths: below the size, at it and past it: kept, noticed, 1, 2, 22."""
    for width, room, (pairs, progress, mark) in shuffled(rng, WIDTHS, (0, 1), sound_records(6)):
        block = [words('new', width, len(pairs) + room)]
        for offset, length in itertools.product(range(8), range(4)):
            block += [*set_list(pairs, progress, mark, progress), 'show', words('data', offset, length), 'show']
        yield block


def eof_records():
    """(length, pairs, count, progress, mark, size) of every record of eof_checks: sound ones, and such as fail one or two of the
    checks of a record."""
    above = NARROW + 1
    lists = [[], [(10, 20)], [(10, 20), (30, 40)], [(10, 20), (30, 50)], [(30, 40), (10, 20)], [(10, 20), (20, 40)], [(10, 10)],
             [(0, 50)], [(0, 40)], [(20, 10), (30, 40)], [(30, 60), (10, 20)], [(10, 20), (30, above)]]
    for pairs, room, mark in itertools.product(lists, (0, 1), ('known', 'missing')):
        n = len(pairs)
        for progress in (0, 45, 50, NARROW, above):
            for size in ('open', progress, 0, 45, 50, above):
                yield 2 * (n + room), pairs, n, progress, mark, size
        for length, count in ((2 * n + 1, n), (2 * n, n + 1), (8194, n)):
            yield length, pairs, count, 50, mark, ('open', 50, 60)[n % 3]


EOF_EVENTS = [*(words('eof', z) for z in (0, 44, 45, 49, 50, 51, 60, NARROW, NARROW + 1, TOP)),
              *(words('data', *of) for of in ((0, 0), (60, 0), (10, 10), (15, 2), (49, 1), (49, 2), (50, 1), (60, 5), (0, NARROW),
                                              (0, NARROW + 1), (TOP, 1), (TOP, 0))),
              'metadata', 'nak 1 1 1 7 2 large 64 0 2 128']


def eof_check(record, event):
    """Lines that set such a record and try the event on it."""
    length, pairs, count, progress, mark, size = record
    return [*set_list(pairs, progress, mark, size), words('lend', length), words('load', progress, mark, count, size), 'show', event,
            'slots 6']


def eof_checks(rng):
    """The order of the checks of the end of file, 10, 8, 12, 4, 22, 1, and of data once the size is known, 10, 8, 12, 2, 9, 4, 22, 1:
    sizes and ranges that fail none, one or two of them on records that are sound, full, without capacity, or fail one or two of
    theirs (10 of each kind, among them a size that is not progress, 8, 12); metadata and a sequence on each; both widths."""
    every = shuffled(rng, WIDTHS, eof_records(), EOF_EVENTS)
    for at in range(0, len(every), 20):
        yield [line for width, *case in every[at:at + 20] for line in (words('new', width, 0), *eof_check(*case))]


def eof_slots(rng):
    """The end of file on lists of 0 to 4 ranges with other numbers in the slots behind, joined, apart, waiting, refused: slots past
    both counts stay; both widths."""
    for width, n, room, gap, z in itertools.product(WIDTHS, range(5), (0, 1, 2), (0, 3), (0, 1, 9)):
        pairs = [(10 * i + 4, 10 * i + 8) for i in range(n)]
        progress = 10 * n - 2 + gap if n else gap
        records = [set_list(pairs, progress, 'known')]
        if n == 1:
            records.append(set_list([(0, progress)], progress))
        for record in records:
            yield [words('new', width, n + room), words('poke', 2 * n, 91, 92, 93, 94, 95, 96), *record, 'show',
                   words('eof', progress + z), words('slots', 2 * n + 6), 'show']


def eof_history(rng):
    """Long histories of all three events from a fresh record or from progress near 2^32 or 2^64, capacities 0 to 4,096, both
    widths: the end of file first, between the data, last, again with the same size and with another, before the metadata and
    behind it; then what is missing arrives, and data past the size; sequences in between."""
    while True:
        width = rng.choice(WIDTHS)
        capacity = rng.choice((0, 1, 1, 2, 2, 3, 4, 8, 30, 400, 4096))
        most = NARROW if width == 'narrow' else TOP
        step = rng.choice((1, 3, 10, 1000))
        length = 40 * step
        base = rng.choice((0, 0, 0, 0, most - length, NARROW - 20 * step))
        block, late, end = [words('new', width, capacity)], rng.choice((0, 0, 0, 3, 20, 10**9)), base + length
        if base:
            block.append(words('load', base, 'known', 0, 'open'))
        moment, events = rng.choice((0, 1, 5, 15, 30, 39, 45)), rng.choice((10, 45, 90))
        for at in range(events):
            if at == late and not base:
                block.append('metadata')
            if at == moment or rng.random() < 0.04:
                z = rng.choice((end, end, end, end, end + step, end - step, base, base + length // 2, 0, most, most + 1))
                block += ['show', words('eof', min(z, TOP)), 'show']
            offset = base + rng.choice((at, at, at + 1, rng.randint(0, 40), rng.randint(0, 44))) * step
            block += ['show', words('data', min(offset, TOP), rng.choice((1, 1, 1, 2, 3)) * step)]
            if rng.random() < 0.2:
                block.append(words('slots', rng.choice((4, 10, 40))))
            if rng.random() < 0.1:
                block.append(words('nak 1 1 1 7 2', rng.choice(FLAGS), rng.choice((40, 64, 200)), 0, 16, 3200))
        # The tail again, cut anyhow; then the whole file.
        for _ in range(4):
            s, e = sorted((rng.randint(base, end), rng.randint(base, end)))
            block += ['show', words('data', s, e - s)]
        yield [*block, 'show', 'metadata', 'show', words('data', base, length), 'show', words('eof', end), 'show',
               words('data', base, length), 'show', 'nak 1 1 1 7 2 large 200 0 16 3200']


def eof_wide_lists(rng):
    """The end of file on lists of 100, 1,000, 4,095 and 4,096 ranges, full and with room for one more, both widths: behind the last
    range at progress, which joins, and past it; the same size again; then data at and past it."""
    for width, n, room, gap in itertools.product(WIDTHS, (100, 1000, 4095, 4096), (0, 1), (0, 5)):
        if n + room > 4096:
            continue
        pairs = [(10 * i + 2, 10 * i + 8) for i in range(n)]
        progress = pairs[-1][1] + gap
        end = progress + 100
        yield [words('new', width, n + room), *set_list(pairs, progress, 'known'), words('eof', progress - 1), words('eof', end),
               'show', words('eof', end), words('data', end - 1, 1), words('data', end, 1), words('data', 2, end), 'show',
               words('slots', min(8200, 2 * n + 2)), words('data', 0, end - 1), 'show']


def events_wide_lists(rng):
    """Data events on lists of hundreds and thousands of ranges: gaps up to a full list, splits, data
    across many ranges."""
    while True:
        n = rng.choice((100, 600, 2000, 4095, 4096))
        pairs = ascending(rng, n, 0, 8 * n)
        progress = pairs[-1][1] + rng.randint(0, 3)
        block = [words('new', 'wide', min(4096, n + rng.choice((0, 0, 1))))] + set_list(pairs, progress, 'known')
        for _ in range(12):
            offset = rng.randint(0, progress + 5)
            length = rng.choice((1, 2, 3, 50, 2 * n))
            progress = max(progress, offset + length)
            block.append(words('data', offset, length))
        yield block + ['show', words('slots', min(8200, 2 * n + 2))]


def records_broken(rng):
    """Records that are none, for all three events and the sequence: 10 of each kind, among them a waiting
    list that is not the stated one, narrow progress and a known size that is not progress, 8, 12, 19 after them."""
    while True:
        width = rng.choice(WIDTHS)
        block = [words('new', width, rng.choice((0, 1, 2, 3, 4)))]
        for _ in range(12):
            pool = rng.choice((EDGE[:5], EDGE[4:9], EDGE, range(8)))
            pairs = [(rng.choice(pool), rng.choice(pool)) for _ in range(rng.choice((0, 1, 1, 2, 3)))]
            if rng.random() < 0.6:
                flat = sorted({n for pair in pairs for n in pair})
                pairs = list(zip(flat[:len(flat) // 2 * 2:2], flat[1::2]))
            last = pairs[-1][1] if pairs else 0
            progress = rng.choice((last, last, min(TOP, last + 1), max(0, last - 1), rng.choice(pool)))
            size = rng.choice(('open', 'open', 'open', progress, progress, rng.choice(pool)))
            block += set_list(pairs, progress, rng.choice(('known', 'known', 'missing')), size)
            if rng.random() < 0.1:
                block.append(words('lend', rng.choice((1, 3, 4, 6, 8192, 8193, 8194))))
            if rng.random() < 0.1:
                block.append(words('load', progress, 'known', rng.choice((3, 4, 5, 4097, TOP)), size))
            for _ in range(3):
                block.append(rng.choice((
                    'metadata', words('data', rng.choice(pool), rng.choice((0, 1, 2, 3, TOP))),
                    words('eof', rng.choice((progress, rng.choice(pool)))),
                    words('nak 1 1 1 7 2', rng.choice(FLAGS), rng.choice((22, 24, 40, 64)), rng.choice((0, 1, 2, 9)),
                          rng.choice((0, 1, 2, 17)), rng.choice((0, 64, 128, 1100))))))
            block.append('slots 8')
        yield block


def records_small(rng):
    """Every list of up to two pairs of the numbers 0 to 3, known, with progress 0 to 4: all three events, the
    sequence, remove and insert: 8 for lists that overlap, touch, descend or hold empty pairs, 12, 19; and the
    same lists waiting: 10 unless the list is the stated one."""
    pool = list(itertools.product(range(4), repeat=2))
    for n, mark in itertools.product(range(3), ('known', 'missing')):
        for pairs in itertools.product(pool, repeat=n):
            block = ['new wide 3']
            for progress in range(5) if n < 2 else (3, 4):
                block += [*set_list(pairs, progress, mark), 'nak 1 1 1 7 2 normal 24 0 16 384', 'remove 1 2',
                          *set_list(pairs, progress, mark), 'insert 1 2', 'show', *set_list(pairs, progress, mark),
                          'data 2 1', 'show', *set_list(pairs, progress, mark), 'metadata', 'show',
                          *set_list(pairs, progress, mark), 'eof 4', 'show']
            yield block


def records_edges(rng):
    """Events and the sequence at the limits of the widths: ends, sizes and progress of 2^32 - 1, 2^32 and
    2^64 - 1, offsets and lengths whose sum is one above, both widths, known and waiting."""
    for width, limit in (('narrow', NARROW), ('wide', TOP), ('wide', NARROW)):
        for progress in (0, limit - 1, limit, min(TOP, limit + 1)):
            for mark, pairs in (('known', []), ('known', [(0, 1)]), ('missing', [(0, progress)] if progress else []),
                                ('known', [(limit - 2, limit - 1)]), ('known', [(limit - 2, min(TOP, limit + 1))])):
                block = [words('new', width, 2)]
                record = set_list(pairs, progress, mark)
                for offset, length in ((0, limit), (limit, 1), (limit - 1, 1), (limit - 1, 2), (limit, 0), (1, limit),
                                       (TOP, 1), (TOP, TOP), (TOP - 1, 1), (0, TOP)):
                    block += [*record, words('data', offset, length), 'show']
                for z in (0, limit - 1, limit, min(TOP, limit + 1), TOP):
                    block += [*record, 'show', words('eof', z), 'show', words('eof', z), words('data', max(z, 1) - 1, 1), 'show']
                for flag in FLAGS:
                    block += [*record, words('nak 1 1 1 7 2', flag, 64, 0, 2, 128)]
                yield block + ['metadata', 'show', 'metadata']


# Queries: what was kept, how much is missing, a picture of the file.

def meets(pairs, progress):
    """Ranges that meet such a list in every way: before, between and behind its ranges, touching, inside, over and across them, from
    one into another, up to progress, one past it and far past it; some that are empty or reversed."""
    edges = {0, progress, *(x for pair in pairs[:2] + pairs[-1:] for x in pair)}
    near = sorted({min(TOP, max(0, edge + d)) for edge in edges for d in (-1, 0, 1)})
    turned = [(b, a) for a, b in zip(near, near[1:])]
    return [*itertools.combinations(near, 2), *turned, *((x, x) for x in near), (0, TOP), (progress, TOP), (TOP, progress)]


def held_kinds(rng):
    """Each kind of answer to held, missing and map once, the size open, known and not progress, both widths: with nothing, some and all
    missing, waiting, and no octet at all."""
    asked = [(0, 3), (17, 20), (15, 18), (15, 20), (2, 5), (10, 12), (0, 20), (16, 21), (16, 30), (13, 21), (6, 8), (7, 13), (9, 11), (11, 13),
             (4, 11), (4, 16), (5, 5), (9, 4)]
    records = [([], 'known', 20), ([(5, 10), (12, 15)], 'known', 20), ([(0, 6), (13, 14)], 'known', 20), ([(0, 5)], 'known', 20),
               ([(5, 20)], 'known', 20), ([(0, 20)], 'known', 20), ([(0, 20)], 'missing', 20), ([], 'known', 0), ([], 'missing', 0)]
    for width, sized in itertools.product(WIDTHS, ('open', 0, 1)):
        block = [words('new', width, 2)]
        for pairs, mark, progress in [*records, *([([(9, TOP // 3)], 'known', TOP)] if width == 'wide' else [])]:
            block += [*set_list(pairs, progress, mark, sized if sized == 'open' else max(0, progress - sized)), 'show',
                      *(words('held', *of) for of in asked), 'missing', *(words('map', cells) for cells in (1, 2, 3, 4, 20, 21)), 'show']
        yield block


def held_records():
    """(width, pairs, progress, mark, size) of every record of held_places."""
    lists = [[], [(40, 50)], [(0, 9), (40, 50)], [(20, 30), (40, 50), (60, 90)], [(10 * i + 2, 10 * i + 5) for i in range(9)]]
    for base, width in ((0, 'wide'), (0, 'narrow'), (NARROW - 99, 'narrow'), (NARROW - 50, 'wide'), (TOP - 99, 'wide')):
        for pairs, front in itertools.product(lists, (90, 95, 99)):
            pairs, progress = [(base + s, base + e) for s, e in pairs], base + front
            yield from ((width, pairs, progress, 'known', size) for size in ('open', progress))
        for progress in sorted({0, base, base + 60, base + 99}):
            yield from ((width, [(0, progress)] if progress else [], progress, 'missing', size) for size in ('open', progress))


def held_places(rng):
    """held on lists of none, one, two, three and nine ranges, at the front, in the middle and up to progress, near 0, 2^32 and the
    width's largest number, the size open and known, both widths, and waiting: every way in which a range can meet the list and
    progress; missing and a map of each, and the record again: yes, no, 2, 3, missing, map."""
    for (width, pairs, progress, mark, size), in shuffled(rng, held_records()):
        yield [words('new', width, len(pairs)), *set_list(pairs, progress, mark, size), 'show',
               *(words('held', *of) for of in meets(pairs, progress)), 'missing', 'map 7', 'map 200', 'show']


def held_small(rng):
    """held of every pair from 0 to 8, missing, and map of 1 to 8 and 200 cells, on every sound record of the offsets 0 to 4 with a
    progress to 6, known and waiting, the size open and known, both widths: yes, no, 2, 3, missing, map."""
    for width, sized, (pairs, progress, mark) in shuffled(rng, WIDTHS, (False, True), sound_records(6)):
        yield [words('new', width, len(pairs)), *set_list(pairs, progress, mark, progress if sized else 'open'), 'show',
               *(words('held', a, b) for a, b in itertools.product(range(9), repeat=2)), 'missing',
               *(words('map', cells) for cells in (*range(1, 9), 200)), 'show']


HELD_QUERIES = [*(words('held', *of) for of in ((0, 5), (20, 30), (5, 25), (12, 15), (42, 45), (42, 46), (5, 5), (9, 4), (NARROW, TOP),
                                                (TOP, TOP), (TOP, NARROW + 1))), 'missing', 'map 7', 'map 200']


def held_check(record):
    """Lines that set such a record (as eof_records has them) and put every query to it."""
    length, pairs, count, progress, mark, size = record
    return [*set_list(pairs, progress, mark, size), words('lend', length), words('load', progress, mark, count, size), 'show',
            *HELD_QUERIES, 'show', 'slots 6']


def held_checks(rng):
    """The order of the checks of held, 10, 8, 12, 2, 3, and those of missing and map, 10, 8, 12: ranges that are fine, past progress,
    past the narrow limit (no check of theirs), empty and reversed, on the records of eof_checks, both widths: yes, no, missing, map, 2, 3,
    8, 10, 12."""
    for width, record in shuffled(rng, WIDTHS, eof_records()):
        yield [words('new', width, 0), *held_check(record)]


def held_history(rng):
    """Long histories of all three events, the metadata first, late or never, capacities 0 to 40, both widths, from progress 0 or near
    the width's largest number, and after each the queries: ranges of the data that came, across two of them, past progress."""
    while True:
        width = rng.choice(WIDTHS)
        most = NARROW if width == 'narrow' else TOP
        step, late = rng.choice((1, 3, 10, 1000)), rng.choice((0, 0, 0, 0, 5, 15, 10**9))
        base = rng.choice((0, 0, 0, most - 40 * step))
        block = [words('new', width, rng.choice((0, 1, 2, 3, 8, 8, 40, 40, 40)))]
        if base:
            block.append(words('load', base, 'known', 0, 'open'))
        came = [(base, base + step)]
        for at in range(40):
            if at == late and not base:
                block.append('metadata')
            if rng.random() < 0.05:
                block.append(words('eof', base + rng.choice((40, 40, 40, rng.randint(0, 40))) * step))
            s = base + rng.choice((at, at + 1, rng.randint(0, 39), rng.randint(0, 39))) * step
            e = min(s + rng.randint(1, 3 * step), most)
            block += [words('data', s, e - s), 'show']
            came.append((s, e))
            for (a, b), (c, d) in (rng.choices(came, k=2), (came[-1], rng.choice(came))):
                a, b = rng.choice(((a, b), (min(a, c), max(b, d)), (a, min(TOP, b + 1)), (max(0, a - 1), b), (b, d)))
                block.append(words('held', a, b))
            block += ['missing', words('map', rng.choice((1, 2, 3, 7, 40, 64, 199, 200)))]
        yield [*block, 'show']


def map_cells(rng, progress, cells):
    """A coalesced list whose ends lie at and next to the bounds between the cells, and anywhere."""
    n = min(cells, progress)
    ends = set()
    for _ in range(2 * rng.randint(1, 6)):
        bound = rng.randint(0, n) * progress // n if n else 0
        ends.add(rng.choice((bound, bound, bound - 1, bound + 1, rng.randint(0, progress))))
    ends = sorted(end for end in ends if 0 <= end <= progress)
    if len(ends) % 2:
        ends.pop(rng.randrange(len(ends)))
    return list(zip(ends[::2], ends[1::2]))


def map_places(rng):
    """map of files of 0, 1, 2, 199, 200, 201 octets and others, around 2^32, 2^63 and the width's largest number, in 1, 2, 3, 7, 64, 199
    and 200 cells and in as many as there are octets, on lists whose ends lie at and next to the bounds between cells, with nothing
    missing and with all of it, the size open and known, and waiting, both widths; 0, 201 and more cells, which are errors."""
    tops = [0, 1, 2, 3, 7, 10, 199, 200, 201, 400, 1000, 99991, NARROW - 1, NARROW]
    wide = [NARROW + 1, 2**33 + 5, 2**57 + 7, 2**63 - 1, 2**63, TOP // 200 * 200 - 1, TOP - 200, TOP - 1, TOP]
    every = [('narrow', top) for top in tops] + [('wide', top) for top in tops + wide]
    while True:
        rng.shuffle(every)
        for width, top in every:
            block = [words('new', width, 12)]
            for cells in (1, 2, 3, 7, 64, 199, 200, *({top - 1, top, top + 1} & set(range(1, 201)))):
                size = rng.choice(('open', top))
                whole = [(0, top)] if top else []
                for pairs, mark in ((map_cells(rng, top, cells), 'known'), rng.choice((([], 'known'), (whole, 'known'), (whole, 'missing')))):
                    block += [*set_list(pairs, top, mark, size), 'show', words('map', cells), 'missing']
            yield [*block, 'map 0', 'map 201', words('map', rng.choice((202, 255, 256, 257, 456, 2**32, 2**32 + 1, TOP))), 'show']


def held_wide_lists(rng):
    """The queries on lists of 100, 1,000, 4,095 and 4,096 ranges, both widths: kept parts and holes at the front, in the middle and at
    the end, across one hole and across all, maps of 1, 63 and 200 cells."""
    for width, n, gap, sized in shuffled(rng, WIDTHS, (100, 1000, 4095, 4096), (0, 5), (False, True)):
        pairs = [(10 * i + 2, 10 * i + 8) for i in range(n)]
        progress = pairs[-1][1] + gap
        block = [words('new', width, n), *set_list(pairs, progress, 'known', progress if sized else 'open'), 'show']
        for at in (0, 1, n // 2, n - 2, n - 1):
            s, e = 10 * at + 2, 10 * at + 8
            block += [words('held', *of) for of in ((s - 2, s), (s - 1, s), (e, e + 2), (e, e + 4), (e, e + 5), (s - 1, e + 1), (s, e), (s - 2, s + 1),
                                                    (e - 1, e + 2), (e + 1, e + 2), (s - 1, progress), (0, e + 1))]
        yield [*block, 'missing', 'map 1', 'map 63', 'map 200', 'show']


def identity(rng, good=True):
    i, q = rng.randint(1, 8), rng.randint(1, 8)
    numbers = [rng.choice((0, 1, 256**length - 1, rng.randrange(256**length))) for length in (i, q, i)]
    if not good:
        fault = rng.randrange(6)
        if fault < 2:
            i, q = [(rng.choice((0, 9, 256, TOP)), q), (i, rng.choice((0, 9, 10, TOP)))][fault]
        elif fault < 5 and (i, q, i)[fault - 2] < 8:
            numbers[fault - 2] = 256**(i, q, i)[fault - 2] + rng.choice((0, 0, 1))
        numbers = [min(n, TOP) for n in numbers]
    return [i, q, *numbers]


def tail(trailer):
    """The octets of a trailer."""
    return 2 if trailer == 'crc' else 0


def crc_of(octets, preset=0xffff):
    """The CRC of these octets as Python's library has it."""
    return binascii.crc_hqx(bytes(octets), preset).to_bytes(2, 'big')


def resealed(packet):
    """The packet with its last two octets the CRC of those before them; a shorter one as it is."""
    return packet[:-2] + crc_of(packet[:-2]) if len(packet) > 1 else packet


def octets_of(ident, large, start, end, requests, edition='newer', trailer='plain'):
    """A packet's octets, good or not, so that readers can be fed without a writer. Of the older edition with the large flag it is
    what a writer would make that takes the reserved bit for the flag."""
    i, q, source, number, destination = ident
    f = 8 if large else 4
    out = bytearray([(0x28 if edition == 'newer' else 0x08) | tail(trailer) | large, 0, 0, (i - 1) << 4 | (q - 1)])
    out += source.to_bytes(i, 'big') + number.to_bytes(q, 'big') + destination.to_bytes(i, 'big')
    head = len(out)
    out.append(8)
    for n in [start, end] + [n for pair in requests for n in pair]:
        out += n.to_bytes(f, 'big')
    out[1:3] = (len(out) - head + tail(trailer) & 0xffff).to_bytes(2, 'big')
    return resealed(out + bytes(2)) if trailer == 'crc' else out


def some_requests(rng, large, n):
    most = TOP if large else NARROW
    out = []
    for _ in range(n):
        s = rng.choice((0, rng.randint(0, most), rng.randint(0, 999), most - 1))
        out.append((s, min(most, s + rng.choice((1, 2, 100, 2**20)))))
    if n and rng.random() < 0.4:
        out[rng.choice((0, n - 1, rng.randrange(n)))] = (0, 0)
    return out


def pdus_lengths(rng):
    """One packet written and read for each of the 64 pairs of identifier lengths, both flags of the newer edition and the older
    edition, each with and without a trailer, with and without a metadata request, first and last, and each buffer one short and one
    long; read under the other edition too: pdu, nak, 6, 15."""
    for i, q, (edition, flag), trailer in itertools.product(range(1, 9), range(1, 9), FORMS, TRAILERS):
        large = flag == 'large'
        block = ['new wide 0', link(edition, trailer)]
        for requests in ([], [(0, 0)], [(0, 0), (100, 200)], [(100, 200), (0, 0)], [(5, 2**31)]):
            ident = [i, q, *[rng.randrange(256**length) for length in (i, q, i)]]
            packet = octets_of(ident, large, 3, 1000, requests, edition, trailer)
            flat = [n for pair in requests for n in pair]
            for length in (len(packet) - 1, len(packet) + 1, len(packet)):
                block.append(words('write', *ident, flag, 3, 1000, length, *flat))
            block.append(words('read', packet.hex()))
        yield [*block, link(EDITIONS[edition == 'newer']), block[-1], link('newer')]


def pdus_limits(rng):
    """Packets of every total from 4,089 to 4,104 octets, written and read, both flags and the older edition, with and without a
    trailer: pdu, nak, 14."""
    for (edition, flag), trailer, q, extra in itertools.product(FORMS, TRAILERS, range(1, 9), (0, 1)):
        large = flag == 'large'
        f = 8 if large else 4
        for i in (1, 5) if large else (1,):
            ident = [i, q, 1, 7, 2]
            requests = [(2 * s, 2 * s + 1) for s in range((4096 - (5 + 2 * i + q + 2 * f + tail(trailer))) // (2 * f) + extra)]
            lines = written_and_read(ident, flag, 0, 9999, requests, edition=edition, trailer=trailer)
            yield ['new wide 0', link(edition, trailer), *lines, link('newer')]


# A letter for each kind of request: good, metadata, another empty one, reversed.
LETTERS = 'gmer'


def request_of(rng, letter, large):
    """A request of that kind; of the empty ones also one whose lower half is that of (0, 0)."""
    most, half = (TOP, 2**32) if large else (NARROW, 2**16)
    if letter == 'm':
        return 0, 0
    if letter == 'e':
        return (rng.choice((5, 5, 1, 256, half, most)),) * 2
    low, high = rng.choice(((100, 200), (0, 1), (0, 256), (0, half), (5, most), (most - 1, most)))
    return (low, high) if letter == 'g' else (high, low)


def written_and_read(ident, flag, start, end, requests, more=0, edition='newer', trailer='plain'):
    """Lines that write a PDU of these requests, into a buffer of its length and some more, and that read its octets, those of that
    edition and trailer."""
    packet = octets_of(ident, flag == 'large', start, end, requests, edition, trailer)
    flat = [n for pair in requests for n in pair]
    return [words('write', *ident, flag, start, end, len(packet) + more, *flat), words('read', packet.hex())]


def metadata_words():
    """Lists of requests as words of the letters above: every one of up to four, then longer ones with one to three that are not good."""
    for n in range(5):
        yield from map(''.join, itertools.product(LETTERS, repeat=n))
    for first, second, a, b, c in itertools.product(('m', 'e', 'r', 'mm'), ('', 'm', 'e', 'r'), (0, 1, 7), (0, 7), (0, 1, 7)):
        if a + b + c > 4:
            yield 'g' * a + first + 'g' * b + second + 'g' * c


def pdus_metadata(rng):
    """One PDU written and read for each order of good, metadata, other empty and reversed requests, up to four of them and some
    longer, both flags and the older edition, with and without a trailer (C-12): (0, 0) first, in the middle, last, alone, twice, with 2
    and 3 before and behind it: pdu, nak, 2, 3."""
    for word in metadata_words():
        block = ['new wide 0']
        for (edition, flag), trailer in itertools.product(FORMS, TRAILERS):
            requests = [request_of(rng, letter, flag == 'large') for letter in word]
            lines = written_and_read([1, 1, 1, 7, 2], flag, 0, 1000, requests, edition=edition, trailer=trailer)
            block += [link(edition, trailer), *lines]
        yield [*block, link('newer')]


def pdus_metadata_checks(rng):
    """A second (0, 0) before 7, 14 and 6, and a single one where they are the answer; PDUs of as many requests as 4,096 octets hold,
    and of one more, with (0, 0) last, and first and last, both flags and the older edition, with and without a trailer (C-12): pdu, nak,
    2, 6, 7, 14."""
    above, last, twice = (1, NARROW + 1), [(1, 2), (0, 0)], [(0, 0), (1, 2), (0, 0)]
    for requests, more in itertools.product(([above, *last], [*last, above], [above, *twice], [*twice, above], [(0, 0), above, (0, 0)]), (0, 1)):
        flat = [n for pair in requests for n in pair]
        normal = words('write', 1, 1, 1, 7, 2, 'normal', 3, 4, 16 + 8 * len(requests) + more, *flat)
        yield ['new wide 0', normal, *written_and_read([1, 1, 1, 7, 2], 'large', 3, 4, requests, more), link('older'), normal, link('newer', 'crc'),
               normal, *written_and_read([1, 1, 1, 7, 2], 'large', 3, 4, requests, more, trailer='crc'), link('newer')]
    for (edition, flag), trailer, extra in itertools.product(FORMS, TRAILERS, (0, 1)):
        n = {'normal': 510, 'large': 254}[flag] - (trailer == 'crc' and flag == 'normal') + extra
        for places in ((n - 1,), (0, n - 1)):
            requests = [(0, 0) if place in places else (2 * place, 2 * place + 1) for place in range(n)]
            lines = written_and_read([1, 1, 1, 7, 2], flag, 0, 9999, requests, edition=edition, trailer=trailer)
            yield ['new wide 0', link(edition, trailer), *lines, link('newer')]


def pdus_written(rng):
    """write with every fault alone and with others, both editions, with and without a trailer: 10, 13, 15, 18, 3, 2, 7, 14, 6."""
    while True:
        block, trailer = ['new wide 0'], 'plain'
        for _ in range(40):
            large = rng.random() < 0.5
            if rng.random() < 0.4:
                trailer = rng.choice(TRAILERS)
                block.append(link(rng.choice(('newer', 'newer', 'older')), trailer))
            ident = identity(rng, rng.random() < 0.9)
            f = 8 if large else 4
            head = 5 + 2 * ident[0] + ident[1] + 2 * f + tail(trailer)
            most = max(0, (4096 - head) // (2 * f))
            n = rng.choice((0, 1, 2, 3, rng.randint(0, 40), most, most + 1))
            if rng.random() < 0.02:
                n = rng.choice((4096, 4097, 4100))
                requests = [(s, s + 1) for s in range(n)]
            else:
                requests = some_requests(rng, large, n)
            top = TOP if large else NARROW
            start, end = sorted((rng.choice((0, 5, 1000, top)), rng.choice((0, 1000, top))))
            if rng.random() < 0.08:
                start, end = end, start
            flat = [x for pair in requests for x in pair]
            if flat and rng.random() < 0.15:
                at = rng.randrange(len(requests))
                fault = rng.choice(((7, 7), (9, 4), (0, 0), (NARROW + 1, NARROW + 5), (2, 1)))
                flat[2 * at:2 * at + 2] = fault
            if rng.random() < 0.04:
                end = rng.choice((NARROW + 1, TOP))
            if flat and rng.random() < 0.04:
                flat.pop()
            length = max(0, min(66000, head + len(flat) // 2 * 2 * f + rng.choice((0,) * 12 + (-1, 1, 8, -8, 500))))
            block.append(words('write', *ident, FLAGS[large], start, end, length, *flat))
        yield [*block, link('newer')]


def pdus_read(rng):
    """read of good packets, of one to eight octets, and of damaged copies: a bit turned, octets cut or added, the length
    field, directive code, scope, requests, flags and the trailer changed, with the trailer mostly made right again, packets above 4,096
    octets; of both editions, mostly under their own, with and without a trailer: nak, 16, 15, 21, 17, 18, 3, 2, 14."""
    while True:
        block = ['new wide 0', 'read']
        for n in range(1, 9):
            short = [rng.choice((0x28, 0x29, 0x68, 0x08, 0x2a, 0x0a)), 0, rng.choice((0, 1)), *[rng.choice((0, 0, 8, 0x80))] * 5]
            block += [link(rng.choice(EDITIONS), rng.choice(TRAILERS)), words('read', bytes(short[:n]).hex())]
        for _ in range(40):
            (edition, flag), trailer = rng.choice((*FORMS, FORMS[2])), rng.choice(TRAILERS)
            large = flag == 'large'
            block.append(link(edition if rng.random() < 0.9 else rng.choice(EDITIONS), rng.choice(TRAILERS)))
            ident = identity(rng)
            n = rng.choice((0, 1, 2, 3, rng.randint(0, 30)))
            if rng.random() < 0.05:
                f = 8 if large else 4
                fit = (4096 - (5 + 2 * ident[0] + ident[1] + 2 * f)) // (2 * f)
                n = rng.choice((fit, fit + 1, fit + 1, rng.randint(fit, 2000), 2040 if large else 4090))
            requests = some_requests(rng, large, n)
            start, end = sorted((rng.randint(0, 999), rng.randint(0, 2000)))
            if rng.random() < 0.1:
                start = end
            packet = octets_of(ident, large, start, end, requests, edition, trailer)
            head = 4 + 2 * ident[0] + ident[1]
            f = 8 if large else 4
            fault = rng.randrange(16)
            if fault == 0:
                packet[rng.randrange(len(packet))] ^= 1 << rng.randrange(8)
            elif fault == 1:
                packet[rng.choice((0, 0, 3))] ^= 1 << rng.randrange(8)
            elif fault == 2:
                packet = packet[:rng.randint(0, len(packet))]
            elif fault == 3:
                packet += bytes(rng.randrange(256) for _ in range(rng.choice((1, 4, 8, 16))))
            elif fault == 4:
                cut = rng.randint(1, min(20, len(packet) - head))
                packet = packet[:len(packet) - cut]
                packet[1:3] = (len(packet) - head).to_bytes(2, 'big')
            elif fault == 5:
                packet[head] = rng.randrange(256)
            elif fault == 6:
                packet[1:3] = rng.randrange(65536).to_bytes(2, 'big')
            elif fault == 7:
                packet = octets_of(ident, large, end + 1, end, requests, edition, trailer)
            elif fault == 8 and requests:
                at = rng.randrange(len(requests))
                requests[at] = rng.choice(((7, 7), (9, 4), (0, 0), (2**32 - 1, 0)))
                packet = octets_of(ident, large, start, end, requests, edition, trailer)
            elif fault == 9:
                packet = packet[:4] + bytes(rng.randrange(256) for _ in range(rng.randint(0, 30)))
            elif fault == 10:
                packet[0] ^= 2
            if trailer == 'crc' and fault in range(11) and rng.random() < 0.7:
                packet = resealed(packet)
            elif fault == 11:
                packet[-rng.randint(1, 2)] ^= 1 << rng.randrange(8)
            block.append(words('read', packet.hex()))
        yield [*block, link('newer')]


def sequences_runs(rng):
    """Whole sequences from cursor 0 in calls of budgets 0 to 16, both flags and the older edition, with and without a trailer, every
    identifier length, metadata known and missing, P from room for one request to 4,096: pdu, sent."""
    while True:
        (edition, flag), trailer = rng.choice(FORMS), rng.choice(TRAILERS)
        large = flag == 'large'
        f = 8 if large else 4
        missing = rng.random() < 0.15
        top = TOP if large else NARROW
        n = rng.choice((0, 1, 2, 3, 7, 20, 90, 300, 4096))
        low = rng.choice((0, 0, 0, top - 20 * n - 20))
        pairs = ascending(rng, n, low, low + rng.choice((2, 4, 15)) * n + 2)
        progress = min(top, (pairs[-1][1] if pairs else 0) + rng.choice((0, 0, 1, 1000)))
        if missing:
            pairs = [(0, progress)] if progress else []
        ident = identity(rng)
        fixed = 5 + 2 * ident[0] + ident[1] + 2 * f + tail(trailer)
        largest = fixed + rng.choice((2 * f, 2 * f + 1, 4 * f, 6 * f + rng.randint(0, 7)))
        largest = rng.choice((largest, largest, 512, 4096))
        k = (largest - fixed) // (2 * f)
        entries = len(pairs) + missing
        block = [words('new', rng.choice(('wide', 'narrow')) if top == NARROW else 'wide', 4096)]
        block += [link(edition, trailer), *set_list(pairs, progress, 'missing' if missing else 'known')]
        cursor = 0
        for _ in range(400):
            budget = rng.choice((0, 1, 2, 3, 16, 16, rng.randint(0, 16)))
            block.append(words('nak', *ident, flag, largest, cursor, budget, budget * largest + rng.choice((0, 0, 5))))
            cursor = min(entries, cursor + budget * k)
            if cursor == entries and rng.random() < 0.7:
                break
        yield [*block, link('newer')]


def sequences_any(rng):
    """Single calls of the sequence with any cursor, on and off the grid and past the end, budgets 0 to
    17, P from too small to above 4,096, short buffers, bad identities, numbers too large for the
    flag, both editions, with and without a trailer: sent, 7, 11, 13, 14, 15, 20, 6."""
    while True:
        block, trailer = ['new wide 64'], 'plain'
        for _ in range(15):
            large = rng.random() < 0.5
            flag, f = FLAGS[large], 8 if large else 4
            if rng.random() < 0.4:
                trailer = rng.choice(TRAILERS)
                block.append(link(rng.choice(('newer', 'newer', 'older')), trailer))
            missing = rng.random() < 0.3
            low = rng.choice((0, 0, 0, 0, NARROW - 8, 2**40))
            pairs = ascending(rng, rng.randint(0, 9), low, low + 40)
            progress = (pairs[-1][1] if pairs else low) + rng.choice((0, 1, 9))
            if missing:
                pairs = [(0, progress)] if progress else []
            entries = len(pairs) + missing
            block += set_list(pairs, progress, 'missing' if missing else 'known')
            for _ in range(4):
                ident = identity(rng, rng.random() < 0.92)
                fixed = 5 + 2 * ident[0] + ident[1] + 2 * f + tail(trailer)
                largest = fixed + 2 * f * rng.randint(1, 4) + rng.choice((0, 0, 1, 2 * f - 1))
                if rng.random() < 0.15:
                    largest = rng.choice((0, 1, fixed, fixed + 2 * f - 1, 4096, 4097, 2**32, TOP))
                cursor = rng.randint(0, entries)
                if rng.random() < 0.07:
                    cursor = rng.choice((entries + 1, TOP))
                budget = rng.randint(0, 17) if rng.random() < 0.9 else rng.choice((17, 2**32, TOP))
                need = min(66000, min(budget, 16) * largest)
                length = rng.choice((need, need, need, min(66000, need + 9), max(0, need - 1), 0))
                block.append(words('nak', *ident, flag, min(largest, TOP), cursor, budget, length))
        yield [*block, link('newer')]


# The link: which edition is written and read (C-20), with or without a trailer (C-11).

def under_both(rng, lines, trailer='plain'):
    """Each of these lines under both editions, now the one first and now the other."""
    out = []
    for line in lines:
        for edition in rng.sample(EDITIONS, 2):
            out += [link(edition, trailer), line]
    return out


def fields_of_both(first):
    """A packet with that first octet whose data field reads with fields of 4 octets and of 8: scope (0, 0), and requests (0, 0), (0, 1)
    and (0, 2), or (1, 2)."""
    return bytes([first]) + bytes.fromhex('00210001070208' + '00' * 16 + '00000000000000010000000000000002')


def link_octets(rng):
    """read of packets with each of the 256 first octets, under both editions: one that is fine for either length of the fields; the same
    with a right trailer behind, which the length field counts; then the same with another directive code, another length field, a fixed
    bit of octet 3 turned, of 3 octets: nak, 15, 16, 17, 21."""
    for (place, octet), trailer in itertools.product(((3, 0x00), (7, 0x09), (2, 0x22), (3, 0x08), (3, 0x80), (3, None)), TRAILERS):
        for at in range(0, 256, 32):
            packets = [fields_of_both(first) for first in range(at, at + 32)]
            if trailer == 'crc':
                packets = [packet[:2] + b'\x23' + packet[3:] + bytes(2) for packet in packets]
            changed = [packet[:place] + (b'' if octet is None else bytes([octet]) + packet[place + 1:]) for packet in packets]
            if trailer == 'crc':
                changed = [resealed(packet) for packet in changed]
            yield ['new wide 0', *under_both(rng, [words('read', packet.hex()) for packet in changed], trailer), link('newer')]


def link_writes(rng):
    """The same PDU written under both editions, both flags, with and without a trailer, with each of the other faults of writing alone
    and with others (a list of
    odd length, an identity that is none, a scope and requests that are reversed or empty, numbers too large, too many requests, a
    buffer one short): pdu, 10, 13, 15, 18, 3, 2, 7, 14, 6, and 15 behind 10 and 13 and before all others."""
    lists = [[100, 200], [], [0, 0, 100, 200], [5, 5], [9, 4], [1, NARROW + 1], [1, 2] * 511]
    idents = [[1, 1, 1, 7, 2], [2, 4, 513, 70000, 7], [1, 9, 1, 7, 2], [1, 1, 1, 256, 2]]
    choices = idents, ((0, 1000), (3, 2**40), (1000, 0)), lists, (0, 1), (0, 1)
    # Each fault alone, then all together.
    sound = [some[0] for some in choices]
    every = [(flag, *sound[:at], one, *sound[at + 1:]) for flag in FLAGS for at, some in enumerate(choices) for one in some]
    every += shuffled(rng, FLAGS, *choices)
    for at, trailer in itertools.product(range(0, len(every), 20), TRAILERS):
        lines = []
        for flag, ident, scope, flat, odd, less in every[at:at + 20]:
            length = 5 + 2 * ident[0] + ident[1] + (16 if flag == 'large' else 8) * (1 + len(flat) // 2) + tail(trailer)
            lines.append(words('write', *ident, flag, *scope, length - less, *flat, *[7] * odd))
        yield ['new wide 0', *under_both(rng, lines, trailer), link('newer')]


def link_reads(rng):
    """Packets of each edition and with either lowest bit, with and without a trailer, read under both editions, sound and with each of the
    other faults of reading: nak, 15, 16, 21, 17, 18, 3, 2, 14, and 15 before all others but 16 for fewer than four octets."""
    kinds = ('sound', 'octet 3', 'cut', 'longer', 'length field', 'code', 'half a request', 'scope', 'reversed', 'empty', 'long', 'short', 'trailer')
    idents = [1, 1, 1, 7, 2], [2, 4, 513, 70000, 7], [8, 8, TOP, 0, 1]
    for edition, flag, ident, trailer in shuffled(rng, EDITIONS, FLAGS, idents, TRAILERS):
        lines, large, head = [], flag == 'large', 4 + 2 * ident[0] + ident[1]
        for kind in kinds:
            requests = [(100, 200)] * (255 if large else 511) if kind == 'long' else [(0, 0), (100, 200)]
            if kind in ('reversed', 'empty'):
                requests.append((9, 4) if kind == 'reversed' else (5, 5))
            packet = octets_of(ident, large, *((9, 4) if kind == 'scope' else (0, 1000)), requests, edition, trailer)
            if kind == 'octet 3':
                packet[3] ^= rng.choice((0x80, 0x08))
            elif kind == 'cut':
                packet.pop()
            elif kind == 'longer':
                packet.append(0)
            elif kind == 'length field':
                packet[1:3] = bytes(2)
            elif kind == 'code':
                packet[head] = rng.choice((0, 4, 7, 9, 0x88))
            elif kind == 'half a request':
                packet = packet[:-4]
                packet[1:3] = (len(packet) - head).to_bytes(2, 'big')
            elif kind == 'short':
                packet = packet[:rng.randint(1, 3)]
            if trailer == 'crc' and kind != 'short':
                packet = resealed(packet)
                packet[-1] ^= kind == 'trailer'
            lines.append(words('read', packet.hex()))
        yield ['new wide 0', *under_both(rng, lines, trailer), link('newer')]


def link_sequences(rng):
    """The same call of the sequence under both editions, both flags, with and without a trailer, on records that are sound, too large for
    the normal flag or fail 10, 8 or 12, with each fault of the call alone and with others: sent, 10, 8, 12, 13, 15, 14, 7, 11, 20, 6, and 15
    behind 10, 8, 12 and 13 and before all others."""
    records = [[*set_list([(5, 9), (20, 30)], 40, 'known')], [*set_list([(0, 40)], 40)], [*set_list([(5, 2**40)], 2**40, 'known')],
               [*set_list([(20, 30), (5, 9)], 40, 'known')], [*set_list([(5, 9), (20, 30)], 29, 'known')],
               [*set_list([(5, 9), (20, 30)], 40, 'known'), 'lend 7'], [*set_list([(5, 9), (20, 30)], 40, 'known', 41)]]
    good, *bad = [1, 1, 1, 7, 2], [0, 1, 1, 7, 2], [1, 1, 256, 7, 2]
    # Sound, then each fault alone, then all together.
    calls = [(flag, *call) for flag in FLAGS for call in (
        (good, 100, 0, 2, 0), (good, 40, 1, 2, 0), *((ident, 100, 0, 2, 0) for ident in bad), (good, 23, 0, 2, 0), (good, 4097, 0, 2, 0),
        (good, 100, 9, 2, 0), (good, 100, 0, 17, 0), (good, 100, 0, 2, 1))]
    calls += shuffled(rng, FLAGS, (good, *bad), (23, 40, 100, 4097), (0, 1, 9), (0, 2, 17), (0, 1))
    for at, record, trailer in itertools.product(range(0, len(calls), 20), records, TRAILERS):
        lines = []
        for flag, ident, largest, cursor, budget, less in calls[at:at + 20]:
            largest += tail(trailer)
            length = max(0, min(budget, 16) * min(largest, 4096) - less)
            lines.append(words('nak', *ident, flag, largest, cursor, budget, length))
        yield ['new wide 4', *record, *under_both(rng, lines, trailer), link('newer')]


LINKED = ['write 1 1 1 7 2 normal 0 1000 24 100 200', 'write 1 1 1 7 2 large 0 1000 40 100 200', 'write 1 1 1 7 2 normal 0 1000 26 100 200',
          *(words('read', octets_of([1, 1, 1, 7, 2], large, 0, 1000, [(100, 200)], edition, trailer).hex())
            for trailer, large, edition in itertools.product(TRAILERS, (False, True), EDITIONS)),
          'nak 1 1 1 7 2 normal 64 0 1 64', 'nak 1 1 1 7 2 large 64 0 1 64']


# PDUs with a trailer (C-11).

def wrong_trailers(before):
    """Two octets behind these that are not their CRC, and what makes each wrong."""
    right = crc_of(before)
    wrong = {'lowest bit': bytes([right[0], right[1] ^ 1]), 'highest bit': bytes([right[0] ^ 0x80, right[1]]), 'swapped': right[::-1],
             'preset 0': crc_of(before, 0), 'preset 1d0f': crc_of(before, 0x1d0f), 'turned over': bytes(b ^ 0xff for b in right),
             'from octet 1': crc_of(before[1:]), 'from octet 3': crc_of(before[3:]), 'one octet less': crc_of(before[:-1]),
             'its own octets too': crc_of(before + bytes(2)), 'high octet': bytes([right[0] ^ 0xff, right[1]]), 'low octet': bytes([right[0], right[1] ^ 0xff]),
             'zeros': bytes(2), 'ones': b'\xff\xff'}
    return {what: octets for what, octets in wrong.items() if octets != right}


def crc_trailers(rng):
    """Packets with a trailer that is wrong in each of many ways (bits, octets and their order, another preset, a CRC over fewer octets or
    more), then the same with the right one; both flags and the older edition, of 0 to 3 requests: 21, nak."""
    for (edition, flag), n in itertools.product(FORMS, range(4)):
        block = ['new wide 0', link(edition, rng.choice(TRAILERS))]
        for _ in range(4):
            large, ident = flag == 'large', identity(rng)
            packet = octets_of(ident, large, 3, 1000, some_requests(rng, large, n), edition, 'crc')
            block += [words('read', (packet[:-2] + wrong).hex()) for wrong in wrong_trailers(packet[:-2]).values()] + [words('read', packet.hex())]
        yield [*block, link('newer')]


def crc_bits(rng):
    """Packets with a trailer and each single bit turned over, both flags and the older edition, of 0 and 2 requests: 15, 16, 21, never
    nak; and each with two neighbouring octets changed, and cut to every length."""
    for (edition, flag), requests in itertools.product(FORMS, ([], [(0, 0), (100, 200)])):
        packet = octets_of([1, 1, 1, 7, 2], flag == 'large', 0, 1000, requests, edition, 'crc')
        number, size = int.from_bytes(packet, 'big'), len(packet)
        lines = [words('read', (number ^ 1 << bit).to_bytes(size, 'big').hex()) for bit in range(8 * size)]
        lines += [words('read', (number ^ rng.randrange(1, 65536) << 8 * at).to_bytes(size, 'big').hex()) for at in range(size - 1)]
        lines += [words('read', packet[:n].hex()).strip() for n in range(size + 1)]
        yield ['new wide 0', link(edition), *lines, link('newer')]


def crc_faults(ident, large, edition):
    """(name, packet with two octets for the trailer) for each fault of reading a packet with a trailer, alone and in twos where they go
    together; the length field fits unless that is the fault."""
    head, f = 4 + 2 * ident[0] + ident[1], 8 if large else 4

    def made(code=8, scope=(0, 1000), requests=((0, 0), (100, 200)), cut=0, more=0):
        packet = octets_of(ident, large, *scope, requests, edition, 'crc')
        packet = packet[:len(packet) - cut] + bytes(more)
        packet[head] = code
        packet[1:3] = (len(packet) - head & 0xffff).to_bytes(2, 'big')
        return packet

    def stating(packet, by):
        packet[1:3] = (len(packet) - head + by).to_bytes(2, 'big')
        return packet

    long = [(100, 200)] * (255 if large else 511)
    yield 'sound', made()
    yield 'no request', made(requests=())
    for by in (-2, -1, 1, 2):
        yield f'length {by}', stating(made(), by)
        yield f'length {by}, code', stating(made(code=9), by)
    # A data field of the octets stated, the first of them the code where there is one.
    for stated, code in itertools.product(range(5), (8, 9)):
        packet = made(requests=())[:head] + bytes([code, 0, 0, 0])[:max(0, stated - 2)] + bytes(min(2, stated))
        packet[1:3] = stated.to_bytes(2, 'big')
        yield f'field {stated}, code {code}', packet
    yield 'code', made(code=9)
    yield 'code 0', made(code=0)
    for cut, more in ((1, 0), (2, 0), (f, 0), (2 * f - 2, 0), (0, 1), (0, 2), (0, f), (0, 2 * f - 2)):
        yield f'fields {more - cut}', made(cut=cut, more=more)
        yield f'fields {more - cut}, code', made(code=4, cut=cut, more=more)
    yield 'scope', made(scope=(9, 4))
    yield 'scope, fields', made(scope=(9, 4), more=2)
    yield 'reversed', made(requests=((100, 200), (9, 4)))
    yield 'empty', made(requests=((5, 5), (100, 200)))
    yield 'twice', made(requests=((0, 0), (100, 200), (0, 0)))
    yield 'long', made(requests=long)
    yield 'long, code', made(code=9, requests=long)
    yield 'long, reversed', made(requests=[*long, (9, 4)])
    packet = made()
    packet[3] ^= 0x80
    yield 'fixed bit', packet


def crc_checks(rng):
    """read of packets with the CRC flag, each fault with a right and with a wrong trailer (length fields of 0 to 4 and off by one and two,
    the code, the data field by some octets, the scope, requests, the size, a fixed bit), both flags and the older edition: 16 before 21,
    21 before 17, 16, 18, 3, 2 and 14, and each of those with a right trailer; and the same octets with the flag away: nak, 16, 15, 17."""
    for ident, (edition, flag) in itertools.product(([1, 1, 1, 7, 2], [2, 4, 513, 70000, 7], [1, 8, 1, 7, 2]), FORMS):
        block = ['new wide 0', link(edition, rng.choice(TRAILERS))]
        for name, packet in crc_faults(ident, flag == 'large', edition):
            right = resealed(packet)
            wrong = right[:-1] + bytes([right[-1] ^ rng.choice((1, 0x80, 0x55))])
            block += [words('read', octets.hex()) for octets in (right, wrong, bytes([right[0] ^ 2]) + right[1:])]
        yield [*block, link('newer')]


def crc_flags(rng):
    """The flag set on plain packets and taken away from those with a trailer; a trailer behind a plain packet, counted in the length field
    and not; a trailer that is missing, counted and not, and one that stands twice; plain packets that end in their own CRC: nak, 16, 21."""
    for (edition, flag), n in itertools.product(FORMS, range(4)):
        block, large = ['new wide 0', link(edition, rng.choice(TRAILERS))], flag == 'large'
        for _ in range(4):
            ident = identity(rng)
            head, requests = 4 + 2 * ident[0] + ident[1], [(s, s + 9) for s in range(n)]
            plain, sealed = [octets_of(ident, large, 0, 9, requests, edition, trailer) for trailer in TRAILERS]
            block += [words('read', octets.hex()) for octets in (
                plain, sealed, bytes([plain[0] | 2]) + plain[1:], bytes([sealed[0] & ~2]) + sealed[1:], plain + crc_of(plain),
                plain[:1] + sealed[1:3] + plain[3:] + crc_of(plain), sealed[:-2], sealed[:-1], sealed[:1] + plain[1:3] + sealed[3:-2],
                sealed + sealed[-2:], sealed[:1] + (len(sealed) + 2 - head).to_bytes(2, 'big') + sealed[3:] + crc_of(sealed),
                resealed(bytes([plain[0] | 2]) + plain[1:]))]
            # A request whose last octets are the CRC of what stands before them.
            last = octets_of(ident, large, 0, 9, [*requests, (0, 2**16)], edition)
            block.append(words('read', resealed(last).hex()))
        yield [*block, link('newer')]


def crc_writes(rng):
    """write of the same PDU with and without a trailer into buffers of both totals and around them, both flags and the older edition, of
    none to as many requests as 4,096 octets hold in either case, and one more; the longest read too: pdu, nak, 6, 14."""
    for q, i, (edition, flag) in itertools.product((7, 1, 2, 3, 4, 5, 6, 8), (1, 2), FORMS):
        f, block = 8 if flag == 'large' else 4, ['new wide 0']
        ident = [i, q, *[rng.randrange(256**length) for length in (i, q, i)]]
        fixed = 5 + 2 * i + q + 2 * f
        for n in (0, 1, rng.randint(2, 40), (4096 - fixed) // (2 * f), (4096 - fixed - 2) // (2 * f), (4096 - fixed) // (2 * f) + 1):
            flat = [x for s in range(n) for x in (2 * s, 2 * s + 1)]
            total = fixed + 2 * f * n
            for trailer, length in itertools.product(TRAILERS, (total - 1, total, total + 1, total + 2, total + 3) if n < 2 else (total, total + 2)):
                block += [link(edition, trailer), words('write', *ident, flag, 0, 9999, length, *flat)]
            if total > 4090:
                block.append(words('read', octets_of(ident, flag == 'large', 0, 9999, zip(flat[::2], flat[1::2]), edition, 'crc').hex()))
        yield [*block, link('newer')]


def crc_sequences(rng):
    """The sequence at each P from two octets below room for one request to room for two and a little, and around 4,096, with and without a
    trailer, both flags and the older edition, on records of 0 to 4 entries, metadata known and missing, buffers of the length needed and
    one short; whole runs: sent, 14, 6."""
    records = [set_list([], 9, 'known'), set_list([(5, 9)], 9, 'known'), set_list([(0, 1), (2, 3), (4, 5), (6, 7)], 12, 'known'), set_list([(0, 9)], 9),
               set_list([])]
    for (i, q), record, (edition, flag) in itertools.product(((1, 1), (2, 3), (8, 8)), records, FORMS):
        f, block = 8 if flag == 'large' else 4, ['new wide 4', *record]
        ident = [i, q, *[rng.randrange(256**length) for length in (i, q, i)]]
        one = 5 + 2 * i + q + 4 * f
        for trailer, largest in itertools.product(TRAILERS, (*range(one - 2, one + 5), *range(one + 2 * f - 1, one + 2 * f + 4), 4095, 4096, 4097)):
            budget = rng.choice((1, 2, 4)) if largest < 4095 else 1
            block += [link(edition, trailer), words('nak', *ident, flag, largest, 0, budget, budget * largest)]
            if rng.random() < 0.3:
                block += [words('nak', *ident, flag, largest, 0, budget, budget * largest - 1), words('nak', *ident, flag, largest, 1, 16, 16 * largest)]
        yield [*block, link('newer')]


def link_kept(rng):
    """The link stays as it was through `new` of either width and form, through `new` that is an error, through every other command,
    accepted, refused and in error, and through a `link` that is an error: pdu, nak, sent, 15 under both editions, with and without a
    trailer, after each."""
    others = ['new wide 3', 'new narrow 3', 'new pairs wide 4096', 'new pairs narrow 0', 'new wide 4097', 'new', 'lend 4', 'lend 8201',
              'load 0 missing 0 open', 'poke 0 1 2', 'show', 'slots 4', 'add 1 2', 'add 2 1', 'insert 1 2', 'remove 1 2', 'coalesce', 'within 1 2',
              'octets normal 8', 'octets large 16', 'data 0 1', 'metadata', 'eof 9', 'held 0 1', 'missing', 'map 3', 'read', 'read 2800', 'read 0800',
              *LINKED, *NO_LINKS, '', '# link newer plain', '# link older plain', '# link newer crc', '# link older crc']
    for edition, trailer, other in itertools.product(EDITIONS, TRAILERS, others):
        yield ['new wide 4', link(edition, trailer), other, *LINKED, 'new narrow 4', *LINKED, link('newer')]


NO_LINKS = ['link', 'link newer', 'link older', 'link plain', 'link crc', 'link newer Crc', 'link older CRC', 'link newer crc crc',
            'link older crc plain', 'link crc newer', 'link newer crcs', 'link older cr', 'link newer 1', 'link newer 16', 'link old crc',
            'link newer crc16', 'Link older crc', 'link older crc\r', 'link newer,crc', 'link newer older crc', 'link newer plain plain',
            'link older plain plain', 'link newer plain crc', 'link plain newer', 'link plain older', 'link old plain', 'link new plain',
            'link Newer plain', 'link Older plain', 'link newer Plain', 'link older Plain', 'link newer plains', 'link older plai', 'link newe plain',
            'link newerr plain', 'link oldest plain', 'link 0 plain', 'link 1 0', 'link normal plain', 'link newer normal', 'link older large',
            'Link older plain', 'links older plain', 'lin older plain', 'link older plain\r', 'link\tolder plain', 'link newer,plain',
            'link older older', 'link newer older plain', 'link older newer plain']


def link_words(rng):
    """Lines that are no link, each under both editions, with and without a trailer: errors that change nothing; and links with more
    spaces: ok."""
    for edition, trailer, line in itertools.product(EDITIONS, TRAILERS, (
            *NO_LINKS, '  link   newer   plain  ', 'link  older plain ', ' link older plain', '  link   newer   crc  ', 'link older  crc ')):
        yield ['new wide 4', link(edition, trailer), line, *LINKED[:5], link('newer')]


def link_history(rng):
    """Long histories of events with sequences, PDUs that are written and read, links and fresh receptions in between: each PDU under the
    link's edition and with its trailer, each packet read under either, with and without one."""
    while True:
        block, edition, trailer = [words('new', rng.choice(WIDTHS), rng.choice((1, 4, 40)))], 'newer', 'plain'
        for at in range(60):
            kind = rng.random()
            if kind < 0.12:
                edition, trailer = rng.choice(EDITIONS), rng.choice(TRAILERS)
                block.append(link(edition, trailer))
            elif kind < 0.15:
                block.append(rng.choice(NO_LINKS))
            elif kind < 0.2:
                block.append(words('new', rng.choice(WIDTHS), rng.choice((1, 4, 40))))
            elif kind < 0.27:
                block.append('metadata')
            elif kind < 0.3:
                block.append(words('eof', rng.choice((100, 200))))
            elif kind < 0.55:
                block.append(words('data', rng.randint(0, 90), rng.randint(1, 9)))
            elif kind < 0.75:
                block.append(words('nak 1 1 1 7 2', FLAGS[rng.random() < 0.3], rng.choice((40, 64, 200)), 0, rng.choice((1, 4, 16)), 3200))
            else:
                of, large = edition if rng.random() < 0.7 else rng.choice(EDITIONS), rng.random() < 0.3
                requests, with_ = some_requests(rng, large, rng.randint(0, 3)), trailer if rng.random() < 0.8 else rng.choice(TRAILERS)
                block += written_and_read(identity(rng), FLAGS[large], 3, 1000, requests, edition=of, trailer=with_)
        yield [*block, link('newer')]


# Several transfers, one pool (C-21).

def pool(slots, *groups):
    """The line that makes a pool; a group is a width, a floor and a limit."""
    return words('pool', slots, *(word for group in groups for word in group))


def transfer(i, *command):
    return words('for', i, *command)


def set_pool(records):
    """Lines that make these the transfers' records: (pairs, progress, mark, size) each, the pairs back to back."""
    flat = [n for pairs, *_ in records for pair in pairs for n in pair]
    pokes = [words('poke', at, *flat[at:at + 3000]) for at in range(0, len(flat), 3000)]
    return pokes + [transfer(i, 'load', progress, mark, len(pairs), size) for i, (pairs, progress, mark, size) in enumerate(records)]


def holes(n, base=0):
    """n ranges apart from each other, and a progress behind them."""
    return [(base + 10 * i + 2, base + 10 * i + 8) for i in range(n)], base + 10 * n


def pool_small(rng):
    """Every pool of two transfers with up to three slots, floors to 2, limits and ranges held to 3: events of the first and of the second
    that make one range more (a gap, a split, a tail; waiting, the first data), and such as keep their number or lower it; among them bad
    settings, counts above the limit and sums above S: kept, noticed, ended, 1, 10, 23."""
    for slots, floors, limits, held in shuffled(rng, range(4), itertools.product(range(3), repeat=2), itertools.product(range(4), repeat=2),
                                                itertools.product(range(4), repeat=2)):
        groups = [(rng.choice(WIDTHS), floor, limit) for floor, limit in zip(floors, limits)]
        # Most of the bad ones are left out: each is met often enough.
        bad = sum(floors) > slots or any(f > l or h > l for f, l, h in zip(floors, limits, held))
        if (bad or sum(held) > slots) and rng.random() < 0.9:
            continue
        records = [(*holes(n), 'known', 'open') if n else rng.choice((([], 0, 'known', 'open'), ([], 0, 'missing', 'open'))) for n in held]
        block = [pool(slots, *groups)]
        for i, n in enumerate(held):
            events = [('data', 10 * n + 5, 1), ('eof', 10 * n + 9), ('data', 10 * n, 5), ('eof', 10 * n)]
            if n:
                events += [('data', 4, 2), ('data', 2, 6), ('data', 2, 3), ('data', 0, 10 * n + 1), ('data', 3, 10 * n)]
            for event in events:
                block += [*set_pool(records), transfer(i, *event), transfer(0, 'show'), transfer(1, 'show'), 'slots 10']
        yield block


def some_settings(rng, n, slots):
    """Floors and limits of n transfers for that many slots, mostly good and mostly tight."""
    floors = [rng.choice((0, 0, 1, 2, slots // n)) for _ in range(n)]
    while sum(floors) > slots:
        floors[floors.index(max(floors))] -= 1
    limits = [rng.choice((floor, floor + 1, floor + 2, slots, slots + 9, TOP)) for floor in floors]
    return [(rng.choice(WIDTHS), floor, limit) for floor, limit in zip(floors, limits)]


def pool_event(rng, i, front, step):
    """An event of transfer i, its data around `front`, and the furthest end that it may make."""
    kind = rng.random()
    if kind < 0.06:
        return transfer(i, 'metadata'), front
    if kind < 0.1:
        return transfer(i, 'eof', front + rng.choice((0, 0, 1, 5)) * step), front
    offset = front + rng.choice((0, 1, 2)) * step if kind < 0.5 else rng.randint(0, front + 1)
    length = rng.choice((1, 1, 2, 3, 9)) * rng.randint(1, step)
    return transfer(i, 'data', offset, length), max(front, offset + length)


def pool_asked(rng, i, front):
    """A question about transfer i."""
    a, b = rng.randint(0, front + 2), rng.randint(0, front + 2)
    return rng.choice((transfer(i, 'missing'), transfer(i, 'show'), transfer(i, 'held', *sorted((a, b))), transfer(i, 'held', a, b),
                       transfer(i, 'map', rng.choice((1, 7, 200))), transfer(i, 'nak', *[1, 1, 1, 7, 2], rng.choice(FLAGS), 64, 0, 4, 256)))


def pool_history(rng):
    """Long histories of one to eight transfers that share few slots, mixed at random, so that each comes to its floor and its limit and
    the pool is full now and again; slots with other numbers at first; metadata first, late and never, ends of file, questions and
    sequences in between."""
    while True:
        n, slots = rng.choice((1, 2, 2, 3, 4, 8)), rng.choice((0, 1, 2, 3, 4, 6, 9, 20))
        block = [pool(slots, *some_settings(rng, n, slots)), words('poke', 0, *(rng.randint(90, 99) for _ in range(2 * slots + 4)))]
        fronts, step = [0] * n, rng.choice((1, 3, 10))
        for i in range(n):
            if rng.random() < 0.8:
                block.append(transfer(i, 'metadata'))
        for _ in range(rng.choice((20, 100, 200))):
            i = rng.choice((rng.randrange(n), 0))
            event, fronts[i] = pool_event(rng, i, fronts[i], step)
            block.append(event)
            if rng.random() < 0.2:
                block.append(pool_asked(rng, i, fronts[i]))
            if rng.random() < 0.1:
                block.append(words('slots', 2 * slots + 4))
            if fronts[i] > 60 * step and rng.random() < 0.1:
                # All of its file comes: its slots are free for the others.
                block += [transfer(i, 'data', 0, fronts[i]), words('slots', 2 * slots + 4)]
        yield [*block, *(transfer(i, 'show') for i in range(n + 1)), words('slots', 2 * slots + 4)]


def pool_full(rng):
    """Pools that are filled to the last slot by each transfer in turn: a gap more until it is refused, then one below its floor, which is
    not; then a hole of one is closed and the slot serves another; two to eight transfers, floors that leave slots and that don't."""
    for n, spare, floor, wide in shuffled(rng, (2, 3, 5, 8), (0, 1, 3), (0, 1, 2), (0, 1, 9)):
        slots = n * floor + spare
        block = [pool(slots, *((WIDTHS[i % 2], floor, floor + (wide if wide < 9 else slots)) for i in range(n)))]
        for i in range(n):
            block += [transfer(i, 'metadata'), *(transfer(i, 'data', 10 * at + 5, 5) for at in range(floor + spare + 2))]
        block.append(words('slots', 2 * slots + 2))
        # Closes the first hole of each and lets each of the others try.
        for i in range(n):
            block += [transfer(i, 'data', 0, 5), *(transfer((i + j) % n, 'data', 1000 + 10 * i, 1) for j in range(1, n)),
                      words('slots', 2 * slots + 2)]
        yield [*block, *(transfer(i, 'eof', 5000) for i in range(n)), *(transfer(i, 'show') for i in range(n))]


def pool_sounders(rng):
    """Two sounders in one pass: the first with many holes, up to all slots that the other's floor leaves and its limit allows; the other
    comes late, and is never refused below its floor; S of 4 to 400, both orders, both widths."""
    for slots, share, first, late in shuffled(rng, (4, 10, 40, 400), (1, 2, 4), (0, 1), (False, True)):
        floor = max(1, slots // (2 * share))
        groups = [(rng.choice(WIDTHS), 0, rng.choice((slots, slots - floor, slots - floor - 1))), (rng.choice(WIDTHS), floor, rng.choice((floor, slots)))]
        many, few = (0, 1) if first == 0 else (1, 0)
        block = [pool(slots, *(groups if first == 0 else groups[::-1])), transfer(many, 'metadata')]
        if not late:
            block.append(transfer(few, 'metadata'))
        for at in range(min(slots + 3, 90)):
            block.append(transfer(many, 'data', 100 * at + 50, rng.randint(1, 50)))
        if slots > 90:
            pairs, progress = holes(slots - floor)
            block += set_pool([(pairs, progress, 'known', 'open') if i == many else ([], 0, 'known', 'open') for i in range(2)])
            block.append(transfer(many, 'data', progress + 1, 1))
        block += [transfer(few, 'data', 7, 3), transfer(few, 'metadata')]
        for at in range(min(floor + 3, 60)):
            block.append(transfer(few, 'data', 10 * at + 20, 5))
        yield [*block, transfer(0, 'missing'), transfer(1, 'missing'), transfer(many, 'data', 0, 100), transfer(few, 'data', 5000, 5),
               transfer(many, 'data', 99999, 1), transfer(0, 'show'), transfer(1, 'show'), words('slots', min(8200, 2 * slots + 2)),
               *(transfer(i, 'nak 1 1 1 7 2 normal 200 0 16 3200') for i in (0, 1))]


# What can be wrong with one transfer's record: 10 of each kind, 8, 12, two of them at once; and nothing.
POOL_RECORDS = [([(12, 18), (30, 40)], 45, 'known', 'open'), ([(0, 45)], 45, 'missing', 'open'), ([(12, 18), (30, 45)], 45, 'known', 45),
                ([(12, 18)], 45, 'known', 44), ([(0, 45)], 45, 'missing', 46), ([(0, 44)], 45, 'missing', 'open'), ([], 45, 'missing', 'open'),
                ([(12, NARROW + 1)], NARROW + 1, 'known', 'open'), ([(12, NARROW + 1)], 45, 'known', 'open'), ([(12, 18)], NARROW + 1, 'known', 'open'),
                ([(12, 18)], NARROW, 'known', 'open'), ([(12, NARROW)], NARROW, 'known', 'open'),
                ([(12, 18), (18, 30)], 45, 'known', 'open'), ([(30, 40), (12, 18)], 45, 'known', 'open'), ([(12, 12)], 45, 'known', 'open'),
                ([(12, 18), (30, 46)], 45, 'known', 'open'), ([(12, 18), (30, 46)], 45, 'known', 45), ([(30, 50), (12, 18)], 45, 'known', 'open'),
                ([(12, 18), (30, 50)], 45, 'known', 40), ([(18, 12)], 45, 'known', 'open')]
POOL_EVENTS = [('data', 46, 1), ('data', 14, 1), ('data', 0, 0), ('data', TOP, 1), ('data', 0, NARROW + 1), ('data', 0, 99), ('eof', 50), ('eof', 45), ('eof', 3),
               ('eof', NARROW + 1)]
POOL_QUERIES = [('held', 0, 5), ('held', 5, 5), ('held', 9, 4), ('held', 13, 20), ('map', 9), ('map', 200), ('nak 1 1 1 7 2 normal 64 0 2 128',),
                ('nak 0 1 1 7 2 normal 64 0 2 128',), ('nak 1 1 1 7 2 large 23 9 17 0',)]


def pool_checks(rng):
    """The order of the checks in a pool of three: 23, then 10 over every transfer, then 8 and 12 at the one named, then those of the call:
    each call of a transfer that is sound or fails 10, 8 or 12, while another is sound or fails them; records set by poke and load; full and
    with room, both widths: every answer of every call, 10 of another transfer, and no 8 or 12 of another."""
    sound = POOL_RECORDS[0]
    pairs = [pair for record in POOL_RECORDS for pair in ((record, sound), (sound, record))]
    every = shuffled(rng, pairs, ((0, 2), (1, 0)), WIDTHS, WIDTHS)
    every += shuffled(rng, itertools.product(POOL_RECORDS, repeat=2), ((0, 1), (2, 0), (1, 2)), WIDTHS, WIDTHS)
    for (ours, other), (at, beside), *widths in every:
        records, groups = [([(1, 2)], 5, 'known', 'open')] * 3, [('wide', 0, 9)] * 3
        records[at], records[beside] = ours, other
        held, floor = sum(len(pairs) for pairs, *_ in records), rng.choice((0, 1))
        groups[at], groups[beside] = (widths[0], floor, rng.choice((max(floor, len(ours[0])), 9))), (widths[1], 0, 9)
        block = [pool(held + rng.choice((0, 0, 1, 2)), *groups), *set_pool(records)]
        block += [transfer(at, *call) for call in rng.sample(POOL_QUERIES, 4)] + [transfer(at, 'missing')]
        for event in (*rng.sample(POOL_EVENTS, 2), ('metadata',)):
            block += [*set_pool(records), transfer(at, *event), words('slots', 2 * held + 2)]
        yield block


def pool_counts(rng):
    """Counts set by load that no list of the pool can have, at the one named and at another: above the limit, above S, sums above S by held
    and by floors, 2^63 and 2^64 - 1 twice; lists of odd and other lengths lent: 10, 23, and what `for I show` shows of them."""
    for slots, groups in shuffled(rng, (0, 1, 3, 6), ([(0, 9), (0, 9)], [(1, 2), (2, 3)], [(0, 3), (3, 3)], [(0, TOP), (0, TOP), (1, 1)])):
        block = [pool(slots, *((rng.choice(WIDTHS), *group) for group in groups)), words('poke', 0, *range(1, 30))]
        for _ in range(14):
            i = rng.randrange(len(groups))
            count = rng.choice((0, 1, 2, 2, 3, 4, 4096, 4097, 4100, 4101, 2**32, 2**63, TOP))
            block += [transfer(i, 'load', 99, 'known', count, 'open')]
            if rng.random() < 0.4:
                block.append(words('lend', rng.choice((0, 1, 2 * slots, 2 * slots, 2 * slots + 1, 2 * slots - 1 if slots else 0, 8191, 8192, 8193, 8194, 8200))))
            call = rng.choice((('missing',), ('data', 50, 1), ('metadata',), ('eof', 99), ('map', 5)))
            block += [transfer(j, *call) for j in range(len(groups))]
            if count < 5 or rng.random() < 0.1:
                block += [transfer(j, 'show') for j in range(len(groups) + 1)]
        yield block


def pool_settings(rng):
    """Pools of none to nine transfers, floors above limits and floors that sum to S, to more, and past 64 bits, S of 0 to 4,100: 23 of every
    call for each transfer and for one that there is none of, before 10; each beside the same with good settings."""
    tried = [(('missing',),), (('data', 5, 1),), (('metadata',),), (('eof', 9),), (('held', 0, 1),), (('map', 3),),
             (('nak 1 1 1 7 2 normal 64 0 1 64',),)]
    cases = [(9, [(0, 1)] * n) for n in range(10)] + [(9, [(1, 1)] * n) for n in (8, 9)]
    cases += [(slots, [(2, 9), (3, 9)]) for slots in (4, 5, 6)] + [(slots, [(4, 9)]) for slots in (3, 4)]
    cases += [(9, [(1, 0)]), (9, [(0, 9), (5, 4)]), (9, [(5, 4), (0, 9)]), (9, [(TOP, 1)]), (9, [(2**63, TOP), (2**63, TOP)]), (9, [(TOP, TOP), (1, 1)]),
              (9, [(TOP, TOP), (TOP, TOP), (2, 2)]), (9, [(2**32, TOP), (2**32, TOP)]), (9, [(2**62, TOP)] * 4), (0, [(0, 0)]), (0, [(0, 5)]),
              (4096, [(4096, 4096)]), (4096, [(4095, TOP), (2, TOP)]), (4097, [(4097, 4097)]), (4097, [(0, 9)]), (4100, [(0, 9)]), (4100, [(4101, TOP)]),
              (4096, [(0, 9)])]
    for (slots, groups), calls in shuffled(rng, cases, tried):
        block = [pool(slots, *((rng.choice(WIDTHS), *group) for group in groups))]
        for i in sorted({0, len(groups) - 1, len(groups), len(groups) + 1, 7, 8, TOP} - {-1}):
            block += [transfer(i, *call) for call in calls]
            block += [transfer(i, 'show'), transfer(i, 'load', 3, 'known', 0, 'open'), transfer(i, 'show')]
        yield block


def pool_slots(rng):
    """Pools whose slots hold other numbers: slots that the whole list gives up hold (0, 0), those past both counts stay, and a refusal
    changes none; the first, a middle and the last of one to four transfers, events that make none, one, two and three ranges less, or one
    more."""
    for n, at, held in shuffled(rng, range(1, 5), range(4), (1, 3)):
        if at >= n:
            continue
        records = [(*holes(rng.choice((0, 1, held))), 'known', 'open') for _ in range(n)]
        records[at] = *holes(held), 'known', 'open'
        total = sum(len(pairs) for pairs, *_ in records)
        for room, event in itertools.product((0, 1, 2), (('data', 0, 10 * held), ('data', 2, 6), ('data', 4, 1), ('data', 10 * held + 5, 1),
                                                         ('data', 0, 10 * held - 3),
                                                         ('eof', 10 * held), ('eof', 10 * held + 9), ('eof', 3), ('metadata',))):
            yield [pool(total + room, *[('wide', 0, 9)] * n), words('poke', 2 * total, 91, 92, 93, 94, 95, 96), *set_pool(records),
                   words('slots', 2 * total + 6), transfer(at, *event), words('slots', 2 * total + 6), transfer(at, 'show')]


def pool_wide_lists(rng):
    """Pools of 1,000, 4,095 and 4,096 slots, full and with one free, of two and of eight transfers: a gap more and a split at the first, a middle
    and the last, where all ranges behind move; data across all of one, then as many again."""
    for slots, n, room in shuffled(rng, (1000, 4095, 4096), (2, 8), (0, 1)):
        counts = [(slots - room) // n] * (n - 1)
        counts.append(slots - room - sum(counts))
        records = [(*holes(count), 'known', 'open') for count in counts]
        block = [pool(slots, *((WIDTHS[i % 2], 0, 4096) for i in range(n))), *set_pool(records)]
        for i in (0, n // 2, n - 1):
            front = records[i][1]
            block += [transfer(i, 'data', front + 5, 1), transfer(i, 'data', 4, 1), transfer(i, 'data', 2, 6), transfer((i + 1) % n, 'data', 14, 1),
                      transfer(i, 'missing')]
        block += [transfer(0, 'data', 0, records[0][1]), transfer(1, 'eof', 99999), transfer(0, 'show'), words('slots', min(8200, 2 * slots + 2))]
        yield block


def pool_links(rng):
    """Sequences of a pool's transfers under both editions, both flags, with and without a trailer, metadata known and missing, with each
    fault of the sequence: sent, 6, 7, 11, 13, 14, 15, 20; the link through `pool` and back through `new`."""
    for edition, trailer in shuffled(rng, EDITIONS, TRAILERS):
        block = ['new wide 4', link(edition, trailer), pool(9, ('wide', 0, 9), ('narrow', 1, 4), ('wide', 0, 2)),
                 *set_pool([([(5, 9), (20, 30)], 40, 'known', 'open'), ([(0, 40)], 40, 'missing', 40), ([(5, 2**40)], 2**40, 'known', 'open')]), *LINKED[:5]]
        for i, flag, ident in itertools.product(range(4), FLAGS, ([1, 1, 1, 7, 2], [2, 3, 1, 7, 2], [0, 1, 1, 7, 2])):
            for largest, cursor, budget, less in ((64, 0, 4, 0), (26, 0, 16, 0), (42, 1, 2, 0), (23, 0, 2, 0), (4097, 0, 1, 0), (64, 9, 1, 0), (64, 0, 17, 0),
                                                  (64, 0, 2, 1)):
                block.append(transfer(i, 'nak', *ident, flag, largest, cursor, budget, max(0, min(budget, 16) * min(largest, 4096) - less)))
        yield [*block, 'new narrow 4', *LINKED, pool(1, ('wide', 0, 1)), *LINKED[:5], link('newer')]


NO_POOLS = ['pool', 'pool x', 'pool 3 wide', 'pool 3 wide 0', 'pool 3 wide 0 2 wide', 'pool 3 wide 0 2 wide 0', 'pool 3 tall 0 2', 'pool 3 Wide 0 2',
            'pool 3 wide -1 2', 'pool 3 wide 0 x', 'pool 3 wide 0 18446744073709551616', 'pool 4101', 'pool 4101 wide 0 2', 'pool -1', 'Pool 3', 'pools 3',
            'pool wide 0 2', 'pool 3' + ' wide 0 1' * 10, 'pool 3 0 2 wide', 'pool 18446744073709551615', 'pool 3 narrow 0 1 pairs 0 1', 'pool 3,wide 0 1']
NO_FORS = ['for', 'for 0', 'for x missing', 'for -1 missing', 'for missing', 'for 0 missing 0', 'for 0 data 1', 'for 0 data 1 2 3', 'for 0 data x 1',
           'for 9 data x 1',
           'for 0 metadata 1', 'for 0 eof', 'for 0 eof x', 'for 0 held 1', 'for 0 map', 'for 0 map 0', 'for 0 map 201', 'for 9 map 201', 'for 0 load 1 known 1',
           'for 0 load 1 maybe 1 open', 'for 0 load 1 known 1 shut', 'for 0 show 1', 'for 0 nak 1 1 1 7 2 normal 64 0 1', 'for 0 nak 1 1 1 7 2 odd 64 0 1 64',
           'for 0 nak 1 1 1 7 2 normal 64 0 1 66001', 'for 0 add 1 2', 'for 0 insert 1 2', 'for 0 remove 1 2', 'for 0 coalesce', 'for 0 within 1 2',
           'for 0 octets normal 0', 'for 0 lend 4', 'for 0 poke 0 1', 'for 0 slots 4', 'for 0 for 0 missing', 'for 0 new wide 3', 'for 0 pool 3',
           'for 0 link newer plain',
           'for 0 read', 'for 0 write 1 1 1 7 2 normal 0 9 16', 'for 0 bogus', 'For 0 missing', 'for 18446744073709551616 missing', 'for 0 Missing',
           'for 2 load 0 known 0 open', 'for 2 show', 'for 18446744073709551615 show', 'for 0x0 missing']
# Commands of one reception, which are errors in a pool without `for`.
SINGLE = ['data 0 1', 'metadata', 'eof 9', 'show', 'load 7 known 0 open', 'nak 1 1 1 7 2 normal 64 0 1 64', 'held 1 2', 'missing', 'map 7', 'add 1 2', 'insert 1 2',
          'remove 1 2', 'coalesce', 'within 1 2', 'octets normal 8']


def pool_words(rng):
    """Lines that are no `pool` and no `for`, commands of one reception in a pool, and `for` outside one: errors that change nothing; lend, poke
    and slots of the pool's list; more spaces: ok; `new` and `pool` again, which begin afresh."""
    state = [transfer(0, 'show'), transfer(1, 'show'), 'slots 8']
    begin = [pool(3, ('wide', 0, 3), ('narrow', 1, 2)), transfer(0, 'data', 5, 5), transfer(1, 'metadata'), transfer(1, 'data', 7, 1)]
    for line in (*NO_POOLS, *NO_FORS, *SINGLE, 'lend 8201', 'lend', 'poke 8199 1 2', 'slots 8201', 'bogus', '  pool   3   wide  0  3   narrow 1  2 ',
                 '  for   1   data   9   1  ', 'lend 3', 'lend 8200', 'lend 6', 'poke 0 1 2', 'poke 8199 1', 'slots 8200', 'pool 0', 'pool 4100',
                 'pool 4100 narrow 0 5',
                 'pool 3' + ' wide 0 1' * 9, 'new wide 3', 'new narrow 3', 'new wide 4097', '', '# pool 3', 'read', 'read 2800', 'write 1 1 1 7 2 normal 0 9 16'):
        yield [*begin, *state, line, *state, transfer(0, 'data', 20, 1), transfer(1, 'missing'), *state, 'show', 'missing']
        yield ['new wide 3', 'data 5 5', line, 'show', 'data 9 3', 'show', 'slots 6']


# The deferred NAK (C-22).

# (pairs, progress, mark, size) of records of every kind that a timer can meet: the size open and known, with nothing missing, holes, and the metadata
# missing with and without octets.
TIMED_RECORDS = [([(10, 20)], 40, 'known', 'open'), ([], 40, 'known', 'open'), ([(0, 40)], 40, 'missing', 'open'), ([], 0, 'missing', 'open'), ([], 40, 'known', 40),
                 ([(10, 20)], 40, 'known', 40), ([(10, 11)], 40, 'known', 40), ([(10, 20), (30, 40)], 40, 'known', 40), ([(0, 40)], 40, 'missing', 40),
                 ([], 0, 'missing', 0), ([], 0, 'known', 0)]
# Events that are accepted and refused, that lower what is missing and that don't.
TIMED_EVENTS = ['data 10 10', 'data 10 1', 'data 14 1', 'data 0 10', 'data 0 40', 'data 39 1', 'data 41 1', 'data 60 5', 'data 0 0', 'eof 40', 'eof 50',
                'eof 0', 'eof 39',
                'metadata']
DELAYS = [(1, 1), (2, 1), (3, 2), (1, 255), (5, 3), (65535, 1), (65535, 255)]


def told(event):
    """An event with the timer before and behind it."""
    return ['timer', event, 'timer']


def to_state(d, limit, state, *begin):
    """Lines that bring a timer on a record with a hole and a known size to that state: idle, fresh, started, one ask made, all made, deaf. Then the
    record can be set anew."""
    lines = ['new wide 4', *begin, words('defer', d, limit)]
    if state == 'idle':
        return lines
    lines += ['metadata', 'eof 40']
    asks = {'fresh': 0, 'started': 0, 'asked': 1, 'all asked': limit, 'deaf': limit + 1}[state]
    lines += [words('tick', d)] * asks
    return lines + ([words('tick', d - 1)] if d > 1 and state not in ('fresh', 'deaf') else [])


TIMER_STATES = ('idle', 'fresh', 'started', 'asked', 'all asked', 'deaf')


def timer_states(rng):
    """A timer in each state (idle, active: fresh, started, with one ask and with all made, deaf), set on records of every kind, and each event on them,
    accepted and refused, and a reset; then ticks: idle, active, deaf, ask, limit, quiet."""
    for (d, limit), state, record, event in shuffled(rng, [pair for pair in DELAYS if pair[1] < 9], TIMER_STATES, TIMED_RECORDS, [*TIMED_EVENTS, 'reset']):
        yield [*to_state(d, limit, state), *set_list(*record), *told(event), words('tick', d - 1 or 1), words('tick', rng.choice((1, d))), 'timer', 'show']


def timer_ticks(rng):
    """Ticks around each expiry up to d × (limit + 1) and behind it, one by one, d at a time, one less and one more, a million; d of 1 to 65,535, limits of
    1 to 255: ask, limit, quiet."""
    steps = [lambda d: 1, lambda d: d, lambda d: d - 1 or 1, lambda d: d + 1, lambda d: 1000000, lambda d: min(1000000, 2 * d)]
    for (d, limit), size in shuffled(rng, [*DELAYS, (2, 2), (3, 1), (4, 4), (7, 2), (1000, 5), (256, 2), (65534, 2), (2, 255), (1, 254), (10, 16)], range(8)):
        block, made = [*to_state(d, limit, 'fresh'), 'timer'], 0
        for _ in range(min(700, (limit + 2) * (2 if size in (0, 2) else 1) + 6)):
            step = steps[size](d) if size < 6 else rng.choice(steps)(d)
            block.append(words('tick', step))
            if rng.random() < 0.2:
                block.append('timer')
        yield [*block, 'timer']


def timer_resets(rng):
    """A reset in each state, on sound records of every kind and on such as fail 10, 8 or 12: a refused one changes nothing, a later one judges the record as it
    lies: ok, 8, 10, 12."""
    bad = [([(10, 20)], 40, 'known', 39), ([(10, 20)], 40, 'missing', 40), ([(10, 20), (5, 7)], 40, 'known', 40), ([(10, 20), (20, 30)], 40, 'known', 40),
           ([(10, 41)], 40, 'known', 40), ([(30, 50), (10, 20)], 40, 'known', 40), ([(10, 50)], 40, 'known', 39), ([(0, 39)], 40, 'missing', 40)]
    for (d, limit), state, record in shuffled(rng, [(1, 1), (3, 2), (65535, 2)], TIMER_STATES, [*bad, *TIMED_RECORDS, 'odd', 'above']):
        setting = {'odd': ['lend 7'], 'above': ['load 40 known 5 40']}.get(record) if isinstance(record, str) else set_list(*record)
        yield [*to_state(d, limit, state), *setting, *told('reset'), 'tick 1', *told('data 0 1'), 'lend 8', *set_list([(10, 20)], 40, 'known', 40), *told('reset'),
               words('tick', d), 'timer']


def timer_late(rng):
    """Timers made before the end of file, behind it, when all came and while another is deaf; a second one in place of the first, and one that is refused, which
    leaves it; then the same end of file, data again, a reset, or nothing, and ticks: idle until the next accepted event or reset."""
    for d, record, second, wake in shuffled(rng, (1, 3, 65535), TIMED_RECORDS, (None, (2, 9), (0, 1), (1, 0), (65536, 1), (1, 256)),
                                            ('eof 40', 'eof 41', 'data 0 1', 'data 10 1', 'reset', 'metadata', 'timer', 'data 0 0')):
        block = ['new narrow 4', *set_list(*record), words('defer', d, 2), 'timer', words('tick', d)]
        if second:
            block += ['reset', words('tick', d), 'timer', words('defer', *second), 'timer']
        yield [*block, *told(wake), words('tick', d), words('tick', d), 'timer']


def timer_history(rng):
    """Long histories: a file comes in pieces with losses, the metadata first, late or never, the end of file first, between and again; ticks, asks answered in
    part, in whole or not at all, limits, resets; capacities of 1 to 40, refused events; now and then a damaged record, another timer, a fresh reception."""
    while True:
        d, limit = rng.choice(((1, 1), (1, 3), (2, 2), (3, 1), (5, 4), (10, 2), (100, 3), (65535, 255)))
        pieces = rng.choice((4, 8, 20))
        block = [words('new', rng.choice(WIDTHS), rng.choice((1, 2, 8, 40)))]
        if rng.random() < 0.9:
            block.append(words('defer', d, limit))
        if rng.random() < 0.7:
            block.append('metadata')
        for _ in range(60):
            kind = rng.random()
            if kind < 0.35:
                block += [words('tick', rng.choice((1, 1, d, d, d - 1 or 1, d + 1, 2 * d))), *(['timer'] if rng.random() < 0.4 else [])]
            elif kind < 0.7:
                at = rng.randrange(pieces)
                block += told(words('data', 10 * at + rng.choice((0, 0, 0, 3)), rng.choice((10, 10, 10, 5, 20))))
            elif kind < 0.78:
                block += told(words('eof', rng.choice((10 * pieces, 10 * pieces, 10 * pieces, 10 * pieces + 10, 5))))
            elif kind < 0.82:
                block += told('metadata')
            elif kind < 0.88:
                block += told('reset')
            elif kind < 0.9:
                block += [words('defer', *rng.choice(((d, limit), (d + 1, limit), (0, 1), (1, 256)))), 'timer']
            elif kind < 0.93:
                # All that is missing comes.
                block += [*told('metadata'), *told(words('data', 0, 10 * pieces))]
            elif kind < 0.95:
                block += [rng.choice(('lend 3', 'load 7 known 1 9', 'load 50 known 1 50', 'poke 0 9 4')), *told('reset'), 'tick 1', *told('data 0 1')]
            elif kind < 0.97:
                block += ['show', 'missing']
            else:
                block += set_list(*rng.choice(TIMED_RECORDS))
        yield [*block, 'timer', 'show', 'new wide 4']


NO_TIMERS = ['defer', 'defer 3', 'defer 3 2 1', 'defer x 2', 'defer 3 x', 'defer -1 2', 'Defer 3 2', 'defers 3 2', 'defer 18446744073709551616 2',
             'defer 3 18446744073709551616',
             'tick', 'tick 0', 'tick 1000001', 'tick x', 'tick -1', 'tick 1 1', 'tick 18446744073709551615', 'Tick 1', 'ticks 1', 'tick 00000000000000000000',
             'reset 1',
             'Reset', 'resets', 'timer 1', 'Timer', 'timers', 'tick 000000000000000000001', 'new wide 4097', 'pool x', 'pool 3 wide 0', 'for 0 timer',
             'for 0 tick 1',
             'for 0 reset', 'for 0 defer 3 2']


def timer_words(rng):
    """Lines that are no command of a timer: errors that change nothing, with and without a timer; `new` and `pool`, which take it away; in a pool all four are
    errors; d and limits at and past their ends: ok, 25; more spaces; ticks of a million."""
    begin = ['new wide 4', 'defer 3 2', 'metadata', 'eof 40', 'tick 4', 'tick 1']
    for line in (*NO_TIMERS, 'new wide 4', 'new pairs narrow 4', 'pool 3 wide 0 3', 'pool 0', '  defer   7   9 ', '  tick   1 ', '  reset ', '  timer  ',
                 'tick 1000000',
                 'tick 00000000000000000001', 'load 3 known 0 3', 'lend 8', 'poke 0 1 2', 'slots 2', 'add 50 60', 'insert 50 60', 'remove 0 40', 'coalesce',
                 'link newer plain',
                 'read', 'held 0 1', 'missing', 'map 3', 'nak 1 1 1 7 2 normal 64 0 1 64', '# reset', ''):
        yield [*begin, 'timer', line, 'timer', 'tick 1', 'timer', 'reset', 'timer']
        yield ['new wide 4', line, 'timer', 'tick 1', 'reset']
    for d, limit in itertools.product((0, 1, 2, 65534, 65535, 65536, 65537, 2**32 + 1, TOP), (0, 1, 2, 254, 255, 256, 257, 2**32 + 1, TOP)):
        yield [*begin, words('defer', d, limit), 'timer', 'eof 40', 'timer', words('tick', min(1000000, max(1, d))), 'timer']
        yield ['new wide 4', words('defer', d, limit), 'timer', 'eof 9', 'timer']


# Plans: PDUs that a planner proposes (C-23).

def plan(ident, pdus):
    """The line that proposes these PDUs."""
    return words('plan', *ident, len(pdus), *map(len, pdus), b''.join(map(bytes, pdus)).hex()).rstrip()


class Draft:
    """A PDU of a plan before its octets are made: its identity, scope and requests, and its form."""

    def __init__(self, ident, requests, flag='normal', edition='newer', trailer='plain'):
        self.ident, self.requests, self.flag, self.edition, self.trailer = ident, requests, flag, edition, trailer
        real = [pair for pair in requests if pair != (0, 0)]
        self.start, self.end = min([s for s, _ in real], default=0), max([e for _, e in real], default=0)

    def octets(self):
        return bytes(octets_of(self.ident, self.flag == 'large', self.start, self.end, self.requests, self.edition, self.trailer))


def cuts(rng, pairs, pieces):
    """The ranges cut into some more pieces, at random places."""
    out = list(pairs)
    for _ in range(pieces):
        at = rng.randrange(len(out)) if out else None
        if at is not None and out[at][1] - out[at][0] > 1:
            s, e = out.pop(at)
            middle = rng.choice((s + 1, e - 1, rng.randint(s + 1, e - 1)))
            out += [(s, middle), (middle, e)]
    return out


def drafted(rng, ident, pairs, missing, edition='newer', most=16, large=True):
    """A plan that fits: the missing set in random order and cuts, parted at random among PDUs of any form of the edition, the metadata request at any
    place, scopes tight or wider; now and then a PDU that asks for nothing."""
    requests = cuts(rng, pairs, rng.choice((0, 0, 1, 3, 8)))
    rng.shuffle(requests)
    if missing:
        requests.insert(rng.choice((0, len(requests), rng.randint(0, len(requests)))), (0, 0))
    n = rng.choice((1, 1, 2, 3, rng.randint(1, most)))
    if rng.random() < 0.8:
        n = min(n, max(1, len(requests)))
    parts = [[] for _ in range(n)]
    bounds = sorted(rng.randint(0, len(requests)) for _ in range(n - 1))
    for part, (low, high) in zip(parts, itertools.pairwise([0, *bounds, len(requests)])):
        part += requests[low:high]
    if not requests and rng.random() < 0.5:
        parts = []
    top = max([e for _, e in pairs], default=0)
    drafts = []
    for part in parts:
        wide = top > NARROW or large and edition == 'newer' and rng.random() < 0.3
        draft = Draft(ident, part, 'large' if wide else 'normal', edition, rng.choice(('plain', 'plain', 'crc')))
        if rng.random() < 0.5:
            draft.start, draft.end = rng.choice((0, draft.start)), draft.end + rng.choice((0, 1, 7)) if top < NARROW - 9 else draft.end
        drafts.append(draft)
    return drafts


# Ways in which a plan fails one test. Each changes some drafts, or gives None where it can't.

def broken(rng, pdus, at):
    """A PDU that does not read, in one of many ways."""
    packet = bytearray(pdus[at])
    head = 4 + 2 * ((packet[3] >> 4) + 1) + (packet[3] & 7) + 1
    way = rng.randrange(9)
    if way == 0:
        packet[rng.choice((0, 3))] ^= rng.choice((0x80, 0x08))
    elif way == 1:
        packet[0] ^= 0x20
    elif way == 2:
        packet[head] ^= 1 << rng.randrange(8)
    elif way == 3:
        packet = packet[:-1]
    elif way == 4:
        packet = bytearray()
    elif way == 5:
        packet.append(0)
    elif way == 6:
        packet[2] ^= 1
    elif way == 7:
        # The scope reversed: all ones in front.
        packet[head + 1:head + 3] = b'\xff\xff'
        packet[head + (9 if packet[0] & 1 else 5)] = 0
        packet = resealed(packet) if packet[0] & 2 else packet
    else:
        packet[-1] ^= 1 if packet[0] & 2 else 0
        packet = packet if packet[0] & 2 else packet[:3]
    return bytes(packet)


def no_request(rng, drafts, at, pairs, missing):
    """1: a request that is empty or reversed, or a second (0, 0) in the same PDU."""
    place = rng.randint(0, len(drafts[at].requests))
    drafts[at].requests[place:place] = rng.choice(([(5, 5)], [(9, 4)], [(0, 0), (0, 0)]))


def other_identity(rng, drafts, at, pairs, missing):
    """2: another number, or the same in another length."""
    ident = list(drafts[at].ident)
    field = rng.randrange(5)
    if field < 2:
        ident[field] += 1 if ident[field] < 8 else -1
        ident[2:] = [n % 256**length for n, length in zip(ident[2:], (ident[0], ident[1], ident[0]))]
    else:
        ident[field] ^= 1
    drafts[at].ident = ident


def out_of_scope(rng, drafts, at, pairs, missing):
    """3: the scope starts behind the start of a request, or ends before the end of one, mostly by one."""
    draft = drafts[at]
    real = [pair for pair in draft.requests if pair[0] < pair[1]]
    if not real:
        return False
    low, high = min(s for s, _ in real), max(e for _, e in real)
    kind = rng.randrange(4)
    draft.start, draft.end = [(low + 1, high), (low, high - 1), (high, high), (low, low)][kind]
    return draft.start <= draft.end


def asked_twice(rng, drafts, at, pairs, missing):
    """4: an offset that is asked for already, in another PDU or in the same, the whole request or one octet of it; in front or behind."""
    every = [pair for draft in drafts for pair in draft.requests if pair[0] < pair[1]]
    if not every:
        return False
    s, e = rng.choice(every)
    again = rng.choice(((s, e), (s, s + 1), (e - 1, e), (s, rng.randint(s + 1, e))))
    drafts[at].requests.insert(rng.randint(0, len(drafts[at].requests)), again)
    drafts[at].start, drafts[at].end = min(drafts[at].start, again[0]), max(drafts[at].end, again[1])


def not_missing(rng, drafts, at, pairs, missing):
    """5: an offset more that is not missing: a request is longer by one at either end, or one lies in what was kept, or past progress."""
    top = pairs[-1][1] if pairs else 0
    kept = [(e, s) for (_, e), (s, _) in itertools.pairwise(pairs)] + [(top + 1, top + 2)] + ([(0, pairs[0][0])] if pairs and pairs[0][0] else [])
    s, e = rng.choice(kept)
    more = rng.choice(((s, e), (s, s + 1), (e - 1, e)))
    if more[1] > NARROW and drafts[at].flag == 'normal':
        return False
    touching = [i for i, pair in enumerate(drafts[at].requests) if pair[0] < pair[1] and (pair[1] == more[0] or pair[0] == more[1])]
    if touching and rng.random() < 0.5:
        i = touching[0]
        s, e = drafts[at].requests[i]
        drafts[at].requests[i] = min(s, more[0]), max(e, more[1])
    else:
        drafts[at].requests.append(more)
    drafts[at].start, drafts[at].end = min(drafts[at].start, more[0]), max(drafts[at].end, more[1])


def absent(rng, drafts, at, pairs, missing):
    """5: a request is left out, or shorter by an octet."""
    real = [i for i, pair in enumerate(drafts[at].requests) if pair[0] < pair[1]]
    if not real:
        return False
    i = rng.choice(real)
    s, e = drafts[at].requests[i]
    if e - s > 1 and rng.random() < 0.6:
        drafts[at].requests[i] = rng.choice(((s + 1, e), (s, e - 1)))
    else:
        drafts[at].requests.pop(i)


def metadata_wrong(rng, drafts, at, pairs, missing):
    """6: the metadata request is not there, or is not wanted, or stands in a second PDU."""
    if missing and rng.random() < 0.5:
        for draft in drafts:
            draft.requests[:] = [pair for pair in draft.requests if pair != (0, 0)]
    elif (0, 0) in drafts[at].requests:
        return False
    else:
        drafts[at].requests.insert(rng.randint(0, len(drafts[at].requests)), (0, 0))


DAMAGES = [no_request, other_identity, out_of_scope, asked_twice, not_missing, absent, metadata_wrong]


def plan_record(rng, edition):
    """A sound record for a plan: (pairs, progress, mark, size)."""
    top = rng.choice((0, 0, 0, 0, NARROW - 300, TOP - 300)) if edition == 'newer' else rng.choice((0, 0, 0, NARROW - 300))
    if rng.random() < 0.3:
        progress = rng.choice((0, 1, 40, 300)) + (top if rng.random() < 0.3 else 0)
        return [(0, progress)] if progress else [], progress, 'missing', rng.choice(('open', progress))
    pairs = ascending(rng, rng.choice((0, 1, 1, 2, 3, 6, 12)), top, top + rng.choice((30, 200)))
    progress = min(TOP, (pairs[-1][1] if pairs else top) + rng.choice((0, 0, 1, 50)))
    return pairs, progress, 'known', rng.choice(('open', 'open', progress))


def plan_fits(rng):
    """Plans that fit: the missing set in random order, cuts and parts of one to sixteen PDUs, both flags, with and without a trailer, both editions,
    the metadata request at any place, tight and wide scopes, empty PDUs; on records of 0 to 12 ranges, known and waiting, near 0, 2^32 and 2^64."""
    while True:
        edition = rng.choice(EDITIONS)
        block = ['new wide 20', link(edition, rng.choice(TRAILERS))]
        for _ in range(6):
            pairs, progress, mark, size = record = plan_record(rng, edition)
            block += set_list(*record)
            for _ in range(4):
                ident = rng.choice(([1, 1, 1, 7, 2], identity(rng)))
                drafts = drafted(rng, ident, pairs, mark == 'missing', edition)
                if any(n > NARROW for pair in pairs for n in pair) and edition == 'older':
                    continue
                block.append(plan(ident, [draft.octets() for draft in drafts]))
        yield [*block, 'show', link('newer')]


def plan_damaged(rng):
    """The same, each with one fault for one test, at the first, a middle or the last PDU, or with two faults: 26 with each test and PDU."""
    while True:
        edition = rng.choice(('newer', 'newer', 'older'))
        block = ['new wide 20', link(edition, rng.choice(TRAILERS))]
        for _ in range(6):
            pairs, progress, mark, size = record = plan_record(rng, edition)
            if edition == 'older' and max([0, *(n for pair in pairs for n in pair)]) > NARROW:
                continue
            block += set_list(*record)
            for _ in range(6):
                ident = [1, 1, 1, 7, 2] if rng.random() < 0.7 else identity(rng)
                drafts = drafted(rng, ident, pairs, mark == 'missing', edition, most=rng.choice((3, 6, 16)))
                if not drafts:
                    continue
                # Request lists are changed in place: each draft has its own.
                places = [rng.choice((0, len(drafts) - 1, rng.randrange(len(drafts)))) for _ in range(rng.choice((1, 1, 1, 2)))]
                for at in places:
                    rng.choice(DAMAGES)(rng, drafts, at, pairs, mark == 'missing')
                    drafts[at].end = max(drafts[at].end, drafts[at].start)
                pdus = [draft.octets() for draft in drafts]
                if rng.random() < 0.12:
                    pdus[places[0]] = broken(rng, pdus, places[0])
                block.append(plan(ident, pdus))
        yield [*block, 'show', link('newer')]


def plan_orders(rng):
    """Every two of the faults together, the later test's in an earlier PDU and the other way round, so that each test is seen over all PDUs before the
    next: 26."""
    for first, second, mark, turned in shuffled(rng, [*DAMAGES, None], [*DAMAGES, None], ('known', 'missing'), (0, 1)):
        pairs, progress = ([(5, 9), (20, 30), (35, 36)], 40) if mark == 'known' else ([(0, 40)], 40)
        edition, ident = rng.choice(EDITIONS), [1, 1, 1, 7, 2]
        block = ['new wide 4', link(edition), *set_list(pairs, progress, mark, 'open')]
        for _ in range(3):
            requests = cuts(rng, pairs, 6)
            rng.shuffle(requests)
            parts = [requests[i::4] for i in range(4)]
            if mark == 'missing':
                rng.choice(parts).append((0, 0))
            drafts = [Draft(ident, part, edition=edition, trailer=rng.choice(TRAILERS)) for part in parts]
            for at, damage in zip((1, 2) if turned else (2, 1), (first, second)):
                if damage:
                    damage(rng, drafts, at, pairs, mark == 'missing')
                    drafts[at].end = max(drafts[at].end, drafts[at].start)
            pdus = [draft.octets() for draft in drafts]
            for at, damage in zip((1, 2) if turned else (2, 1), (first, second)):
                if damage is None:
                    pdus[at] = broken(rng, pdus, at)
            block.append(plan(ident, pdus))
        yield [*block, link('newer')]


def plan_small(rng):
    """Small records, every missing set of the offsets 0 to 3, known, and waiting, with plans of up to three requests of the offsets 0 to 4 and the metadata
    request, in one, two and three PDUs: fits, 26 with every test but 1 and 2."""
    requests = [(0, 0), *itertools.combinations(range(5), 2)]
    records = [(spans(bits), 5, 'known', 'open') for bits in range(2**4)] + [([(0, 4)], 4, 'missing', 4), ([], 0, 'missing', 'open'),
                                                                             ([(0, 1)], 1, 'missing', 'open')]
    for record, n, of in shuffled(rng, records, range(4), range(6)):
        block = ['new wide 4', *set_list(*record)]
        for _ in range(12):
            some = rng.choices(requests, k=n)
            if rng.random() < 0.6:
                # Mostly such as could fit.
                some = cuts(rng, record[0], rng.choice((0, 1)))[:n] + [(0, 0)] * (record[2] == 'missing' or rng.random() < 0.2)
                rng.shuffle(some)
            parts = [[] for _ in range(of % 3 + 1)]
            for request in some:
                rng.choice(parts).append(request)
            drafts = [Draft([1, 1, 1, 7, 2], part) for part in parts]
            for draft in drafts:
                draft.start, draft.end = rng.choice(((draft.start, draft.end), (0, 9), (0, 9), (min(draft.start + 1, draft.end), draft.end),
                                                     (draft.start, max(draft.start, draft.end - 1))))
            block.append(plan([1, 1, 1, 7, 2], [draft.octets() for draft in drafts]))
        yield block


def plan_checks(rng):
    """The order of the checks of a plan, 10, 8, 12, 13, 20, 6, and then the tests: records that are sound or fail one of theirs, identities that are none, 0, 1,
    16, 17 and 64 PDUs, lengths that sum to the buffer, to one less and one more; both widths: each alone and with others."""
    records = [([(12, 18), (30, 40)], 45, 'known', 'open'), ([(0, 45)], 45, 'missing', 45), ([(12, 18)], 45, 'known', 44), ([(12, 18)], 45, 'missing', 'open'),
               ([(30, 40), (12, 18)], 45, 'known', 'open'), ([(12, 18), (30, 46)], 45, 'known', 'open'), ([], 45, 'known', 45),
               ([(12, NARROW + 1)], NARROW + 1, 'known', 'open')]
    idents = [[1, 1, 1, 7, 2], [1, 1, 1, 7, 2], [0, 1, 0, 7, 0], [1, 9, 1, 7, 2], [1, 1, 256, 7, 2], [1, 1, 1, 256, 2], [1, 1, 1, 7, 256], [8, 8, TOP, TOP, 0]]
    for width, record, ident, n, less in shuffled(rng, WIDTHS, records, idents, (0, 1, 2, 16, 17, 64), (0, 1, -1)):
        pairs, progress, mark, size = record
        good = ident if ident in ([1, 1, 1, 7, 2], [8, 8, TOP, TOP, 0]) else [1, 1, 1, 7, 2]
        requests = [(0, 0)] * (mark == 'missing') + pairs
        drafts = [Draft(good, requests if i == n // 2 else [], 'large' if progress > NARROW else 'normal') for i in range(n)]
        for draft in drafts:
            draft.end = max(draft.start, draft.end)
        pdus = [bytes(octets_of(good, d.flag == 'large', min(d.start, d.end), max(d.start, d.end), d.requests)) for d in drafts]
        lengths, octets = [len(pdu) for pdu in pdus], b''.join(pdus)
        if lengths and less:
            lengths[rng.randrange(n)] -= less
        elif less > 0 or rng.random() < 0.1:
            octets += b'\x28'
        yield [words('new', width, 4), *set_list(*record), words('plan', *ident, n, *lengths, octets.hex()).rstrip(), 'show']


def own_sequence(ident, flag, pairs, progress, missing, k, edition, trailer):
    """The PDUs of a whole sequence as document 01 has them, k requests each."""
    entries = [(0, 0)] * missing + pairs
    out = []
    for at in range(0, len(entries), k):
        start, last = entries[at - 1][1] if at else 0, at + k >= len(entries)
        end = progress if last else entries[at + k - 1][1]
        out.append(bytes(octets_of(ident, flag == 'large', start, end, entries[at:at + k], edition, trailer)))
    return out


def plan_own(rng):
    """Our own sequence as a plan, sent by `nak` in the line before: of 0 to 17 PDUs, both flags and the older edition, with and without a trailer,
    metadata known and
    missing; at most 16 PDUs always fit, 17 are 20; the same with two PDUs in the other order, and without its first and its last."""
    while True:
        (edition, flag), trailer = rng.choice(FORMS), rng.choice(TRAILERS)
        per, tail_ = 16 if flag == 'large' else 8, tail(trailer)
        block = ['new wide 40', link(edition, trailer)]
        for _ in range(4):
            missing = rng.random() < 0.25
            pairs = ascending(rng, rng.choice((0, 1, 2, 5, 16, 17, 30)), 0, 200)
            progress = (pairs[-1][1] if pairs else 0) + rng.choice((0, 1, 30))
            if missing:
                pairs = [(0, progress)] if progress else []
            ident, k = identity(rng), rng.choice((1, 1, 2, 3, 10))
            largest = 5 + 2 * ident[0] + ident[1] + per * (1 + k) + tail_
            pdus = own_sequence(ident, flag, pairs, progress, missing, k, edition, trailer)
            block += [*set_list(pairs, progress, 'missing' if missing else 'known', rng.choice(('open', progress))),
                      words('nak', *ident, flag, largest, 0, 16, 16 * largest), plan(ident, pdus)]
            if len(pdus) > 1:
                block += [plan(ident, pdus[::-1]), plan(ident, pdus[1:]), plan(ident, pdus[:-1]), plan(ident, [*pdus, pdus[rng.randrange(len(pdus))]])]
        yield [*block, link('newer')]


def plan_limits(rng):
    """Plans near their limits: 16 PDUs, PDUs of 4,096 octets and of one request more, which do not read, lines of up to 65,535 octets, offsets up to
    2^64 - 1; a last
    octet left out, asked for twice, and one too many."""
    ident = [1, 1, 1, 7, 2]
    for n, per, flag in shuffled(rng, (1, 2, 16), (1, 60, 230, 510, 511), FLAGS):
        if n * (per * (8 if flag == 'normal' else 16) + 24) * 2 > 60000 or n * per > 4096 or per == 510 and flag == 'large':
            continue
        base = 1 if flag == 'normal' else TOP - 2 * n * per
        pairs = [(base + 2 * i, base + 2 * i + 1) for i in range(n * per)]
        drafts = [Draft(ident, pairs[i::n], flag, trailer=TRAILERS[n == 16 and per < 200]) for i in range(n)]
        pdus = [draft.octets() for draft in drafts]
        block = ['new wide 4096', *set_list(pairs, pairs[-1][1], 'known'), plan(ident, pdus)]
        requests = drafts[-1].requests
        for changed in (requests[:-1], [*requests[:-1], requests[0]], [*requests[:-1], (requests[-1][0] - 1, requests[-1][1])]):
            block.append(plan(ident, [*pdus[:-1], Draft(ident, changed, flag).octets()]))
        yield block


NO_PLANS = ['plan', 'plan 1', 'plan 1 1 1 7 2', 'plan 1 1 1 7 2 x', 'plan 1 1 1 7 2 -1', 'plan 1 1 1 7 2 1', 'plan 1 1 1 7 2 2 0', 'plan 1 1 1 7 2 0 0',
            'plan 1 1 1 7 2 0 2',
            'plan 1 1 1 7 2 0 2A', 'plan 1 1 1 7 2 0 zz', 'plan 1 1 1 7 2 0 28 28', 'plan 1 1 1 7 2 1 1 28 28', 'plan 1 1 1 7 2 1 x 28', 'plan 1 1 1 7 2 1 65536 28',
            'plan 1 1 1 7 2 1 65536', 'plan 1 1 1 7 2 65' + ' 0' * 65, 'plan 1 1 1 7 2 65', 'plan 1 1 1 7 x 0', 'plan x 1 1 7 2 0',
            'plan 1 1 1 7 18446744073709551616 0',
            'Plan 1 1 1 7 2 0', 'plans 1 1 1 7 2 0', 'plan 1 1 1 7 2 18446744073709551615', 'plan 1 1 1 7 2 4294967296', 'for 0 plan 1 1 1 7 2 0']


def plan_words(rng):
    """Lines that are no plan: errors that change nothing; no PDU and empty buffers, lengths of 0 and of 65,535, 16, 17 and 64 of them; more spaces; in a pool a
    plan is an error: fits, 6, 20, 26, error."""
    fine = ['plan 1 1 1 7 2 0', '  plan   1 1 1   7 2 0  ', 'plan 1 1 1 7 2 0 28', 'plan 1 1 1 7 2 1 0', 'plan 1 1 1 7 2 1 65535', 'plan 1 1 1 7 2 1 1 28',
            'plan 1 1 1 7 2 00 ',
            'plan 1 1 1 7 2 16' + ' 0' * 16, 'plan 1 1 1 7 2 17' + ' 0' * 17, 'plan 1 1 1 7 2 64' + ' 0' * 64, 'plan 1 1 1 7 2 2 65535 65535 28',
            'plan 1 1 1 7 2 16' + ' 65535' * 16,
            'plan 1 1 1 7 2 2 0 0', 'plan 1 1 1 7 2 3 0 1 0 28', 'plan 1 1 1 7 2 1 16 28000900010702080000000000000000',
            'plan 1 1 1 7 2 2 0 16 28000900010702080000000000000000', 'plan 1 1 1 7 2 2 16 0 28000900010702080000000000000000',
            'plan 1 1 1 7 2 1 24 280011000107020800000000000000000000000000000000']
    for lines in [(NO_PLANS + fine)[at:at + 4] for at in range(0, len(NO_PLANS + fine), 4)]:
        for record in (([], 9, 'known', 9), ([], 0, 'missing', 'open'), ([(2, 5)], 9, 'known', 'open')):
            yield ['new wide 4', *set_list(*record), *lines, 'show']
        yield ['pool 3 wide 0 3', *lines, 'for 0 show', 'new wide 4', *lines]


def nonsense(rng):
    """Lines that are no command: unknown words, too few and too many words, numbers of 21 digits and
    above 2^64 - 1, signs, tabs, capitals, odd and upper-case octets, values past each limit, lines of
    65,535 and 65,536 octets; and lines that are passed over; each with commands in between that show
    that nothing changed."""
    good = ['new wide 3', 'new pairs wide 3', 'lend 6', 'load 7 known 1 open', 'load 7 known 1 7', 'poke 0 1 2', 'show', 'slots 4',
            'add 1 2', 'insert 1 2', 'remove 1 2', 'coalesce', 'within 1 2', 'octets normal 8', 'data 0 1', 'metadata', 'eof 9',
            'held 1 2', 'missing', 'map 7', 'write 1 1 1 7 2 normal 0 1000 24 100 200', 'read 2800', 'nak 1 1 1 7 2 normal 32 0 1 32',
            'link newer plain', 'link older plain', 'link newer crc', 'link older crc']
    fixed = ['bogus', 'ADD 1 2', 'add', 'add 1', 'add 1 2 3', 'add -1 2', 'add +1 2', 'add 0x1 2', 'add 1. 2',
             'add 18446744073709551615 18446744073709551615', 'add 18446744073709551616 1',
             'add 99999999999999999999 1', 'add 000000000000000000001 2', 'add 00000000000000000001 2',
             'add\t1 2', '\tadd 1 2', 'add 1 2\r', 'add 1 2\t', '  add   1    2  ', 'insert', 'insert 1', 'insert 1 2 3',
             'insert x 2', 'insert 1 -2', 'Insert 1 2', 'inserts 1 2', 'insert 18446744073709551616 1', ' insert  1  2 ',
             'new', 'new wide', 'new tall 3', 'new pairs', 'new pairs wide', 'new pairs tall 3', 'new pairs wide 4097',
             'new pairs narrow 3 3', 'new pairs pairs wide 3', 'new Pairs wide 3', 'new wide pairs 3', 'show', 'new pairs narrow 3',
             'show', 'new pairs wide 3',
             'new wide 4097', 'new narrow 4096', 'new wide 3 3', 'lend 8201', 'lend 8200', 'lend x', 'lend',
             'load 1 maybe 2', 'load 1 maybe 2 open', 'load 1 known', 'load x known 1 open', 'load 1 known x open', 'load 1 known 1',
             'load 1 known 1 1 1', 'load 1 known 1 shut', 'load 1 known 1 Open', 'load 1 known 1 -1', 'load 1 known 1 missing',
             'load 1 known 1 18446744073709551616', 'load open known 1 1', 'show', 'load 1 known 0 18446744073709551615', 'show',
             'load 1 missing 0 0', 'show', 'load 4 known 0 open', 'show',
             'eof', 'eof x', 'eof open', 'eof 1 2', 'eof -1', 'Eof 1', 'eofs 1', 'eof 18446744073709551616', '  eof   5  ', 'show',
             'held', 'held 1', 'held 1 2 3', 'held x 2', 'held 1 -2', 'Held 1 2', 'helds 1 2', 'held 18446744073709551616 1', 'held 1 2',
             ' held  1  2 ', 'held 00000000000000000001 2', 'missing 1', 'missing x', 'Missing', 'missings', 'missing', '  missing ', 'map',
             'map x', 'map 1 2', 'map -1', 'map 0', 'map 00000000000000000000', 'map 00000000000000000003', 'map 000000000000000000003', 'map 200',
             'map 201', 'map 256', 'map 4294967297', 'map 18446744073709551615', 'map 18446744073709551616', 'map open', 'Map 3', 'maps 3',
             '  map   3  ', 'show',
             'poke', 'poke 8199 1 2',
             'poke 8199 1', 'poke 18446744073709551615 1', 'poke 0 1 x', 'show me', 'slots', 'slots 8201', 'slots x',
             'coalesce now', 'metadata 1', 'within 1', 'octets', 'octets normal', 'octets small 8',
             'octets large 66001', 'octets large 66000', 'octets normal 0', 'octets Normal 0', 'data 1', 'data 1 2 3',
             'write', 'write 1 1 1 7 2 normal 0 1000', 'write 1 1 1 7 2 normal 0 1000 66001',
             'write 1 1 1 7 2 normal 0 1000 66000', 'write 1 1 1 7 2 odd 0 1000 16', 'write 1 1 1 7 2 normal 0 1000 16 1 x',
             'read 2', 'read 2A', 'read 28 00', 'read zz', 'read 0x28', 'read', 'nak', 'nak 1 1 1 7 2 normal 32 0 1',
             'nak 1 1 1 7 2 normal 32 0 1 66001', 'nak 1 1 1 7 2 normal 32 0 1 66000', 'nak 1 1 1 7 2 x 32 0 1 32',
             'nak 1 1 1 7 2 normal 32 0 1 32 1', *NO_LINKS, 'write 1 1 1 7 2 normal 0 9 16', '  link   older   plain  ',
             'write 1 1 1 7 2 normal 0 9 16', *NO_LINKS, 'write 1 1 1 7 2 normal 0 9 16', ' link  newer  crc', 'write 1 1 1 7 2 normal 0 9 18',
             *NO_LINKS, 'write 1 1 1 7 2 normal 0 9 18', 'link newer plain', 'ok', 'error 1', 'shows', 'sho', 'add 1 2#', 'add 1 2 #', 'add 1,2',
             '\xe9', 'add \xb2 3', 'add 1\xa02', '\x00', 'show\x00', 'add 1 2\x0b', '\x0c']
    yield ['write 1 1 1 7 2 normal 0 9 16', 'show', 'data 5 1', 'show', 'slots 4', 'new wide 3', *fixed, 'show']
    # Line lengths of 65,535 and 65,536 octets, by spaces and by words; 8,200 and 8,201 requests.
    yield ['new wide 4096', 'add 1 2' + ' ' * 65528, 'add 3 4' + ' ' * 65529, 'show',
           'read ' + '0' * 65530, 'read ' + '0' * 65531, 'read ' + '00' * 32000,
           'poke 0' + ' 1' * 8200, 'poke 1' + ' 2' * 8200, 'slots 3', 'poke 0' + ' 3' * 8201, 'slots 3',
           'load 0 known 4100 open', 'show', 'load 0 known 4101 0', 'show', 'load 0 known 18446744073709551615 open', 'show',
           'write 1 1 1 7 2 normal 0 1000 16' + ' 1 2' * 4100, 'write 1 1 1 7 2 normal 0 1000 16' + ' 1 2' * 4100 + ' 1',
           'write 1 1 1 7 2 normal 0 1000 16' + ' 1 2' * 4096, 'write 1 1 1 7 2 normal 0 1000 16' + ' 1 2' * 4096 + ' 1']
    while True:
        block = ['new wide 3', 'load 5 known 0 open', 'data 7 2']
        for _ in range(30):
            line = rng.choice(good)
            fault = rng.randrange(8)
            if fault == 0:
                at = rng.randrange(len(line))
                line = line[:at] + chr(rng.choice((9, 13, 35, 45, 48, 57, 65, 97, 103, 0, 127, 200))) + line[at + 1:]
            elif fault == 1:
                line = ' '.join(line.split(' ')[:-1]) or 'x'
            elif fault == 2:
                line += ' ' + rng.choice(('0', 'x', '1 1', '18446744073709551616'))
            elif fault == 3:
                parts = line.split(' ')
                other = ('0', '', 'known', 'open', '18446744073709551615', '18446744073709551616', 'wide')
                parts[rng.randrange(len(parts))] = rng.choice(other)
                line = ' '.join(parts)
            elif fault == 4:
                line = rng.choice(('', '   ', '# ' + line, '#', '##', ' ' * 300))
            elif fault == 5:
                line = ' ' * rng.randint(0, 3) + line.replace(' ', ' ' * rng.randint(1, 3)) + ' ' * rng.randint(0, 3)
            block += [line, 'show'] if rng.random() < 0.3 else [line]
        yield [*block, link('newer')]


STORE = [store_remove_places, store_insert_places, store_insert_checks, store_insert_slots, store_remove_small, store_insert_small,
         store_coalesce_small, store_add_within_small, store_octets_small, store_edges, store_lists, store_broken, store_history,
         store_insert_history, store_insert_full]
EVENTS = [events_small, eof_places, eof_small, eof_checks, eof_data_small, eof_slots, records_small, records_edges, events_history, eof_history,
          events_wide_lists, eof_wide_lists, records_broken]
QUERIES = [held_kinds, held_places, held_small, held_checks, map_places, held_history, held_wide_lists]
PDUS = [pdus_metadata, pdus_metadata_checks, pdus_lengths, pdus_limits, pdus_written, pdus_read]
SEQUENCES = [sequences_runs, sequences_any]
LINKS = [link_octets, link_writes, link_reads, link_sequences, link_kept, link_words, link_history]
CRCS = [crc_trailers, crc_bits, crc_checks, crc_flags, crc_writes, crc_sequences]
POOLS = [pool_small, pool_checks, pool_settings, pool_full, pool_sounders, pool_counts, pool_slots, pool_links, pool_words, pool_history, pool_wide_lists]
TIMERS = [timer_states, timer_ticks, timer_resets, timer_late, timer_words, timer_history]
PLANS = [plan_damaged, plan_orders, plan_small, plan_fits, plan_checks, plan_own, plan_words, plan_limits]
REST = [*EVENTS, *QUERIES, *PDUS, *SEQUENCES, *LINKS, *CRCS, *POOLS, *TIMERS, *PLANS, nonsense]

# What a removal did (document 02, C-16), and by how many ranges the list grew.
GREW = {'whole': -1, 'left': 0, 'right': 0, 'split': 1}
REMOVED = {*(f'removed {what} {place} {width}' for what in GREW for place in ('only', 'first', 'middle', 'last')
             for width in WIDTHS), *(f'removed none {width}' for width in WIDTHS)}

# How a range that is put in meets the list (document 02, C-19): what takes no slot is taken by a full list too.
JOINS = ('inside', 'left', 'right', 'both', 'over', 'across')
APART = ('empty', 'before', 'between', 'behind')
INSERTED = {f'{answer} {meeting} {room} {width}' for width in WIDTHS for answer, meetings, room in
            (('inserted', JOINS, 'full'), ('inserted', JOINS + APART, 'room'), ('refused 1', APART, 'full'))
            for meeting in meetings}

# How a size meets a record (document 02, C-14), known or waiting: again and another, where the size is known; below progress and
# level with it; first and further, while waiting; of a list that has no range, one that the tail joins, or none that it joins.
ENDINGS = [*((mark, *of) for mark in ('known', 'waiting') for of in (
               ('again', 'ended', 'full'), ('again', 'ended', 'room'), ('another', 'refused 22', 'full'), ('another', 'refused 22', 'room'),
               ('below', 'refused 22', 'full'), ('below', 'refused 22', 'room'), ('level', 'ended', 'full'), ('level', 'ended', 'room'))),
           ('known', 'empty', 'ended', 'room'), ('known', 'empty', 'refused 1', 'full'), ('known', 'joins', 'ended', 'full'),
           ('known', 'joins', 'ended', 'room'), ('known', 'apart', 'ended', 'room'), ('known', 'apart', 'refused 1', 'full'),
           ('waiting', 'first', 'ended', 'room'), ('waiting', 'first', 'refused 1', 'full'), ('waiting', 'further', 'ended', 'full'),
           ('waiting', 'further', 'ended', 'room')]
ENDED = {f'{answer} {mark} {how} {room} {width}' for mark, how, answer, room in ENDINGS for width in WIDTHS}

# Where data ends once the size is known: below it, at it or past it; a full list has no room for a split below it.
SIZED = {f'{answer} {place} {width}' for width in WIDTHS for answer, place in (
    ('kept', 'below'), ('kept', 'at'), ('noticed', 'below'), ('noticed', 'at'), ('refused 22', 'past known'),
    ('refused 22', 'past waiting'), ('refused 1', 'below'))}

# A record that is sound but for its size.
UNEQUAL = {f'refused 10 unequal {mark} {width}' for mark in ('known', 'waiting') for width in WIDTHS}

# How a range that is asked for meets a record (C-24's held). Yes: with an empty list, apart from all its ranges, or touching one at the
# left, at the right or both; below progress or up to it. No: while waiting, noticed or not; past progress by one octet or more, with
# all else kept or with a hole too; in one hole, from one into another, its first or its last octet missing, or with both ends kept and
# one hole or several between them.
KEPT = ('empty below', 'empty at', 'apart below', 'apart at', 'left below', 'left at', 'right below', 'both below')
LACKING = ('noticed', 'not noticed', 'past by one', 'past', 'past with a hole', 'in a hole', 'from hole to hole', 'first missing',
           'last missing', 'one hole inside', 'holes inside')
HELD = {f'{answer} {how} {size} {width}' for answer, hows in (('yes', KEPT), ('no', LACKING)) for how in hows for size in ('open', 'sized')
        for width in WIDTHS}

# How much is missing: nothing, all up to progress, or some of it; while waiting there is no third.
MISSING = {f'missing {much} {mark} {width}' for mark, all_ in (('known', ('nothing', 'some', 'all')), ('waiting', ('nothing', 'all')))
           for much in all_ for width in WIDTHS}

# How the cells asked for meet the octets (fewer, as many, more, no octet at all); cells of one length and of two; products that pass
# 64 bits, on wide stores alone; and the marks that stand together in a map.
MAPPED = {f'map {how} {size} {width}' for how in ('fewer', 'as many', 'more', 'nothing', 'even', 'uneven', '#', '.', '+', '#.', '#+', '+.', '#+.')
          for size in ('open', 'sized') for width in WIDTHS} | {f'map above 64 bits {size} wide' for size in ('open', 'sized')}

# How the metadata request stands among the requests of a PDU (document 02, C-12), as patterns of the letters of pdus_metadata:
# what is taken, what is 2 and what is 3.
TAKEN = {'none': 'g+', 'alone': 'm', 'first': 'mg+', 'middle': 'g+mg+', 'last': 'g+m'}
EMPTY = {'twice, next': 'g*mm.*', 'twice, apart': 'g*mg+m.*', 'twice, then reversed': 'g*mg*m.*r.*', 'empty before': 'g*e.*m.*',
         'empty behind': 'g*mg*e.*', 'empty between': 'g*mg*e.*m.*'}
REVERSED = {'reversed before': 'g*r.*m.*', 'reversed behind': 'g*mg*r.*', 'reversed between': 'g*mg*r.*m.*'}
ORDERS = {'pdu': TAKEN, 'nak': TAKEN, 'refused 2': EMPTY, 'refused 3': REVERSED}


def asked(*answers):
    """The kinds of these answers by how the metadata request stands, both flags and the older edition, with and without a trailer."""
    return {f'{answer} {how} {flag} {edition} {trailer}' for answer in answers for how in ORDERS[answer]
            for (edition, flag), trailer in itertools.product(FORMS, TRAILERS)}


# What the same line is answered under both editions (document 02, C-20), by its flag, with and without a trailer (C-11); of a packet, by the
# two lowest bits of its first octet.
# The large flag is 15 under the older edition, behind the numbers of `first` and before all others; each packet but one that is shorter than
# four octets is 15 under one edition at least.
def under(older, newer, flag, trailer):
    return f'{older} under older, {newer} under newer, {flag} {trailer}'


def alike(flag, *said):
    return {under(answer, answer, flag, trailer) for answer in said for trailer in TRAILERS}


def refusing(*numbers):
    return [f'refused {number}' for number in numbers]


def fifteen(flag, *said):
    return {under('refused 15', answer, flag, trailer) for answer in said for trailer in TRAILERS}


FAULTY = refusing(16, 17, 18, 3, 2, 14)
WRITTEN = (alike('normal', 'pdu', *refusing(10, 13, 18, 3, 2, 7, 14, 6)) | alike('large', *refusing(10, 13))
           | fifteen('large', 'pdu', *refusing(18, 3, 2, 14, 6)))
READ = ({under(answer, 'refused 15', 'normal', trailer) for answer in ('nak', *FAULTY) for trailer in TRAILERS}
        | alike('normal', *refusing(15, 16)) | alike('large', *refusing(15, 16)) | fifteen('normal', 'nak', *FAULTY) | fifteen('large', 'nak', *FAULTY)
        | {under('refused 21', 'refused 15', 'normal', 'crc'), *(under('refused 15', 'refused 21', flag, 'crc') for flag in FLAGS)})
SENT = (alike('normal', 'sent', *refusing(10, 8, 12, 13, 14, 7, 11, 20, 6)) | alike('large', *refusing(10, 8, 12, 13))
        | fifteen('large', 'sent', *refusing(14, 11, 20, 6)))


def kept_link(*said):
    """Answers under an edition and a trailer that were set before the last `new`."""
    return {f'{answer} {edition} {trailer}, new since' for answer, edition in said for trailer in TRAILERS}


# Every first octet of a packet under both editions.
FIRST = {f'octet {first:02x} {edition}' for first in range(256) for edition in EDITIONS}
LINKED_KINDS = {
    'write': WRITTEN | kept_link(('pdu', 'newer'), ('pdu', 'older'), ('refused 15', 'older')),
    'read': READ | FIRST | kept_link(('nak', 'newer'), ('nak', 'older'), ('refused 15', 'newer'), ('refused 15', 'older')),
    'nak': SENT | kept_link(('sent', 'newer'), ('sent', 'older'), ('refused 15', 'older')),
    'link': {f'{answer} {edition} {trailer}' for answer in ('ok', 'error') for edition in EDITIONS for trailer in TRAILERS},
}

# Reading a packet with the CRC flag (document 02, C-11): what is said of each other fault where the trailer is right and where it is wrong; by
# the length field where that is small and the packet has that many octets. Fewer than three come before the trailer, all others behind it.
FAULTS_READ = {'length': 16, 'below': 16, 'code': 17, 'fields': 16, 'scope': 18, 'reversed': 3, 'empty': 2, 'long': 14}
TRAILED = {f'{answer} {fault}, trailer {state}' for fault, number in FAULTS_READ.items() for state, answer in (
    ('right', f'refused {number}'), ('wrong', f'refused {number if fault in ("length", "below") else 21}'))}
TRAILED |= {'nak sound, trailer right', 'nak of 4,096 octets', 'refused 21 sound, trailer wrong',
            *(f'refused 15 fixed bit, trailer {state}' for state in ('right', 'wrong'))}
TRAILED |= {f'{answer}, length field {stated}' for stated, numbers in enumerate([(16,)] * 3 + [(16, 17, 21)]) for answer in refusing(*numbers)}
# Writing with a trailer: PDUs of 4,096 octets, and those that the trailer alone makes too long or the buffer too short. The sequence: P
# against room for one request and for two; several PDUs.
TOTALS = {'pdu of 4,096 octets', 'refused 14 for the trailer', 'refused 6 for the trailer'}
PLACES = {'refused 14 two below one', 'refused 14 below one', 'sent at one', 'sent below two', 'sent at two', 'sent several', 'refused 14 above 4,096',
          'sent at 4,096'}
CRC_KINDS = {name: {f'{what} {flag} {edition}' for what in all_ for edition, flag in FORMS}
             for name, all_ in (('read', TRAILED), ('write', TOTALS), ('nak', PLACES))}

# How an event that makes one range more meets a pool (C-21): below its floor, or at or above it and below its limit, or at its limit; all slots
# held or kept free for others, or some free. And events that make none, where all is taken.
ROOMS = [('below its floor', 'all taken', True), ('below its floor', 'some free', True), ('from its floor on', 'some free', True),
         ('from its floor on', 'all taken', False), ('at its limit', 'some free', False), ('at its limit', 'all taken', False)]
def grown(*answers):
    """The kinds of events with these answers, and those that are refused for room."""
    taken = {f'{said} {where}, {slots}, {width}' for where, slots, fine in ROOMS for said in (answers if fine else ['refused 1']) for width in WIDTHS}
    return taken | {f'{said} no more, all taken, {width}' for said in answers for width in WIDTHS}


# Why 23 and 10 are refused, where the settings and counts tell.
SETTINGS = {f'refused 23 for {why}' for why in ('nine', 'a floor', 'the floors', 'none of')}
SETTINGS |= {f'refused 10 for {why}' for why in ('an odd list', 'a long list', 'a limit', 'the sum', 'a record')}
POOLED = {
    'pool': {'ok', 'error'},
    'for data': grown('noticed', 'kept') | SETTINGS | {'noticed', 'kept', 1, 2, 4, 8, 9, 10, 12, 22, 23, 'error'},
    'for eof': grown('ended') | SETTINGS | {'ended', 1, 4, 8, 10, 12, 22, 23, 'error'},
    'for metadata': SETTINGS | {'known', 8, 10, 12, 19, 23, 'error'},
    'for held': {'yes', 'no', 2, 3, 8, 10, 12, 23, 'error'},
    'for missing': SETTINGS | {'missing', 8, 10, 12, 23, 'error'},
    'for map': {'map', 8, 10, 12, 23, 'error'},
    'for nak': {'pdu', 'sent', 6, 7, 8, 10, 11, 12, 13, 14, 15, 20, 23, 'error'},
    'for load': {'ok', 'error'},
    'for show': {'wide', 'narrow', 'error'},
}

# What an event or a reset does to a timer (C-22): from its state before to its state behind, `anew` where it is started again.
STARTED = {
    'data': {'kept idle to idle', 'kept idle to active', 'kept active to active', 'kept active to active anew', 'kept active to idle', 'kept deaf to deaf',
             'noticed idle to idle', 'noticed idle to active', 'noticed active to active', 'noticed active to idle', 'noticed deaf to deaf',
             *(f'refused {number} {state} to {state}' for number in (2, 22) for state in ('idle', 'active', 'deaf'))},
    'eof': {'ended idle to idle', 'ended idle to active', 'ended active to active', 'ended active to idle', 'ended deaf to deaf',
            *(f'refused 22 {state} to {state}' for state in ('idle', 'active', 'deaf'))},
    'metadata': {'known idle to idle', 'known idle to active', 'known active to active anew', 'known active to idle', 'known deaf to deaf',
                 *(f'refused 19 {state} to {state}' for state in ('idle', 'active', 'deaf'))},
    'reset': {'ok idle to idle', 'ok idle to active', 'ok active to active anew', 'ok active to idle', 'ok deaf to active', 'ok deaf to idle',
              *(f'refused {number} {state} to {state}' for number in (8, 10, 12) for state in ('idle', 'active', 'deaf'))},
}
TIMED = {
    'defer': {'ok', 25, 'error'},
    'tick': {'quiet', 'ask', 'limit', 'error'},
    'timer': {'timer idle', 'timer active', 'timer deaf', 'error'},
    'reset': STARTED['reset'] | {'ok', 8, 10, 12, 'error'},
}

# What a plan is answered (C-23): with none, one, several and 16 PDUs it fits, with and without a trailer, with both flags and under the older edition; 26 of each
# test blames the first PDU, one in the middle, the last, and where something is not asked for (tests 5 and 6) their number.
PLANNED = {f'fits of {how}' for how in ('no PDU', 'one PDU', 'several PDUs', '16 PDUs', 'plain', 'crc', 'normal', 'large', 'newer', 'older', 'both flags',
                                        'both trailers')}
PLANNED |= {f'refused 26 {test} at {where} {edition}' for test in range(1, 7) for where in ('the first', 'a middle', 'the last') for edition in EDITIONS}
PLANNED |= {f'refused 26 {test} at their number {edition}' for test in (5, 6) for edition in EDITIONS}

# What a full run must meet at least once: by command, first words of answers and refusal numbers.
REACH = {
    'add': {'added', 1, 2, 3, 4, 10},
    'insert': INSERTED | {'inserted', 1, 2, 3, 4, 8, 10},
    'remove': REMOVED | {1, 2, 3, 4, 5, 8, 10},
    'coalesce': {'coalesced', 10},
    'within': {'yes', 'no', 10},
    'octets': {'octets', 6, 7, 10},
    'data': SIZED | UNEQUAL | STARTED['data'] | {'noticed', 'kept', 1, 2, 4, 8, 9, 10, 12, 22},
    'metadata': UNEQUAL | STARTED['metadata'] | {'known', 8, 10, 12, 19},
    'eof': ENDED | UNEQUAL | STARTED['eof'] | {'ended', 1, 4, 8, 10, 12, 22},
    'held': HELD | UNEQUAL | {'yes', 'no', 2, 3, 8, 10, 12},
    'missing': MISSING | UNEQUAL | {'missing', 8, 10, 12},
    'map': MAPPED | UNEQUAL | {'map', 'error', 8, 10, 12},
    'write': asked('pdu', 'refused 2', 'refused 3') | LINKED_KINDS['write'] | CRC_KINDS['write'] | {'pdu', 2, 3, 6, 7, 10, 13, 14, 15, 18},
    'read': asked('nak', 'refused 2', 'refused 3') | LINKED_KINDS['read'] | CRC_KINDS['read'] | {'nak', 2, 3, 14, 15, 16, 17, 18, 21},
    'nak': UNEQUAL | LINKED_KINDS['nak'] | CRC_KINDS['nak'] | {'pdu', 'sent', 6, 7, 8, 10, 11, 12, 13, 14, 15, 20},
    'link': LINKED_KINDS['link'] | {'ok', 'error'},
    **POOLED,
    **TIMED,
    'plan': PLANNED | {'fits', 6, 8, 10, 12, 13, 20, 26, 'error'},
}
RUST_REACH = {
    'add': {'added', 1, 2, 3, 4},
    'insert': {'inserted', 1, 2, 3, 4},
    'remove': {'removed true', 'removed false', 1, 2, 3, 4, 5},
    'coalesce': {'coalesced'},
    'within': {'yes', 'no'},
    'octets': {'octets', 6, 7},
}


# Commands that change nothing: what was shown before them still stands.
QUERIED = ('held', 'missing', 'map')


def kind(answer):
    """An answer's kind, as the tables above name it."""
    parts = answer.split(' ')
    if parts[0] == 'refused':
        return int(parts[1])
    if parts[0] == 'removed' and parts[1] in GREW:
        index, last = int(parts[2]), int(parts[3]) - GREW[parts[1]] - 1
        place = 'only' if last == 0 else 'first' if index == 0 else 'last' if index == last else 'middle'
        return f'removed {parts[1]} {place}'
    if parts[0] in ('removed', 'timer'):
        return ' '.join(parts[:2])
    return parts[0]


def meeting(pairs, s, e):
    """How (s, e) meets the ranges of a coalesced list, as the tables above name it: left and right are touches and no more."""
    if not pairs:
        return 'empty'
    joined = [(a, b) for a, b in pairs if a <= e and s <= b]
    if not joined:
        return 'before' if e < pairs[0][0] else 'behind' if pairs[-1][1] < s else 'between'
    (a, b), last = joined[0], joined[-1]
    if len(joined) > 1:
        return 'both' if len(joined) == 2 and b == s and e == last[0] else 'across'
    return 'inside' if a <= s and e <= b else 'left' if b == s else 'right' if e == a else 'over'


class Shown:
    """What `show` answered: the record and its list."""

    def __init__(self, answer):
        parts = answer.split(' ')
        self.width, numbers = parts[0], [int(n) for n in parts[6:]]
        self.length, self.count, self.progress = map(int, parts[1:4])
        self.waiting, self.size = parts[4] == 'missing', None if parts[5] == 'open' else int(parts[5])
        self.mark = 'waiting' if self.waiting else 'known'
        self.pairs = list(zip(numbers[::2], numbers[1::2]))
        self.room = 'full' if self.count == self.length // 2 else 'room'

    def sound(self):
        """Is it one that no check refuses, the size apart?"""
        flat = [n for pair in self.pairs for n in pair]
        most = NARROW if self.width == 'narrow' else TOP
        stated = [(0, self.progress)] if self.progress else []
        return (self.length % 2 == 0 and self.length <= 8192 and self.count <= self.length // 2 and max([0, *flat]) <= self.progress <= most
                and all(a < b for a, b in itertools.pairwise(flat)) and (not self.waiting or self.pairs == stated))

    def ending(self, z):
        """How a size meets the record, as the tables above name it."""
        if self.size is not None:
            return 'again' if z == self.size else 'another'
        if z <= self.progress:
            return 'level' if z == self.progress else 'below'
        if self.waiting:
            return 'further' if self.progress else 'first'
        if not self.pairs:
            return 'empty'
        return 'joins' if self.pairs[-1][1] == self.progress else 'apart'

    def holding(self, a, b):
        """How a range meets the record, as the tables above name it."""
        if self.waiting:
            return 'noticed' if b <= self.progress else 'not noticed'
        holes = [(s, e) for s, e in self.pairs if s < b and a < e]
        if b > self.progress:
            return 'past with a hole' if holes else 'past by one' if b == self.progress + 1 else 'past'
        if holes:
            first, last = holes[0][0] <= a, b <= holes[-1][1]
            if first and last:
                return 'in a hole' if len(holes) == 1 else 'from hole to hole'
            return 'first missing' if first else 'last missing' if last else 'one hole inside' if len(holes) == 1 else 'holes inside'
        left, right = any(e == a for _, e in self.pairs), any(s == b for s, _ in self.pairs)
        how = 'both' if left and right else 'left' if left else 'right' if right else 'apart' if self.pairs else 'empty'
        return f'{how} {"at" if b == self.progress else "below"}'

    def queried(self, numbers, answer):
        """The kinds of an answer to held, missing or map on this record, as the tables above name them."""
        size = 'open' if self.size is None else 'sized'
        if answer in ('yes', 'no'):
            yield f'{answer} {self.holding(*numbers)} {size} {self.width}'
        elif answer.startswith('missing '):
            octets = int(answer.split(' ')[1])
            yield f'missing {"nothing" if not octets else "all" if octets == self.progress else "some"} {self.mark} {self.width}'
        elif answer.startswith('map '):
            [cells], marks = numbers, answer[4:]
            hows = ['nothing' if not self.progress else 'fewer' if cells < self.progress else 'as many' if cells == self.progress else 'more']
            if marks:
                hows += ['uneven' if self.progress % len(marks) else 'even', ''.join(mark for mark in '#+.' if mark in marks)]
            if len(marks) * self.progress > TOP:
                hows.append('above 64 bits')
            yield from (f'map {how} {size} {self.width}' for how in hows)

    def met(self, name, numbers, answer):
        """The kind of an answer to a command on this record, as the tables above name it; None where they name none."""
        said = 'refused ' + answer.split(' ')[1] if answer.startswith('refused ') else answer.split(' ')[0]
        if name == 'insert' and said in ('inserted', 'refused 1'):
            return f'{said} {meeting(self.pairs, *numbers)} {self.room} {self.width}'
        if name == 'insert' or not self.sound():
            return None
        if self.size not in (None, self.progress):
            return f'{said} unequal {self.mark} {self.width}'
        if name == 'eof':
            return f'{said} {self.mark} {self.ending(*numbers)} {self.room} {self.width}'
        if name == 'data' and self.size is not None:
            end = sum(numbers)
            place = 'below' if end < self.size else 'at' if end == self.size else f'past {self.mark}'
            return f'{said} {place} {self.width}'
        return None


@functools.lru_cache(maxsize=1)
def as_shown(answer):
    """What was shown, read once for all queries behind it."""
    return Shown(answer)


def head_of(octets):
    """The length of a packet's header, by its octet 3."""
    return 4 + 2 * ((octets[3] >> 4 & 7) + 1) + (octets[3] & 7) + 1


def requests_in(parts, trailer):
    """The flag, the trailer (of a line that writes, the link's) and the requests of a line that writes or reads a PDU and came as far as its
    requests, as it has them."""
    if parts[0] == 'write':
        flag, numbers = parts[6], [int(word) for word in parts[10:]]
    else:
        octets = bytes.fromhex(parts[1])
        flag, f, trailer = FLAGS[octets[0] & 1], 8 if octets[0] & 1 else 4, TRAILERS[octets[0] >> 1 & 1]
        numbers = [int.from_bytes(octets[at:at + f], 'big') for at in range(head_of(octets) + 1 + 2 * f, len(octets) - tail(trailer), f)]
    return flag, trailer, list(zip(numbers[::2], numbers[1::2]))


def saying(answer):
    """What an answer says, with a refusal's number and nothing else."""
    return ' '.join(answer.split(' ')[:2 if answer.startswith('refused ') else 1])


def word_of(requests):
    """A letter for each request."""
    return ''.join('m' if pair == (0, 0) else 'g' if pair[0] < pair[1] else 'e' if pair[0] == pair[1] else 'r' for pair in requests)


def orders(parts, answer, link_now):
    """The kinds of an answer to such a line by how the metadata request stands, as the tables above name them."""
    said = saying(answer)
    if said in ORDERS:
        flag, trailer, requests = requests_in(parts, link_now.trailer)
        word = word_of(requests)
        for how, pattern in ORDERS[said].items():
            if re.fullmatch(pattern, word):
                yield f'{said} {how} {flag} {link_now.edition} {trailer}'


def trailed(octets, said, edition):
    """The kinds of an answer to a packet with the CRC flag, as the tables above name them: where it has one fault beside its trailer, or
    none."""
    head, f = head_of(octets), 8 if octets[0] & 1 else 4
    form = f'{FLAGS[octets[0] & 1]} {edition}'
    state, stated, faults = 'right' if octets[-2:] == crc_of(octets[:-2]) else 'wrong', int.from_bytes(octets[1:3], 'big'), []
    if said == 'refused 15':
        if octets[3] & 0x88 and octets[0] & ~3 == {'newer': 0x28, 'older': 0x08}[edition]:
            yield f'{said} fixed bit, trailer {state} {form}'
        return
    if said == 'nak' and len(octets) == 4096:
        yield f'nak of 4,096 octets {form}'
    if len(octets) != head + stated:
        faults.append('length')
    elif stated < 4:
        yield f'{said}, length field {stated} {form}'
    if stated < 3:
        faults.append('below')
    if not faults:
        body = octets[head:-2]
        if body[0] != 8:
            faults.append('code')
        if len(body) < 1 + 2 * f or (len(body) - 1) % (2 * f):
            faults.append('fields')
        else:
            numbers = [int.from_bytes(body[at:at + f], 'big') for at in range(1, len(body), f)]
            word = word_of(zip(numbers[2::2], numbers[3::2]))
            behind = word[re.match('g*m?g*', word).end():]
            faults += ['scope'] if numbers[0] > numbers[1] else []
            faults += ['reversed' if behind[0] == 'r' else 'empty'] if behind else []
            faults += ['long'] if len(octets) > 4096 else []
    if len(faults) < 2:
        yield f'{said} {"".join(faults) or "sound"}, trailer {state} {form}'


def totals(parts, answer, edition):
    """The kinds of an answer to a line that writes with a trailer, as the tables above name them."""
    said, form, i, q, length = saying(answer), f'{parts[6]} {edition}', int(parts[1]), int(parts[2]), int(parts[9])
    plain = 5 + 2 * i + q + (16 if parts[6] == 'large' else 8) * (1 + (len(parts) - 10) // 2)
    if said == 'pdu' and length == 4096:
        yield f'pdu of 4,096 octets {form}'
    if said == 'refused 14' and plain <= 4096 or said == 'refused 6' and length == plain:
        yield f'{said} for the trailer {form}'


def places(parts, answer, edition):
    """The kinds of an answer to a call of the sequence with a trailer, as the tables above name them."""
    said, form, i, q, largest = saying(answer[-1]), f'{parts[6]} {edition}', int(parts[1]), int(parts[2]), int(parts[7])
    per = 16 if parts[6] == 'large' else 8
    one = 7 + 2 * i + q + 2 * per
    where = {one - 2: 'two below one', one - 1: 'below one', one: 'at one', one + per - 1: 'below two', one + per: 'at two', 4096: 'at 4,096',
             4097: 'above 4,096'}
    if largest in where:
        yield f'{said} {where[largest]} {form}'
    if len(answer) > 2:
        yield f'{said} several {form}'


class Link:
    """The link as it stands while lines are gone through: its edition and trailer, whether there was a `new` since, and the last line of a
    PDU or a sequence with its answer under that link."""

    def __init__(self):
        self.edition, self.trailer, self.since, self.last = 'newer', 'plain', False, ('', '', '', '')

    def met(self, line, parts, answer):
        """The kinds of an answer by the link, as the tables above name them."""
        if parts[0] == 'new' and answer == ['ok']:
            self.since = True
        elif parts[0] == 'link' and answer == ['ok']:
            self.edition, self.trailer, self.since = parts[1], parts[2], False
            yield f'ok {self.edition} {self.trailer}'
        elif parts[0] == 'link':
            yield f'error {self.edition} {self.trailer}'
        elif parts[0] in ('write', 'read', 'nak') and not answer[0].startswith('error '):
            said = saying(answer[-1])
            if self.since:
                yield f'{said} {self.edition} {self.trailer}, new since'
            octets = parts[1] if parts[0] == 'read' and len(parts) == 2 else ''
            if len(octets) >= 8:
                yield f'octet {octets[:2]} {self.edition}'
                if int(octets[:2], 16) & 2:
                    yield from trailed(bytes.fromhex(octets), said, self.edition)
            elif self.trailer == 'crc' and parts[0] != 'read':
                yield from totals(parts, answer[0], self.edition) if parts[0] == 'write' else places(parts, answer, self.edition)
            before, edition, trailer, was = self.last
            if line == before and edition != self.edition and (parts[0] == 'read' or trailer == self.trailer):
                first = int(octets[:2] or '0', 16)
                form = (parts[6], trailer) if parts[0] != 'read' else (FLAGS[first & 1], TRAILERS[first >> 1 & 1])
                yield under(was, said, *form) if edition == 'older' else under(said, was, *form)
            self.last = line, self.edition, self.trailer, said


class Pooled:
    """A pool while lines are gone through: its settings, and how many ranges each transfer holds."""

    def __init__(self):
        self.groups, self.held, self.length = [], [], 0

    def taken(self):
        return sum(max(held, floor) for held, (_, floor, _) in zip(self.held, self.groups))

    def why(self, number):
        """Why a call was refused by 23 or 10, as the tables above name it: the first that is found."""
        slots = self.length // 2
        if number == 23:
            return ('nine' if len(self.groups) > 8 else 'a floor' if any(floor > limit for _, floor, limit in self.groups)
                    else 'the floors' if sum(floor for _, floor, _ in self.groups) > slots else 'none of')
        return ('an odd list' if self.length % 2 else 'a long list' if slots > 4096
                else 'a limit' if any(held > limit for held, (*_, limit) in zip(self.held, self.groups))
                else 'the sum' if self.taken() > slots else 'a record')

    def met(self, parts, answer):
        """The kinds of an answer to a line of a pool, as the tables above name them."""
        if parts[0] == 'pool' and answer == ['ok']:
            self.groups = [(width, int(floor), int(limit)) for width, floor, limit in zip(parts[2::3], parts[3::3], parts[4::3])]
            self.held, self.length = [0] * len(self.groups), 2 * int(parts[1])
        elif parts[0] == 'lend' and answer == ['ok']:
            self.length = int(parts[1])
        elif parts[0] == 'for' and len(parts) > 2 and not answer[0].startswith('error '):
            which, said = int(parts[1]), answer[0].split(' ')
            if parts[2] == 'load':
                self.held[which] = int(parts[5])
            if said[0] == 'refused' and said[1] in ('10', '23'):
                yield f'refused {said[1]} for {self.why(int(said[1]))}'
            elif said[0] in ('noticed', 'kept', 'ended') or said[:2] == ['refused', '1']:
                width, floor, limit = self.groups[which]
                before, slots = self.held[which], 'all taken' if self.taken() == self.length // 2 else 'some free'
                where = 'at its limit' if before >= limit else 'below its floor' if before < floor else 'from its floor on'
                if said[0] != 'refused':
                    self.held[which] = int(said[1])
                    where = where if self.held[which] > before else 'no more'
                yield f'{saying(answer[0])} {where}, {slots}, {width}'


def planned(parts, answer, edition):
    """The kinds of an answer to a plan, as the tables above name them."""
    n = int(parts[6]) if len(parts) > 6 and parts[6].isdecimal() else 0
    said = answer.split(' ')
    if said[:2] == ['refused', '26']:
        at = int(said[3])
        where = 'their number' if at == n else 'the first' if at == 0 else 'the last' if at == n - 1 else 'a middle'
        yield f'refused 26 {said[2]} at {where} {edition}'
    elif said == ['fits']:
        hows = [{0: 'no PDU', 1: 'one PDU', 16: '16 PDUs'}.get(n, 'several PDUs')]
        if n:
            octets, at, firsts = bytes.fromhex(parts[7 + n]), 0, set()
            for length in map(int, parts[7:7 + n]):
                firsts.add(octets[at])
                at += length
            flags, trailers = {FLAGS[first & 1] for first in firsts}, {TRAILERS[first >> 1 & 1] for first in firsts}
            hows += [edition, *flags, *trailers, *(['both flags'] if len(flags) > 1 else []), *(['both trailers'] if len(trailers) > 1 else [])]
        yield from (f'fits of {how}' for how in hows)


class Started:
    """The timer while lines are gone through, as it was shown last, and the event or reset that was told to it since."""

    def __init__(self):
        self.d, self.before, self.since = 0, None, None

    def met(self, parts, answer):
        """(command, kind) of the event or reset between two answers to `timer`, as the tables above name it."""
        if parts[0] == 'timer' and answer[0].startswith('timer '):
            now = answer[0].split(' ')[1:]
            if self.before and self.since:
                name, said = self.since
                fresh = now == ['active', str(self.d), '0']
                # One that had just been started does not show whether it was started again.
                if now[0] != 'active' or self.before[0] != 'active' or not fresh or now != self.before:
                    anew = ' anew' if self.before[0] == now[0] == 'active' and now != self.before else ''
                    yield name, f'{said} {self.before[0]} to {now[0]}{anew}'
            self.before, self.since = now, None
            return
        if parts[0] == 'defer' and answer == ['ok']:
            self.d = int(parts[1])
        told = parts[0] in STARTED and self.before and not self.since and not answer[0].startswith('error ')
        self.since = (parts[0], saying(answer[0])) if told else None
        self.before = self.before if told else None


def met(lines, expected):
    """(command, kind) of each answer to these lines; of a removal with the store's width, of an insert, an event or a sequence
    also how it met the record where the line before showed that, of a PDU how its metadata request stands; of a PDU and a sequence
    also what the link made of it."""
    width, shown, link_now, pooled, started = 'wide', None, Link(), Pooled(), Started()
    for at, answer in expected:
        parts = lines[at - 1].split() or ['']
        hows = list(pooled.met(parts, answer))
        yield from started.met(parts, answer)
        if parts[0] == 'for' and len(parts) > 2:
            yield from ((f'for {parts[2]}', how) for how in (*hows, *map(kind, answer)))
            continue
        yield from ((parts[0], how) for how in link_now.met(lines[at - 1], parts, answer))
        if parts[0] == 'new' and answer == ['ok']:
            width = parts[-2]
        for said in answer:
            yield parts[0], f'{kind(said)} {width}' if said.startswith('removed ') else kind(said)
        if shown and parts[0] in (*QUERIED, 'insert', 'data', 'eof', 'metadata', 'nak') and not answer[0].startswith('error '):
            record, numbers = as_shown(shown), [int(word) for word in parts[1:] if word.isdecimal()]
            how = record.met(parts[0], numbers, answer[0])
            if how:
                yield parts[0], how
            yield from ((parts[0], how) for how in record.queried(numbers, answer[0]))
        if parts[0] == 'plan':
            yield from ((parts[0], how) for how in planned(parts, answer[0], link_now.edition))
        if parts[0] in ('write', 'read'):
            yield from ((parts[0], how) for how in orders(parts, answer[0], link_now))
        if parts[0] == 'show' and not answer[0].startswith('error '):
            shown = answer[0]
        elif parts[0] not in QUERIED:
            shown = None


def as_the_rust(answer):
    """The answer in the Rust's words: its remove says true for whole, left, right and split, and false for none."""
    parts = answer.split(' ')
    if parts[0] == 'removed':
        return f'removed {"false" if parts[1] == "none" else "true"} {parts[-1]}'
    return answer


def blocks(generator, seed):
    return generator(random.Random(f'{generator.__name__} {seed}'))


def text(block):
    return ''.join(line + '\n' for line in block).encode('latin-1')


def main():
    table = {g.__name__: g for g in STORE + REST}
    if len(sys.argv) < 2 or sys.argv[1] == '--list' or sys.argv[1] not in table:
        for name, generator in table.items():
            print(f'{name}: {" ".join(generator.__doc__.split())}')
        return
    seed = sys.argv[2] if len(sys.argv) > 2 else '1'
    most = int(sys.argv[3]) if len(sys.argv) > 3 else 1
    for block in itertools.islice(blocks(table[sys.argv[1]], seed), most):
        sys.stdout.buffer.write(text(block))


if __name__ == '__main__':
    main()
