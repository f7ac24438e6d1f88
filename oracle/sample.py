"""Makes the fixed sample that the gate replays (run it by `compare --sample`): crates/pusmarke/data/sample.script and
the answers, crates/pusmarke/stdout.

The answers to the part `store` are the Rust's (to `insert`, those of its add and coalesce with room), and the model's where
the Rust says less (what a removal did, and at which index); those to the other parts are the model's. The same sources give
the same octets.
"""
import itertools
import os
import random

import model
import scripts
from scripts import (EDITIONS, FLAGS, FORMS, NARROW, TRAILERS, WIDTHS, link as set_link, octets_of, resealed, set_list, spans, words,
                     written_and_read)

CRATE = os.path.join(os.path.dirname(os.path.dirname(os.path.abspath(__file__))), 'crates', 'pusmarke')
SCRIPT, ANSWERS = os.path.join(CRATE, 'data', 'sample.script'), os.path.join(CRATE, 'stdout')

# Document 01's example packet, as document 01 prints it.
EXAMPLE = ('28 00 19 00 01 07 02 08 00 00 00 00 00 00 03 E8 00 00 00 00 00 00 00 00 00 00 00 64 00 00 00 C8'
           .replace(' ', '').lower())
# The same of the older edition: the version bits are 000, all else is alike.
OLDER = '08' + EXAMPLE[2:]

# The same under the CRC flag: the length field counts the trailer.
SEALED = ('2A 00 1B 00 01 07 02 08 00 00 00 00 00 00 03 E8 00 00 00 00 00 00 00 00 00 00 00 64 00 00 00 C8 02 65'
          .replace(' ', '').lower())

W = [(10, 20), (30, 40)]


def on(width, capacity, pairs, *calls):
    return [words('new', width, capacity), *set_list(pairs), *calls, 'show']


STORE_EXAMPLES = [
    '# Document 01, traced examples, in its order.',
    *on('wide', 2, W, 'remove 10 20'),
    *on('wide', 2, W, 'remove 10 15'),
    *on('wide', 2, W, 'remove 12 18'),
    *on('wide', 3, W, 'remove 12 18'),
    *on('wide', 2, W, 'remove 20 30'),
    *on('wide', 2, W, 'remove 5 25'),
    *on('narrow', 2, [], 'remove 4294967296 4294967296', 'add 4294967296 4294967296', 'add 0 4294967295'),
    *on('wide', 4, [(30, 40), (10, 20), (20, 30), (12, 13)], 'coalesce'),
    '# The narrow limit.',
    *on('narrow', 2, [(5, NARROW)], words('remove', 6, NARROW), words('remove', 5, NARROW + 1), words('remove', NARROW + 1, 5),
        words('add', NARROW, NARROW), words('add', NARROW + 1, 5), words('add', 5, NARROW + 1), words('add', 7, NARROW)),
]

INSERT_EXAMPLES = [
    '# Document 02, C-19: a full store takes a range that merges, which add refuses; 1 where nothing joins, and at capacity 0.',
    *on('wide', 2, W, 'add 20 30', 'insert 20 30', 'add 50 60', 'insert 60 70', 'insert 45 50', 'insert 40 60'),
    *on('wide', 2, W, 'insert 21 29', 'insert 0 5', 'insert 41 42', 'insert 12 18', 'insert 0 50'),
    *on('wide', 3, W, 'insert 21 29', 'show', 'insert 29 30', 'show', 'insert 20 21'),
    *on('narrow', 1, [], words('insert', NARROW, NARROW), words('insert', NARROW + 1, NARROW + 1), words('insert', NARROW + 1, 5),
        words('insert', 5, NARROW + 1), words('insert', 5, NARROW), words('insert', 0, 4), words('insert', 0, 5)),
    *on('wide', 0, [], 'insert 5 5', 'insert 5 4', 'insert 4 5'),
]

RECEPTION_EXAMPLES = [
    '# Document 01, traced examples, in its order.',
    'new wide 2', 'metadata', 'data 0 100', 'data 200 100', 'data 120 30', 'show', 'data 90 120', 'show',
    'new wide 1', 'metadata', 'data 0 100', 'data 200 100', 'data 120 30', 'show', 'data 100 50', 'show',
    'new wide 2', 'data 50 10', 'show', 'metadata', 'data 70 10', 'show',
    '# The console\'s own example.',
    'new wide 64', 'metadata', 'data 0 100', 'data 200 100', 'data 120 30', 'show',
    'nak 1 1 1 7 2 normal 32 0 16 512',
    '# Choices that document 01 leaves, as docs/DECISIONS.md takes them.',
    'new wide 0', 'data 5 5', 'data 0 0', 'metadata', 'data 0 5', 'data 6 1', 'show',
    'new wide 2', 'metadata', 'data 18446744073709551615 0', 'data 18446744073709551614 1', 'show',
    'data 18446744073709551615 1', 'data 0 18446744073709551615', 'show',
    'new narrow 2', 'metadata', 'data 4294967295 1', 'data 4294967294 1', 'show', 'data 18446744073709551615 1', 'metadata',
    'new wide 4', *set_list([(5, 6), (1, 2)], 9, 'known'), 'metadata', 'data 0 0', *set_list([(1, 2), (5, 6)], 5, 'known'),
    'metadata', 'data 0 0', *set_list([(1, 2), (5, 6)], 6, 'known'), 'metadata', 'data 0 0', 'show',
    'new wide 4', *set_list([(0, 5)], 6), 'metadata', 'data 1 1', *set_list([(0, 6)], 6), 'data 1 1', 'metadata', 'show',
]

EOF_EXAMPLES = [
    '# Document 02, C-14: the tail becomes missing and joins a range that ends at progress; the same size again, another; data at and past it.',
    'new wide 2', 'metadata', 'data 0 100', 'data 200 100', 'show', 'eof 400', 'show', 'eof 400', 'show', 'eof 401', 'eof 399', 'eof 0',
    'data 399 1', 'data 400 1', 'data 399 2', 'show', 'data 300 99', 'show', 'data 100 100', 'show', 'eof 400', 'show',
    'new wide 2', 'metadata', 'data 100 100', 'data 300 100', 'show', 'eof 400', 'show',
    'new wide 1', 'metadata', 'data 100 100', 'eof 199', 'eof 201', 'show', 'eof 200', 'show',
    'new wide 1', *set_list([(0, 200)], 200, 'known'), 'eof 300', 'show', 'data 100 1', 'data 0 100', 'show', 'metadata',
    '# While waiting: the list is (0, z), empty at z = 0; capacity 0; the metadata late; the size first, between and last.',
    'new wide 1', 'eof 100', 'show', 'data 20 10', 'show', 'data 90 11', 'eof 100', 'eof 99', 'eof 101', 'metadata', 'show', 'eof 100',
    'data 0 100', 'show', 'data 100 1', 'data 0 1', 'show',
    'new wide 1', 'data 20 10', 'eof 29', 'eof 30', 'show', 'data 25 6', 'show', 'metadata', 'data 0 30', 'show',
    'new wide 1', 'data 20 10', 'eof 40', 'show', 'nak 1 1 1 7 2 normal 64 0 16 1024', 'metadata', 'nak 1 1 1 7 2 normal 64 0 16 1024',
    'new wide 0', 'eof 1', 'show', 'eof 0', 'show', 'eof 0', 'eof 1', 'data 0 1', 'show', 'metadata', 'eof 0', 'eof 1', 'data 0 1', 'show',
    'new wide 0', 'metadata', 'eof 1', 'eof 0', 'show', 'new wide 0', 'metadata', 'data 0 5', 'eof 6', 'eof 5', 'eof 5', 'show', 'data 0 6',
    '# The narrow limit, before 22; sizes of 2^64 - 1.',
    'new narrow 1', 'eof 4294967296', 'eof 4294967295', 'show', 'eof 4294967296', 'eof 4294967294', 'data 4294967294 2', 'data 0 4294967295',
    'metadata', 'data 0 4294967295', 'show', 'eof 18446744073709551615', 'new wide 1', 'metadata', 'data 0 1', 'eof 18446744073709551615',
    'show', 'data 18446744073709551614 1', 'data 18446744073709551615 1', 'eof 18446744073709551614', 'show',
    '# A record whose size is not its progress: 10, before 8 and 12; where it is not known its number is not looked at.',
    'new wide 4', *set_list([(1, 2)], 5, 'known', 4), 'eof 4', 'eof 5', 'data 0 1', 'metadata', 'nak 1 1 1 7 2 normal 24 0 16 384',
    *set_list([(1, 2)], 5, 'known', 5), 'eof 5', 'data 0 1', 'metadata', 'nak 1 1 1 7 2 normal 24 0 16 384', 'show',
    *set_list([(5, 6), (1, 2)], 9, 'known', 8), 'eof 9', 'data 0 1', 'metadata', *set_list([(1, 12)], 9, 'known', 8), 'eof 9', 'data 0 1',
    *set_list([(0, 9)], 9, 'missing', 8), 'eof 9', 'data 0 1', 'metadata', *set_list([(0, 9)], 9, 'missing', 9), 'metadata', 'show',
    'new pairs narrow 2', 'show', 'eof 7', 'show', 'new pairs wide 4096', 'show',
]

HELD_EXAMPLES = [
    '# Document 02, C-24: nothing is kept while the metadata is missing, and nothing is lost by that.',
    'new wide 4', 'show', 'held 0 1', 'missing', 'map 10', 'data 0 100', 'held 0 100', 'held 0 1', 'held 99 101', 'missing', 'map 10', 'metadata', 'held 0 100',
    'held 0 1', 'missing', 'map 10',
    '# Data with holes: kept parts, touching holes and not; a hole, from and into it, and in the middle; at progress and past it.',
    'data 0 100', 'held 0 100', 'held 0 101', 'missing', 'map 200', 'data 200 100', 'data 120 30', 'show', 'held 0 100', 'held 10 90', 'held 99 101',
    'held 100 120', 'held 105 106', 'held 120 150', 'held 119 150', 'held 120 151', 'held 119 151', 'held 90 125', 'held 90 210', 'held 200 300',
    'held 200 301', 'held 250 400', 'held 300 301', 'held 110 110', 'held 300 300', 'held 150 120', 'held 0 0', 'missing', 'map 30', 'map 7', 'map 1',
    'map 200',
    '# The end of file: the tail is missing too. Then what is missing comes; the last map has kept octets alone.',
    'eof 400', 'held 200 300', 'held 200 400', 'held 300 301', 'held 399 400', 'missing', 'map 40', 'data 90 120', 'held 0 300', 'held 0 301', 'missing',
    'map 7', 'data 399 1', 'held 0 400', 'held 399 400', 'missing', 'map 8', 'data 300 99', 'held 0 400', 'held 0 401', 'held 400 401', 'missing',
    'map 40', 'map 1', 'show',
    '# No octet at all; one; 0, 1, 200 and 201 cells.',
    'new wide 0', 'metadata', 'map 1', 'map 200', 'eof 0', 'held 0 1', 'held 0 0', 'held 1 0', 'missing', 'map 1', 'map 0', 'map 201', 'new wide 1',
    'metadata', 'eof 1', 'map 1', 'map 2', 'map 200', 'missing', 'data 0 1', 'map 1', 'map 200', 'held 0 1', 'missing',
    '# The limits: past the narrow one held says no, as past progress anywhere; the octets of a file of 2^64 - 1.',
    'new narrow 1', 'metadata', 'data 4294967294 1', 'held 4294967294 4294967295', 'held 4294967293 4294967295', 'held 4294967294 4294967296',
    'held 4294967296 4294967297', 'held 4294967296 4294967296', 'held 4294967297 4294967296', 'missing', 'map 3', 'map 200', 'data 0 2147483647',
    'held 0 2147483647', 'held 0 2147483648', 'missing', 'map 2', 'map 200', 'new wide 1', 'metadata', 'data 18446744073709551614 1',
    'held 18446744073709551614 18446744073709551615', 'held 18446744073709551613 18446744073709551615',
    'held 18446744073709551615 18446744073709551615', 'held 18446744073709551615 18446744073709551614', 'missing', 'map 3', 'map 200',
    'data 0 9223372036854775807', 'missing', 'map 2', 'map 200', 'new wide 1', 'eof 18446744073709551615', 'held 0 18446744073709551615', 'missing',
    'map 200', 'metadata', 'missing', 'map 200', 'data 0 18446744073709551615', 'held 0 18446744073709551615', 'missing', 'map 200',
    '# Records that are none, for each of the three: 10 of each kind, 8, 12; before 2 and 3. The last three are sound.',
    *(line for width, record in itertools.product(WIDTHS, (
        (2, [(0, 9)], 1, 9, 'missing', 8), (4, [(1, 2), (5, 6)], 2, 9, 'missing', 'open'), (4, [(1, 2), (5, 6)], 2, 9, 'known', 8),
        (3, [(1, 2)], 1, 9, 'known', 'open'), (2, [(1, 2)], 2, 9, 'known', 'open'), (8194, [(1, 2)], 1, 9, 'known', 'open'),
        (4, [(1, 2), (5, NARROW + 1)], 2, 2**33, 'known', 'open'),
        (4, [(1, 2), (5, 6)], 2, NARROW + 1, 'known', 'open'), (4, [(5, 6), (1, 2)], 2, 9, 'known', 'open'), (4, [(1, 2), (2, 6)], 2, 9, 'known', 9),
        (4, [(5, 6), (1, 12)], 2, 9, 'known', 9), (4, [(1, 2), (5, 12)], 2, 9, 'known', 9), (4, [(1, 2), (5, 10)], 2, 9, 'known', 'open'),
        (4, [(1, 2), (5, 9)], 2, 9, 'known', 'open'), (2, [(0, 50)], 1, 50, 'missing', 50), (4, [(10, 20), (30, 40)], 2, 50, 'known', 'open')))
      for line in (words('new', width, 0), *scripts.held_check(record))),
]

SEQUENCE_EXAMPLES = [
    '# Document 01, traced examples, in its order.',
    'new wide 8', *set_list([(0, 1), (2, 3), (4, 5), (6, 7), (8, 9)], 12, 'known'),
    'nak 1 1 1 7 2 normal 32 0 16 512', 'nak 1 1 1 7 2 normal 23 0 16 512',
    '# The example of the section on the sequence, k = 1.',
    'new wide 8', *set_list([(0, 1), (2, 3), (4, 5)], 10, 'known'), 'nak 1 1 1 7 2 normal 24 0 16 384',
    'nak 1 1 1 7 2 normal 31 0 16 496',
    '# Metadata missing with k = 1; no entries; a cursor at the end; budget 0; a buffer one short.',
    'new wide 8', *set_list([(0, 60)], 60), 'nak 1 1 1 7 2 normal 24 0 16 384', 'nak 1 1 1 7 2 normal 24 2 16 384',
    'nak 1 1 1 7 2 normal 24 3 16 384', 'nak 1 1 1 7 2 normal 24 1 0 0', 'nak 1 1 1 7 2 normal 24 0 2 47',
    'nak 1 1 1 7 2 normal 24 0 17 0', 'new wide 8', 'nak 1 1 1 7 2 normal 24 0 1 24', 'metadata',
    'nak 1 1 1 7 2 normal 24 0 1 24', 'nak 1 1 1 7 2 normal 24 1 1 24',
]

WRITE_EXAMPLE = 'write 1 1 1 7 2 normal 0 1000 32 0 0 100 200'
LINK_EXAMPLES = [
    '# Document 02, C-20: document 01\'s example packet of both editions, each read under both; a large flag is 15 under the older one.',
    'link newer plain', WRITE_EXAMPLE, 'link older plain', WRITE_EXAMPLE, words('read', OLDER), words('read', EXAMPLE), 'link newer plain',
    words('read', EXAMPLE), words('read', OLDER), 'write 1 1 1 7 2 large 0 1000 56 0 0 100 200', 'link older plain',
    'write 1 1 1 7 2 large 0 1000 56 0 0 100 200', '# Behind 10 and 13, before 18, 3, 2, 14 and 6; not asked of the normal flag.',
    'write 1 1 1 7 2 large 0 1000 40 100 200 300', 'write 0 1 1 7 2 large 0 1000 40 100 200', 'write 1 1 1 256 2 large 1000 0 40 100 200',
    'write 1 1 1 7 2 large 1000 0 40 100 200', 'write 1 1 1 7 2 large 0 1000 40 200 100', 'write 1 1 1 7 2 large 0 1000 40 5 5',
    'write 1 1 1 7 2 large 0 1000 40 100 4294967296', words('write 1 1 1 7 2 large 0 1000 4104', *[1, 2] * 255), 'write 1 1 1 7 2 large 0 1000 39 100 200',
    'write 1 1 1 7 2 normal 1000 0 24 100 200', 'write 1 1 1 7 2 normal 0 1000 24 100 4294967296', 'write 1 1 1 7 2 normal 0 1000 23 100 200',
    '# The sequence: behind 10, 8, 12 and 13, before 14, 11, 20 and 6.',
    'new wide 8', *set_list([(0, 1), (2, 3), (4, 5)], 10, 'known'), 'nak 1 1 1 7 2 normal 24 0 16 384', 'nak 1 1 1 7 2 large 40 0 16 640',
    'nak 0 1 1 7 2 large 40 0 16 640', 'nak 1 1 1 7 2 large 39 0 16 640', 'nak 1 1 1 7 2 large 4097 0 16 640', 'nak 1 1 1 7 2 large 40 4 16 640',
    'nak 1 1 1 7 2 large 40 0 17 640', 'nak 1 1 1 7 2 large 40 0 16 639', *set_list([(2, 3), (0, 1)], 10, 'known'), 'nak 1 1 1 7 2 large 40 0 16 640',
    *set_list([(0, 1), (2, 11)], 10, 'known'), 'nak 1 1 1 7 2 large 40 0 16 640', 'lend 7', 'nak 1 1 1 7 2 large 40 0 16 640', 'lend 16',
    *set_list([(0, 2**32)], 2**32, 'known'), 'nak 1 1 1 7 2 large 40 0 1 40', 'nak 1 1 1 7 2 normal 24 0 1 24', 'link newer plain',
    'nak 1 1 1 7 2 large 40 0 1 40', '# A fresh reception keeps the link, and so does a link that is an error.',
    'link older plain', 'new wide 4', WRITE_EXAMPLE, 'new narrow 4', WRITE_EXAMPLE, 'new pairs wide 4096', words('read', OLDER), 'new wide 4097', WRITE_EXAMPLE,
    'link newer Crc', WRITE_EXAMPLE, 'link newer', WRITE_EXAMPLE, 'data 0 9', 'nak 1 1 1 7 2 normal 32 0 1 32', 'link newer plain', 'new wide 4',
    WRITE_EXAMPLE, 'link older CRC', WRITE_EXAMPLE, 'link older', words('read', EXAMPLE),
]

WRITE_SEALED = 'write 1 1 1 7 2 normal 0 1000 34 0 0 100 200'
TRAILER_EXAMPLES = [
    '# Document 02, C-11: document 01\'s example packet under the CRC flag, written and read; read without regard to the link\'s trailer.',
    'link newer crc', WRITE_SEALED, words('read', SEALED), words('read', EXAMPLE), WRITE_EXAMPLE, 'link newer plain', words('read', SEALED), WRITE_SEALED,
    'link older crc', WRITE_SEALED, words('read', SEALED), words('read', '0a' + SEALED[2:]), 'write 1 1 1 7 2 large 0 1000 58 0 0 100 200', 'link newer crc',
    'write 1 1 1 7 2 large 0 1000 58 0 0 100 200', '# P = 25 is 14, 26 and 32 have room for one request, 34 for two; without a trailer 23 is 14, 24 and 31, 32.',
    'new wide 8', *set_list([(0, 1000)], 1000), *(words('nak 1 1 1 7 2 normal', p, 0, 2, 2 * p) for p in (24, 25, 26, 32, 33, 34)),
    *(words('nak 1 1 1 7 2 large', p, 0, 2, 2 * p) for p in (40, 41, 42, 57, 58)), 'link newer plain',
    *(words('nak 1 1 1 7 2 normal', p, 0, 2, 2 * p) for p in (23, 24, 31, 32)), 'link newer crc',
    '# Length fields of 0 to 3 with as many octets behind the header, the trailer right and wrong; the flag set, and taken away.',
    *(words('read', octets.hex()) for stated in ('2a000000010702', '2a00010001070208', '2a00020001070200ff', '2a0003000107020800ff', '2a0003000107020900ff')
      for octets in (resealed(bytes.fromhex(stated)), bytes.fromhex(stated))),
    words('read', '2a' + EXAMPLE[2:]), words('read', '28' + SEALED[2:]), words('read', SEALED[:-4]), words('read', SEALED[:-2]),
    words('read', '2a0019' + SEALED[6:-4]), words('read', SEALED[:-4] + '6502'),
]

TWO_POOL = [scripts.pool(3, ('wide', 0, 3), ('narrow', 2, 3)), scripts.transfer(0, 'metadata'), scripts.transfer(1, 'metadata')]
POOL_EXAMPLES = [
    '# Document 02, C-21: floors 0 and 2 of three slots; the second transfer is not refused below its floor, whatever the first does.',
    *TWO_POOL, 'for 0 data 1 1', 'for 0 data 3 1', 'for 0 show', 'slots 8', 'for 1 data 1 1', 'for 1 data 3 1', 'for 1 data 5 1', 'for 1 show', 'slots 8',
    '# What keeps the number of ranges or lowers it is never refused; a slot that is freed serves any.',
    'for 0 data 2 9', 'for 0 eof 11', 'for 0 data 0 1', 'slots 8', 'for 1 data 5 1', 'for 0 data 3 8', 'for 0 show', 'for 1 show', 'for 0 missing', 'for 1 missing',
    'for 0 held 0 11', 'for 1 held 0 2', 'for 1 held 1 2', 'for 1 map 6', 'for 0 map 11', 'for 1 nak 1 1 1 7 2 normal 32 0 16 512', 'for 1 eof 6', 'for 1 eof 7',
    '# A limit of one, of none; the sum counts the larger of held and floor; the whole of a floor is there for a transfer that waits.',
    scripts.pool(9, ('wide', 0, 1), ('narrow', 0, 0)), 'for 0 data 1 1', 'for 0 data 9 9', 'for 0 metadata', 'for 0 data 3 1', 'for 0 data 0 18', 'for 0 data 20 1',
    'for 1 data 0 1', 'for 1 eof 0', 'for 1 metadata', 'for 0 show', 'for 1 show', scripts.pool(5, ('wide', 3, 4), ('wide', 0, 5)), 'for 0 data 0 4',
    'for 1 metadata',
    'for 1 data 1 1', 'for 1 data 3 1', 'for 1 data 5 1', 'for 0 metadata', 'for 0 data 5 1', 'for 0 data 7 1', 'for 0 data 9 1', 'for 1 data 0 9',
    'for 0 data 9 1', 'slots 12',
    '# 23 first: none, one, eight and nine transfers; a floor above its limit; floors above S, also past 64 bits; one that there is none of.',
    'pool 9', 'for 0 missing', 'for 0 show', *(line for n in (1, 8, 9) for line in (
        scripts.pool(9, *[('wide', 1, 1)] * n), *(f'for {i} {call}' for i in (0, 6, 7, 8, 9) for call in ('missing', 'load 5 known 0 5', 'show', 'metadata')))),
    scripts.pool(9, *[('wide', 1, 1)] * 10), 'for 7 show', *(line for slots, groups in (
        (9, ((0, 9), (3, 2))), (9, ((0, 9), (3, 3))), (4, ((2, 9), (3, 9))), (5, ((2, 9), (3, 9))), (4, ((2**64 - 1, 2**64 - 1), (1, 1))),
        (4, ((2**63, 2**63), (2**63, 2**63))),
        (0, ((0, 0), (0, 9))), (4096, ((4096, 4096), (0, 1))), (4097, ((0, 4096), (0, 1))), (4100, ((0, 1), (0, 1))), (4101, ((0, 1), (0, 1))))
        for line in (scripts.pool(slots, *(('wide', *group) for group in groups)), 'for 0 data 5 1', 'for 1 missing', 'for 2 missing', 'for 0 show')),
    '# 23 before 10 of an odd list; 10 of counts, sums and records, at the one named and at the other; 8 and 12 at the one named.',
    scripts.pool(2, ('wide', 1, 2)), 'lend 3', 'for 0 missing', 'for 1 missing', 'lend 1', 'for 0 missing', 'lend 2', 'for 0 missing', 'lend 8192',
    'for 0 missing', 'lend 8194',
    'for 0 missing', scripts.pool(4, ('wide', 0, 2), ('narrow', 1, 4)), *(line for records in (
        ([(1, 2), (3, 4), (5, 6)], 9, 'known', 'open', [], 9, 'known', 'open'), ([(1, 2), (3, 4)], 9, 'known', 'open', [(1, 2), (3, 4)], 9, 'known', 9),
        ([(1, 2)], 9, 'known', 'open', [(1, 2), (3, 4), (5, 6), (7, 8)], 9, 'known', 'open'), ([], 9, 'known', 'open', [(1, 2), (3, 4), (5, 6), (7, 8)], 9,
                                                                                               'known', 'open'),
        ([(1, 2)], 9, 'known', 8, [], 9, 'known', 9), ([(1, 2)], 9, 'known', 9, [], 9, 'known', 8), ([(1, 9)], 9, 'missing', 'open', [], 0, 'missing', 'open'),
        ([(0, 9)], 9, 'missing', 'open', [], 9, 'missing', 'open'), ([(1, NARROW + 1)], NARROW + 1, 'known', 'open', [(1, 2)], NARROW, 'known', 'open'),
        ([(1, 2)], 9, 'known', 'open', [(1, NARROW)], NARROW, 'known', NARROW), ([(1, 2)], 9, 'known', 'open', [(1, NARROW + 1)], 9, 'known', 'open'),
        ([(1, 2)], 9, 'known', 'open', [], NARROW + 1, 'known', 'open'),
        ([(3, 4), (1, 2)], 9, 'known', 'open', [(1, 10)], 9, 'known', 'open'), ([(1, 10)], 9, 'known', 'open', [(1, 2), (2, 4)], 9, 'known', 'open'))
        for line in (*scripts.set_pool([records[:4], records[4:]]), 'for 0 missing', 'for 1 missing', 'for 0 data 0 0', 'for 1 metadata', 'for 0 eof 9',
                     'slots 10')),
    '# Counts that pass the list: of its numbers are shown those within the first 8,200.',
    'poke 8196 5 6 7 8', 'for 0 load 0 known 4099 open', 'for 1 load 0 known 3 open', 'for 1 show', 'for 0 load 0 known 4100 open', 'for 1 show', 'for 0 missing',
    'for 0 load 0 known 18446744073709551615 open', 'for 1 show', 'for 1 load 0 known 18446744073709551615 open', 'for 1 show', 'for 1 missing',
    scripts.pool(2, ('narrow', 0, 1)), 'for 0 data 5 1', 'for 0 show',
]

ONE_HOLE = ['new wide 8', 'metadata', 'data 0 10', 'data 20 10']
DEFERRED_EXAMPLES = [
    '# Document 02, C-22: d = 3 and limit = 2, so asks at ticks 3 and 6 and the report at tick 9; then deaf to all but a reset.',
    *ONE_HOLE, 'defer 3 2', 'timer', 'tick 5', 'eof 30', 'timer', 'tick 2', 'timer', 'tick 1', 'timer', 'tick 9', 'timer', 'tick 9', 'timer', 'tick 9',
    'data 10 1', 'eof 30',
    'timer', 'missing', 'reset', 'timer', 'tick 3', 'tick 3', 'tick 2', 'timer', 'tick 1', 'data 11 9', 'timer', 'reset', 'timer',
    '# What lowers the missing octets starts it again, a split too, and so does the metadata; data that was kept before and refused events do not.',
    *ONE_HOLE, 'defer 3 2', 'eof 30', 'tick 3', 'tick 1', 'data 0 10', 'timer', 'eof 30', 'timer', 'data 25 9', 'metadata', 'eof 31', 'timer', 'data 14 1',
    'timer', 'tick 3', 'tick 2',
    'data 10 4', 'timer', 'tick 3', 'data 15 5', 'timer', 'tick 3', 'new wide 8', 'defer 3 2', 'data 5 5', 'timer', 'eof 12', 'timer', 'tick 4', 'tick 1',
    'data 0 12', 'timer', 'metadata',
    'timer', 'tick 3', 'tick 1', 'data 0 12', 'timer',
    '# The metadata alone; no octet at all; made after the end of file; another timer, and one that is refused.',
    'new wide 8', 'defer 2 1', 'eof 0', 'timer', 'tick 2', 'metadata', 'timer', 'tick 2', 'new wide 8', 'metadata', 'defer 2 1', 'eof 0', 'timer', *ONE_HOLE,
    'eof 30', 'defer 2 1', 'timer',
    'tick 9', 'eof 31', 'timer', 'eof 30', 'timer', 'tick 1', 'defer 0 1', 'timer', 'defer 7 9', 'timer', 'data 0 1', 'timer', 'defer 5 5', 'reset', 'timer',
    '# Limits of d and limit; the report at tick d x (limit + 1) for the largest of both.',
    *(line for d, limit in ((0, 1), (1, 0), (65536, 1), (1, 256), (1, 1), (65535, 1), (1, 255), (65535, 255), (2, 254)) for line in (
        *ONE_HOLE, words('defer', d, limit), 'eof 30', *(line for ask in range(min(limit, 4)) for line in (words('tick', max(1, d - 1)), 'timer', 'tick 1',
                                                                                                           'timer')))),
    *ONE_HOLE, 'defer 1 255', 'eof 30', *['tick 2'] * 257, 'timer', *ONE_HOLE, 'defer 65535 1', 'eof 30', 'tick 65534', 'tick 1000000', 'tick 65534',
    'tick 1', 'timer',
    '# A reset reads record and list, in every state.',
    *(line for begin in ([], ['eof 30'], ['eof 30', 'tick 2', 'tick 1'], ['eof 30', *['tick 2'] * 3]) for line in (
        *ONE_HOLE, 'defer 2 2', *begin, *scripts.told('data 0 0'), 'lend 3', *scripts.told('reset'), 'lend 16', 'load 30 known 1 31', *scripts.told('reset'),
        'load 30 known 2 30',
        *scripts.told('reset'), 'load 15 known 1 15', *scripts.told('reset'), 'load 30 known 1 open', *scripts.told('reset'), 'load 30 known 1 30',
        *scripts.told('reset'))),
]


def proposed(*told, ident=(1, 1, 1, 7, 2), words_=None, **form):
    """A plan of PDUs given as (start, end, requests), or as octets; words_ is the identity of the line where it is another."""
    pdus = [of if isinstance(of, bytes) else bytes(octets_of(list(ident), form.get('large', False), *of, form.get('edition', 'newer'), form.get('trailer', 'plain')))
            for of in told]
    return scripts.plan(words_ or ident, pdus)


HOLES = [(10, 20), (30, 40)]
A, B, META = HOLES[0], HOLES[1], (0, 0)
BOTH = (0, 50, [A, B])
PLAN_EXAMPLES = [
    '# Document 02, C-23: any order, any cuts, any parts, PDUs that ask for nothing, tight and wide scopes, either flag, with and without a trailer.',
    'new wide 8', *set_list(HOLES, 50, 'known'), proposed(BOTH), proposed((0, 50, [B, A])), proposed((30, 40, [B]), (10, 20, [A])),
    proposed((0, 99, [(35, 40), (10, 12)]), (0, 35, [(12, 20), (30, 35)])), proposed((0, 0, []), BOTH, (7, 9, [])), proposed(BOTH, large=True),
    proposed(BOTH, trailer='crc'),
    proposed((10, 20, [A]), bytes(octets_of([1, 1, 1, 7, 2], True, 30, 40, [B], trailer='crc'))), 'show',
    '# One test after the other, each at the first PDU and at a later one, over all PDUs before the next.',
    proposed(BOTH, b'\x28\x00\x09\x00\x01\x07\x02\x09' + bytes(8)), proposed(b'', BOTH), proposed(BOTH, b''), proposed((9, 4, []), BOTH),
    proposed((0, 50, [META, META])),
    proposed((0, 50, [(5, 5)])), proposed((0, 50, [A, (9, 4)])), proposed(BOTH, trailer='crc')[:-1] + '0', proposed(BOTH, edition='older'),
    proposed(BOTH, words_=(1, 1, 1, 8, 2)), proposed(BOTH, words_=(1, 1, 2, 7, 2)), proposed(BOTH, words_=(1, 1, 1, 7, 1)), proposed(BOTH, words_=(1, 2, 1, 7, 2)),
    proposed(BOTH, words_=(2, 1, 1, 7, 2)), proposed(BOTH, bytes(octets_of([1, 1, 1, 8, 2], False, 0, 0, []))), proposed((10, 40, HOLES)), proposed((11, 40, HOLES)),
    proposed((10, 39, HOLES)), proposed((0, 50, []), (0, 20, [A]), (0, 20, [B])), proposed((0, 50, [A]), (0, 50, [B]), (0, 50, [(19, 20)])),
    proposed((0, 50, [(19, 20)]), (0, 50, [B]), (0, 50, [A])), proposed((0, 50, [A, B, A])), proposed((0, 50, [B]), (0, 50, [(10, 15), (14, 20)])),
    proposed((0, 50, [B]), (0, 50, [(10, 15), (15, 20)])), proposed((0, 50, [A]), (0, 50, [B]), (0, 50, [B]), (0, 50, [A])), proposed(BOTH, (0, 50, [(20, 21)])),
    proposed((0, 50, [(9, 20), B])), proposed((0, 50, [A]), (0, 50, [(30, 41)])), proposed((0, 50, [(10, 40)])), proposed((0, 60, [A, B, (50, 60)])),
    proposed((0, 50, [A])),
    proposed((0, 50, [A]), (0, 50, [(30, 39)])), proposed((0, 50, [(10, 21)]), (0, 50, [])), proposed((0, 50, [A, B, META])),
    proposed(BOTH, (0, 0, [META]), (0, 0, [META])),
    proposed((0, 5, HOLES), bytes(octets_of([1, 1, 1, 8, 2], False, 0, 50, [])), (9, 4, [])), proposed((0, 5, HOLES),
                                                                                                       bytes(octets_of([1, 1, 1, 8, 2], False, 0, 50, []))),
    proposed((0, 50, [A, A]), (0, 5, [B])), proposed((0, 50, [(0, 5)]), (0, 50, [A, A])), proposed((0, 50, [A, B, META]), (0, 50, [(0, 5)])),
    '# Under the older edition; the metadata request once, at any place, not at all, twice; nothing missing; no PDU.',
    'link older plain', proposed(BOTH), proposed(BOTH, edition='older'), proposed(BOTH, edition='older', trailer='crc'),
    proposed(BOTH, edition='older', large=True), 'link newer plain',
    *set_list([(0, 50)], 50), *(proposed(*told) for told in (((0, 50, [META, (0, 50)]),), ((0, 50, [(0, 50), META]),), ((0, 50, [(0, 50)]), (20, 30, [META])),
                                                             ((0, 50, [(0, 50)]),),
                                                           ((0, 50, [META, (0, 50)]), (0, 0, []), (0, 0, [META])), (), ((0, 50, [META]),),
                                                           ((0, 0, [META]), (0, 50, [(0, 50)])))),
    *set_list([], 50, 'known', 50), proposed(), proposed((0, 0, [])), proposed((0, 0, [META])), proposed((0, 50, [A])), *set_list([], 0), proposed(),
    proposed((0, 0, [META])), 'show',
    '# The checks, in their order: 10, 8, 12, 13, 20, 6. 16 and 17 PDUs, lengths one less and one more.',
    *(line for record in ((HOLES, 50, 'known', 51), ([B, A], 50, 'known', 'open'), (HOLES, 39, 'known', 'open'), (HOLES, 50, 'known', 'open')) for line in (
        *set_list(*record), 'plan 0 1 1 7 2 17' + ' 1' * 17, 'plan 1 1 1 7 2 17' + ' 1' * 17, 'plan 1 1 1 7 2 16' + ' 1' * 16, proposed(BOTH))),
    *(words('plan', *ident, 0) for ident in ((0, 1, 0, 7, 0), (9, 1, 1, 7, 2), (1, 0, 1, 0, 2), (1, 9, 1, 7, 2), (1, 1, 256, 7, 2), (1, 1, 1, 256, 2),
                                             (1, 1, 1, 7, 256), (8, 8, 1, 7, 2))),
    *(proposed(*[(0, 0, [])] * n, BOTH) for n in (14, 15, 16, 63)), *(proposed(BOTH).replace(' 32 ', f' {n} ') for n in (31, 33, 0, 65535)), 'plan 1 1 1 7 2 1 32',
    'plan 1 1 1 7 2 2 65535 65535 00', 'plan 1 1 1 7 2 0 00', 'show',
    '# PDUs of 4,096 octets read, longer ones do not.',
    *(line for n in (510, 511) for line in ('new wide 600', *set_list([(2 * s, 2 * s + 1) for s in range(n)], 2 * n, 'known'),
                                            proposed((0, 2 * n, [(2 * s, 2 * s + 1) for s in range(n)])))),
]


def store(rng):
    """Store calls that reach every answer the Rust can give."""
    out = [*STORE_EXAMPLES, '# Document 02, C-16: each part of each range, with one, two and three ranges, both widths.']
    for block in scripts.store_remove_places(rng):
        if int(block[0].split(' ')[2]) <= 4:
            out += block
    out += [*INSERT_EXAMPLES, '# Ranges that meet none, one, two or all of the list\'s, both widths; the order of the checks.']
    for width, capacity, *case in rng.sample([case for case in scripts.insert_places() if case[1] <= 4], 400):
        out += [words('new', width, capacity), *scripts.inserted(*case)]
    for width, capacity, *case in rng.sample(list(scripts.insert_checks()), 200):
        out += [words('new', width, capacity), *scripts.insert_check(*case)]
    removes = [(w, room, bits, a, b) for w in WIDTHS for room in (0, 1) for bits in range(64)
               for a, b in itertools.product(range(8), repeat=2) if a <= b or a == b + 1]
    for width, room, bits, a, b in rng.sample(removes, 380):
        pairs = spans(bits)
        out += [words('new', width, len(pairs) + room), *set_list(pairs), words('remove', a, b), 'show']
    pool = list(itertools.product(range(5), repeat=2))
    for _ in range(150):
        pairs = [rng.choice(pool) for _ in range(rng.randint(1, 5))]
        out += [words('new', rng.choice(WIDTHS), 5), *set_list(pairs), 'coalesce', 'show']
    for _ in range(80):
        pairs = [rng.choice(pool) for _ in range(rng.randint(0, 3))]
        (a, b), (c, d) = rng.choice(pool), rng.choice(pool)
        out += [words('new', rng.choice(WIDTHS), len(pairs) + rng.choice((0, 1))), *set_list(pairs),
                words('within', a, b), words('add', a, b), words('add', c, d), 'show']
    octets = list(scripts.store_octets_small(rng))
    for block in rng.sample(octets, 50):
        out += block
    for generator, blocks in ((scripts.store_edges, 5), (scripts.store_history, 2)):
        for block in itertools.islice(scripts.blocks(generator, 'sample'), blocks):
            out += block
    wanted = [(100, 300), (100, 300), (900, 1100)]
    for block in scripts.blocks(scripts.store_lists, 'sample'):
        count = next(int(line.split()[3]) for line in block if line.startswith('load '))
        if wanted and wanted[0][0] <= count <= wanted[0][1] and sum(map(len, block)) < 40_000 and 'coalesce' in block:
            out += block
            wanted.pop(0)
        if not wanted:
            return out


def short(generator, blocks, most):
    """Lines of some blocks that are not too long, each block whole otherwise."""
    return [line for block in itertools.islice(scripts.blocks(generator, 'sample'), blocks)
            for line in block if len(line) <= most]


def metadata_anywhere(rng):
    """Document 02, C-12: the metadata request at each place, twice, and with other empty and reversed requests around it."""
    meta, good, empty, turned = (0, 0), (100, 200), (5, 5), (200, 100)
    out = ['# Document 02, C-12: (0, 0) last, in the middle, first, alone; a second one, next to it and apart, is 2.']
    lists = [[good, meta], [good, meta, (300, 400)], [meta, good], [meta], [meta, meta], [good, meta, meta], [meta, good, meta],
             [good, meta, (300, 400), meta], [meta] * 3]
    out += [line for requests, flag in itertools.product(lists, FLAGS)
            for line in written_and_read([1, 1, 1, 7, 2], flag, 0, 1000, requests)]
    out.append('# (5, 5) is 2 wherever it stands, a reversed request 3; each in its turn among the requests.')
    lists = [[empty, meta], [meta, empty], [empty, meta, good], [good, meta, empty], [turned, meta], [meta, turned], [turned, meta, meta],
             [meta, turned, meta], [meta, meta, turned], [empty, turned, meta], [turned, empty, meta], [meta, empty, turned], [meta, turned, empty]]
    out += [line for requests, flag in itertools.product(lists, FLAGS)
            for line in written_and_read([1, 1, 1, 7, 2], flag, 0, 1000, requests)]
    out.append('# Every order of up to three, and longer ones; a second (0, 0) before 7, 14 and 6, in the longest PDUs and longer ones too.')
    orders, checks = [list(scripts.blocks(of, 'sample')) for of in (scripts.pdus_metadata, scripts.pdus_metadata_checks)]
    three, four = sum(4**n for n in range(4)), sum(4**n for n in range(5))
    for block in orders[:three] + checks + rng.sample(orders[four:], 30):
        out += block[1:]
    return out


def codec(rng):
    """PDUs written and read: the example, the metadata request at any place, every identifier length, damaged copies, the limits."""
    out = ['# Document 01\'s example packet, then the same with every bit turned in its turn.',
           'write 1 1 1 7 2 normal 0 1000 32 0 0 100 200', words('read', EXAMPLE)]
    for bit in range(8 * len(EXAMPLE) // 2):
        damaged = bytearray.fromhex(EXAMPLE)
        damaged[bit // 8] ^= 0x80 >> bit % 8
        out.append(words('read', damaged.hex()))
    out.append('# Every shorter part of it, and one octet more.')
    out += [words('read', EXAMPLE[:2 * n]).strip() for n in range(len(EXAMPLE) // 2)] + [words('read', EXAMPLE + '00')]
    out += metadata_anywhere(rng)
    out.append('# Every identifier length, both flags.')
    for i, q, flag in itertools.product(range(1, 9), range(1, 9), FLAGS):
        ident = [i, q, *[rng.choice((0, 256**n - 1, rng.randrange(256**n), rng.randrange(256**n))) for n in (i, q, i)]]
        large = flag == 'large'
        top = 2**64 - 1 if large else NARROW
        requests = rng.choice(([], [(0, 0)], [(0, 0), (100, 200)], [(100, 200), (0, 0)], [(5, top)], [(0, 1), (top - 1, top)]))
        packet = octets_of(ident, large, 3, top, requests)
        flat = [n for pair in requests for n in pair]
        out += [words('write', *ident, flag, 3, top, len(packet), *flat), words('read', packet.hex())]
    out.append('# Identifiers of 0 octets and of 9, with numbers that fit them; numbers one too large.')
    out += [words('write', *ident, 'normal', 0, 9, length) for *ident, length in (
        (0, 1, 0, 7, 0, 14), (1, 0, 1, 0, 2, 15), (0, 0, 0, 0, 0, 13), (9, 1, 1, 7, 2, 32), (1, 9, 1, 7, 2, 24), (1, 1, 256, 7, 2, 16),
        (1, 1, 1, 256, 2, 16), (1, 1, 1, 7, 256, 16), (1, 1, 255, 255, 255, 16))]
    out.append('# Faults of writing and reading, and damaged copies.')
    out += short(scripts.pdus_written, 10, 400) + short(scripts.pdus_read, 16, 400)
    out.append('# Packets of 4,095, 4,096 and 4,097 octets, and more than 4,096 pairs.')
    ident = [1, 1, 1, 7, 2]
    for q, n in ((8, 509), (1, 510), (2, 510)):
        ident[1], requests = q, [(2 * s, 2 * s + 1) for s in range(n)]
        packet = octets_of(ident, False, 0, 9999, requests)
        out += [words('write', *ident, 'normal', 0, 9999, len(packet), *[n for p in requests for n in p]),
                words('read', packet.hex())]
    out += [words('write', *ident, 'normal', 0, 9999, 16, *[1, 2] * n) for n in (4096, 4097)]
    return out


def link(rng):
    """The two editions of a link: each packet of one is 15 under the other."""
    out = [*LINK_EXAMPLES, '# Each first octet under both editions.']
    for edition in EDITIONS:
        out += [set_link(edition), *(words('read', scripts.fields_of_both(first).hex()) for first in range(256))]
    out.append('# The older example with every bit of its header turned in its turn, and every shorter part of it.')
    out.append(set_link('older'))
    for bit in range(8 * 8):
        damaged = bytearray.fromhex(OLDER)
        damaged[bit // 8] ^= 0x80 >> bit % 8
        out.append(words('read', damaged.hex()))
    out += [words('read', OLDER[:2 * n]).strip() for n in range(len(OLDER) // 2)]
    out.append('# Every identifier length, written and read under the older edition, and read under the newer one.')
    packets = []
    for i, q in itertools.product(range(1, 9), repeat=2):
        ident = [i, q, *[rng.choice((0, 256**n - 1, rng.randrange(256**n), rng.randrange(256**n))) for n in (i, q, i)]]
        requests = rng.choice(([], [(0, 0)], [(0, 0), (100, 200)], [(100, 200), (0, 0)], [(5, NARROW)]))
        packets += written_and_read(ident, 'normal', 3, NARROW, requests, edition='older')
    out += [*packets, set_link('newer'), *packets[1::2]]
    out.append('# The same lines under both editions, with the faults of writing, reading and the sequence alone and together.')
    for generator, blocks in ((scripts.link_writes, 10), (scripts.link_reads, 24), (scripts.link_sequences, 14)):
        for block in itertools.islice(scripts.blocks(generator, 'sample'), blocks):
            # Of the long packets those that one edition refuses for their length, with identifiers of one octet.
            out += [line for line in block if len(line) <= 2400 or line[5:7] in ('28', '29', '08', '2a', '2b', '0a') and line[11:13] == '00']
    out.append('# What leaves the link as it was, and lines that are no link; histories.')
    for block in rng.sample(list(scripts.link_kept(rng)), 60):
        out += block
    for block in scripts.link_words(rng):
        out += block
    return out + short(scripts.link_history, 8, 400)


def trailer(rng):
    """PDUs with a trailer."""
    out = [*TRAILER_EXAMPLES, '# That packet with every bit turned in its turn, and cut at every length.']
    for bit in range(8 * len(SEALED) // 2):
        damaged = bytearray.fromhex(SEALED)
        damaged[bit // 8] ^= 0x80 >> bit % 8
        out.append(words('read', damaged.hex()))
    out += [words('read', SEALED[:2 * n]).strip() for n in range(len(SEALED) // 2)] + [words('read', SEALED + '00'), 'link newer plain']
    out.append('# Every identifier length, both flags and the older edition.')
    for i, q, (edition, flag) in itertools.product(range(1, 9), range(1, 9), FORMS):
        ident = [i, q, *[rng.choice((0, 256**n - 1, rng.randrange(256**n), rng.randrange(256**n))) for n in (i, q, i)]]
        top = 2**64 - 1 if flag == 'large' else NARROW
        requests = rng.choice(([], [(0, 0)], [(0, 0), (100, 200)], [(100, 200), (0, 0)], [(5, top)], [(0, 1), (top - 1, top)]))
        out += [set_link(edition, 'crc'), *written_and_read(ident, flag, 3, top, requests, edition=edition, trailer='crc')]
    out.append('# Trailers wrong in many ways; each other fault with a right trailer and a wrong one; the flag set and taken away.')
    for generator in (scripts.crc_trailers, scripts.crc_flags):
        for block in list(scripts.blocks(generator, 'sample'))[::2]:
            out += block
    checks = list(scripts.blocks(scripts.crc_checks, 'sample'))
    for block in checks[:3]:
        out += block
    out.append('# Both totals around 4,096 octets, buffers around them, and each P around room for one request and for two.')
    for ident, (edition, flag) in itertools.product(([1, 7, 1, 7, 2], [2, 7, 1, 7, 2], [1, 8, 1, 7, 2]), FORMS):
        fixed, per = 5 + 2 * ident[0] + ident[1], 16 if flag == 'large' else 8
        n = (4096 - fixed) // per - 1
        requests = [(2 * s, 2 * s + 1) for s in range(n)]
        out += [set_link(edition, 'crc'), *written_and_read(ident, flag, 0, 9999, requests, edition=edition, trailer='crc')]
    out.append(set_link('newer'))
    for block in list(scripts.blocks(scripts.crc_writes, 'sample'))[3:6]:
        out += [line for line in block if len(line) < 400]
    for block in list(scripts.blocks(scripts.crc_sequences, 'sample'))[:18]:
        out += block
    return out


def reception(rng):
    out = RECEPTION_EXAMPLES + EOF_EXAMPLES
    small = list(scripts.blocks(scripts.events_small, 'sample'))
    for block in rng.sample(small, 10) + list(scripts.records_edges(rng))[::3]:
        out += block
    for generator, blocks in ((scripts.events_history, 8), (scripts.records_broken, 14)):
        out += short(generator, blocks, 400)
    out.append('# Each place of a size, known and waiting, full and with room, both widths.')
    for block in list(scripts.eof_places(rng))[:24]:
        out += block
    out.append('# The end of file and data behind it: the order of the checks, slots, small records, histories.')
    for width, *case in rng.sample(list(itertools.product(WIDTHS, scripts.eof_records(), scripts.EOF_EVENTS)), 300):
        out += [words('new', width, 0), *scripts.eof_check(*case)]
    for block in rng.sample(list(scripts.eof_slots(rng)), 60):
        out += block
    for generator, blocks in ((scripts.eof_small, 5), (scripts.eof_data_small, 5), (scripts.eof_history, 5)):
        out += short(generator, blocks, 400)
    return out


def held(rng):
    """What was kept, how much is missing, and maps."""
    out = [*HELD_EXAMPLES, '# Each way in which a range can meet a list and progress, both widths, near 0, 2^32 and 2^64, known and waiting.']
    for width, pairs, progress, mark, size in rng.sample(list(scripts.held_records()), 60):
        asked = scripts.meets(pairs, progress)
        out += [words('new', width, len(pairs)), *set_list(pairs, progress, mark, size), 'show',
                *(words('held', *of) for of in rng.sample(asked, min(25, len(asked)))), 'missing', 'map 7', 'map 200', 'show']
    out.append('# Small records with every range and map; the order of the checks; maps with holes at the bounds between cells; histories.')
    for block in itertools.islice(scripts.blocks(scripts.held_small, 'sample'), 10):
        out += block
    for block in itertools.islice(scripts.blocks(scripts.held_checks, 'sample'), 60):
        out += block
    for generator, blocks in ((scripts.map_places, 16), (scripts.held_history, 4)):
        out += short(generator, blocks, 400)
    return out + next(block for block in scripts.held_wide_lists(rng) if len(block[1].split(' ')) < 300)


def sequence(rng):
    out = list(SEQUENCE_EXAMPLES)
    for block in itertools.islice(scripts.blocks(scripts.sequences_any, 'sample'), 8):
        out += block
    size = 0
    for block in scripts.blocks(scripts.sequences_runs, 'sample'):
        if sum(map(len, block)) < 4_000:
            out += block
            size += sum(len(a) for _, answer in model.answers(scripts.text(block)) for a in answer)
        if size > 90_000:
            return out


def pool(rng):
    """Several transfers over one list."""
    out = [*POOL_EXAMPLES, '# Small pools in which every event is tried; the order of the checks; settings and counts that no pool has.']
    for generator, blocks in ((scripts.pool_small, 40), (scripts.pool_checks, 120), (scripts.pool_settings, 60)):
        out += short(generator, blocks, 400)
    out += [line for line in short(scripts.pool_counts, 8, 400) if not line.endswith(' show')]
    out.append('# Pools that are filled to the last slot; slots with other numbers; two sounders; links; words; histories.')
    for generator, blocks in ((scripts.pool_full, 12), (scripts.pool_slots, 60), (scripts.pool_sounders, 8), (scripts.pool_links, 2), (scripts.pool_words, 400),
                              (scripts.pool_history, 8)):
        out += [line for line in short(generator, blocks, 400) if line != 'slots 8200']
    return [*out, set_link('newer'), 'new wide 4']


def deferred(rng):
    """The deferred NAK: events, ticks and resets."""
    out = [*DEFERRED_EXAMPLES, '# Each state, each event and a reset on records of every kind; ticks around the expiries; timers made late; words; histories.']
    for generator, blocks in ((scripts.timer_states, 200), (scripts.timer_ticks, 20), (scripts.timer_resets, 60), (scripts.timer_late, 60),
                              (scripts.timer_words, 400),
                              (scripts.timer_history, 12)):
        out += short(generator, blocks, 400)
    return [*out, 'new wide 4']


def plans(rng):
    """PDUs that a planner proposes."""
    out = [*PLAN_EXAMPLES, '# Plans that fit, with one fault and with two; small records; the order of the checks; our own sequences; words.']
    for generator, blocks, most in ((scripts.plan_fits, 12, 500), (scripts.plan_damaged, 16, 600), (scripts.plan_orders, 60, 800),
                                    (scripts.plan_small, 40, 400), (scripts.plan_checks, 300, 800),
                                    (scripts.plan_own, 10, 900), (scripts.plan_words, 99, 400)):
        out += short(generator, blocks, most)
    return [*out, set_link('newer'), 'new wide 4']


def console(rng):
    """Lines that are no command, and store calls that the port alone refuses."""
    nonsense = scripts.blocks(scripts.nonsense, 'sample')
    out = [''] + next(nonsense)
    out += [line for line in next(nonsense) if not line.startswith('read ')]
    for block in itertools.islice(nonsense, 12):
        out += block
    out.append('# Refusals 8 and 10 of the store, and slots past the count.')
    for block in itertools.islice(scripts.blocks(scripts.store_broken, 'sample'), 20):
        out += [line for line in block if line != 'show']
    out.append('# Lists that are coalesced and lists that are not, known and waiting.')
    for block in rng.sample(list(scripts.records_small(rng)), 60):
        out += block
    out += ['# insert: 8 before 1, where the list is full and nothing joins; 4 before 8 and 1.',
            *on('narrow', 2, [(30, 40), (10, 20)], 'insert 50 60', 'insert 0 1', 'insert 22 28', 'insert 20 30',
                words('insert', 50, NARROW + 1)),
            '# insert: 8 and 10 behind and before the other checks; slots given up and slots past both counts.']
    for width, capacity, *case in rng.sample(list(scripts.insert_checks()), 200):
        out += [words('new', width, capacity), *scripts.insert_check(*case)]
    for block in rng.sample(list(scripts.store_insert_slots(rng)), 120):
        out += block
    return out


REACHED = {
    'store': {**scripts.RUST_REACH, **{name: scripts.REACH[name] - {8, 10} for name in ('insert', 'remove')}},
    'codec': {name: scripts.REACH[name] - scripts.LINKED_KINDS[name] - scripts.CRC_KINDS[name] for name in ('write', 'read')},
    'link': scripts.LINKED_KINDS,
    'trailer': {**scripts.CRC_KINDS, 'read': scripts.CRC_KINDS['read'] | {21}},
    'reception': {**{name: scripts.REACH[name] - scripts.STARTED[name] for name in ('data', 'metadata', 'eof')}, 'nak': scripts.UNEQUAL},
    'held': {name: scripts.REACH[name] for name in ('held', 'missing', 'map')},
    'sequence': {'nak': scripts.REACH['nak'] - scripts.UNEQUAL - scripts.LINKED_KINDS['nak'] - scripts.CRC_KINDS['nak'] - {8, 10, 12}},
    'console': {**{name: {10} for name in ('add', 'coalesce', 'within', 'octets')}, 'insert': {8, 10}, 'remove': {8, 10},
                'nak': {8, 10, 12}, 'data': {8, 10, 12}, 'metadata': {8, 10, 12, 19}, 'eof': {8, 10, 12}},
    'pool': scripts.POOLED,
    'deferred': {**scripts.STARTED, **scripts.TIMED},
    'plans': {'plan': scripts.REACH['plan']},
}


def judged_by(rust, run, lines):
    """The lines that the Rust judges, and its answers; None if the model says something else."""
    expected = dict(model.answers(scripts.text(lines)))
    said = dict(zip(expected, run(rust, scripts.text(lines))))
    lines = [line for at, line in enumerate(lines, 1) if said.get(at) != 'outside']
    answers = run(rust, scripts.text(lines))
    if 'outside' in answers or answers != in_the_rusts_words(flat(model.answers(scripts.text(lines)))):
        return lines, None
    return lines, answers


def flat(answers):
    return [a for _, answer in answers for a in answer]


def in_the_rusts_words(answers):
    return [scripts.as_the_rust(answer) for answer in answers]


def unreached(name, lines):
    met = set(scripts.met(lines, model.answers(scripts.text(lines))))
    return sorted(f'{call} {what}' for call, all_ in REACHED[name].items() for what in all_ if (call, what) not in met)


def put(path, text):
    before = open(path, 'rb').read() if os.path.exists(path) else None
    os.makedirs(os.path.dirname(path), exist_ok=True)
    with open(path, 'wb') as file:
        file.write(text)
    state = 'as it was' if before == text else 'changed' if before is not None else 'new'
    print(f'{os.path.relpath(path)}: {text.count(bytes([10]))} lines, {len(text)} octets, {state}')


def make(rust, run):
    """Writes the sample; says of each file whether it is as it was. False if something is amiss."""
    amiss, script = [], []
    # The console as it starts comes first; its last line goes without a newline.
    for maker in (console, store, codec, link, trailer, reception, held, sequence, pool, deferred, plans):
        name = maker.__name__
        lines = maker(random.Random(f'sample {name}'))
        if maker is store:
            lines, from_rust = judged_by(rust, run, lines)
            if from_rust is None:
                amiss.append('store: the Rust and the model part')
        if maker is codec and flat(model.answers(scripts.text(lines)))[:2] != [
                f'pdu {EXAMPLE}', 'nak 1 1 1 7 2 normal plain 0 1000 0 0 100 200']:
            amiss.append('codec: not the octets of document 01')
        if maker is link and flat(model.answers(scripts.text(lines)))[:6] != [
                'ok', f'pdu {EXAMPLE}', 'ok', f'pdu {OLDER}', 'nak 1 1 1 7 2 normal plain 0 1000 0 0 100 200', 'refused 15']:
            amiss.append('link: not the octets of document 01 and of the older edition')
        if maker is trailer and flat(model.answers(scripts.text(lines)))[:3] != [
                'ok', f'pdu {SEALED}', 'nak 1 1 1 7 2 normal crc 0 1000 0 0 100 200']:
            amiss.append('trailer: not the octets of document 02\'s example')
        amiss += [f'{name} does not reach: {what}' for what in unreached(name, lines)]
        script += [f'# Part {name}.', *lines]
    script = scripts.text(script + ['# The last line has no newline.', 'show'])[:-1]
    answers = flat(model.answers(script))
    told = in_the_rusts_words(answers)
    if from_rust is not None and not any(told[at:at + len(from_rust)] == from_rust for at in range(len(told))):
        amiss.append('store: the answers are not those that the Rust gives')
    put(SCRIPT, script)
    put(ANSWERS, scripts.text(answers))
    for what in amiss:
        print(what)
    return not amiss
