#!/usr/bin/env python3
"""A model of the console, written from document 01, document 02's C-11, C-12, C-14, C-16, C-19 to C-24 and the console's language
alone.

    model.py [SCRIPT]      answers the script (or standard input) as the program must
    model.py --self-test   holds the interval algebra and histories of events against plain sets of offsets, a PDU's requests
                           against words of letters, the two editions against each other, and the CRC of a trailer against its
                           published check value, against division of whole numbers, and against every single bit turned over;
                           of a pool, every transfer against its own set of offsets and the sum over all; of the deferred NAK, the
                           ticks since it was started last; of a plan, its offsets one by one, and our own sequences as plans

Numbers are Python's, lists are lists of pairs; nothing here follows the Rust or the port.
"""
import itertools
import re
import sys

TOP = 2**64 - 1
NARROW = 2**32 - 1
MEMORY = 8200
BUFFER = 66000
LINE = 65535


class Refused(Exception):
    """A refusal of document 01's table, or one that document 02 adds: its number and what it also carries."""

    def __init__(self, number, *carried):
        self.words = [number, *carried]


class Malformed(Exception):
    """A line that is no command."""


# Sets of offsets, as lists of pairs.

def runs(pairs):
    """The maximal runs of the union of the nonempty pairs, ascending; runs that touch are one.

    Counts at each edge how many ranges open less how many close there: a run goes on while
    any range is open."""
    edges = {}
    for s, e in pairs:
        if s < e:
            edges[s] = edges.get(s, 0) + 1
            edges[e] = edges.get(e, 0) - 1
    out, start, depth = [], None, 0
    for at in sorted(edges):
        before, depth = depth, depth + edges[at]
        if before == 0:
            start = at
        if depth == 0:
            out.append((start, at))
    return out


def minus(pairs, a, b):
    """The pairs without the offsets from a up to b, each pair cut by itself."""
    out = []
    for s, e in pairs:
        left, right = (s, min(e, a)), (max(s, b), e)
        out += [part for part in (left, right) if part[0] < part[1]]
    return out


def shares(s, e, a, b):
    """Have (s, e) and (a, b) an offset in common?"""
    return max(s, a) < min(e, b)


def leaving(s, e, a, b):
    """Which part of (s, e) leaves with (a, b), which lies inside it: named by what leaves, not by what stays."""
    stays_before, stays_behind = s < a, b < e
    if stays_before and stays_behind:
        return 'split'
    if stays_behind:
        return 'left'
    return 'right' if stays_before else 'whole'


def noticed(progress):
    """The list of a waiting record: nothing below progress is kept."""
    return [(0, progress)] if progress else []


def is_coalesced(pairs):
    return (all(s < e for s, e in pairs)
            and all(pairs[i][1] < pairs[i + 1][0] for i in range(len(pairs) - 1)))


# The NAK PDU.

def field(large):
    return 8 if large else 4


def crc(octets):
    """The remainder of these octets by x^16 + x^12 + x^5 + 1, preset to ones: bit after bit, the highest of each octet first."""
    remainder = 0xffff
    for octet in octets:
        for place in range(7, -1, -1):
            leaving = remainder >> 15 ^ octet >> place & 1
            remainder = remainder << 1 & 0xffff
            if leaving:
                remainder ^= 0x1021
    return remainder


def trailer(flagged):
    """How many octets it has."""
    return 2 if flagged else 0


def check_identity(identity):
    i, q, source, number, destination = identity
    for length in (i, q):
        if not 1 <= length <= 8:
            raise Refused(13)
    for value, length in ((source, i), (number, q), (destination, i)):
        if value >= 256**length:
            raise Refused(13)


def check_flag(older, large):
    """In the older edition the bit of the large file flag is reserved."""
    if older and large:
        raise Refused(15)


def check_requests(requests):
    """Each request in its turn. Of those that are empty the first (0, 0) is fine, wherever it stands."""
    metadata = [place for place, request in enumerate(requests) if request == (0, 0)]
    for place, (s, e) in enumerate(requests):
        if s > e:
            raise Refused(3, s, e)
        if s == e and place not in metadata[:1]:
            raise Refused(2)


def header_length(i, q):
    return 4 + 2 * i + q


def version(older):
    return '000' if older else '001'


def packet(identity, older, large, flagged, start, end, requests):
    """The octets of one PDU. The length field counts the trailer."""
    i, q, source, number, destination = identity
    f = field(large)
    data = bytes([8]) + b''.join(n.to_bytes(f, 'big') for pair in [(start, end), *requests] for n in pair)
    octet0 = int(version(older) + '0' + '1' + '0' + '01'[flagged] + '01'[large], 2)
    octet3 = int('0' + f'{i - 1:03b}' + '0' + f'{q - 1:03b}', 2)
    stated = len(data) + trailer(flagged)
    octets = (bytes([octet0]) + stated.to_bytes(2, 'big') + bytes([octet3])
              + source.to_bytes(i, 'big') + number.to_bytes(q, 'big') + destination.to_bytes(i, 'big') + data)
    return octets + (crc(octets).to_bytes(2, 'big') if flagged else b'')


def write(identity, older, large, flagged, start, end, length, flat):
    """One PDU into a buffer of that length, its requests a flat list."""
    if len(flat) % 2 or len(flat) > 2 * 4096:
        raise Refused(10)
    requests = list(zip(flat[::2], flat[1::2]))
    check_identity(identity)
    check_flag(older, large)
    if start > end:
        raise Refused(18)
    check_requests(requests)
    if not large and max([start, end, *flat]) > NARROW:
        raise Refused(7)
    total = header_length(*identity[:2]) + 1 + 2 * field(large) * (1 + len(requests)) + trailer(flagged)
    if total > 4096:
        raise Refused(14)
    if length != total:
        raise Refused(6, total, length)
    return packet(identity, older, large, flagged, start, end, requests)


def read(octets, older):
    """What a packet of that edition says: identity, large, flagged, start, end, requests."""
    if len(octets) < 4:
        raise Refused(16)
    first, third = f'{octets[0]:08b}', f'{octets[3]:08b}'
    if first[:6] != version(older) + '0' + '1' + '0' or third[0] != '0' or third[4] != '0':
        raise Refused(15)
    if older and first[7] != '0':
        raise Refused(15)
    flagged, large = first[6] == '1', first[7] == '1'
    i, q = int(third[1:4], 2) + 1, int(third[5:], 2) + 1
    head, body = octets[:header_length(i, q)], octets[header_length(i, q):]
    stated = int.from_bytes(octets[1:3], 'big')
    if len(octets) != header_length(i, q) + stated or stated < 1 + trailer(flagged):
        raise Refused(16)
    if flagged:
        if octets[-2:] != crc(octets[:-2]).to_bytes(2, 'big'):
            raise Refused(21)
        body = body[:-2]
    if body[0] != 8:
        raise Refused(17)
    f = field(large)
    if len(body) < 1 + 2 * f or (len(body) - 1) % (2 * f):
        raise Refused(16)
    numbers = [int.from_bytes(body[at:at + f], 'big') for at in range(1, len(body), f)]
    start, end, flat = numbers[0], numbers[1], numbers[2:]
    requests = list(zip(flat[::2], flat[1::2]))
    if start > end:
        raise Refused(18)
    check_requests(requests)
    if len(octets) > 4096:
        raise Refused(14)
    source, number, destination = head[4:4 + i], head[4 + i:4 + i + q], head[4 + i + q:]
    identity = [i, q] + [int.from_bytes(part, 'big') for part in (source, number, destination)]
    return identity, large, flagged, start, end, requests


# A plan: PDUs that another proposes for a record.

def cut(octets, lengths):
    """Checks 20 and 6; the PDUs, which stand back to back."""
    if len(lengths) > 16:
        raise Refused(20)
    if sum(lengths) != len(octets):
        raise Refused(6, sum(lengths), len(octets))
    return [octets[sum(lengths[:at]):sum(lengths[:at + 1])] for at in range(len(lengths))]


def readable(octets, older):
    try:
        return read(octets, older)
    except Refused:
        return None


def first(faults):
    """The first PDU at fault; None where there is none."""
    return next((at for at, fault in enumerate(faults) if fault), None)


def asks_twice(asked):
    """Is some offset asked for twice? Then the requests together have more offsets than their union."""
    return sum(e - s for s, e in asked) != sum(e - s for s, e in runs(asked))


def unfit(pdus, identity, older, pairs, missing):
    """The first test that these PDUs fail and the PDU at fault, counted from 0; the number of PDUs where something is not asked for. None
    where they fit a record with this list. Each test is over all PDUs before the next."""
    said = [readable(pdu, older) for pdu in pdus]
    if None in said:
        return 1, said.index(None)
    whole, metadata = [requests for *_, requests in said], (0, 0)
    asked = [[request for request in requests if request != metadata] for requests in whole]
    so_far = [[request for requests in asked[:at + 1] for request in requests] for at in range(len(pdus))]
    unwanted = [at for at, requests in enumerate(whole) if metadata in requests][missing:]
    tests = [(2, [who != identity for who, *_ in said]),
             (3, [any(s < start or end < e for s, e in requests) for (_, _, _, start, end, _), requests in zip(said, asked)]),
             (4, [asks_twice(requests) for requests in so_far]),
             (5, [runs(pairs + requests) != pairs for requests in asked] + [runs(sum(asked, [])) != pairs]),
             (6, [at in unwanted for at in range(len(pdus))] + [missing and not any(metadata in requests for requests in whole)])]
    return next(((test, first(faults)) for test, faults in tests if any(faults)), None)


# Words of a line.

IS_NUMBER = re.compile('[0-9]{1,20}').fullmatch
IS_OCTETS = re.compile('([0-9a-f]{2})*').fullmatch


def number(word, most=TOP):
    if not IS_NUMBER(word) or int(word) > most:
        raise Malformed
    return int(word)


def choice(word, no, yes):
    if word not in (no, yes):
        raise Malformed
    return word == yes


class Reception:
    """A record with its list, the calls on them, and the link that its PDUs are for."""

    def __init__(self):
        self.begin(False, 4096)
        self.older = self.crc = False  # the link's edition, and whether it has the trailer; no `new` changes them

    def begin(self, narrow, ranges):
        self.memory = [0] * MEMORY
        self.length, self.count, self.narrow = 2 * ranges, 0, narrow
        self.progress, self.missing = 0, True
        self.size = None  # not known

    # What every call checks first, and what an accepted change leaves.

    def pairs(self):
        """Check 10 of the store's calls; the counted pairs."""
        if self.length % 2 or self.length > 2 * 4096 or self.count > self.length // 2:
            raise Refused(10)
        flat = self.memory[:2 * self.count]
        if self.narrow and flat and max(flat) > NARROW:
            raise Refused(10)
        return list(zip(flat[::2], flat[1::2]))

    def whole(self):
        """Check 10 of a record; the counted pairs."""
        pairs = self.pairs()
        if self.narrow and self.progress > NARROW:
            raise Refused(10)
        if self.missing and pairs != noticed(self.progress):
            raise Refused(10)
        if self.size is not None and self.progress != self.size:
            raise Refused(10)
        return pairs

    def record(self):
        """Checks 10, 8 and 12 of the events and the sequence; the counted pairs."""
        pairs = self.whole()
        if not is_coalesced(pairs):
            raise Refused(8)
        if pairs and pairs[-1][1] > self.progress:
            raise Refused(12)
        return pairs

    def capacity(self):
        return self.length // 2

    def put(self, pairs):
        """The list becomes these pairs; slots that the list gives up hold 0."""
        before, self.count = self.count, len(pairs)
        flat = [n for pair in pairs for n in pair]
        self.memory[:len(flat)] = flat
        for at in range(2 * self.count, 2 * before):
            self.memory[at] = 0

    # The calls.

    def new_range(self, s, e):
        """Checks 2, 3 and 4 of add and insert."""
        if s == e:
            raise Refused(2)
        if s > e:
            raise Refused(3, s, e)
        if self.narrow and max(s, e) > NARROW:
            raise Refused(4)

    def add(self, s, e):
        pairs = self.pairs()
        self.new_range(s, e)
        if self.count == self.capacity():
            raise Refused(1)
        self.put(pairs + [(s, e)])
        return f'added {self.count}'

    def insert(self, s, e):
        """What coalesce would leave after an append with room; 1 is judged on that alone."""
        pairs = self.pairs()
        self.new_range(s, e)
        if not is_coalesced(pairs):
            raise Refused(8)
        left = runs(pairs + [(s, e)])
        if len(left) > self.capacity():
            raise Refused(1)
        self.put(left)
        return f'inserted {self.count}'

    def remove(self, a, b):
        pairs = self.pairs()
        if self.narrow and max(a, b) > NARROW:
            raise Refused(4)
        if a == b:
            raise Refused(2)
        if a > b:
            raise Refused(3, a, b)
        if not is_coalesced(pairs):
            raise Refused(8)
        if not any(shares(s, e, a, b) for s, e in pairs):
            return f'removed none {self.count}'
        inside = [index for index, (s, e) in enumerate(pairs) if s <= a and b <= e]
        if not inside:
            raise Refused(5, a, b)
        left = minus(pairs, a, b)
        if len(left) > self.capacity():
            raise Refused(1)
        self.put(left)
        return f'removed {leaving(*pairs[inside[0]], a, b)} {inside[0]} {self.count}'

    def coalesce(self):
        self.put(runs(self.pairs()))
        return f'coalesced {self.count}'

    def within(self, a, b):
        return 'yes' if any(s <= a and b <= e for s, e in self.pairs()) else 'no'

    def octets(self, large, length):
        pairs, f = self.pairs(), field(large)
        if length != len(pairs) * 2 * f:
            raise Refused(6, len(pairs) * 2 * f, length)
        flat = [n for pair in pairs for n in pair]
        if not large and flat and max(flat) > NARROW:
            raise Refused(7)
        return 'octets ' + b''.join(n.to_bytes(f, 'big') for n in flat).hex()

    def data(self, offset, length):
        pairs = self.record()
        end = offset + length
        if length == 0:
            raise Refused(2)
        if end > TOP:
            raise Refused(9)
        if self.narrow and end > NARROW:
            raise Refused(4)
        if self.size is not None and end > self.size:
            raise Refused(22)
        progress = max(self.progress, end)
        if self.missing:
            left = noticed(progress)
        else:
            left = runs(minus(pairs, offset, end) + [(self.progress, offset)])
        if len(left) > self.capacity():
            raise Refused(1)
        self.put(left)
        self.progress = progress
        return f'{"noticed" if self.missing else "kept"} {self.count} {self.progress}'

    def eof(self, size):
        """The end of file: all from progress up to the size is missing too."""
        pairs = self.record()
        if self.narrow and size > NARROW:
            raise Refused(4)
        if size < self.progress or self.size is not None and size != self.size:
            raise Refused(22)
        left = noticed(size) if self.missing else runs(pairs + [(self.progress, size)])
        if len(left) > self.capacity():
            raise Refused(1)
        self.put(left)
        self.progress = self.size = size
        return f'ended {self.count} {self.progress}'

    def metadata(self):
        self.record()
        if not self.missing:
            raise Refused(19)
        self.missing = False
        return 'known'

    def held(self, a, b):
        """Was every octet of (a, b) kept? None is while the metadata is missing, none past progress, and none in the list."""
        pairs = self.record()
        if a == b:
            raise Refused(2)
        if a > b:
            raise Refused(3, a, b)
        lacking = any(shares(s, e, a, b) for s, e in pairs)
        return 'yes' if not self.missing and b <= self.progress and not lacking else 'no'

    def lacking(self):
        """How many offsets the list has. A tail that no end of file told of is in no list."""
        return sum(e - s for s, e in self.record())

    def missing_octets(self):
        return f'missing {self.lacking()}'

    def picture(self, cells):
        """A picture of the file up to the size, or to progress where that is not known: what each cell of it has, kept or missing."""
        pairs = self.record()
        top = self.progress if self.size is None else self.size
        n, marks = min(cells, top), ''
        for i in range(n):
            low, high = i * top // n, (i + 1) * top // n
            lacking = sum(min(e, high) - max(s, low) for s, e in pairs if shares(s, e, low, high))
            marks += '#' if lacking == 0 else '.' if lacking == high - low else '+'
        return f'map {marks}'

    def nak(self, identity, large, largest, cursor, budget, length):
        pairs = self.record()
        check_identity(identity)
        check_flag(self.older, large)
        f = field(large)
        fixed = header_length(*identity[:2]) + 1 + 2 * f + trailer(self.crc)
        if largest > 4096 or largest < fixed + 2 * f:
            raise Refused(14)
        if not large and max([self.progress] + [n for pair in pairs for n in pair]) > NARROW:
            raise Refused(7)
        entries = ([(0, 0)] if self.missing else []) + pairs
        if cursor > len(entries):
            raise Refused(11)
        if budget > 16:
            raise Refused(20)
        if length < budget * largest:
            raise Refused(6, budget * largest, length)
        k = (largest - fixed) // (2 * f)
        sent = []
        while len(sent) < budget and cursor < len(entries):
            taken = entries[cursor:cursor + k]
            start = 0 if cursor == 0 else entries[cursor - 1][1]
            cursor += len(taken)
            end = self.progress if cursor == len(entries) else taken[-1][1]
            sent.append(packet(identity, self.older, large, self.crc, start, end, taken))
        return [f'pdu {pdu.hex()}' for pdu in sent] + [f'sent {len(sent)} {sum(map(len, sent))} {cursor}']

    def plan(self, identity, lengths, octets):
        pairs = self.record()
        check_identity(identity)
        fault = unfit(cut(octets, lengths), identity, self.older, pairs, self.missing)
        if fault:
            raise Refused(26, *fault)
        return 'fits'

    # The record as the console sets and shows it.

    def load(self, progress, missing, count, size):
        self.progress, self.missing, self.count, self.size = progress, missing, count, size
        return 'ok'

    def shown(self, *of_the_list):
        """What `show` says before the numbers."""
        marks = ['missing' if self.missing else 'known', 'open' if self.size is None else self.size]
        return ['narrow' if self.narrow else 'wide', *of_the_list, self.count, self.progress, *marks]

    def show(self):
        return ' '.join(map(str, [*self.shown(self.length), *self.memory[:2 * min(self.count, MEMORY // 2)]]))


class Transfer(Reception):
    """One of a pool's transfers: its own record and width, its ranges in the pool's list; its floor and limit decide on room."""

    def __init__(self, pool, narrow, floor, limit):
        self.pool, self.narrow, self.floor, self.limit = pool, narrow, floor, limit
        self.count, self.progress, self.missing, self.size = 0, 0, True, None

    def numbers(self):
        """Its counted numbers: they stand behind those of the transfers before it."""
        before = sum(other.count for other in self.pool.transfers[:self.pool.transfers.index(self)])
        return self.pool.memory[2 * before:2 * (before + self.count)]

    def pairs(self):
        flat = self.numbers()
        if self.narrow and flat and max(flat) > NARROW:
            raise Refused(10)
        return list(zip(flat[::2], flat[1::2]))

    def capacity(self):
        """How many ranges it may have after an event: one more than it holds, unless that passes the limit, or the floor while all slots
        are held or kept free for the others."""
        bounded = self.count + 1 > self.limit
        full = self.count >= self.floor and self.pool.taken() == self.pool.slots()
        return self.count if bounded or full else self.count + 1

    def put(self, pairs):
        """Its ranges become these; all transfers' ranges stand back to back again, and slots that the whole list gives up hold 0."""
        lists = [[n for pair in pairs for n in pair] if other is self else other.numbers() for other in self.pool.transfers]
        before = 2 * sum(other.count for other in self.pool.transfers)
        flat, self.count = [n for numbers in lists for n in numbers], len(pairs)
        self.pool.memory[:len(flat)] = flat
        for at in range(len(flat), before):
            self.pool.memory[at] = 0

    def show(self):
        return ' '.join(map(str, [*self.shown(self.floor, self.limit), *self.numbers()]))


class Pool:
    """Transfers over one list of ranges, unchecked: each call asks for itself."""

    def __init__(self, ranges, groups):
        self.memory, self.length = [0] * MEMORY, 2 * ranges
        self.transfers = [Transfer(self, *group) for group in groups]

    def slots(self):
        """S, the list's length in ranges."""
        return self.length // 2

    def taken(self):
        """The sum over all transfers of the larger of held and floor."""
        return sum(max(one.count, one.floor) for one in self.transfers)

    def named(self, which):
        """Check 23, then 10 over every transfer; the transfer that is named, whose calls ask for 8 and 12."""
        settings = all(one.floor <= one.limit for one in self.transfers) and sum(one.floor for one in self.transfers) <= self.slots()
        if not settings or len(self.transfers) > 8 or which >= len(self.transfers):
            raise Refused(23)
        if self.length % 2 or self.slots() > 4096 or self.taken() > self.slots():
            raise Refused(10)
        for one in self.transfers:
            if one.count > one.limit:
                raise Refused(10)
            one.whole()
        return self.transfers[which]


class Timer:
    """The deferred NAK procedure: told of events, resets and ticks, it reads no clock."""

    def __init__(self, d, limit):
        if not 1 <= d <= 65535 or not 1 <= limit <= 255:
            raise Refused(25)
        self.d, self.limit = d, limit
        self.state, self.left, self.counter = 'idle', 0, 0

    def judge(self, record, restart):
        """Active exactly if the size is known and something is missing, metadata included; it starts where it was not active, or anew."""
        if record.size is None or not record.missing and record.count == 0:
            self.state, self.left, self.counter = 'idle', 0, 0
        elif restart or self.state != 'active':
            self.state, self.left, self.counter = 'active', self.d, 0

    def event(self, record, restart):
        """After an accepted event; deaf, it hears none."""
        if self.state != 'deaf':
            self.judge(record, restart)

    def tick(self, most):
        """Ticks until the first that is not quiet, at most so many. That is the one at which nothing is left of the countdown."""
        if self.state != 'active' or self.left > most:
            self.left = max(0, self.left - most)
            return f'quiet {most}'
        made = self.left
        if self.counter == self.limit:
            self.state, self.left = 'deaf', 0
            return f'limit {made}'
        self.counter, self.left = self.counter + 1, self.d
        return f'ask {made}'

    def show(self):
        return f'timer {self.state} {self.left} {self.counter}'


# Commands that work in every kind of reception, and those that a pool has besides.
ANYWHERE = ('new', 'pool', 'link', 'write', 'read')
OF_A_POOL = ('for', 'lend', 'poke', 'slots')
# Commands that a timer is told of.
EVENTS = ('data', 'eof', 'metadata')
# Calls without arguments, by their commands.
CALLS = {'metadata': 'metadata', 'missing': 'missing_octets', 'show': 'show'}


class Console(Reception):
    """One reception with its timer, if it has one, or the pool that stands in its place; and the words of a line."""

    def begin(self, narrow, ranges):
        super().begin(narrow, ranges)
        self.pool = self.timer = None

    def command(self, words):
        """The answer to a line's words, a line or a list of lines."""
        name, rest = words[0], words[1:]

        def need(n):
            if len(rest) != n:
                raise Malformed

        lent = self if self.pool is None else self.pool
        if name == 'for' if self.pool is None else name not in ANYWHERE + OF_A_POOL:
            raise Malformed
        if name == 'for':
            if len(rest) < 2:
                raise Malformed
            return self.for_transfer(number(rest[0]), rest[1], rest[2:])
        if name == 'poke':
            numbers = [number(word) for word in rest]
            if not numbers or numbers[0] + len(numbers) - 1 > MEMORY:
                raise Malformed
            at, values = numbers[0], numbers[1:]
            lent.memory[at:at + len(values)] = values
            return 'ok'
        if name == 'lend':
            need(1)
            lent.length = number(rest[0], MEMORY)
            return 'ok'
        if name == 'new':
            if rest[:1] == ['pairs']:
                rest = rest[1:]
            need(2)
            narrow, ranges = choice(rest[0], 'wide', 'narrow'), number(rest[1], 4096)
            self.begin(narrow, ranges)
            return 'ok'
        if name == 'pool':
            if len(rest) % 3 != 1 or len(rest) > 1 + 3 * 9:
                raise Malformed
            groups = [(choice(width, 'wide', 'narrow'), number(floor), number(limit))
                      for width, floor, limit in zip(rest[1::3], rest[2::3], rest[3::3])]
            self.pool, self.timer = Pool(number(rest[0], MEMORY // 2), groups), None
            return 'ok'
        if name == 'link':
            need(2)
            self.older, self.crc = choice(rest[0], 'newer', 'older'), choice(rest[1], 'plain', 'crc')
            return 'ok'
        if name == 'slots':
            need(1)
            return ' '.join(['slots', *map(str, lent.memory[:number(rest[0], MEMORY)])])
        if name in ('add', 'insert', 'remove', 'within'):
            need(2)
            return getattr(self, name)(number(rest[0]), number(rest[1]))
        if name == 'coalesce':
            need(0)
            return self.coalesce()
        if name == 'octets':
            need(2)
            return self.octets(choice(rest[0], 'normal', 'large'), number(rest[1], BUFFER))
        if name == 'write':
            if not 9 <= len(rest) <= 9 + MEMORY:
                raise Malformed
            identity, large = [number(word) for word in rest[:5]], choice(rest[5], 'normal', 'large')
            start, end, length = number(rest[6]), number(rest[7]), number(rest[8], BUFFER)
            flat = [number(word) for word in rest[9:]]
            return 'pdu ' + write(identity, self.older, large, self.crc, start, end, length, flat).hex()
        if name == 'read':
            if len(rest) > 1 or rest and not IS_OCTETS(rest[0]):
                raise Malformed
            identity, large, flagged, start, end, requests = read(bytes.fromhex(rest[0] if rest else ''), self.older)
            numbers = [start, end] + [n for pair in requests for n in pair]
            marks = ['large' if large else 'normal', 'crc' if flagged else 'plain']
            return ' '.join(['nak', *map(str, identity), *marks, *map(str, numbers)])
        if name == 'plan':
            if len(rest) < 6:
                raise Malformed
            identity, n = [number(word) for word in rest[:5]], number(rest[5], 64)
            if not 6 + n <= len(rest) <= 7 + n or not all(map(IS_OCTETS, rest[6 + n:])):
                raise Malformed
            return self.plan(identity, [number(word, 65535) for word in rest[6:6 + n]], bytes.fromhex(''.join(rest[6 + n:])))
        if name == 'defer':
            need(2)
            self.timer = Timer(number(rest[0]), number(rest[1]))
            return 'ok'
        if name in ('tick', 'reset', 'timer'):
            return self.timed(name, rest)
        call = self.call(name, rest)
        return self.event(call, name == 'metadata') if name in EVENTS and self.timer is not None else call(self)

    def event(self, call, restart):
        """An event that goes to the timer too: it starts anew where fewer octets are missing than before, or at the metadata."""
        before = self.lacking()
        answer = call(self)
        self.timer.event(self, restart or self.lacking() < before)
        return answer

    def timed(self, name, rest):
        """What these words ask of the timer."""
        if self.timer is None or len(rest) != (name == 'tick'):
            raise Malformed
        if name == 'tick':
            most = number(rest[0], 1000000)
            if most == 0:
                raise Malformed
            return self.timer.tick(most)
        if name == 'timer':
            return self.timer.show()
        self.record()
        self.timer.judge(self, True)
        return 'ok'

    def for_transfer(self, which, name, rest):
        """The call for that transfer of the pool. The console keeps eight records to be set and shown; of any other a call answers 23."""
        call, transfers = self.call(name, rest), self.pool.transfers
        if name in ('load', 'show'):
            if which >= min(8, len(transfers)):
                raise Malformed
            return call(transfers[which])
        transfer = self.pool.named(which)
        transfer.older, transfer.crc = self.older, self.crc
        return call(transfer)

    def call(self, name, rest):
        """What these words ask of a record, one reception's or a transfer's."""
        def need(n):
            if len(rest) != n:
                raise Malformed

        if name == 'load':
            need(4)
            progress, missing, count = number(rest[0]), choice(rest[1], 'known', 'missing'), number(rest[2])
            size = None if rest[3] == 'open' else number(rest[3])
            return lambda of: of.load(progress, missing, count, size)
        if name in ('data', 'held'):
            need(2)
            numbers = number(rest[0]), number(rest[1])
            return lambda of: getattr(of, name)(*numbers)
        if name == 'eof':
            need(1)
            size = number(rest[0])
            return lambda of: of.eof(size)
        if name in CALLS:
            need(0)
            return lambda of: getattr(of, CALLS[name])()
        if name == 'map':
            need(1)
            cells = number(rest[0], 200)
            if cells == 0:
                raise Malformed
            return lambda of: of.picture(cells)
        if name == 'nak':
            need(10)
            identity, large = [number(word) for word in rest[:5]], choice(rest[5], 'normal', 'large')
            largest, cursor, budget = [number(word) for word in rest[6:9]]
            length = number(rest[9], BUFFER)
            return lambda of: of.nak(identity, large, largest, cursor, budget, length)
        raise Malformed

    def line(self, at, text):
        """The answers to line `at`, a list of lines; None if it is passed over."""
        if len(text) > LINE:
            return [f'error {at}']
        if text.startswith('#'):
            return None
        words = [word for word in text.split(' ') if word]
        if not words:
            return None
        try:
            answer = self.command(words)
        except Refused as refusal:
            return ['refused ' + ' '.join(map(str, refusal.words))]
        except Malformed:
            return [f'error {at}']
        return answer if isinstance(answer, list) else [answer]


def lines(script):
    """The lines of a script, as text of one character an octet."""
    pieces = script.decode('latin-1').split('\n')
    return pieces[:-1] if pieces[-1] == '' else pieces


def answers(script):
    """(line number, answers) for each line of the script that is answered."""
    console = Console()
    for at, text in enumerate(lines(script), 1):
        answer = console.line(at, text)
        if answer is not None:
            yield at, answer


# Sets of offsets, one by one, against the algebra above; words of letters against the checks of a PDU's requests; the octets of one
# edition against the other.

def offsets(pairs):
    return {x for s, e in pairs for x in range(s, e)}


def spans(members):
    """The maximal runs of a finite set."""
    return [(x, min(y for y in range(x, x + len(members) + 1) if y not in members))
            for x in sorted(members) if x - 1 not in members]


def told(call, pairs, a, b, capacity=4096):
    """What the console answers to a call on these pairs, and the list that it leaves."""
    console = Console()
    console.begin(False, capacity)
    console.put(pairs)
    [answer] = console.line(1, f'{call} {a} {b}')
    return answer, console.pairs()


def removal_of_sets(members, a, b):
    """C-16 said of a set: what stays on either side of (a, b), and how many runs begin before the run it lies in."""
    asked = set(range(a, b))
    left = spans(members - asked)
    if not asked & members:
        return f'removed none {len(left)}', left
    if not asked <= members:
        return f'refused 5 {a} {b}', spans(members)
    what = {(False, False): 'whole', (False, True): 'left', (True, False): 'right', (True, True): 'split'}
    index = sum(x - 1 not in members for x in members if x <= a) - 1
    return f'removed {what[a - 1 in members, b in members]} {index} {len(left)}', left


def insertion_of_sets(members, a, b, capacity):
    """C-19 said of a set: the runs of the old offsets and the new ones, if there are no more of them than the capacity."""
    left = spans(members | set(range(a, b)))
    if len(left) > capacity:
        return 'refused 1', spans(members)
    return f'inserted {len(left)}', left


def after(event, pairs, progress, size, missing, capacity):
    """What the console answers to an event on this record, and the list, progress and size that it leaves."""
    console = Console()
    console.begin(False, capacity)
    console.put(pairs)
    console.progress, console.size, console.missing = progress, size, missing
    [answer] = console.line(1, event)
    return answer, console.pairs(), console.progress, console.size


def end_of_sets(members, progress, size, missing, capacity, z):
    """C-14 said of sets, the size known or not: what was missing, and every offset from progress on that is below z."""
    held = set(range(progress)) - members
    if z < progress or size is not None and z != size:
        return 'refused 22', spans(members), progress, size
    left = spans(set(range(z)) - held)
    if len(left) > capacity:
        return 'refused 1', spans(members), progress, size
    return f'ended {len(left)} {z}', left, z, z


def data_of_sets(members, progress, size, missing, capacity, a, b):
    """The data event said of sets: while waiting nothing is held; data past a known size is 22 (C-14)."""
    held = set() if missing else set(range(progress)) - members | set(range(a, b))
    if size is not None and b > size:
        return 'refused 22', spans(members), progress, size
    front = max(progress, b)
    left = spans(set(range(front)) - held)
    if len(left) > capacity:
        return 'refused 1', spans(members), progress, size
    return f'{"noticed" if missing else "kept"} {len(left)} {front}', left, front, size


def queried(query, *record):
    """What the console answers to a query on this record (pairs, progress, size, missing), which stays as it was."""
    said, *left = after(query, *record, len(record[0]))
    assert left == list(record[:3]), (query, record)
    return said


def held_of_sets(kept, a, b):
    """`held` said of the set of the octets that were kept."""
    if a >= b:
        return f'refused 3 {a} {b}' if a > b else 'refused 2'
    return 'yes' if set(range(a, b)) <= kept else 'no'


def map_of_sets(kept, top, cells):
    """`map` said of that set, octet by octet: the octet x lies behind as many bounds between cells as are at most x."""
    n = min(cells, top)
    found = [set() for _ in range(n)]
    for x in range(top):
        found[sum(i * top < (x + 1) * n for i in range(1, n))].add('#' if x in kept else '.')
    return 'map ' + ''.join('+' if len(marks) > 1 else min(marks) for marks in found)


class History:
    """A history of events told to the console, and beside it the octets kept, the furthest end or size, and what the console must
    say of them."""

    def __init__(self, capacity):
        self.console, self.kept, self.front, self.done = Console(), set(), 0, 0
        self.console.begin(False, capacity)

    def ask(self, line):
        self.done += 1
        return self.console.line(1, line)[-1]

    def data(self, a, b):
        """Data that comes; with metadata and size known it lowers the missing octets by just the overlap (C-24)."""
        before, lacking = self.ask('missing'), set(range(self.front)) - self.kept
        said = self.ask(f'data {a} {b - a}').split(' ')[0]
        if said == 'kept':
            self.kept |= set(range(a, b))
            if self.console.size is not None:
                left = int(before.split(' ')[1]) - len(lacking & set(range(a, b)))
                assert self.ask('missing') == f'missing {left}', (a, b)
        if said != 'refused':
            self.front = max(self.front, b)
        return said

    def eof(self, z):
        if self.ask(f'eof {z}').startswith('ended '):
            self.front = z

    def check(self):
        """The three queries against the octets kept; kept and missing together are all octets up to progress (C-24)."""
        lacking = self.front - len(self.kept)
        assert self.ask('missing') == f'missing {lacking}', lacking
        assert lacking == len(set(range(self.front)) - self.kept)
        for a in range(self.front + 3):
            for b in range(self.front + 3):
                assert self.ask(f'held {a} {b}') == held_of_sets(self.kept, a, b), (self.kept, a, b)
        for cells in range(1, self.front + 3):
            assert self.ask(f'map {cells}') == map_of_sets(self.kept, self.front, cells), (self.kept, self.front, cells)

    def asked(self):
        """The ranges that one full sequence asks for."""
        pdus = self.console.line(1, 'nak 1 1 1 7 2 normal 32 0 16 512')[:-1]
        requests = [request for pdu in pdus for request in read(bytes.fromhex(pdu.split(' ')[1]), False)[5]]
        return [request for request in requests if request != (0, 0)]


def history(rng):
    """A random history, checked after each event; then the data for every request of one full sequence comes, in any order,
    repeated and cut smaller, and the file is whole (C-24)."""
    told, most = History(rng.choice((1, 2, 3, 40))), rng.randint(1, 14)
    for _ in range(rng.randint(1, 14)):
        kind, (a, b) = rng.random(), sorted((rng.randint(0, most), rng.randint(0, most)))
        if kind < 0.2:
            told.ask('metadata')
        elif kind < 0.3:
            told.eof(rng.choice((b, most)))
        else:
            told.data(a, b)
        told.check()
    # Room enough from here on, so that nothing is refused for it.
    told.console.length = 80
    told.ask('metadata')
    told.eof(told.front + rng.randint(0, 3))
    pieces = []
    for s, e in told.asked():
        ends = sorted({s, e, *(rng.randint(s, e) for _ in range(rng.randint(0, 3)))})
        pieces += list(zip(ends, ends[1:])) + [(s, e)] * rng.randint(0, 1)
    rng.shuffle(pieces)
    for a, b in pieces:
        assert told.data(a, b) == 'kept', (a, b)
    told.check()
    assert told.kept == set(range(told.front)) and not told.asked() and told.ask('show').endswith(f' known {told.front}')
    return told.done


def pool_history(rng):
    """C-21 said of sets: a random history of events of several transfers, each with its own set of missing offsets. Of an event that
    makes one range more, the limit, the floor and the sum over all decide; the list is all runs back to back, and behind them the
    slots that it gave up hold 0 and the others what they held. Below its floor none is refused for room, and none passes its limit."""
    n = rng.randint(1, 8)
    floors = [rng.randint(0, 3) for _ in range(n)]
    limits = [floor + rng.randint(0, 3) for floor in floors]
    slots = sum(floors) + rng.randint(0, 4)
    console, memory = Console(), [rng.randint(90, 99) for _ in range(2 * slots + 8)]
    groups = ' '.join(f'{rng.choice(("wide", "narrow"))} {floor} {limit}' for floor, limit in zip(floors, limits))
    for line in (f'pool {slots} {groups}', 'poke 0 ' + ' '.join(map(str, memory))):
        assert console.line(1, line) == ['ok'], line
    # Of each transfer the missing offsets, progress, size, and whether metadata is missing.
    records = [(set(), 0, None, True)] * n
    for done in range(60):
        i, (a, b) = rng.randrange(n), sorted(rng.sample(range(16), 2))
        members, progress, size, missing = records[i]
        event = rng.choice(('data', 'data', 'data', 'data', 'data', 'eof', 'metadata'))
        held = [len(spans(record[0])) for record in records]
        if event == 'metadata':
            said, left = 'known' if missing else 'refused 19', (members, progress, size, False)
        else:
            act = data_of_sets if event == 'data' else end_of_sets
            said, pairs, *rest = act(members, progress, size, missing, 99, *((a, b) if event == 'data' else (b,)))
            left = offsets(pairs), *rest, missing
            if len(pairs) > held[i]:
                assert len(pairs) == held[i] + 1, (records[i], event, a, b)
                full = sum(map(max, held, floors)) == slots and held[i] >= floors[i]
                if full or len(pairs) > limits[i]:
                    assert held[i] >= floors[i]
                    said, left = 'refused 1', records[i]
        words = {'data': f'data {a} {b - a}', 'eof': f'eof {b}', 'metadata': 'metadata'}[event]
        assert console.line(1, f'for {i} {words}') == [said], (records, i, words, said)
        before, records[i] = sum(held), left
        assert all(len(spans(record[0])) <= limit for record, limit in zip(records, limits))
        flat = [x for record in records for pair in spans(record[0]) for x in pair]
        memory = flat + [0] * (2 * before - len(flat)) + memory[max(len(flat), 2 * before):]
        assert console.line(1, f'slots {len(memory)}') == ['slots ' + ' '.join(map(str, memory))], (records, i, words)
        missed = len(records[i][0])
        assert console.line(1, f'for {i} missing') == [f'missing {missed}'], (records, i)
        kept = set() if records[i][3] else set(range(records[i][1])) - records[i][0]
        assert console.line(1, f'for {i} held {a} {b}') == [held_of_sets(kept, a, b)], (records, i, a, b)
    return done + 1


def timer_history(rng):
    """C-22 said of ticks: of an active timer all follows from the ticks since it was started last. It asks at d, 2d, … up to limit × d
    and reports at (limit + 1) × d; from then on it is deaf. Events are those of sets, as above; some are refused."""
    console, d, limit = Console(), rng.randint(1, 5), rng.randint(1, 3)
    capacity = rng.choice((1, 2, 20))
    for line in (f'new wide {capacity}', f'defer {d} {limit}'):
        assert console.line(1, line) == ['ok']
    members, progress, size, missing = record = set(), 0, None, True
    since, done = None, 0
    for done in range(80):
        kind, (a, b) = rng.random(), sorted(rng.sample(range(14), 2))
        wanting = lambda: record[2] is not None and (record[3] or bool(record[0]))
        if kind < 0.45:
            most = rng.choice((1, 1, 2, d, d + 1, 9 * d))
            left = None if since is None or since >= d * (limit + 1) else d - since % d
            if left is None or left > most:
                said, since = f'quiet {most}', since if left is None else since + most
            else:
                since += left
                said = f'{"limit" if since == d * (limit + 1) else "ask"} {left}'
            assert console.line(1, f'tick {most}') == [said], (record, since, most)
        elif kind < 0.53:
            assert console.line(1, 'reset') == ['ok']
            since = 0 if wanting() else None
        else:
            members, progress, size, missing = record
            event = rng.choice(('data', 'data', 'data', 'eof', 'eof', 'metadata'))
            if event == 'metadata':
                said, left = 'known' if missing else 'refused 19', (members, progress, size, False)
            else:
                act = data_of_sets if event == 'data' else end_of_sets
                said, pairs, *rest = act(members, progress, size, missing, capacity, *((a, b) if event == 'data' else (13,)))
                left = offsets(pairs), *rest, missing
            words = {'data': f'data {a} {b - a}', 'eof': 'eof 13', 'metadata': 'metadata'}[event]
            assert console.line(1, words) == [said], (record, words)
            if not said.startswith('refused'):
                lowered, record = len(left[0]) < len(members), left
                if since is None or since < d * (limit + 1):
                    anew = since is None or lowered or event == 'metadata'
                    since = None if not wanting() else 0 if anew else since
        deaf = since is not None and since >= d * (limit + 1)
        state = 'idle 0 0' if since is None else f'deaf 0 {limit}' if deaf else f'active {d - since % d} {since // d}'
        assert console.line(1, 'timer') == [f'timer {state}'], (record, since, d, limit)
    return done + 1


def plan_of_sets(members, missing, told):
    """C-23 said of offsets one by one, of PDUs that read and are for the transfer: (start, end, requests) each."""
    seen, wanted = set(), [0, 1][missing]
    for at, (start, end, requests) in enumerate(told):
        if any(x not in range(start, end) for s, e in requests for x in range(s, e)):
            return f'refused 26 3 {at}'
    for at, (_, _, requests) in enumerate(told):
        for x in [x for s, e in requests for x in range(s, e)]:
            if x in seen:
                return f'refused 26 4 {at}'
            seen.add(x)
    for at, (_, _, requests) in enumerate(told):
        if not offsets(requests) <= members:
            return f'refused 26 5 {at}'
    if seen != members:
        return f'refused 26 5 {len(told)}'
    for at, (_, _, requests) in enumerate(told):
        wanted -= requests.count((0, 0))
        if wanted < 0:
            return f'refused 26 6 {at}'
    return f'refused 26 6 {len(told)}' if wanted else 'fits'


def plans(rng):
    """Random plans for small records against offsets one by one, some with a PDU that does not read or is another's, where the first of these
    is blamed; and our own sequences, of any k up to 16 PDUs, which always fit."""
    identity, seen = [1, 2, 3, 4, 5], {}
    for done in range(6000):
        members, progress, missing = {x for x in range(9) if rng.random() < 0.5}, 9, rng.random() < 0.4
        if missing:
            members = set(range(progress))
        console = Console()
        console.put(spans(members))
        console.progress, console.missing, console.older = progress, missing, rng.random() < 0.3
        # The missing offsets cut anyhow; then some request more or less, now and then.
        pieces = [(x, x + 1) for x in members]
        for _ in range(rng.randint(0, 6)):
            joined = [(p, q) for p in pieces for q in pieces if p[1] == q[0]]
            for p, q in joined[:1] if rng.random() < 0.5 else joined[-1:]:
                pieces = [piece for piece in pieces if piece not in (p, q)] + [(p[0], q[1])]
        pieces += [(0, 0)] * missing
        for _ in range(rng.choice((0, 0, 0, 1, 1, 2))):
            s, e = sorted(rng.sample(range(11), 2))
            pieces = rng.choice((pieces[1:], pieces + [(s, e)], pieces + [(0, 0)]))
        rng.shuffle(pieces)
        told = [[0, 99, []] for _ in range(rng.randint(0 if not pieces else 1, 4))]
        for piece in pieces:
            among = [pdu for pdu in told if piece != (0, 0) or piece not in pdu[2]]
            rng.choice(among or [[0, 0, []]])[2].append(piece)
        for pdu in told:
            if pdu[2] and rng.random() < 0.3:
                pdu[:2] = max(0, min(s for s, _ in pdu[2]) + rng.choice((0, 0, 0, 1))), max(e for _, e in pdu[2]) + rng.choice((0, 0, 0, 1))
            pdu[1] = max(pdu[:2])
        said, pdus = plan_of_sets(members, missing, told), []
        for start, end, requests in told:
            large = not console.older and rng.random() < 0.5
            pdus.append(packet(identity, console.older, large, rng.random() < 0.5, start, end, requests))
        for test in (2, 1):
            at = rng.randrange(len(pdus)) if pdus and rng.random() < 0.1 else None
            if at is not None:
                said = f'refused 26 {test} {at}'
                pdus[at] = b'' if test == 1 else packet([2, 1, 3, 4, 5], console.older, False, False, 9, 9, [])
        words = ' '.join(map(str, ['plan', *identity, len(pdus), *map(len, pdus), b''.join(pdus).hex()]))
        assert console.line(1, words) == [said], (members, missing, told, words)
        seen[said.rsplit(' ', 1)[0]] = seen.get(said.rsplit(' ', 1)[0], 0) + 1
        # Our own sequence fits.
        f = rng.choice(('normal', 'large')[:2 - console.older])
        *sent, _ = console.line(1, f'nak 1 2 3 4 5 {f} {rng.randint(25, 120) + (f == "large") * 17} 0 16 4096')
        sent = [bytes.fromhex(line.split(' ')[1]) for line in sent]
        words = ' '.join(map(str, ['plan', *identity, len(sent), *map(len, sent), b''.join(sent).hex()]))
        assert console.line(1, words) == ['fits'], words
    assert len(seen) == 7 and min(seen.values()) > 50, seen
    return done + 1


def refused_of_letters(word):
    """C-12 said of a word, a letter for each request (good, metadata, another empty one, reversed): the longest beginning that
    has m at most once, and g for the rest, is fine, and the letter behind it is refused."""
    fine = re.match('g*m?g*', word).end()
    return {'': None, 'r': 3}.get(word[fine:fine + 1], 2)


def round_trip(older, large, flagged, requests):
    """A PDU of these requests written and read: the requests that were read, and the number that both refuse it with."""
    identity, flat = [1, 1, 1, 7, 2], [n for pair in requests for n in pair]
    octets, numbers = packet(identity, older, large, flagged, 0, 9, requests), []
    for call, args in ((write, (identity, older, large, flagged, 0, 9, len(octets), flat)), (read, (octets, older))):
        try:
            said = call(*args)
            assert call is read or said == octets, requests
            numbers.append(None)
        except Refused as refusal:
            said = None
            numbers.append(refusal.words[0])
    assert numbers[0] == numbers[1], requests
    return said and said[5], numbers[0]


def refusal(call, *args):
    """The words of a call's refusal; None where it accepts."""
    try:
        call(*args)
    except Refused as refused:
        return refused.words


def editions(rng):
    """C-20 said of octets: what one edition writes it reads, and the other refuses with 15, whatever the identity, flag and requests; the
    older packet is the newer one with 08 for 28 in front; of the 256 first octets the newer edition takes 28 and 29, the older 08, and
    asks for a trailer behind 2a, 2b and 0a."""
    done = 0
    for i, q, n in ((i, q, n) for i in range(1, 9) for q in range(1, 9) for n in range(4)):
        identity = [i, q, *(rng.choice((0, 1, 256**length - 1, rng.randrange(256**length))) for length in (i, q, i))]
        for older, large in ((False, False), (False, True), (True, False), (True, True)):
            top = TOP if large else NARROW
            starts = [rng.choice((1, rng.randrange(1, top))) for _ in range(n + 1)]
            start, end, *flat = (x for s in starts for x in (s, rng.choice((s + 1, top))))
            total = 5 + 2 * i + q + (16 if large else 8) * (n + 1)
            said = identity, older, large, False, start, end, total, flat
            if older and large:
                assert refusal(write, *said) == [15], said
                continue
            octets = write(*said)
            assert octets[0] == {(False, False): 0x28, (False, True): 0x29, (True, False): 0x08}[older, large], said
            assert large or octets[1:] == write(identity, not older, *said[2:])[1:], said
            assert read(octets, older) == (identity, large, False, start, end, list(zip(flat[::2], flat[1::2]))), said
            assert refusal(read, octets, not older) == [15], said
            done += 1
    # Scope (0, 0) and, in fields of 4 octets, the requests (0, 0), (0, 1), (0, 2); of 8 octets, (1, 2).
    behind = bytes.fromhex('002100010702' + '08' + '00' * 16 + '0000000000000001' + '0000000000000002')
    for older, taken in ((False, (0x28, 0x29)), (True, (0x08,))):
        said = [refusal(read, bytes([first]) + behind, older) for first in range(256)]
        assert said == [None if first in taken else [21] if first - 2 in taken else [15] for first in range(256)]
    return done


def divided(octets):
    """The CRC said of whole numbers: the octets as one polynomial over two elements, ones added to its first 16 bits, times x^16, divided by
    x^16 + x^12 + x^5 + 1."""
    bits = 8 * len(octets) + 16
    number = int.from_bytes(octets, 'big') << 16 ^ 0xffff << bits - 16
    for degree in range(bits - 1, 15, -1):
        if number >> degree & 1:
            number ^= 0x11021 << degree - 16
    return number


def turned(octets, bit):
    """The octets with that bit turned over, counted from the highest of the first octet."""
    return (int.from_bytes(octets, 'big') ^ 1 << 8 * len(octets) - 1 - bit).to_bytes(len(octets), 'big')


def trailers(rng):
    """C-11 said of octets. What is written with the flag is read with it, and is the plain packet with 2 added to its first octet and to its
    length field and two octets behind, whose division leaves nothing; with any one bit turned over it is never read, and behind octet 3 the
    refusal is 21; with the flag taken away it is never read either; the published vectors; each order of two neighbouring checks."""
    assert crc(b'123456789') == divided(b'123456789') == 0x29b1
    example = [1, 1, 1, 7, 2], False, False, True, 0, 1000, 34, [0, 0, 100, 200]
    octets = write(*example)
    assert octets.hex() == '2a001b0001070208' + '00000000000003e8' + '0000000000000000' + '00000064000000c8' + '0265'
    for n in range(40):
        some = rng.randbytes(n)
        assert crc(some) == divided(some), some
        assert crc(some + crc(some).to_bytes(2, 'big')) == 0, some
    done = 0
    for (i, q), (older, large), n in itertools.product(((1, 1), (2, 3), (8, 8), (1, 8), (8, 1)), ((False, False), (False, True), (True, False)),
                                                       (0, 1, 4)):
        identity = [i, q, *(rng.randrange(256**length) for length in (i, q, i))]
        top = TOP if large else NARROW
        start, end, *flat = (x for _ in range(n + 1) for x in sorted((rng.randrange(1, top // 2), rng.randrange(top // 2, top))))
        total = 7 + 2 * i + q + (16 if large else 8) * (n + 1)
        octets = write(identity, older, large, True, start, end, total, flat)
        plain = write(identity, older, large, False, start, end, total - 2, flat)
        assert octets[0] == plain[0] + 2 and octets[1:3] == (int.from_bytes(plain[1:3], 'big') + 2).to_bytes(2, 'big'), octets
        assert octets[3:-2] == plain[3:] and divided(octets) == 0, octets
        assert read(octets, older) == (identity, large, True, start, end, list(zip(flat[::2], flat[1::2]))), octets
        assert refusal(read, octets, not older) == [15], octets
        assert refusal(write, identity, older, large, True, start, end, total - 2, flat) == [6, total, total - 2], octets
        for bit in range(8 * total):
            refused = refusal(read, turned(octets, bit), older)
            assert refused == [21] if bit >= 32 else refused in ([15], [16], [21]), (octets, bit)
            done += 1
        assert refusal(read, turned(octets, 6), older) == [16] and refusal(read, turned(plain, 6), older) == [21], octets

    def said(text):
        """What a packet is refused with as it stands and with its trailer put right, two octets behind these."""
        head = bytes.fromhex(text)
        return [refusal(read, head + crc(head).to_bytes(2, 'big'), False), refusal(read, head + (crc(head) ^ 1).to_bytes(2, 'big'), False)]

    assert said('2a000200010702') == [[16], [16]] and refusal(read, bytes.fromhex('2a00010001070208'), False) == [16]
    assert said('2a000300010702' '09') == [[17], [21]] and said('2a000300010702' '08') == [[16], [21]]
    assert said('6a00030001070209') == [[15], [15]] and said('2a00040001070209') == [[16], [16]]
    assert said('2a000b0001070208' '0000000900000004') == [[18], [21]] and said('2a000b0001070208' '0000000400000009') == [None, [21]]
    return done


def self_test():
    import random
    small = [(s, e) for s in range(5) for e in range(5)]
    done = 0
    for n in range(4):
        for pairs in itertools.product(small, repeat=n):
            assert runs(pairs) == spans(offsets(pairs)), pairs
            assert is_coalesced(list(pairs)) == (list(pairs) == spans(offsets(pairs))), pairs
            done += 1
    for bits in range(2**7):
        members = {x for x in range(7) if bits >> x & 1}
        pairs = spans(members)
        for a, b in itertools.combinations(range(9), 2):
            asked = set(range(a, b))
            assert minus(pairs, a, b) == spans(members - asked), (pairs, a, b)
            assert told('remove', pairs, a, b) == removal_of_sets(members, a, b), (pairs, a, b)
            done += 1
            for capacity in range(len(pairs), len(pairs) + 2):
                said = told('insert', pairs, a, b, capacity)
                assert said == insertion_of_sets(members, a, b, capacity), (pairs, a, b, capacity)
                done += 1
    for bits in range(2**6):
        members = {x for x in range(6) if bits >> x & 1}
        for progress, sized in itertools.product(range(bits.bit_length(), 8), (False, True)):
            waiting = (True,) if members == set(range(progress)) else ()
            for missing, room in itertools.product((False, *waiting), (0, 1)):
                pairs, size = spans(members), progress if sized else None
                record = progress, size, missing, len(pairs) + room
                for z in range(10):
                    assert after(f'eof {z}', pairs, *record) == end_of_sets(members, *record, z), (pairs, record, z)
                    done += 1
                for a, b in itertools.combinations(range(10), 2):
                    said = after(f'data {a} {b - a}', pairs, *record)
                    assert said == data_of_sets(members, *record, a, b), (pairs, record, a, b)
                    done += 1
                record, kept = (pairs, progress, size, missing), set(range(progress)) - members
                for a, b in itertools.product(range(10), repeat=2):
                    assert queried(f'held {a} {b}', *record) == held_of_sets(kept, a, b), (record, a, b)
                    done += 1
                for cells in (*range(1, 10), 200):
                    assert queried(f'map {cells}', *record) == map_of_sets(kept, progress, cells), (record, cells)
                    done += 1
                assert queried('missing', *record) == f'missing {len(members)}', record
                done += 1
    print(f'self-test: {done} cases agree with sets of offsets')
    rng = random.Random('histories')
    done = sum(history(rng) for _ in range(400))
    print(f'self-test: 400 histories agree with the sets of octets kept, in {done} answers')
    rng = random.Random('pools')
    done = sum(pool_history(rng) for _ in range(300))
    print(f'self-test: 300 pools agree with a set of offsets for each transfer, in {done} events')
    rng = random.Random('timers')
    done = sum(timer_history(rng) for _ in range(500))
    print(f'self-test: 500 timers agree with the ticks since their last start, in {done} events, resets and ticks')
    print(f'self-test: {plans(random.Random("plans"))} plans agree with their offsets one by one, and as many of our own sequences fit')
    letters, done = {'g': (3, 9), 'm': (0, 0), 'e': (5, 5), 'r': (9, 4)}, 0
    for n, (older, large), flagged in itertools.product(range(7), ((False, False), (False, True), (True, False)), (False, True)):
        if flagged and n > 5:
            continue
        for word in map(''.join, itertools.product(letters, repeat=n)):
            requests, refused = [letters[letter] for letter in word], refused_of_letters(word)
            assert round_trip(older, large, flagged, requests) == (None if refused else requests, refused), word
            done += 1
    print(f'self-test: {done} PDUs are written and read as words of letters say, each request in its place')
    print(f'self-test: {editions(random.Random("editions"))} PDUs of one edition are refused under the other with 15')
    print(f'self-test: {trailers(random.Random("trailers"))} bits turned over in PDUs with a trailer, none of which is read then')


def main():
    if sys.argv[1:] == ['--self-test']:
        return self_test()
    if len(sys.argv) > 1:
        with open(sys.argv[1], 'rb') as file:
            script = file.read()
    else:
        script = sys.stdin.buffer.read()
    for _, answer in answers(script):
        print('\n'.join(answer))


if __name__ == '__main__':
    main()
