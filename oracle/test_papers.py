#!/usr/bin/env python3
"""Small cases whose answers were worked out by hand from the papers, none from a program: each line of a script with its answer, and
the sentence that it rests on. The model must give just these.

    test_papers.py [NAME…]      all cases, or those of these requests (pool, deferred, plan)

Ends with status 0 only if all agree.
"""
import os
import sys

sys.path.insert(0, os.path.dirname(os.path.abspath(__file__)))
sys.dont_write_bytecode = True
import model


def case(name, *told):
    """A case: lines as `command -> answer`, several answers parted by ` / `."""
    return name, [line.split(' -> ') for line in told]


# D is document 02, R a reading of it (docs/DECISIONS.md), K the console's page (docs/CONSOLE.md).

# C-21: several transfers, one pool.
POOL = [
    case('fresh transfers, each with its own width',
         # K: "makes fresh transfers over one list of S ranges"; "for I show is wide|narrow FLOOR LIMIT COUNT PROGRESS known|missing open|SIZE".
         'pool 4 wide 1 3 narrow 0 2 -> ok',
         'for 0 show -> wide 1 3 0 0 missing open',
         'for 1 show -> narrow 0 2 0 0 missing open',
         'slots 8 -> slots 0 0 0 0 0 0 0 0'),
    case('ranges back to back in order, freed slots serve any',
         # D: "The pool's list holds the transfers' ranges back to back in order, so freed slots serve any".
         'pool 3 wide 0 3 wide 0 3 -> ok',
         'for 0 metadata -> known', 'for 1 metadata -> known',
         'for 1 data 10 10 -> kept 1 20', 'slots 6 -> slots 0 10 0 0 0 0',
         # Transfer 0's range comes in front of transfer 1's.
         'for 0 data 5 5 -> kept 1 10', 'slots 6 -> slots 0 5 0 10 0 0',
         'for 0 data 20 5 -> kept 2 25', 'slots 6 -> slots 0 5 10 20 0 10',
         # 3 slots held, no floors: the sum is S.
         'for 1 data 30 5 -> refused 1',
         # One of transfer 0's is freed (0-5 comes): the slot serves transfer 1; the list moves up, the slot given up is (0, 0).
         'for 0 data 0 5 -> kept 1 25', 'slots 6 -> slots 10 20 0 10 0 0',
         'for 1 data 30 5 -> kept 2 35', 'slots 6 -> slots 10 20 0 10 20 30'),
    case('a limit is never passed, however many slots are free',
         # D: "refused StoreFull exactly if m + 1 passes the limit".
         'pool 9 wide 0 1 -> ok', 'for 0 metadata -> known', 'for 0 data 1 1 -> kept 1 2', 'for 0 data 3 1 -> refused 1',
         # R: "An event that lowers or keeps the number of ranges is never refused for room": progress on, no gap.
         'for 0 data 2 9 -> kept 1 11', 'for 0 data 0 1 -> kept 0 11', 'for 0 data 12 1 -> kept 1 13'),
    case('a limit of 0 holds no range, and data without a gap is fine',
         # D: "refused StoreFull exactly if m + 1 passes the limit": 1 passes 0. R: what keeps the number of ranges is never refused for room.
         'pool 9 wide 0 0 -> ok', 'for 0 data 0 1 -> refused 1', 'for 0 eof 1 -> refused 1', 'for 0 metadata -> known',
         'for 0 data 0 9 -> kept 0 9', 'for 0 data 10 1 -> refused 1', 'for 0 eof 10 -> refused 1', 'for 0 eof 9 -> ended 0 9'),
    case('below its floor a transfer is never refused for room',
         # D: "if m is at or above the floor and the sum ... is S". Floors 0 and 2, S = 3: transfer 0 may take one.
         'pool 3 wide 0 3 wide 2 3 -> ok', 'for 0 metadata -> known', 'for 1 metadata -> known',
         'for 0 data 1 1 -> kept 1 2',
         # The sum is 1 + 2 = 3 = S and transfer 0 is above its floor.
         'for 0 data 3 1 -> refused 1',
         # Transfer 1 holds none: below its floor of 2, twice.
         'for 1 data 1 1 -> kept 1 2', 'for 1 data 3 1 -> kept 2 4',
         # Now it is at its floor and the sum is S.
         'for 1 data 5 1 -> refused 1'),
    case('the sum counts the larger of held and floor',
         # D: "the sum over all transfers of the larger of held and floor is S".
         # S = 5; transfer 0 holds 1 of a floor of 3: the sum is 3 + held of the other, so the other gets 2.
         'pool 5 wide 3 4 wide 0 5 -> ok', 'for 0 data 0 4 -> noticed 1 4', 'for 1 metadata -> known',
         'for 1 data 1 1 -> kept 1 2', 'for 1 data 3 1 -> kept 2 4', 'for 1 data 5 1 -> refused 1'),
    case('a transfer at its floor may grow while the sum is below S',
         # D: "if m is at or above the floor and the sum … is S": both are needed.
         'pool 3 wide 1 3 wide 1 1 -> ok', 'for 0 metadata -> known', 'for 0 data 1 1 -> kept 1 2',
         # The sum is 1 + 1 = 2, below 3.
         'for 0 data 3 1 -> kept 2 4', 'for 0 data 5 1 -> refused 1'),
    case('23: a floor above its limit, whoever is named',
         # D: "bad settings or an unknown transfer are refusal 23, first".
         'pool 9 wide 0 9 wide 3 2 -> ok', 'for 0 data 0 1 -> refused 23', 'for 1 data 0 1 -> refused 23', 'for 0 missing -> refused 23',
         # K: set and shown unchecked.
         'for 1 show -> wide 3 2 0 0 missing open'),
    case('23: floors that sum to more than S; just S is fine',
         # D: "floors summing to at most S".
         'pool 4 wide 2 9 wide 3 9 -> ok', 'for 0 data 0 1 -> refused 23', 'pool 5 wide 2 9 wide 3 9 -> ok', 'for 0 data 0 1 -> noticed 1 1'),
    case('23: the sum of the floors must not overflow (R)',
         # R: "floors summing to more than S (the sum must not overflow)". 2^64 - 1 + 1 and 2^63 + 2^63 are 2^64.
         'pool 4 wide 18446744073709551615 18446744073709551615 wide 1 1 -> ok', 'for 0 missing -> refused 23',
         'pool 4 wide 9223372036854775808 18446744073709551615 wide 9223372036854775808 18446744073709551615 -> ok', 'for 0 missing -> refused 23'),
    case('23: a transfer that there is none of',
         'pool 4 wide 1 1 -> ok', 'for 1 data 0 1 -> refused 23', 'for 1 metadata -> refused 23', 'for 1 eof 1 -> refused 23',
         'for 1 nak 1 1 1 7 2 normal 64 0 1 64 -> refused 23', 'for 1 held 0 1 -> refused 23', 'for 1 missing -> refused 23',
         'for 1 map 9 -> refused 23', 'for 18446744073709551615 missing -> refused 23',
         # K: "For a transfer that there is none of, load and show are errors".
         'for 1 load 0 known 0 open -> error 10', 'for 1 show -> error 11', 'for 0 show -> wide 1 1 0 0 missing open'),
    case('23: no transfer at all (K: none to nine groups)',
         # R: "or a transfer that there is none of".
         'pool 4 -> ok', 'for 0 missing -> refused 23', 'for 0 show -> error 3', 'slots 2 -> slots 0 0', 'lend 3 -> ok', 'for 0 missing -> refused 23'),
    case('23: nine transfers',
         # K: "A ninth group makes nine transfers, which every call answers with 23; for it too load and show are errors."
         'pool 9' + ' wide 1 1' * 9 + ' -> ok', 'for 0 missing -> refused 23', 'for 8 missing -> refused 23', 'for 8 show -> error 4',
         'for 8 load 0 known 0 open -> error 5', 'for 7 show -> wide 1 1 0 0 missing open',
         'pool 9' + ' wide 1 1' * 8 + ' -> ok', 'for 7 missing -> missing 0', 'for 8 missing -> refused 23',
         'pool 9' + ' wide 1 1' * 10 + ' -> error 10', 'for 7 missing -> missing 0'),
    case('23 before 10',
         # D: "refusal 23, first". R: "Then 10". An odd list of 3 numbers has S = 1.
         'pool 2 wide 1 2 -> ok', 'lend 3 -> ok', 'for 0 missing -> refused 10', 'for 1 missing -> refused 23', 'lend 1 -> ok',
         # S is now 0, below the floor of 1.
         'for 0 missing -> refused 23'),
    case('10: S above 4,096',
         # D: "at most 4,096 (above that, 10)". R: S is half the list's length, rounded down; an odd list is 10.
         'pool 4096 wide 0 1 -> ok', 'for 0 missing -> missing 0', 'pool 4097 wide 0 1 -> ok', 'for 0 missing -> refused 10',
         'for 1 missing -> refused 23', 'pool 4100 wide 0 1 -> ok', 'for 0 missing -> refused 10', 'pool 4101 wide 0 1 -> error 8',
         'lend 8192 -> ok', 'for 0 missing -> missing 0', 'lend 8193 -> ok', 'for 0 missing -> refused 10'),
    case('10: held above the limit, and the sum above S',
         # D: "held above limit, or that sum above S, is 10".
         'pool 4 wide 0 1 wide 1 4 -> ok', 'poke 0 1 2 3 4 -> ok', 'for 0 load 9 known 2 open -> ok', 'for 0 missing -> refused 10',
         'for 1 missing -> refused 10', 'for 0 load 9 known 1 open -> ok', 'for 0 missing -> missing 1',
         # 1 and 4: the sum is 5, S is 4.
         'poke 0 1 2 1 2 3 4 5 6 7 8 -> ok', 'for 1 load 9 known 4 open -> ok', 'for 1 missing -> refused 10',
         'for 1 load 9 known 3 open -> ok', 'for 1 missing -> missing 3',
         # Held 1 of a floor of 1 and limit 4; the floor counts where held is below it: 4 slots, floor 1 held 0, and 4.
         'pool 4 wide 1 4 wide 0 4 -> ok', 'poke 0 1 2 3 4 5 6 7 8 -> ok', 'for 1 load 9 known 4 open -> ok', 'for 1 missing -> refused 10',
         'for 1 load 9 known 3 open -> ok', 'for 1 missing -> missing 3'),
    case('10 looks at every transfer',
         # D: "10 looks at every transfer, 8 and 12 at the one named". A waiting record whose list is not (0, progress).
         'pool 4 wide 0 2 wide 0 2 -> ok', 'for 1 load 5 missing 0 open -> ok', 'for 0 data 0 1 -> refused 10', 'for 1 data 0 1 -> refused 10',
         # A known size that is not progress.
         'for 1 load 5 known 0 6 -> ok', 'for 0 metadata -> refused 10', 'for 1 load 5 known 0 5 -> ok', 'for 0 metadata -> known'),
    case('10: the narrow limit of another transfer',
         # R: 10 is "any record that would be 10 by itself"; "Each transfer has its own width".
         'pool 4 wide 0 2 narrow 0 2 -> ok', 'for 1 load 4294967296 known 0 open -> ok', 'for 0 missing -> refused 10',
         'for 1 load 4294967295 known 0 open -> ok', 'for 0 missing -> missing 0', 'for 1 load 4294967295 known 1 open -> ok',
         'poke 0 5 4294967296 -> ok', 'for 0 missing -> refused 10', 'poke 0 5 4294967295 -> ok', 'for 0 missing -> missing 0',
         # Each has its own width: the same number in the wide one's range is fine.
         'poke 0 5 4294967296 7 8 -> ok', 'for 0 load 4294967296 known 1 open -> ok', 'for 0 missing -> missing 4294967291',
         'for 1 missing -> missing 1'),
    case('8 and 12 look at the one named',
         # D: "10 looks at every transfer, 8 and 12 at the one named".
         'pool 4 wide 0 2 wide 0 2 -> ok', 'poke 0 5 6 1 2 3 9 -> ok', 'for 0 load 9 known 2 open -> ok', 'for 1 load 8 known 1 open -> ok',
         # Transfer 0: (5,6), (1,2) is not coalesced. Transfer 1: (3,9) ends above progress 8.
         'for 0 missing -> refused 8', 'for 1 missing -> refused 12', 'for 0 metadata -> refused 8', 'for 1 data 0 1 -> refused 12',
         'poke 0 1 2 5 6 -> ok', 'for 0 missing -> missing 2', 'for 1 missing -> refused 12'),
    case('8 before 12, and the other transfer goes on',
         'pool 4 wide 0 2 wide 0 2 -> ok', 'poke 0 5 20 1 20 3 4 -> ok', 'for 0 load 9 known 2 open -> ok', 'for 1 load 8 known 1 open -> ok',
         'for 0 eof 9 -> refused 8', 'for 1 data 3 1 -> kept 0 8',
         # R: the whole count falls from 3 to 2: the third slot is (0, 0), the damaged ranges stay as they were.
         'slots 8 -> slots 5 20 1 20 0 0 0 0'),
    case('slots follow the whole count; past both they stay (R)',
         # R: "from the new whole count up to the old one they are (0, 0), past both they stay".
         'pool 4 wide 0 4 wide 0 4 -> ok', 'poke 0 91 92 93 94 95 96 97 98 -> ok', 'for 0 metadata -> known', 'for 1 metadata -> known',
         'for 1 data 4 4 -> kept 1 8', 'slots 8 -> slots 0 4 93 94 95 96 97 98',
         'for 0 data 2 1 -> kept 1 3', 'slots 8 -> slots 0 2 0 4 95 96 97 98',
         # Of (0, 2) octet 0 comes: (1, 2) stays, the count as before.
         'for 0 data 0 1 -> kept 1 3', 'slots 8 -> slots 1 2 0 4 95 96 97 98',
         'for 0 data 0 3 -> kept 0 3', 'slots 8 -> slots 0 4 0 0 95 96 97 98'),
    case('the three events and their checks 2, 9, 4, 22, 19',
         # R: "Each transfer has the three events". Their checks are those of one reception: data 2, 9, 4, 22, 1; EOF 4, 22, 1; metadata 19.
         'pool 4 narrow 0 4 -> ok', 'for 0 data 5 0 -> refused 2', 'for 0 data 18446744073709551615 1 -> refused 9',
         'for 0 data 4294967295 1 -> refused 4', 'for 0 eof 4294967296 -> refused 4', 'for 0 data 4 6 -> noticed 1 10', 'for 0 eof 9 -> refused 22',
         'for 0 eof 12 -> ended 1 12', 'for 0 data 12 1 -> refused 22', 'for 0 metadata -> known', 'for 0 metadata -> refused 19',
         'for 0 show -> narrow 0 4 1 12 known 12 0 12', 'for 0 data 4 2 -> kept 2 12', 'for 0 show -> narrow 0 4 2 12 known 12 0 4 6 12'),
    case('held, missing and map of one transfer (R)',
         # R: "`held` and the octets missing". Of 8 octets in 4 cells of 2, 4-6 is missing. K: `map` takes 1 to 200 cells.
         'pool 4 wide 0 4 wide 0 4 -> ok', 'for 1 metadata -> known', 'for 1 data 0 4 -> kept 0 4', 'for 1 data 6 2 -> kept 1 8',
         'for 1 held 0 4 -> yes', 'for 1 held 0 5 -> no', 'for 1 held 5 5 -> refused 2', 'for 1 held 5 4 -> refused 3 5 4', 'for 1 missing -> missing 2',
         'for 1 map 4 -> map ##.#', 'for 0 missing -> missing 0', 'for 0 map 4 -> map ', 'for 0 held 0 1 -> no', 'for 0 map 0 -> error 14',
         'for 0 map 201 -> error 15'),
    case('the NAK sequence of one transfer',
         # R: "its NAK sequence (checks 23, then as the sequence's)". H = 7, one request in 24 octets. Scope 0-8, request 4-6.
         'pool 4 wide 0 4 wide 0 4 -> ok', 'for 1 metadata -> known', 'for 1 data 0 4 -> kept 0 4', 'for 1 data 6 2 -> kept 1 8',
         'for 1 nak 1 1 1 7 2 normal 24 0 1 24 -> pdu 280011000107020800000000000000080000000400000006 / sent 1 24 1',
         'for 1 nak 1 1 1 7 2 normal 23 0 1 24 -> refused 14', 'for 1 nak 0 1 1 7 2 normal 23 0 1 24 -> refused 13',
         # Transfer 0 waits for its metadata and has noticed nothing: one request, (0, 0), in the scope 0-0.
         'for 0 nak 1 1 1 7 2 normal 24 0 1 24 -> pdu 280011000107020800000000000000000000000000000000 / sent 1 24 1',
         # The link is the console's: 08 in front under the older edition, where a large flag is 15.
         'link older plain -> ok',
         'for 1 nak 1 1 1 7 2 normal 24 0 1 24 -> pdu 080011000107020800000000000000080000000400000006 / sent 1 24 1',
         'for 1 nak 1 1 1 7 2 large 40 0 1 40 -> refused 15'),
    case('answers depend on the others only through the sum',
         # D: "answers to one transfer depend on the others only through that sum".
         # D, last sentence: another transfer's damage by 8 or 12, its data and its metadata change nothing for this one.
         'pool 3 wide 0 2 wide 1 2 -> ok', 'for 0 metadata -> known', 'for 0 data 1 1 -> kept 1 2', 'for 1 data 0 9 -> noticed 1 9',
         'for 0 data 3 1 -> kept 2 4', 'for 1 metadata -> known', 'for 1 data 4 1 -> refused 1', 'for 1 data 0 4 -> kept 1 9',
         'for 0 show -> wide 0 2 2 4 known open 0 1 2 3', 'for 1 show -> wide 1 2 1 9 known open 4 9'),
    case('in a pool, commands of one reception are errors; outside one, `for` is (K)',
         'for 0 missing -> error 1', 'pool 2 wide 0 2 -> ok', 'data 0 1 -> error 3', 'metadata -> error 4', 'eof 1 -> error 5', 'show -> error 6',
         'load 0 known 0 open -> error 7', 'nak 1 1 1 7 2 normal 24 0 1 24 -> error 8', 'held 0 1 -> error 9', 'missing -> error 10', 'map 3 -> error 11',
         'add 1 2 -> error 12', 'insert 1 2 -> error 13', 'remove 1 2 -> error 14', 'coalesce -> error 15', 'within 1 2 -> error 16',
         'octets normal 0 -> error 17', 'for 0 add 1 2 -> error 18', 'for 0 lend 4 -> error 19', 'for 0 for 0 missing -> error 20', 'for 0 -> error 21',
         'for -> error 22', 'for x missing -> error 23', 'for 0 missing 1 -> error 24', 'for 0 data 1 -> error 25', 'for 0 slots 2 -> error 26',
         'for 0 read -> error 27',
         # K: "new, pool, link, write, read and surplus work in every kind of reception".
         'write 1 1 1 7 2 normal 0 1000 24 100 200 -> pdu 280011000107020800000000000003e800000064000000c8', 'read -> refused 16',
         'link newer plain -> ok', 'new wide 2 -> ok', 'missing -> missing 0', 'for 0 missing -> error 33'),
    case('words of `pool`: an error changes nothing',
         # K: "(S to 4,100; none to nine groups of three words)"; an error "changes nothing".
         'pool 2 wide 0 2 -> ok', 'for 0 data 0 9 -> noticed 1 9', 'pool -> error 3', 'pool x -> error 4', 'pool 2 wide 0 -> error 5',
         'pool 2 wide 0 2 3 -> error 6', 'pool 2 tall 0 2 -> error 7', 'pool 2 wide x 2 -> error 8', 'pool 2 wide 0 18446744073709551616 -> error 9',
         'pool 4101 wide 0 2 -> error 10', 'for 0 show -> wide 0 2 1 9 missing open 0 9', 'pool 2 wide 0 2 -> ok', 'for 0 show -> wide 0 2 0 0 missing open',
         'slots 2 -> slots 0 0'),
    case('`for I show` with a count past the memory: the numbers within the first 8,200',
         # K: "then its numbers in the pool's list (those within the first 8,200)".
         'pool 2 wide 0 2 wide 0 2 -> ok', 'poke 8198 7 8 -> ok', 'for 0 load 0 known 4099 open -> ok', 'for 1 load 0 known 5 open -> ok',
         # 4,099 ranges in front are 8,198 numbers: two of transfer 1's ten are left.
         'for 1 show -> wide 0 2 5 0 known open 7 8', 'for 0 load 0 known 18446744073709551615 open -> ok', 'for 1 show -> wide 0 2 5 0 known open',
         'for 0 missing -> refused 10'),
]

# C-22: the deferred NAK.
HOLE = ('new wide 8 -> ok', 'metadata -> known', 'data 0 10 -> kept 0 10', 'data 20 10 -> kept 1 30')
DEFERRED = [
    case('it starts idle, with no look at the record',
         # R: "It starts idle, with no look at the record". A record that is none is fine for `defer`.
         'new wide 2 -> ok', 'load 5 missing 2 9 -> ok', 'defer 3 2 -> ok', 'timer -> timer idle 0 0', 'tick 9 -> quiet 9', 'timer -> timer idle 0 0'),
    case('d and limit: 25 outside 1 to 65,535 and 1 to 255',
         # D: "A d or limit outside its range is 25."
         'defer 0 2 -> refused 25', 'defer 65536 2 -> refused 25', 'defer 3 0 -> refused 25', 'defer 3 256 -> refused 25', 'defer 0 0 -> refused 25',
         'defer 18446744073709551615 1 -> refused 25', 'timer -> error 7', 'defer 1 1 -> ok', 'defer 65535 255 -> ok', 'timer -> timer idle 0 0'),
    case('a refused `defer` leaves the earlier timer',
         # K: "Where it is refused, an earlier timer stays."
         *HOLE, 'defer 3 2 -> ok', 'eof 30 -> ended 1 30', 'tick 1 -> quiet 1', 'defer 0 2 -> refused 25', 'timer -> timer active 2 0', 'defer 9 9 -> ok',
         'timer -> timer idle 0 0'),
    case('without the size it stays idle, whatever is missing',
         # D: "Once the size is known and anything is missing".
         'new wide 8 -> ok', 'defer 3 2 -> ok', 'data 5 5 -> noticed 1 10', 'timer -> timer idle 0 0', 'metadata -> known', 'timer -> timer idle 0 0',
         'data 20 5 -> kept 1 25', 'timer -> timer idle 0 0', 'tick 1000000 -> quiet 1000000'),
    case('the size known and a hole: active, a countdown of d',
         # D: "it becomes active and starts a countdown of d ticks". R: "Going active: counter 0, countdown d."
         *HOLE, 'defer 3 2 -> ok', 'eof 30 -> ended 1 30', 'timer -> timer active 3 0'),
    case('the size known and nothing missing: idle',
         # D: "When nothing is missing, metadata included, it goes inactive."
         'new wide 8 -> ok', 'metadata -> known', 'defer 3 2 -> ok', 'data 0 10 -> kept 0 10', 'eof 10 -> ended 0 10', 'timer -> timer idle 0 0',
         'tick 5 -> quiet 5'),
    case('the metadata alone missing: active',
         # D: "anything is missing, metadata included". Size 0: the list is empty.
         'new wide 8 -> ok', 'defer 3 2 -> ok', 'eof 0 -> ended 0 0', 'timer -> timer active 3 0', 'tick 3 -> ask 3',
         # The metadata comes and nothing is missing: "it goes inactive"; R: "Going idle: counter 0, countdown 0".
         'metadata -> known', 'timer -> timer idle 0 0'),
    case('asks, the counter and the limit',
         # D: "At zero it asks for one full sequence, raises the counter and restarts." "When the counter has reached the limit, the next
         # expiry reports the limit once and stops". d = 3, limit = 2: the report comes at tick 3 x (2 + 1) = 9.
         *HOLE, 'defer 3 2 -> ok', 'eof 30 -> ended 1 30', 'tick 2 -> quiet 2', 'timer -> timer active 1 0', 'tick 1 -> ask 1', 'timer -> timer active 3 1',
         'tick 9 -> ask 3', 'timer -> timer active 3 2', 'tick 9 -> limit 3',
         # R: "Going deaf: countdown 0, the counter stays at the limit."
         'timer -> timer deaf 0 2', 'tick 9 -> quiet 9', 'tick 1000000 -> quiet 1000000', 'timer -> timer deaf 0 2'),
    case('the report at d x (limit + 1), for d = 1 and limit = 1',
         # D: "the report comes at tick d × (limit + 1)": 1 x 2.
         *HOLE, 'defer 1 1 -> ok', 'eof 30 -> ended 1 30', 'tick 1 -> ask 1', 'tick 1 -> limit 1', 'tick 1 -> quiet 1', 'timer -> timer deaf 0 1'),
    case('d = 65,535 and limit = 1: 131,070 ticks',
         # D: "the report comes at tick d × (limit + 1)": 65,535 x 2 = 131,070 = 65,534 + 1 + 65,534 + 1.
         *HOLE, 'defer 65535 1 -> ok', 'eof 30 -> ended 1 30', 'tick 65534 -> quiet 65534', 'tick 1000000 -> ask 1', 'tick 65534 -> quiet 65534',
         'timer -> timer active 1 1', 'tick 1 -> limit 1'),
    case('limit = 255: the 256th expiry reports',
         # D: "When the counter has reached the limit (1 to 255), the next expiry reports the limit once".
         *HOLE, 'defer 1 255 -> ok', 'eof 30 -> ended 1 30', *['tick 2 -> ask 1'] * 255, 'timer -> timer active 1 255', 'tick 2 -> limit 1',
         'timer -> timer deaf 0 255'),
    case('`tick N` stops at the first that is not quiet',
         # K: "ticks one at a time until the first that is not quiet, at most N"; "K the ticks made".
         *HOLE, 'defer 4 2 -> ok', 'eof 30 -> ended 1 30', 'tick 4 -> ask 4', 'tick 5 -> ask 4', 'tick 3 -> quiet 3', 'tick 5 -> limit 1'),
    case('an event that lowers the missing octets zeroes the counter and restarts',
         # D: "An event that lowers the number of missing octets … zeroes the counter and restarts."
         *HOLE, 'defer 3 2 -> ok', 'eof 30 -> ended 1 30', 'tick 3 -> ask 3', 'tick 1 -> quiet 1', 'timer -> timer active 2 1', 'data 10 1 -> kept 1 30',
         'timer -> timer active 3 0',
         # A split: two ranges in place of one, and fewer octets.
         'tick 3 -> ask 3', 'data 14 1 -> kept 2 30', 'timer -> timer active 3 0'),
    case('an accepted event that lowers nothing changes nothing',
         # R: "Lowers the number of missing octets" compares the sums of the list before and after: here they are equal.
         # Data that was kept already, and the same EOF again.
         *HOLE, 'defer 3 2 -> ok', 'eof 30 -> ended 1 30', 'tick 3 -> ask 3', 'tick 1 -> quiet 1', 'data 0 10 -> kept 1 30', 'timer -> timer active 2 1',
         'eof 30 -> ended 1 30', 'timer -> timer active 2 1'),
    case('a refused event changes nothing',
         # R: "A refused event changes nothing."
         *HOLE, 'defer 3 2 -> ok', 'eof 30 -> ended 1 30', 'tick 4 -> ask 3', 'tick 1 -> quiet 1', 'data 25 9 -> refused 22', 'eof 31 -> refused 22',
         'metadata -> refused 19', 'data 0 0 -> refused 2', 'timer -> timer active 2 1'),
    case('the metadata event restarts although no octet comes',
         # D: "or the metadata event".
         'new wide 8 -> ok', 'defer 3 2 -> ok', 'eof 9 -> ended 1 9', 'tick 3 -> ask 3', 'tick 2 -> quiet 2', 'timer -> timer active 1 1', 'metadata -> known',
         'timer -> timer active 3 0'),
    case('while waiting, data lowers nothing',
         # Document 01: while waiting "the list is exactly (0, progress)". R: the sums before and after are compared, 9 and 9.
         'new wide 8 -> ok', 'defer 3 2 -> ok', 'eof 9 -> ended 1 9', 'tick 3 -> ask 3', 'tick 2 -> quiet 2', 'data 0 5 -> noticed 1 9',
         'timer -> timer active 1 1'),
    case('the last octets come: idle; nothing wakes it but a reset or an event',
         # D: "it goes inactive". R: judged after each accepted event and after a reset; nothing is missing then.
         *HOLE, 'defer 3 2 -> ok', 'eof 30 -> ended 1 30', 'tick 3 -> ask 3', 'data 10 10 -> kept 0 30', 'timer -> timer idle 0 0', 'tick 99 -> quiet 99',
         'reset -> ok', 'timer -> timer idle 0 0', 'eof 30 -> ended 0 30', 'timer -> timer idle 0 0'),
    case('deaf: events pass it by, and the record still takes them',
         # D: "deaf to all but a reset". R: "the record still takes the events".
         *HOLE, 'defer 1 1 -> ok', 'eof 30 -> ended 1 30', 'tick 1 -> ask 1', 'tick 1 -> limit 1', 'data 10 1 -> kept 1 30', 'timer -> timer deaf 0 1',
         'data 11 9 -> kept 0 30', 'timer -> timer deaf 0 1', 'missing -> missing 0', 'reset -> ok',
         # D: "activity is judged after each accepted event or reset": nothing is missing.
         'timer -> timer idle 0 0'),
    case('deaf: a reset starts it again',
         # D: "a reset, which zeroes the counter and restarts".
         *HOLE, 'defer 2 1 -> ok', 'eof 30 -> ended 1 30', 'tick 2 -> ask 2', 'tick 2 -> limit 2', 'reset -> ok', 'timer -> timer active 2 0', 'tick 2 -> ask 2',
         'tick 2 -> limit 2'),
    case('a reset while active zeroes the counter and restarts',
         # R: "The reset … works in every state."
         *HOLE, 'defer 3 2 -> ok', 'eof 30 -> ended 1 30', 'tick 3 -> ask 3', 'tick 1 -> quiet 1', 'timer -> timer active 2 1', 'reset -> ok',
         'timer -> timer active 3 0'),
    case('a reset while idle, without the size and with it',
         # R: "active exactly if the size is known and something is missing, metadata included, else idle".
         *HOLE, 'defer 3 2 -> ok', 'reset -> ok', 'timer -> timer idle 0 0', 'new wide 8 -> ok', 'metadata -> known', 'eof 9 -> ended 1 9', 'defer 3 2 -> ok',
         'timer -> timer idle 0 0', 'reset -> ok', 'timer -> timer active 3 0'),
    case('made after the EOF: the next accepted event or a reset',
         # R: "one that is made after the EOF waits for the next accepted event, of which the same EOF again is one, or for a reset".
         *HOLE, 'eof 30 -> ended 1 30', 'defer 3 2 -> ok', 'timer -> timer idle 0 0', 'tick 9 -> quiet 9', 'eof 31 -> refused 22', 'timer -> timer idle 0 0',
         'eof 30 -> ended 1 30', 'timer -> timer active 3 0'),
    case('made after the EOF: data that was kept before wakes it too',
         # R: "waits for the next accepted event": this data lowers nothing and is accepted.
         *HOLE, 'eof 30 -> ended 1 30', 'defer 3 2 -> ok', 'data 0 1 -> kept 1 30', 'timer -> timer active 3 0'),
    case('a reset reads record and list: 10, 8, 12, then nothing changes',
         # R: "The reset reads record and list (10, 8, 12, then nothing changes)".
         *HOLE, 'defer 3 2 -> ok', 'eof 30 -> ended 1 30', 'tick 3 -> ask 3', 'load 30 known 1 31 -> ok', 'reset -> refused 10', 'load 30 known 2 30 -> ok',
         # The list is (10, 20), (0, 0).
         'reset -> refused 8', 'load 15 known 1 15 -> ok', 'reset -> refused 12', 'timer -> timer active 3 1', 'tick 1 -> quiet 1', 'load 30 known 1 30 -> ok',
         'reset -> ok', 'timer -> timer active 3 0'),
    case('a reset judges the record as it lies',
         # R: "The reset reads record and list"; setting the record by `load` is no event, so the timer hears nothing of it.
         *HOLE, 'defer 3 2 -> ok', 'eof 30 -> ended 1 30', 'load 30 known 1 open -> ok', 'timer -> timer active 3 0', 'reset -> ok', 'timer -> timer idle 0 0',
         'load 30 known 1 30 -> ok', 'timer -> timer idle 0 0', 'reset -> ok', 'timer -> timer active 3 0'),
    case('a deaf one on a damaged record: the reset is refused and it stays deaf',
         # R: "(10, 8, 12, then nothing changes)". An odd list is 10.
         *HOLE, 'defer 1 1 -> ok', 'eof 30 -> ended 1 30', 'tick 1 -> ask 1', 'tick 1 -> limit 1', 'lend 3 -> ok', 'reset -> refused 10', 'timer -> timer deaf 0 1',
         'lend 16 -> ok', 'reset -> ok', 'timer -> timer active 1 0'),
    case('ticks do not look at the record',
         # D: "Inputs are events and ticks"; of ticks no check is named.
         *HOLE, 'defer 2 1 -> ok', 'eof 30 -> ended 1 30', 'lend 3 -> ok', 'tick 2 -> ask 2', 'tick 2 -> limit 2', 'timer -> timer deaf 0 1'),
    case('`new` and `pool` take it away; a line that is an error does not',
         # K, of `new` and `pool`: "a timer goes away". "`tick`, `reset` and `timer` are errors where there is no timer."
         'timer -> error 1', 'tick 1 -> error 2', 'reset -> error 3', 'defer 3 2 -> ok', 'new wide 4097 -> error 5', 'pool x -> error 6', 'timer -> timer idle 0 0',
         'new wide 8 -> ok', 'timer -> error 9', 'defer 3 2 -> ok', 'pool 3 wide 0 3 -> ok', 'timer -> error 12', 'defer 3 2 -> error 13', 'for 0 timer -> error 14',
         'for 0 defer 3 2 -> error 15', 'reset -> error 16', 'tick 1 -> error 17', 'new wide 8 -> ok', 'timer -> error 19'),
    case('words: `tick` of 1 to 1,000,000',
         # K: "`tick N` (1 to 1,000,000)"; another number of words, or a value past a limit, is an error.
         'defer 3 2 -> ok', 'tick 0 -> error 2', 'tick 1000001 -> error 3', 'tick 1000000 -> quiet 1000000', 'tick -> error 5', 'tick 1 1 -> error 6',
         'defer 3 -> error 7', 'defer 3 2 1 -> error 8', 'defer x 2 -> error 9', 'reset 1 -> error 10', 'timer 1 -> error 11', 'tick x -> error 12',
         'timer -> timer idle 0 0'),
]

# C-23: the planner's sequences.

def pdu(start, end, *requests, head='28', identity='00010702'):
    """A NAK PDU by document 01's layout: normal flag, so fields of four octets; identity: octet 3, source 1, number 7, destination 2."""
    return f'{head}{9 + 8 * len(requests):04x}{identity}08' + ''.join(f'{n:08x}' for pair in ((start, end), *requests) for n in pair)


def plan(*pdus, words='1 1 1 7 2'):
    return f'plan {words} {len(pdus)} ' + ' '.join([*(str(len(one) // 2) for one in pdus), ''.join(pdus)]).strip()


# Metadata known, 10-20 and 30-40 missing, progress 50; the same without anything missing; and waiting, with 0-50 missing.
TWO = ('new wide 8 -> ok', 'poke 0 10 20 30 40 -> ok', 'load 50 known 2 open -> ok')
NONE = ('new wide 8 -> ok', 'load 50 known 0 open -> ok')
WAITING = ('new wide 8 -> ok', 'poke 0 0 50 -> ok', 'load 50 missing 1 open -> ok')
META, A, B = (0, 0), (10, 20), (30, 40)
PLANS = [
    case('one PDU with both requests, spelled out',
         # D: "Accept exactly if each PDU reads, all carry the transfer's identity (lengths too), …": K: `fits`.
         # 28, 16 + 9 octets behind the header of 7, directive 08, scope 0-50, 10-20, 30-40: 32 octets.
         *TWO, 'plan 1 1 1 7 2 1 32 280019000107020800000000000000320000000a000000140000001e00000028 -> fits'),
    case('any order and any cuts',
         # D: "choose the order and cuts of requests itself"; "the planner need not follow its scope rule or order".
         *TWO, f'{plan(pdu(0, 50, B, A))} -> fits', f'{plan(pdu(30, 40, B), pdu(10, 20, A))} -> fits',
         f'{plan(pdu(0, 99, (35, 40), (10, 12)), pdu(0, 35, (12, 20), (30, 35)))} -> fits'),
    case('PDUs that ask for nothing',
         # D: "Accept exactly if …".
         # "Accept exactly if …": no test speaks against a PDU without requests, whatever its scope.
         *TWO, f'{plan(pdu(0, 0), pdu(0, 50, A, B), pdu(7, 9))} -> fits', *NONE, f'{plan(pdu(0, 0))} -> fits'),
    case('no PDUs and an empty buffer',
         # R: "No PDUs and an empty buffer are accepted if nothing is missing."
         *NONE, 'plan 1 1 1 7 2 0 -> fits', *TWO, 'plan 1 1 1 7 2 0 -> refused 26 5 0', 'new wide 8 -> ok',
         # A fresh record: nothing in the list, the metadata is missing.
         'plan 1 1 1 7 2 0 -> refused 26 6 0', *WAITING, 'plan 1 1 1 7 2 0 -> refused 26 5 0'),
    case('the metadata request, once, at any place',
         # D: "the metadata request is there once if metadata is missing".
         *WAITING, f'{plan(pdu(0, 50, META, (0, 50)))} -> fits', f'{plan(pdu(0, 50, (0, 50), META))} -> fits',
         f'{plan(pdu(0, 50, (0, 50)), pdu(0, 0, META))} -> fits',
         # "requests other than (0, 0) lie within their PDU's scope": (0, 0) may lie outside.
         f'{plan(pdu(0, 50, (0, 50)), pdu(20, 30, META))} -> fits'),
    case('6: the metadata request absent, unwanted, twice',
         # R: "blames the PDU of an unwanted or of the second request; where it is wanted and absent, the number of PDUs".
         *WAITING, f'{plan(pdu(0, 50, (0, 50)))} -> refused 26 6 1', f'{plan(pdu(0, 50, META, (0, 50)), pdu(0, 0), pdu(0, 0, META))} -> refused 26 6 2',
         *TWO, f'{plan(pdu(0, 50, A, B, META))} -> refused 26 6 0', f'{plan(pdu(0, 50, A, B), pdu(0, 0, META), pdu(0, 0, META))} -> refused 26 6 1'),
    case('1: a PDU that does not read',
         # R: "1 reads". PDUs are counted from 0.
         # The second one's directive code is 09.
         *TWO, f'{plan(pdu(0, 50, A, B), "28000900010702090000000000000000")} -> refused 26 1 1',
         # Two (0, 0) in one PDU do not read (2), nor does a reversed scope (18), an empty request (2), a reversed one (3).
         f'{plan(pdu(0, 50, META, META))} -> refused 26 1 0', f'{plan(pdu(9, 4))} -> refused 26 1 0', f'{plan(pdu(0, 50, (5, 5)))} -> refused 26 1 0',
         f'{plan(pdu(0, 50, (20, 10)))} -> refused 26 1 0'),
    case('1: a length of 0 is a PDU that does not read (R)',
         # R: "A length of 0 is a PDU that does not read."
         *NONE, 'plan 1 1 1 7 2 1 0 -> refused 26 1 0', *TWO, f'{plan(pdu(0, 50, A, B), "")} -> refused 26 1 1', f'{plan("", pdu(0, 50, A, B))} -> refused 26 1 0'),
    case('1: cut at the wrong place, lengths that sum to the buffer',
         # D: "PDUs back to back with a list of their 16-bit lengths". Document 01: a packet that is not H plus its length field does not read (16).
         *TWO, f'plan 1 1 1 7 2 2 31 1 {pdu(0, 50, A, B)} -> refused 26 1 0', f'plan 1 1 1 7 2 2 24 24 {pdu(10, 20, A)}{pdu(30, 40, B)} -> fits',
         f'plan 1 1 1 7 2 2 23 25 {pdu(10, 20, A)}{pdu(30, 40, B)} -> refused 26 1 0', f'plan 1 1 1 7 2 1 48 {pdu(10, 20, A)}{pdu(30, 40, B)} -> refused 26 1 0'),
    case('1: under the link\'s edition',
         # R: "(under the link's edition …)".
         *TWO, f'{plan(pdu(0, 50, A, B, head="08"))} -> refused 26 1 0', 'link older plain -> ok', f'{plan(pdu(0, 50, A, B, head="08"))} -> fits',
         f'{plan(pdu(0, 50, A, B))} -> refused 26 1 0'),
    case('1: a PDU may have the CRC flag, and then a right trailer',
         # R: "a PDU may have the CRC flag". Document 02's own example: metadata and 100-200, scope 0-1000, trailer 02 65.
         'new wide 8 -> ok', 'poke 0 100 200 -> ok', 'load 1000 known 1 open -> ok',
         'plan 1 1 1 7 2 1 34 2a001b000107020800000000000003e8000000000000000000000064000000c80265 -> refused 26 6 0',
         'plan 1 1 1 7 2 1 34 2a001b000107020800000000000003e8000000000000000000000064000000c80266 -> refused 26 1 0'),
    case('flags are not identity (R): PDUs with both flags in one plan',
         # R: "Flags are not identity."
         # 29: the large flag, fields of 8 octets: 1 + 16 + 16 = 33 octets behind the header.
         *TWO, f'{plan(pdu(10, 20, A), "29002100010702080000000000000000000000000000003200000000" + "0000001e0000000000000028")} -> fits'),
    case('2: another source, number or destination',
         # D: "all carry the transfer's identity".
         *TWO, f'{plan(pdu(0, 50, A, B), words="1 1 1 8 2")} -> refused 26 2 0', f'{plan(pdu(0, 50, A, B), words="1 1 2 7 2")} -> refused 26 2 0',
         f'{plan(pdu(0, 50, A, B), words="1 1 1 7 1")} -> refused 26 2 0', f'{plan(pdu(0, 50, A, B), pdu(0, 0, identity="00010802"))} -> refused 26 2 1'),
    case('2: the lengths too',
         # D: "(lengths too)". The same numbers, but the sequence number in two octets (octet 3 is 01).
         *TWO, f'{plan(pdu(0, 50, A, B), words="1 2 1 7 2")} -> refused 26 2 0', f'{plan(pdu(0, 50, A, B, identity="0101000702"))} -> refused 26 2 0',
         f'{plan(pdu(0, 50, A, B, identity="0101000702"), words="1 2 1 7 2")} -> fits'),
    case('3: a request out of its PDU\'s scope, by one octet',
         # D: "requests other than (0, 0) lie within their PDU's scope".
         *TWO, f'{plan(pdu(10, 40, A, B))} -> fits', f'{plan(pdu(11, 40, A, B))} -> refused 26 3 0', f'{plan(pdu(10, 39, A, B))} -> refused 26 3 0',
         # Within another PDU's scope is not enough.
         f'{plan(pdu(0, 50), pdu(0, 20, A), pdu(0, 20, B))} -> refused 26 3 2'),
    case('4: an offset twice, across PDUs: the later is blamed',
         # D: "(of a repeat, the later)".
         *TWO, f'{plan(pdu(0, 50, A), pdu(0, 50, B), pdu(0, 50, (19, 20)))} -> refused 26 4 2',
         f'{plan(pdu(0, 50, (19, 20)), pdu(0, 50, B), pdu(0, 50, A))} -> refused 26 4 2'),
    case('4: an offset twice in one PDU',
         # R: "in an earlier PDU or in itself".
         *TWO, f'{plan(pdu(0, 50, A, B, A))} -> refused 26 4 0', f'{plan(pdu(0, 50, B), pdu(0, 50, (10, 15), (14, 20)))} -> refused 26 4 1',
         # Touching is no repeat.
         f'{plan(pdu(0, 50, B), pdu(0, 50, (10, 15), (15, 20)))} -> fits'),
    case('4: the first PDU that repeats, not the first that is repeated',
         # R: "Test 4 blames the first PDU that asks for an offset asked before".
         *TWO, f'{plan(pdu(0, 50, A), pdu(0, 50, B), pdu(0, 50, B), pdu(0, 50, A))} -> refused 26 4 2'),
    case('5: an offset that is not missing: the first PDU that asks for one',
         # R: "blames the first PDU that asks for an offset that is not missing; if there is none, the number of PDUs".
         *TWO, f'{plan(pdu(0, 50, A, B), pdu(0, 50, (20, 21)))} -> refused 26 5 1', f'{plan(pdu(0, 50, (9, 20), B))} -> refused 26 5 0',
         f'{plan(pdu(0, 50, A), pdu(0, 50, (30, 41)))} -> refused 26 5 1', f'{plan(pdu(0, 50, (10, 40)))} -> refused 26 5 0'),
    case('5: past progress nothing is missing',
         # D: "the union is the record's missing offsets": those of the list.
         *TWO, f'{plan(pdu(0, 60, A, B, (50, 60)))} -> refused 26 5 0'),
    case('5: something missing is not asked for: the number of PDUs',
         # D: "where no PDU is at fault but something missing is not asked for, it names the number of PDUs".
         *TWO, f'{plan(pdu(0, 50, A))} -> refused 26 5 1', f'{plan(pdu(0, 50, A), pdu(0, 50, (30, 39)))} -> refused 26 5 2',
         # Both: not missing comes before not asked for.
         f'{plan(pdu(0, 50, (10, 21)), pdu(0, 50))} -> refused 26 5 0'),
    case('each test over all PDUs before the next',
         # D: "Then each test runs over all PDUs before the next, in that order." PDU 0 fails a later test than PDU 1.
         *TWO, f'{plan(pdu(0, 50, A, B), pdu(0, 0, identity="00010802"), pdu(9, 4))} -> refused 26 1 2',
         f'{plan(pdu(0, 5, A, B), pdu(0, 50, identity="00010802"))} -> refused 26 2 1', f'{plan(pdu(0, 50, A, A), pdu(0, 5, B))} -> refused 26 3 1',
         f'{plan(pdu(0, 50, (0, 5)), pdu(0, 50, A, A))} -> refused 26 4 1', f'{plan(pdu(0, 50, A, B, META), pdu(0, 50, (0, 5)))} -> refused 26 5 1'),
    case('10, 8 and 12 of the record come first',
         # D: "Checks: 10, 8, 12, 13, 20 (over 16), 6". N = 17 with bad identity and lengths that don't sum.
         *TWO, 'load 50 known 2 51 -> ok', 'plan 0 1 1 7 2 17' + ' 1' * 17 + ' -> refused 10', 'load 50 known 3 open -> ok',
         'plan 0 1 1 7 2 17' + ' 1' * 17 + ' -> refused 8',
         'load 39 known 2 open -> ok', 'plan 0 1 1 7 2 17' + ' 1' * 17 + ' -> refused 12', 'load 50 known 2 open -> ok',
         'plan 0 1 1 7 2 17' + ' 1' * 17 + ' -> refused 13', 'plan 1 1 1 7 2 17' + ' 1' * 17 + ' -> refused 20',
         'plan 1 1 1 7 2 16' + ' 1' * 16 + ' -> refused 6 16 0'),
    case('13: lengths outside 1 to 8, and numbers that do not fit',
         # Document 01: "an identifier length outside 1 to 8, or a number that does not fit it".
         *NONE, 'plan 0 1 0 7 0 0 -> refused 13', 'plan 9 1 1 7 2 0 -> refused 13', 'plan 1 9 1 7 2 0 -> refused 13', 'plan 1 1 256 7 2 0 -> refused 13',
         'plan 1 1 1 256 2 0 -> refused 13', 'plan 1 1 1 7 256 0 -> refused 13', 'plan 1 1 255 255 255 0 -> fits', 'plan 8 8 1 7 2 0 -> fits'),
    case('20: over 16 PDUs',
         # D: "20 (over 16)".
         *NONE, f'{plan(*[pdu(0, 0)] * 16)} -> fits', f'{plan(*[pdu(0, 0)] * 17)} -> refused 20', f'{plan(*[pdu(0, 0)] * 64)} -> refused 20'),
    case('6 carries the sum and the buffer\'s length (R)',
         # R: "6 carries the sum of the lengths and the buffer's length."
         *TWO, f'plan 1 1 1 7 2 1 31 {pdu(0, 50, A, B)} -> refused 6 31 32', f'plan 1 1 1 7 2 1 33 {pdu(0, 50, A, B)} -> refused 6 33 32',
         'plan 1 1 1 7 2 1 32 -> refused 6 32 0',
         f'plan 1 1 1 7 2 0 {pdu(0, 50, A, B)} -> refused 6 0 32', 'plan 1 1 1 7 2 2 65535 65535 00 -> refused 6 131070 1'),
    case('our own sequence is always accepted',
         # D: "Our own sequence of at most 16 PDUs is always accepted".
         # Document 01: PDUs of 24 octets hold one request each: scopes 0-20 and 20-50.
         *TWO, f'nak 1 1 1 7 2 normal 24 0 16 384 -> pdu {pdu(0, 20, A)} / pdu {pdu(20, 50, B)} / sent 2 48 2', f'{plan(pdu(0, 20, A), pdu(20, 50, B))} -> fits',
         *WAITING, f'nak 1 1 1 7 2 normal 24 0 16 384 -> pdu {pdu(0, 0, META)} / pdu {pdu(0, 50, (0, 50))} / sent 2 48 2',
         f'{plan(pdu(0, 0, META), pdu(0, 50, (0, 50)))} -> fits'),
    case('a plan changes nothing',
         # Document 01: "Nothing lent changes under any of these"; and a plan is only checked.
         *TWO, f'{plan(pdu(0, 50, A, B))} -> fits', 'show -> wide 16 2 50 known open 10 20 30 40', 'plan 1 1 1 7 2 0 -> refused 26 5 0',
         'show -> wide 16 2 50 known open 10 20 30 40'),
    case('words: N to 64, each length to 65,535, octets in lower case, none in a pool',
         # K: "N lengths (N to 64, each to 65,535) and the octets of the PDUs back to back (no word where there are none)"; "over a reception of pairs".
         *NONE, 'plan -> error 3', 'plan 1 1 1 7 2 -> error 4', 'plan 1 1 1 7 2 65' + ' 0' * 65 + ' -> error 5', 'plan 1 1 1 7 2 64' + ' 0' * 64 + ' -> refused 20',
         'plan 1 1 1 7 2 1 -> error 7', 'plan 1 1 1 7 2 1 65536 -> error 8', 'plan 1 1 1 7 2 1 65535 -> refused 6 65535 0', 'plan 1 1 1 7 2 0 2 -> error 10',
         'plan 1 1 1 7 2 0 2A -> error 11', 'plan 1 1 1 7 2 0 2a 2a -> error 12', 'plan 1 1 1 7 2 0 2a -> refused 6 0 1', 'plan 1 1 1 7 2 x -> error 14',
         'pool 3 wide 0 3 -> ok', 'plan 1 1 1 7 2 0 -> error 16', 'for 0 plan 1 1 1 7 2 0 -> error 17'),
]

REQUESTS = {'pool': POOL, 'deferred': DEFERRED, 'plan': PLANS}


def main():
    names = sys.argv[1:] or list(REQUESTS)
    done = wrong = 0
    for name in names:
        for title, told in REQUESTS[name]:
            script = ''.join(f'{line}\n' for line, _ in told).encode('latin-1')
            said = dict(model.answers(script))
            for at, (line, answer) in enumerate(told, 1):
                done += 1
                if ' / '.join(said.get(at, ['(nothing)'])) != answer:
                    wrong += 1
                    print(f'{name}, {title}, line {at}: {line}\n  the papers: {answer}\n  the model:  {" / ".join(said.get(at, ["(nothing)"]))}')
    cases = sum(len(REQUESTS[name]) for name in names)
    print(f'{cases} cases worked out by hand, {done} lines: {wrong or "none"} answered otherwise')
    return not wrong


if __name__ == '__main__':
    sys.exit(0 if main() else 1)
