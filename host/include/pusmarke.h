/* Pusmarke: the store of lost segments, the reception events and the NAK PDUs of a CFDP receiver (CCSDS 727.0-B-5, and an older edition
 * of it where a link speaks that).
 *
 * Link libpusmarke_c.a (x86-64 Linux). No function allocates, keeps a pointer after it returns, or has a state of its own.
 *
 * A slice is two arguments, a pointer and a length in elements (uint64_t of a list, octets of a buffer or packet). The pointer may
 * be null exactly where the length is 0. What one call is lent for writing must not overlap anything else it is lent.
 *
 * A list is flat: start and end of a range by turns. A range is the offsets from its start up to, not including, its end. A store is
 * the first `count` pairs of a list; its capacity is the list's length in pairs, 4,096 at most. A store is narrow where `narrow` is
 * not 0: then no number of it is above 4,294,967,295. The large file flag is set where `large` is not 0: then an offset in a PDU has
 * F = 8 octets, else 4. A PDU is of the older edition where `older` is not 0: its version bits are 000 where the newer edition's are 001,
 * and the bit of the large file flag is reserved and clear. Neither edition's reader accepts a packet of the other. A PDU with the CRC
 * flag (bit 2 of octet 0, value 2) ends in a trailer of two octets, high first: the CRC of all octets before it, by the polynomial 1021 hex
 * from FFFF on (CRC-16/CCITT-FALSE). The length field counts it; it is in no request.
 *
 * Every number may have any value: what does not fit is refused by number. A refused call changes nothing that it is lent.
 * Refusals are looked for in the order in which each function lists them. */
#ifndef PUSMARKE_H
#define PUSMARKE_H

#include <stddef.h>
#include <stdint.h>

#ifdef __cplusplus
extern "C" {
#endif

/* The numbers of the refusals. */
enum pusmarke_refusal {
    PUSMARKE_ACCEPTED = 0,
    PUSMARKE_STORE_FULL = 1,
    PUSMARKE_EMPTY_SEGMENT = 2,
    PUSMARKE_START_LARGER_THAN_END = 3, /* first, second: start, end */
    PUSMARKE_LARGE_FILE_SEGMENT_NOT_SUPPORTED = 4,
    PUSMARKE_INVALID_SEGMENT_BOUNDARY = 5, /* first, second: start, end, as asked for */
    PUSMARKE_BUFFER_SIZE_MISSMATCH = 6, /* first, second: octets needed, octets given */
    PUSMARKE_LARGE_SEGMENT_FOR_NORMAL_FILE_SIZE = 7,
    PUSMARKE_NOT_COALESCED = 8,
    PUSMARKE_RANGE_TOO_LONG = 9,
    PUSMARKE_BAD_STORE = 10,
    PUSMARKE_BAD_CURSOR = 11,
    PUSMARKE_SCOPE_BELOW_LIST = 12,
    PUSMARKE_BAD_IDENTITY = 13,
    PUSMARKE_PDU_SIZE = 14,
    PUSMARKE_BAD_HEADER = 15,
    PUSMARKE_LENGTH_MISMATCH = 16,
    PUSMARKE_NOT_NAK = 17,
    PUSMARKE_SCOPE_REVERSED = 18,
    PUSMARKE_ALREADY_KNOWN = 19,
    PUSMARKE_BUDGET_TOO_LARGE = 20,
    PUSMARKE_BAD_TRAILER = 21,
    PUSMARKE_FILE_SIZE_ERROR = 22,
    PUSMARKE_BAD_POOL = 23,
    PUSMARKE_BAD_TIMER = 25,
    PUSMARKE_BAD_PLAN = 26 /* first, second: the test, 1 to 6, and the PDU, counted from 0 */
};

/* What a removal did: `first` of an accepted pusmarke_remove. The part is the one that leaves. */
enum pusmarke_removed {
    PUSMARKE_REMOVED_NONE = 0,  /* no counted pair had any of the offsets */
    PUSMARKE_REMOVED_WHOLE = 1, /* the whole pair */
    PUSMARKE_REMOVED_LEFT = 2,  /* the left part of the pair, from its start on */
    PUSMARKE_REMOVED_RIGHT = 3, /* the right part, up to its end */
    PUSMARKE_REMOVED_SPLIT = 4  /* a part in the middle: the pair became two */
};

/* What a tick asks of the caller: `first` of the answer of pusmarke_tick. */
enum pusmarke_ticked {
    PUSMARKE_TICK_QUIET = 0, /* nothing is to be done */
    PUSMARKE_TICK_ASK = 1,   /* one full NAK sequence is to be sent */
    PUSMARKE_TICK_LIMIT = 2  /* the limit is reached: said once, and the timer is deaf then */
};

/* What a timer is at: `activity` of one that a call hands back. */
enum pusmarke_activity {
    PUSMARKE_TIMER_IDLE = 0,   /* the size is not known, or nothing is missing */
    PUSMARKE_TIMER_ACTIVE = 1, /* it counts down */
    PUSMARKE_TIMER_DEAF = 2    /* the limit was reported: ticks and events pass it by, until a reset */
};

/* What a call answers: 0 or the refusal's number, and its values in order, 0 where there is none. */
struct pusmarke_answer {
    uint64_t refusal;
    uint64_t first;
    uint64_t second;
    uint64_t third;
};

/* The record of one reception, which the caller keeps beside its list. Of narrow, missing and sized, 0 is no and any other number is
 * yes. */
struct pusmarke_reception {
    uint64_t progress; /* the offset behind the furthest octet noticed or kept; the size, once that is known */
    size_t count;      /* the counted pairs of the list */
    uint64_t narrow;
    uint64_t missing;  /* whether metadata is missing */
    uint64_t sized;    /* whether the file's size is known */
    uint64_t size;     /* the file's size; not looked at where it is not known */
};

/* The timer of the deferred NAK procedure, which the caller keeps beside the record of one reception. It moves by value: each call is given
 * a timer and hands one back, which takes its place. */
struct pusmarke_deferred {
    uint64_t period;   /* the ticks of a countdown */
    uint64_t limit;    /* the asks after which the next countdown ends in the report */
    uint64_t activity; /* an enum pusmarke_activity; a number above 2 is deaf too, and comes back as 2 */
    uint64_t left;     /* the ticks that are left of the countdown; 0 unless active */
    uint64_t counter;  /* the asks since it became active, or since an event or a reset restarted it */
};

/* What a call of the procedure hands back. */
struct pusmarke_heard {
    struct pusmarke_answer answer;
    struct pusmarke_deferred timer; /* the timer afterwards; the one handed over where the call is refused */
};

/* Several transfers that share one list: how many there are, and of each, by its number from 0 on, its record, its floor and its limit,
 * both in ranges. Records, floors and limits behind those are not looked at. */
struct pusmarke_pool {
    size_t used;                          /* 8 at most */
    struct pusmarke_reception records[8]; /* count: the ranges that the transfer holds */
    size_t floors[8];                     /* so many it can hold whatever the others do */
    size_t limits[8];                     /* and so many at most */
};

/* Source and destination entity, of entity_length octets each, and the transaction's sequence number, of number_length octets. */
struct pusmarke_identity {
    size_t entity_length;
    size_t number_length;
    uint64_t source;
    uint64_t number;
    uint64_t destination;
};

/* What a link fixes about the shape of its PDUs. Of each, 0 is no and any other number is yes: all zero is the newer edition with offsets
 * of 4 octets and no trailer. */
struct pusmarke_form {
    uint64_t older; /* the older edition, which has no large file flag */
    uint64_t large; /* the large file flag */
    uint64_t crc;   /* the CRC flag: a trailer of two octets */
};

/* What pusmarke_read hands back. */
struct pusmarke_nak {
    uint64_t refusal; /* 0 or the refusal's number */
    uint64_t start;   /* what refusal 3 carries */
    uint64_t end;
    struct pusmarke_identity identity;
    uint64_t large;   /* 0 or 1; 0 of every packet of the older edition */
    uint64_t crc;     /* 0 or 1: whether it has the CRC flag, and so a trailer */
    uint64_t scope_start;
    uint64_t scope_end;
    size_t from;      /* the octets of the requests: from `from` up to, not including, `to` */
    size_t to;
    size_t next;      /* where pusmarke_next starts */
};

/* What pusmarke_next hands back. */
struct pusmarke_step {
    uint64_t found; /* 1: a request, (start, end); 0: the end */
    uint64_t start;
    uint64_t end;
    size_t at;      /* the place after it */
};

/* Refusal 10 of a store: a list of odd length or of more than 4,096 pairs, a count above the capacity, or, where the store is
 * narrow, a counted number above 4,294,967,295.
 *
 * After an accepted change, slots from the new count up to the old one hold (0, 0); slots past both keep their contents. */

/* Puts (start, end) behind the counted pairs, without looking for overlap.
 * Accepted: first is the new count.
 * Refusals: 10; 2 start equals end; 3 start above end; 4 narrow, and either number above 4,294,967,295; 1 count equals capacity. */
struct pusmarke_answer pusmarke_add(uint64_t *list, size_t list_length, size_t count, uint64_t narrow, uint64_t start,
    uint64_t end);

/* Takes the offsets of (start, end) out of a coalesced list: each pair nonempty, each start above the end before it.
 * Accepted: first is what happened, an enum pusmarke_removed, and third the count afterwards. Where (start, end) lies inside one pair,
 * first is 1 to 4 by the part that leaves, and second that pair's place, from 0, in the list before. Where it shares no offset with any
 * pair, first and second are 0, and nothing changes.
 * Refusals: 10; 4 narrow, and either number above 4,294,967,295; 2 start equals end; 3 start above end; 8 list not coalesced; 5
 * (start, end) shares an offset with some pair and lies inside none; 1 a split, and count equals capacity. */
struct pusmarke_answer pusmarke_remove(uint64_t *list, size_t list_length, size_t count, uint64_t narrow, uint64_t start,
    uint64_t end);

/* Drops the counted pairs with an end at most their start, and leaves the maximal runs of the others, ascending.
 * Accepted: first is the new count. Refusals: 10. */
struct pusmarke_answer pusmarke_coalesce(uint64_t *list, size_t list_length, size_t count, uint64_t narrow);

/* Puts (start, end) into a coalesced list, which stays so: the counted pairs are then the maximal runs of the old ones and the new one.
 * Pairs that it shares an offset with or touches become one with it, so a full list takes a pair that joins.
 * Accepted: first is the new count.
 * Refusals: 10; 2 start equals end; 3 start above end; 4 narrow, and either number above 4,294,967,295; 8 list not coalesced; 1 the list
 * would have more pairs than the capacity. */
struct pusmarke_answer pusmarke_insert(uint64_t *list, size_t list_length, size_t count, uint64_t narrow, uint64_t start,
    uint64_t end);

/* Whether some counted pair (s, e) has start at least s and end at most e. (start, end) is not checked.
 * Accepted: first is 1 for yes and 0 for no. Refusals: 10. */
struct pusmarke_answer pusmarke_segment_in_store(const uint64_t *list, size_t list_length, size_t count, uint64_t narrow,
    uint64_t start, uint64_t end);

/* Writes the counted pairs as the segment requests of a NAK PDU: start and end, F octets each, big-endian.
 * Accepted: first is the octets written, all of the buffer.
 * Refusals: 10; 6 buffer length is not count times 2F; 7 normal flag, and a counted number above 4,294,967,295. */
struct pusmarke_answer pusmarke_write_segments_to_bytes(const uint64_t *list, size_t list_length, size_t count, uint64_t narrow,
    uint64_t large, uint8_t *buffer, size_t buffer_length);

/* A fresh record: progress 0, count 0, metadata missing, the size not known (its number is 0), and narrow as handed over. */
struct pusmarke_reception pusmarke_fresh(uint64_t narrow);

/* Refusals of a record, in this order: 10 as above, or narrow with a progress above 4,294,967,295, or metadata missing and a list
 * that is not exactly (0, progress), empty at progress 0, or the size known and not progress; 8 list not coalesced; 12 the last end
 * above progress. */

/* The data event: `length` octets came at `offset`. `record` is never null.
 * While metadata is missing the range is noticed, not kept: the list is (0, progress). Else the range is kept: its offsets leave the
 * list, and offsets from progress up to `offset` become missing. In both, progress becomes the larger of itself and the range's end.
 * Accepted: first is 0 for noticed and 1 for kept. Count and progress of the record change where they lie; all else stays.
 * Refusals: those of a record; 2 length 0; 9 offset + length above 2^64 - 1; 4 narrow, and the end above 4,294,967,295; 22 the size is
 * known and the end is past it; 1 the list would have more pairs than the capacity. The caller does not file the octets of a refused
 * event. */
struct pusmarke_answer pusmarke_data(struct pusmarke_reception *record, uint64_t *list, size_t list_length, uint64_t offset,
    uint64_t length);

/* The metadata event. `record` is never null. Accepted: missing becomes 0; all else stays.
 * Refusals: those of a record; 19 metadata is known. */
struct pusmarke_answer pusmarke_metadata(struct pusmarke_reception *record, const uint64_t *list, size_t list_length);

/* The end of file: the file has `size` octets. `record` is never null.
 * Offsets from progress up to the size become missing, one with the last pair where that ends at progress; while metadata is missing the
 * list is (0, size), empty at size 0. Progress becomes the size. The same size again changes nothing of that.
 * Accepted: no value. Count, progress, sized (to 1) and size of the record change where they lie; all else stays.
 * Refusals: those of a record; 4 narrow, and the size above 4,294,967,295; 22 the size below progress, or another one is known; 1 the
 * list would have more pairs than the capacity. */
struct pusmarke_answer pusmarke_eof(struct pusmarke_reception *record, uint64_t *list, size_t list_length, uint64_t size);

/* Whether every octet from `start` up to, not including, `end` was kept. It was exactly if metadata is known, end is at most progress
 * and no counted pair has an offset of (start, end). Nothing changes.
 * Accepted: first is 1 for yes and 0 for no. What lies past progress was not kept, whatever the width.
 * Refusals: those of a record; 2 start equals end; 3 start above end. */
struct pusmarke_answer pusmarke_held(struct pusmarke_reception record, const uint64_t *list, size_t list_length, uint64_t start,
    uint64_t end);

/* How many octets are missing: the offsets of the counted pairs. Before the end of file that is of the octets below progress; a tail
 * that nothing has told of is not counted. Nothing changes.
 * Accepted: first is the number, at most progress. Refusals: those of a record. */
struct pusmarke_answer pusmarke_missing_octets(struct pusmarke_reception record, const uint64_t *list, size_t list_length);

/* The deferred NAK procedure, for a reception whose NAK PDUs are sent by a timer after the end of file. Its inputs are the events below, in
 * the place of pusmarke_data, pusmarke_metadata and pusmarke_eof, and ticks, which the caller makes at its own pace; no clock is read. An
 * event that is told to the record alone passes the timer by.
 *
 * After each accepted event it is judged: where the size is known and anything is missing, metadata included, the timer is active, else
 * idle, with left and counter 0. Where it becomes active, left is the period and counter 0. Where it was active, an event that
 * lowers the number of missing octets, and the metadata event, put left to the period and counter to 0; any other event leaves both. A
 * refused event changes nothing. A deaf timer hears no event; the record takes it all the same. */

/* A timer of countdowns of d ticks, 1 to 65,535, and a limit of 1 to 255 asks. It is idle, with no look at any record: made after the
 * end of file, it waits for the next accepted event, of which the same end of file again is one, or for a reset.
 * Accepted: no value. Refused: a timer that is all 0. Refusals: 25 d or limit outside its range. */
struct pusmarke_heard pusmarke_deferred(uint64_t d, uint64_t limit);

/* One tick. An active timer counts down; on the last tick of a countdown it asks for one NAK sequence from cursor 0 to the end, raises its
 * counter and starts anew, or, where the counter has reached the limit, it reports that and is deaf, left 0 and the counter as it was. If
 * no event is accepted and no reset made after it became active, it asks at ticks d, 2d, up to limit * d, and reports at
 * d * (limit + 1). Ticks pass by an idle and a deaf timer. Any numbers are fine.
 * Accepted: first is an enum pusmarke_ticked. It is refused never. */
struct pusmarke_heard pusmarke_tick(struct pusmarke_deferred timer);

/* A reset, at which the timer is judged whatever it was: active with left the period and counter 0, or idle. Record and list are only
 * read. Accepted: no value. Refusals: those of a record. */
struct pusmarke_heard pusmarke_reset(struct pusmarke_deferred timer, struct pusmarke_reception record, const uint64_t *list,
    size_t list_length);

/* The three events with their timer. What they do to record and list, what they answer and what they refuse is as of pusmarke_data,
 * pusmarke_metadata and pusmarke_eof. */
struct pusmarke_heard pusmarke_deferred_data(struct pusmarke_reception *record, uint64_t *list, size_t list_length, uint64_t offset,
    uint64_t length, struct pusmarke_deferred timer);
struct pusmarke_heard pusmarke_deferred_metadata(struct pusmarke_reception *record, const uint64_t *list, size_t list_length,
    struct pusmarke_deferred timer);
struct pusmarke_heard pusmarke_deferred_eof(struct pusmarke_reception *record, uint64_t *list, size_t list_length, uint64_t size,
    struct pusmarke_deferred timer);

/* Refusal 13: an identifier length outside 1 to 8, or a number that does not fit its length. The header has
 * H = 4 + 2 * entity_length + number_length octets. A request (0, 0) asks for metadata; it may stand at
 * any place, once. */

/* Writes one NAK PDU of this identity, form, scope and flat list of requests, which may be empty.
 * Accepted: first is the octets written, all of the buffer: H + 1 + 2F, 2F for each request, and 2 for the trailer if there is one.
 * Refusals: 10 a list of odd length or of more than 4,096 pairs; 13; 15 the older edition with the large file flag; 18 scope start above
 * scope end; then request by request, 3 start above end or 2 start equals end, but for the first (0, 0) among them; 7 normal flag, and a
 * number of the scope or of a request above 4,294,967,295; 14 the PDU, with its trailer, above 4,096 octets; 6 the buffer is not exactly as
 * long as the PDU. */
struct pusmarke_answer pusmarke_write(struct pusmarke_identity identity, struct pusmarke_form form, uint64_t scope_start,
    uint64_t scope_end, const uint64_t *requests, size_t requests_length, uint8_t *buffer, size_t buffer_length);

/* Reads one NAK PDU of the older edition where `older` is not 0, else of the newer; with a trailer where it has the CRC flag, else without.
 * Accepted: what it says. Its requests are the packet's own octets from `from` up to `to`, where the trailer begins if there is one.
 * Refused: the number, what refusal 3 carries, `next` the packet's length, and all else 0.
 * Refusals: 16 below 4 octets; 15 a fixed bit of octets 0 and 3 wrong, among them the version bits, and of the older edition the lowest bit
 * of octet 0; 16 the packet is not H octets and its length field's, or that is 0, with the CRC flag below 3; 21 the CRC flag, and the
 * trailer is not the CRC of all octets before it; 17 directive code not 8; 16 the data field without its trailer is not 1 + 2F octets and
 * whole requests; 18 scope start above scope end; then request by request, 3 and 2 as in pusmarke_write; 14 above 4,096 octets, the trailer
 * counted. */
struct pusmarke_nak pusmarke_read(const uint8_t *packet, size_t packet_length, uint64_t older);

/* The request at a place of a packet, and the place behind it. Start at `next` of pusmarke_read and go on at `at`, until the end is
 * found: fewer than 2F octets from the place to the packet's end without its trailer, F by the lowest bit of octet 0, the trailer of two
 * octets by the bit above it, whatever the edition and whatever the trailer's octets. At the end `at` stays. Any octets and any place are
 * fine. */
struct pusmarke_step pusmarke_next(const uint8_t *packet, size_t packet_length, size_t at);

/* The NAK sequence: PDUs of at most `largest` octets that ask for all that is missing, at most `budget` of them, back to back.
 * The entries are (0, 0) if metadata is missing, then the list. A PDU takes the next k of them, k = (largest - H - 1 - 2F) / 2F rounded
 * down, with the CRC flag (largest - H - 3 - 2F) / 2F. The first call has cursor 0, each later one the cursor that the last one gave; at
 * the end the cursor is the number of entries, and no PDU is written.
 * Accepted: first is the PDUs, second the octets written, third the new cursor. Octets behind those written stay.
 * Refusals: those of a record; 13; 15 the older edition with the large file flag; 14 largest above 4,096 or below H + 1 + 4F, with the CRC
 * flag H + 3 + 4F, room for one request; 7 normal flag, and progress or a counted number above 4,294,967,295; 11 cursor above the number
 * of entries; 20 budget above 16; 6 the buffer is shorter than budget times largest, which is the number needed. */
struct pusmarke_answer pusmarke_nak_sequence(struct pusmarke_reception record, const uint64_t *list, size_t list_length,
    struct pusmarke_identity identity, struct pusmarke_form form, size_t largest, size_t cursor, size_t budget, uint8_t *buffer,
    size_t buffer_length);

/* PDUs that mission planning proposes, checked against the record: `octets` holds them back to back, `lengths` the octets of each. `older`
 * is the link's edition, not 0 for the older one; a PDU may have the CRC flag. `scratch` is lent to sort the requests in: two numbers for
 * each eight octets, or more; what it holds does not matter, and those numbers are 0 afterwards unless a refusal before 26 was given.
 * Accepted: every PDU reads, all carry the identity, requests other than (0, 0) lie within their PDU's scope, no offset is asked for twice,
 * the union is what is missing, and metadata is asked for once if it is missing and otherwise nowhere.
 * Refusals: those of a record; 13; 20 more than 16 PDUs; 6 the lengths do not sum to the octets, first their sum, second the octets given;
 * 6 the scratch is too short, first the numbers needed, second those given; 26 first the first of these six tests that fails, second the
 * first PDU at fault (of a repeat the later), or the number of PDUs where something missing is not asked for. */
struct pusmarke_answer pusmarke_check_plan(struct pusmarke_reception record, const uint64_t *list, size_t list_length,
    struct pusmarke_identity identity, uint64_t older, const uint16_t *lengths, size_t pdus, const uint8_t *octets, size_t octets_length,
    uint64_t *scratch, size_t scratch_length);

/* Several transfers, one list. The list's capacity, S ranges, serves all transfers of a pool; it holds their ranges back to back, in the
 * order of their numbers, so a slot that one gives up serves any. The caller keeps the pool as it keeps a record, and lends the whole
 * list to every call.
 *
 * Room: where a transfer holds m ranges, an event that would make it m + 1 is refused by 1 exactly if m + 1 is above its limit, or if m is
 * at or above its floor and the sum, over all transfers, of the larger of ranges held and floor is S. So a transfer that holds fewer ranges
 * than its floor is never refused for room, whatever the others do. Otherwise the others matter to it through that sum alone.
 *
 * After an accepted event, slots from the pool's new count of ranges up to the old one hold (0, 0); slots past both keep their contents.
 *
 * Refusals of a pool, in this order: 23 more than eight transfers, a floor above its limit, floors that sum to more than S, or no
 * transfer of that number; 10 a list of odd length or of more than 4,096 pairs, a transfer that holds more ranges than its limit, that
 * sum above S, or any transfer's record that would be 10 by itself over its own ranges; 8 and 12 as of a record, of the transfer named. */

/* A pool without transfers. All its numbers are 0. */
struct pusmarke_pool pusmarke_pool_fresh(void);

/* The pool with one transfer more, numbered by the pool's old `used`: a fresh record as of pusmarke_fresh, and these settings, which are
 * not checked here but at each call. A ninth makes a pool that every call refuses by 23. It is given by value and handed back: the one
 * that was handed over stays good. */
struct pusmarke_pool pusmarke_pool_add(struct pusmarke_pool pool, uint64_t narrow, size_t floor, size_t limit);

/* The three events of a transfer: as pusmarke_data, pusmarke_metadata and pusmarke_eof on its record and its ranges, with that rule for
 * room. `pool` is never null. Only that transfer's record changes where it lies.
 * Refusals: those of a pool; then those of the event behind a record's: data 2, 9, 4, 22, 1; metadata 19; end of file 4, 22, 1. */
struct pusmarke_answer pusmarke_pool_data(struct pusmarke_pool *pool, uint64_t *list, size_t list_length, size_t transfer,
    uint64_t offset, uint64_t length);
struct pusmarke_answer pusmarke_pool_metadata(struct pusmarke_pool *pool, const uint64_t *list, size_t list_length, size_t transfer);
struct pusmarke_answer pusmarke_pool_eof(struct pusmarke_pool *pool, uint64_t *list, size_t list_length, size_t transfer, uint64_t size);

/* What was kept of a transfer, how many of its octets are missing, and its NAK sequence: as pusmarke_held, pusmarke_missing_octets and
 * pusmarke_nak_sequence. Pool and list are only read. Refusals: those of a pool; then those of the call behind a record's. */
struct pusmarke_answer pusmarke_pool_held(struct pusmarke_pool pool, const uint64_t *list, size_t list_length, size_t transfer,
    uint64_t start, uint64_t end);
struct pusmarke_answer pusmarke_pool_missing_octets(struct pusmarke_pool pool, const uint64_t *list, size_t list_length,
    size_t transfer);
struct pusmarke_answer pusmarke_pool_nak_sequence(struct pusmarke_pool pool, const uint64_t *list, size_t list_length, size_t transfer,
    struct pusmarke_identity identity, struct pusmarke_form form, size_t largest, size_t cursor, size_t budget, uint8_t *buffer,
    size_t buffer_length);

#ifdef __cplusplus
}
#endif

#endif
