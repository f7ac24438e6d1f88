/* Calls every function of pusmarke.h: a small transfer, and each refusal of each call at least once, with what it carries and that
 * nothing lent changed. Prints a line for what is wrong, and at the end the number of checks. */
#include "pusmarke.h"

#include <stdio.h>
#include <string.h>

#define NARROW_LIMIT 4294967295u
#define PAIRS 4097

static unsigned checks, wrong;

static void holds(int line, int ok) {
    checks++;
    if (!ok) {
        wrong++;
        printf("line %d: wrong\n", line);
    }
}

static void is(int line, struct pusmarke_answer a, uint64_t refusal, uint64_t first, uint64_t second, uint64_t third) {
    checks++;
    if (a.refusal != refusal || a.first != first || a.second != second || a.third != third) {
        wrong++;
        printf("line %d: refusal %llu, values %llu %llu %llu\n", line, (unsigned long long)a.refusal, (unsigned long long)a.first,
            (unsigned long long)a.second, (unsigned long long)a.third);
    }
}

#define HOLDS(ok) holds(__LINE__, (ok))
#define ACCEPTED(call, first, second, third) is(__LINE__, (call), PUSMARKE_ACCEPTED, (first), (second), (third))
#define REFUSED(call, number) is(__LINE__, (call), (number), 0, 0, 0)
#define CARRIES(call, number, first, second) is(__LINE__, (call), (number), (first), (second), 0)
#define SAME(a, b) HOLDS(memcmp((a), (b), sizeof(a)) == 0)

/* Longer than any store: 4,097 pairs. */
static uint64_t long_list[2 * PAIRS];
static uint8_t large_buffer[16 * 4096];

/* Each part of the first, the middle and the last of three pairs, on wide and narrow stores. */
static void removals(void) {
    static const uint64_t was[8] = {10, 20, 30, 40, 50, 60, 7, 8};
    static const struct {
        uint64_t start, end, what, place, count, left[8];
    } cases[] = {
        {10, 20, PUSMARKE_REMOVED_WHOLE, 0, 2, {30, 40, 50, 60, 0, 0, 7, 8}},
        {30, 40, PUSMARKE_REMOVED_WHOLE, 1, 2, {10, 20, 50, 60, 0, 0, 7, 8}},
        {50, 60, PUSMARKE_REMOVED_WHOLE, 2, 2, {10, 20, 30, 40, 0, 0, 7, 8}},
        {10, 15, PUSMARKE_REMOVED_LEFT, 0, 3, {15, 20, 30, 40, 50, 60, 7, 8}},
        {30, 31, PUSMARKE_REMOVED_LEFT, 1, 3, {10, 20, 31, 40, 50, 60, 7, 8}},
        {50, 59, PUSMARKE_REMOVED_LEFT, 2, 3, {10, 20, 30, 40, 59, 60, 7, 8}},
        {15, 20, PUSMARKE_REMOVED_RIGHT, 0, 3, {10, 15, 30, 40, 50, 60, 7, 8}},
        {39, 40, PUSMARKE_REMOVED_RIGHT, 1, 3, {10, 20, 30, 39, 50, 60, 7, 8}},
        {51, 60, PUSMARKE_REMOVED_RIGHT, 2, 3, {10, 20, 30, 40, 50, 51, 7, 8}},
        {12, 18, PUSMARKE_REMOVED_SPLIT, 0, 4, {10, 12, 18, 20, 30, 40, 50, 60}},
        {31, 39, PUSMARKE_REMOVED_SPLIT, 1, 4, {10, 20, 30, 31, 39, 40, 50, 60}},
        {55, 56, PUSMARKE_REMOVED_SPLIT, 2, 4, {10, 20, 30, 40, 50, 55, 56, 60}},
        {0, 10, PUSMARKE_REMOVED_NONE, 0, 3, {10, 20, 30, 40, 50, 60, 7, 8}},
        {40, 50, PUSMARKE_REMOVED_NONE, 0, 3, {10, 20, 30, 40, 50, 60, 7, 8}},
    };
    uint64_t list[8], narrow;
    size_t i;

    for (narrow = 0; narrow < 2; narrow++) {
        for (i = 0; i < sizeof cases / sizeof cases[0]; i++) {
            memcpy(list, was, sizeof was);
            ACCEPTED(pusmarke_remove(list, 8, 3, narrow, cases[i].start, cases[i].end), cases[i].what, cases[i].place, cases[i].count);
            SAME(cases[i].left, list);
        }
    }
}

/* Ranges put before, between and behind three pairs, touching, inside, over and across them; on wide and narrow stores, full and with room
 * for one pair: a full one takes what joins, and nothing else. */
static void insertions(void) {
    static const uint64_t was[8] = {10, 20, 30, 40, 50, 60, 7, 8};
    static const struct {
        uint64_t start, end, count, left[8];
    } cases[] = {
        {0, 9, 4, {0, 9, 10, 20, 30, 40, 50, 60}},
        {22, 28, 4, {10, 20, 22, 28, 30, 40, 50, 60}},
        {41, 49, 4, {10, 20, 30, 40, 41, 49, 50, 60}},
        {61, 62, 4, {10, 20, 30, 40, 50, 60, 61, 62}},
        {0, 10, 3, {0, 20, 30, 40, 50, 60, 7, 8}},
        {20, 29, 3, {10, 29, 30, 40, 50, 60, 7, 8}},
        {21, 30, 3, {10, 20, 21, 40, 50, 60, 7, 8}},
        {60, 61, 3, {10, 20, 30, 40, 50, 61, 7, 8}},
        {10, 20, 3, {10, 20, 30, 40, 50, 60, 7, 8}},
        {31, 39, 3, {10, 20, 30, 40, 50, 60, 7, 8}},
        {55, 60, 3, {10, 20, 30, 40, 50, 60, 7, 8}},
        {25, 45, 3, {10, 20, 25, 45, 50, 60, 7, 8}},
        {20, 30, 2, {10, 40, 50, 60, 0, 0, 7, 8}},
        {40, 50, 2, {10, 20, 30, 60, 0, 0, 7, 8}},
        {15, 31, 2, {10, 40, 50, 60, 0, 0, 7, 8}},
        {39, 55, 2, {10, 20, 30, 60, 0, 0, 7, 8}},
        {20, 50, 1, {10, 60, 0, 0, 0, 0, 7, 8}},
        {0, 70, 1, {0, 70, 0, 0, 0, 0, 7, 8}},
    };
    uint64_t list[8], narrow;
    size_t i;

    for (narrow = 0; narrow < 2; narrow++) {
        for (i = 0; i < sizeof cases / sizeof cases[0]; i++) {
            memcpy(list, was, sizeof was);
            ACCEPTED(pusmarke_insert(list, 8, 3, narrow, cases[i].start, cases[i].end), cases[i].count, 0, 0);
            SAME(cases[i].left, list);
            memcpy(list, was, sizeof was);
            if (cases[i].count > 3) {
                REFUSED(pusmarke_insert(list, 6, 3, narrow, cases[i].start, cases[i].end), PUSMARKE_STORE_FULL);
                SAME(was, list);
            } else {
                ACCEPTED(pusmarke_insert(list, 6, 3, narrow, cases[i].start, cases[i].end), cases[i].count, 0, 0);
                SAME(cases[i].left, list);
            }
        }
    }
}

static void store(void) {
    uint64_t list[6] = {10, 20, 30, 40, 7, 8};
    const uint64_t was[6] = {10, 20, 30, 40, 7, 8};
    const uint64_t added[6] = {10, 20, 30, 40, 50, 60};
    const uint64_t split[6] = {10, 12, 18, 20, 30, 40};
    const uint64_t apart[8] = {30, 40, 10, 20, 20, 30, 12, 13};
    const uint64_t run[8] = {10, 40, 0, 0, 0, 0, 0, 0};
    const uint64_t wide[4] = {1, 2, 3, 4294967296u};
    const uint64_t last[6] = {10, 20, 30, 40, 50, UINT64_MAX};
    const uint64_t first[8] = {0, NARROW_LIMIT, 10, 20, 20, 30, 12, 13};
    uint64_t other[8], unfit[4];
    uint8_t buf[16], kept[16];
    const uint8_t octets[16] = {0, 0, 0, 10, 0, 0, 0, 20, 0, 0, 0, 30, 0, 0, 0, 40};
    const uint8_t octets8[16] = {0, 0, 0, 0, 0, 0, 0, 10, 0, 0, 0, 0, 0, 0, 0, 20};

    /* add */
    REFUSED(pusmarke_add(list, 5, 2, 0, 50, 60), PUSMARKE_BAD_STORE);
    REFUSED(pusmarke_add(list, 6, 4, 0, 50, 60), PUSMARKE_BAD_STORE);
    REFUSED(pusmarke_add(list, 6, SIZE_MAX, 0, 50, 60), PUSMARKE_BAD_STORE);
    REFUSED(pusmarke_add(long_list, 2 * PAIRS, 0, 0, 50, 60), PUSMARKE_BAD_STORE);
    memcpy(other, wide, sizeof wide);
    REFUSED(pusmarke_add(other, 4, 2, 9, 50, 60), PUSMARKE_BAD_STORE);
    REFUSED(pusmarke_add(list, 6, 2, 1, 4294967296u, 4294967296u), PUSMARKE_EMPTY_SEGMENT);
    CARRIES(pusmarke_add(list, 6, 2, 0, 60, 50), PUSMARKE_START_LARGER_THAN_END, 60, 50);
    REFUSED(pusmarke_add(list, 6, 2, 1, 50, 4294967296u), PUSMARKE_LARGE_FILE_SEGMENT_NOT_SUPPORTED);
    REFUSED(pusmarke_add(list, 4, 2, 0, 50, 60), PUSMARKE_STORE_FULL);
    REFUSED(pusmarke_add(NULL, 0, 0, 0, 50, 60), PUSMARKE_STORE_FULL);
    REFUSED(pusmarke_add(NULL, 0, 1, 0, 50, 60), PUSMARKE_BAD_STORE);
    SAME(was, list);
    SAME(wide, other);
    ACCEPTED(pusmarke_add(list, 6, 2, 1, 50, 60), 3, 0, 0);
    SAME(added, list);
    ACCEPTED(pusmarke_add(other, 8, 0, 1, 0, NARROW_LIMIT), 1, 0, 0);

    /* remove */
    memcpy(list, was, sizeof was);
    REFUSED(pusmarke_remove(list, 5, 2, 0, 12, 18), PUSMARKE_BAD_STORE);
    REFUSED(pusmarke_remove(list, 6, SIZE_MAX, 0, 12, 18), PUSMARKE_BAD_STORE);
    REFUSED(pusmarke_remove(list, 6, 2, 1, 4294967296u, 4294967296u), PUSMARKE_LARGE_FILE_SEGMENT_NOT_SUPPORTED);
    REFUSED(pusmarke_remove(list, 6, 2, 0, 12, 12), PUSMARKE_EMPTY_SEGMENT);
    CARRIES(pusmarke_remove(list, 6, 2, 0, 18, 12), PUSMARKE_START_LARGER_THAN_END, 18, 12);
    REFUSED(pusmarke_remove(list, 6, 3, 0, 12, 18), PUSMARKE_NOT_COALESCED);
    CARRIES(pusmarke_remove(list, 6, 2, 0, 5, 25), PUSMARKE_INVALID_SEGMENT_BOUNDARY, 5, 25);
    REFUSED(pusmarke_remove(list, 4, 2, 0, 12, 18), PUSMARKE_STORE_FULL);
    ACCEPTED(pusmarke_remove(list, 6, 2, 0, 20, 30), PUSMARKE_REMOVED_NONE, 0, 2);
    ACCEPTED(pusmarke_remove(NULL, 0, 0, 0, 20, 30), PUSMARKE_REMOVED_NONE, 0, 0);
    SAME(was, list);
    ACCEPTED(pusmarke_remove(list, 6, 2, 0, 12, 18), PUSMARKE_REMOVED_SPLIT, 0, 3);
    SAME(split, list);

    /* coalesce */
    memcpy(other, apart, sizeof apart);
    REFUSED(pusmarke_coalesce(other, 7, 1, 0), PUSMARKE_BAD_STORE);
    REFUSED(pusmarke_coalesce(other, 8, SIZE_MAX, 0), PUSMARKE_BAD_STORE);
    SAME(apart, other);
    ACCEPTED(pusmarke_coalesce(other, 8, 4, 0), 1, 0, 0);
    SAME(run, other);
    ACCEPTED(pusmarke_coalesce(NULL, 0, 0, 0), 0, 0, 0);

    /* insert: each refusal, with faults behind it that it comes before */
    memcpy(list, was, sizeof was);
    memcpy(other, apart, sizeof apart);
    REFUSED(pusmarke_insert(list, 5, 2, 0, 60, 50), PUSMARKE_BAD_STORE);
    REFUSED(pusmarke_insert(list, 6, 4, 0, 50, 50), PUSMARKE_BAD_STORE);
    REFUSED(pusmarke_insert(list, 6, SIZE_MAX, 0, 50, 60), PUSMARKE_BAD_STORE);
    REFUSED(pusmarke_insert(long_list, 2 * PAIRS, 0, 0, 50, 60), PUSMARKE_BAD_STORE);
    REFUSED(pusmarke_insert(NULL, 0, 1, 0, 50, 60), PUSMARKE_BAD_STORE);
    memcpy(unfit, wide, sizeof wide);
    REFUSED(pusmarke_insert(unfit, 4, 2, 9, 50, 60), PUSMARKE_BAD_STORE);
    SAME(wide, unfit);
    REFUSED(pusmarke_insert(other, 8, 4, 1, 4294967296u, 4294967296u), PUSMARKE_EMPTY_SEGMENT);
    CARRIES(pusmarke_insert(other, 8, 4, 1, 4294967296u, 50), PUSMARKE_START_LARGER_THAN_END, 4294967296u, 50);
    REFUSED(pusmarke_insert(other, 8, 4, 1, 50, 4294967296u), PUSMARKE_LARGE_FILE_SEGMENT_NOT_SUPPORTED);
    REFUSED(pusmarke_insert(other, 8, 4, 0, 50, 60), PUSMARKE_NOT_COALESCED);
    REFUSED(pusmarke_insert(list, 6, 3, 0, 50, 60), PUSMARKE_NOT_COALESCED);
    REFUSED(pusmarke_insert(list, 4, 2, 0, 50, 60), PUSMARKE_STORE_FULL);
    REFUSED(pusmarke_insert(NULL, 0, 0, 0, 50, 60), PUSMARKE_STORE_FULL);
    SAME(was, list);
    SAME(apart, other);
    ACCEPTED(pusmarke_insert(list, 6, 2, 0, 50, UINT64_MAX), 3, 0, 0);
    SAME(last, list);
    ACCEPTED(pusmarke_insert(other, 8, 0, 1, 0, NARROW_LIMIT), 1, 0, 0);
    SAME(first, other);

    /* segment_in_store */
    ACCEPTED(pusmarke_segment_in_store(was, 6, 2, 0, 12, 18), 1, 0, 0);
    ACCEPTED(pusmarke_segment_in_store(was, 6, 2, 0, 12, 28), 0, 0, 0);
    ACCEPTED(pusmarke_segment_in_store(was, 6, 2, 0, 18, 12), 1, 0, 0);
    ACCEPTED(pusmarke_segment_in_store(NULL, 0, 0, 0, 1, 2), 0, 0, 0);
    REFUSED(pusmarke_segment_in_store(was, 3, 1, 0, 12, 18), PUSMARKE_BAD_STORE);

    /* write_segments_to_bytes */
    memset(buf, 0xaa, sizeof buf);
    memcpy(kept, buf, sizeof buf);
    REFUSED(pusmarke_write_segments_to_bytes(was, 6, 4, 0, 0, buf, 16), PUSMARKE_BAD_STORE);
    CARRIES(pusmarke_write_segments_to_bytes(was, 6, 2, 0, 0, buf, 15), PUSMARKE_BUFFER_SIZE_MISSMATCH, 16, 15);
    CARRIES(pusmarke_write_segments_to_bytes(was, 6, 2, 0, 5, buf, 16), PUSMARKE_BUFFER_SIZE_MISSMATCH, 32, 16);
    REFUSED(pusmarke_write_segments_to_bytes(wide, 4, 2, 0, 0, buf, 16), PUSMARKE_LARGE_SEGMENT_FOR_NORMAL_FILE_SIZE);
    SAME(kept, buf);
    ACCEPTED(pusmarke_write_segments_to_bytes(was, 6, 2, 0, 0, buf, 16), 16, 0, 0);
    SAME(octets, buf);
    ACCEPTED(pusmarke_write_segments_to_bytes(was, 6, 1, 0, 3, buf, 16), 16, 0, 0);
    SAME(octets8, buf);
    ACCEPTED(pusmarke_write_segments_to_bytes(NULL, 0, 0, 0, 0, NULL, 0), 0, 0, 0);
}

static int sized_is(struct pusmarke_reception r, uint64_t progress, size_t count, uint64_t narrow, uint64_t missing, uint64_t sized,
    uint64_t size) {
    return r.progress == progress && r.count == count && r.narrow == narrow && r.missing == missing && r.sized == sized && r.size == size;
}

/* A record whose size was never set. */
static int record_is(struct pusmarke_reception r, uint64_t progress, size_t count, uint64_t narrow, uint64_t missing) {
    return sized_is(r, progress, count, narrow, missing, 0, 0);
}

static void events(void) {
    uint64_t list[4] = {0, 0, 5, 6};
    const uint64_t noticed[4] = {0, 60, 5, 6};
    const uint64_t joined[4] = {0, 70, 5, 6};
    const uint64_t holes[4] = {100, 120, 150, 200};
    const uint64_t none[4] = {0, 0, 0, 0};
    struct pusmarke_reception r = pusmarke_fresh(0), q;

    HOLDS(record_is(r, 0, 0, 0, 1));
    HOLDS(record_is(pusmarke_fresh(7), 0, 0, 7, 1));

    /* waiting: noticed; then metadata; then kept behind a gap */
    ACCEPTED(pusmarke_data(&r, list, 4, 50, 10), 0, 0, 0);
    HOLDS(record_is(r, 60, 1, 0, 1));
    SAME(noticed, list);
    q = r;
    q.missing = 9;
    ACCEPTED(pusmarke_data(&q, list, 4, 0, 1), 0, 0, 0);
    HOLDS(record_is(q, 60, 1, 0, 9));
    ACCEPTED(pusmarke_metadata(&q, list, 4), 0, 0, 0);
    HOLDS(record_is(q, 60, 1, 0, 0));
    ACCEPTED(pusmarke_metadata(&r, list, 4), 0, 0, 0);
    HOLDS(record_is(r, 60, 1, 0, 0));
    REFUSED(pusmarke_metadata(&r, list, 4), PUSMARKE_ALREADY_KNOWN);
    ACCEPTED(pusmarke_data(&r, list, 4, 70, 10), 1, 0, 0);
    HOLDS(record_is(r, 80, 1, 0, 0));
    SAME(joined, list);

    /* known: two holes, and both filled at once */
    r = pusmarke_fresh(0);
    memset(list, 0, sizeof list);
    ACCEPTED(pusmarke_metadata(&r, list, 4), 0, 0, 0);
    ACCEPTED(pusmarke_data(&r, list, 4, 0, 100), 1, 0, 0);
    ACCEPTED(pusmarke_data(&r, list, 4, 200, 100), 1, 0, 0);
    q = r;
    REFUSED(pusmarke_data(&q, list, 2, 120, 30), PUSMARKE_STORE_FULL);
    HOLDS(record_is(q, 300, 1, 0, 0));
    ACCEPTED(pusmarke_data(&r, list, 4, 120, 30), 1, 0, 0);
    HOLDS(record_is(r, 300, 2, 0, 0));
    SAME(holes, list);

    /* refusals change neither record nor list */
    q = r;
    REFUSED(pusmarke_data(&q, list, 3, 0, 1), PUSMARKE_BAD_STORE);
    q.missing = 2;
    REFUSED(pusmarke_data(&q, list, 4, 0, 1), PUSMARKE_BAD_STORE);
    REFUSED(pusmarke_metadata(&q, list, 4), PUSMARKE_BAD_STORE);
    HOLDS(record_is(q, 300, 2, 0, 2));
    q = r;
    q.count = SIZE_MAX;
    REFUSED(pusmarke_data(&q, list, 4, 0, 1), PUSMARKE_BAD_STORE);
    HOLDS(record_is(q, 300, SIZE_MAX, 0, 0));
    q = r;
    q.progress = 199;
    REFUSED(pusmarke_data(&q, list, 4, 0, 1), PUSMARKE_SCOPE_BELOW_LIST);
    REFUSED(pusmarke_metadata(&q, list, 4), PUSMARKE_SCOPE_BELOW_LIST);
    HOLDS(record_is(q, 199, 2, 0, 0));
    REFUSED(pusmarke_data(&r, list, 4, UINT64_MAX, 0), PUSMARKE_EMPTY_SEGMENT);
    REFUSED(pusmarke_data(&r, list, 4, UINT64_MAX, 1), PUSMARKE_RANGE_TOO_LONG);
    q = r;
    q.narrow = 4;
    REFUSED(pusmarke_data(&q, list, 4, NARROW_LIMIT, 1), PUSMARKE_LARGE_FILE_SEGMENT_NOT_SUPPORTED);
    q.progress = 4294967296u;
    REFUSED(pusmarke_data(&q, list, 4, 0, 1), PUSMARKE_BAD_STORE);
    HOLDS(record_is(q, 4294967296u, 2, 4, 0));
    HOLDS(record_is(r, 300, 2, 0, 0));
    SAME(holes, list);
    {
        uint64_t apart[4] = {150, 200, 100, 120};
        const uint64_t still[4] = {150, 200, 100, 120};
        REFUSED(pusmarke_data(&r, apart, 4, 0, 1), PUSMARKE_NOT_COALESCED);
        REFUSED(pusmarke_metadata(&r, apart, 4), PUSMARKE_NOT_COALESCED);
        SAME(still, apart);
    }
    ACCEPTED(pusmarke_data(&r, list, 4, 90, 120), 1, 0, 0);
    HOLDS(record_is(r, 300, 0, 0, 0));
    SAME(none, list);

    /* no list at all */
    r = pusmarke_fresh(0);
    REFUSED(pusmarke_data(&r, NULL, 0, 0, 1), PUSMARKE_STORE_FULL);
    ACCEPTED(pusmarke_metadata(&r, NULL, 0), 0, 0, 0);
    ACCEPTED(pusmarke_data(&r, NULL, 0, 0, 1), 1, 0, 0);
    HOLDS(record_is(r, 1, 0, 0, 0));
}

/* The end of file: known and waiting, joined and apart, the same size again, another, data behind it; then each refusal, with faults
 * behind it that it comes before, and that nothing changed. */
static void endings(void) {
    uint64_t list[6] = {100, 200, 0, 0, 5, 6};
    const uint64_t tail[6] = {100, 200, 300, 400, 5, 6};
    const uint64_t shorter[6] = {100, 200, 300, 399, 5, 6};
    const uint64_t longer[6] = {100, 400, 0, 0, 5, 6};
    const uint64_t filled[6] = {0, 0, 0, 0, 5, 6};
    uint64_t wait[4] = {0, 0, 5, 6};
    const uint64_t waits[4] = {0, 60, 5, 6};
    struct pusmarke_reception r = {300, 1, 0, 0, 0, 77}, q;

    /* known, and the tail lies apart from the last pair */
    ACCEPTED(pusmarke_eof(&r, list, 6, 400), 0, 0, 0);
    HOLDS(sized_is(r, 400, 2, 0, 0, 1, 400));
    SAME(tail, list);
    q = r;
    q.sized = 9;
    ACCEPTED(pusmarke_data(&q, list, 6, 0, 100), 1, 0, 0);
    HOLDS(sized_is(q, 400, 2, 0, 0, 9, 400));
    ACCEPTED(pusmarke_eof(&q, list, 6, 400), 0, 0, 0);
    HOLDS(sized_is(q, 400, 2, 0, 0, 1, 400));
    REFUSED(pusmarke_eof(&r, list, 6, 399), PUSMARKE_FILE_SIZE_ERROR);
    REFUSED(pusmarke_eof(&r, list, 6, 401), PUSMARKE_FILE_SIZE_ERROR);
    REFUSED(pusmarke_data(&r, list, 6, 400, 1), PUSMARKE_FILE_SIZE_ERROR);
    REFUSED(pusmarke_data(&r, list, 6, 399, 2), PUSMARKE_FILE_SIZE_ERROR);
    HOLDS(sized_is(r, 400, 2, 0, 0, 1, 400));
    SAME(tail, list);
    ACCEPTED(pusmarke_data(&r, list, 6, 399, 1), 1, 0, 0);
    SAME(shorter, list);
    ACCEPTED(pusmarke_data(&r, list, 6, 0, 400), 1, 0, 0);
    HOLDS(sized_is(r, 400, 0, 0, 0, 1, 400));
    SAME(filled, list);

    /* known, and the last pair ends at progress: a full list takes the tail */
    list[0] = 100;
    list[1] = 300;
    q = (struct pusmarke_reception){300, 1, 0, 0, 0, 0};
    ACCEPTED(pusmarke_eof(&q, list, 2, 400), 0, 0, 0);
    HOLDS(sized_is(q, 400, 1, 0, 0, 1, 400));
    SAME(longer, list);
    /* a size that is progress: nothing becomes missing */
    q.sized = 0;
    ACCEPTED(pusmarke_eof(&q, list, 2, 400), 0, 0, 0);
    HOLDS(sized_is(q, 400, 1, 0, 0, 1, 400));
    SAME(longer, list);

    /* waiting: first of all, then data, then the same size; metadata leaves the size */
    r = pusmarke_fresh(3);
    ACCEPTED(pusmarke_eof(&r, wait, 2, 60), 0, 0, 0);
    HOLDS(sized_is(r, 60, 1, 3, 1, 1, 60));
    SAME(waits, wait);
    r.missing = 8;
    ACCEPTED(pusmarke_data(&r, wait, 2, 50, 10), 0, 0, 0);
    REFUSED(pusmarke_data(&r, wait, 2, 50, 11), PUSMARKE_FILE_SIZE_ERROR);
    ACCEPTED(pusmarke_eof(&r, wait, 2, 60), 0, 0, 0);
    HOLDS(sized_is(r, 60, 1, 3, 8, 1, 60));
    SAME(waits, wait);
    r.sized = 5;
    ACCEPTED(pusmarke_metadata(&r, wait, 2), 0, 0, 0);
    HOLDS(sized_is(r, 60, 1, 3, 0, 5, 60));
    REFUSED(pusmarke_metadata(&r, wait, 2), PUSMARKE_ALREADY_KNOWN);

    /* where the size is not known its number is not looked at, and stays */
    r = pusmarke_fresh(0);
    r.size = 7;
    memset(wait, 0, sizeof wait);
    ACCEPTED(pusmarke_data(&r, wait, 4, 50, 10), 0, 0, 0);
    HOLDS(sized_is(r, 60, 1, 0, 1, 0, 7));

    /* no list at all */
    r = pusmarke_fresh(0);
    REFUSED(pusmarke_eof(&r, NULL, 0, 1), PUSMARKE_STORE_FULL);
    HOLDS(record_is(r, 0, 0, 0, 1));
    ACCEPTED(pusmarke_eof(&r, NULL, 0, 0), 0, 0, 0);
    HOLDS(sized_is(r, 0, 0, 0, 1, 1, 0));
    REFUSED(pusmarke_data(&r, NULL, 0, 0, 1), PUSMARKE_FILE_SIZE_ERROR);

    /* refusals change neither record nor list */
    memcpy(list, tail, sizeof tail);
    q = (struct pusmarke_reception){400, 2, 0, 0, 0, 0};
    REFUSED(pusmarke_eof(&q, list, 5, 500), PUSMARKE_BAD_STORE);
    REFUSED(pusmarke_eof(&q, list, 2, 500), PUSMARKE_BAD_STORE);
    REFUSED(pusmarke_eof(&q, long_list, 2 * PAIRS, 500), PUSMARKE_BAD_STORE);
    REFUSED(pusmarke_eof(&q, list, 4, 399), PUSMARKE_FILE_SIZE_ERROR);
    HOLDS(record_is(q, 400, 2, 0, 0));
    q = (struct pusmarke_reception){450, 2, 0, 0, 0, 0};
    REFUSED(pusmarke_eof(&q, list, 4, 500), PUSMARKE_STORE_FULL);
    HOLDS(record_is(q, 450, 2, 0, 0));
    q.sized = 4;
    q.size = 450;
    REFUSED(pusmarke_eof(&q, list, 4, 500), PUSMARKE_FILE_SIZE_ERROR);
    REFUSED(pusmarke_data(&q, list, 4, 470, 10), PUSMARKE_FILE_SIZE_ERROR);
    REFUSED(pusmarke_data(&q, list, 4, 470, 0), PUSMARKE_EMPTY_SEGMENT);
    REFUSED(pusmarke_data(&q, list, 4, UINT64_MAX, 1), PUSMARKE_RANGE_TOO_LONG);
    REFUSED(pusmarke_data(&q, list, 4, 150, 1), PUSMARKE_STORE_FULL);
    q.narrow = 2;
    REFUSED(pusmarke_eof(&q, list, 4, 4294967296u), PUSMARKE_LARGE_FILE_SEGMENT_NOT_SUPPORTED);
    REFUSED(pusmarke_data(&q, list, 4, 1, NARROW_LIMIT), PUSMARKE_LARGE_FILE_SEGMENT_NOT_SUPPORTED);
    q.progress = 399;
    q.size = 399;
    REFUSED(pusmarke_eof(&q, list, 4, 4294967296u), PUSMARKE_SCOPE_BELOW_LIST);
    q.size = 400;
    REFUSED(pusmarke_eof(&q, list, 4, 400), PUSMARKE_BAD_STORE);
    REFUSED(pusmarke_data(&q, list, 4, 0, 0), PUSMARKE_BAD_STORE);
    REFUSED(pusmarke_metadata(&q, list, 4), PUSMARKE_BAD_STORE);
    HOLDS(sized_is(q, 399, 2, 2, 0, 4, 400));
    SAME(tail, list);
    {
        uint64_t apart[4] = {300, 400, 100, 200};
        const uint64_t still[4] = {300, 400, 100, 200};
        REFUSED(pusmarke_eof(&q, apart, 4, 500), PUSMARKE_BAD_STORE);
        q.size = 399;
        REFUSED(pusmarke_eof(&q, apart, 4, 500), PUSMARKE_NOT_COALESCED);
        q.progress = 150;
        q.size = 150;
        REFUSED(pusmarke_eof(&q, apart, 4, 500), PUSMARKE_NOT_COALESCED);
        SAME(still, apart);
    }
    /* sizes at the limits */
    memset(wait, 0, sizeof wait);
    r = pusmarke_fresh(1);
    ACCEPTED(pusmarke_eof(&r, wait, 2, NARROW_LIMIT), 0, 0, 0);
    HOLDS(sized_is(r, NARROW_LIMIT, 1, 1, 1, 1, NARROW_LIMIT));
    memset(wait, 0, sizeof wait);
    r = pusmarke_fresh(0);
    ACCEPTED(pusmarke_eof(&r, wait, 2, UINT64_MAX), 0, 0, 0);
    HOLDS(sized_is(r, UINT64_MAX, 1, 0, 1, 1, UINT64_MAX) && wait[1] == UINT64_MAX);
}

/* Both queries refuse this record with this number, whatever range is asked for: a good one, an empty one, a reversed one. */
static void no_record(int line, struct pusmarke_reception r, const uint64_t *list, size_t length, uint64_t number) {
    is(line, pusmarke_held(r, list, length, 0, 5), number, 0, 0, 0);
    is(line, pusmarke_held(r, list, length, 5, 5), number, 0, 0, 0);
    is(line, pusmarke_held(r, list, length, 5, 0), number, 0, 0, 0);
    is(line, pusmarke_missing_octets(r, list, length), number, 0, 0, 0);
}

#define NO_RECORD(r, list, length, number) no_record(__LINE__, (r), (list), (length), (number))

/* What was kept, and how much is missing: while waiting, with holes, with the end of file, until nothing is missing; then each refusal,
 * with faults behind it that it comes before. Record and list stay as they were. */
static void queries(void) {
    /* of a list that has 100-120 and 150-200, and progress 300 */
    static const struct {
        uint64_t start, end, yes;
    } cases[] = {
        {0, 100, 1}, {0, 1, 1}, {99, 100, 1}, {10, 90, 1}, {120, 150, 1}, {121, 149, 1}, {120, 121, 1}, {200, 300, 1}, {299, 300, 1},
        {201, 299, 1}, {100, 120, 0}, {100, 101, 0}, {119, 120, 0}, {105, 115, 0}, {99, 101, 0}, {119, 121, 0}, {119, 150, 0}, {120, 151, 0},
        {90, 125, 0}, {110, 160, 0}, {90, 210, 0}, {0, 300, 0}, {199, 300, 0}, {200, 301, 0}, {299, 301, 0}, {300, 301, 0}, {300, 400, 0},
        {0, UINT64_MAX, 0}, {NARROW_LIMIT, 4294967296u, 0}, {4294967296u, UINT64_MAX, 0},
    };
    uint64_t list[6] = {0};
    const uint64_t holes[6] = {100, 120, 150, 200, 0, 0};
    const uint64_t tail[6] = {100, 120, 150, 200, 300, 400};
    const uint64_t apart[4] = {150, 200, 100, 120};
    const uint64_t touch[4] = {100, 150, 150, 200};
    const uint64_t huge[2] = {0, 4294967296u};
    struct pusmarke_reception r = pusmarke_fresh(0), q;
    size_t i;

    /* nothing came; then data that is noticed, and that metadata does not make kept */
    ACCEPTED(pusmarke_held(r, list, 6, 0, 1), 0, 0, 0);
    ACCEPTED(pusmarke_held(r, NULL, 0, 0, 1), 0, 0, 0);
    ACCEPTED(pusmarke_missing_octets(r, list, 6), 0, 0, 0);
    ACCEPTED(pusmarke_missing_octets(r, NULL, 0), 0, 0, 0);
    ACCEPTED(pusmarke_data(&r, list, 6, 0, 100), 0, 0, 0);
    for (i = 0; i < 2; i++) {
        ACCEPTED(pusmarke_held(r, list, 6, 0, 100), 0, 0, 0);
        ACCEPTED(pusmarke_held(r, list, 6, 99, 100), 0, 0, 0);
        ACCEPTED(pusmarke_held(r, list, 6, 0, 101), 0, 0, 0);
        ACCEPTED(pusmarke_missing_octets(r, list, 6), 100, 0, 0);
        if (i == 0) {
            r.missing = 6;
            ACCEPTED(pusmarke_held(r, list, 6, 0, 100), 0, 0, 0);
            ACCEPTED(pusmarke_missing_octets(r, list, 6), 100, 0, 0);
            ACCEPTED(pusmarke_metadata(&r, list, 6), 0, 0, 0);
        }
    }

    /* kept, with two holes, the size not known; in both widths */
    ACCEPTED(pusmarke_data(&r, list, 6, 0, 100), 1, 0, 0);
    ACCEPTED(pusmarke_held(r, list, 6, 0, 100), 1, 0, 0);
    ACCEPTED(pusmarke_missing_octets(r, list, 6), 0, 0, 0);
    ACCEPTED(pusmarke_data(&r, list, 6, 200, 100), 1, 0, 0);
    ACCEPTED(pusmarke_data(&r, list, 6, 120, 30), 1, 0, 0);
    SAME(holes, list);
    for (q = r; q.narrow < 2; q.narrow++) {
        for (i = 0; i < sizeof cases / sizeof cases[0]; i++) {
            ACCEPTED(pusmarke_held(q, list, 6, cases[i].start, cases[i].end), cases[i].yes, 0, 0);
        }
        ACCEPTED(pusmarke_missing_octets(q, list, 6), 70, 0, 0);
        REFUSED(pusmarke_held(q, list, 6, 110, 110), PUSMARKE_EMPTY_SEGMENT);
        REFUSED(pusmarke_held(q, list, 6, 0, 0), PUSMARKE_EMPTY_SEGMENT);
        REFUSED(pusmarke_held(q, list, 6, UINT64_MAX, UINT64_MAX), PUSMARKE_EMPTY_SEGMENT);
        CARRIES(pusmarke_held(q, list, 6, 150, 120), PUSMARKE_START_LARGER_THAN_END, 150, 120);
        CARRIES(pusmarke_held(q, list, 6, UINT64_MAX, 0), PUSMARKE_START_LARGER_THAN_END, UINT64_MAX, 0);
    }
    HOLDS(record_is(r, 300, 2, 0, 0));
    SAME(holes, list);

    /* the end of file: the tail is missing too, and data takes away as much as it overlaps */
    ACCEPTED(pusmarke_eof(&r, list, 6, 400), 0, 0, 0);
    ACCEPTED(pusmarke_missing_octets(r, list, 6), 170, 0, 0);
    ACCEPTED(pusmarke_held(r, list, 6, 200, 300), 1, 0, 0);
    ACCEPTED(pusmarke_held(r, list, 6, 200, 301), 0, 0, 0);
    q = r;
    q.sized = 7;
    ACCEPTED(pusmarke_missing_octets(q, list, 6), 170, 0, 0);
    ACCEPTED(pusmarke_held(q, list, 6, 120, 150), 1, 0, 0);
    HOLDS(sized_is(r, 400, 3, 0, 0, 1, 400));
    SAME(tail, list);
    ACCEPTED(pusmarke_data(&r, list, 6, 90, 120), 1, 0, 0);
    ACCEPTED(pusmarke_missing_octets(r, list, 6), 100, 0, 0);
    ACCEPTED(pusmarke_data(&r, list, 6, 250, 100), 1, 0, 0);
    ACCEPTED(pusmarke_missing_octets(r, list, 6), 50, 0, 0);
    ACCEPTED(pusmarke_held(r, list, 6, 0, 350), 1, 0, 0);
    ACCEPTED(pusmarke_held(r, list, 6, 0, 351), 0, 0, 0);
    ACCEPTED(pusmarke_data(&r, list, 6, 350, 50), 1, 0, 0);
    ACCEPTED(pusmarke_missing_octets(r, list, 6), 0, 0, 0);
    ACCEPTED(pusmarke_held(r, list, 6, 0, 400), 1, 0, 0);
    ACCEPTED(pusmarke_held(r, list, 6, 0, 401), 0, 0, 0);

    /* the largest file */
    r = pusmarke_fresh(0);
    memset(list, 0, sizeof list);
    ACCEPTED(pusmarke_eof(&r, list, 6, UINT64_MAX), 0, 0, 0);
    ACCEPTED(pusmarke_missing_octets(r, list, 6), UINT64_MAX, 0, 0);
    ACCEPTED(pusmarke_metadata(&r, list, 6), 0, 0, 0);
    ACCEPTED(pusmarke_data(&r, list, 6, UINT64_MAX - 1, 1), 1, 0, 0);
    ACCEPTED(pusmarke_missing_octets(r, list, 6), UINT64_MAX - 1, 0, 0);
    ACCEPTED(pusmarke_held(r, list, 6, UINT64_MAX - 1, UINT64_MAX), 1, 0, 0);
    ACCEPTED(pusmarke_held(r, list, 6, UINT64_MAX - 2, UINT64_MAX), 0, 0, 0);

    /* no store or no record: 10 in each way, 8, 12; 10 before 8, 8 before 12 */
    q = (struct pusmarke_reception){300, 2, 0, 0, 0, 77};
    ACCEPTED(pusmarke_missing_octets(q, holes, 4), 70, 0, 0);
    NO_RECORD(q, holes, 5, PUSMARKE_BAD_STORE);
    NO_RECORD(q, holes, 2, PUSMARKE_BAD_STORE);
    NO_RECORD(q, NULL, 0, PUSMARKE_BAD_STORE);
    NO_RECORD(q, long_list, 2 * PAIRS, PUSMARKE_BAD_STORE);
    q.count = SIZE_MAX;
    NO_RECORD(q, holes, 4, PUSMARKE_BAD_STORE);
    q.count = 2;
    q.missing = 3;
    NO_RECORD(q, holes, 4, PUSMARKE_BAD_STORE);
    NO_RECORD(q, apart, 4, PUSMARKE_BAD_STORE);
    q.missing = 0;
    q.sized = 1;
    NO_RECORD(q, holes, 4, PUSMARKE_BAD_STORE);
    NO_RECORD(q, apart, 4, PUSMARKE_BAD_STORE);
    q.size = 300;
    ACCEPTED(pusmarke_missing_octets(q, holes, 4), 70, 0, 0);
    NO_RECORD(q, apart, 4, PUSMARKE_NOT_COALESCED);
    NO_RECORD(q, touch, 4, PUSMARKE_NOT_COALESCED);
    q.progress = q.size = 199;
    NO_RECORD(q, apart, 4, PUSMARKE_NOT_COALESCED);
    NO_RECORD(q, holes, 4, PUSMARKE_SCOPE_BELOW_LIST);
    q.size = 200;
    NO_RECORD(q, holes, 4, PUSMARKE_BAD_STORE);
    q = (struct pusmarke_reception){4294967296u, 1, 0, 0, 0, 0};
    ACCEPTED(pusmarke_missing_octets(q, huge, 2), 4294967296u, 0, 0);
    q.narrow = 5;
    NO_RECORD(q, huge, 2, PUSMARKE_BAD_STORE);
    NO_RECORD(q, holes, 2, PUSMARKE_BAD_STORE);
    q.progress = NARROW_LIMIT;
    ACCEPTED(pusmarke_held(q, holes, 2, 120, NARROW_LIMIT), 1, 0, 0);
    ACCEPTED(pusmarke_held(q, holes, 2, 120, 4294967296u), 0, 0, 0);
}

static const struct pusmarke_identity identity = {1, 1, 1, 7, 2};

/* Any number but 0 is yes. */
static const struct pusmarke_form newer = {0, 0, 0}, newer_large = {0, UINT64_MAX, 0}, older = {2, 0, 0}, older_large = {4294967296u, 8, 0};
static const struct pusmarke_form newer_crc = {0, 0, 2}, large_crc = {0, 1, UINT64_MAX}, older_crc = {1, 0, 4294967296u};
static const struct pusmarke_form older_large_crc = {1, 1, 1};

/* Document 01's example packet. */
static const uint8_t example[32] = {0x28, 0x00, 0x19, 0x00, 0x01, 0x07, 0x02, 0x08, 0x00, 0x00, 0x00, 0x00, 0x00, 0x00, 0x03, 0xe8,
    0x00, 0x00, 0x00, 0x00, 0x00, 0x00, 0x00, 0x00, 0x00, 0x00, 0x00, 0x64, 0x00, 0x00, 0x00, 0xc8};

/* The same with the metadata request last. */
static const uint8_t metadata_last[32] = {0x28, 0x00, 0x19, 0x00, 0x01, 0x07, 0x02, 0x08, 0x00, 0x00, 0x00, 0x00, 0x00, 0x00, 0x03, 0xe8,
    0x00, 0x00, 0x00, 0x64, 0x00, 0x00, 0x00, 0xc8, 0x00, 0x00, 0x00, 0x00, 0x00, 0x00, 0x00, 0x00};

/* Metadata, (100, 200), metadata: asked for once too often. */
static const uint8_t metadata_twice[40] = {0x28, 0x00, 0x21, 0x00, 0x01, 0x07, 0x02, 0x08, 0x00, 0x00, 0x00, 0x00, 0x00, 0x00, 0x03, 0xe8,
    0x00, 0x00, 0x00, 0x00, 0x00, 0x00, 0x00, 0x00, 0x00, 0x00, 0x00, 0x64, 0x00, 0x00, 0x00, 0xc8};

static void writing(void) {
    const uint64_t requests[4] = {0, 0, 100, 200};
    const uint64_t last[4] = {100, 200, 0, 0};
    const uint64_t twice[4] = {0, 0, 0, 0};
    const uint64_t apart[6] = {0, 0, 100, 200, 0, 0};
    const uint64_t others[6] = {5, 5, 0, 0, 5, 5};
    const uint64_t in_turn[10] = {0, 0, 200, 100, 0, 0, 0, 0, 200, 100};
    const uint64_t turned[2] = {200, 100};
    const uint64_t huge[2] = {0, 4294967296u};
    struct pusmarke_identity bad = identity;
    uint8_t buf[32], kept[32];

    memset(buf, 0xaa, sizeof buf);
    memcpy(kept, buf, sizeof buf);
    REFUSED(pusmarke_write(identity, newer, 0, 1000, requests, 3, buf, 32), PUSMARKE_BAD_STORE);
    REFUSED(pusmarke_write(identity, newer, 0, 1000, long_list, 2 * PAIRS, buf, 32), PUSMARKE_BAD_STORE);
    bad.entity_length = 0;
    REFUSED(pusmarke_write(bad, newer, 0, 1000, requests, 4, buf, 32), PUSMARKE_BAD_IDENTITY);
    bad.entity_length = SIZE_MAX;
    REFUSED(pusmarke_write(bad, newer, 0, 1000, requests, 4, buf, 32), PUSMARKE_BAD_IDENTITY);
    bad = identity;
    bad.number = 256;
    REFUSED(pusmarke_write(bad, newer, 0, 1000, requests, 4, buf, 32), PUSMARKE_BAD_IDENTITY);
    REFUSED(pusmarke_write(identity, newer, 1000, 0, requests, 4, buf, 32), PUSMARKE_SCOPE_REVERSED);
    CARRIES(pusmarke_write(identity, newer, 0, 1000, turned, 2, buf, 32), PUSMARKE_START_LARGER_THAN_END, 200, 100);
    REFUSED(pusmarke_write(identity, newer, 0, 1000, twice, 4, buf, 32), PUSMARKE_EMPTY_SEGMENT);
    REFUSED(pusmarke_write(identity, newer, 0, 1000, apart, 6, buf, 32), PUSMARKE_EMPTY_SEGMENT);
    REFUSED(pusmarke_write(identity, newer, 0, 1000, others, 4, buf, 32), PUSMARKE_EMPTY_SEGMENT);
    REFUSED(pusmarke_write(identity, newer, 0, 1000, others + 2, 4, buf, 32), PUSMARKE_EMPTY_SEGMENT);
    CARRIES(pusmarke_write(identity, newer, 0, 1000, in_turn, 6, buf, 32), PUSMARKE_START_LARGER_THAN_END, 200, 100);
    REFUSED(pusmarke_write(identity, newer, 0, 1000, in_turn + 4, 6, buf, 32), PUSMARKE_EMPTY_SEGMENT);
    REFUSED(pusmarke_write(identity, newer, 0, 1000, huge, 2, buf, 32), PUSMARKE_LARGE_SEGMENT_FOR_NORMAL_FILE_SIZE);
    CARRIES(pusmarke_write(identity, newer, 0, 1000, requests, 4, buf, 31), PUSMARKE_BUFFER_SIZE_MISSMATCH, 32, 31);
    CARRIES(pusmarke_write(identity, newer, 0, 1000, NULL, 0, NULL, 0), PUSMARKE_BUFFER_SIZE_MISSMATCH, 16, 0);
    {
        /* 511 requests make a PDU of 4,104 octets */
        static uint64_t many[2 * 511];
        size_t i;
        for (i = 0; i < 511; i++) {
            many[2 * i] = 2 * i;
            many[2 * i + 1] = 2 * i + 1;
        }
        REFUSED(pusmarke_write(identity, newer, 0, 2000, many, 2 * 511, large_buffer, 4104), PUSMARKE_PDU_SIZE);
        CARRIES(pusmarke_write(identity, newer, 0, 2000, many, 2 * 510, buf, 32), PUSMARKE_BUFFER_SIZE_MISSMATCH, 4096, 32);
    }
    SAME(kept, buf);
    ACCEPTED(pusmarke_write(identity, newer, 0, 1000, requests, 4, buf, 32), 32, 0, 0);
    SAME(example, buf);
    /* the metadata request keeps its place */
    ACCEPTED(pusmarke_write(identity, newer, 0, 1000, last, 4, buf, 32), 32, 0, 0);
    SAME(metadata_last, buf);
}

static int nothing_read(struct pusmarke_nak n, uint64_t refusal, uint64_t start, uint64_t end, size_t length) {
    return n.refusal == refusal && n.start == start && n.end == end && n.identity.entity_length == 0
        && n.identity.number_length == 0 && n.identity.source == 0 && n.identity.number == 0 && n.identity.destination == 0
        && n.large == 0 && n.crc == 0 && n.scope_start == 0 && n.scope_end == 0 && n.from == 0 && n.to == 0 && n.next == length;
}

/* The example with one octet changed. */
static struct pusmarke_nak damaged(size_t at, uint8_t octet) {
    uint8_t packet[32];
    memcpy(packet, example, sizeof packet);
    packet[at] = octet;
    return pusmarke_read(packet, sizeof packet, 0);
}

static int step_is(struct pusmarke_step s, uint64_t found, uint64_t start, uint64_t end, size_t at) {
    return s.found == found && s.start == start && s.end == end && s.at == at;
}

static void reading(void) {
    struct pusmarke_nak n = pusmarke_read(example, sizeof example, 0);
    uint8_t packet[32];

    HOLDS(n.refusal == 0 && n.start == 0 && n.end == 0 && n.large == 0 && n.crc == 0 && n.scope_start == 0 && n.scope_end == 1000);
    HOLDS(n.identity.entity_length == 1 && n.identity.number_length == 1 && n.identity.source == 1 && n.identity.number == 7
        && n.identity.destination == 2);
    HOLDS(n.from == 16 && n.to == 32 && n.next == 16);
    HOLDS(step_is(pusmarke_next(example, 32, 16), 1, 0, 0, 24));
    HOLDS(step_is(pusmarke_next(example, 32, 24), 1, 100, 200, 32));
    HOLDS(step_is(pusmarke_next(example, 32, 32), 0, 0, 0, 32));
    HOLDS(step_is(pusmarke_next(example, 32, 25), 0, 0, 0, 25));
    HOLDS(step_is(pusmarke_next(example, 32, SIZE_MAX), 0, 0, 0, SIZE_MAX));
    HOLDS(step_is(pusmarke_next(NULL, 0, 0), 0, 0, 0, 0));
    /* the metadata request last */
    n = pusmarke_read(metadata_last, sizeof metadata_last, 0);
    HOLDS(n.refusal == 0 && n.scope_start == 0 && n.scope_end == 1000 && n.from == 16 && n.to == 32 && n.next == 16);
    HOLDS(step_is(pusmarke_next(metadata_last, 32, 16), 1, 100, 200, 24));
    HOLDS(step_is(pusmarke_next(metadata_last, 32, 24), 1, 0, 0, 32));
    HOLDS(step_is(pusmarke_next(metadata_last, 32, 32), 0, 0, 0, 32));

    HOLDS(nothing_read(pusmarke_read(NULL, 0, 0), PUSMARKE_LENGTH_MISMATCH, 0, 0, 0));
    HOLDS(nothing_read(pusmarke_read(example, 3, 0), PUSMARKE_LENGTH_MISMATCH, 0, 0, 3));
    HOLDS(nothing_read(pusmarke_read(example, 31, 0), PUSMARKE_LENGTH_MISMATCH, 0, 0, 31));
    HOLDS(nothing_read(damaged(0, 0x20), PUSMARKE_BAD_HEADER, 0, 0, 32));
    HOLDS(nothing_read(damaged(3, 0x08), PUSMARKE_BAD_HEADER, 0, 0, 32));
    HOLDS(nothing_read(damaged(2, 0x18), PUSMARKE_LENGTH_MISMATCH, 0, 0, 32));
    HOLDS(nothing_read(damaged(7, 0x09), PUSMARKE_NOT_NAK, 0, 0, 32));
    HOLDS(nothing_read(damaged(8, 0x01), PUSMARKE_SCOPE_REVERSED, 0, 0, 32));
    HOLDS(nothing_read(damaged(19, 0x01), PUSMARKE_START_LARGER_THAN_END, 1, 0, 32));
    HOLDS(nothing_read(damaged(31, 0x64), PUSMARKE_EMPTY_SEGMENT, 0, 0, 32));
    HOLDS(nothing_read(pusmarke_read(metadata_twice, sizeof metadata_twice, 0), PUSMARKE_EMPTY_SEGMENT, 0, 0, 40));
    /* a data field of one octet less */
    memcpy(packet, example, sizeof packet);
    packet[2] = 0x18;
    HOLDS(nothing_read(pusmarke_read(packet, 31, 0), PUSMARKE_LENGTH_MISMATCH, 0, 0, 31));
    /* 511 requests: a fine PDU but for its length */
    memcpy(large_buffer, example, 16);
    large_buffer[1] = 0x10;
    large_buffer[2] = 0x01;
    {
        size_t i;
        for (i = 0; i < 511; i++) {
            memcpy(large_buffer + 16 + 8 * i, example + 24, 8);
        }
    }
    HOLDS(nothing_read(pusmarke_read(large_buffer, 4104, 0), PUSMARKE_PDU_SIZE, 0, 0, 4104));
}

/* The example of the older edition: its version bits are 000, and all else is alike. */
static const uint8_t older_example[32] = {0x08, 0x00, 0x19, 0x00, 0x01, 0x07, 0x02, 0x08, 0x00, 0x00, 0x00, 0x00, 0x00, 0x00, 0x03, 0xe8,
    0x00, 0x00, 0x00, 0x00, 0x00, 0x00, 0x00, 0x00, 0x00, 0x00, 0x00, 0x64, 0x00, 0x00, 0x00, 0xc8};

/* Behind the first octet: a packet that reads with fields of 4 octets, scope (0, 0) and requests (0, 0), (0, 1), (0, 2), and of 8 octets,
 * scope (0, 0) and request (1, 2). */
static const uint8_t of_both[40] = {0xff, 0x00, 0x21, 0x00, 0x01, 0x07, 0x02, 0x08, 0, 0, 0, 0, 0, 0, 0, 0, 0, 0, 0, 0, 0, 0, 0, 0, 0, 0, 0, 0, 0,
    0, 0, 1, 0, 0, 0, 0, 0, 0, 0, 2};

/* The two editions: each writes its own octets, and refuses those of the other. */
static void editions(void) {
    const uint64_t requests[4] = {0, 0, 100, 200};
    const uint64_t turned[2] = {200, 100};
    const uint64_t empty[2] = {5, 5};
    static uint64_t many[2 * 255];
    const struct pusmarke_form every[3] = {{0, 0, 0}, {0, 1, 0}, {1, 0, 0}};
    static const uint8_t first[3] = {0x28, 0x29, 0x08};
    struct pusmarke_identity bad = identity;
    struct pusmarke_nak n;
    uint8_t buf[56], kept[56], packet[40];
    unsigned octet;
    size_t i, length;

    ACCEPTED(pusmarke_write(identity, older, 0, 1000, requests, 4, buf, 32), 32, 0, 0);
    HOLDS(memcmp(buf, older_example, 32) == 0);
    n = pusmarke_read(older_example, sizeof older_example, 1);
    HOLDS(n.refusal == 0 && n.start == 0 && n.end == 0 && n.large == 0 && n.scope_start == 0 && n.scope_end == 1000);
    HOLDS(n.identity.entity_length == 1 && n.identity.number_length == 1 && n.identity.source == 1 && n.identity.number == 7
        && n.identity.destination == 2);
    HOLDS(n.from == 16 && n.to == 32 && n.next == 16);
    HOLDS(step_is(pusmarke_next(older_example, 32, 16), 1, 0, 0, 24));
    HOLDS(step_is(pusmarke_next(older_example, 32, 24), 1, 100, 200, 32));
    HOLDS(step_is(pusmarke_next(older_example, 32, 32), 0, 0, 0, 32));
    HOLDS(nothing_read(pusmarke_read(example, 32, 1), PUSMARKE_BAD_HEADER, 0, 0, 32));
    HOLDS(nothing_read(pusmarke_read(example, 32, 4294967296u), PUSMARKE_BAD_HEADER, 0, 0, 32));
    HOLDS(nothing_read(pusmarke_read(older_example, 32, 0), PUSMARKE_BAD_HEADER, 0, 0, 32));
    HOLDS(pusmarke_read(older_example, 32, UINT64_MAX).refusal == 0);
    HOLDS(pusmarke_read(older_example, 32, 4294967296u).refusal == 0);
    /* fewer than four octets come first; the other faults are the same under both editions */
    HOLDS(nothing_read(pusmarke_read(example, 3, 1), PUSMARKE_LENGTH_MISMATCH, 0, 0, 3));
    HOLDS(nothing_read(pusmarke_read(older_example, 31, 1), PUSMARKE_LENGTH_MISMATCH, 0, 0, 31));
    HOLDS(nothing_read(pusmarke_read(older_example, 31, 0), PUSMARKE_BAD_HEADER, 0, 0, 31));
    HOLDS(nothing_read(pusmarke_read(NULL, 0, 1), PUSMARKE_LENGTH_MISMATCH, 0, 0, 0));
    memcpy(packet, older_example, 32);
    packet[7] = 0x09;
    HOLDS(nothing_read(pusmarke_read(packet, 32, 1), PUSMARKE_NOT_NAK, 0, 0, 32));
    HOLDS(nothing_read(pusmarke_read(packet, 32, 0), PUSMARKE_BAD_HEADER, 0, 0, 32));

    /* each form that can be written is read under its own edition alone */
    for (i = 0; i < 3; i++) {
        length = every[i].large ? 56 : 32;
        ACCEPTED(pusmarke_write(identity, every[i], 0, 1000, requests, 4, buf, length), length, 0, 0);
        HOLDS(buf[0] == first[i]);
        n = pusmarke_read(buf, length, every[i].older);
        HOLDS(n.refusal == 0 && n.large == every[i].large && n.crc == 0 && n.scope_start == 0 && n.scope_end == 1000 && n.to == length);
        HOLDS(nothing_read(pusmarke_read(buf, length, !every[i].older), PUSMARKE_BAD_HEADER, 0, 0, length));
    }

    /* of all first octets the newer edition takes 28 and 29, the older 08; with the CRC flag, 2a and 2b or 0a, 00 02 is no right trailer */
    memcpy(packet, of_both, sizeof packet);
    for (octet = 0; octet < 256; octet++) {
        packet[0] = (uint8_t)octet;
        HOLDS(pusmarke_read(packet, 40, 0).refusal == (octet == 0x28 || octet == 0x29 ? PUSMARKE_ACCEPTED
            : octet == 0x2a || octet == 0x2b ? PUSMARKE_BAD_TRAILER : PUSMARKE_BAD_HEADER));
        HOLDS(pusmarke_read(packet, 40, 1).refusal == (octet == 0x08 ? PUSMARKE_ACCEPTED : octet == 0x0a ? PUSMARKE_BAD_TRAILER
            : PUSMARKE_BAD_HEADER));
        /* a step asks for the two lowest bits alone: with a trailer of two octets the fields of 8 do not fit from 24 on */
        if (octet % 4 == 3) {
            HOLDS(step_is(pusmarke_next(packet, 40, 24), 0, 0, 0, 24));
            HOLDS(step_is(pusmarke_next(packet, 40, 22), 1, 0, (uint64_t)1 << 48, 38));
        } else {
            HOLDS(step_is(pusmarke_next(packet, 40, 24), 1, octet % 2, octet % 2 ? 2 : 1, octet % 2 ? 40 : 32));
        }
        HOLDS(step_is(pusmarke_next(packet, 40, 32), octet % 4 == 0, 0, octet % 4 == 0 ? 2 : 0, octet % 4 == 0 ? 40 : 32));
    }

    /* the large flag of the older edition: behind 10 and 13, before all others */
    for (i = 0; i < 255; i++) {
        many[2 * i] = 2 * i;
        many[2 * i + 1] = 2 * i + 1;
    }
    memset(buf, 0xaa, sizeof buf);
    memcpy(kept, buf, sizeof buf);
    REFUSED(pusmarke_write(identity, older_large, 0, 1000, requests, 3, buf, 56), PUSMARKE_BAD_STORE);
    bad.number = 256;
    REFUSED(pusmarke_write(bad, older_large, 0, 1000, requests, 4, buf, 56), PUSMARKE_BAD_IDENTITY);
    REFUSED(pusmarke_write(identity, older_large, 0, 1000, requests, 4, buf, 56), PUSMARKE_BAD_HEADER);
    REFUSED(pusmarke_write(identity, older_large, 1000, 0, requests, 4, buf, 56), PUSMARKE_BAD_HEADER);
    REFUSED(pusmarke_write(identity, older_large, 0, 1000, turned, 2, buf, 40), PUSMARKE_BAD_HEADER);
    REFUSED(pusmarke_write(identity, older_large, 0, 1000, empty, 2, buf, 40), PUSMARKE_BAD_HEADER);
    REFUSED(pusmarke_write(identity, older_large, 0, 1000, many, 2 * 255, buf, 56), PUSMARKE_BAD_HEADER);
    REFUSED(pusmarke_write(identity, older_large, 0, 1000, requests, 4, buf, 55), PUSMARKE_BAD_HEADER);
    REFUSED(pusmarke_write(identity, older_large, 0, 1000, requests, 4, NULL, 0), PUSMARKE_BAD_HEADER);
    /* where the newer edition has them */
    REFUSED(pusmarke_write(identity, newer_large, 1000, 0, requests, 4, buf, 56), PUSMARKE_SCOPE_REVERSED);
    CARRIES(pusmarke_write(identity, newer_large, 0, 1000, turned, 2, buf, 40), PUSMARKE_START_LARGER_THAN_END, 200, 100);
    REFUSED(pusmarke_write(identity, newer_large, 0, 1000, empty, 2, buf, 40), PUSMARKE_EMPTY_SEGMENT);
    REFUSED(pusmarke_write(identity, newer_large, 0, 1000, many, 2 * 255, buf, 56), PUSMARKE_PDU_SIZE);
    CARRIES(pusmarke_write(identity, newer_large, 0, 1000, requests, 4, buf, 55), PUSMARKE_BUFFER_SIZE_MISSMATCH, 56, 55);
    REFUSED(pusmarke_write(identity, older, 1000, 0, requests, 4, buf, 32), PUSMARKE_SCOPE_REVERSED);
    REFUSED(pusmarke_write(identity, older, 0, 4294967296u, requests, 4, buf, 32), PUSMARKE_LARGE_SEGMENT_FOR_NORMAL_FILE_SIZE);
    CARRIES(pusmarke_write(identity, older, 0, 1000, requests, 4, buf, 31), PUSMARKE_BUFFER_SIZE_MISSMATCH, 32, 31);
    SAME(kept, buf);
}

/* The example under the CRC flag: the length field counts the trailer, 02 65. */
static const uint8_t crc_example[34] = {0x2a, 0x00, 0x1b, 0x00, 0x01, 0x07, 0x02, 0x08, 0x00, 0x00, 0x00, 0x00, 0x00, 0x00, 0x03, 0xe8, 0x00,
    0x00, 0x00, 0x00, 0x00, 0x00, 0x00, 0x00, 0x00, 0x00, 0x00, 0x64, 0x00, 0x00, 0x00, 0xc8, 0x02, 0x65};

/* The CRC by its definition, bit by bit: the polynomial 1021 hex from FFFF on. */
static unsigned crc_of(const uint8_t *octets, size_t length) {
    unsigned remainder = 0xffff;
    size_t i;
    int bit;
    for (i = 0; i < length; i++) {
        for (bit = 7; bit >= 0; bit--) {
            unsigned out = (remainder >> 15 ^ octets[i] >> bit) & 1;
            remainder = (remainder << 1 & 0xffff) ^ (out ? 0x1021 : 0);
        }
    }
    return remainder;
}

/* Puts the right trailer behind the first octets; hands back the length of all. */
static size_t seal(uint8_t *packet, size_t before) {
    unsigned crc = crc_of(packet, before);
    packet[before] = (uint8_t)(crc >> 8);
    packet[before + 1] = (uint8_t)crc;
    return before + 2;
}

/* Is the packet of these octets and a trailer refused so where the trailer is wrong, and so where it is right? */
static int refused_with(const uint8_t *before, size_t length, uint64_t wrong_trailer, uint64_t right_trailer) {
    uint8_t packet[64];
    memcpy(packet, before, length);
    seal(packet, length);
    packet[length + 1] ^= 0x10;
    if (!nothing_read(pusmarke_read(packet, length + 2, 0), wrong_trailer, 0, 0, length + 2)) {
        return 0;
    }
    packet[length + 1] ^= 0x10;
    return nothing_read(pusmarke_read(packet, length + 2, 0), right_trailer, 0, 0, length + 2);
}

/* PDUs with the CRC trailer. */
static void trailers(void) {
    const uint64_t requests[4] = {0, 0, 100, 200};
    static uint64_t many[2 * 510];
    const struct pusmarke_form every[3] = {{0, 0, 1}, {0, 1, 1}, {1, 0, 1}}, plain[3] = {{0, 0, 0}, {0, 1, 0}, {1, 0, 0}};
    static const uint8_t first[3] = {0x2a, 0x2b, 0x0a};
    const uint8_t below[3][8] = {{0x2a, 0, 0, 0, 1, 7, 2}, {0x2a, 0, 1, 0, 1, 7, 2, 8}, {0x28, 0, 1, 0, 1, 7, 2, 9}};
    const uint8_t two[7] = {0x2a, 0, 2, 0, 1, 7, 2}, code[8] = {0x2a, 0, 3, 0, 1, 7, 2, 9}, short_field[8] = {0x2a, 0, 3, 0, 1, 7, 2, 8};
    const uint8_t fixed_bit[8] = {0x6a, 0, 3, 0, 1, 7, 2, 9}, length_off[8] = {0x2a, 0, 4, 0, 1, 7, 2, 9};
    uint8_t buf[58], kept[58], packet[58], other[56];
    struct pusmarke_nak n;
    size_t i, bit, length;

    /* the published check value, and the example's */
    HOLDS(crc_of((const uint8_t *)"123456789", 9) == 0x29b1);
    HOLDS(crc_of(crc_example, 32) == 0x0265);
    ACCEPTED(pusmarke_write(identity, newer_crc, 0, 1000, requests, 4, buf, 34), 34, 0, 0);
    HOLDS(memcmp(buf, crc_example, 34) == 0);
    n = pusmarke_read(crc_example, 34, 0);
    HOLDS(n.refusal == 0 && n.start == 0 && n.end == 0 && n.large == 0 && n.crc == 1 && n.scope_start == 0 && n.scope_end == 1000);
    HOLDS(n.identity.entity_length == 1 && n.identity.number_length == 1 && n.identity.source == 1 && n.identity.number == 7
        && n.identity.destination == 2);
    HOLDS(n.from == 16 && n.to == 32 && n.next == 16);
    /* the trailer is in no step: two octets are left out at the end, right or wrong */
    HOLDS(step_is(pusmarke_next(crc_example, 34, 16), 1, 0, 0, 24));
    HOLDS(step_is(pusmarke_next(crc_example, 34, 24), 1, 100, 200, 32));
    HOLDS(step_is(pusmarke_next(crc_example, 34, 32), 0, 0, 0, 32));
    HOLDS(step_is(pusmarke_next(crc_example, 33, 24), 0, 0, 0, 24));
    HOLDS(step_is(pusmarke_next(crc_example, 34, 25), 0, 0, 0, 25));
    HOLDS(step_is(pusmarke_next(crc_example, 34, SIZE_MAX), 0, 0, 0, SIZE_MAX));
    HOLDS(step_is(pusmarke_next(crc_example, 2, 0), 0, 0, 0, 0) && step_is(pusmarke_next(crc_example, 1, 0), 0, 0, 0, 0));

    /* each form: the plain packet with 2 added to its first octet and its length field, and two octets behind */
    for (i = 0; i < 3; i++) {
        length = every[i].large ? 58 : 34;
        ACCEPTED(pusmarke_write(identity, every[i], 0, 1000, requests, 4, buf, length), length, 0, 0);
        ACCEPTED(pusmarke_write(identity, plain[i], 0, 1000, requests, 4, other, length - 2), length - 2, 0, 0);
        HOLDS(buf[0] == first[i] && buf[1] == 0 && buf[2] == length - 7 && other[0] == (first[i] ^ 2) && other[2] == length - 9);
        HOLDS(memcmp(buf + 3, other + 3, length - 5) == 0);
        HOLDS(buf[length - 2] == crc_of(buf, length - 2) >> 8 && buf[length - 1] == (crc_of(buf, length - 2) & 0xff));
        n = pusmarke_read(buf, length, every[i].older);
        HOLDS(n.refusal == 0 && n.large == every[i].large && n.crc == 1 && n.scope_end == 1000 && n.to == length - 2);
        HOLDS(nothing_read(pusmarke_read(buf, length, !every[i].older), PUSMARKE_BAD_HEADER, 0, 0, length));
    }
    ACCEPTED(pusmarke_write(identity, older_crc, 0, 1000, requests, 4, buf, 34), 34, 0, 0);
    HOLDS(buf[0] == 0x0a && pusmarke_read(buf, 34, 1).crc == 1);
    ACCEPTED(pusmarke_write(identity, large_crc, 0, 1000, requests, 4, buf, 58), 58, 0, 0);
    HOLDS(buf[0] == 0x2b && pusmarke_read(buf, 58, 0).crc == 1);

    /* one bit turned, anywhere: never read; behind octet 3 it is the trailer that says so */
    for (bit = 0; bit < 34 * 8; bit++) {
        memcpy(packet, crc_example, 34);
        packet[bit / 8] ^= (uint8_t)(1u << bit % 8);
        n = pusmarke_read(packet, 34, 0);
        HOLDS(n.refusal == PUSMARKE_BAD_TRAILER || (bit < 32 && (n.refusal == PUSMARKE_BAD_HEADER || n.refusal == PUSMARKE_LENGTH_MISMATCH)));
    }
    /* the octets swapped; one and both of them missing; the flag taken away, and set on a plain packet */
    memcpy(packet, crc_example, 34);
    packet[32] = 0x65;
    packet[33] = 0x02;
    HOLDS(nothing_read(pusmarke_read(packet, 34, 0), PUSMARKE_BAD_TRAILER, 0, 0, 34));
    HOLDS(nothing_read(pusmarke_read(crc_example, 33, 0), PUSMARKE_LENGTH_MISMATCH, 0, 0, 33));
    HOLDS(nothing_read(pusmarke_read(crc_example, 32, 0), PUSMARKE_LENGTH_MISMATCH, 0, 0, 32));
    memcpy(packet, crc_example, 34);
    packet[0] = 0x28;
    HOLDS(nothing_read(pusmarke_read(packet, 34, 0), PUSMARKE_LENGTH_MISMATCH, 0, 0, 34));
    HOLDS(nothing_read(damaged(0, 0x2a), PUSMARKE_BAD_TRAILER, 0, 0, 32));

    /* a length field of 0, 1 and 2 is 16, with the octets stated; of 3, 21, then 17, then 16; 15 and a length that is off come before */
    HOLDS(nothing_read(pusmarke_read(below[0], 7, 0), PUSMARKE_LENGTH_MISMATCH, 0, 0, 7));
    HOLDS(nothing_read(pusmarke_read(below[1], 8, 0), PUSMARKE_LENGTH_MISMATCH, 0, 0, 8));
    HOLDS(nothing_read(pusmarke_read(below[2], 8, 0), PUSMARKE_NOT_NAK, 0, 0, 8));
    HOLDS(refused_with(two, 7, PUSMARKE_LENGTH_MISMATCH, PUSMARKE_LENGTH_MISMATCH));
    HOLDS(refused_with(code, 8, PUSMARKE_BAD_TRAILER, PUSMARKE_NOT_NAK));
    HOLDS(refused_with(short_field, 8, PUSMARKE_BAD_TRAILER, PUSMARKE_LENGTH_MISMATCH));
    HOLDS(refused_with(length_off, 8, PUSMARKE_LENGTH_MISMATCH, PUSMARKE_LENGTH_MISMATCH));
    HOLDS(refused_with(fixed_bit, 8, PUSMARKE_BAD_HEADER, PUSMARKE_BAD_HEADER));
    /* 21 before 18 and 2, and before the second 16 */
    memcpy(packet, crc_example, 34);
    packet[8] = 0xff;
    HOLDS(refused_with(packet, 32, PUSMARKE_BAD_TRAILER, PUSMARKE_SCOPE_REVERSED));
    memcpy(packet, crc_example, 34);
    packet[31] = 0x64;
    HOLDS(refused_with(packet, 32, PUSMARKE_BAD_TRAILER, PUSMARKE_EMPTY_SEGMENT));
    memcpy(packet, crc_example, 34);
    packet[2] = 0x19;
    HOLDS(refused_with(packet, 30, PUSMARKE_BAD_TRAILER, PUSMARKE_LENGTH_MISMATCH));

    /* totals count the trailer: 509 requests make 4,090 octets, 510 make 4,098, and without a trailer 4,096 */
    for (i = 0; i < 510; i++) {
        many[2 * i] = 2 * i + 1;
        many[2 * i + 1] = 2 * i + 2;
    }
    memset(buf, 0xaa, sizeof buf);
    memcpy(kept, buf, sizeof buf);
    REFUSED(pusmarke_write(identity, newer_crc, 0, 2000, many, 2 * 510, large_buffer, 4098), PUSMARKE_PDU_SIZE);
    CARRIES(pusmarke_write(identity, newer_crc, 0, 2000, many, 2 * 509, buf, 58), PUSMARKE_BUFFER_SIZE_MISSMATCH, 4090, 58);
    CARRIES(pusmarke_write(identity, newer_crc, 0, 1000, requests, 4, buf, 32), PUSMARKE_BUFFER_SIZE_MISSMATCH, 34, 32);
    CARRIES(pusmarke_write(identity, newer_crc, 0, 1000, requests, 4, buf, 35), PUSMARKE_BUFFER_SIZE_MISSMATCH, 34, 35);
    CARRIES(pusmarke_write(identity, newer_crc, 0, 1000, NULL, 0, NULL, 0), PUSMARKE_BUFFER_SIZE_MISSMATCH, 18, 0);
    REFUSED(pusmarke_write(identity, older_large_crc, 0, 1000, requests, 4, buf, 58), PUSMARKE_BAD_HEADER);
    SAME(kept, buf);
    ACCEPTED(pusmarke_write(identity, newer_crc, 0, 2000, many, 2 * 509, large_buffer, 4090), 4090, 0, 0);
    HOLDS(pusmarke_read(large_buffer, 4090, 0).refusal == PUSMARKE_ACCEPTED);
    ACCEPTED(pusmarke_write(identity, newer, 0, 2000, many, 2 * 510, large_buffer, 4096), 4096, 0, 0);
    /* the same octets under the flag, with a right trailer: too long by it */
    large_buffer[0] = 0x2a;
    large_buffer[1] = 0x0f;
    large_buffer[2] = 0xfb;
    HOLDS(nothing_read(pusmarke_read(large_buffer, seal(large_buffer, 4096), 0), PUSMARKE_PDU_SIZE, 0, 0, 4098));
    large_buffer[4097] ^= 1;
    HOLDS(nothing_read(pusmarke_read(large_buffer, 4098, 0), PUSMARKE_BAD_TRAILER, 0, 0, 4098));
}

/* The sequence with a trailer: P = 25 is 14, 26 and 32 have room for one request, 34 for two. */
static void crc_sequence(void) {
    const uint64_t list[2] = {0, 1000};
    const struct pusmarke_reception r = {1000, 1, 0, 1, 0, 0};
    uint8_t buf[128], kept[128];
    const uint8_t both[32] = {0x2a, 0, 0x1b, 0, 1, 7, 2, 8, 0, 0, 0, 0, 0, 0, 0x03, 0xe8, 0, 0, 0, 0, 0, 0, 0, 0, 0, 0, 0, 0, 0, 0, 0x03, 0xe8};
    size_t p;

    memset(buf, 0xaa, sizeof buf);
    memcpy(kept, buf, sizeof buf);
    REFUSED(pusmarke_nak_sequence(r, list, 2, identity, newer_crc, 25, 0, 2, buf, 128), PUSMARKE_PDU_SIZE);
    REFUSED(pusmarke_nak_sequence(r, list, 2, identity, newer_crc, 4097, 0, 2, buf, 128), PUSMARKE_PDU_SIZE);
    REFUSED(pusmarke_nak_sequence(r, list, 2, identity, large_crc, 41, 0, 2, buf, 128), PUSMARKE_PDU_SIZE);
    REFUSED(pusmarke_nak_sequence(r, list, 2, identity, older_large_crc, 42, 0, 2, buf, 128), PUSMARKE_BAD_HEADER);
    CARRIES(pusmarke_nak_sequence(r, list, 2, identity, newer_crc, 34, 0, 2, buf, 67), PUSMARKE_BUFFER_SIZE_MISSMATCH, 68, 67);
    SAME(kept, buf);
    for (p = 26; p < 34; p++) {
        ACCEPTED(pusmarke_nak_sequence(r, list, 2, identity, newer_crc, p, 0, 2, buf, 128), 2, 52, 2);
        HOLDS(pusmarke_read(buf, 26, 0).refusal == 0 && pusmarke_read(buf + 26, 26, 0).refusal == 0);
        HOLDS(buf[0] == 0x2a && buf[26] == 0x2a && buf[2] == 0x13 && pusmarke_read(buf + 26, 26, 0).crc == 1);
    }
    memset(buf, 0xaa, sizeof buf);
    ACCEPTED(pusmarke_nak_sequence(r, list, 2, identity, newer_crc, 34, 0, 2, buf, 128), 1, 34, 2);
    HOLDS(memcmp(buf, both, 32) == 0 && buf[32] == crc_of(buf, 32) >> 8 && buf[33] == (crc_of(buf, 32) & 0xff));
    HOLDS(memcmp(buf + 34, kept + 34, 94) == 0);
    ACCEPTED(pusmarke_nak_sequence(r, list, 2, identity, newer, 32, 0, 2, buf, 128), 1, 32, 2);
    ACCEPTED(pusmarke_nak_sequence(r, list, 2, identity, older_crc, 34, 0, 1, buf, 128), 1, 34, 2);
    HOLDS(buf[0] == 0x0a && pusmarke_read(buf, 34, 1).crc == 1);
    ACCEPTED(pusmarke_nak_sequence(r, list, 2, identity, large_crc, 42, 0, 2, buf, 128), 2, 84, 2);
    HOLDS(buf[0] == 0x2b && pusmarke_read(buf, 42, 0).crc == 1 && pusmarke_read(buf + 42, 42, 0).refusal == 0);
    ACCEPTED(pusmarke_nak_sequence(r, list, 2, identity, large_crc, 58, 0, 2, buf, 128), 1, 58, 2);
}

/* The sequence of the older edition: the octets of the newer one but for the first of each PDU. */
static void older_sequence(void) {
    const uint64_t list[4] = {100, 120, 150, 200};
    const uint64_t apart[4] = {150, 200, 100, 120};
    const struct pusmarke_reception r = {300, 2, 0, 0, 0, 0}, below = {199, 2, 0, 0, 0, 0};
    struct pusmarke_identity bad = identity;
    uint8_t buf[80], kept[80];
    const uint8_t each[48] = {0x08, 0, 0x11, 0, 1, 7, 2, 8, 0, 0, 0, 0, 0, 0, 0, 120, 0, 0, 0, 100, 0, 0, 0, 120, 0x08, 0, 0x11, 0, 1, 7, 2, 8,
        0, 0, 0, 120, 0, 0, 0x01, 0x2c, 0, 0, 0, 150, 0, 0, 0, 200};

    memset(buf, 0xaa, sizeof buf);
    memcpy(kept, buf, sizeof buf);
    REFUSED(pusmarke_nak_sequence(r, list, 3, identity, older_large, 40, 0, 2, buf, 80), PUSMARKE_BAD_STORE);
    REFUSED(pusmarke_nak_sequence(r, apart, 4, identity, older_large, 40, 0, 2, buf, 80), PUSMARKE_NOT_COALESCED);
    REFUSED(pusmarke_nak_sequence(below, list, 4, identity, older_large, 40, 0, 2, buf, 80), PUSMARKE_SCOPE_BELOW_LIST);
    bad.entity_length = 0;
    REFUSED(pusmarke_nak_sequence(r, list, 4, bad, older_large, 40, 0, 2, buf, 80), PUSMARKE_BAD_IDENTITY);
    REFUSED(pusmarke_nak_sequence(r, list, 4, identity, older_large, 40, 0, 2, buf, 80), PUSMARKE_BAD_HEADER);
    REFUSED(pusmarke_nak_sequence(r, list, 4, identity, older_large, 39, 0, 2, buf, 80), PUSMARKE_BAD_HEADER);
    REFUSED(pusmarke_nak_sequence(r, list, 4, identity, older_large, SIZE_MAX, 0, 2, buf, 80), PUSMARKE_BAD_HEADER);
    REFUSED(pusmarke_nak_sequence(r, list, 4, identity, older_large, 40, 3, 2, buf, 80), PUSMARKE_BAD_HEADER);
    REFUSED(pusmarke_nak_sequence(r, list, 4, identity, older_large, 40, 0, 17, buf, 80), PUSMARKE_BAD_HEADER);
    REFUSED(pusmarke_nak_sequence(r, list, 4, identity, older_large, 40, 0, 2, buf, 79), PUSMARKE_BAD_HEADER);
    REFUSED(pusmarke_nak_sequence(r, list, 4, identity, older_large, 40, 0, 0, NULL, 0), PUSMARKE_BAD_HEADER);
    REFUSED(pusmarke_nak_sequence(r, list, 4, identity, newer_large, 39, 0, 2, buf, 80), PUSMARKE_PDU_SIZE);
    REFUSED(pusmarke_nak_sequence(r, list, 4, identity, older, 23, 0, 2, buf, 80), PUSMARKE_PDU_SIZE);
    SAME(kept, buf);
    ACCEPTED(pusmarke_nak_sequence(r, list, 4, identity, older, 24, 0, 2, buf, 80), 2, 48, 2);
    HOLDS(memcmp(buf, each, 48) == 0 && memcmp(buf + 48, kept + 48, 32) == 0);
    ACCEPTED(pusmarke_nak_sequence(r, list, 4, identity, older, 24, 1, 1, buf, 80), 1, 24, 2);
    HOLDS(memcmp(buf, each + 24, 24) == 0);
    HOLDS(pusmarke_read(buf, 24, 1).refusal == PUSMARKE_ACCEPTED && pusmarke_read(buf, 24, 0).refusal == PUSMARKE_BAD_HEADER);
    ACCEPTED(pusmarke_nak_sequence(r, list, 4, identity, newer_large, 40, 0, 1, buf, 80), 1, 40, 1);
    HOLDS(buf[0] == 0x29);
}

static void sequence(void) {
    const uint64_t list[4] = {100, 120, 150, 200};
    const uint64_t apart[4] = {150, 200, 100, 120};
    const uint64_t huge[2] = {0, 4294967296u};
    struct pusmarke_reception r = {300, 2, 0, 0, 0, 0}, q;
    struct pusmarke_identity bad = identity;
    uint8_t buf[64], kept[64];
    const uint8_t both[32] = {0x28, 0, 0x19, 0, 1, 7, 2, 8, 0, 0, 0, 0, 0, 0, 0x01, 0x2c, 0, 0, 0, 100, 0, 0, 0, 120, 0, 0, 0, 150, 0, 0, 0,
        200};
    const uint8_t each[48] = {0x28, 0, 0x11, 0, 1, 7, 2, 8, 0, 0, 0, 0, 0, 0, 0, 120, 0, 0, 0, 100, 0, 0, 0, 120, 0x28, 0, 0x11, 0, 1, 7, 2, 8,
        0, 0, 0, 120, 0, 0, 0x01, 0x2c, 0, 0, 0, 150, 0, 0, 0, 200};

    memset(buf, 0xaa, sizeof buf);
    memcpy(kept, buf, sizeof buf);
    REFUSED(pusmarke_nak_sequence(r, list, 3, identity, newer, 32, 0, 2, buf, 64), PUSMARKE_BAD_STORE);
    q = r;
    q.missing = 3;
    REFUSED(pusmarke_nak_sequence(q, list, 4, identity, newer, 32, 0, 2, buf, 64), PUSMARKE_BAD_STORE);
    q = r;
    q.count = SIZE_MAX;
    REFUSED(pusmarke_nak_sequence(q, list, 4, identity, newer, 32, 0, 2, buf, 64), PUSMARKE_BAD_STORE);
    q = r;
    q.sized = 1;
    q.size = 301;
    REFUSED(pusmarke_nak_sequence(q, apart, 4, identity, newer, 32, 0, 2, buf, 64), PUSMARKE_BAD_STORE);
    REFUSED(pusmarke_nak_sequence(r, apart, 4, identity, newer, 32, 0, 2, buf, 64), PUSMARKE_NOT_COALESCED);
    q = r;
    q.progress = 199;
    REFUSED(pusmarke_nak_sequence(q, list, 4, identity, newer, 32, 0, 2, buf, 64), PUSMARKE_SCOPE_BELOW_LIST);
    bad.number_length = 9;
    REFUSED(pusmarke_nak_sequence(r, list, 4, bad, newer, 32, 0, 2, buf, 64), PUSMARKE_BAD_IDENTITY);
    REFUSED(pusmarke_nak_sequence(r, list, 4, identity, newer, 23, 0, 2, buf, 64), PUSMARKE_PDU_SIZE);
    REFUSED(pusmarke_nak_sequence(r, list, 4, identity, newer, SIZE_MAX, 0, 2, buf, 64), PUSMARKE_PDU_SIZE);
    q.progress = 4294967296u;
    q.count = 1;
    REFUSED(pusmarke_nak_sequence(q, huge, 2, identity, newer, 32, 0, 2, buf, 64), PUSMARKE_LARGE_SEGMENT_FOR_NORMAL_FILE_SIZE);
    REFUSED(pusmarke_nak_sequence(r, list, 4, identity, newer, 32, 3, 2, buf, 64), PUSMARKE_BAD_CURSOR);
    REFUSED(pusmarke_nak_sequence(r, list, 4, identity, newer, 32, 0, 17, buf, 64), PUSMARKE_BUDGET_TOO_LARGE);
    CARRIES(pusmarke_nak_sequence(r, list, 4, identity, newer, 32, 0, 2, buf, 63), PUSMARKE_BUFFER_SIZE_MISSMATCH, 64, 63);
    CARRIES(pusmarke_nak_sequence(r, list, 4, identity, newer, 32, 0, 2, NULL, 0), PUSMARKE_BUFFER_SIZE_MISSMATCH, 64, 0);
    ACCEPTED(pusmarke_nak_sequence(r, list, 4, identity, newer, 32, 1, 0, NULL, 0), 0, 0, 1);
    SAME(kept, buf);

    ACCEPTED(pusmarke_nak_sequence(r, list, 4, identity, newer, 32, 0, 2, buf, 64), 1, 32, 2);
    HOLDS(memcmp(buf, both, 32) == 0 && memcmp(buf + 32, kept + 32, 32) == 0);
    /* the size known: it is progress, and the PDU is the same */
    q = r;
    q.sized = 1;
    q.size = 300;
    ACCEPTED(pusmarke_nak_sequence(q, list, 4, identity, newer, 32, 0, 2, buf, 64), 1, 32, 2);
    HOLDS(memcmp(buf, both, 32) == 0);
    ACCEPTED(pusmarke_nak_sequence(r, list, 4, identity, newer, 24, 0, 2, buf, 64), 2, 48, 2);
    HOLDS(memcmp(buf, each, 48) == 0 && memcmp(buf + 48, kept + 48, 16) == 0);
    ACCEPTED(pusmarke_nak_sequence(r, list, 4, identity, newer, 24, 0, 1, buf, 64), 1, 24, 1);
    ACCEPTED(pusmarke_nak_sequence(r, list, 4, identity, newer, 24, 1, 1, buf, 64), 1, 24, 2);
    HOLDS(memcmp(buf, each + 24, 24) == 0);
    ACCEPTED(pusmarke_nak_sequence(r, list, 4, identity, newer, 24, 2, 1, buf, 64), 0, 0, 2);
    /* nothing known and nothing noticed: metadata alone is asked for */
    ACCEPTED(pusmarke_nak_sequence(pusmarke_fresh(0), NULL, 0, identity, newer_large, 47, 0, 1, buf, 64), 1, 40, 1);
}

/* The answer of a call of the deferred procedure, and its timer, which is handed on. */
static struct pusmarke_deferred hears(int line, struct pusmarke_heard h, uint64_t refusal, uint64_t first, uint64_t period, uint64_t limit,
    uint64_t activity, uint64_t left, uint64_t counter) {
    const struct pusmarke_deferred t = h.timer;

    is(line, h.answer, refusal, first, 0, 0);
    holds(line, t.period == period && t.limit == limit && t.activity == activity && t.left == left && t.counter == counter);
    return t;
}

#define HEARS(call, refusal, first, period, limit, activity, left, counter) \
    hears(__LINE__, (call), (refusal), (first), (period), (limit), (activity), (left), (counter))
#define IDLE PUSMARKE_TIMER_IDLE
#define ACTIVE PUSMARKE_TIMER_ACTIVE
#define DEAF PUSMARKE_TIMER_DEAF

/* "starts a countdown of d ticks, 1 to 65,535", "the limit (1 to 255)", "A d or limit outside its range is 25." */
static void timers(void) {
    static const uint64_t fine[][2] = {{1, 1}, {65535, 255}, {1, 255}, {65535, 1}, {7, 3}};
    static const uint64_t bad[][2] = {{0, 1}, {65536, 1}, {1, 0}, {1, 256}, {0, 0}, {65536, 256}, {UINT64_MAX, 1}, {1, UINT64_MAX},
        {4294967296u, 1}, {1, 4294967296u}};
    size_t i;

    for (i = 0; i < sizeof fine / sizeof fine[0]; i++) {
        HEARS(pusmarke_deferred(fine[i][0], fine[i][1]), 0, 0, fine[i][0], fine[i][1], IDLE, 0, 0);
    }
    for (i = 0; i < sizeof bad / sizeof bad[0]; i++) {
        HEARS(pusmarke_deferred(bad[i][0], bad[i][1]), PUSMARKE_BAD_TIMER, 0, 0, 0, 0, 0, 0);
    }
}

/* "At zero it asks for one full sequence, raises the counter and restarts." "When the counter has reached the limit …, the next expiry
 * reports the limit once and stops". "If no event is accepted or reset made after it becomes active, the report comes at tick
 * d * (limit + 1)." */
static void ticks(void) {
    static const uint64_t cases[][2] = {{1, 1}, {1, 3}, {2, 1}, {5, 4}, {3, 255}, {65535, 2}};
    struct pusmarke_deferred t;
    size_t i;

    for (i = 0; i < sizeof cases / sizeof cases[0]; i++) {
        const uint64_t d = cases[i][0], limit = cases[i][1], last = d * (limit + 1);
        struct pusmarke_reception r = pusmarke_fresh(0);
        uint64_t list[2] = {0}, n, unlike = 0;

        t = HEARS(pusmarke_deferred_eof(&r, list, 2, 9, pusmarke_deferred(d, limit).timer), 0, 0, d, limit, ACTIVE, d, 0);
        for (n = 1; n <= last + 2 * d; n++) {
            const struct pusmarke_heard h = pusmarke_tick(t);
            const uint64_t told = n == last ? PUSMARKE_TICK_LIMIT
                : n < last && n % d == 0    ? PUSMARKE_TICK_ASK
                                            : PUSMARKE_TICK_QUIET;
            unlike += h.answer.refusal != 0 || h.answer.first != told || h.answer.second != 0 || h.answer.third != 0;
            unlike += h.timer.period != d || h.timer.limit != limit;
            unlike += h.timer.activity != (n < last ? ACTIVE : DEAF) || h.timer.left != (n < last ? d - n % d : 0);
            unlike += h.timer.counter != (n < last ? n / d : limit);
            t = h.timer;
        }
        HOLDS(unlike == 0);
    }
    /* Any numbers are fine: nothing is left, or the counter is above the limit. Of activity, any number but 0 and 1 is deaf. */
    t.period = 7, t.limit = 3, t.activity = 1, t.left = 0, t.counter = 2;
    HEARS(pusmarke_tick(t), 0, PUSMARKE_TICK_ASK, 7, 3, ACTIVE, 7, 3);
    t.counter = UINT64_MAX;
    HEARS(pusmarke_tick(t), 0, PUSMARKE_TICK_LIMIT, 7, 3, DEAF, 0, UINT64_MAX);
    t.limit = UINT64_MAX, t.counter = UINT64_MAX - 1;
    HEARS(pusmarke_tick(t), 0, PUSMARKE_TICK_ASK, 7, UINT64_MAX, ACTIVE, 7, UINT64_MAX);
    t.left = UINT64_MAX;
    HEARS(pusmarke_tick(t), 0, PUSMARKE_TICK_QUIET, 7, UINT64_MAX, ACTIVE, UINT64_MAX - 1, UINT64_MAX - 1);
    t.activity = 0;
    HEARS(pusmarke_tick(t), 0, PUSMARKE_TICK_QUIET, 7, UINT64_MAX, IDLE, UINT64_MAX, UINT64_MAX - 1);
    t.activity = UINT64_MAX;
    HEARS(pusmarke_tick(t), 0, PUSMARKE_TICK_QUIET, 7, UINT64_MAX, DEAF, UINT64_MAX, UINT64_MAX - 1);
}

/* The events with their timer, and the reset. */
static void deferred(void) {
    uint64_t list[6] = {0}, kept[6];
    const uint64_t apart[4] = {150, 200, 100, 120}, above[2] = {10, 301};
    struct pusmarke_reception r = pusmarke_fresh(0), q;
    struct pusmarke_deferred t = pusmarke_deferred(4, 2).timer;
    int i;

    /* "Once the size is known and anything is missing, metadata included, it becomes active and starts a countdown of d ticks" */
    t = HEARS(pusmarke_deferred_data(&r, list, 6, 50, 10, t), 0, 0, 4, 2, IDLE, 0, 0);
    HOLDS(sized_is(r, 60, 1, 0, 1, 0, 0) && list[0] == 0 && list[1] == 60);
    t = HEARS(pusmarke_tick(t), 0, PUSMARKE_TICK_QUIET, 4, 2, IDLE, 0, 0);
    t = HEARS(pusmarke_deferred_eof(&r, list, 6, 300, t), 0, 0, 4, 2, ACTIVE, 4, 0);
    HOLDS(sized_is(r, 300, 1, 0, 1, 1, 300) && list[0] == 0 && list[1] == 300);
    for (i = 0; i < 5; i++) {
        t = pusmarke_tick(t).timer;
    }
    /* Noticed data lowers nothing, and does not restart. */
    t = HEARS(pusmarke_deferred_data(&r, list, 6, 0, 300, t), 0, 0, 4, 2, ACTIVE, 3, 1);
    /* "An event that lowers the number of missing octets, or the metadata event, zeroes the counter and restarts." */
    t = HEARS(pusmarke_deferred_metadata(&r, list, 6, t), 0, 0, 4, 2, ACTIVE, 4, 0);
    HOLDS(sized_is(r, 300, 1, 0, 0, 1, 300));
    for (i = 0; i < 5; i++) {
        t = pusmarke_tick(t).timer;
    }
    t = HEARS(pusmarke_deferred_data(&r, list, 6, 0, 100, t), 0, 1, 4, 2, ACTIVE, 4, 0);
    HOLDS(sized_is(r, 300, 1, 0, 0, 1, 300) && list[0] == 100 && list[1] == 300);
    for (i = 0; i < 5; i++) {
        t = pusmarke_tick(t).timer;
    }
    /* What is held already lowers nothing, and the same size again does not. */
    t = HEARS(pusmarke_deferred_data(&r, list, 6, 10, 90, t), 0, 1, 4, 2, ACTIVE, 3, 1);
    t = HEARS(pusmarke_deferred_eof(&r, list, 6, 300, t), 0, 0, 4, 2, ACTIVE, 3, 1);
    t = HEARS(pusmarke_deferred_data(&r, list, 6, 120, 30, t), 0, 1, 4, 2, ACTIVE, 4, 0);
    t = HEARS(pusmarke_tick(t), 0, PUSMARKE_TICK_QUIET, 4, 2, ACTIVE, 3, 0);
    t = HEARS(pusmarke_deferred_data(&r, list, 6, 200, 50, t), 0, 1, 4, 2, ACTIVE, 4, 0);
    HOLDS(sized_is(r, 300, 3, 0, 0, 1, 300));
    t = HEARS(pusmarke_tick(t), 0, PUSMARKE_TICK_QUIET, 4, 2, ACTIVE, 3, 0);

    /* Refused events change nothing: each refusal of each event, and of the reset. */
    memcpy(kept, list, sizeof list);
    q = r;
    HEARS(pusmarke_deferred_data(&q, list, 5, 100, 1, t), PUSMARKE_BAD_STORE, 0, 4, 2, ACTIVE, 3, 0);
    HEARS(pusmarke_deferred_data(&q, list, 6, 100, 0, t), PUSMARKE_EMPTY_SEGMENT, 0, 4, 2, ACTIVE, 3, 0);
    HEARS(pusmarke_deferred_data(&q, list, 6, 1, UINT64_MAX, t), PUSMARKE_RANGE_TOO_LONG, 0, 4, 2, ACTIVE, 3, 0);
    HEARS(pusmarke_deferred_data(&q, list, 6, 299, 2, t), PUSMARKE_FILE_SIZE_ERROR, 0, 4, 2, ACTIVE, 3, 0);
    HEARS(pusmarke_deferred_data(&q, list, 6, 160, 10, t), PUSMARKE_STORE_FULL, 0, 4, 2, ACTIVE, 3, 0);
    HEARS(pusmarke_deferred_metadata(&q, list, 5, t), PUSMARKE_BAD_STORE, 0, 4, 2, ACTIVE, 3, 0);
    HEARS(pusmarke_deferred_metadata(&q, list, 6, t), PUSMARKE_ALREADY_KNOWN, 0, 4, 2, ACTIVE, 3, 0);
    HEARS(pusmarke_deferred_eof(&q, list, 5, 300, t), PUSMARKE_BAD_STORE, 0, 4, 2, ACTIVE, 3, 0);
    HEARS(pusmarke_deferred_eof(&q, list, 6, 299, t), PUSMARKE_FILE_SIZE_ERROR, 0, 4, 2, ACTIVE, 3, 0);
    HEARS(pusmarke_deferred_eof(&q, list, 6, 301, t), PUSMARKE_FILE_SIZE_ERROR, 0, 4, 2, ACTIVE, 3, 0);
    HEARS(pusmarke_reset(t, q, list, 5), PUSMARKE_BAD_STORE, 0, 4, 2, ACTIVE, 3, 0);
    HOLDS(sized_is(q, 300, 3, 0, 0, 1, 300));
    q.narrow = 8, q.sized = 0;
    HEARS(pusmarke_deferred_data(&q, list, 6, NARROW_LIMIT, 1, t), PUSMARKE_LARGE_FILE_SEGMENT_NOT_SUPPORTED, 0, 4, 2, ACTIVE, 3, 0);
    HEARS(pusmarke_deferred_eof(&q, list, 6, 4294967296u, t), PUSMARKE_LARGE_FILE_SEGMENT_NOT_SUPPORTED, 0, 4, 2, ACTIVE, 3, 0);
    q.progress = 310;
    HEARS(pusmarke_deferred_eof(&q, list, 6, 320, t), PUSMARKE_STORE_FULL, 0, 4, 2, ACTIVE, 3, 0);
    SAME(kept, list);
    q = r;
    q.count = 2;
    memcpy(list, apart, sizeof apart);
    HEARS(pusmarke_deferred_data(&q, list, 4, 100, 1, t), PUSMARKE_NOT_COALESCED, 0, 4, 2, ACTIVE, 3, 0);
    HEARS(pusmarke_deferred_metadata(&q, list, 4, t), PUSMARKE_NOT_COALESCED, 0, 4, 2, ACTIVE, 3, 0);
    HEARS(pusmarke_deferred_eof(&q, list, 4, 300, t), PUSMARKE_NOT_COALESCED, 0, 4, 2, ACTIVE, 3, 0);
    HEARS(pusmarke_reset(t, q, list, 4), PUSMARKE_NOT_COALESCED, 0, 4, 2, ACTIVE, 3, 0);
    q.count = 1;
    memcpy(list, above, sizeof above);
    HEARS(pusmarke_deferred_data(&q, list, 2, 100, 1, t), PUSMARKE_SCOPE_BELOW_LIST, 0, 4, 2, ACTIVE, 3, 0);
    HEARS(pusmarke_deferred_metadata(&q, list, 2, t), PUSMARKE_SCOPE_BELOW_LIST, 0, 4, 2, ACTIVE, 3, 0);
    HEARS(pusmarke_deferred_eof(&q, list, 2, 300, t), PUSMARKE_SCOPE_BELOW_LIST, 0, 4, 2, ACTIVE, 3, 0);
    HEARS(pusmarke_reset(t, q, list, 2), PUSMARKE_SCOPE_BELOW_LIST, 0, 4, 2, ACTIVE, 3, 0);
    HOLDS(sized_is(q, 300, 1, 0, 0, 1, 300) && list[0] == 10 && list[1] == 301);
    memcpy(list, kept, sizeof kept);

    /* "the next expiry reports the limit once and stops, deaf to all but a reset, which zeroes the counter and restarts" */
    for (i = 0; i < 10; i++) {
        t = pusmarke_tick(t).timer;
    }
    t = HEARS(pusmarke_tick(t), 0, PUSMARKE_TICK_LIMIT, 4, 2, DEAF, 0, 2);
    t = HEARS(pusmarke_tick(t), 0, PUSMARKE_TICK_QUIET, 4, 2, DEAF, 0, 2);
    t = HEARS(pusmarke_deferred_data(&r, list, 6, 100, 20, t), 0, 1, 4, 2, DEAF, 0, 2);
    HOLDS(sized_is(r, 300, 2, 0, 0, 1, 300) && list[0] == 150);
    t = HEARS(pusmarke_deferred_eof(&r, list, 6, 300, t), 0, 0, 4, 2, DEAF, 0, 2);
    t.activity = 1000;
    t = HEARS(pusmarke_deferred_metadata(&r, list, 6, t), PUSMARKE_ALREADY_KNOWN, 0, 4, 2, DEAF, 0, 2);
    t = HEARS(pusmarke_reset(t, r, list, 6), 0, 0, 4, 2, ACTIVE, 4, 0);
    t = HEARS(pusmarke_tick(t), 0, PUSMARKE_TICK_QUIET, 4, 2, ACTIVE, 3, 0);
    t = HEARS(pusmarke_reset(t, r, list, 6), 0, 0, 4, 2, ACTIVE, 4, 0);
    /* "When nothing is missing, metadata included, it goes inactive." */
    t = HEARS(pusmarke_tick(t), 0, PUSMARKE_TICK_QUIET, 4, 2, ACTIVE, 3, 0);
    t = HEARS(pusmarke_deferred_data(&r, list, 6, 0, 300, t), 0, 1, 4, 2, IDLE, 0, 0);
    HOLDS(sized_is(r, 300, 0, 0, 0, 1, 300));
    t = HEARS(pusmarke_tick(t), 0, PUSMARKE_TICK_QUIET, 4, 2, IDLE, 0, 0);
    HEARS(pusmarke_reset(t, r, list, 6), 0, 0, 4, 2, IDLE, 0, 0);
    t.activity = 2;
    HEARS(pusmarke_reset(t, r, list, 6), 0, 0, 4, 2, IDLE, 0, 0);

    /* Of an empty file metadata alone is missing. There need not be a list. */
    r = pusmarke_fresh(1);
    t = pusmarke_deferred(9, 1).timer;
    t = HEARS(pusmarke_deferred_eof(&r, NULL, 0, 0, t), 0, 0, 9, 1, ACTIVE, 9, 0);
    t = HEARS(pusmarke_tick(t), 0, PUSMARKE_TICK_QUIET, 9, 1, ACTIVE, 8, 0);
    t = HEARS(pusmarke_deferred_metadata(&r, NULL, 0, t), 0, 0, 9, 1, IDLE, 0, 0);
    HOLDS(sized_is(r, 0, 0, 1, 0, 1, 0));

    /* "activity is judged after each accepted event or reset": made after the end of file it waits for one of these. */
    r = pusmarke_fresh(0);
    ACCEPTED(pusmarke_eof(&r, list, 6, 300), 0, 0, 0);
    t = pusmarke_deferred(5, 1).timer;
    t = HEARS(pusmarke_tick(t), 0, PUSMARKE_TICK_QUIET, 5, 1, IDLE, 0, 0);
    t = HEARS(pusmarke_deferred_eof(&r, list, 6, 299, t), PUSMARKE_FILE_SIZE_ERROR, 0, 5, 1, IDLE, 0, 0);
    HEARS(pusmarke_reset(t, r, list, 6), 0, 0, 5, 1, ACTIVE, 5, 0);
    HEARS(pusmarke_deferred_eof(&r, list, 6, 300, t), 0, 0, 5, 1, ACTIVE, 5, 0);
    HEARS(pusmarke_deferred_data(&r, list, 6, 1, 1, t), 0, 0, 5, 1, ACTIVE, 5, 0);
    HOLDS(sized_is(r, 300, 1, 0, 1, 1, 300));
}

/* Every call on this transfer of the pool is refused with this number, whatever else is wrong with it, and nothing lent changes. */
static void no_pool(int line, struct pusmarke_pool p, const uint64_t *list, size_t length, size_t i, uint64_t number) {
    static uint64_t copy[2 * PAIRS];
    const struct pusmarke_pool kept = p;
    struct pusmarke_identity bad = identity;
    uint8_t buf[64], octets[64];

    memcpy(copy, list, length * sizeof *list);
    memset(buf, 0xaa, sizeof buf);
    memcpy(octets, buf, sizeof buf);
    bad.entity_length = 0;
    is(line, pusmarke_pool_data(&p, copy, length, i, 0, 5), number, 0, 0, 0);
    is(line, pusmarke_pool_data(&p, copy, length, i, 0, 0), number, 0, 0, 0);
    is(line, pusmarke_pool_data(&p, copy, length, i, UINT64_MAX, UINT64_MAX), number, 0, 0, 0);
    is(line, pusmarke_pool_metadata(&p, copy, length, i), number, 0, 0, 0);
    is(line, pusmarke_pool_eof(&p, copy, length, i, 0), number, 0, 0, 0);
    is(line, pusmarke_pool_eof(&p, copy, length, i, UINT64_MAX), number, 0, 0, 0);
    is(line, pusmarke_pool_held(p, list, length, i, 0, 5), number, 0, 0, 0);
    is(line, pusmarke_pool_held(p, list, length, i, 5, 5), number, 0, 0, 0);
    is(line, pusmarke_pool_held(p, list, length, i, 5, 0), number, 0, 0, 0);
    is(line, pusmarke_pool_missing_octets(p, list, length, i), number, 0, 0, 0);
    is(line, pusmarke_pool_nak_sequence(p, list, length, i, identity, newer, 32, 0, 2, buf, 64), number, 0, 0, 0);
    is(line, pusmarke_pool_nak_sequence(p, list, length, i, bad, older_large, 0, SIZE_MAX, SIZE_MAX, buf, 0), number, 0, 0, 0);
    holds(line, memcmp(&p, &kept, sizeof p) == 0 && memcmp(copy, list, length * sizeof *list) == 0 && memcmp(buf, octets, sizeof buf) == 0);
}

#define NO_POOL(p, list, length, i, number) no_pool(__LINE__, (p), (list), (length), (i), (number))

/* Two transfers whose metadata is known: the first holds 100-120 and 150-200 below 300, the second 40-50 below 60. */
static const uint64_t shared[10] = {100, 120, 150, 200, 40, 50, 0, 0, 0, 0};

static struct pusmarke_pool of_two(void) {
    struct pusmarke_pool p = pusmarke_pool_add(pusmarke_pool_add(pusmarke_pool_fresh(), 0, 1, 3), 0, 1, 4);
    const struct pusmarke_reception first = {300, 2, 0, 0, 0, 0}, second = {60, 1, 0, 0, 0, 0};

    p.records[0] = first;
    p.records[1] = second;
    return p;
}

/* "bad settings or an unknown transfer are refusal 23, first": more than eight, a floor above its limit, floors above S in sum. "held above
 * limit, or that sum above S, is 10. 10 looks at every transfer, 8 and 12 at the one named." */
static void bad_pools(void) {
    struct pusmarke_pool p = of_two(), q;
    uint64_t list[10];
    size_t i;

    NO_POOL(pusmarke_pool_fresh(), shared, 10, 0, PUSMARKE_BAD_POOL);
    NO_POOL(p, shared, 10, 2, PUSMARKE_BAD_POOL);
    NO_POOL(p, shared, 10, 8, PUSMARKE_BAD_POOL);
    NO_POOL(p, shared, 10, SIZE_MAX, PUSMARKE_BAD_POOL);
    q = p;
    q.used = 9;
    NO_POOL(q, shared, 10, 0, PUSMARKE_BAD_POOL);
    NO_POOL(q, shared, 10, 8, PUSMARKE_BAD_POOL);
    q.used = SIZE_MAX;
    NO_POOL(q, shared, 10, 0, PUSMARKE_BAD_POOL);
    q = p;
    q.floors[1] = 5;
    NO_POOL(q, shared, 10, 0, PUSMARKE_BAD_POOL);
    NO_POOL(q, shared, 10, 1, PUSMARKE_BAD_POOL);
    q.limits[1] = 5; /* 1 + 5 of 5 */
    NO_POOL(q, shared, 10, 0, PUSMARKE_BAD_POOL);
    q.floors[1] = SIZE_MAX; /* the sum passes 2^64 */
    q.limits[1] = SIZE_MAX;
    NO_POOL(q, shared, 10, 0, PUSMARKE_BAD_POOL);
    NO_POOL(q, shared, 9, 0, PUSMARKE_BAD_POOL);
    NO_POOL(p, shared, 3, 0, PUSMARKE_BAD_POOL); /* odd too; S is 1, and the floors are 2 */
    NO_POOL(p, long_list, 2 * PAIRS, 2, PUSMARKE_BAD_POOL);

    for (i = 0; i < 2; i++) {
        NO_POOL(p, shared, 9, i, PUSMARKE_BAD_STORE);
        NO_POOL(p, long_list, 2 * PAIRS, i, PUSMARKE_BAD_STORE);
        q = p;
        q.records[1].count = 5; /* above its limit */
        NO_POOL(q, shared, 10, i, PUSMARKE_BAD_STORE);
        q = p;
        q.limits[0] = 1;
        NO_POOL(q, shared, 10, i, PUSMARKE_BAD_STORE);
        q = p;
        q.floors[1] = 4; /* 2 + 4 of 5 */
        NO_POOL(q, shared, 10, i, PUSMARKE_BAD_STORE);
        NO_POOL(p, shared, 4, i, PUSMARKE_BAD_STORE); /* 2 + 1 of 2 */
        q = p;
        q.records[1].count = SIZE_MAX;
        q.limits[1] = SIZE_MAX;
        NO_POOL(q, shared, 10, i, PUSMARKE_BAD_STORE);
        /* a record that is 10 by itself */
        q = p;
        q.records[1].missing = 4;
        NO_POOL(q, shared, 10, i, PUSMARKE_BAD_STORE);
        q = p;
        q.records[1].sized = 2;
        q.records[1].size = 61;
        NO_POOL(q, shared, 10, i, PUSMARKE_BAD_STORE);
        q = p;
        q.records[1].narrow = 1;
        q.records[1].progress = 4294967296u;
        NO_POOL(q, shared, 10, i, PUSMARKE_BAD_STORE);
        /* and a third, in use and not */
        q = pusmarke_pool_add(p, 1, 0, 0);
        q.records[2].progress = 1;
        NO_POOL(q, shared, 10, i, PUSMARKE_BAD_STORE);
        q.used = 2;
        HOLDS(pusmarke_pool_missing_octets(q, shared, 10, i).refusal == 0);
    }

    /* 10 of the other before 8 of the one named, and 8 before 12 */
    memcpy(list, shared, sizeof list);
    list[0] = 160;
    q = p;
    q.records[0].progress = 199;
    NO_POOL(q, list, 10, 0, PUSMARKE_NOT_COALESCED);
    NO_POOL(q, shared, 10, 0, PUSMARKE_SCOPE_BELOW_LIST);
    ACCEPTED(pusmarke_pool_missing_octets(q, list, 10, 1), 10, 0, 0);
    ACCEPTED(pusmarke_pool_held(q, list, 10, 1, 0, 40), 1, 0, 0);
    q.records[1].missing = 1;
    NO_POOL(q, list, 10, 0, PUSMARKE_BAD_STORE);
}

/* What each call refuses behind those, and that all of the pool but one record stays as it was. */
static void pool_calls(void) {
    struct pusmarke_pool p = of_two(), q, kept;
    struct pusmarke_identity bad = identity;
    uint64_t list[10], was[10];
    uint8_t buf[64], octets[64];
    const uint8_t both[32] = {0x28, 0, 0x19, 0, 1, 7, 2, 8, 0, 0, 0, 0, 0, 0, 0x01, 0x2c, 0, 0, 0, 100, 0, 0, 0, 120, 0, 0, 0, 150, 0, 0, 0,
        200};
    const uint8_t one[24] = {0x28, 0, 0x11, 0, 1, 7, 2, 8, 0, 0, 0, 0, 0, 0, 0, 60, 0, 0, 0, 40, 0, 0, 0, 50};

    memcpy(list, shared, sizeof list);
    kept = p;
    REFUSED(pusmarke_pool_data(&p, list, 10, 1, 7, 0), PUSMARKE_EMPTY_SEGMENT);
    REFUSED(pusmarke_pool_data(&p, list, 10, 1, UINT64_MAX, 1), PUSMARKE_RANGE_TOO_LONG);
    REFUSED(pusmarke_pool_metadata(&p, list, 10, 0), PUSMARKE_ALREADY_KNOWN);
    REFUSED(pusmarke_pool_eof(&p, list, 10, 0, 299), PUSMARKE_FILE_SIZE_ERROR);
    REFUSED(pusmarke_pool_held(p, list, 10, 0, 5, 5), PUSMARKE_EMPTY_SEGMENT);
    CARRIES(pusmarke_pool_held(p, list, 10, 1, 7, 5), PUSMARKE_START_LARGER_THAN_END, 7, 5);
    HOLDS(memcmp(&p, &kept, sizeof p) == 0 && memcmp(list, shared, sizeof list) == 0);
    /* a narrow one beside a wide one; the other numbers stay as handed over, marks of any value too */
    q = p;
    q.records[0].narrow = 6;
    q.records[0].sized = 3;
    q.records[0].size = 300;
    q.records[1].size = 77;
    kept = q;
    REFUSED(pusmarke_pool_data(&q, list, 10, 0, 4294967295u, 1), PUSMARKE_LARGE_FILE_SEGMENT_NOT_SUPPORTED);
    REFUSED(pusmarke_pool_eof(&q, list, 10, 0, 4294967296u), PUSMARKE_LARGE_FILE_SEGMENT_NOT_SUPPORTED);
    REFUSED(pusmarke_pool_data(&q, list, 10, 0, 299, 2), PUSMARKE_FILE_SIZE_ERROR);
    HOLDS(memcmp(&q, &kept, sizeof q) == 0 && memcmp(list, shared, sizeof list) == 0);
    ACCEPTED(pusmarke_pool_eof(&q, list, 10, 0, 300), 0, 0, 0);
    kept.records[0].sized = 1;
    HOLDS(memcmp(&q, &kept, sizeof q) == 0 && memcmp(list, shared, sizeof list) == 0);
    ACCEPTED(pusmarke_pool_data(&q, list, 10, 1, 4294967295u, 1), 1, 0, 0);
    kept.records[1].progress = 4294967296u;
    kept.records[1].count = 2;
    HOLDS(memcmp(&q, &kept, sizeof q) == 0 && list[6] == 60 && list[7] == 4294967295u && list[8] == 0);

    /* what was kept, what is missing */
    ACCEPTED(pusmarke_pool_held(p, shared, 10, 0, 120, 150), 1, 0, 0);
    ACCEPTED(pusmarke_pool_held(p, shared, 10, 0, 0, 60), 1, 0, 0);
    ACCEPTED(pusmarke_pool_held(p, shared, 10, 1, 0, 60), 0, 0, 0);
    ACCEPTED(pusmarke_pool_held(p, shared, 10, 1, 50, 60), 1, 0, 0);
    ACCEPTED(pusmarke_pool_held(p, shared, 10, 1, 50, 61), 0, 0, 0);
    ACCEPTED(pusmarke_pool_missing_octets(p, shared, 10, 0), 70, 0, 0);
    ACCEPTED(pusmarke_pool_missing_octets(p, shared, 10, 1), 10, 0, 0);

    /* the sequences */
    memset(buf, 0xaa, sizeof buf);
    memcpy(octets, buf, sizeof buf);
    bad.number_length = 9;
    REFUSED(pusmarke_pool_nak_sequence(p, shared, 10, 0, bad, older_large, 0, 9, 17, buf, 0), PUSMARKE_BAD_IDENTITY);
    REFUSED(pusmarke_pool_nak_sequence(p, shared, 10, 0, identity, older_large, 0, 9, 17, buf, 0), PUSMARKE_BAD_HEADER);
    REFUSED(pusmarke_pool_nak_sequence(p, shared, 10, 0, identity, newer, 23, 9, 17, buf, 0), PUSMARKE_PDU_SIZE);
    memcpy(was, shared, sizeof was);
    was[5] = 4294967296u;
    q = p;
    q.records[1].progress = 4294967296u;
    REFUSED(pusmarke_pool_nak_sequence(q, was, 10, 1, identity, newer, 32, 9, 17, buf, 0), PUSMARKE_LARGE_SEGMENT_FOR_NORMAL_FILE_SIZE);
    REFUSED(pusmarke_pool_nak_sequence(p, shared, 10, 1, identity, newer, 32, 2, 17, buf, 0), PUSMARKE_BAD_CURSOR);
    REFUSED(pusmarke_pool_nak_sequence(p, shared, 10, 0, identity, newer, 32, 2, 17, buf, 0), PUSMARKE_BUDGET_TOO_LARGE);
    CARRIES(pusmarke_pool_nak_sequence(p, shared, 10, 0, identity, newer, 32, 0, 2, buf, 63), PUSMARKE_BUFFER_SIZE_MISSMATCH, 64, 63);
    SAME(octets, buf);
    ACCEPTED(pusmarke_pool_nak_sequence(p, shared, 10, 0, identity, newer, 32, 0, 2, buf, 64), 1, 32, 2);
    HOLDS(memcmp(buf, both, 32) == 0 && memcmp(buf + 32, octets + 32, 32) == 0);
    memcpy(buf, octets, sizeof buf);
    ACCEPTED(pusmarke_pool_nak_sequence(p, shared, 10, 1, identity, newer, 32, 0, 2, buf, 64), 1, 24, 1);
    HOLDS(memcmp(buf, one, 24) == 0 && memcmp(buf + 24, octets + 24, 40) == 0);
}

/* Several transfers, one list. */
static void pools(void) {
    uint64_t list[12] = {0};
    const uint64_t full[12] = {0, 10, 20, 30, 40, 50, 60, 70, 0, 10, 20, 30}, freed[12] = {0, 10, 40, 50, 60, 70, 0, 10, 20, 30, 0, 0};
    const uint64_t served[12] = {0, 10, 40, 50, 60, 70, 0, 10, 20, 30, 40, 50};
    const uint64_t ended[12] = {0, 10, 40, 50, 60, 70, 40, 50, 0, 0, 0, 0};
    struct pusmarke_pool p = pusmarke_pool_fresh(), q, none;
    uint64_t i;

    /* a pool without transfers, and eight added; a ninth is one too many */
    memset(&none, 0, sizeof none);
    HOLDS(memcmp(&p, &none, sizeof p) == 0);
    for (i = 0; i < 8; i++) {
        q = pusmarke_pool_add(p, i, (size_t)i, 10);
        HOLDS(q.used == i + 1 && record_is(q.records[i], 0, 0, i, 1) && q.floors[i] == i && q.limits[i] == 10);
        p.used = q.used;
        p.records[i] = q.records[i];
        p.floors[i] = q.floors[i];
        p.limits[i] = q.limits[i];
        HOLDS(memcmp(&p, &q, sizeof p) == 0);
    }
    q = pusmarke_pool_add(p, 1, 1, 1);
    HOLDS(q.used == 9 && memcmp(p.records, q.records, sizeof p - sizeof p.used) == 0);
    NO_POOL(q, long_list, 8192, 0, PUSMARKE_BAD_POOL);
    q.used = SIZE_MAX;
    HOLDS(pusmarke_pool_add(q, 1, 1, 1).used == 9);
    /* 0 + 1 + … + 7 ranges are promised */
    ACCEPTED(pusmarke_pool_missing_octets(p, long_list, 56, 7), 0, 0, 0);
    REFUSED(pusmarke_pool_missing_octets(p, long_list, 54, 7), PUSMARKE_BAD_POOL);

    /* Two sounders in one pass: six ranges, floors 1 and 2. The first can hold four, for 4 + 2 is 6; the second is not refused below its
     * floor, and then is. */
    p = pusmarke_pool_add(pusmarke_pool_add(pusmarke_pool_fresh(), 0, 1, 6), 0, 2, 6);
    ACCEPTED(pusmarke_pool_metadata(&p, list, 12, 0), 0, 0, 0);
    p.records[1].missing = 9;
    for (i = 10; i < 80; i += 20) {
        ACCEPTED(pusmarke_pool_data(&p, list, 12, 0, i, 10), 1, 0, 0);
    }
    REFUSED(pusmarke_pool_data(&p, list, 12, 0, 90, 10), PUSMARKE_STORE_FULL);
    REFUSED(pusmarke_pool_eof(&p, list, 12, 0, 90), PUSMARKE_STORE_FULL);
    HOLDS(record_is(p.records[0], 80, 4, 0, 0) && record_is(p.records[1], 0, 0, 0, 9));
    ACCEPTED(pusmarke_pool_data(&p, list, 12, 1, 0, 10), 0, 0, 0); /* noticed */
    HOLDS(record_is(p.records[1], 10, 1, 0, 9));
    ACCEPTED(pusmarke_pool_metadata(&p, list, 12, 1), 0, 0, 0);
    ACCEPTED(pusmarke_pool_data(&p, list, 12, 1, 30, 10), 1, 0, 0);
    HOLDS(record_is(p.records[1], 40, 1, 0, 0));
    ACCEPTED(pusmarke_pool_data(&p, list, 12, 1, 10, 10), 1, 0, 0);
    HOLDS(record_is(p.records[1], 40, 2, 0, 0));
    SAME(full, list);
    REFUSED(pusmarke_pool_data(&p, list, 12, 1, 50, 10), PUSMARKE_STORE_FULL);
    REFUSED(pusmarke_pool_data(&p, list, 12, 0, 25, 1), PUSMARKE_STORE_FULL);
    SAME(full, list);
    /* a slot that the first gives up serves the second */
    ACCEPTED(pusmarke_pool_data(&p, list, 12, 0, 20, 10), 1, 0, 0);
    SAME(freed, list);
    ACCEPTED(pusmarke_pool_data(&p, list, 12, 1, 50, 10), 1, 0, 0);
    SAME(served, list);
    REFUSED(pusmarke_pool_data(&p, list, 12, 0, 90, 10), PUSMARKE_STORE_FULL);
    /* two given up at once, and the end of file: slots follow the pool's whole count */
    ACCEPTED(pusmarke_pool_data(&p, list, 12, 1, 0, 30), 1, 0, 0);
    SAME(ended, list);
    ACCEPTED(pusmarke_pool_eof(&p, list, 12, 1, 60), 0, 0, 0);
    HOLDS(sized_is(p.records[1], 60, 1, 0, 0, 1, 60) && record_is(p.records[0], 80, 3, 0, 0));
    ACCEPTED(pusmarke_pool_held(p, list, 12, 1, 0, 40), 1, 0, 0);
    ACCEPTED(pusmarke_pool_missing_octets(p, list, 12, 0), 30, 0, 0);
    /* past its limit none goes, although there is room */
    p.limits[1] = 1;
    p.floors[1] = 1;
    REFUSED(pusmarke_pool_data(&p, list, 12, 1, 45, 1), PUSMARKE_STORE_FULL);
    p.limits[1] = 2;
    ACCEPTED(pusmarke_pool_data(&p, list, 12, 1, 45, 1), 1, 0, 0);
    HOLDS(list[6] == 40 && list[7] == 45 && list[8] == 46 && list[9] == 50);
}

/* A pass: what comes with holes is asked for until nothing is missing. */
static void transfer(void) {
    uint64_t list[32] = {0};
    struct pusmarke_reception r = pusmarke_fresh(1);
    static uint8_t buf[16 * 48];
    unsigned rounds = 0;

    ACCEPTED(pusmarke_data(&r, list, 32, 0, 64), 0, 0, 0);
    for (;;) {
        size_t cursor = 0, sent = 0, place;
        for (;;) {
            struct pusmarke_answer a = pusmarke_nak_sequence(r, list, 32, identity, newer, 48, cursor, 4, buf, sizeof buf);
            HOLDS(a.refusal == 0);
            if (a.refusal != 0 || a.first == 0) {
                break;
            }
            cursor = (size_t)a.third;
            sent += (size_t)a.first;
            /* each PDU is read back, and each request is answered */
            for (place = 0; place < a.second;) {
                size_t length = (size_t)7 + buf[place + 1] * 256u + buf[place + 2];
                struct pusmarke_nak n = pusmarke_read(buf + place, length, 0);
                struct pusmarke_step s = pusmarke_next(buf + place, length, n.next);
                HOLDS(n.refusal == 0);
                while (s.found) {
                    if (s.start == 0 && s.end == 0) {
                        ACCEPTED(pusmarke_metadata(&r, list, 32), 0, 0, 0);
                        cursor = 0;
                    } else {
                        HOLDS(pusmarke_data(&r, list, 32, s.start, s.end - s.start).refusal == 0);
                        cursor = 0;
                    }
                    s = pusmarke_next(buf + place, length, s.at);
                }
                place += length;
            }
            if (rounds == 0) {
                /* more data comes, with holes */
                uint64_t i;
                for (i = 0; i < 8; i++) {
                    HOLDS(pusmarke_data(&r, list, 32, 100 + 20 * i, 10).refusal == 0);
                }
                /* and the end of file, its tail lost */
                ACCEPTED(pusmarke_eof(&r, list, 32, 300), 0, 0, 0);
                rounds = 1;
            }
        }
        if (sent == 0) {
            break;
        }
    }
    HOLDS(sized_is(r, 300, 0, 1, 0, 1, 300));
}

/* PDUs that mission planning proposes. Holes 100-150, 200-250 and 600-700 of a file of 1,000 octets; the packets are those of
 * examples/plan.script, written out there by hand. */
static void plans(void) {
    const uint64_t list[16] = {100, 150, 200, 250, 600, 700};
    const uint8_t line[24] = {0x28, 0, 0x11, 0, 1, 7, 2, 8, 0, 0, 2, 0x58, 0, 0, 2, 0xbc, 0, 0, 2, 0x58, 0, 0, 2, 0xbc};
    const uint8_t rest[32] = {0x28, 0, 0x19, 0, 1, 7, 2, 8, 0, 0, 0, 0, 0, 0, 0, 250, 0, 0, 0, 100, 0, 0, 0, 150, 0, 0, 0, 200, 0, 0, 0, 250};
    const uint16_t lengths[17] = {24, 32}, turned[2] = {32, 24}, short_by_one[2] = {24, 31};
    struct pusmarke_reception r = {1000, 3, 0, 0, 1, 1000};
    struct pusmarke_identity other = identity, bad = identity;
    uint8_t octets[56], before[56];
    uint64_t scratch[16], was[16];
    size_t i;

    memcpy(octets, line, 24);
    memcpy(octets + 24, rest, 32);
    memcpy(before, octets, 56);
    memset(scratch, 0x5a, sizeof scratch);
    memcpy(was, scratch, sizeof scratch);

    /* the checks, in order; nothing is written */
    r.count = 9;
    REFUSED(pusmarke_check_plan(r, list, 16, identity, 0, lengths, 17, octets, 55, scratch, 13), PUSMARKE_BAD_STORE);
    r.count = 3;
    r.progress = r.size = 699;
    REFUSED(pusmarke_check_plan(r, list, 16, identity, 0, lengths, 17, octets, 55, scratch, 13), PUSMARKE_SCOPE_BELOW_LIST);
    r.progress = r.size = 1000;
    bad.entity_length = 9;
    REFUSED(pusmarke_check_plan(r, list, 16, bad, 0, lengths, 17, octets, 55, scratch, 13), PUSMARKE_BAD_IDENTITY);
    REFUSED(pusmarke_check_plan(r, list, 16, identity, 0, lengths, 17, octets, 55, scratch, 13), PUSMARKE_BUDGET_TOO_LARGE);
    CARRIES(pusmarke_check_plan(r, list, 16, identity, 0, lengths, 2, octets, 55, scratch, 11), PUSMARKE_BUFFER_SIZE_MISSMATCH, 56, 55);
    CARRIES(pusmarke_check_plan(r, list, 16, identity, 0, lengths, 2, octets, 56, scratch, 13), PUSMARKE_BUFFER_SIZE_MISSMATCH, 14, 13);
    SAME(was, scratch);

    /* accepted; the scratch for the requests is cleared, and no more */
    ACCEPTED(pusmarke_check_plan(r, list, 16, identity, 0, lengths, 2, octets, 56, scratch, 16), 0, 0, 0);
    for (i = 0; i < 14; i++)
        HOLDS(scratch[i] == 0);
    HOLDS(scratch[14] == was[14] && scratch[15] == was[15]);
    ACCEPTED(pusmarke_check_plan(r, list, 16, identity, 0, lengths, 2, octets, 56, scratch, 14), 0, 0, 0);

    /* the tests, each with its PDU */
    CARRIES(pusmarke_check_plan(r, list, 16, identity, 1, lengths, 2, octets, 56, scratch, 16), PUSMARKE_BAD_PLAN, 1, 0);
    CARRIES(pusmarke_check_plan(r, list, 16, identity, 0, turned, 2, octets, 56, scratch, 16), PUSMARKE_BAD_PLAN, 1, 0);
    CARRIES(pusmarke_check_plan(r, list, 16, identity, 0, short_by_one, 2, octets, 55, scratch, 16), PUSMARKE_BAD_PLAN, 1, 1);
    other.destination = 3;
    CARRIES(pusmarke_check_plan(r, list, 16, other, 0, lengths, 2, octets, 56, scratch, 16), PUSMARKE_BAD_PLAN, 2, 0);
    octets[24 + 5] = 8;
    CARRIES(pusmarke_check_plan(r, list, 16, identity, 0, lengths, 2, octets, 56, scratch, 16), PUSMARKE_BAD_PLAN, 2, 1);
    octets[24 + 5] = 7;
    octets[15] = 0xbb;
    CARRIES(pusmarke_check_plan(r, list, 16, identity, 0, lengths, 2, octets, 56, scratch, 16), PUSMARKE_BAD_PLAN, 3, 0);
    octets[15] = 0xbc;
    octets[24 + 23] = 201; /* 100 to 201, so that 200 is asked for twice, in one PDU */
    CARRIES(pusmarke_check_plan(r, list, 16, identity, 0, lengths, 2, octets, 56, scratch, 16), PUSMARKE_BAD_PLAN, 4, 1);
    octets[24 + 23] = 151;
    CARRIES(pusmarke_check_plan(r, list, 16, identity, 0, lengths, 2, octets, 56, scratch, 16), PUSMARKE_BAD_PLAN, 5, 1);
    octets[24 + 23] = 149;
    CARRIES(pusmarke_check_plan(r, list, 16, identity, 0, lengths, 2, octets, 56, scratch, 16), PUSMARKE_BAD_PLAN, 5, 2);
    octets[24 + 23] = 150;
    r.missing = 1;
    r.count = 1;
    REFUSED(pusmarke_check_plan(r, list, 16, identity, 0, lengths, 2, octets, 56, scratch, 16), PUSMARKE_BAD_STORE);
    r.missing = 0;
    r.count = 3;
    memset(octets + 24 + 16, 0, 8); /* 100 to 150 becomes (0, 0): metadata, which is known; 5 is asked before 6 */
    CARRIES(pusmarke_check_plan(r, list, 16, identity, 0, lengths, 2, octets, 56, scratch, 16), PUSMARKE_BAD_PLAN, 5, 2);
    r.count = 2;
    CARRIES(pusmarke_check_plan(r, list + 2, 14, identity, 0, lengths, 2, octets, 56, scratch, 16), PUSMARKE_BAD_PLAN, 6, 1);
    memcpy(octets + 24 + 16, before + 24 + 16, 8);
    SAME(before, octets);

    /* nothing is missing: no PDU */
    r.count = 0;
    ACCEPTED(pusmarke_check_plan(r, list, 16, identity, 0, NULL, 0, NULL, 0, NULL, 0), 0, 0, 0);
    r.count = 3;
    CARRIES(pusmarke_check_plan(r, list, 16, identity, 0, NULL, 0, NULL, 0, NULL, 0), PUSMARKE_BAD_PLAN, 5, 0);
}

int main(void) {
    store();
    removals();
    insertions();
    events();
    endings();
    queries();
    writing();
    reading();
    editions();
    trailers();
    sequence();
    older_sequence();
    crc_sequence();
    plans();
    timers();
    ticks();
    deferred();
    pools();
    bad_pools();
    pool_calls();
    transfer();
    printf("%u checks, %u wrong\n", checks, wrong);
    return wrong == 0 ? 0 : 1;
}
