// Makes the same calls on the port and on the Rust, checks that both answered the same, and sets marks
// around each for count.c. Prints a line NAME;LENGTH;SIDES for each case, in the order of the marks; the
// empty pair of marks comes first. With the argument `narrow` the port's stores are narrow. With `time`
// the lines are NAME;LENGTH;SIDES;NS.., the medians of timed rounds.
#include <stdint.h>
#include <stdio.h>
#include <stdlib.h>
#include <string.h>
#include <time.h>

#define CAPACITY 4096
#define NUMBERS (2 * CAPACITY)
#define LARGEST 1024
#define BUDGET 16
#define ROUNDS 101

struct pusmarke_answer { uint64_t refusal, first, second, third; };
struct pusmarke_reception { uint64_t progress; size_t count; uint64_t narrow, missing, sized, size; };
struct pusmarke_identity { size_t entity_length, number_length; uint64_t source, number, destination; };
struct pusmarke_form { uint64_t older, large, crc; };
struct pusmarke_nak {
    uint64_t refusal, start, end;
    struct pusmarke_identity identity;
    uint64_t large, crc, scope_start, scope_end;
    size_t from, to, next;
};
struct pusmarke_step { uint64_t found, start, end; size_t at; };
struct pusmarke_deferred { uint64_t period, limit, activity, left, counter; };
struct pusmarke_heard { struct pusmarke_answer answer; struct pusmarke_deferred timer; };
struct pusmarke_pool { size_t used; struct pusmarke_reception records[8]; size_t floors[8], limits[8]; };

struct pusmarke_answer pusmarke_add(uint64_t *, size_t, size_t, uint64_t, uint64_t, uint64_t);
struct pusmarke_answer pusmarke_remove(uint64_t *, size_t, size_t, uint64_t, uint64_t, uint64_t);
struct pusmarke_answer pusmarke_coalesce(uint64_t *, size_t, size_t, uint64_t);
struct pusmarke_answer pusmarke_insert(uint64_t *, size_t, size_t, uint64_t, uint64_t, uint64_t);
struct pusmarke_answer pusmarke_segment_in_store(const uint64_t *, size_t, size_t, uint64_t, uint64_t, uint64_t);
struct pusmarke_answer pusmarke_write_segments_to_bytes(
    const uint64_t *, size_t, size_t, uint64_t, uint64_t, uint8_t *, size_t);
struct pusmarke_answer pusmarke_data(struct pusmarke_reception *, uint64_t *, size_t, uint64_t, uint64_t);
struct pusmarke_answer pusmarke_eof(struct pusmarke_reception *, uint64_t *, size_t, uint64_t);
struct pusmarke_answer pusmarke_held(struct pusmarke_reception, const uint64_t *, size_t, uint64_t, uint64_t);
struct pusmarke_answer pusmarke_missing_octets(struct pusmarke_reception, const uint64_t *, size_t);
struct pusmarke_answer pusmarke_nak_sequence(
    struct pusmarke_reception, const uint64_t *, size_t, struct pusmarke_identity, struct pusmarke_form, size_t,
    size_t, size_t, uint8_t *, size_t);
struct pusmarke_answer pusmarke_write(
    struct pusmarke_identity, struct pusmarke_form, uint64_t, uint64_t, const uint64_t *, size_t, uint8_t *, size_t);
struct pusmarke_heard pusmarke_deferred(uint64_t, uint64_t);
struct pusmarke_heard pusmarke_tick(struct pusmarke_deferred);
struct pusmarke_heard pusmarke_reset(struct pusmarke_deferred, struct pusmarke_reception, const uint64_t *, size_t);
struct pusmarke_heard pusmarke_deferred_data(
    struct pusmarke_reception *, uint64_t *, size_t, uint64_t, uint64_t, struct pusmarke_deferred);
struct pusmarke_answer pusmarke_check_plan(
    struct pusmarke_reception, const uint64_t *, size_t, struct pusmarke_identity, uint64_t, const uint16_t *, size_t,
    const uint8_t *, size_t, uint64_t *, size_t);
struct pusmarke_pool pusmarke_pool_fresh(void);
struct pusmarke_pool pusmarke_pool_add(struct pusmarke_pool, uint64_t, size_t, size_t);
struct pusmarke_answer pusmarke_pool_data(struct pusmarke_pool *, uint64_t *, size_t, size_t, uint64_t, uint64_t);
struct pusmarke_nak pusmarke_read(const uint8_t *, size_t, uint64_t);
struct pusmarke_step pusmarke_next(const uint8_t *, size_t, size_t);

void *rust_store(const uint64_t *, size_t);
void rust_store_free(void *);
size_t rust_list(const void *, uint64_t *);
uint64_t rust_add(void *, uint64_t, uint64_t);
uint64_t rust_remove(void *, uint64_t, uint64_t);
uint64_t rust_coalesce(void *);
uint64_t rust_add_and_coalesce(void *, uint64_t, uint64_t);
uint64_t rust_segment_in_store(const void *, uint64_t, uint64_t);
uint64_t rust_write_segments_to_bytes(const void *, uint64_t, uint8_t *, size_t);
void rust_sort(uint64_t *, size_t);
void *rust_handler(const uint64_t *, size_t, uint64_t, size_t);
void rust_handler_free(void *);
size_t rust_handler_list(const void *, uint64_t *);
uint64_t rust_handler_progress(const void *);
uint64_t rust_handler_size(const void *);
void rust_handler_coalesce(void *);
uint64_t rust_data(void *, uint64_t, const uint8_t *, size_t);
uint64_t rust_eof(void *, uint64_t);
uint64_t rust_sequence(void *);
size_t rust_sent(const void *, uint8_t *);

// The marks: count.c knows them by name.
__attribute__((noipa)) void mark_start(void) { __asm__ volatile("" ::: "memory"); }
__attribute__((noipa)) void mark_stop(void) { __asm__ volatile("" ::: "memory"); }

static int timing, turned;
static uint64_t narrow;
static uint64_t times[2][ROUNDS];
static int rounds[2];

static uint64_t now(void)
{
    struct timespec t;
    if (!timing)
        return 0;
    clock_gettime(CLOCK_MONOTONIC, &t);
    return (uint64_t)t.tv_sec * 1000000000 + (uint64_t)t.tv_nsec;
}

static void took(int side, uint64_t ns)
{
    if (timing)
        times[side][rounds[side]++] = ns;
}

#define COUNT(side, call) \
    do { \
        uint64_t from_ = now(); \
        mark_start(); \
        call; \
        mark_stop(); \
        took(side, now() - from_); \
    } while (0)

// In timed runs every second round takes the Rust first: A B B A.
#define BOTH(port, rust) \
    do { \
        if (turned) { \
            COUNT(1, rust); \
            COUNT(0, port); \
        } else { \
            COUNT(0, port); \
            COUNT(1, rust); \
        } \
    } while (0)

static const char *name;
static size_t length;

static void same(int yes, const char *what)
{
    if (!yes) {
        fprintf(stderr, "%s, %zu ranges: the two sides differ: %s\n", name, length, what);
        exit(1);
    }
}

static uint64_t list[NUMBERS], other[NUMBERS];
static size_t count;
static void *store;
static struct pusmarke_answer answer;
static uint64_t said;
static uint8_t octets[NUMBERS * 8], others[NUMBERS * 8], data[1000];

// Range i of a coalesced list. Holes of four octets lie between.
static uint64_t start_of(size_t i) { return 10 * i + 2; }
static uint64_t end_of(size_t i) { return 10 * i + 8; }

static void put(size_t at, size_t i)
{
    list[2 * at] = start_of(i);
    list[2 * at + 1] = end_of(i);
}

static void ascending(size_t n)
{
    memset(list, 0, sizeof list);
    for (size_t i = 0; i < n; i++)
        put(i, i);
    count = n;
}

static void reversed(size_t n)
{
    ascending(n);
    for (size_t i = 0; i < n; i++)
        put(i, n - 1 - i);
}

static void shuffled(size_t n)
{
    uint64_t seed = 1;
    ascending(n);
    for (size_t i = n - 1; i > 0; i--) {
        seed = seed * 6364136223846793005u + 1442695040888963407u;
        size_t j = (size_t)((seed >> 33) % (i + 1));
        uint64_t s = list[2 * i], e = list[2 * i + 1];
        list[2 * i] = list[2 * j];
        list[2 * i + 1] = list[2 * j + 1];
        list[2 * j] = s;
        list[2 * j + 1] = e;
    }
}

static void begin(void)
{
    store = rust_store(list, count);
}

// The list that the port left, with this count, is the Rust's.
static void end(uint64_t now_counted)
{
    size_t n = rust_list(store, other);
    same(answer.refusal == 0, "the port refuses");
    same(n == now_counted && memcmp(list, other, 16 * n) == 0, "lists");
    rust_store_free(store);
}

static void empty(size_t n)
{
    (void)n;
    COUNT(0, );
}

// A plain loop over the list with one compare for each number: what one pass costs in C.
__attribute__((noipa)) static int any_above(const uint64_t *numbers, size_t n, uint64_t top)
{
    for (size_t i = 0; i < n; i++)
        if (numbers[i] > top)
            return 1;
    return 0;
}

static void pass(size_t n)
{
    int yes = 0;
    ascending(n);
    COUNT(0, yes = any_above(list, 2 * n, UINT64_MAX - 1));
    same(yes == 0, "pass");
}

static void sort(size_t n)
{
    shuffled(n);
    COUNT(0, rust_sort(list, n));
    memcpy(other, list, sizeof list);
    ascending(n);
    same(memcmp(list, other, sizeof list) == 0, "sort");
}

// Add, insert, the split, data that opens a hole and the end of file start from n - 1 ranges, since 4,096 is
// the most; the others start from n.
static void add(size_t n)
{
    uint64_t s = start_of(n - 1), e = end_of(n - 1);
    ascending(n - 1);
    begin();
    BOTH(answer = pusmarke_add(list, NUMBERS, count, narrow, s, e), said = rust_add(store, s, e));
    same(said == 0, "answer");
    end(answer.first);
}

// What the port says of a removal; the Rust says true of all but none.
enum { NONE = 0, WHOLE = 1, SPLIT = 4 };

static void remove_from(size_t n, uint64_t s, uint64_t e, uint64_t what, uint64_t index)
{
    ascending(n);
    begin();
    BOTH(answer = pusmarke_remove(list, NUMBERS, count, narrow, s, e), said = rust_remove(store, s, e));
    same(said == (what != NONE) && answer.first == what && answer.second == index, "answer");
    end(answer.third);
}

static void remove_first(size_t n) { remove_from(n, start_of(0), end_of(0), WHOLE, 0); }
static void remove_middle(size_t n) { remove_from(n, start_of(n / 2), end_of(n / 2), WHOLE, n / 2); }
static void remove_last(size_t n) { remove_from(n, start_of(n - 1), end_of(n - 1), WHOLE, n - 1); }
static void remove_split(size_t n) { remove_from(n - 1, start_of(n / 2) + 2, end_of(n / 2) - 2, SPLIT, n / 2); }
static void remove_miss(size_t n) { remove_from(n, end_of(n / 2) + 1, end_of(n / 2) + 3, NONE, 0); }

static void coalesce(size_t n, void (*fill)(size_t))
{
    fill(n);
    begin();
    BOTH(answer = pusmarke_coalesce(list, NUMBERS, count, narrow), said = rust_coalesce(store));
    same(said == 0, "answer");
    end(answer.first);
}

static void coalesce_ascending(size_t n) { coalesce(n, ascending); }
static void coalesce_reversed(size_t n) { coalesce(n, reversed); }
static void coalesce_random(size_t n) { coalesce(n, shuffled); }

// The Rust has no insert: its add, for which there is room, and then its coalesce.
static void insert_into(size_t n, size_t without, uint64_t s, uint64_t e)
{
    ascending(n - 1);
    for (size_t i = without; i < n - 1; i++)
        put(i, i + 1);
    begin();
    BOTH(answer = pusmarke_insert(list, NUMBERS, count, narrow, s, e), said = rust_add_and_coalesce(store, s, e));
    same(said == 0, "answer");
    end(answer.first);
}

static void insert_at(size_t n, size_t i) { insert_into(n, i, start_of(i), end_of(i)); }
static void insert_first(size_t n) { insert_at(n, 0); }
static void insert_middle(size_t n) { insert_at(n, n / 2); }
static void insert_last(size_t n) { insert_at(n, n - 1); }
static void insert_hole(size_t n) { insert_into(n, n - 1, end_of(n / 2 - 1), start_of(n / 2)); }
static void insert_over(size_t n) { insert_into(n, n - 1, start_of(n / 4), end_of(n / 4 + n / 2)); }

static void in_store(size_t n, uint64_t s, uint64_t e, uint64_t yes)
{
    ascending(n);
    begin();
    BOTH(answer = pusmarke_segment_in_store(list, NUMBERS, count, narrow, s, e),
         said = rust_segment_in_store(store, s, e));
    same(said == yes && answer.first == yes, "answer");
    end(count);
}

static void in_store_first(size_t n) { in_store(n, start_of(0), end_of(0), 1); }
static void in_store_last(size_t n) { in_store(n, start_of(n - 1), end_of(n - 1), 1); }
static void in_store_miss(size_t n) { in_store(n, start_of(n), end_of(n), 0); }

// Both buffers hold 5A before the call; neither side clears its own.
static void write_octets(size_t n, uint64_t large)
{
    size_t needed = n * (large ? 16 : 8);
    memset(octets, 0x5a, sizeof octets);
    memset(others, 0x5a, sizeof others);
    ascending(n);
    begin();
    BOTH(answer = pusmarke_write_segments_to_bytes(list, NUMBERS, count, narrow, large, octets, needed),
         said = rust_write_segments_to_bytes(store, large, others, needed));
    same(said == needed && answer.first == needed, "answer");
    same(memcmp(octets, others, sizeof octets) == 0, "octets");
    end(count);
}

static void write_normal(size_t n) { write_octets(n, 0); }
static void write_large(size_t n) { write_octets(n, 1); }

// Data when n ranges are missing and progress stands a little behind the last of them.
static uint64_t progress_of(size_t n) { return end_of(n - 1) + 5; }

static void data_event(size_t n, uint64_t offset, uint64_t octets_of_data)
{
    struct pusmarke_reception record = { progress_of(n), n, narrow, 0, 0, 0 };
    ascending(n);
    void *handler = rust_handler(list, n, record.progress, LARGEST);
    BOTH(answer = pusmarke_data(&record, list, NUMBERS, offset, octets_of_data),
         said = rust_data(handler, offset, data, octets_of_data));
    size_t left = rust_handler_list(handler, other);
    same(answer.refusal == 0 && answer.first == 1 && said == 0, "answer");
    same(record.progress == rust_handler_progress(handler), "progress");
    same(record.count == left && memcmp(list, other, 16 * left) == 0, "lists");
    rust_handler_free(handler);
}

static void data_in_order(size_t n) { data_event(n, progress_of(n), 1000); }
static void data_opens(size_t n) { data_event(n - 1, progress_of(n - 1) + 100, 1000); }
static void data_fills(size_t n) { data_event(n, start_of(n / 2), end_of(n / 2) - start_of(n / 2)); }

// An active timer of 10 ticks and 3 asks, beside a record of n ranges whose size is known.
static struct pusmarke_deferred active(struct pusmarke_reception record)
{
    struct pusmarke_heard heard = pusmarke_reset(pusmarke_deferred(10, 3).timer, record, list, NUMBERS);
    same(heard.answer.refusal == 0 && heard.timer.activity == 1, "timer");
    return heard.timer;
}

static void tick(size_t n)
{
    struct pusmarke_reception record = { progress_of(n), n, narrow, 0, 1, progress_of(n) };
    struct pusmarke_heard heard;
    ascending(n);
    struct pusmarke_deferred timer = active(record);
    COUNT(0, heard = pusmarke_tick(timer));
    same(heard.answer.first == 0 && heard.timer.left == 9, "tick");
}

static void timed_fills(size_t n)
{
    struct pusmarke_reception record = { progress_of(n), n, narrow, 0, 1, progress_of(n) };
    struct pusmarke_heard heard;
    ascending(n);
    struct pusmarke_deferred timer = pusmarke_tick(active(record)).timer;
    COUNT(0, heard = pusmarke_deferred_data(&record, list, NUMBERS, start_of(n / 2), end_of(n / 2) - start_of(n / 2), timer));
    same(heard.answer.refusal == 0 && heard.answer.first == 1 && record.count == n - 1 && heard.timer.left == 10, "answer");
}

// Data of the first of eight transfers, which hold n ranges together, an eighth each. The Rust has no pool.
static void pooled(size_t n, uint64_t offset, uint64_t octets_of_data, size_t left)
{
    size_t own = n / 8;
    struct pusmarke_pool pool = pusmarke_pool_fresh();
    ascending(n);
    for (size_t k = 0; k < 8; k++) {
        pool = pusmarke_pool_add(pool, narrow, own, NUMBERS / 2);
        pool.records[k] = (struct pusmarke_reception){ progress_of(own), own, narrow, 0, 0, 0 };
        for (size_t i = 0; i < own; i++)
            put(k * own + i, i);
    }
    COUNT(0, answer = pusmarke_pool_data(&pool, list, NUMBERS, 0, offset, octets_of_data));
    same(answer.refusal == 0 && answer.first == 1 && pool.records[0].count == left, "answer");
    same(list[2 * left] == start_of(0) && list[2 * (left + 7 * own) - 1] == end_of(own - 1), "lists");
}

static void pool_in_order(size_t n) { pooled(n, progress_of(n / 8), 1000, n / 8); }
static void pool_fills(size_t n) { pooled(n, start_of(n / 16), end_of(n / 16) - start_of(n / 16), n / 8 - 1); }

// The end of file, 100 octets past progress. The Rust leaves its progress and never joins: its list is coalesced before it is compared.
static void eof_at(size_t n, uint64_t progress)
{
    struct pusmarke_reception record = { progress, n, narrow, 0, 0, 0 };
    ascending(n);
    void *handler = rust_handler(list, n, progress, LARGEST);
    BOTH(answer = pusmarke_eof(&record, list, NUMBERS, progress + 100), said = rust_eof(handler, progress + 100));
    rust_handler_coalesce(handler);
    size_t left = rust_handler_list(handler, other);
    same(answer.refusal == 0 && said == 0, "answer");
    same(record.sized == 1 && record.size == progress + 100 && rust_handler_size(handler) == record.size, "size");
    same(record.progress == record.size && rust_handler_progress(handler) == progress, "progress");
    same(record.count == left && memcmp(list, other, 16 * left) == 0, "lists");
    rust_handler_free(handler);
}

static void eof_apart(size_t n) { eof_at(n - 1, progress_of(n - 1)); }
static void eof_joins(size_t n) { eof_at(n - 1, end_of(n - 2)); }

// What was kept, and the octets missing, when n ranges are missing. The Rust has no such calls.
static void held(size_t n, uint64_t s, uint64_t e, uint64_t yes)
{
    struct pusmarke_reception record = { progress_of(n), n, narrow, 0, 0, 0 };
    ascending(n);
    COUNT(0, answer = pusmarke_held(record, list, NUMBERS, s, e));
    same(answer.refusal == 0 && answer.first == yes, "answer");
}

static void held_first(size_t n) { held(n, end_of(0), start_of(1), 1); }
static void held_last(size_t n) { held(n, end_of(n - 1), progress_of(n), 1); }
static void held_no(size_t n) { held(n, end_of(0), progress_of(n), 0); }

static void missing_octets(size_t n)
{
    struct pusmarke_reception record = { progress_of(n), n, narrow, 0, 0, 0 };
    ascending(n);
    COUNT(0, answer = pusmarke_missing_octets(record, list, NUMBERS));
    same(answer.refusal == 0 && answer.first == 6 * n, "answer");
}

static const struct pusmarke_identity identity = { 1, 1, 1, 7, 2 };
static const struct pusmarke_form form = { 0, 0, 0 }, crc_form = { 0, 0, 1 };

// Progress is the last end: there the Rust's last scope is document 01's.
static uint64_t port_sequence(struct pusmarke_reception record)
{
    uint64_t pdus = 0, at = 0;
    size_t cursor = 0;
    do {
        answer = pusmarke_nak_sequence(
            record, list, NUMBERS, identity, form, LARGEST, cursor, BUDGET, octets + at, BUDGET * LARGEST);
        if (answer.refusal)
            return 0;
        pdus += answer.first;
        at += answer.second;
        cursor = answer.third;
    } while (cursor < record.count);
    answer.second = at;
    return pdus;
}

static void sequence(size_t n)
{
    uint64_t pdus = 0;
    struct pusmarke_reception record = { end_of(n - 1), n, narrow, 0, 0, 0 };
    memset(octets, 0x5a, sizeof octets);
    ascending(n);
    void *handler = rust_handler(list, n, record.progress, LARGEST);
    BOTH(pdus = port_sequence(record), said = rust_sequence(handler));
    same(pdus == said, "PDUs");
    same(rust_sent(handler, others) == answer.second && memcmp(octets, others, answer.second) == 0, "octets");
    rust_handler_free(handler);
}

// A planner's PDUs for all n ranges, 500 requests in each, in the order of the list `asked`; all scopes are the whole file.
static void plan(size_t n, const uint64_t *asked)
{
    static uint64_t scratch[NUMBERS + 128];
    uint16_t lengths[BUDGET];
    size_t pdus = 0, at = 0;
    struct pusmarke_reception record = { end_of(n - 1), n, narrow, 0, 0, 0 };
    for (size_t i = 0; i < n; i += 500) {
        size_t requests = n - i < 500 ? n - i : 500, total = 16 + 8 * requests;
        answer = pusmarke_write(identity, form, 0, record.progress, asked + 2 * i, 2 * requests, octets + at, total);
        same(answer.refusal == 0, "writing");
        lengths[pdus++] = (uint16_t)total;
        at += total;
    }
    ascending(n);
    COUNT(0, answer = pusmarke_check_plan(
                 record, list, NUMBERS, identity, 0, lengths, pdus, octets, at, scratch, sizeof scratch / sizeof *scratch));
    same(answer.refusal == 0, "answer");
}

static void plan_ascending(size_t n)
{
    ascending(n);
    memcpy(other, list, sizeof other);
    plan(n, other);
}

static void plan_random(size_t n)
{
    shuffled(n);
    memcpy(other, list, sizeof other);
    plan(n, other);
}

// One PDU of the first requests, as many as a PDU of LARGEST octets has at most.
static size_t one_pdu(size_t n) { return n < 126 ? n : 126; }

static void write_pdu(size_t n, struct pusmarke_form of)
{
    size_t requests = one_pdu(n), total = 16 + 8 * requests + (of.crc ? 2 : 0);
    ascending(n);
    memset(octets, 0x5a, sizeof octets);
    COUNT(0, answer = pusmarke_write(identity, of, 0, end_of(requests - 1), list, 2 * requests, octets, total));
    struct pusmarke_nak nak = pusmarke_read(octets, total, 0);
    same(answer.refusal == 0 && answer.first == total, "answer");
    same(nak.refusal == 0 && nak.crc == of.crc && nak.to - nak.from == 8 * requests && octets[total] == 0x5a, "octets");
}
static void write_plain(size_t n) { write_pdu(n, form); }
static void write_crc(size_t n) { write_pdu(n, crc_form); }

// Reads a packet and steps to its end; hands back the requests.
static uint64_t port_read(size_t total)
{
    struct pusmarke_nak nak = pusmarke_read(octets, total, 0);
    size_t at = nak.next;
    uint64_t found = 0;
    if (nak.refusal)
        return 0;
    for (;;) {
        struct pusmarke_step step = pusmarke_next(octets, total, at);
        if (!step.found)
            return found;
        other[2 * found] = step.start;
        other[2 * found + 1] = step.end;
        found++;
        at = step.at;
    }
}

static void read_pdu(size_t n)
{
    struct pusmarke_reception record = { end_of(n - 1), n, narrow, 0, 0, 0 };
    uint64_t found = 0;
    ascending(n);
    port_sequence(record);
    size_t requests = one_pdu(n), total = 16 + 8 * requests;
    COUNT(0, found = port_read(total));
    same(found == requests && memcmp(list, other, 16 * found) == 0, "requests");
}

static void read_crc(size_t n)
{
    size_t requests = one_pdu(n), total = 18 + 8 * requests;
    uint64_t found = 0;
    ascending(n);
    pusmarke_write(identity, crc_form, 0, end_of(requests - 1), list, 2 * requests, octets, total);
    COUNT(0, found = port_read(total));
    same(found == requests && memcmp(list, other, 16 * found) == 0, "requests");
}

enum sides { C, PORT, RUST, ALL };
static const char *side_names[] = { "C", "port", "Rust", "both" };

static const struct {
    const char *name;
    enum sides sides;
    void (*run)(size_t);
} cases[] = {
    { "one pass in C", C, pass },
    { "sort of the Rust, random", RUST, sort },
    { "add", ALL, add },
    { "remove, first range", ALL, remove_first },
    { "remove, middle range", ALL, remove_middle },
    { "remove, last range", ALL, remove_last },
    { "remove, split", ALL, remove_split },
    { "remove, miss", ALL, remove_miss },
    { "coalesce, ascending", ALL, coalesce_ascending },
    { "coalesce, reversed", ALL, coalesce_reversed },
    { "coalesce, random", ALL, coalesce_random },
    { "insert, first range", ALL, insert_first },
    { "insert, middle range", ALL, insert_middle },
    { "insert, last range", ALL, insert_last },
    { "insert, fills a hole", ALL, insert_hole },
    { "insert, over half the list", ALL, insert_over },
    { "segment_in_store, first", ALL, in_store_first },
    { "segment_in_store, last", ALL, in_store_last },
    { "segment_in_store, miss", ALL, in_store_miss },
    { "write_segments_to_bytes, normal", ALL, write_normal },
    { "write_segments_to_bytes, large", ALL, write_large },
    { "data in order", ALL, data_in_order },
    { "data that opens a hole", ALL, data_opens },
    { "data that fills a hole", ALL, data_fills },
    { "EOF, the tail apart", ALL, eof_apart },
    { "EOF, the tail joins", ALL, eof_joins },
    { "held, behind the first range", PORT, held_first },
    { "held, behind the last range", PORT, held_last },
    { "held, across the list", PORT, held_no },
    { "missing_octets", PORT, missing_octets },
    { "a tick of the timer", PORT, tick },
    { "data that fills a hole, with a timer", PORT, timed_fills },
    { "data in order, in a pool of eight", PORT, pool_in_order },
    { "data that fills a hole, in a pool of eight", PORT, pool_fills },
    { "NAK sequence", ALL, sequence },
    { "check a plan, ascending", PORT, plan_ascending },
    { "check a plan, random order", PORT, plan_random },
    { "read one PDU", PORT, read_pdu },
    { "read one PDU with a trailer", PORT, read_crc },
    { "write one PDU", PORT, write_plain },
    { "write one PDU with a trailer", PORT, write_crc },
};
static const size_t lengths[] = { 16, 64, 256, 1024, 4096 };

static int by_size(const void *x, const void *y)
{
    uint64_t a = *(const uint64_t *)x, b = *(const uint64_t *)y;
    return (a > b) - (a < b);
}

static void run(const char *called, enum sides sides, void (*call)(size_t), size_t n)
{
    name = called;
    length = n;
    rounds[0] = rounds[1] = 0;
    for (int i = 0; i < (timing ? ROUNDS : 1); i++) {
        turned = i % 2;
        call(n);
    }
    printf("%s;%zu;%s", name, n, side_names[sides]);
    for (int side = 0; timing && side < 2 && rounds[side]; side++) {
        qsort(times[side], ROUNDS, sizeof times[side][0], by_size);
        printf(";%lu", (unsigned long)times[side][ROUNDS / 2]);
    }
    printf("\n");
}

int main(int argc, char **argv)
{
    timing = argc == 2 && strcmp(argv[1], "time") == 0;
    narrow = argc == 2 && strcmp(argv[1], "narrow") == 0;
    run("empty", C, empty, 0);
    for (size_t c = 0; c < sizeof cases / sizeof *cases; c++)
        for (size_t i = 0; i < sizeof lengths / sizeof *lengths; i++)
            run(cases[c].name, cases[c].sides, cases[c].run, lengths[i]);
    return 0;
}
