// Counts the CRC of packets of several lengths: what a trailer adds to writing and to reading a PDU, and the same octets' CRC
// by the table form of Debian's Rust crate `crc` and by Debian's libcrcutil. Prints a line LENGTH;NAME for each pair of
// marks, in their order; an empty pair comes first.
#include <stdint.h>
#include <stdio.h>
#include <stdlib.h>
#include <string.h>

#include "../../host/include/pusmarke.h"

#define MOST 4096

uint16_t rust_crc_x25(const uint8_t *, size_t);
uint16_t crcutil_x25(const uint8_t *, size_t);
void crcutil_make(void);

__attribute__((noipa)) void mark_start(void) { __asm__ volatile("" ::: "memory"); }
__attribute__((noipa)) void mark_stop(void) { __asm__ volatile("" ::: "memory"); }

#define COUNT(name, call) \
    do { \
        printf("%zu;%s\n", total, name); \
        mark_start(); \
        call; \
        mark_stop(); \
    } while (0)

static uint8_t packet[MOST], turned[MOST];
static uint64_t requests[MOST / 4];

static unsigned reversed(unsigned x, int bits)
{
    unsigned y = 0;
    for (int i = 0; i < bits; i++)
        y |= (x >> i & 1) << (bits - 1 - i);
    return y;
}

static void same(int yes, const char *what)
{
    if (!yes) {
        fprintf(stderr, "crc: %s\n", what);
        exit(1);
    }
}

// A PDU of n requests, with and without a trailer, written and read; `total` are the octets that its CRC goes over.
static void one(size_t n)
{
    static const struct pusmarke_identity identity = { 1, 1, 1, 7, 2 };
    static const struct pusmarke_form plain = { 0, 0, 0 }, crc = { 0, 0, 1 };
    struct pusmarke_answer answer;
    struct pusmarke_nak nak;
    uint16_t x25 = 0;
    size_t total = 16 + 8 * n;
    for (size_t i = 0; i < n; i++) {
        requests[2 * i] = 10 * i + 2;
        requests[2 * i + 1] = 10 * i + 8;
    }
    COUNT("write plain", answer = pusmarke_write(identity, plain, 0, 10 * n, requests, 2 * n, packet, total));
    same(answer.refusal == 0, "a plain PDU is refused");
    COUNT("read plain", nak = pusmarke_read(packet, total, 0));
    same(nak.refusal == 0, "a plain packet is refused");
    COUNT("write crc", answer = pusmarke_write(identity, crc, 0, 10 * n, requests, 2 * n, packet, total + 2));
    same(answer.refusal == 0, "a PDU with a trailer is refused");
    COUNT("read crc", nak = pusmarke_read(packet, total + 2, 0));
    same(nak.refusal == 0 && nak.crc, "a packet with a trailer is refused");
    // The crate and the library have the same polynomial with the lowest bit first and ones added at the end (CRC-16/X-25):
    // of the octets turned round it is the trailer, turned round and with ones added.
    for (size_t i = 0; i < total; i++)
        turned[i] = (uint8_t)reversed(packet[i], 8);
    unsigned trailer = packet[total] << 8 | packet[total + 1];
    COUNT("crate crc", x25 = rust_crc_x25(turned, total));
    same((reversed(x25, 16) ^ 0xffff) == trailer, "the crate has another CRC");
#ifdef CRCUTIL
    uint16_t other = 0;
    COUNT("libcrcutil", other = crcutil_x25(turned, total));
    same(other == x25, "libcrcutil has another CRC");
#endif
}

int main(void)
{
    static const size_t lengths[] = { 2, 30, 126, 509 };
    size_t total = 0;
#ifdef CRCUTIL
    crcutil_make();
#endif
    COUNT("empty", );
    for (size_t i = 0; i < sizeof lengths / sizeof *lengths; i++)
        one(lengths[i]);
    return 0;
}
