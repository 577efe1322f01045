/* bare_walk WIDTH < FILE: the totals lines of `flowvault measure WIDTH` of a File of bench/generate.py, by Sets and
 * records alone: templates are taken as they come, without a check, all fields have a fixed length, each message is
 * whole, and the row of a key that came lately is found at once. The least that the job costs in C, as far as is known.
 * Build: cc -O2 bare_walk.c -o bare_walk */
#include <inttypes.h>
#include <stdint.h>
#include <stdio.h>
#include <stdlib.h>
#include <string.h>
#include <unistd.h>

enum { IDS = 65536, DOMAINS = 8, ROOM = 1 << 16, LATELY = 64 };

typedef struct { uint32_t size, start, protocol, octets, packets; } Layout;
typedef struct { uint64_t start, octets, packets, flows; uint32_t domain, protocol; } Row;

static Layout layouts[DOMAINS][IDS];
static Row rows[ROOM], *lately[LATELY];
static size_t used;

static uint16_t u16(const uint8_t *p) { uint16_t v; memcpy(&v, p, 2); return __builtin_bswap16(v); }
static uint32_t u32(const uint8_t *p) { uint32_t v; memcpy(&v, p, 4); return __builtin_bswap32(v); }
static uint64_t u64(const uint8_t *p) { uint64_t v; memcpy(&v, p, 8); return __builtin_bswap64(v); }

/* The row of a key, by a search of all where it didn't come lately. */
static Row *row_of(uint64_t start, uint32_t domain, uint32_t protocol) {
    Row **place = &lately[(domain * 8 + protocol) % LATELY], *row = *place;
    if (row && row->start == start && row->domain == domain && row->protocol == protocol) return row;
    for (row = rows; row < rows + used; row++)
        if (row->start == start && row->domain == domain && row->protocol == protocol) return *place = row;
    if (used == ROOM) exit(1);
    *row = (Row){start, 0, 0, 0, domain, protocol};
    used++;
    return *place = row;
}

static void define(Layout *of, const uint8_t *p, const uint8_t *end) {
    while (p < end) {
        Layout *to = &of[u16(p)];
        uint16_t count = u16(p + 2);
        *to = (Layout){0};
        for (p += 4; count--; p += 4) {
            uint16_t element = u16(p);
            if (element == 152) to->start = to->size;
            if (element == 4) to->protocol = to->size;
            if (element == 1) to->octets = to->size;
            if (element == 2) to->packets = to->size;
            to->size += u16(p + 2);
        }
    }
}

static void data(uint32_t width, uint32_t domain, const Layout *of, const uint8_t *p, const uint8_t *end) {
    for (; p + of->size <= end; p += of->size) {
        uint32_t start = u64(p + of->start) / 1000;
        Row *row = row_of(start - start % width, domain, p[of->protocol]);
        row->flows++, row->octets += u64(p + of->octets), row->packets += u64(p + of->packets);
    }
}

static void message(uint32_t width, const uint8_t *p, const uint8_t *end) {
    uint32_t domain = u32(p + 12);
    for (p += 16; p < end; p += u16(p + 2)) {
        uint16_t set = u16(p);
        if (set == 2) define(layouts[domain % DOMAINS], p + 4, p + u16(p + 2));
        else data(width, domain, &layouts[domain % DOMAINS][set], p + 4, p + u16(p + 2));
    }
}

static int compare(const void *left, const void *right) {
    const Row *a = left, *b = right;
    if (a->start != b->start) return a->start < b->start ? -1 : 1;
    if (a->domain != b->domain) return a->domain < b->domain ? -1 : 1;
    return (int)a->protocol - (int)b->protocol;
}

int main(int argc, char **argv) {
    static uint8_t buffer[1 << 18];
    size_t held = 0, at = 0;
    if (argc != 2) return 2;
    uint32_t width = strtoul(argv[1], NULL, 10);
    for (;;) {
        while (held - at < 16 || held - at < u16(buffer + at + 2)) {
            memmove(buffer, buffer + at, held - at);
            held -= at, at = 0;
            ssize_t got = read(0, buffer + held, sizeof buffer - held);
            if (got <= 0) goto end;
            held += got;
        }
        size_t length = u16(buffer + at + 2);
        message(width, buffer + at, buffer + at + length);
        at += length;
    }
end:
    qsort(rows, used, sizeof *rows, compare);
    for (Row *row = rows; row < rows + used; row++)
        printf("%" PRIu64 " %" PRIu32 " %" PRIu32 " %" PRIu64 " %" PRIu64 " %" PRIu64 "\n", row->start, row->domain,
               row->protocol, row->flows, row->octets, row->packets);
    return 0;
}
