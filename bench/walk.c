/* walk WIDTH < FILE: the totals lines of `flowvault measure WIDTH` of a File without a fault, by a plain walk that
 * looks for none, keeps no limit and tells no want of memory: what the job costs at least in C.
 * Build: cc -O2 walk.c -o walk */
#include <inttypes.h>
#include <stdint.h>
#include <stdio.h>
#include <stdlib.h>
#include <string.h>
#include <unistd.h>

enum { START_MS, START_S, PROTOCOL, OCTETS, PACKETS, SKIP };

typedef struct { uint16_t element, length; uint8_t kind; } Field;
typedef struct { int options, count; uint32_t least; int fixed; Field *fields; int place[5], length[5]; } Definition;
typedef struct Domain { uint32_t id; struct Domain *next; Definition *definitions[65536]; } Domain;
typedef struct {
    uint64_t start, flows;
    uint32_t domain;
    int protocol, used;
    unsigned __int128 octets, packets;
} Row;

static Domain *domains;
static Row *rows;
static size_t room = 1 << 16, used;

static uint64_t number(const uint8_t *p, int n) {
    uint64_t v = 0;
    while (n--) v = v << 8 | *p++;
    return v;
}

static Domain *domain_of(uint32_t id) {
    static Domain *last;
    if (last && last->id == id) return last;
    for (Domain *d = domains; d; d = d->next)
        if (d->id == id) return last = d;
    Domain *d = calloc(1, sizeof *d);
    d->id = id, d->next = domains;
    return domains = last = d;
}

static int kind_of(uint16_t id, uint16_t length) {
    if (id == 152 && length == 8) return START_MS;
    if (id == 150 && length == 4) return START_S;
    if (id == 4 && length == 1) return PROTOCOL;
    if (id == 1 && length >= 1 && length <= 8) return OCTETS;
    if (id == 2 && length >= 1 && length <= 8) return PACKETS;
    return SKIP;
}

static const uint8_t *define(Domain *d, int options, const uint8_t *p, const uint8_t *end) {
    uint16_t id = number(p, 2), count = number(p + 2, 2);
    p += options ? 6 : 4;
    if (count == 0) {
        for (int i = id < 256 ? 256 : id; i <= (id < 256 ? 65535 : id); i++)
            if (d->definitions[i] && d->definitions[i]->options == options) d->definitions[i] = NULL;
        return options ? p - 2 : p;
    }
    Definition *to = calloc(1, sizeof *to);
    to->options = options, to->count = count, to->fixed = 1, to->fields = calloc(count, sizeof *to->fields);
    for (int k = 0; k < 5; k++) to->place[k] = -1;
    for (int i = 0; i < count && p + 4 <= end; i++) {
        uint16_t element = number(p, 2), length = number(p + 2, 2);
        int kind = element & 0x8000 ? SKIP : kind_of(element, length);
        p += element & 0x8000 ? 8 : 4;
        to->fields[i] = (Field){element, length, kind};
        if (length == 65535) to->fixed = 0;
        else if (kind != SKIP && to->place[kind] < 0) to->place[kind] = to->least, to->length[kind] = length;
        to->least += length == 65535 ? 1 : length;
    }
    d->definitions[id] = to;
    return p;
}

static size_t hash(uint64_t start, uint32_t domain, int protocol) {
    uint64_t mixed = start * 0x9E3779B97F4A7C15u ^ domain * 0xC2B2AE3D27D4EB4Fu;
    return (mixed ^ (uint64_t)protocol * 0x165667B19E3779F9u) >> 20;
}

static Row *row_of(uint64_t start, uint32_t domain, int protocol) {
    size_t at = hash(start, domain, protocol) & (room - 1);
    while (rows[at].used) {
        if (rows[at].start == start && rows[at].domain == domain && rows[at].protocol == protocol) return &rows[at];
        at = (at + 1) & (room - 1);
    }
    if (++used * 2 > room) {
        Row *old = rows;
        size_t had = room;
        room *= 2, rows = calloc(room, sizeof *rows), used = 1;
        for (size_t i = 0; i < had; i++)
            if (old[i].used) *row_of(old[i].start, old[i].domain, old[i].protocol) = old[i];
        free(old);
        at = hash(start, domain, protocol) & (room - 1);
        while (rows[at].used) at = (at + 1) & (room - 1);
    }
    rows[at] = (Row){start, 0, domain, protocol, 1, 0, 0};
    return &rows[at];
}

static void add(uint32_t width, uint64_t start, uint32_t domain, int protocol, uint64_t octets, uint64_t packets) {
    Row *row = row_of(start - start % width, domain, protocol);
    row->flows++, row->octets += octets, row->packets += packets;
}

static void record(uint32_t width, uint32_t time, uint32_t domain, const uint8_t *const values[5],
                   const int lengths[5]) {
    uint64_t start = time, quotient = values[START_MS] ? number(values[START_MS], 8) / 1000 : UINT64_MAX;
    if (quotient <= UINT32_MAX) start = quotient;
    else if (values[START_S]) start = number(values[START_S], 4);
    int protocol = values[PROTOCOL] ? *values[PROTOCOL] : -1;
    uint64_t octets = values[OCTETS] ? number(values[OCTETS], lengths[OCTETS]) : 0;
    add(width, start, domain, protocol, octets, values[PACKETS] ? number(values[PACKETS], lengths[PACKETS]) : 0);
}

static void data(uint32_t width, uint32_t time, uint32_t domain, const Definition *to, const uint8_t *p,
                 const uint8_t *end) {
    const uint8_t *values[5];
    int lengths[5];
    if (to->least == 0 || to->options) return;
    while (end - p >= to->least) {
        if (to->fixed) {
            for (int k = 0; k < 5; k++)
                values[k] = to->place[k] < 0 ? NULL : p + to->place[k], lengths[k] = to->length[k];
            record(width, time, domain, values, lengths);
            p += to->least;
            continue;
        }
        memset(values, 0, sizeof values);
        for (int i = 0; i < to->count; i++) {
            int length = to->fields[i].length, kind = to->fields[i].kind;
            if (length == 65535) {
                length = *p++;
                if (length == 255) length = number(p, 2), p += 2;
                kind = to->fields[i].element & 0x8000 ? SKIP : kind_of(to->fields[i].element, length);
            }
            if (kind != SKIP && !values[kind]) values[kind] = p, lengths[kind] = length;
            p += length;
        }
        record(width, time, domain, values, lengths);
    }
}

static void message(uint32_t width, const uint8_t *p, const uint8_t *end) {
    uint32_t time = number(p + 4, 4), id = number(p + 12, 4);
    Domain *d = domain_of(id);
    for (p += 16; end - p >= 4;) {
        uint16_t set = number(p, 2), length = number(p + 2, 2);
        const uint8_t *q = p + 4, *stop = p + length;
        if (set == 2 || set == 3)
            while (stop - q >= 4 && number(q, 2)) q = define(d, set == 3, q, stop);
        else if (set >= 256 && d->definitions[set]) data(width, time, id, d->definitions[set], q, stop);
        p = stop;
    }
}

static int compare(const void *left, const void *right) {
    const Row *a = left, *b = right;
    if (a->used != b->used) return b->used - a->used;
    if (a->start != b->start) return a->start < b->start ? -1 : 1;
    if (a->domain != b->domain) return a->domain < b->domain ? -1 : 1;
    return a->protocol - b->protocol;
}

static void print(unsigned __int128 v) {
    char text[40], *p = text + sizeof text;
    do *--p = '0' + (int)(v % 10), v /= 10; while (v);
    fwrite(p, 1, text + sizeof text - p, stdout);
}

int main(int argc, char **argv) {
    static uint8_t buffer[1 << 20];
    size_t held = 0, at = 0;
    if (argc != 2) return 2;
    uint32_t width = strtoul(argv[1], NULL, 10);
    rows = calloc(room, sizeof *rows);
    for (;;) {
        while (held - at < 16 || held - at < number(buffer + at + 2, 2)) {
            memmove(buffer, buffer + at, held - at);
            held -= at, at = 0;
            ssize_t got = read(0, buffer + held, sizeof buffer - held);
            if (got <= 0) goto end;
            held += got;
        }
        size_t length = number(buffer + at + 2, 2);
        message(width, buffer + at, buffer + at + length);
        at += length;
    }
end:
    qsort(rows, room, sizeof *rows, compare);
    for (size_t i = 0; i < room && rows[i].used; i++) {
        printf("%" PRIu64 " %" PRIu32 " ", rows[i].start, rows[i].domain);
        if (rows[i].protocol < 0) printf("- ");
        else printf("%d ", rows[i].protocol);
        printf("%" PRIu64 " ", rows[i].flows);
        print(rows[i].octets), putchar(' '), print(rows[i].packets), putchar('\n');
    }
    return 0;
}
