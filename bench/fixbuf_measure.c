/* fixbuf_measure WIDTH FILE: the totals lines of `flowvault measure WIDTH < FILE`, by libfixbuf, for Files whose flows
 * all have elements 152, 4, 1 and 2. Build:
 * cc -O2 fixbuf_measure.c -o fixbuf_measure $(pkg-config --cflags --libs libfixbuf) */
#include <fixbuf/public.h>
#include <inttypes.h>
#include <stdio.h>
#include <stdlib.h>

typedef struct {
    uint64_t start, octets, packets;
    uint8_t protocol, padding[7];
} Flow;

typedef struct {
    uint64_t start;
    uint32_t domain;
    int32_t protocol;
    uint64_t flows, octets, packets;
    int used;
} Row;

static fbInfoElementSpec_t fields[] = {
    {"flowStartMilliseconds", 8, 0}, {"octetDeltaCount", 8, 0}, {"packetDeltaCount", 8, 0},
    {"protocolIdentifier", 1, 0},    {"paddingOctets", 7, 0},   FB_IESPEC_NULL};

static Row *rows;
static size_t room = 1 << 16, count;

static int is_key(const Row *row, uint64_t start, uint32_t domain, int32_t protocol) {
    return row->start == start && row->domain == domain && row->protocol == protocol;
}

static Row *row_of(uint64_t start, uint32_t domain, int32_t protocol) {
    size_t at = (start * 31 + domain * 1031 + (size_t)protocol * 131071) % room;
    while (rows[at].used && !is_key(&rows[at], start, domain, protocol))
        at = (at + 1) % room;
    if (!rows[at].used) {
        if (++count * 2 > room)
            abort();
        rows[at] = (Row){start, domain, protocol, 0, 0, 0, 1};
    }
    return &rows[at];
}

static int compare(const void *left, const void *right) {
    const Row *a = left, *b = right;
    if (a->used != b->used) return b->used - a->used;
    if (a->start != b->start) return a->start < b->start ? -1 : 1;
    if (a->domain != b->domain) return a->domain < b->domain ? -1 : 1;
    return a->protocol - b->protocol;
}

int main(int argc, char **argv) {
    GError *error = NULL;
    if (argc != 3) return 2;
    uint64_t width = strtoull(argv[1], NULL, 10);
    fbInfoModel_t *model = fbInfoModelAlloc();
    fbSession_t *session = fbSessionAlloc(model);
    fbTemplate_t *template = fbTemplateAlloc(model);
    if (!fbTemplateAppendSpecArray(template, fields, 0xffffffff, &error)) return 1;
    uint16_t id = fbSessionAddTemplate(session, TRUE, FB_TID_AUTO, template, &error);
    fbCollector_t *collector = fbCollectorAllocFile(NULL, argv[2], &error);
    if (!id || !collector) return 1;
    fBuf_t *buffer = fBufAllocForCollection(session, collector);
    if (!fBufSetInternalTemplate(buffer, id, &error)) return 1;
    rows = calloc(room, sizeof(Row));
    Flow flow;
    size_t size = sizeof flow;
    while (fBufNext(buffer, (uint8_t *)&flow, &size, &error)) {
        uint64_t start = flow.start / 1000;
        Row *row = row_of(start - start % width, fbSessionGetDomain(session), flow.protocol);
        row->flows++;
        row->octets += flow.octets;
        row->packets += flow.packets;
        size = sizeof flow;
    }
    if (!g_error_matches(error, FB_ERROR_DOMAIN, FB_ERROR_EOF)) {
        fprintf(stderr, "%s\n", error->message);
        return 1;
    }
    qsort(rows, room, sizeof(Row), compare);
    for (size_t i = 0; i < count; i++)
        printf("%" PRIu64 " %" PRIu32 " %" PRId32 " %" PRIu64 " %" PRIu64 " %" PRIu64 "\n", rows[i].start,
               rows[i].domain, rows[i].protocol, rows[i].flows, rows[i].octets, rows[i].packets);
    return 0;
}
