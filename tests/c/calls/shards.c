/*
 * mvpn_shard: its numbers, computed by another program, so that they never become others; that each argument and each boundary
 * between two of them counts; and that flows as networks number them are spread over the tables.
 */
#include "checks.h"

typedef struct { const char *shows, *originator, *source, *group; size_t tables, expected; } row;

#define IPV6 "20010DB8 00000000 00000000 00000001"
#define GROUP_IPV6 "FF3E0000 00000000 00000000 00000001"

static const row rows[] = {
    { "a flow, 4,096 tables", "0A000001", "C0000201", "E8010101", 4096, 2862 },
    { "a flow, 1,000 tables", "0A000001", "C0000201", "E8010101", 1000, 166 },
    { "a flow, 16 tables", "0A000001", "C0000201", "E8010101", 16, 14 },
    { "a flow, three tables", "0A000001", "C0000201", "E8010101", 3, 2 },
    { "a flow, two tables", "0A000001", "C0000201", "E8010101", 2, 0 },
    { "a flow, one table", "0A000001", "C0000201", "E8010101", 1, 0 },
    { "a flow, no table", "0A000001", "C0000201", "E8010101", 0, 0 },
    { "another originator", "0A000002", "C0000201", "E8010101", 4096, 474 },
    { "another source", "0A000001", "C0000202", "E8010101", 4096, 3409 },
    { "another group", "0A000001", "C0000201", "E8010102", 4096, 576 },
    { "IPv6, an originator of 4 octets", "0A000001", IPV6, GROUP_IPV6, 4096, 611 },
    { "IPv6, an originator of 16 octets", IPV6, IPV6, GROUP_IPV6, 4096, 478 },
    { "an octet that is the source's last", "0A000001", "C0000201", "E8", 4096, 1592 },
    { "the same octet, the group's first", "0A000001", "C00002", "01E8", 4096, 1148 },
    { "no octets", "", "", "", 4096, 3948 },
};

static void same_number(const row *r)
{
    lent originator = hex(r->originator), source = hex(r->source), group = hex(r->group);
    size_t got = mvpn_shard(originator.at, originator.size, source.at, source.size, group.at, group.size, r->tables);
    same(r->shows, "number", got, r->expected);
    free(originator.at);
    free(source.at);
    free(group.at);
}

/* ---- the spread */

enum { MOST_TABLES = 256, MEAN = 16 };

/* How the flows are numbered: what is added to each address from one flow to the next. */
typedef struct { const char *shows; uint32_t originator, source, group; } numbering;

static const numbering numberings[] = {
    { "groups in turn", 0, 0, 1 },
    { "groups in steps of 16", 0, 0, 16 },
    { "groups in steps of 256", 0, 0, 256 },
    { "sources in turn", 0, 1, 0 },
    { "sources in steps of 256", 0, 256, 0 },
    { "sources and groups in turn", 0, 1, 1 },
    { "originators in turn", 1, 0, 0 },
};

static void put(uint8_t *octets, uint32_t number)
{
    for (size_t i = 0; i < 4; i++)
        octets[i] = (uint8_t)(number >> (24 - 8 * i));
}

/* Tables that get 16 flows in the mean get at most three times as many each, and none gets nothing. */
static void spread(const numbering *by, size_t tables)
{
    size_t counts[MOST_TABLES] = { 0 }, flows = MEAN * tables, least = flows, greatest = 0;
    uint8_t originator[4], source[4], group[4];
    for (uint32_t i = 0; i < flows; i++) {
        put(originator, 0x0A000001 + i * by->originator);
        put(source, 0xC0000201 + i * by->source);
        put(group, 0xE8000001 + i * by->group);
        counts[mvpn_shard(originator, 4, source, 4, group, 4, tables)]++;
    }
    for (size_t i = 0; i < tables; i++) {
        least = counts[i] < least ? counts[i] : least;
        greatest = counts[i] > greatest ? counts[i] : greatest;
    }
    same(by->shows, "at most three times the mean", greatest <= 3 * MEAN, 1);
    same(by->shows, "no table that gets nothing", least > 0, 1);
}

int main(void)
{
    static const size_t tables[] = { 2, 10, 16, 64, 100, MOST_TABLES };
    for (size_t i = 0; i < ROWS(rows); i++)
        same_number(&rows[i]);
    for (size_t i = 0; i < ROWS(numberings); i++)
        for (size_t j = 0; j < ROWS(tables); j++)
            spread(&numberings[i], tables[j]);
    return verdict("C shards");
}
