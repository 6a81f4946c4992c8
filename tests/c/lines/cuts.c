/*
 * A run of more than 4,096 octets, as an extended message carries it, cut into runs by the lines that mvpn(3) shows: first_part.h
 * is cut out of it. Every part is a run that the calls take, and together they have the NLRIs of the whole.
 */
#include "checks.h"

#include <stdbool.h>

static size_t first_part(const uint8_t *run, size_t run_len)
{
#include "first_part.h"
}

/* ---- runs of NLRIs of drawn sizes */

static uint32_t state = 8654;

static uint32_t drawn(uint32_t below)
{
    state = state * 1664525 + 1013904223;
    return (state >> 16) % below;
}

/* A whole NLRI of AFI 1, of 14 to 36 octets, at `at`; the octets of it. */
static size_t put_nlri(uint8_t *at)
{
    static const uint8_t lengths[] = { 12, 14, 18, 22, 26, 30, 34 };
    uint8_t length = lengths[drawn(ROWS(lengths))];
    bool intra = length == 12, has_source = length == 18 || length == 22 || length == 30 || length == 34;
    bool has_group = length == 22 || length == 34;
    memset(at, 0, MVPN_NLRI_HEADER + (size_t)length);
    at[0] = intra ? MVPN_INTRA_AS_I_PMSI : MVPN_S_PMSI;
    at[1] = length;
    if (has_source)
        at[10] = 32;
    if (has_group)
        at[15] = 32;
    return MVPN_NLRI_HEADER + (size_t)length;
}

/* At least so many octets, and how many NLRIs they are. */
static size_t put_run(uint8_t *run, size_t least, size_t *count)
{
    size_t size = 0;
    for (*count = 0; size < least; ++*count)
        size += put_nlri(run + size);
    return size;
}

/* ---- parts */

/* The NLRIs of a part, which is read to its end. */
static size_t count_nlris(const uint8_t *part, size_t size)
{
    mvpn_stepped step;
    size_t at = 0, count = 0;
    while ((step = mvpn_step(1, part, size, at)).number == MVPN_DONE && step.layout.route_type != 0) {
        at = step.cursor;
        count++;
    }
    same("a part", "number", step.number, MVPN_DONE);
    same("a part", "octets read", at, size);
    return count;
}

static void cut(const char *shows, const uint8_t *octets, size_t size, size_t expected)
{
    lent run = lent_of(size, 0);
    size_t at = 0, count = 0;
    memcpy(run.at, octets, size);
    while (at < size) {
        size_t part = first_part(run.at + at, size - at);
        same(shows, "a part has octets, and not too many", 0 < part && part <= MVPN_LONGEST_RUN && part <= size - at, true);
        count += count_nlris(run.at + at, part);
        at += part;
    }
    same(shows, "NLRIs", count, expected);
    free(run.at);
}

/* Octets that are no NLRIs are cut as well: no part is empty, and none is too long. */
static void cut_damaged(const uint8_t *octets, size_t size)
{
    for (size_t at = 0; at < size;) {
        size_t part = first_part(octets + at, size - at);
        same("damaged octets", "a part has octets, and not too many", 0 < part && part <= MVPN_LONGEST_RUN, true);
        at += part ? part : size;
    }
}

int main(void)
{
    static uint8_t run[70000];
    size_t count;
    for (size_t least = 0; least < 60000; least += least < 4200 ? 1 : 997) {
        size_t size = put_run(run, least, &count);
        cut("a run", run, size, count);
    }
    for (size_t i = 0; i < 4098; i++)
        run[i] = i % 16 == 0 ? MVPN_S_PMSI : i % 16 == 1 ? 14 : 0;
    cut("a part that ends at 4,096", run, 4096, 256);
    memcpy(run + 4096, run, 16);
    cut("one NLRI behind it", run, 4112, 257);
    for (size_t i = 0; i < sizeof run; i++)
        run[i] = (uint8_t)drawn(256);
    cut_damaged(run, sizeof run);
    cut_damaged(run, 4097);
    return verdict("C cuts");
}
