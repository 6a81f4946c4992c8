#include "checks.h"

/* ---- checks */

static unsigned checks, failures;

static void fail(const char *shows, const char *field)
{
    failures++;
    printf("FAILED: %s: %s", shows, field);
}

void same(const char *shows, const char *field, uintmax_t got, uintmax_t expected)
{
    checks++;
    if (got != expected) {
        fail(shows, field);
        printf(" is %" PRIuMAX ", expected %" PRIuMAX "\n", got, expected);
    }
}

static void print_octets(const uint8_t *octets, size_t size)
{
    for (size_t i = 0; i < size; i++)
        printf(" %02X", octets[i]);
}

void same_octets(const char *shows, const char *field, const uint8_t *got, const uint8_t *expected, size_t size)
{
    checks++;
    if (memcmp(got, expected, size) != 0) {
        fail(shows, field);
        printf(" is");
        print_octets(got, size);
        printf(", expected");
        print_octets(expected, size);
        printf("\n");
    }
}

int verdict(const char *test)
{
    printf("%s: %u checks, %u failed\n", test, checks, failures);
    return failures ? EXIT_FAILURE : EXIT_SUCCESS;
}

/* ---- octets lent to a call */

lent lent_of(size_t size, uint8_t value)
{
    lent l = { malloc(size ? size : 1), size };
    if (!l.at) {
        fprintf(stderr, "no memory\n");
        exit(2);
    }
    memset(l.at, value, size);
    return l;
}

static unsigned digit(char c)
{
    const char *digits = "0123456789ABCDEF", *found = c ? strchr(digits, c) : NULL;
    if (!found) {
        fprintf(stderr, "bad hexadecimal in a row\n");
        exit(2);
    }
    return (unsigned)(found - digits);
}

lent hex(const char *text)
{
    lent l = lent_of(strlen(text) / 2, 0);
    size_t size = 0;
    for (; *text; text++)
        if (*text != ' ') {
            l.at[size++] = (uint8_t)(digit(text[0]) << 4 | digit(text[1]));
            text++;
        }
    uint8_t *exact = realloc(l.at, size ? size : 1);
    l.at = exact ? exact : l.at;
    l.size = size;
    return l;
}

lent list_of(const char *text)
{
    if (text)
        return hex(text);
    lent list = lent_of(sizeof mvpn_no_items, 0);
    memcpy(list.at, mvpn_no_items, sizeof mvpn_no_items);
    return list;
}

void same_output(const char *shows, lent output, const uint8_t *written, size_t size)
{
    lent expected = lent_of(output.size, FILL);
    memcpy(expected.at, written, size);
    same_octets(shows, "output", output.at, expected.at, output.size);
    free(expected.at);
}

void untouched(const char *shows, lent output)
{
    same_output(shows, output, output.at, 0);
}

/* ---- tables */

lent made(uint16_t afi, size_t places)
{
    lent table = lent_of(MVPN_TABLE_SIZE(places), FILL);
    same("making a table", "number", mvpn_make(afi, table.at, table.size), MVPN_DONE);
    return table;
}

mvpn_installed install(lent table, const char *nlri_text, const char *attribute_text)
{
    lent nlri = hex(nlri_text), attribute = hex(attribute_text);
    mvpn_installed i = mvpn_install(table.at, table.size, nlri.at, nlri.size, attribute.at, attribute.size);
    free(nlri.at);
    free(attribute.at);
    return i;
}

uint32_t withdraw(lent table, const char *nlri_text)
{
    lent nlri = hex(nlri_text);
    uint32_t number = mvpn_withdraw(table.at, table.size, nlri.at, nlri.size);
    free(nlri.at);
    return number;
}

lent holding(uint16_t afi, size_t places, const route *routes, size_t count)
{
    lent table = made(afi, places);
    for (size_t i = 0; i < count; i++) {
        mvpn_installed installed = install(table, routes[i].nlri, routes[i].attribute);
        same(routes[i].nlri, "number of install", installed.number, MVPN_DONE);
        same(routes[i].nlri, "outcome", installed.outcome, MVPN_NEW);
    }
    return table;
}

lent copy_of(lent table)
{
    lent copy = lent_of(table.size, 0);
    memcpy(copy.at, table.at, table.size);
    return copy;
}

void same_table(const char *shows, lent table, lent expected)
{
    same(shows, "table size", table.size, expected.size);
    same_octets(shows, "table", table.at, expected.at, table.size);
}

/* ---- matches */

mvpn_matched match_by(lent table, const char *prefixes_text, flow f, lent output)
{
    lent prefixes = list_of(prefixes_text), router = hex(f.router), source = hex(f.source), group = hex(f.group);
    mvpn_matched m = mvpn_match(table.at, table.size, prefixes.at, prefixes.size, router.at, router.size, source.at, source.size,
                                group.at, group.size, output.at, output.size);
    free(prefixes.at);
    free(router.at);
    free(source.at);
    free(group.at);
    return m;
}

mvpn_matched match(lent table, flow f, lent output)
{
    return match_by(table, NULL, f, output);
}

void same_match(const char *shows, lent table, flow f, uint32_t tier, const route *expected)
{
    lent output = lent_of(MVPN_MATCH_OUTPUT + 1, FILL);
    same_matched(shows, match(table, f, output), output, tier, expected);
    free(output.at);
}

void same_matched(const char *shows, mvpn_matched got, lent output, uint32_t tier, const route *expected)
{
    lent nlri = hex(expected ? expected->nlri : ""), attribute = hex(expected ? expected->attribute : "");
    lent written = lent_of(nlri.size + attribute.size, 0);
    same(shows, "number", got.number, MVPN_DONE);
    same(shows, "tier", got.tier, tier);
    same(shows, "nlri_size", got.nlri_size, nlri.size);
    same(shows, "attribute_size", got.attribute_size, attribute.size);
    memcpy(written.at, nlri.at, nlri.size);
    memcpy(written.at + nlri.size, attribute.at, attribute.size);
    same_output(shows, output, written.at, written.size);
    free(nlri.at);
    free(attribute.at);
    free(written.at);
}

void refused_matched(const char *shows, mvpn_matched got, lent output, uint32_t number)
{
    same(shows, "number of match", got.number, number);
    same(shows, "tier", got.tier, 0);
    same(shows, "nlri_size", got.nlri_size, 0);
    same(shows, "attribute_size", got.attribute_size, 0);
    untouched(shows, output);
}
