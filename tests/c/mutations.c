/*
 * Damaged UPDATE messages for the framing of examples/pe_daemon.c: mutations OUTPUT FILE... takes every UPDATE of the files,
 * cuts it after each of its octets, and changes each octet behind its header in several ways. Each such message is taken
 * apart in memory of exactly its size, and what is found in it must lie in it; then it goes to the output, for the program, behind an
 * OPEN, since the one before may have ended its session.
 */
#include "checks.h"
#include "update.h"

/* ---- checks */

static void lies_inside(const char *field, octets part, octets message)
{
    size_t start = part.at ? (size_t)(part.at - message.at) : 0;
    same("a changed message", field, start <= message.size && part.size <= message.size - start, true);
}

static void take_apart(octets message)
{
    update found;
    fault damage = update_read(message, &found);
    same("a changed message", "fault's octet lies in it", damage.offset <= message.size, true);
    if (!damage.text) {
        lies_inside("MP_REACH_NLRI lies in it", found.reach.run, message);
        lies_inside("its next hop lies in it", found.reach.next_hop, message);
        lies_inside("MP_UNREACH_NLRI lies in it", found.unreach.run, message);
        lies_inside("PMSI Tunnel lies in it", found.tunnel, message);
        same("a changed message", "attributes that are not used are attributes", found.unused <= found.attributes, true);
    }
}

/* ---- changes */

/* A copy of exactly `size` octets, the header's length among them. */
static lent cut(octets message, size_t size)
{
    lent copy = lent_of(size, 0);
    memcpy(copy.at, message.at, size);
    copy.at[16] = (uint8_t)(size >> 8);
    copy.at[17] = (uint8_t)size;
    return copy;
}

static void use(lent message, FILE *output)
{
    static const uint8_t open[] = { 255, 255, 255, 255, 255, 255, 255, 255, 255, 255, 255, 255, 255, 255, 255, 255,
                                    0, 29, BGP_OPEN, 4, 0, 100, 0, 90, 10, 0, 0, 1, 0 };
    take_apart((octets){ message.at, message.size });
    fwrite(open, 1, sizeof open, output);
    fwrite(message.at, 1, message.size, output);
}

static void use_cuts(octets message, FILE *output)
{
    for (size_t size = BGP_HEADER; size <= message.size; size++) {
        lent shorter = cut(message, size);
        use(shorter, output);
        free(shorter.at);
    }
}

static void use_changes(octets message, FILE *output)
{
    lent changed = cut(message, message.size);
    for (size_t i = BGP_HEADER; i < message.size; i++) {
        uint8_t old = message.at[i];
        const uint8_t others[] = { 0, 255, (uint8_t)(old + 1), (uint8_t)(old - 1), old ^ 0x10, old ^ 0x80 };
        for (size_t j = 0; j < ROWS(others); j++) {
            changed.at[i] = others[j];
            use(changed, output);
        }
        changed.at[i] = old;
    }
    free(changed.at);
}

static FILE *opened(const char *name, const char *mode)
{
    FILE *file = fopen(name, mode);
    if (!file) {
        perror(name);
        exit(2);
    }
    return file;
}

static void use_file(const char *name, FILE *output)
{
    uint8_t buffer[BGP_LONGEST_MESSAGE];
    octets message;
    FILE *input = opened(name, "rb");
    while (!message_read(input, buffer, &message).text && message.size > 0)
        if (message_type(message) == BGP_UPDATE) {
            use_cuts(message, output);
            use_changes(message, output);
        }
    fclose(input);
}

int main(int argc, char **argv)
{
    if (argc < 2)
        return 2;
    FILE *output = opened(argv[1], "wb");
    for (int i = 2; i < argc; i++)
        use_file(argv[i], output);
    same("the changed messages", "are written", (uintmax_t)fclose(output), 0);
    return verdict("mutations");
}
