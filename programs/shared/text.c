/* For inet_pton. */
#define _POSIX_C_SOURCE 200809L

#include "text.h"

#include <arpa/inet.h>
#include <ctype.h>
#include <errno.h>
#include <stdlib.h>
#include <string.h>

bool is_word(const char *word, const char *name)
{
    return word && strcmp(word, name) == 0;
}

bool begins_with_number(const char *word, unsigned long most, unsigned long *number, const char **end)
{
    char *behind;
    if (!word || !isdigit((unsigned char)word[0]))
        return false;
    errno = 0;
    *number = strtoul(word, &behind, 10);
    *end = behind;
    return errno == 0 && *number <= most;
}

bool is_number(const char *word, unsigned long most, unsigned long *number)
{
    const char *end;
    return begins_with_number(word, most, number, &end) && !*end;
}

bool is_address(const char *word, mvpn_address *address)
{
    memset(address, 0, sizeof *address);
    if (!word)
        return false;
    address->size = strchr(word, ':') ? 16 : 4;
    return inet_pton(address->size == 4 ? AF_INET : AF_INET6, word, address->octets) == 1;
}

uint16_t afi_of(const mvpn_address *address)
{
    return address->size == 4 ? MVPN_AFI_IPV4 : MVPN_AFI_IPV6;
}
