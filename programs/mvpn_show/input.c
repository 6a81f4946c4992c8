#include "input.h"

#include "files.h"

#include <ctype.h>
#include <string.h>

/* The value of a digit; -1 where it is none. */
static int digit(uint8_t character)
{
    static const char digits[] = "0123456789abcdef";
    const char *at = character ? strchr(digits, tolower(character)) : NULL;
    return at ? (int)(at - digits) : -1;
}

/* White space and colons between octets are passed over. An octet is two digits. Whether all of it is so; where not, `offset` is the first
 * character that is not. What is read is never longer than the text, and takes its place. */
static bool decode(uint8_t *text, size_t *size, size_t *offset)
{
    size_t decoded = 0;
    for (*offset = 0; *offset < *size;) {
        uint8_t character = text[*offset];
        if (isspace(character) || character == ':') {
            ++*offset;
            continue;
        }
        int high = digit(character), low = *offset + 1 < *size ? digit(text[*offset + 1]) : -1;
        if (high < 0 || low < 0)
            return false;
        text[decoded++] = (uint8_t)(16 * high + low);
        *offset += 2;
    }
    *size = decoded;
    return true;
}

bool read_input(const char *name, bool in_hexadecimal, uint8_t **content, size_t *size)
{
    bool is_standard = strcmp(name, "-") == 0;
    FILE *file = is_standard ? stdin : fopen(name, "rb");
    size_t offset;
    *content = NULL;
    if (!file) {
        perror(name);
        return false;
    }
    bool is_read = read_whole(file, is_standard ? "standard input" : name, content, size);
    if (!is_standard)
        fclose(file);
    if (is_read && in_hexadecimal && !decode(*content, size, &offset)) {
        fprintf(stderr, "mvpn_show: character %zu is not of two hexadecimal digits\n", offset);
        return false;
    }
    return is_read;
}
