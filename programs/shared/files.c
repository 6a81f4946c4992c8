#include "files.h"

#include <errno.h>
#include <stdlib.h>

/* The octets that are read at first; the memory doubles when it is full. */
enum { FIRST_ROOM = 65536 };

bool read_whole(FILE *file, const char *name, uint8_t **content, size_t *size)
{
    size_t room = 0, got = 1;
    *content = NULL;
    *size = 0;
    while (got > 0) {
        if (*size == room) {
            size_t more = room == 0 ? FIRST_ROOM : 2 * room;
            uint8_t *larger = realloc(*content, more);
            if (!larger)
                break;
            *content = larger;
            room = more;
        }
        got = fread(*content + *size, 1, room - *size, file);
        *size += got;
    }
    if (got == 0 && !ferror(file))
        return true;
    perror(name);
    return false;
}

static bool write_whole(const char *name, const uint8_t *content, size_t size)
{
    FILE *output = fopen(name, "wb");
    if (!output)
        return false;
    bool is_written = fwrite(content, 1, size, output) == size;
    return fclose(output) == 0 && is_written;
}

/* The octets are written to a file beside it, which then takes its name, so that a program that ends in the middle leaves the old file
 * whole. (A router also sees to it that they are on the disk before, by fsync.) */
bool replace_file(const char *name, const uint8_t *content, size_t size)
{
    char beside[FILENAME_MAX];
    int length = snprintf(beside, sizeof beside, "%s.new", name);
    errno = ENAMETOOLONG;
    if ((size_t)length < sizeof beside && write_whole(beside, content, size) && rename(beside, name) == 0)
        return true;
    perror(name);
    return false;
}
