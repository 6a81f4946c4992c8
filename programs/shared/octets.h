/* Octets that stand in a buffer of somebody else. */
#ifndef OCTETS_H
#define OCTETS_H

#include <stddef.h>
#include <stdint.h>

typedef struct { const uint8_t *at; size_t size; } octets;

/* The octets behind the first `size` ones, of which there are no fewer. */
static inline octets octets_behind(octets all, size_t size)
{
    return (octets){ size > 0 ? all.at + size : all.at, all.size - size };
}

/* The number that these octets are, in network order. */
static inline uint32_t octets_number(const uint8_t *at, size_t size)
{
    uint32_t number = 0;
    for (size_t i = 0; i < size; i++)
        number = number << 8 | at[i];
    return number;
}

#endif
