/* Bytes as a person can copy them out of a message. */
#ifndef HEX_H
#define HEX_H

#include <stdint.h>
#include <stdio.h>

static inline void print_hex(const char *name, const uint8_t *bytes, size_t length)
{
    printf("  %s (%zu) ", name, length);
    for (size_t i = 0; i < length; i++)
        printf("%02x", bytes[i]);
    printf("\n");
}

#endif
