/* Prints a line's requests: each cycle, the sprites with DMA that ask for the bus in it, and how many they are. */
#include <stdint.h>
#include <stdio.h>
#include <string.h>

#include "nickelplait.h"

static const char usage[] =
    "usage: requests [--kind KIND] DMA [RASTER YSCROLL LATCH]\n"
    "  KIND     the chip: 6569 or 6567R8; with it the first line has its cycles and lines, without it the chip is a 6569\n"
    "  DMA      the sprites with DMA on, 0 to 255, sprite k at bit k\n"
    "  RASTER   a raster line, 0 to 65535; with it a line says whether it is a bad one\n"
    "  YSCROLL  0 to 255\n"
    "  LATCH    0 where DEN was not latched on line 0x30, else 1 to 255\n"
    "Numbers are decimal, or hexadecimal after 0x.\n";

/* A digit's value in base 10 or 16, or the base itself where it is none. */
static uint32_t digit_of(char c, uint32_t base)
{
    if (c >= '0' && c <= '9')
        return (uint32_t)(c - '0');
    if (base == 16 && c >= 'a' && c <= 'f')
        return (uint32_t)(c - 'a') + 10;
    if (base == 16 && c >= 'A' && c <= 'F')
        return (uint32_t)(c - 'A') + 10;
    return base;
}

/* Whether the word is a number from 0 to `most`, which then is in `value`. */
static int is_number(const char *word, uint32_t most, uint32_t *value)
{
    const char *at = word;
    uint32_t base = 10, sum = 0;

    if (at[0] == '0' && (at[1] == 'x' || at[1] == 'X')) {
        base = 16;
        at += 2;
    }
    if (*at == '\0')
        return 0;
    for (; *at != '\0'; at++) {
        uint32_t digit = digit_of(*at, base);
        if (digit == base)
            return 0;
        sum = sum * base + digit;
        /* Left at once, so the sum of a long word never wraps. */
        if (sum > most)
            return 0;
    }
    *value = sum;
    return 1;
}

static int argument(const char *name, const char *word, uint32_t most, uint32_t *value)
{
    if (is_number(word, most, value))
        return 1;
    fprintf(stderr, "requests: %s is '%s', and must be a number from 0 to %u\n", name, word, (unsigned)most);
    return 0;
}

/* Whether the word is a chip's name, whose number then is in `kind`. */
static int is_kind(const char *word, uint8_t *kind)
{
    if (strcmp(word, "6569") == 0)
        *kind = NICKELPLAIT_6569;
    else if (strcmp(word, "6567R8") == 0)
        *kind = NICKELPLAIT_6567R8;
    else
        return 0;
    return 1;
}

int main(int count, char **words)
{
    uint32_t dma, raster = 0, yscroll = 0, latch = 0;
    uint16_t cycle;
    uint8_t kind = NICKELPLAIT_6569;
    const char *named = NULL;

    if (count > 1 && strcmp(words[1], "--kind") == 0) {
        named = count > 2 ? words[2] : "";
        if (!is_kind(named, &kind)) {
            fprintf(stderr, "requests: KIND is '%s', and must be 6569 or 6567R8\n", named);
            return 2;
        }
        count -= 2;
        words += 2;
    }
    if (count != 2 && count != 5) {
        fputs(usage, stderr);
        return 2;
    }
    if (!argument("DMA", words[1], 0xFF, &dma))
        return 2;
    if (count == 5) {
        if (!argument("RASTER", words[2], 0xFFFF, &raster))
            return 2;
        if (!argument("YSCROLL", words[3], 0xFF, &yscroll))
            return 2;
        if (!argument("LATCH", words[4], 0xFF, &latch))
            return 2;
    }
    if (named)
        printf("%s: %u cycles, %u lines\n", named, (unsigned)nickelplait_kind_cycles(kind), (unsigned)nickelplait_kind_lines(kind));
    if (count == 5)
        printf("bad %u\n", (unsigned)nickelplait_bad_line((uint16_t)raster, (uint8_t)yscroll, (uint8_t)latch));
    for (cycle = 1; cycle <= nickelplait_kind_cycles(kind); cycle++) {
        uint8_t asking = nickelplait_kind_mask(kind, cycle) & (uint8_t)dma;
        printf("%u 0x%02X %u\n", (unsigned)cycle, (unsigned)asking, (unsigned)nickelplait_sprite_count(asking));
    }
    if (fflush(stdout) != 0) {
        fputs("requests: the output cannot be written\n", stderr);
        return 1;
    }
    return 0;
}
