/* The masks for every number of 16 bits. The 6569's function beside the table that the library once had typed; and the function
 * that takes a kind, for every number of 8 bits as the kind, beside the requests counted one by one from that kind's slots. So the
 * cycles and lines of each kind. What is no kind must be answered as the 6569. Prints how many were asked; exit status 1 where one
 * differs. */
#include <stdio.h>

#include "nickelplait.h"

enum { KINDS = 2, WARNING = 3, TOLD = 20 };

/* A column a kind, by its number: the cycles of a line, the lines of a frame, the cycle of sprite 0's pointer. */
static const struct { unsigned cycles, lines, first_pointer; } columns[KINDS] = {{63, 312, 58}, {65, 263, 59}};

/* Cycles 0 to 10, and 55 to 63 of the 6569; no sprite asks in another. */
static const uint8_t early[] = {0x00, 0x18, 0x38, 0x30, 0x70, 0x60, 0xE0, 0xC0, 0xC0, 0x80, 0x80};
static const uint8_t late[] = {0x01, 0x01, 0x03, 0x03, 0x07, 0x06, 0x0E, 0x0C, 0x1C};

static uint8_t typed(unsigned number)
{
    if (number < sizeof early) return early[number];
    if (number >= 55 && number < 55 + sizeof late) return late[number - 55];
    return 0;
}

/* A sprite asks from three cycles before its pointer to its data slot, on a line that goes round. */
static uint8_t counted(unsigned kind, unsigned number)
{
    unsigned mask = 0, last = columns[kind].cycles;
    for (unsigned sprite = 0; sprite < 8; sprite++) {
        unsigned pointer = columns[kind].first_pointer + 2 * sprite;
        for (unsigned cycle = pointer - WARNING; cycle <= pointer + 1; cycle++)
            if (number == (cycle > last ? cycle - last : cycle)) mask |= 1u << sprite;
    }
    return (uint8_t)mask;
}

static unsigned asked, differ;

static void compare(const char *what, unsigned kind, unsigned number, unsigned answer, unsigned due)
{
    asked++;
    if (answer == due) return;
    if (differ++ < TOLD) printf("%s, kind %u, number %u: %u and not %u\n", what, kind, number, answer, due);
}

int main(void)
{
    static uint8_t due[KINDS][UINT16_MAX + 1];
    for (unsigned number = 0; number <= UINT16_MAX; number++) {
        for (unsigned kind = 0; kind < KINDS; kind++) due[kind][number] = counted(kind, number);
        compare("typed", NICKELPLAIT_6569, number, nickelplait_mask((uint16_t)number), typed(number));
        compare("mask", NICKELPLAIT_6569, number, nickelplait_mask((uint16_t)number), due[NICKELPLAIT_6569][number]);
    }
    for (unsigned kind = 0; kind <= UINT8_MAX; kind++) {
        unsigned column = kind < KINDS ? kind : NICKELPLAIT_6569;
        compare("cycles", kind, 0, nickelplait_kind_cycles((uint8_t)kind), columns[column].cycles);
        compare("lines", kind, 0, nickelplait_kind_lines((uint8_t)kind), columns[column].lines);
        for (unsigned number = 0; number <= UINT16_MAX; number++)
            compare("mask of the kind", kind, number, nickelplait_kind_mask((uint8_t)kind, (uint16_t)number), due[column][number]);
    }
    printf("%u answers, %u differ\n", asked, differ);
    return differ != 0;
}
