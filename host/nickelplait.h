/* Nickelplait for C: questions about a line of the 6569 (PAL-B) or the 6567R8 (NTSC-M), on plain numbers.
 *
 * Link target/staticlib/libfrontend.a, which `host/archive` writes. It is x86-64 code.
 *
 * Every function answers for every number that its parameters can hold. None keeps anything, takes
 * memory or fails. Each answer is proved; the name after "Promise:" is the definition that it meets.
 */
#ifndef NICKELPLAIT_H
#define NICKELPLAIT_H

#include <stdint.h>

#ifdef __cplusplus
extern "C" {
#endif

/* The kinds of chip. A number that is none of them is answered as the 6569: kind_of,
 * crates/schedule/specs/Kind.antt */
#define NICKELPLAIT_6569 0
#define NICKELPLAIT_6567R8 1

/* The sprites that ask for the bus in a cycle of a 6569, sprite k at bit k, as if all eight had DMA on.
 * Cycles are 1 to 63; any other number gives 0. And the answer with the DMA mask for the sprites
 * that do ask.
 * Promise: mask_at, crates/schedule/specs/Requests.antt */
uint8_t nickelplait_mask(uint16_t cycle);

/* The same for a kind. Cycles are 1 to nickelplait_kind_cycles(kind); any other number gives 0.
 * Promise: mask_at, crates/schedule/specs/Requests.antt */
uint8_t nickelplait_kind_mask(uint8_t kind, uint16_t cycle);

/* How many cycles a line of that kind has: 63 or 65. They are numbered from 1, so this is the last.
 * Promise: last_cycle, crates/schedule/specs/Kind.antt */
uint16_t nickelplait_kind_cycles(uint8_t kind);

/* How many lines a frame of that kind has: 312 or 263. They are numbered from 0, so this is one more
 * than the last.
 * Promise: last_line and one, crates/schedule/specs/Kind.antt */
uint16_t nickelplait_kind_lines(uint8_t kind);

/* Whether a raster line is a bad one, on any kind: 1 where it is, else 0.
 * yscroll is the low three bits of 0xD011; above 7 no line is bad. latch says whether DEN was latched
 * on line 0x30: 0 is no, any other number is yes.
 * Promise: bad_line_number, crates/frontend/specs/Plain.antt */
uint8_t nickelplait_bad_line(uint16_t raster, uint8_t yscroll, uint8_t latch);

/* How many sprites of a mask, 0 to 8: of the DMA mask, those with DMA on.
 * Promise: sprites_in, crates/schedule/specs/Requests.antt */
uint32_t nickelplait_sprite_count(uint8_t dma);

#ifdef __cplusplus
}
#endif

#endif
