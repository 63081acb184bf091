/* Stands in for the rest of VICE around its VIC-II: what the five files of src/viciisc call or read.
 * tests/vice/README.md says of each why it may do so little. */

#include "vice.h"

#include "c64cart.h"
#include "c64cartmem.h"
#include "interrupt.h"
#include "lib.h"
#include "log.h"
#include "maincpu.h"
#include "mem.h"
#include "vicii-color.h"
#include "vicii-draw-cycle.h"
#include "vicii-lightpen.h"
#include "vicii-resources.h"
#include "viciitypes.h"

/* the chip, and which one it is: vicii.c and vicii-resources.c */
vicii_t vicii;
vicii_resources_t vicii_resources;

/* the CPU: it takes no interrupt, and its program counter is read only for a colour nibble */
CLOCK maincpu_clk;
interrupt_cpu_status_t *maincpu_int_status = NULL;
unsigned int reg_pc = 0;

/* memory: zeros, and no cartridge */
uint8_t mem_ram[0x10000];
static uint8_t rom[0x1000], colours[0x400];
uint8_t *mem_chargen_rom_ptr = rom;
uint8_t *mem_color_ram_vicii = colours;
export_t export;

int ultimax_romh_phi1_read(uint16_t addr, uint8_t *value)
{
    return 0;
}

int ultimax_romh_phi2_read(uint16_t addr, uint8_t *value)
{
    return 0;
}

/* the picture: no pixel, so no collision */
void vicii_draw_cycle(void)
{
}

void vicii_raster_draw_handler(void)
{
}

void vicii_monitor_colreg_store(int reg, int value)
{
}

int vicii_color_update_palette(struct video_canvas_s *canvas)
{
    return 0;
}

/* the light pen is never triggered */
void vicii_trigger_light_pen_internal(int retrigger)
{
}

/* the interrupt's way to the CPU */
unsigned int interrupt_cpu_status_int_new(interrupt_cpu_status_t *cs, const char *name)
{
    return 0;
}

void interrupt_fixup_int_clk(interrupt_cpu_status_t *cs, CLOCK cpu_clk, CLOCK *int_clk)
{
}

void interrupt_log_wrong_nirq(void)
{
}

/* the log is dropped, and no number is random */
int log_message(log_t log, const char *format, ...)
{
    return 0;
}

int log_error(log_t log, const char *format, ...)
{
    return 0;
}

int log_verbose(const char *format, ...)
{
    return 0;
}

unsigned int lib_unsigned_rand(unsigned int min, unsigned int max)
{
    return min;
}
