/* VICE's VIC-II beside ours, on one run file.
 *
 *   beside KIND RUN CHART DUMP BUS   compares VICE's cycles of the run file RUN with our chart, dump and reads of it
 *   beside --chart KIND < RUN        writes VICE's cycles as a chart (docs/FORMATS.md, "Chart")
 *
 * KIND is 6569 or 6567R8. One call of VICE's vicii_cycle() is one tick, and a step after a tick is a store after that cycle.
 *
 * Where our chart, dump or reads have another value than VICE, a rule below must say so: it names a departure of docs/DIFFERENCES.md,
 * and it says which value ours must have instead. So every signal of every tick has exactly one value that is taken.
 *
 * Writes, for tests/vice/run: `ticks N`, `differs NUMBER SIGNAL CYCLES` and `met NUMBER TIMES` for each departure that was met,
 * and `different ..` where something else differs, which ends the comparison. Exits with 0, or 1 where something else differs,
 * or 2 where it could not be run. */

#include "vice.h"

#include <stdarg.h>
#include <stdio.h>
#include <stdlib.h>
#include <string.h>

#include "maincpu.h"
#include "mem.h"
#include "vicii-chip-model.h"
#include "vicii-cycle.h"
#include "vicii-fetch.h"
#include "vicii-irq.h"
#include "vicii-resources.h"
#include "vicii.h"
#include "viciitypes.h"

extern void vicii_store(uint16_t addr, uint8_t value);

enum { CYCLE, RASTER, BA, AEC, DMA, RC, VC, FLAGS, IRQ, REFRESH, SIGNALS };
static const char *const names[SIGNALS] = {"cycle", "raster", "BA", "AEC", "DMA", "RC", "VC", "flags", "irq", "refresh"};

/* The departures of docs/DIFFERENCES.md that are seen beside VICE. */
enum {
    COMPARES_LATE = 9,     /* a write of $D012 compares nothing until a line begins */
    ONE_MATCH = 26,        /* a match that goes on into the next line raises once */
    COMPARES_AT_ONCE = 32, /* a write of $D011 compares with the line as it is */
    NO_TRANSITION = 33,    /* display begins with the graphics access of the same cycle */
    VC_STAYS = 34,         /* VC base alone is cleared when a frame begins */
    DEN_TOO_LATE = 35,     /* DEN set in the last cycle of line 0x30 does not count */
    LINE_0_UNMATCHED = 36, /* the interrupt of line 0 leaves no match */
    FLIPS_BY_BOTH = 37,    /* on a 6567R8 the flip-flop of Y-expand follows both comparisons */
    NUMBERS
};

static long differs[NUMBERS][SIGNALS], met[NUMBERS];

/* What a tick leaves. */
typedef struct {
    int at[SIGNALS];
    int idle, bad;
} tick_t;

/* ---- the run file */

static uint8_t *file;
static long length, place;
static int steps, last_cycle, last_line;

static void cannot(const char *format, ...)
{
    va_list more;
    va_start(more, format);
    fputs("beside: ", stderr);
    vfprintf(stderr, format, more);
    fputc('\n', stderr);
    va_end(more);
    exit(2);
}

static uint8_t *all_of(FILE *source, long *size)
{
    long room = 1 << 20, used = 0;
    uint8_t *bytes = malloc(room);
    size_t got;

    if (!source) {
        cannot("a file cannot be read");
    }
    while ((got = fread(bytes + used, 1, room - used - 1, source)) > 0) {
        used += got;
        if (used == room - 1) {
            bytes = realloc(bytes, room *= 2);
        }
    }
    fclose(source);
    bytes[used] = 0;
    *size = used;
    return bytes;
}

static int word(void)
{
    int value;

    if (place + 2 > length) {
        cannot("the run file ends early");
    }
    value = file[place] | file[place + 1] << 8;
    place += 2;
    return value;
}

/* The chip reads memory, and no signal that is compared depends on it: the changes are passed over. */
static void open_run(void)
{
    int section;

    place = 0;
    for (section = 0; section < 3; section++) {
        place += 3 * word();
    }
    steps = word();
    if (place + 5L * steps != length) {
        cannot("the run file has not the length that it says");
    }
}

/* ---- VICE */

static void power_up(int kind)
{
    int i;

    memset(&vicii, 0, sizeof vicii);
    vicii_resources.model = kind;
    vicii_chip_model_init();
    vicii_irq_init();
    last_cycle = vicii.cycles_per_line;
    last_line = (int)vicii.screen_height - 1;
    /* where we begin: before cycle 1 of the last line, idle, all flip-flops of the sprites set (docs/SCOPE.md, "Power-up") */
    vicii.raster_cycle = last_cycle - 1;
    vicii.raster_line = last_line;
    vicii.cycle_flags = vicii.cycle_table[last_cycle - 1];
    vicii.idle_state = 1;
    vicii.prefetch_cycles = 4;
    for (i = 0; i < VICII_NUM_SPRITES; i++) {
        vicii.sprite[i].exp_flop = 1;
    }
    vicii.vborder = vicii.set_vborder = vicii.main_border = 1;
    vicii.light_pen.trigger_cycle = CLOCK_MAX;
    vicii.vaddr_mask_phi1 = vicii.vaddr_mask_phi2 = 0xffff;
    vicii.vaddr_chargen_mask_phi1 = vicii.vaddr_chargen_mask_phi2 = 0x7000;
    vicii.vaddr_chargen_value_phi1 = vicii.vaddr_chargen_value_phi2 = 0x1000;
    vicii.ram_base_phi1 = vicii.ram_base_phi2 = mem_ram;
    vicii.last_bus_phi2 = 0xff;
    vicii.refresh_counter = 0xff;
    maincpu_clk = 0;
}

static tick_t cycle(void)
{
    int low;
    tick_t now;

    maincpu_clk++;
    low = vicii_cycle();
    now.at[CYCLE] = (int)vicii.raster_cycle + 1;
    now.at[RASTER] = (int)vicii.raster_line;
    now.at[BA] = !low;
    now.at[AEC] = !(low && vicii.prefetch_cycles == 0);
    now.at[DMA] = vicii.sprite_dma;
    now.at[RC] = vicii.rc;
    now.at[VC] = vicii.vc;
    now.at[FLAGS] = vicii.irq_status & 0x0f;
    now.at[IRQ] = !(vicii.irq_status & 0x80);
    /* the address of this cycle's refresh, after which the counter is one less; 0 where the cycle has none */
    now.at[REFRESH] = cycle_is_refresh(vicii.cycle_flags) ? 0x3f00 + (uint8_t)(vicii.refresh_counter + 1) : 0;
    now.idle = vicii.idle_state;
    now.bad = vicii.bad_line;
    return now;
}

/* Plays the run file from power-up and keeps every tick, and counts what it meets of two departures.
 *
 * Unbent it is VICE as it is. Bent, it has these two put in, so that all that follows from them is VICE's own again:
 * DEN_TOO_LATE: a store in the last cycle of line 0x30 that is the first of that line to set DEN has its DEN a cycle later.
 * FLIPS_BY_BOTH: on a 6567R8, a sprite that begins in cycle 57 with its Y-expand bit set has its flip-flop reset, and so has one
 * whose bit a store in cycle 56 sets. VICE inverts in cycle 56, and these two come after that. */
static void play(int kind, int bent, tick_t *ticks, int *count)
{
    int step, k, waiting = 0, dma, set;
    uint8_t value;
    long at;

    power_up(kind);
    *count = 0;
    met[DEN_TOO_LATE] = met[FLIPS_BY_BOTH] = 0;
    for (step = 0, at = place; step < steps; step++, at += 5) {
        const uint8_t *s = file + at;
        set = 0;
        switch (s[0]) {
            case 0:
                dma = vicii.sprite_dma;
                ticks[*count] = cycle();
                if (waiting) {
                    vicii_store(0x11, (uint8_t)(vicii.regs[0x11] | 0x10));
                    waiting = 0;
                }
                if (kind == VICII_MODEL_6567 && ticks[*count].at[CYCLE] == 57) {
                    set = vicii.sprite_dma & ~dma & vicii.regs[0x17];
                }
                ++*count;
                break;
            case 1:
            case 2:
                k = s[0] == 2 ? 0x17 : s[1] & 0x3f;
                value = s[0] == 2 ? s[1] : s[2];
                if (k == 0x17 && kind == VICII_MODEL_6567 && vicii.raster_cycle + 1 == 56) {
                    set = value & ~vicii.regs[0x17];
                }
                /* by kind 1, 0x11 and 0x16 are no writes */
                if (k != 0x11 && k != 0x16) {
                    vicii_store(s[0] == 2 ? 0x17 : s[1], value);
                }
                break;
            case 3:
            case 8:
                value = s[0] == 8 ? s[1] : (uint8_t)((s[1] & 0x7f) | (s[4] & 1) << 7);
                waiting = 0;
                if (vicii.raster_cycle + 1 == (unsigned int)last_cycle && vicii.raster_line == 0x30 && !vicii.allow_bad_lines && (value & 0x10)) {
                    met[DEN_TOO_LATE]++;
                    waiting = bent;
                }
                vicii_store(0x11, (uint8_t)(waiting ? value & ~0x10 : value));
                if (s[0] == 3) {
                    /* the control registers placed: as three stores */
                    vicii_store(0x16, s[2]);
                    vicii_store(0x12, s[3]);
                }
                break;
            case 9:
                vicii_store(0x16, s[1]);
                break;
            default:
                /* the late byte, the border compares and the bank move no signal that is compared */
                break;
        }
        for (k = 0; k < VICII_NUM_SPRITES; k++) {
            if (set >> k & 1) {
                met[FLIPS_BY_BOTH] += vicii.sprite_dma >> k & 1;
                if (bent) {
                    vicii.sprite[k].exp_flop = 0;
                }
            }
        }
    }
}

/* ---- our chart, dump and reads */

static const char *chart, *dump, *bus;
static int dumped[8], told;

static int number(const char **at, char end)
{
    const char *begin = *at;
    int value = 0;

    while (**at >= '0' && **at <= '9') {
        value = value * 10 + *(*at)++ - '0';
    }
    if (*at == begin || (*begin == '0' && *at - begin > 1) || *at - begin > 5 || **at != end) {
        return -1;
    }
    ++*at;
    return value;
}

/* The next tick of the dump: the values that changed, after its mark. */
static int next_dumped(void)
{
    char mark[16];
    int n = sprintf(mark, "#%d\n", told);

    if (strncmp(dump, mark, n)) {
        return 0;
    }
    for (dump += n; *dump && *dump != '#'; dump++) {
        int value = 0;
        if (*dump == '$') {
            while (*dump != '\n') {
                dump++;
            }
            continue;
        }
        if (*dump == 'b') {
            for (dump++; *dump == '0' || *dump == '1'; dump++) {
                value = value * 2 + *dump - '0';
            }
            if (*dump++ != ' ') {
                return 0;
            }
        } else {
            value = *dump++ - '0';
        }
        if (*dump < 'A' || *dump > 'H' || dump[1] != '\n') {
            return 0;
        }
        dumped[*dump++ - 'A'] = value;
    }
    told++;
    return 1;
}

/* The next line of the reads: the cycle, the line, the lost cycles, and each read as a word and an address. Whether it is this tick's;
 * then `refresh` is the address of a first read that is called so, or 0. */
static int next_read(int cycle_, int line, int *refresh)
{
    const char *end = strchr(bus, '\n'), *word_;
    int n;

    if (!end || number(&bus, ' ') != cycle_ || number(&bus, ' ') != line) {
        return 0;
    }
    word_ = strchr(bus, ' ');
    *refresh = 0;
    if (word_ && word_ < end && sscanf(word_, " refresh %4x%n", (unsigned *)refresh, &n) == 1 && word_ + n > end) {
        return 0;
    }
    bus = end + 1;
    return 1;
}

/* Our next tick: its line of the chart, the dump, which has the mask and the interrupt line, and its reads. */
static const char *ours_next(tick_t *ours)
{
    static const int order[8] = {CYCLE, RASTER, BA, AEC, DMA, RC, VC, FLAGS};
    int k, ones = 0;

    for (k = 0; k < 8; k++) {
        int value = number(&chart, k == 7 ? '\n' : ' ');
        if (value < 0) {
            return "the chart has no such line";
        }
        ours->at[order[k]] = value;
    }
    if (!next_dumped()) {
        return "the dump has no such tick";
    }
    for (k = 0; k < 8; k++) {
        ones += dumped[4] >> k & 1;
        if (k != 4 && k != 7 && dumped[k] != ours->at[order[k]]) {
            return "the dump has another value than the chart";
        }
    }
    if (ones != ours->at[DMA]) {
        return "the dump's mask has another number of sprites than the chart";
    }
    ours->at[DMA] = dumped[4];
    ours->at[IRQ] = dumped[7];
    if (!next_read(ours->at[CYCLE], ours->at[RASTER], &ours->at[REFRESH])) {
        return "the reads have no such line";
    }
    return NULL;
}

/* ---- what VICE did, so that it is seen whether there was something to compare */

static const char *const sights[] = {"BA_low", "AEC_low", "sprite_DMA", "a_bad_line", "display_state", "the_interrupt", "a_refresh"};
enum { SIGHTS = sizeof sights / sizeof *sights };
static long seen[SIGHTS];

static void look(const tick_t *now)
{
    seen[0] += !now->at[BA];
    seen[1] += !now->at[AEC];
    seen[2] += now->at[DMA] != 0;
    seen[3] += now->bad;
    seen[4] += !now->idle;
    seen[5] += !now->at[IRQ];
    seen[6] += now->at[REFRESH] != 0;
}

/* ---- the rules */

/* NO_TRANSITION. A bad line that puts the idle chip into display state in one of the cycles 16 to 55 lets our VC count in that same
 * cycle, and VICE's from the next one on. The row's end carries the difference into VC base, and a frame's begin ends it.
 * VC_STAYS. Cycle 2 of line 0 clears VICE's VC, and ours is as it was until the load of cycle 14. */
static int extra, extra_base, held, held_vc;

static int vc_expected(const tick_t *before, const tick_t *now, int *why)
{
    int c = now->at[CYCLE], wraps = before->at[RASTER] == last_line && now->at[RASTER] == 0, due;

    if (wraps) {
        held_vc = (before->at[VC] + extra) % 1024;
        held = 1;
        extra_base = 0;
        met[VC_STAYS] += held_vc != 0;
    }
    if (c == 14) {
        extra = extra_base;
        held = 0;
    }
    if (c >= 16 && c <= 55 && before->idle && !now->idle) {
        extra++;
        met[NO_TRANSITION]++;
    }
    if (c == 58 && before->at[RC] == 7) {
        extra_base = extra;
    }
    due = held ? held_vc : (now->at[VC] + extra) % 1024;
    *why = held ? VC_STAYS : NO_TRANSITION;
    return due;
}

/* The raster interrupt. VICE compares in every cycle, and raises where the line is equal and was not in the cycle before. We compare
 * when a line begins and when $D011 is written, and raise where the line is equal and nothing is matched.
 * `matched` and `flag` are what ours must be, `equal` is VICE's cycle before; `apart` is the departure that made the two differ, and
 * `open_by` the one by which the flags do. */
static int compare, matched, flag, equal, apart, open_by, enable, raised, moved;

/* The steps between two ticks; `line` is the raster line of the tick before. */
static void written(const uint8_t *s, int line)
{
    int value = s[2], now;

    switch (s[0]) {
        case 1:
            switch (s[1] & 0x3f) {
                case 0x12:
                    compare = (compare & 0x100) | value;
                    moved = COMPARES_LATE;
                    break;
                case 0x19:
                    flag &= ~value & 1;
                    break;
                case 0x1a:
                    enable = value & 15;
                    break;
                default:
                    break;
            }
            break;
        case 3:
            compare = s[3] | (s[4] & 1) << 8;
            moved = COMPARES_LATE;
            break;
        case 8:
            compare = (compare & 0xff) | (s[1] >> 7) << 8;
            now = compare == line;
            if (now && !matched) {
                raised = flag = 1;
            }
            if (moved != COMPARES_LATE) {
                moved = COMPARES_AT_ONCE;
            }
            matched = now;
            break;
        default:
            break;
    }
}

/* The raster flag that ours must have after this tick. */
static int flag_expected(const tick_t *before, const tick_t *now, int *why)
{
    int c = now->at[CYCLE], line = now->at[RASTER];
    int ends = c == 1 && before->at[RASTER] == last_line;
    int wraps = before->at[RASTER] == last_line && line == 0;
    int begins = c == 1 && !ends;
    int same = line == compare, theirs = same && !equal, by = 0, written_then = raised;

    if (begins) {
        raised |= same && !matched;
        by = theirs && matched && apart == COMPARES_LATE ? ONE_MATCH : apart;
        matched = same;
    } else if (wraps) {
        raised |= same;
    } else if (ends) {
        matched = 0;
    }
    flag |= raised;
    if (raised != theirs) {
        if (written_then && (begins || ends || wraps)) {
            /* written with the line before, which VICE no longer compares */
            by = COMPARES_AT_ONCE;
        } else if (!begins && apart == LINE_0_UNMATCHED && moved == COMPARES_AT_ONCE) {
            by = COMPARES_AT_ONCE;
        } else if (!begins && (apart == COMPARES_LATE || moved == COMPARES_LATE)) {
            by = COMPARES_LATE;
        }
        if (by) {
            met[by]++;
            open_by = by;
        }
    }
    /* what is left between the two matches, and by which departure */
    if (matched == same) {
        apart = 0;
    } else if (wraps || ends) {
        apart = LINE_0_UNMATCHED;
    } else if (!apart) {
        apart = moved;
    }
    equal = same;
    raised = moved = 0;
    if ((now->at[FLAGS] & 1) == flag) {
        open_by = 0;
    }
    *why = open_by;
    return flag;
}

static int fails(const tick_t *ours, const tick_t *vice, int k, int due)
{
    printf("different tick %d, line %d, cycle %d: %s is %d, VICE has %d", told - 1, vice->at[RASTER], vice->at[CYCLE], names[k], ours->at[k], vice->at[k]);
    if (due != vice->at[k]) {
        printf(", and by the departures it is to be %d", due);
    }
    putchar('\n');
    return 1;
}

/* What ours must be is VICE's value, or where a departure says so another. */
static int settle(const tick_t *ours, const tick_t *vice, int k, int due, int why)
{
    if (ours->at[k] != due || (due != vice->at[k] && !why)) {
        return fails(ours, vice, k, due);
    }
    if (due != vice->at[k]) {
        differs[why][k]++;
    }
    return 0;
}

/* Which of the two departures that `play` puts into VICE lets this signal differ from VICE as it is, 0 for none.
 * DEN_TOO_LATE takes the bad lines 0x31 to 0xF7 of its frame away, with their requests in cycles 12 to 54, and the counters of their
 * rows go other ways. FLIPS_BY_BOTH lets a sprite's DMA last longer, with its requests. AEC follows BA for four cycles. */
static int bus_by, bus_age;

static int put_in(const tick_t *raw, const tick_t *vice, int k)
{
    int c = vice->at[CYCLE], line = vice->at[RASTER];

    switch (k) {
        case BA:
            bus_age = 0;
            if (raw->at[DMA] != vice->at[DMA]) {
                return bus_by = FLIPS_BY_BOTH;
            }
            return bus_by = raw->bad != vice->bad && c >= 12 && c <= 54 && line > 0x30 && line <= 0xf7 ? DEN_TOO_LATE : 0;
        case AEC:
            return bus_age < 4 ? bus_by : 0;
        case DMA:
            return FLIPS_BY_BOTH;
        case RC:
        case VC:
            return DEN_TOO_LATE;
        default:
            return 0;
    }
}

static int compared(const tick_t *before, const tick_t *vice, const tick_t *raw, const tick_t *ours)
{
    int k, why, due;

    bus_age++;
    for (k = 0; k < SIGNALS; k++) {
        due = vice->at[k];
        why = 0;
        if (k == VC) {
            due = vc_expected(before, vice, &why);
        } else if (k == FLAGS) {
            due = (due & ~1) | flag_expected(before, vice, &why);
        } else if (k == IRQ && open_by) {
            due = !(((vice->at[FLAGS] & ~1) | flag) & enable);
            why = open_by;
        }
        if (settle(ours, vice, k, due, why)) {
            return 1;
        }
        if (raw->at[k] != vice->at[k]) {
            why = put_in(raw, vice, k);
            if (!met[why]) {
                return fails(ours, raw, k, due);
            }
            differs[why][k]++;
        }
    }
    return 0;
}

static int beside(int kind)
{
    tick_t *raw = malloc(sizeof *raw * (steps + 1)), *bent = raw, before, ours;
    int count, step, done = 0, bad = 0, n, k;
    const char *wrong = NULL;
    char head[24];
    long at;

    play(kind, 0, raw, &count);
    if (met[DEN_TOO_LATE] || met[FLIPS_BY_BOTH]) {
        bent = malloc(sizeof *bent * (steps + 1));
        play(kind, 1, bent, &count);
    }
    sprintf(head, "steps %d\n", steps);
    if (strncmp(chart, head, strlen(head))) {
        printf("different the chart does not begin with %s", head);
        return 1;
    }
    chart += strlen(head);
    if (strncmp(bus, head, strlen(head))) {
        printf("different the reads do not begin with %s", head);
        return 1;
    }
    bus += strlen(head);
    dump = strstr(dump, "$enddefinitions $end\n");
    if (!dump) {
        puts("different the dump has no declarations");
        return 1;
    }
    dump = strchr(dump, '\n') + 1;

    memset(&before, 0, sizeof before);
    before.at[CYCLE] = last_cycle;
    before.at[RASTER] = last_line;
    before.idle = 1;
    for (step = 0, at = place; step < steps && !bad; step++, at += 5) {
        if (file[at]) {
            written(file + at, before.at[RASTER]);
            continue;
        }
        wrong = ours_next(&ours);
        if (wrong) {
            printf("different tick %d: %s\n", done, wrong);
            return 1;
        }
        bad = compared(&before, &bent[done], &raw[done], &ours);
        look(&raw[done]);
        before = bent[done++];
    }
    if (!bad && (*chart || *dump || *bus)) {
        puts("different the chart, the dump or the reads have more than the run file's ticks");
        bad = 1;
    }
    printf("ticks %d\n", done);
    for (k = 0; k < SIGHTS; k++) {
        printf("seen %s %ld\n", sights[k], seen[k]);
    }
    for (n = 0; n < NUMBERS; n++) {
        if (met[n]) {
            printf("met %d %ld\n", n, met[n]);
        }
        for (k = 0; k < SIGNALS; k++) {
            if (differs[n][k]) {
                printf("differs %d %s %ld\n", n, names[k], differs[n][k]);
            }
        }
    }
    return bad;
}

static int charted(int kind)
{
    tick_t *ticks = malloc(sizeof *ticks * (steps + 1));
    int count, n;

    play(kind, 0, ticks, &count);
    printf("steps %d\n", steps);
    for (n = 0; n < count; n++) {
        const int *at = ticks[n].at;
        printf("%d %d %d %d %d %d %d %d\n", at[CYCLE], at[RASTER], at[BA], at[AEC], __builtin_popcount(at[DMA]), at[RC], at[VC], at[FLAGS]);
    }
    return 0;
}

static int kind_of(const char *word_)
{
    if (!strcmp(word_, "6569")) {
        return VICII_MODEL_6569;
    }
    if (!strcmp(word_, "6567R8")) {
        return VICII_MODEL_6567;
    }
    cannot("%s is no kind of chip: 6569 or 6567R8", word_);
    return 0;
}

int main(int argc, char **argv)
{
    long size;

    if (argc == 3 && !strcmp(argv[1], "--chart")) {
        file = all_of(stdin, &length);
        open_run();
        return charted(kind_of(argv[2]));
    }
    if (argc != 6) {
        cannot("KIND RUN CHART DUMP BUS, or --chart KIND");
    }
    file = all_of(fopen(argv[2], "rb"), &length);
    open_run();
    chart = (const char *)all_of(fopen(argv[3], "rb"), &size);
    dump = (const char *)all_of(fopen(argv[4], "rb"), &size);
    bus = (const char *)all_of(fopen(argv[5], "rb"), &size);
    return beside(kind_of(argv[1]));
}
