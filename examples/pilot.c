/*
 * A pilot from C: set up, start, a delivery that comes late, a refusal, the duty report. 1 kHz at 16 MHz, 30 % duty, on pin 0.
 *
 *     cc -std=c11 -Iinclude examples/pilot.c target/staticlib/libboard.a target/staticlib/libshift.a -o pilot && ./pilot
 */
#include <inttypes.h>
#include <stdio.h>
#include <stdlib.h>
#include <string.h>

#include "pilot_timer.h"

enum { PLACES = 16, TIM2 = 0 }; /* TIM2 is the board's first timer: its index is 0 */

static uint64_t words[PILOT_BOARD_WORDS];
static double reals[PILOT_BOARD_REALS];
static uint8_t pins[PLACES], levels[PLACES], sources[PLACES];
static uint64_t cycles[PLACES];
static uint64_t kept[PILOT_SHIFT_KEPT], figures[PILOT_FIGURES];

/* The book's four slices, as every call that can change a pin is lent them. */
#define BOOK pins, PLACES, levels, PLACES, cycles, PLACES, sources, PLACES

/* What must be served, or is a mistake of this program. Its entries go into the report. */
static pilot_answer served(pilot_answer a)
{
    if (a.number != PILOT_SERVED && a.number != PILOT_BACKLOG) {
        printf("refused with %" PRIu32 "\n", a.number);
        exit(1);
    }
    shift_feed(kept, pins, a.count, levels, a.count, cycles, a.count);
    return a;
}

static void write_register(enum pilot_register offset, uint32_t value, uint64_t cycle)
{
    served(board_write(words, reals, TIM2, offset, 4, value, cycle, BOOK));
}

/* Everything that is due at a cycle, however much it is: a book of 16 places is handed over again and again. */
static uint64_t deliver(uint64_t cycle)
{
    uint64_t events = 0;
    pilot_answer a;
    do {
        a = served(board_deliver(words, reals, TIM2, cycle, BOOK));
        events += a.value;
    } while (a.number == PILOT_BACKLOG);
    return events;
}

static double real(uint64_t bits)
{
    double x;
    memcpy(&x, &bits, sizeof x);
    return x;
}

int main(void)
{
    /* TIM2, 32 bits, 1 channel, bus 1, behind bit 0 of enable word 3, interrupt 28. Pin 0's function 1 is its CH1. */
    static const uint32_t timers[] = {2, 32, 1, 1, 3, 0, 28};
    static const uint32_t table[16] = {[1] = PILOT_SIGNAL(2, 0)};
    static const uint32_t low[4] = {0}; /* every pin is low after a set-up */
    const uint64_t from = 16000, to = 16000 + 60 * 16000;

    if (board_words() != PILOT_BOARD_WORDS || board_reals() != PILOT_BOARD_REALS) {
        puts("this header is not the library's");
        return 1;
    }
    shift_begin(kept, low, from, to);

    board_blank(words, reals);
    served(board_set_up(words, reals, 16e6, 3.3, 1, 64, timers, 7, table, 16));
    served(board_enable(words, reals, 3, 1));
    served(board_set_pin(words, reals, 0, 2, 0, 0, 0, 0, 1, 0, BOOK)); /* alternate function 1 */
    printf("set up: board of %zu words, timer %d is TIM%" PRIu32 "\n", board_words(), TIM2, timers[0]);

    write_register(PILOT_PSC, 15, 0);     /* a step is 16 cycles */
    write_register(PILOT_ARR, 999, 0);    /* a period is 1000 steps */
    write_register(PILOT_CCMR1, 0x68, 0); /* PWM mode 1, the compare preloaded */
    write_register(PILOT_CCR1, 300, 0);   /* high for 300 of them */
    write_register(PILOT_EGR, 1, 0);      /* prescaler and compare act from here on */
    write_register(PILOT_CCER, 1, 0);     /* the channel drives its pin */
    write_register(PILOT_CR1, 1, 0);      /* and the counter runs */
    /* The level, and above it who holds it: PILOT_CHIP. */
    const uint64_t level = board_level(words, reals, 0).value;
    printf("started: pin 0 is %" PRIu64 ", source %" PRIu64 ", %.1f V; next event at cycle %" PRIu64 "\n", level % 2, level / 2,
           real(board_volts(words, reals, 0).value), board_booked(words, reals, TIM2).value);

    /* A delivery that comes more than a period late: each edge has its own cycle. */
    pilot_answer a = served(board_deliver(words, reals, TIM2, 24000, BOOK));
    printf("delivered at 24000: %" PRIu64 " events", a.value);
    for (uint32_t i = 0; i < a.count; i++)
        printf(", pin %d %s at %" PRIu64, pins[i], levels[i] ? "high" : "low", cycles[i]);
    printf("\n");

    /* A cycle before the last call's: refused, and nothing has changed. */
    a = board_write(words, reals, TIM2, PILOT_CCR1, 4, 500, 23999, BOOK);
    printf("a write at 23999: refused with %" PRIu32 "%s; CCR1 is still %" PRIu64 "\n", a.number,
           a.number == PILOT_CLOCK_ASTRAY ? ", clock astray" : "", board_read(words, reals, TIM2, PILOT_CCR1, 4, 24000).value);

    /* Nothing for thirty periods, then a changed duty. What is due goes first, or the write would lose it. */
    printf("delivered at 496000: %" PRIu64 " events\n", deliver(496000));
    write_register(PILOT_CCR1, 500, 496000);
    printf("delivered at %" PRIu64 ": %" PRIu64 " events\n", to, deliver(to));

    /* 30 % for 31 periods, the one that began at 496000 included, then 50 % for 29. */
    pilot_summary s = shift_end(kept, figures);
    printf("the shift from %" PRIu64 " to %" PRIu64 ": number %" PRIu32 ", pin 0 high %" PRIu64 ", low %" PRIu64 ", %" PRIu64 " edges\n", from, to,
           s.number, figures[0], figures[1], figures[2]);
    printf("its end is %.3f s after the start\n", real(board_time(words, reals, to).value));

    /* A test desk's list: every pilot up to a size, by its place. */
    pilot_listed l = small_pilot(1, 47);
    printf("place 47 of the pilots up to 1: reload %" PRIu32 ", prescaler %" PRIu32 ", compare %" PRIu32 ", mode %" PRIu32 ", %s; up to 8: refused with %" PRIu32 "\n",
           l.reload, l.prescaler, l.compare, l.mode, l.down ? "down" : "up", small_pilot(8, 0).number);
    return 0;
}
