/*
 * The proved pilot timer from C: a board of timers and pins and a test desk's list of pilots (libboard.a), the duty report of a shift
 * (libshift.a), and timers' settings as records (libsettings.a).
 *
 *     .ci/libraries
 *     cc -std=c11 -Iinclude program.c target/staticlib/libboard.a target/staticlib/libshift.a target/staticlib/libsettings.a
 *
 * The archives are for x86-64 Linux and need memcpy and memset of the C library alone. examples/pilot.c is a whole program, examples/record.c another of records.
 *
 * Memory. All of it is the caller's: the library has none of its own, allocates nothing and keeps no pointer. So boards have nothing to do with
 * each other and may be used on different threads; calls on one board are made one at a time.
 *
 *   - A board is two arrays, PILOT_BOARD_WORDS of uint64_t and PILOT_BOARD_REALS of double, some 44 KB. To the library every content is a board;
 *     to start, give it memory that has been written (static, calloc) and call board_blank. Copying both arrays copies a board. Their layout is
 *     the library's.
 *   - A slice is a pointer and its length in elements. Of length 0 its pointer is not looked through, but is not NULL.
 *   - Pointers are aligned as their types are in C: 8 bytes for uint64_t and double, 4 for uint32_t.
 *   - What one call is given does not overlap, but for parts that are both const.
 *
 * Answers. No function asks anything else of its arguments: each call has an answer for every value. number is 0 where the call was served,
 * 8 where a delivery stopped early, else a refusal: then value and count are 0, and nothing has changed.
 *
 * The book. A call that can change a pin is lent one: four slices for pin, level, cycle and source of each change, filled from place 0; count says
 * how many places. The book is as long as the shortest of the four; places behind count are not touched.
 *
 * Deliver what is due before you write a register. A write that finds events due and not delivered moves the counter past them, as the published
 * Rust does, and they are lost: no flag, no reload, no edge.
 *
 * rust/tests/header.rs holds this file to the library.
 */
#ifndef PILOT_TIMER_H
#define PILOT_TIMER_H

#include <stddef.h>
#include <stdint.h>

#if !defined(__x86_64__)
#error "the pilot timer's libraries are for x86-64"
#endif

#ifdef __cplusplus
extern "C" {
#endif

/* ---- sizes and limits */

#define PILOT_BOARD_WORDS 5276 /* uint64_t of a board */
#define PILOT_BOARD_REALS 264  /* double of a board */
#define PILOT_SHIFT_KEPT 515   /* uint64_t of a shift between its pieces */
#define PILOT_FIGURES 384      /* uint64_t of a report: three for each of 128 pins */

#define PILOT_LAST_CYCLE (UINT64_C(1) << 62) /* the last cycle that a call may have */
#define PILOT_NONE UINT64_MAX                /* no cycle is booked */

/* The signal of TIMn's channel c for the table of a set-up: n 2 to 5, c 0 to 3 for CH1 to CH4. */
#define PILOT_SIGNAL(n, c) (16u * ((n) + 10u) + (c) + 2u)

/* ---- answers */

/* The numbers of documents 01 and 02, by the depot's words. */
enum pilot_number {
    PILOT_SERVED = 0,
    PILOT_WRONG_BOARD = 1,       /* a set-up outside the sizes or limits */
    PILOT_NO_SUCH_POST = 2,      /* no timer, pin or enable word of that index */
    PILOT_ODD_PLUG = 3,          /* a read or write size other than 1, 2, 4 */
    PILOT_BAD_CLOCK = 4,         /* a divider outside 1 to 8,192, or a frequency not finite and above 0 */
    PILOT_CLOCK_ASTRAY = 5,      /* the cycle is above 2^62, or below that of the last changing call */
    PILOT_BOOK_FULL = 6,         /* under 4 places; a pin reset: fewer places than pins */
    PILOT_COUNTER_ASTRAY = 7,    /* a write of CR1, CNT or ARR that would leave the timer running upward above its active reload + 1 */
    PILOT_BACKLOG = 8,           /* a delivery stopped with an event still due: no refusal, what it did stands. Deliver again. Of board_why: deliver first */
    PILOT_SHIFT_REVERSED = 9,    /* a shift whose end is below its beginning */
    PILOT_BOOK_OUT_OF_ORDER = 10, /* an entry before its pin's last one, or of a pin above 127 or a level above 1 */
    PILOT_SOCKET_TAKEN = 11,      /* a pin set to a signal that another pin routes; asked after 5 and before 6 */
    PILOT_TOO_WIDE = 12,          /* small pilots up to a size above 7; no call of a board gives it, as none gives 9 or 10 */
    PILOT_CUT_SHORT = 13,         /* a record, or the places for one, is cut short; 13 to 15 are of records alone */
    PILOT_STRANGE_KIND = 14,      /* a record of a kind that the reader does not know */
    PILOT_WRONG_LENGTH = 15       /* a record whose length is not its kind's */
};

/* Who holds a pin's level. The book never has PILOT_HELD. */
enum pilot_source {
    PILOT_CHIP = 1,    /* the chip drives it, also where the outside agrees */
    PILOT_OUTSIDE = 2, /* the outside does */
    PILOT_PULL = 3,    /* a pull-up or a pull-down does */
    PILOT_HELD = 4     /* nothing does: nothing is connected, or analogue volts settle neither level */
};

/* What every call of a board answers; 16 bytes, in two registers. */
typedef struct pilot_answer {
    uint64_t value;  /* the register, the events handled, what a query asks, else 0 */
    uint32_t number; /* an enum pilot_number */
    uint32_t count;  /* entries made in the book */
} pilot_answer;

/* What the end of a shift answers; 8 bytes. */
typedef struct pilot_summary {
    uint32_t number; /* 0, 9 or 10 */
    uint32_t high;   /* pins that are high at the end of the shift */
} pilot_summary;

/* A pilot's setting at a place of the list; 24 bytes, in memory that the caller of the function gives (C does this by itself). */
typedef struct pilot_listed {
    uint32_t number; /* 0 or 12 */
    uint32_t reload;
    uint32_t prescaler;
    uint32_t compare;
    uint32_t mode; /* 6 or 7; 0 past the end */
    uint32_t down; /* 0 up, 1 down */
} pilot_listed;

/* A timer's settings as a record has them and set-up takes them: the bus counts from 1. */
typedef struct pilot_settings {
    uint32_t number; /* the n of TIMn */
    uint32_t width;
    uint32_t channels;
    uint32_t bus;
    uint32_t word; /* the enable word, and its bit */
    uint32_t bit;
    uint32_t irq;
    uint32_t manual; /* 1 in manual mode, else 0 */
} pilot_settings;

/* What the writer of a record answers; 8 bytes. */
typedef struct pilot_stored {
    uint32_t number; /* 0, 13 or 1 */
    uint32_t count;  /* bytes written */
} pilot_stored;

/* What a reader of records answers; 40 bytes, in memory that the caller of the function gives (C does this by itself). */
typedef struct pilot_read {
    uint32_t number; /* 0, 13, 14, 15 or 1; the rest is 0 where it is not 0 */
    uint32_t count;  /* bytes that the record took */
    pilot_settings timer;
} pilot_read;

/* What board_why gives. */
enum pilot_reason {
    PILOT_WHY_HIGH = 0,       /* it is high */
    PILOT_WHY_INPUT = 1,      /* the pin is an input or analogue */
    PILOT_WHY_OUTPUT = 2,     /* a plain output with bit 0 */
    PILOT_WHY_NO_SIGNAL = 3,  /* in alternate mode, but signal 0 is selected */
    PILOT_WHY_RELEASED = 4,   /* an open-drain 1 has released it */
    PILOT_WHY_NO_CHANNEL = 5, /* the signal belongs to no channel of a driving timer (2, 3 or 4) on this board */
    PILOT_WHY_UNROUTED = 6,   /* this pin does not route it: never of a board that calls lead to */
    PILOT_WHY_OFF = 7,        /* the channel is off (CCxE) or no output (CCxS) */
    PILOT_WHY_HELD = 8,       /* a forced or latched level, modes 0 to 5 */
    PILOT_WHY_COUNT = 9,      /* the counter's side of the compare in mode 6 or 7 */
    PILOT_WHY_OTHER = 10 /* none of these */
};

/* Offsets of a timer's registers. */
enum pilot_register {
    PILOT_CR1 = 0x00,
    PILOT_CR2 = 0x04,
    PILOT_SMCR = 0x08,
    PILOT_DIER = 0x0c,
    PILOT_SR = 0x10,
    PILOT_EGR = 0x14,
    PILOT_CCMR1 = 0x18,
    PILOT_CCMR2 = 0x1c,
    PILOT_CCER = 0x20,
    PILOT_CNT = 0x24,
    PILOT_PSC = 0x28,
    PILOT_ARR = 0x2c,
    PILOT_CCR1 = 0x34,
    PILOT_CCR2 = 0x38,
    PILOT_CCR3 = 0x3c,
    PILOT_CCR4 = 0x40
};

/* ---- a board: in what follows timer is its place in the set-up, from 0, and not the n of TIMn */

/* How many words and reals the library's board has: PILOT_BOARD_WORDS and PILOT_BOARD_REALS, if this file belongs to it. */
size_t board_words(void);
size_t board_reals(void);

/* The first board: no timers, pins or lines, 1 Hz, 1 volt. */
void board_blank(uint64_t words[PILOT_BOARD_WORDS], double reals[PILOT_BOARD_REALS]);

/*
 * Replaces the board by a new one; refused (1, 4), it leaves the old. hz is the clock, vcc the supply in volts; 1 to 128 pins, 0 to 256 interrupt
 * lines.
 * timers: seven numbers for each of 1 to 8 timers:
 *   the n of TIMn, 1 to 24, all different (2, 3 and 4 drive their channels); width, 16 or 32; channels, 0 to 4; bus (divider: 1 tim1, 2 tim2,
 *   3 ppre3, any other ppre4); enable word, 0 to 8; enable bit, 0 to 31; interrupt, ignored at or above lines.
 * table: the signals of the pins' alternate functions below 256, 0 for none, pin p's function f at 16 p + f; exactly 16 a pin.
 * No timer is in manual mode.
 */
pilot_answer board_set_up(uint64_t words[PILOT_BOARD_WORDS], double reals[PILOT_BOARD_REALS], double hz, double vcc, uint32_t pins, uint32_t lines,
                          const uint32_t *timers, size_t timers_len, const uint32_t *table, size_t table_len);

/*
 * The same with timers in manual mode: timer i where bit i of manual is 1; a bit of no timer says nothing. In manual mode the update that ends a
 * one-pulse (CR1's OPM) clears CEN too, so that a write of CEN fires the next pulse, from the counter that the update left. Otherwise CEN stays set,
 * as in the published Rust, and has to be written 0 before it starts the timer again. In manual mode an active reload of 0 holds the counter: it
 * keeps its number and no event comes; otherwise it is a period of one step. In manual mode UDIS goes before one-pulse: no update event, so no stop.
 * Nothing else differs.
 */
pilot_answer board_set_up_manual(uint64_t words[PILOT_BOARD_WORDS], double reals[PILOT_BOARD_REALS], double hz, double vcc, uint32_t pins,
                                 uint32_t lines, uint32_t manual, const uint32_t *timers, size_t timers_len, const uint32_t *table,
                                 size_t table_len);

/* Changes the clock tree: frequencies in hertz, dividers 1 to 8,192. Refused with 4 or 5. */
pilot_answer board_set_clock_tree(uint64_t words[PILOT_BOARD_WORDS], double reals[PILOT_BOARD_REALS], double sysclk_hz, double hclk_hz, uint32_t ppre1,
                                  uint32_t ppre2, uint32_t ppre3, uint32_t ppre4, uint32_t tim1, uint32_t tim2, uint64_t cycle);

/* Writes an enable word, 0 to 8. With its bit clear a timer reads 0 and ignores writes. Refused with 2. */
pilot_answer board_enable(uint64_t words[PILOT_BOARD_WORDS], const double reals[PILOT_BOARD_REALS], uint32_t word, uint32_t value);

/*
 * Sets a pin. mode: 0 input, 1 output, 2 alternate function, 3 analogue, above 3 as 0. open_drain, out (the output bit), pullup and pulldown are
 * yes or no, function counts mod 16. Refused with 2, 5, 6.
 */
pilot_answer board_set_pin(uint64_t words[PILOT_BOARD_WORDS], double reals[PILOT_BOARD_REALS], uint32_t pin, uint32_t mode, uint32_t open_drain,
                           uint32_t out, uint32_t pullup, uint32_t pulldown, uint32_t function, uint64_t cycle, uint8_t *pins, size_t pins_len,
                           uint8_t *levels, size_t levels_len, uint64_t *cycles, size_t cycles_len, uint8_t *sources, size_t sources_len);

/* Drives a pin from outside. kind: 1 low, 2 high, 3 analogue with its volts, any other nothing. Refused with 2, 5, 6. */
pilot_answer board_drive_pin(uint64_t words[PILOT_BOARD_WORDS], double reals[PILOT_BOARD_REALS], uint32_t pin, uint32_t kind, double volts,
                             uint64_t cycle, uint8_t *pins, size_t pins_len, uint8_t *levels, size_t levels_len, uint64_t *cycles, size_t cycles_len,
                             uint8_t *sources, size_t sources_len);

/* Pin reset: settings, routing and signals as after a set-up; what drives from outside stays. Refused with 5, 6. */
pilot_answer board_reset_pins(uint64_t words[PILOT_BOARD_WORDS], double reals[PILOT_BOARD_REALS], uint64_t cycle, uint8_t *pins, size_t pins_len,
                              uint8_t *levels, size_t levels_len, uint64_t *cycles, size_t cycles_len, uint8_t *sources, size_t sources_len);

/* Reads size bytes (1, 2 or 4) at an offset of a timer's registers; 0 with the timer's enable bit clear. Refused with 2, 3, 5. */
pilot_answer board_read(const uint64_t words[PILOT_BOARD_WORDS], const double reals[PILOT_BOARD_REALS], uint32_t timer, uint32_t offset, uint32_t size,
                        uint64_t cycle);

/* Writes size bytes; nothing with the enable bit clear, and served all the same. Deliver first. Refused with 2, 3, 5, 6, 7. */
pilot_answer board_write(uint64_t words[PILOT_BOARD_WORDS], double reals[PILOT_BOARD_REALS], uint32_t timer, uint32_t offset, uint32_t size,
                         uint32_t value, uint64_t cycle, uint8_t *pins, size_t pins_len, uint8_t *levels, size_t levels_len, uint64_t *cycles,
                         size_t cycles_len, uint8_t *sources, size_t sources_len);

/* The register that an offset is in, whatever the enable bit. Refused with 2, 5. */
pilot_answer board_peek(const uint64_t words[PILOT_BOARD_WORDS], const double reals[PILOT_BOARD_REALS], uint32_t timer, uint32_t offset,
                        uint64_t cycle);

/* Timer reset. Refused with 2, 5, 6. */
pilot_answer board_reset(uint64_t words[PILOT_BOARD_WORDS], double reals[PILOT_BOARD_REALS], uint32_t timer, uint64_t cycle, uint8_t *pins,
                         size_t pins_len, uint8_t *levels, size_t levels_len, uint64_t *cycles, size_t cycles_len,
                         uint8_t *sources, size_t sources_len);

/*
 * Handles the timer's events that are due at cycle, each at its own cycle; value says how many. 8 where one is still due: the book had under 4
 * places left, or 100,001 events were handled. Refused with 2, 5, 6.
 */
pilot_answer board_deliver(uint64_t words[PILOT_BOARD_WORDS], double reals[PILOT_BOARD_REALS], uint32_t timer, uint64_t cycle, uint8_t *pins,
                           size_t pins_len, uint8_t *levels, size_t levels_len, uint64_t *cycles, size_t cycles_len,
                           uint8_t *sources, size_t sources_len);

/* The cycle of a timer's next event, or PILOT_NONE. Refused with 2. */
pilot_answer board_booked(const uint64_t words[PILOT_BOARD_WORDS], const double reals[PILOT_BOARD_REALS], uint32_t timer);

/* The least booked cycle of all timers, or PILOT_NONE. */
pilot_answer board_next(const uint64_t words[PILOT_BOARD_WORDS], const double reals[PILOT_BOARD_REALS]);

/* A pin's level, 0 or 1, plus twice an enum pilot_source. Refused with 2. */
pilot_answer board_level(const uint64_t words[PILOT_BOARD_WORDS], const double reals[PILOT_BOARD_REALS], uint32_t pin);

/* A pin's volts; value has the bits of a double: memcpy them into one. Refused with 2. */
pilot_answer board_volts(const uint64_t words[PILOT_BOARD_WORDS], const double reals[PILOT_BOARD_REALS], uint32_t pin);

/* An interrupt line: 1 if it is high plus 2 if its interrupt is pending; 0 for one that the board does not have. */
pilot_answer board_line(const uint64_t words[PILOT_BOARD_WORDS], const double reals[PILOT_BOARD_REALS], uint32_t irq);

/* The time of a cycle in seconds, as the bits of a double. Refused with 5. */
pilot_answer board_time(const uint64_t words[PILOT_BOARD_WORDS], const double reals[PILOT_BOARD_REALS], uint64_t cycle);

/*
 * Why a pin is low at cycle: the first true reason, an enum pilot_reason. 8 with value 0 where an event of the timer that drives the pin is due at or
 * before cycle: deliver it first. Changes nothing. Refused with 2, 5.
 */
pilot_answer board_why(const uint64_t words[PILOT_BOARD_WORDS], const double reals[PILOT_BOARD_REALS], uint32_t pin, uint64_t cycle);

/* Clears a pending interrupt. */
pilot_answer board_clear_pending(uint64_t words[PILOT_BOARD_WORDS], const double reals[PILOT_BOARD_REALS], uint32_t irq);

/* ---- every small pilot (document 02, F-9) */

/*
 * The setting at place k, from 0, of the pilots up to n: reload and prescaler 0 to n, compare 0 to n + 1, mode 6 or 7, up or down, ordered by reload, then
 * prescaler, compare, mode, then up before down. There are 4 (n + 1) (n + 1) (n + 2); past the end all fields are 0, the mode too, and number
 * is 0 as well. 12 for n above 7, whatever k is. It asks no board. Demand 3's bound speaks of those in mode 6 that count upward, every fourth; of
 * mode 7 and of downward it says nothing.
 */
pilot_listed small_pilot(uint32_t n, uint32_t k);

/* ---- the duty report of a shift */

/*
 * A shift begins, from the cycle from to the cycle to, to excluded. words: every pin's level before the first entry, pin i at bit i mod 32 of
 * word i div 32. kept is what lies between the pieces; its layout is the library's.
 */
void shift_begin(uint64_t kept[PILOT_SHIFT_KEPT], const uint32_t words[4], uint64_t from, uint64_t to);

/* The entries of a book more, in the order in which they were made: as many as its shortest slice has. Of a call's book that is count places; its
 * sources are none of the report's. */
void shift_feed(uint64_t kept[PILOT_SHIFT_KEPT], const uint8_t *pins, size_t pins_len, const uint8_t *levels, size_t levels_len, const uint64_t *cycles,
                size_t cycles_len);

/*
 * The report: high cycles, low cycles and edges of pin i at 3 i, 3 i + 1 and 3 i + 2 of figures. With 9 or 10 no figure is written. More can be
 * fed afterwards, and the shift ended again.
 */
pilot_summary shift_end(const uint64_t kept[PILOT_SHIFT_KEPT], uint64_t figures[PILOT_FIGURES]);

/* Begin, one feed and end. */
pilot_summary shift_report(uint64_t figures[PILOT_FIGURES], const uint32_t words[4], uint64_t from, uint64_t to, const uint8_t *pins, size_t pins_len,
                           const uint8_t *levels, size_t levels_len, const uint64_t *cycles, size_t cycles_len);

/* ---- a timer's settings as a record, to be kept (document 02, F-10); docs/RECORDS.md has the format */

/*
 * Writes a timer's record to the front of out: 14 bytes, or 15 for a manual mode other than 0. The places behind it stay as they were. Refused with 13 for
 * too few places, then 1 for a setting outside its limits, a bus outside 1 to 4, or an interrupt above 2^32 - 1; nothing is written then.
 */
pilot_stored record_write(uint8_t *out, size_t out_len, uint64_t number, uint64_t width, uint64_t channels, uint64_t bus, uint64_t word, uint64_t bit,
                          uint64_t irq, uint64_t manual);

/* Reads the record at the front of bytes; what stands behind it is passed over. Refused with 13, 14, 15 or 1, in that order. */
pilot_read record_read(const uint8_t *bytes, size_t bytes_len);

/* The same of kind 1 alone: 14 for kind 2. */
pilot_read record_read_kind_1(const uint8_t *bytes, size_t bytes_len);

#ifdef __cplusplus
}
#endif

#endif
