/*
 * A timer's settings from C, stored and read again: records one behind the other, as in a file. It needs no board.
 *
 *     cc -std=c11 -Iinclude examples/record.c target/staticlib/libsettings.a -o record && ./record
 */
#include <inttypes.h>
#include <stdio.h>

#include "pilot_timer.h"

int main(void)
{
    uint8_t file[64];
    size_t used = 0;

    /* TIM2 of 32 bits, 4 channels, bus 1, bit 0 of enable word 3, interrupt 28; then TIM3 in manual mode, and one that no record can hold. */
    pilot_stored first = record_write(file, sizeof file, 2, 32, 4, 1, 3, 0, 28, 0);
    used += first.count;
    pilot_stored second = record_write(file + used, sizeof file - used, 3, 16, 2, 2, 3, 1, UINT64_C(0xffffffff), 1);
    used += second.count;
    pilot_stored third = record_write(file + used, sizeof file - used, 4, 16, 4, 1, 3, 2, UINT64_C(0x100000000), 0);
    used += third.count;
    printf("numbers %" PRIu32 " %" PRIu32 " %" PRIu32 ", %zu bytes:", first.number, second.number, third.number, used);
    for (size_t i = 0; i < used; i++)
        printf(" %02x", file[i]);
    printf("\n");

    for (size_t at = 0; at < used;) {
        pilot_read r = record_read(file + at, used - at);
        if (r.number != PILOT_SERVED)
            return 1;
        const pilot_settings *t = &r.timer;
        printf("TIM%" PRIu32 ": %" PRIu32 " bits, %" PRIu32 " channels, bus %" PRIu32 ", word %" PRIu32 " bit %" PRIu32 ", interrupt %" PRIu32 "%s\n",
               t->number, t->width, t->channels, t->bus, t->word, t->bit, t->irq, t->manual ? ", manual" : "");
        at += r.count;
    }

    /* The reader of before manual mode, and a record that is cut. */
    pilot_read old = record_read_kind_1(file + first.count, second.count);
    pilot_read cut = record_read(file, first.count - 1);
    printf("kind 2 to the reader of kind 1: %" PRIu32 "; a byte short: %" PRIu32 "\n", old.number, cut.number);
    return 0;
}
