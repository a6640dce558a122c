/*
 * A panel for keyboards of set 2, in little: one types and is unplugged between a mark and its code, the next types and is switched to set 1.
 *
 *   make
 *   gcc -std=c99 -Wall -Wextra -Werror -pedantic -Iinclude examples/set_2.c target/staticlib/libxiquepazo.a -o set_2
 *   ./set_2 | cmp - examples/set_2.expected
 */
#include <stdio.h>
#include <string.h>

#include "xiquepazo.h"

/* The lock bits of a service on which Num Lock alone is on. */
#define NUM_LOCK 2

/* Of `codes` 0 is set 1, 1 is set 2, and 2 is set 2 with the next code marked. */
static void print_shown(const char *what, struct xiquepazo_shown shown, const struct xiquepazo_service *service)
{
    printf("%s: ans %02X, word %04X, byte 17 is %02X, ", what, shown.ans, shown.word, shown.byte17);
    printf("prefix %d, codes %d\n", XIQUEPAZO_PREFIX(service->input), XIQUEPAZO_CODES(service->input));
}

/* Feeds bytes as they come from the keyboard, and returns the last word that was put. */
static uint16_t feed(struct xiquepazo_service *service, const uint8_t *bytes, size_t count)
{
    uint16_t word = 0;
    size_t i;
    for (i = 0; i < count; i++) {
        struct xiquepazo_shown shown = xiquepazo_key(service, bytes[i]);
        char what[3];
        sprintf(what, "%02X", bytes[i]);
        print_shown(what, shown, service);
        if (shown.ans == XIQUEPAZO_PUT)
            word = shown.word;
    }
    return word;
}

/* What xiquepazo_resynchronise does at once on set 2, event by event: the all-up run of that set, E and R. */
static struct xiquepazo_shown all_up(struct xiquepazo_service *service)
{
    static const uint8_t run[] = {0xF0, 0x29, 0xF0, 0x12, 0xF0, 0x59, 0xF0, 0x14, 0xE0, 0xF0, 0x14, 0xF0, 0x11, 0xE0, 0xF0,
                                  0x11, 0xF0, 0x58, 0xF0, 0x77, 0xF0, 0x7E, 0xF0, 0x70, 0xF0, 0x84, 0x29, 0xF0, 0x29};
    size_t i;
    for (i = 0; i < sizeof run; i++)
        xiquepazo_key(service, run[i]);
    xiquepazo_empty(service);
    return xiquepazo_restart(service);
}

/* Another keyboard is plugged in. The last one is forgotten by the one call, and on a copy by all the events that it stands for. */
static void plug_in(struct xiquepazo_service *service)
{
    struct xiquepazo_service copy = *service;
    print_shown("at once", xiquepazo_resynchronise(service), service);
    print_shown("by events", all_up(&copy), &copy);
    printf("both leave the same bytes: %s\n", memcmp(service, &copy, sizeof copy) == 0 ? "yes" : "no");
}

int main(void)
{
    /* Left Shift down, A down and up, Shift up; F0 marks the code behind it as a break. */
    static const uint8_t shifted_a[] = {0x12, 0x1C, 0xF0, 0x1C, 0xF0, 0x12};
    /* Grey Up down and up, on either set. */
    static const uint8_t grey_up[] = {0xE0, 0x75, 0xE0, 0xF0, 0x75};
    static const uint8_t grey_up_on_set_1[] = {0xE0, 0x48, 0xE0, 0xC8};
    /* Left Shift down; of the break only the mark arrives. */
    static const uint8_t cut_break[] = {0x12, 0xF0};
    static const uint8_t a[] = {0x1C, 0xF0, 0x1C};
    struct xiquepazo_service service;
    uint16_t word;

    if (xiquepazo_make_set_2(&service, NUM_LOCK) != 0)
        return 1;
    feed(&service, shifted_a, sizeof shifted_a);
    word = feed(&service, grey_up, sizeof grey_up);

    feed(&service, cut_break, sizeof cut_break);
    plug_in(&service);
    feed(&service, a, sizeof a);

    /* The board has sent the command for set 1, and the keyboard has acknowledged it. */
    print_shown("to set 1", xiquepazo_to_set_1(&service), &service);
    printf("the same word on either set: %s\n", feed(&service, grey_up_on_set_1, sizeof grey_up_on_set_1) == word ? "yes" : "no");
    return 0;
}
