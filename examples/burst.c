/*
 * A burst: a scanner has read a bin number of twenty characters, and all its bytes wait when the panel comes to them.
 * The queue has room for fifteen words, so the panel fetches after each byte. Another, which fetches last, loses words.
 *
 *   make
 *   gcc -std=c99 -Wall -Wextra -Werror -pedantic -Iinclude examples/burst.c target/staticlib/libxiquepazo.a -o burst
 *   ./burst | cmp - examples/burst.expected
 */
#include <stdio.h>
#include <string.h>

#include "xiquepazo.h"

static const char number[] = "A07-SHELF_3:BIN#4711";

/* Its makes and breaks, of set 1. Left Shift is down for A, from S to the underscore, and from the colon to #. */
static const uint8_t burst[] = {0x2A, 0x1E, 0x9E, 0xAA, 0x0B, 0x8B, 0x08, 0x88, 0x0C, 0x8C, 0x2A, 0x1F, 0x9F, 0x23, 0xA3, 0x12,
                                0x92, 0x26, 0xA6, 0x21, 0xA1, 0x0C, 0x8C, 0xAA, 0x04, 0x84, 0x2A, 0x27, 0xA7, 0x30, 0xB0, 0x17,
                                0x97, 0x31, 0xB1, 0x04, 0x84, 0xAA, 0x05, 0x85, 0x08, 0x88, 0x02, 0x82, 0x02, 0x82};

struct panel {
    struct xiquepazo_service service;
    char arrived[sizeof burst + 1]; /* a byte puts one word at the most */
    size_t count;
    int dropped;
};

static void take_words(struct panel *panel)
{
    struct xiquepazo_shown shown;
    while ((shown = xiquepazo_call(&panel->service, XIQUEPAZO_TAKE_ENHANCED, 0, 0)).ans == XIQUEPAZO_RETURNED)
        panel->arrived[panel->count++] = (char)(shown.word & 0xFF);
}

/* Only the answer to a byte tells that its word was lost. */
static void count_dropped(struct panel *panel, struct xiquepazo_shown shown)
{
    if (shown.ans == XIQUEPAZO_DROPPED)
        panel->dropped++;
}

static void act_on(struct panel *panel, struct xiquepazo_shown shown)
{
    count_dropped(panel, shown);
    take_words(panel);
}

static void print_arrived(const char *when, const struct panel *panel)
{
    printf("words fetched %s: %s, %d arrived, %d dropped\n", when, panel->arrived, (int)panel->count, panel->dropped);
}

int main(void)
{
    /* Zeros are a new service with no lock on. */
    static struct panel panel, late;
    size_t i;

    for (i = 0; i < sizeof burst; i++)
        act_on(&panel, xiquepazo_scan(&panel.service, burst[i]));
    print_arrived("after each byte", &panel);

    for (i = 0; i < sizeof burst; i++)
        count_dropped(&late, xiquepazo_scan(&late.service, burst[i]));
    take_words(&late);
    print_arrived("last", &late);

    return strcmp(panel.arrived, number) == 0 && panel.dropped == 0 ? 0 : 1;
}
