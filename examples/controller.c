/*
 * An emulated panel, in little: its program knows the keyboard by ports 60 and 64 and by interrupt 1. The keyboard hands its bytes to the
 * controller, the program's interrupt handler reads them, and its main loop takes the words.
 *
 *   make
 *   gcc -std=c99 -Wall -Wextra -Werror -pedantic -Iinclude examples/controller.c target/staticlib/libxiquepazo.a -o controller
 *   ./controller | cmp - examples/controller.expected
 */
#include <stdio.h>

#include "xiquepazo.h"

struct panel {
    struct xiquepazo_service service;
    const uint8_t *typed; /* what the keyboard has yet to hand over */
    size_t left;
};

/* The program's handler of interrupt 1. The read of 60 feeds the byte, so what it shows is the key's. */
static void handle_interrupt(struct xiquepazo_service *service)
{
    uint8_t status = xiquepazo_read_64(service).byte;
    if (status & XIQUEPAZO_STATUS_FULL) {
        struct xiquepazo_port_shown read = xiquepazo_read_60(service);
        printf("status %02X, read %02X: ans %02X, word %04X\n", status, read.byte, read.shown.ans, read.shown.word);
    }
}

/*
 * The keyboard hands over its bytes as long as they are accepted. The byte that is refused it keeps, and those behind it. The handler runs when the
 * call has returned: one service is used by one thread at a time.
 */
static void hand_over(struct panel *panel)
{
    while (panel->left > 0) {
        struct xiquepazo_port_shown taken = xiquepazo_from_keyboard(&panel->service, *panel->typed);
        if (taken.shown.ans == XIQUEPAZO_REFUSED + XIQUEPAZO_PORT_BUSY) {
            printf("ans %02X, the keyboard keeps %02X\n", taken.shown.ans, *panel->typed);
            return;
        }
        panel->typed++;
        panel->left--;
        if (taken.interrupt)
            handle_interrupt(&panel->service);
    }
}

static void type(struct panel *panel, const uint8_t *bytes, size_t count)
{
    panel->typed = bytes;
    panel->left = count;
    hand_over(panel);
}

/* The program writes a command. What it makes possible the keyboard does at once. */
static void command(struct panel *panel, uint8_t byte)
{
    struct xiquepazo_port_shown written = xiquepazo_write_64(&panel->service, byte);
    printf("command %02X: ans %02X, status %02X\n", byte, written.shown.ans, written.status);
    hand_over(panel);
}

/* The program's main loop. */
static void take_words(struct xiquepazo_service *service)
{
    struct xiquepazo_shown shown = xiquepazo_call(service, XIQUEPAZO_TAKE_ENHANCED, 0, 0);
    while (shown.ans == XIQUEPAZO_RETURNED) {
        printf("word %04X\n", shown.word);
        shown = xiquepazo_call(service, XIQUEPAZO_TAKE_ENHANCED, 0, 0);
    }
}

int main(void)
{
    /* Left Shift down, A down and up, Shift up. */
    static const uint8_t shifted_a[] = {0x2A, 0x1E, 0x9E, 0xAA};
    static const uint8_t b[] = {0x30, 0xB0};
    static const uint8_t left_shift[] = {0x2A};
    /* Zeros are a new service with no lock on. */
    static struct panel panel;

    /* The self test's answer raises no interrupt, and is no key. */
    command(&panel, XIQUEPAZO_64_SELF_TEST);
    printf("self test %s\n", xiquepazo_read_60(&panel.service).byte == 0x55 ? "passed" : "failed");

    type(&panel, shifted_a, sizeof shifted_a);
    take_words(&panel.service);

    /* The handler is to stay away while the program is at something critical. What is typed meanwhile comes afterwards. */
    command(&panel, XIQUEPAZO_64_DISABLE);
    type(&panel, b, sizeof b);
    take_words(&panel.service);
    command(&panel, XIQUEPAZO_64_ENABLE);
    take_words(&panel.service);

    /* The keyboard is unplugged with Shift down, and disabled. R, in the one call for a new keyboard, makes the controller new too. */
    type(&panel, left_shift, sizeof left_shift);
    command(&panel, XIQUEPAZO_64_DISABLE);
    printf("resynchronised: ans %02X, ", xiquepazo_resynchronise(&panel.service).ans);
    printf("status %02X\n", xiquepazo_read_64(&panel.service).byte);
    type(&panel, b, sizeof b);
    take_words(&panel.service);
    return 0;
}
