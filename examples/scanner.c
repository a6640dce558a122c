/*
 * A panel with a scanner beside its keyboard, in little: the keyboard's cable is cut in the middle of Pause while the scanner reads a bin
 * number, and is plugged in again.
 *
 *   make
 *   gcc -std=c99 -Wall -Wextra -Werror -pedantic -Iinclude examples/scanner.c target/staticlib/libxiquepazo.a -o scanner
 *   ./scanner | cmp - examples/scanner.expected
 */
#include <stdio.h>

#include "xiquepazo.h"

/* The word of Enter, by which a scanner ends a number. */
#define ENTER 0x1C0D

/* Each plug has a prefix of its own, the keyboard's told first. Byte 17 shows the locks and the keyboard's keys, none of the scanner's. */
static void print_shown(char plug, uint8_t byte, struct xiquepazo_shown shown, const struct xiquepazo_service *service)
{
    printf("%c %02X: ans %02X, word %04X, byte 17 is %02X, ", plug, byte, shown.ans, shown.word, shown.byte17);
    printf("prefixes %d and %d\n", XIQUEPAZO_PREFIX(service->input), service->scanner.prefix);
}

/* Bytes from the keyboard's plug. */
static void type(struct xiquepazo_service *service, const uint8_t *bytes, size_t count)
{
    size_t i;
    for (i = 0; i < count; i++) {
        struct xiquepazo_shown shown = xiquepazo_key(service, bytes[i]);
        print_shown('K', bytes[i], shown, service);
    }
}

/* Bytes from the scanner's plug. */
static void scan(struct xiquepazo_service *service, const uint8_t *bytes, size_t count)
{
    size_t i;
    for (i = 0; i < count; i++) {
        struct xiquepazo_shown shown = xiquepazo_scan(service, bytes[i]);
        print_shown('S', bytes[i], shown, service);
    }
}

/* Takes the words up to Enter as the characters of a number. */
static void print_number(struct xiquepazo_service *service)
{
    struct xiquepazo_shown shown = xiquepazo_call(service, XIQUEPAZO_TAKE_ENHANCED, 0, 0);
    printf("bin ");
    while (shown.ans == XIQUEPAZO_RETURNED && shown.word != ENTER) {
        putchar(shown.word & 0xFF);
        shown = xiquepazo_call(service, XIQUEPAZO_TAKE_ENHANCED, 0, 0);
    }
    putchar('\n');
}

int main(void)
{
    /* Left Shift is down when Pause is pressed, which is E1 1D 45 and more; the 45 does not arrive. */
    static const uint8_t shift_and_e1[] = {0x2A, 0xE1};
    static const uint8_t last_before_the_cut[] = {0x1D};
    /* 4 and 7 down and up, then 0 and 2 and Enter. */
    static const uint8_t digits_47[] = {0x05, 0x85, 0x08, 0x88};
    static const uint8_t digits_02[] = {0x0B, 0x8B, 0x03, 0x83, 0x1C, 0x9C};
    static const uint8_t num_lock_and_a[] = {0x45, 0xC5, 0x1E, 0x9E};
    /* Zeros are a new service with no lock on. */
    static struct xiquepazo_service service;
    struct xiquepazo_service careless;

    type(&service, shift_and_e1, sizeof shift_and_e1);
    scan(&service, digits_47, sizeof digits_47);
    type(&service, last_before_the_cut, sizeof last_before_the_cut);
    scan(&service, digits_02, sizeof digits_02);
    print_number(&service);

    /* To a panel that does nothing at the plug, Num Lock ends the string of Pause, and Shift is still down. */
    careless = service;
    printf("not resynchronised: byte 18 is %02X\n", xiquepazo_key(&careless, 0x45).byte18);

    /* The call empties the queue and closes both ports, so it comes once the number is taken. */
    printf("resynchronised: ans %02X\n", xiquepazo_resynchronise(&service).ans);
    type(&service, num_lock_and_a, sizeof num_lock_and_a);
    return 0;
}
