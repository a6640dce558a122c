/*
 * A panel in little: bytes from a keyboard go in, words come out, lamps are set, and events are reported.
 *
 *   make
 *   gcc -std=c99 -Wall -Wextra -Werror -pedantic -Iinclude examples/panel.c target/staticlib/libxiquepazo.a -o panel
 *   ./panel | cmp - examples/panel.expected
 */
#include <stdio.h>
#include <string.h>

#include "xiquepazo.h"

/* The keyboard at the other end of the line. It asks once for a byte again, then acknowledges. */
struct keyboard {
    int doubts;
};

static uint8_t reply_of(struct keyboard *keyboard, uint8_t byte)
{
    printf("sent %02X", byte);
    if (keyboard->doubts > 0) {
        keyboard->doubts--;
        printf(", reply FE\n");
        return 0xFE;
    }
    printf(", reply FA\n");
    return 0xFA;
}

/* Sends what the service has to send, and feeds each reply back as a keyboard byte. */
static void drain(struct xiquepazo_service *service, struct keyboard *keyboard)
{
    for (;;) {
        struct xiquepazo_shown shown = xiquepazo_poll(service);
        if (shown.ans != XIQUEPAZO_SEND)
            break;
        shown = xiquepazo_key(service, reply_of(keyboard, (uint8_t)(shown.word & 0xFF)));
        if (shown.ans == XIQUEPAZO_GIVEN_UP)
            printf("given up after %d bytes\n", shown.sent);
    }
    printf("byte 97 is %02X\n", xiquepazo_flags(service).byte97);
}

/* Feeds bytes as they come from the keyboard. */
static void feed(struct xiquepazo_service *service, const uint8_t *bytes, size_t count)
{
    size_t i;
    for (i = 0; i < count; i++) {
        struct xiquepazo_shown shown = xiquepazo_key(service, bytes[i]);
        if (shown.ans == XIQUEPAZO_DROPPED)
            printf("dropped %04X\n", shown.word);
        if (shown.ans == XIQUEPAZO_RESTART_ASKED)
            printf("restart asked\n");
    }
}

/* Takes the words that wait, oldest first, as a program that knows enhanced words or as one that does not. */
static void take_words(struct xiquepazo_service *service, uint8_t take)
{
    struct xiquepazo_shown shown = xiquepazo_call(service, take, 0, 0);
    while (shown.ans == XIQUEPAZO_RETURNED) {
        printf("word %04X\n", shown.word);
        shown = xiquepazo_call(service, take, 0, 0);
    }
}

/* Runs an event and prints its report. */
static void print_report(struct xiquepazo_service *service, struct xiquepazo_tagged event)
{
    char text[XIQUEPAZO_REPORT];
    uint8_t refusal = xiquepazo_report(service, event, text, sizeof text);
    fwrite(text, 1, sizeof text, stdout);
    if (refusal != 0)
        printf("refused by %d\n", refusal);
}

/* Whether refused calls leave every byte that was lent. */
static int refusals_leave_all(struct xiquepazo_service *service)
{
    struct xiquepazo_tagged unknown = {'X', 0, 0, 0};
    struct xiquepazo_tagged poll = {'P', 0, 0, 0};
    struct xiquepazo_service before = *service;
    uint8_t text[XIQUEPAZO_REPORT - 1];
    uint8_t text_before[sizeof text];
    memset(text, 0x5A, sizeof text);
    memcpy(text_before, text, sizeof text);
    printf("make %d", xiquepazo_make(service, 16));
    printf(", call %02X %02X %02X", xiquepazo_call(service, 0xFF, 0, 0).ans, xiquepazo_call(service, 0x03, 4, 0).ans, xiquepazo_call(service, 0x03, 0, 32).ans);
    printf(", event %02X", xiquepazo_event(service, unknown).ans);
    printf(", report %d %d\n", xiquepazo_report(service, unknown, text, sizeof text), xiquepazo_report(service, poll, text, sizeof text));
    return memcmp(service, &before, sizeof before) == 0 && memcmp(text, text_before, sizeof text) == 0;
}

int main(void)
{
    static const uint8_t shifted_a[] = {0x2A, 0x1E, 0x9E, 0xAA};
    static const uint8_t keypad_44[] = {0x38, 0x4B, 0xCB, 0x4B, 0xCB, 0xB8};
    static const uint8_t f11_and_a[] = {0x57, 0xD7, 0x1E, 0x9E};
    static const uint8_t both_homes[] = {0x47, 0xC7, 0xE0, 0x47, 0xE0, 0xC7};
    static const uint8_t caps_lock[] = {0x3A, 0xBA};
    struct xiquepazo_tagged key_b = {'K', 0x30, 0, 0};
    struct xiquepazo_tagged no_function = {'C', 0x99, 0, 0};
    struct xiquepazo_service service;
    struct xiquepazo_service zeros;
    struct keyboard keyboard = {1};

    if (xiquepazo_make(&service, 0) != 0)
        return 1;
    memset(&zeros, 0, sizeof zeros);
    printf("a new service is zeros: %s\n", memcmp(&service, &zeros, sizeof zeros) == 0 ? "yes" : "no");

    feed(&service, shifted_a, sizeof shifted_a);
    feed(&service, keypad_44, sizeof keypad_44);
    feed(&service, f11_and_a, sizeof f11_and_a);
    take_words(&service, XIQUEPAZO_TAKE_ENHANCED);

    /* An old program gets the a alone. */
    feed(&service, f11_and_a, sizeof f11_and_a);
    take_words(&service, XIQUEPAZO_TAKE_WORD);

    /* Home on the keypad, then the grey one: to an old program they are one key. */
    feed(&service, both_homes, sizeof both_homes);
    take_words(&service, XIQUEPAZO_TAKE_ENHANCED);
    feed(&service, both_homes, sizeof both_homes);
    take_words(&service, XIQUEPAZO_TAKE_WORD);

    feed(&service, caps_lock, sizeof caps_lock);
    drain(&service, &keyboard);
    xiquepazo_call(&service, XIQUEPAZO_SET_RATE, 1, 2);
    drain(&service, &keyboard);

    print_report(&service, key_b);
    print_report(&service, no_function);

    printf("refused calls leave all: %s\n", refusals_leave_all(&service) ? "yes" : "no");

    /* Another keyboard is plugged in. */
    printf("byte 17 is %02X\n", xiquepazo_resynchronise(&service).byte17);
    return 0;
}
