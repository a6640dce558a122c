/*
 * A board without a controller chip, in little: it collects the keyboard's frames bit by bit, counts those that noise spoiled, and clocks out
 * what the service has to send.
 *
 *   make
 *   gcc -std=c99 -Wall -Wextra -Werror -pedantic -Iinclude examples/frames.c target/staticlib/libxiquepazo.a -o frames
 *   ./frames | cmp - examples/frames.expected
 */
#include <stdio.h>

#include "xiquepazo.h"

/* Start bit, eight data bits, parity bit, stop bit. */
#define FRAME_BITS 11

struct board {
    struct xiquepazo_service service;
    int noise[3]; /* frames refused by 11, 12 and 13 */
};

/* Collects a frame from the wire, whose first bit is the lowest. Blanks are for the eye. */
static uint16_t collect(const char **wire)
{
    uint16_t frame = 0;
    int place;
    for (place = 0; place < FRAME_BITS && **wire != '\0'; (*wire)++) {
        if (**wire == '1')
            frame |= (uint16_t)(1u << place);
        if (**wire != ' ')
            place++;
    }
    return frame;
}

/*
 * Feeds what the wire brings, and returns the last answer. Of a refused frame the service has heard nothing: a board that can ask for the byte
 * again does so here.
 */
static uint8_t feed(struct board *board, const char *wire)
{
    uint8_t ans = XIQUEPAZO_NOTHING;
    while (*wire != '\0') {
        uint16_t frame = collect(&wire);
        struct xiquepazo_shown shown = xiquepazo_frame(&board->service, frame);
        ans = shown.ans;
        printf("frame %03X: ans %02X, word %04X\n", frame, ans, shown.word);
        if (ans > XIQUEPAZO_REFUSED)
            board->noise[ans - XIQUEPAZO_REFUSED - XIQUEPAZO_FRAME_START]++;
    }
    return ans;
}

static void clock_out(uint16_t frame)
{
    int place;
    for (place = 0; place < FRAME_BITS; place++)
        putchar((frame >> place) & 1 ? '1' : '0');
    putchar('\n');
}

/* Sends what the service has to send. Each time the keyboard replies by the next of these wires. */
static void drain(struct board *board, const char *const *replies)
{
    struct xiquepazo_shown shown = xiquepazo_poll(&board->service);
    while (shown.ans == XIQUEPAZO_SEND) {
        uint8_t byte = (uint8_t)(shown.word & 0xFF);
        printf("send %02X: ", byte);
        clock_out(xiquepazo_frame_of(byte));
        /* A spoiled reply is none, so the time for it runs out, and the next poll sends the byte again. */
        if (feed(board, *replies++) > XIQUEPAZO_REFUSED)
            xiquepazo_time_out(&board->service);
        shown = xiquepazo_poll(&board->service);
    }
    printf("byte 97 is %02X\n", xiquepazo_flags(&board->service).byte97);
}

int main(void)
{
    /* Makes and breaks, each as start bit, data bits, parity bit, stop bit: left Shift down, A down and up, Shift up. */
    static const char shifted_a[] = "0 01010100 0 1  0 01111000 1 1  0 01111001 0 1  0 01010101 1 1";
    /* A comes with a data bit turned over, then sound; its break comes after an idle wire that was taken for a frame. */
    static const char noisy_a[] = "0 01101000 1 1  0 01111000 1 1  1 11111111 1 1  0 01111001 0 1";
    static const char caps_lock[] = "0 01011100 1 1  0 01011101 0 1";
    /* FA without its stop bit, then FA as it should be. */
    static const char *const replies[] = {"0 01011111 1 0", "0 01011111 1 1", "0 01011111 1 1"};
    /* Zeros are a new service with no lock on. */
    static struct board board;

    feed(&board, shifted_a);
    feed(&board, noisy_a);
    feed(&board, caps_lock);
    drain(&board, replies);
    printf("noise: start bit %d, parity bit %d, stop bit %d\n", board.noise[0], board.noise[1], board.noise[2]);
    return 0;
}
