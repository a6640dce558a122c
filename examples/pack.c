/*
 * Runs a pack on a new service, as kbdtrace does: each event is read, run and reported, and two lines close the trace.
 *
 *   make
 *   gcc -std=c99 -Wall -Wextra -Werror -pedantic -Iinclude examples/pack.c target/staticlib/libxiquepazo.a -o pack
 *   ./pack < samples/shift-a.pack | cmp - samples/shift-a.txt
 */
#include <stdio.h>

#include "xiquepazo.h"

/* One byte more than a pack may have, so that a longer one is seen to be too long. */
static uint8_t pack[32768 + 1];

int main(void)
{
    size_t length = fread(pack, 1, sizeof pack, stdin);
    struct xiquepazo_reading reading = xiquepazo_read(pack, length, 0);
    struct xiquepazo_service service;
    uint8_t text[XIQUEPAZO_REPORT];

    if (xiquepazo_make(&service, 0) != 0)
        return 1;
    while (reading.event.tag != 0) {
        xiquepazo_report(&service, reading.event, text, sizeof text);
        fwrite(text, 1, sizeof text, stdout);
        reading = xiquepazo_read(pack, length, reading.next);
    }
    printf("end=%04zX\nrefused=%d\n", reading.next, reading.refusal);
    return 0;
}
