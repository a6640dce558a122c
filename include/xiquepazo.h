/*
 * The aisle panel's AT keyboard service, from C (C99 or later) or C++.
 *
 * Link target/staticlib/libxiquepazo.a, which `make` writes; it needs no other library. x86-64 Linux.
 *
 * The caller keeps the service, as a struct of numbers, and lends it to each call. Every call is proved against the definitions of document
 * 01 and of the requests of document 02. It trusts none of the numbers: whatever they are, they mean some service. What it does trust is the
 * pointers, which must be valid, aligned and not null, and must not overlap. One service is used by one thread at a time; an interrupt
 * handler counts as one. Nothing is kept between calls, so different services may be used at the same time; what
 * interrupts owe besides is said below.
 *
 * A call is made as the System V ABI for x86-64 has it: at the call instruction the stack pointer is a multiple of 16,
 * and the direction flag is clear. SSE is enabled: CR0.EM and CR0.TS are 0, CR4.OSFXSR is 1. A call takes at most
 * XIQUEPAZO_STACK bytes of stack. Of the vector registers it uses xmm0 to xmm3, and it uses neither AVX nor x87.
 *
 * During a call interrupts are off, or they are taken on a stack of their own: an IST stack or, where the call runs in
 * user mode, the kernel's. A call uses the 128 bytes below its stack pointer, and an interrupt on the same stack
 * overwrites them, even if its handler uses another service, or none. Code that interrupts a call saves the xmm
 * registers named here before it uses them; a handler that calls the library uses them all.
 *
 * Refusals, by who causes them. A refused call leaves the service as it was, byte for byte.
 *   1  lock bits above 15                       the maker of the service
 *   2  int 16h function not listed              the calling program
 *   3  typematic delay above 3                  the calling program
 *   4  typematic rate above 31, after 3         the calling program
 *   5  function 05 on a full queue              the calling program
 *   6  a tag that names no event                the calling program; in a pack, its writer
 *   7  an event cut short by the pack's end     the writer of the pack
 *   8  a pack over 32,768 bytes                 the writer of the pack
 *   9  report buffer under 44 bytes             the calling program
 *  10  a start beyond the pack's length         the reader of the pack
 *  11  a frame from 2048 up, or start bit not 0 the cable, or the board that counts its bits
 *  12  wrong parity in a frame, after 11        the same
 *  13  stop bit of a frame not 1, after 12      the same
 *  14  keyboard byte while the buffer is full,  the emulation: it hands bytes over faster than they are read, or while the
 *      or bit 4 of the command byte on          keyboard is disabled
 *  15  a command to port 64 that is not listed  the program that writes to the ports
 *  16  a byte to port 60 that is not awaited    the same
 * 6 and 9 run no event and leave the buffer as it was. An event that 2 to 5 refuse has its report written. A pack is only read.
 * 11 to 16 feed nothing.
 */
#ifndef XIQUEPAZO_H
#define XIQUEPAZO_H

#include <stddef.h>
#include <stdint.h>

#ifdef __cplusplus
extern "C" {
#endif

/* Raised with every change of struct xiquepazo_service, or of what one of its bytes means. */
#define XIQUEPAZO_VERSION "0.1.0"

/*
 * The most bytes of stack that a call takes, from the stack pointer at the call instruction down to the lowest byte
 * written. The return address and what is kept below the stack pointer are counted.
 */
#define XIQUEPAZO_STACK 2048

/* How many words the queue has room for, and how many bytes a report has: text in five lines, with no NUL behind it. */
#define XIQUEPAZO_WORDS 15
#define XIQUEPAZO_REPORT 44

/* The numbers of answers. A refusal is XIQUEPAZO_REFUSED plus its number. */
enum {
    XIQUEPAZO_NOTHING = 0x00,      /* the byte had no word */
    XIQUEPAZO_PUT = 0x01,          /* `word` was put to the queue */
    XIQUEPAZO_DROPPED = 0x02,      /* `word` was dropped, since the queue was full */
    XIQUEPAZO_BREAK = 0x03,        /* Ctrl-Break: the queue holds the word 0000 alone */
    XIQUEPAZO_RESTART_ASKED = 0x04, /* Ctrl-Alt-Del: the panel is asked to restart */
    XIQUEPAZO_OVERRUN = 0x05,      /* the keyboard lost bytes */
    XIQUEPAZO_TAKEN = 0x06,        /* a reply was taken */
    XIQUEPAZO_IGNORED = 0x07,      /* a reply or time-out that was not awaited; FA or FE from the scanner */
    XIQUEPAZO_RETURNED = 0x08,     /* `word` is the oldest of the queue that the function may see, by 00 and 01 as old programs know it */
    XIQUEPAZO_NONE = 0x09,         /* the queue is empty now */
    XIQUEPAZO_STATUS = 0x0A,       /* `word` is a status */
    XIQUEPAZO_DONE = 0x0B,         /* functions 03 and 05, E, R, and a time-out that was awaited */
    XIQUEPAZO_SEND = 0x0C,         /* the low byte of `word` is to be sent to the keyboard */
    XIQUEPAZO_QUIET = 0x0D,        /* there is nothing to send */
    XIQUEPAZO_GIVEN_UP = 0x0E,     /* the third send of a byte failed, and its command was given up */
    XIQUEPAZO_REFUSED = 0x80
};

/* The numbers of refusals. */
enum {
    XIQUEPAZO_BAD_LOCKS = 1,
    XIQUEPAZO_BAD_FUNCTION = 2,
    XIQUEPAZO_BAD_DELAY = 3,
    XIQUEPAZO_BAD_RATE = 4,
    XIQUEPAZO_QUEUE_FULL = 5,
    XIQUEPAZO_BAD_TAG = 6,
    XIQUEPAZO_CUT_SHORT = 7,
    XIQUEPAZO_PACK_TOO_LONG = 8,
    XIQUEPAZO_BUFFER_TOO_SHORT = 9,
    XIQUEPAZO_BAD_START = 10,
    XIQUEPAZO_FRAME_START = 11,
    XIQUEPAZO_FRAME_PARITY = 12,
    XIQUEPAZO_FRAME_STOP = 13,
    XIQUEPAZO_PORT_BUSY = 14,
    XIQUEPAZO_PORT_COMMAND = 15,
    XIQUEPAZO_PORT_UNAWAITED = 16
};

/*
 * The int 16h functions. 10, 11 and 12 are for programs that know the enhanced keyboard: 00 and 01 remove the words of F11 and F12 unseen, and
 * return a grey key's word, 47E0 say, as that of the key without E0, 4700.
 */
enum {
    XIQUEPAZO_TAKE_WORD = 0x00,
    XIQUEPAZO_LOOK_AT_WORD = 0x01,
    XIQUEPAZO_SHIFT_STATUS = 0x02,
    XIQUEPAZO_SET_RATE = 0x03,
    XIQUEPAZO_PUT_WORD = 0x05,
    XIQUEPAZO_TAKE_ENHANCED = 0x10,
    XIQUEPAZO_LOOK_AT_ENHANCED = 0x11,
    XIQUEPAZO_EXTENDED_STATUS = 0x12
};

/* The bits of the flag bytes. Of the two ports they show the keyboard's own bits; of the scanner's nothing is shown. */
enum {
    XIQUEPAZO_17_RIGHT_SHIFT = 0x01,
    XIQUEPAZO_17_LEFT_SHIFT = 0x02,
    XIQUEPAZO_17_CTRL = 0x04,
    XIQUEPAZO_17_ALT = 0x08,
    XIQUEPAZO_17_SCROLL = 0x10,
    XIQUEPAZO_17_NUM = 0x20,
    XIQUEPAZO_17_CAPS = 0x40,
    XIQUEPAZO_17_INSERT = 0x80,
    XIQUEPAZO_18_LEFT_CTRL = 0x01,
    XIQUEPAZO_18_LEFT_ALT = 0x02,
    XIQUEPAZO_18_SYSREQ_HELD = 0x04,
    XIQUEPAZO_18_PAUSED = 0x08,
    XIQUEPAZO_18_SCROLL_HELD = 0x10,
    XIQUEPAZO_18_NUM_HELD = 0x20,
    XIQUEPAZO_18_CAPS_HELD = 0x40,
    XIQUEPAZO_18_INSERT_HELD = 0x80,
    XIQUEPAZO_96_E1_OPEN = 0x01,
    XIQUEPAZO_96_E0_OPEN = 0x02,
    XIQUEPAZO_96_RIGHT_CTRL = 0x04,
    XIQUEPAZO_96_RIGHT_ALT = 0x08,
    XIQUEPAZO_97_SCROLL_DONE = 0x01,
    XIQUEPAZO_97_NUM_DONE = 0x02,
    XIQUEPAZO_97_CAPS_DONE = 0x04,
    XIQUEPAZO_97_ACKNOWLEDGED = 0x10,
    XIQUEPAZO_97_RESEND = 0x20,
    XIQUEPAZO_97_LED_COMMAND_RUNS = 0x40,
    XIQUEPAZO_97_GIVEN_UP = 0x80
};

/* The commands to port 64. */
enum {
    XIQUEPAZO_64_READ_COMMAND_BYTE = 0x20,
    XIQUEPAZO_64_WRITE_COMMAND_BYTE = 0x60,
    XIQUEPAZO_64_SELF_TEST = 0xAA,
    XIQUEPAZO_64_DISABLE = 0xAD,
    XIQUEPAZO_64_ENABLE = 0xAE
};

/* The bits of the status, which port 64 gives, and of the command byte. Two bits of the status are always on: it is 14, 15, 1C or 1D. */
enum {
    XIQUEPAZO_STATUS_FULL = 0x01,      /* the output buffer holds a byte to be read at 60 */
    XIQUEPAZO_STATUS_ALWAYS_ON = 0x14,
    XIQUEPAZO_STATUS_COMMANDED = 0x08, /* the last accepted write went to 64 */
    XIQUEPAZO_COMMAND_INTERRUPTS = 0x01, /* a keyboard byte raises interrupt 1 */
    XIQUEPAZO_COMMAND_DISABLED = 0x10    /* keyboard bytes are refused */
};

/*
 * The two halves of `input`. The lower one is the open prefix: 0 none, 1 E0, 2 E1, 3 E1 1D, 4 E1 9D; any other number is none. The upper one is
 * the codes that come: 0 set 1, 1 set 2, 2 set 2 with the next code marked as a break; any other number is set 1.
 */
#define XIQUEPAZO_PREFIX(input) ((input) & 0x0F)
#define XIQUEPAZO_CODES(input) ((input) >> 4)

/* Flag bytes 17, 18, 96 and 97 of the BIOS data area. */
struct xiquepazo_flag_bytes {
    uint8_t byte17;
    uint8_t byte18;
    uint8_t byte96;
    uint8_t byte97;
};

/* A number that may be missing. */
struct xiquepazo_setting {
    uint8_t known; /* 0 or 1; more is 1. Where it is 0, the value is 0, and not read */
    uint8_t value; /* a rate 0 to 127, by its last seven bits; a LED value 0 to 7, by its last three */
};

/* The command that runs. Without one `kind` tells whose turn it is, and the four numbers behind it are 0, and not read. */
struct xiquepazo_command {
    uint8_t phase;   /* 0 idle, 1 a reply is awaited, 2 a poll is due; any other number is idle */
    uint8_t kind;    /* 0 LED; any other number is rate, written as 1. On an idle line, which of the two goes first where both are due */
    uint8_t value;   /* of a LED command 0 to 7, by its last three bits; of a rate command 0 to 127, by its last seven */
    uint8_t operand; /* 1 while the second byte is under way, else 0; more is 1 */
    uint8_t sends;   /* of the byte under way, 0 to 3; more is 3 */
    uint8_t sent;    /* bytes of the command, 0 to 6; more is 6 */
};

struct xiquepazo_line {
    struct xiquepazo_setting rate;    /* that waits */
    struct xiquepazo_setting handled; /* LED value */
    struct xiquepazo_command command;
};

struct xiquepazo_word {
    uint8_t scan;  /* 0 to 255 */
    uint8_t ascii; /* 0 to 255 */
};

/* `count` words from the place `head` on, round the first 15 places; the sixteenth is never used. */
struct xiquepazo_queue {
    struct xiquepazo_word words[XIQUEPAZO_WORDS + 1];
    size_t head;  /* 0 to 14; any other number is 0 */
    size_t count; /* 0 to 15; more is 15 */
};

/* The scanner's port. No flag byte tells of it. */
struct xiquepazo_port {
    uint8_t prefix; /* numbered as in `input`, 0 to 4; any other number is none */
    uint8_t sum;    /* its Alt sum, 0 to 255 */
    uint8_t shift;  /* bit 0 the right key, bit 1 the left one; other bits are not read, here and in the next two */
    uint8_t ctrl;   /* the same */
    uint8_t alt;    /* the same */
    uint8_t locks;  /* lock keys held: bit 0 Scroll, 1 Num, 2 Caps; other bits are not read */
    uint8_t insert; /* Ins held, 0 or 1; more is 1 */
    uint8_t sysreq; /* SysReq held, 0 or 1; more is 1 */
};

/* The controller at ports 60 and 64. */
struct xiquepazo_controller {
    uint8_t buffer;    /* 0 empty, 1 holds a key, 2 holds an answer of the controller; any other number is empty */
    uint8_t byte;      /* what it holds, or where it is empty the byte that was read last, 0 to 255 */
    uint8_t command;   /* the command byte with bit 0 turned over: 0 means 01, which is new */
    uint8_t awaiting;  /* 1 where the next write to 60 is the command byte, else 0; more is 1 */
    uint8_t commanded; /* 1 where the last accepted write went to 64, else 0; more is 1 */
    uint8_t spare[3];  /* zeros, and not read */
};

/*
 * The service. Make it by xiquepazo_make or xiquepazo_make_set_2, or fill it with zeros, which is a service newly made on set 1 with no lock on;
 * then leave it to the calls. Each number has a range, which no call leaves, and a number beyond it is read as the range's comment says. 80 bytes, none of
 * them padding.
 *
 * From then on its first four bytes are the flag bytes as they stand after the last call, and a panel may read them there; xiquepazo_flags
 * reads them out of any memory, also memory that no call wrote. Of these bytes a call reads the bits that nothing else tells:
 *   17  0 and 1, the Shift keys; 4 to 7, the locks
 *   18  all eight
 *   96  2, right Ctrl; 3, right Alt
 *   97  0 to 2, the LED value done last; 4, acknowledged; 5, resend; 7, given up
 * The other bits follow from these, from `input` and from the command, or have no meaning. They are ignored, and every call that writes
 * the service writes them anew.
 */
struct xiquepazo_service {
    struct xiquepazo_flag_bytes flags;
    uint8_t input; /* how the next keyboard byte is read: XIQUEPAZO_PREFIX and XIQUEPAZO_CODES of it */
    uint8_t sum;   /* the keyboard's Alt sum, 0 to 255 */
    struct xiquepazo_line line;
    struct xiquepazo_queue queue;
    struct xiquepazo_port scanner;
    struct xiquepazo_controller controller;
};

/* The struct is laid out as the library has it, or these lines do not compile. */
#define XIQUEPAZO_AT(member, place) (offsetof(struct xiquepazo_service, member) == (place))
typedef char xiquepazo_service_is_80_bytes[sizeof(struct xiquepazo_service) == 80 ? 1 : -1];
typedef char xiquepazo_flag_bytes_stand_first
    [XIQUEPAZO_AT(flags.byte17, 0) && XIQUEPAZO_AT(flags.byte18, 1) && XIQUEPAZO_AT(flags.byte96, 2) && XIQUEPAZO_AT(flags.byte97, 3) ? 1 : -1];
typedef char xiquepazo_input_stands_at_4[XIQUEPAZO_AT(input, 4) && XIQUEPAZO_AT(sum, 5) ? 1 : -1];
typedef char xiquepazo_line_stands_at_6
    [XIQUEPAZO_AT(line.rate.known, 6) && XIQUEPAZO_AT(line.rate.value, 7) && XIQUEPAZO_AT(line.handled.known, 8)
             && XIQUEPAZO_AT(line.handled.value, 9) && XIQUEPAZO_AT(line.command.phase, 10) && XIQUEPAZO_AT(line.command.kind, 11)
             && XIQUEPAZO_AT(line.command.value, 12) && XIQUEPAZO_AT(line.command.operand, 13) && XIQUEPAZO_AT(line.command.sends, 14)
             && XIQUEPAZO_AT(line.command.sent, 15)
         ? 1
         : -1];
typedef char xiquepazo_queue_stands_at_16
    [XIQUEPAZO_AT(queue.words[0].scan, 16) && XIQUEPAZO_AT(queue.words[0].ascii, 17) && XIQUEPAZO_AT(queue.words[XIQUEPAZO_WORDS].ascii, 47)
             && XIQUEPAZO_AT(queue.head, 48) && XIQUEPAZO_AT(queue.count, 56) && sizeof(((struct xiquepazo_queue *)0)->words) == 32
         ? 1
         : -1];
typedef char xiquepazo_scanner_stands_at_64
    [XIQUEPAZO_AT(scanner.prefix, 64) && XIQUEPAZO_AT(scanner.sum, 65) && XIQUEPAZO_AT(scanner.shift, 66) && XIQUEPAZO_AT(scanner.ctrl, 67)
             && XIQUEPAZO_AT(scanner.alt, 68) && XIQUEPAZO_AT(scanner.locks, 69) && XIQUEPAZO_AT(scanner.insert, 70)
             && XIQUEPAZO_AT(scanner.sysreq, 71)
         ? 1
         : -1];
typedef char xiquepazo_controller_stands_at_72
    [XIQUEPAZO_AT(controller.buffer, 72) && XIQUEPAZO_AT(controller.byte, 73) && XIQUEPAZO_AT(controller.command, 74)
             && XIQUEPAZO_AT(controller.awaiting, 75) && XIQUEPAZO_AT(controller.commanded, 76) && XIQUEPAZO_AT(controller.spare, 77)
         ? 1
         : -1];
#undef XIQUEPAZO_AT

/*
 * What is seen of an event, a frame or a change of set: its answer, its word (put, dropped, returned, a status, or to be sent, else 0), the count of bytes sent
 * by the command that runs or ended with it, and the flag bytes after it.
 */
struct xiquepazo_shown {
    uint16_t word;
    uint8_t ans;
    uint8_t sent;
    uint8_t byte17;
    uint8_t byte18;
    uint8_t byte96;
    uint8_t byte97;
};

/*
 * An event as a pack has it, by its capital: 'K' with the keyboard byte in `a`, 'C' with the function in `a` and its bytes in `b` and `c`,
 * 'P' poll, 'T' time-out, 'E' empty the queue, 'R' restart the line, 'S' with the scanner byte in `a`. Bytes that an event does not use are not
 * read.
 */
struct xiquepazo_tagged {
    uint8_t tag;
    uint8_t a;
    uint8_t b;
    uint8_t c;
};

/*
 * Makes a new service with the lock bits (bit 0 Scroll, 1 Num, 2 Caps, 3 Insert), for a keyboard of scan code set 1. Returns 0, or refusal 1 for
 * bits above 15.
 */
uint8_t xiquepazo_make(struct xiquepazo_service *service, uint8_t bits);

/*
 * The same for a keyboard of set 2, whose bytes come untranslated: each keyboard byte, by itself or as a frame, is translated to set 1 first. F0
 * marks the next code as a break and has nothing to tell: ans 00.
 */
uint8_t xiquepazo_make_set_2(struct xiquepazo_service *service, uint8_t bits);

/*
 * Changes the set between events, also to the set that is in force. A mark that F0 left is closed; all else stays, an open prefix too. Shows ans
 * 00, with the flag bytes and `sent` as they stand. Never refused.
 */
struct xiquepazo_shown xiquepazo_to_set_1(struct xiquepazo_service *service);
struct xiquepazo_shown xiquepazo_to_set_2(struct xiquepazo_service *service);

/*
 * Any event. Refusals 2 to 5, and 6 for an unknown tag, as ans 82 to 86. Beside these `word` is 0, and the flag bytes
 * and `sent` are shown as they stand.
 */
struct xiquepazo_shown xiquepazo_event(struct xiquepazo_service *service, struct xiquepazo_tagged event);

/*
 * Any event, and its report as the first 44 of the `length` bytes at `buffer`; the bytes after them are kept. Returns 0, or 2 to 5 where
 * the event is a call that is refused, 6 for an unknown tag, 9 for fewer than 44 bytes. 6 comes before 9, and 9 before 2 to 5.
 */
uint8_t xiquepazo_report(struct xiquepazo_service *service, struct xiquepazo_tagged event, void *buffer, size_t length);

/*
 * After a plug event: leaves the service as the all-up run at both ports, E and R would, whatever it was. At neither port is a key down or a prefix
 * open; no code is marked, nothing paused or waiting, the queue empty, the controller new; the four locks and the set stay. Shows what this R shows:
 * XIQUEPAZO_DONE, and the locks in byte 17. Never refused.
 */
struct xiquepazo_shown xiquepazo_resynchronise(struct xiquepazo_service *service);

/* The flag bytes as they stand. */
struct xiquepazo_flag_bytes xiquepazo_flags(const struct xiquepazo_service *service);

/* What stands at a start in a pack. */
struct xiquepazo_reading {
    size_t next;                   /* where the next event begins; the start itself where none was read */
    struct xiquepazo_tagged event; /* tag 0 where none was read; bytes that it does not have are 0 */
    uint8_t refusal;               /* 0 for an event and for the end of the pack, else 6, 7, 8 or 10 */
};

/*
 * Reads the event at `start` in a pack of `length` bytes: from 0 on, each time from `next`, as long as the tag is not 0. 8 comes before 10.
 * Nothing is run: hand the event to xiquepazo_event or xiquepazo_report.
 */
struct xiquepazo_reading xiquepazo_read(const void *pack, size_t length, size_t start);

/*
 * For a board without a controller chip: an 11-bit frame from the keyboard, bit 0 the first on the wire. Bit 0 is the start, 0; bits 1 to 8 are
 * the byte, lowest first; bit 9 is the parity, which makes the ones in bits 1 to 9 odd; bit 10 is the stop, 1.
 * Such a frame is the event 'K' of its byte. Any other is refused by 11 to 13, as ans 8B to 8D: nothing is fed, and the flag bytes and `sent`
 * are shown as they stand.
 */
struct xiquepazo_shown xiquepazo_frame(struct xiquepazo_service *service, uint16_t frame);

/* The frame of a byte, for what a poll gives such a board to send. */
uint16_t xiquepazo_frame_of(uint8_t byte);

/*
 * What is seen of a port event. `shown` is what is seen of an event: of the 'K' event that a read of 60 feeds; else ans 00, or a refusal, with the flag
 * bytes and `sent` as they stand.
 */
struct xiquepazo_port_shown {
    struct xiquepazo_shown shown;
    uint8_t byte;      /* read at 60 or 64; 0 for what reads nothing, and where refused */
    uint8_t status;    /* as a read of 64 would give it now */
    uint8_t interrupt; /* 1 where interrupt 1 is raised, else 0 */
    uint8_t fed;       /* 1 where the byte read was a key and was fed, else 0 */
};

/*
 * For an emulated panel: ports 60 and 64 of a keyboard controller in front of the service. A byte from the keyboard waits in the output buffer, and the
 * read of 60 feeds it as a 'K' event; 'K' events that come directly are fed as ever and leave the controller alone. R makes the controller new; E
 * leaves it. Never in packs or reports.
 *   from_keyboard  the buffer holds the byte; interrupt 1 where bit 0 of the command byte is on. 14 while the buffer is full or bit 4 is on
 *   read_60        a key: emptied and fed; an answer: emptied; empty: the last byte again
 *   read_64        the status
 *   write_60       the command byte, where it is awaited; else 16
 *   write_64       20, 60, AA, AD or AE; else 15. 20 and AA put an answer in the place of what the buffer held, without an interrupt
 */
struct xiquepazo_port_shown xiquepazo_from_keyboard(struct xiquepazo_service *service, uint8_t byte);
struct xiquepazo_port_shown xiquepazo_read_60(struct xiquepazo_service *service);
struct xiquepazo_port_shown xiquepazo_read_64(struct xiquepazo_service *service);
struct xiquepazo_port_shown xiquepazo_write_60(struct xiquepazo_service *service, uint8_t byte);
struct xiquepazo_port_shown xiquepazo_write_64(struct xiquepazo_service *service, uint8_t byte);

/* The calls for one kind of event each. */
static inline struct xiquepazo_shown xiquepazo_tag(struct xiquepazo_service *service, char tag, uint8_t a, uint8_t b, uint8_t c)
{
    struct xiquepazo_tagged event;
    event.tag = (uint8_t)tag;
    event.a = a;
    event.b = b;
    event.c = c;
    return xiquepazo_event(service, event);
}

/*
 * A byte from the keyboard: scan codes of the set in force, and the replies FA and FE to what was sent. Never refused. A word put or dropped is
 * shown as it is stored, so the grey keys, which send E0 first, are told from the keys without E0: 47E0 is grey Home, 4700 Home on the keypad.
 */
static inline struct xiquepazo_shown xiquepazo_key(struct xiquepazo_service *service, uint8_t byte)
{
    return xiquepazo_tag(service, 'K', byte, 0, 0);
}

/*
 * A byte from the scanner at its own plug: scan codes of set 1, whatever the keyboard's set. Its prefix, modifiers, held keys and Alt sum are its
 * own; locks, pause, queue and line are the keyboard's too. FA and FE are no replies there: XIQUEPAZO_IGNORED, and nothing is touched. Never refused.
 */
static inline struct xiquepazo_shown xiquepazo_scan(struct xiquepazo_service *service, uint8_t byte)
{
    return xiquepazo_tag(service, 'S', byte, 0, 0);
}

/*
 * Int 16h. 10: the oldest word, removed. 11: the oldest word, left. 00, 01: the same, once the enhanced words at the head of the queue,
 * those with a high byte of 85 or more and a low byte of 00, are removed. 02: status, byte 17. 12: extended status. 03: delay a, rate b.
 * 05: put word a b. Refusals 2 to 5, as ans 82 to 85.
 * 10 and 11 return the word as it is stored. 00 and 01 return E00D, E00A and E02F as 1C0D, 1C0A and 352F, and 00 for the low byte of any other
 * word where that is E0 and the high byte is not 00; what 01 leaves stays as it is stored.
 */
static inline struct xiquepazo_shown xiquepazo_call(struct xiquepazo_service *service, uint8_t function, uint8_t a, uint8_t b)
{
    return xiquepazo_tag(service, 'C', function, a, b);
}

/* Asks for a byte to send: with XIQUEPAZO_SEND it is the low byte of `word`, and its reply is awaited. Never refused. */
static inline struct xiquepazo_shown xiquepazo_poll(struct xiquepazo_service *service)
{
    return xiquepazo_tag(service, 'P', 0, 0, 0);
}

/* No reply came in time. */
static inline struct xiquepazo_shown xiquepazo_time_out(struct xiquepazo_service *service)
{
    return xiquepazo_tag(service, 'T', 0, 0, 0);
}

/* Empties the queue. */
static inline struct xiquepazo_shown xiquepazo_empty(struct xiquepazo_service *service)
{
    return xiquepazo_tag(service, 'E', 0, 0, 0);
}

/* Restarts the line: idle, byte 97 zero, no rate waits, no LED value handled, the LED value's turn; and makes the controller new. */
static inline struct xiquepazo_shown xiquepazo_restart(struct xiquepazo_service *service)
{
    return xiquepazo_tag(service, 'R', 0, 0, 0);
}

#ifdef __cplusplus
}
#endif

#endif
