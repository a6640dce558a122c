"""Turns qemu's trace of the keyboard controller into lines, one for each access, behind the header on standard input.

usage: lines.py TRACE TYPED words|text < HEADER

The serial port carries messages of the boot sector (words) or what a terminal gave (text).

The trace has the accesses, the level of interrupt line 1 and the bytes that the keyboard makes, but not the moment at
which a byte comes to stand at port 60. Controller works that out by qemu's rules; bits 0 and 5 of every status that was
read, and the source of every byte of keyboard and mouse, are held against it.
"""
import re
import sys
from collections import deque
from typist import presses, words

ANSWERS = {0xFF: 2, 0xF2: 3}            # bytes by which the keyboard answers a byte, where it is not one
MOUSE_ANSWERS = {0xFF: 3, 0xF2: 2}


class Made:
    """A byte of the keyboard or the mouse. Its value is known when it is read."""
    value = None

    def __str__(self):
        return f"{self.value:02X}"


class Controller:
    """Which byte stands at port 60. `lines` gets those that keyboard and mouse put there."""

    def __init__(self, lines):
        self.lines = lines
        self.command_byte = 0x03
        self.awaits = None              # the command that takes the next write to 60
        self.answer = None              # of the controller itself: "answer", or "mouse" where it has status bit 5
        self.waiting = {"reply": deque(), "key": deque(), "mouse": deque()}
        self.source = self.byte = None  # of what stands in the buffer

    def fill(self):
        if self.source:
            return
        if self.answer:
            self.source, self.answer = self.answer, None
        elif not self.command_byte & 0x10 and (self.waiting["reply"] or self.waiting["key"]):
            self.source = "key"
            self.byte = (self.waiting["reply"] or self.waiting["key"]).popleft()
            self.lines.append(("key", self.byte))
        elif not self.command_byte & 0x20 and self.waiting["mouse"]:
            self.source = "mouse"
            self.byte = self.waiting["mouse"].popleft()
            self.lines.append(("mouse", self.byte))

    def made(self, by, count=1):
        for _ in range(count):
            byte = Made()
            self.waiting[by].append(byte)
            self.fill()
            if self.byte is not byte and by != "mouse":
                self.lines.append(("kept", byte))

    def written64(self, value):
        self.awaits = value if value in (0x60, 0xD1, 0xD2, 0xD3, 0xD4) else None
        if value in (0xAD, 0xA7):
            self.command_byte |= 0x10 if value == 0xAD else 0x20
        elif value in (0xAE, 0xA8):
            self.command_byte &= ~(0x10 if value == 0xAE else 0x20)
        elif value in (0x20, 0xA9, 0xAA, 0xAB, 0xC0, 0xD0):
            self.answer = "answer"
        self.fill()

    def written60(self, value):
        if self.awaits == 0x60:
            self.command_byte = value
        elif self.awaits in (0xD2, 0xD3):
            self.answer = "answer" if self.awaits == 0xD2 else "mouse"
        self.awaits = None
        self.fill()

    def read(self, value):
        if self.byte:
            self.byte.value = value
        self.source = self.byte = None


class Lines:
    """The lines of a trace. An event of the trace is met by the method of its name; what has none tells nothing."""

    def __init__(self, typed, words_told):
        self.lines = []
        self.controller = Controller(self.lines)
        self.strokes = deque((stroke, press) for stroke in enumerate(words(typed)) for press in presses(stroke[1][0]))
        self.stroke = None              # that is being typed
        self.translated = False         # the keyboard sends set 2, and its codes are read as set 1
        self.level = 0                  # of interrupt line 1
        self.raised_before_read = False
        self.keyboard = None            # qemu's name for it
        self.words_told = words_told
        self.message = []               # on the serial port
        self.divisor = False            # what is written to the serial port is its divisor

    def add(self, trace):
        wanted = re.compile(r"pckbd_|ps2_|serial_write |pic_set_irq master 1 irq 1 ")
        traced = [line.split() for line in open(trace) if wanted.match(line)]
        for self.event, self.following in zip(traced, traced[1:] + [["end"]]):
            if method := getattr(self, self.event[0], None):
                method(int(self.event[-1], 0))
        assert not self.strokes, "typed but not in the trace"

    def pic_set_irq(self, level):
        """Where a read makes room for the next byte, the trace has that byte's interrupt before the read."""
        if level > self.level:
            self.raised_before_read = self.following[0] == "pckbd_kbd_read_data"
            if not self.raised_before_read:
                self.raise_interrupt()
        self.level = level

    def raise_interrupt(self):
        """Directly behind the byte that raised it: a reply of several bytes is made before it is raised."""
        place = len(self.lines)
        while self.lines[place - 1][0] == "kept":
            place -= 1
        self.lines.insert(place, ("irq1",))

    def ps2_kbd_reset(self, _):
        self.keyboard = self.event[1]

    def ps2_read_data(self, _):
        source = "key" if self.event[1] == self.keyboard else "mouse"
        assert self.controller.source == source, self.event

    def pckbd_kbd_read_data(self, value):
        self.lines.append(("r60", f"{value:02X}"))
        self.controller.read(value)
        self.controller.fill()
        if self.raised_before_read:
            self.raise_interrupt()
            self.raised_before_read = False

    def pckbd_kbd_read_status(self, value):
        self.lines.append(("r64", f"{value:02X}"))
        source = self.controller.source
        assert value & 0x21 == {None: 0, "mouse": 0x21}.get(source, 1), (self.event, source)

    def pckbd_kbd_write_command(self, value):
        self.lines.append(("w64", f"{value:02X}"))
        self.controller.written64(value)

    def pckbd_kbd_write_data(self, value):
        self.lines.append(("w60", f"{value:02X}"))
        self.controller.written60(value)

    def ps2_write_keyboard(self, value):
        self.controller.made("reply", ANSWERS.get(value, 1))

    def ps2_write_mouse(self, value):
        self.controller.made("mouse", MOUSE_ANSWERS.get(value, 1))

    def ps2_keyboard_event(self, translated):
        self.translated = translated
        stroke, (_, down) = self.strokes.popleft()
        assert down == int(self.event[self.event.index("down") + 1])
        if stroke != self.stroke:
            self.stroke = stroke
            _, (word, heading) = stroke
            self.lines.extend([("##", heading)] if heading else [])
            self.lines.append(("#", word))

    def ps2_put_keycode(self, code):
        """F0 and the code behind it are one byte where they are translated."""
        if not (self.translated and code == 0xF0):
            self.controller.made("key")

    def serial_write(self, value):
        address = int(self.event[-3], 16)
        if address == 3:
            self.divisor = value >= 0x80
        elif address == 0 and not self.divisor:
            self.tell(value)

    def tell(self, value):
        if not self.words_told:
            self.lines.extend([("text", f"{value:02X}")] if self.stroke else [])
            return
        self.message.append(value)
        if len(self.message) == 3:
            self.lines.append(self.told(*self.message))
            self.message = []

    def told(self, tag, high, low):
        """A message of the boot sector. The four flag bytes come as two messages, one behind the other."""
        word = f"{high:02X}{low:02X}"
        if tag == 0x40:
            return "flags", word
        if tag == 0x41:
            return "flags", self.lines.pop()[1] + word
        return "int16", f"{tag:02X}", word


def main(trace, typed, serial):
    sys.stdout.write(sys.stdin.read())
    lines = Lines(typed, serial == "words")
    lines.add(trace)
    for line in lines.lines:
        print(*line)


main(*sys.argv[1:])
