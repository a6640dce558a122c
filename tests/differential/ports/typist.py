"""Types at the virtual machine: presses and releases keys over its monitor's socket.

usage: typist.py SOCKET TRACE READY TYPED

Waits until the file TRACE holds the text READY, types what the file TYPED says, and ends the machine. A word of TYPED is
  a             press and release
  shift+a       press in order, release in the opposite order
  +alt, -alt    press only, release only
  q,w,e         each pressed and released, all before the machine reads a byte
with the monitor's names of the keys. A line that starts with "#" heads the words below it.
"""
import json
import os
import socket
import sys
import time

PAUSE = 0.08                            # seconds between two presses
LONGEST = 120                           # seconds until the machine is ready


def words(typed):
    """The words of the file, each with the heading that stands directly above it, if one does."""
    found, heading = [], None
    for line in open(typed):
        if line.startswith("#"):
            heading = line[1:].strip()
            continue
        for word in line.split():
            found.append((word, heading))
            heading = None
    return found


def presses(word):
    """The presses and releases that a word means, as pairs of name and down."""
    if word[0] in "+-":
        return [(word[1:], word[0] == "+")]
    if "," in word:
        return [press for part in word.split(",") for press in presses(part)]
    names = word.split("+")
    return [(name, True) for name in names] + [(name, False) for name in reversed(names)]


def wait_until_ready(trace, ready):
    for _ in range(LONGEST):
        time.sleep(1)
        if os.path.exists(trace) and ready in open(trace).read():
            break
    else:
        sys.exit(f"{trace}: not ready")
    time.sleep(1)


class Monitor:
    """The machine's monitor, at its socket."""

    def __init__(self, path):
        link = socket.socket(socket.AF_UNIX)
        link.connect(path)
        self.stream = link.makefile("rw")
        self.stream.readline()
        self.ask("qmp_capabilities")

    def ask(self, command, **arguments):
        self.stream.write(json.dumps({"execute": command, "arguments": arguments}) + "\n")
        self.stream.flush()
        while "return" not in (answer := json.loads(self.stream.readline())):
            assert "error" not in answer, answer


def main(path, trace, ready, typed):
    wait_until_ready(trace, ready)
    monitor = Monitor(path)
    for word, _ in words(typed):
        keys = [
            {"type": "key", "data": {"down": down, "key": {"type": "qcode", "data": name}}}
            for name, down in presses(word)]
        for together in [keys] if "," in word else [[key] for key in keys]:
            monitor.ask("input-send-event", events=together)
            time.sleep(PAUSE)
    time.sleep(1)
    monitor.ask("quit")


if __name__ == "__main__":
    main(*sys.argv[1:])
