"""A small line terminal: it sends the messages of a script by a network interface, one after the other's reply, and prints the answers as
`onuctl replay` does. Linux alone has its sockets.
usage: terminal.py IFACE SCRIPT [SECONDS]
  SECONDS pass between two messages, none without it. The status is 1 where a reply doesn't come within two seconds."""

import socket
import sys
import time
from typing import Iterator, Optional

TYPE = 0x88B5
EVERYONE = b"\xff" * 6
ANSWER_WANTED, IS_ANSWER = 0x40, 0x20
PATIENCE = 2.0


class Terminal:
    """A line terminal at an interface."""

    def __init__(self, interface: str) -> None:
        self.socket = socket.socket(socket.AF_PACKET, socket.SOCK_RAW, 0)
        self.socket.bind((interface, TYPE))
        self.socket.settimeout(PATIENCE)
        self.address = self.socket.getsockname()[4]

    def send(self, message: bytes) -> None:
        self.socket.send(EVERYONE + self.address + TYPE.to_bytes(2, "big") + message)

    def reply(self) -> Optional[bytes]:
        """The next reply, or None where none comes in time. It is addressed to this interface."""
        until = time.monotonic() + PATIENCE
        while time.monotonic() < until:
            try:
                frame = self.socket.recv(2048)
            except socket.timeout:
                return None
            if frame[:6] == self.address and frame[16] & IS_ANSWER:
                return frame[14:62]
        return None

    def ask(self, message: bytes) -> Optional[bytes]:
        """Sends a message, and returns the reply to it, if it wants one and that comes in time."""
        self.send(message)
        if len(message) < 3 or not message[2] & ANSWER_WANTED:
            return None
        reply = self.reply()
        while reply is not None and reply[:2] != message[:2]:
            reply = self.reply()
        return reply


def messages(script: str) -> Iterator[bytes]:
    """The messages of a script."""
    for line in script.splitlines():
        if line.startswith("o "):
            yield bytes.fromhex(line[2:])


def main(words: "list[str]") -> int:
    if len(words) not in (2, 3):
        print(__doc__, file=sys.stderr)
        return 1
    terminal = Terminal(words[0])
    with open(words[1], encoding="utf-8") as file:
        script = file.read()
    for message in messages(script):
        reply = terminal.ask(message)
        if reply is None and message[2] & ANSWER_WANTED:
            print("no reply")
            return 1
        print("r " + reply.hex() if reply else "-", flush=True)
        time.sleep(float(words[2]) if len(words) == 3 else 0)
    return 0


if __name__ == "__main__":
    sys.exit(main(sys.argv[1:]))
