#!/usr/bin/env python3
"""Opens connections to an X server by hand and keeps its setup replies.

  setups.py SERVER FOLDER      display number; writes FOLDER/l.setup, B.setup (a success in either
                               byte order) and l-failed.setup, B-failed.setup (version 12.0)
"""
import socket
import struct
import sys


def reply(server, order, major):
    """What the server sends to a setup request without authority, whole."""
    mark = "<" if order == b"l" else ">"
    display = socket.socket(socket.AF_UNIX)
    display.connect("/tmp/.X11-unix/X" + server)
    display.sendall(struct.pack(mark + "cxHHHHxx", order, major, 0, 0, 0))
    said = b""
    while len(said) < 8 or len(said) < 8 + 4 * struct.unpack_from(mark + "H", said, 6)[0]:
        said += display.recv(65536)
    return said


def main(server, folder):
    for order in ("l", "B"):
        for name, major in (("", 11), ("-failed", 12)):
            open(f"{folder}/{order}{name}.setup", "wb").write(reply(server, order.encode(), major))


if __name__ == "__main__":
    if len(sys.argv) != 3:
        sys.exit(__doc__)
    main(*sys.argv[1:])
