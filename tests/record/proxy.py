#!/usr/bin/env python3
"""Stands between one X client and its server, and keeps what the server sends.

  proxy.py NEW SERVER NAME     display numbers; writes NAME.setup, the server's setup reply, and
                               NAME.bin, all its bytes after that

It serves one client at display :NEW, passes every byte on to display :SERVER, and ends with the
client. How the streams were made: tests/README.md.
"""
import os
import selectors
import socket
import sys


def passed(source, target):
    """The bytes that came from source, passed on to target; none at its end."""
    try:
        data = source.recv(65536)
        target.sendall(data)
        return data
    except ConnectionError:
        return b""


def reply_length(data, order):
    """How long the setup reply is that data begins with, if its first eight bytes are there."""
    if len(data) < 8:
        return None
    return 8 + 4 * int.from_bytes(data[6:8], order)


def main(new, server, name):
    path = "/tmp/.X11-unix/X" + new
    if os.path.exists(path):
        os.unlink(path)
    door = socket.socket(socket.AF_UNIX)
    door.bind(path)
    door.listen(1)
    client, _ = door.accept()
    display = socket.socket(socket.AF_UNIX)
    display.connect("/tmp/.X11-unix/X" + server)
    ready = selectors.DefaultSelector()
    ready.register(client, selectors.EVENT_READ, display)
    ready.register(display, selectors.EVENT_READ, client)
    asked, said, going = b"", b"", True
    while going:
        for key, _ in ready.select():
            data = passed(key.fileobj, key.data)
            going = going and data != b""
            if key.fileobj is client:
                asked += data
            else:
                said += data
    os.unlink(path)
    end = reply_length(said, "big" if asked[:1] == b"B" else "little")
    open(name + ".setup", "wb").write(said[:end])
    open(name + ".bin", "wb").write(said[end:])


if __name__ == "__main__":
    if len(sys.argv) != 4:
        sys.exit(__doc__)
    main(*sys.argv[1:])
