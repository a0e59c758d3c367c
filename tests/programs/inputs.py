"""Inputs that a file is not: in pieces, without an end, silent, and failing. Each is a stream for a program to read from.

Where there is a feeder, it is a thread that ends with its octets, or once nobody reads any more.
"""

import os
import socket
import threading


def fed_by(writer, feed):
    """Has a thread feed a writer, which must be closed by it."""
    def run():
        try:
            with writer:
                feed(writer)
        except (BrokenPipeError, ConnectionResetError):
            pass

    threading.Thread(target=run, daemon=True).start()


def piped(pieces):
    """A pipe that gets these pieces, which a reader may find joined."""
    reader, writer = os.pipe()
    fed_by(open(writer, "wb", buffering=0), lambda stream: [stream.write(piece) for piece in pieces])
    return open(reader, "rb", buffering=0)


def in_pieces(pieces):
    """A stream of which each read gives one of these pieces, and no more of it than the reader asked for."""
    reader, writer = socket.socketpair(socket.AF_UNIX, socket.SOCK_SEQPACKET)
    fed_by(writer, lambda stream: [stream.sendall(piece) for piece in pieces])
    return reader


def silent_behind(octets):
    """A stream that gives these octets, and then neither more nor an end, and its other side, which must be kept until the reader is done."""
    reader, writer = socket.socketpair()
    writer.sendall(octets)
    return reader, writer


def failing_behind(octets):
    """A socket whose reader gets these octets, and then no end but an error.

    The other side goes away with an octet unread, which the system tells as a connection reset.
    """
    reader, writer = socket.socketpair()
    reader.send(b"x")
    fed_by(writer, lambda stream: stream.sendall(octets))
    return reader
