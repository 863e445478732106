"""WebSockets (RFC 6455) as the stand-in for the web server hands them on: it reads along, and may change what is said."""
import contextlib
import itertools
import socket
import struct
import threading
import time

ADDRESS = "127.0.0.1"
TEXT = 1
NUMBERS = itertools.count(1)


def frame(payload, opcode=TEXT, mask=b"", is_last=True):
    """A frame, masked where a mask of four bytes is given."""
    size = len(payload)
    kind, more = (size, b"") if size < 126 else (126, struct.pack(">H", size)) if size < 65536 else (127, struct.pack(">Q", size))
    return bytes([128 * is_last | opcode, 128 * bool(mask) | kind]) + more + mask + masked(payload, mask)


def masked(payload, mask):
    if not mask:
        return payload
    mask = (mask * (len(payload) // 4 + 1))[: len(payload)]
    return bytes(a ^ b for a, b in zip(payload, mask))


def frames(pieces):
    """The frames of pieces of bytes: each as its bytes, its opcode and what it holds, unmasked."""
    held = b""
    for piece in pieces:
        held += piece
        while found := first(held):
            yield found
            held = held[len(found[0]) :]


def first(held):
    """The first frame, or None where it isn't whole."""
    if len(held) < 2:
        return None
    size, at = held[1] & 127, 2
    if size > 125:
        wide = 2 if size == 126 else 8
        size, at = int.from_bytes(held[2 : 2 + wide], "big"), 2 + wide
    mask = held[at : at + 4] if held[1] & 128 else b""
    at += 4 * (held[1] >> 7)
    if len(held) < at + size:
        return None
    return held[: at + size], held[0] & 15, masked(held[at : at + size], mask)


def pieces_of(source):
    with contextlib.suppress(OSError):
        while piece := source.recv(65536):
            yield piece


def end(*ends):
    for it in ends:
        with contextlib.suppress(OSError):
            it.shutdown(socket.SHUT_RDWR)


def carry(owner, handler, port):
    """Hands a handshake on to the gateway, and all that follows, until one side ends it."""
    near, far = handler.connection, socket.create_connection((ADDRESS, port))
    # A web server sends on at once (nginx: tcp_nodelay), and a small message behind another would else wait for an answer.
    for it in (near, far):
        it.setsockopt(socket.IPPROTO_TCP, socket.TCP_NODELAY, 1)
    # The server may have read the browser's first message, which none sends before the answer.
    far.sendall(f"{handler.requestline}\r\n{handler.headers}".replace("\r\n", "\n").replace("\n", "\r\n").encode())
    head = b""
    while not head.endswith(b"\r\n\r\n") and (byte := far.recv(1)):
        head += byte
    near.sendall(head)
    name = f"socket {next(NUMBERS)}"
    threading.Thread(target=say, args=(owner, name, near, far), daemon=True).start()
    with contextlib.suppress(OSError):
        for raw, opcode, text in frames(pieces_of(far)):
            near.sendall(answer(owner, name, raw, text) if opcode == TEXT else raw)
    end(near, far)


def answer(owner, name, raw, text):
    """What a browser is given for a message of the gateway."""
    if name not in owner.texts:
        if text.startswith(b"5.error"):
            return raw
        owner.texts[name] = [text.partition(b";")[2]]
        return raw
    if owner.forged is not None:
        raw, text = frame(owner.forged), owner.forged
    owner.texts[name].append(text)
    return raw


def say(owner, name, near, far):
    """Hands on what a browser says."""
    is_form = True
    with contextlib.suppress(OSError):
        for raw, opcode, text in frames(pieces_of(near)):
            while owner.holds:
                time.sleep(0.05)
            far.sendall(raw)
            if opcode == TEXT and not is_form:
                owner.written[name] = owner.written.get(name, b"") + text
            is_form = False
    end(near, far)
