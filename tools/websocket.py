"""A client of a WebSocket on this machine, as a browser would be one, in Python's standard library.

    socket = WebSocket(8080)      # a page of another site, WebSocket(8080, "http://example.org"), is Refused
    socket.put("count")
    socket.take()                            # one message, as text"""
import base64
import os
import socket
import struct


class Refused(Exception):
    """The server did not take the connection; the text is its status line."""


class WebSocket:
    def __init__(self, port, origin=None, seconds=20):
        self.socket, self.left = socket.create_connection(("127.0.0.1", port), seconds), bytearray()
        self.socket.setsockopt(socket.IPPROTO_TCP, socket.TCP_NODELAY, 1)
        key, host = base64.b64encode(os.urandom(16)).decode(), f"127.0.0.1:{port}"
        words = ["GET / HTTP/1.1", f"Host: {host}", "Upgrade: websocket", "Connection: Upgrade"]
        words += ["Sec-WebSocket-Version: 13", f"Sec-WebSocket-Key: {key}"]
        words += [f"Origin: {origin or f'http://{host}'}", "", ""]
        self.socket.sendall("\r\n".join(words).encode())
        while b"\r\n\r\n" not in self.left:
            self.receive()
        head, _, rest = bytes(self.left).partition(b"\r\n\r\n")
        if b" 101 " not in head.split(b"\r\n")[0]:
            self.socket.close()
            raise Refused(head.split(b"\r\n")[0].decode())
        self.left = bytearray(rest)

    def receive(self):
        got = self.socket.recv(1 << 16)
        if not got:
            raise EOFError("the server has closed the connection")
        self.left.extend(got)

    def put(self, text):
        """Sends one message."""
        data, mask = text.encode() if isinstance(text, str) else text, os.urandom(4)
        size = len(data)
        long = struct.pack(">BH", 0xFE, size) if size < 65536 else struct.pack(">BQ", 0xFF, size)
        head = bytes([0x81]) + (bytes([0x80 | size]) if size < 126 else long)
        whole = int.from_bytes(data, "big") ^ int.from_bytes((mask * (size // 4 + 1))[:size], "big")
        self.socket.sendall(head + mask + whole.to_bytes(size, "big"))

    def bytes_of(self, begin, end):
        while len(self.left) < end:
            self.receive()
        return bytes(self.left[begin:end])

    def take(self):
        """Takes one message, which may come in several frames."""
        parts, last = [], False
        while not last:
            last, part = self.take_frame()
            parts.append(part)
        return b"".join(parts).decode()

    def take_frame(self):
        first, second = self.bytes_of(0, 2)
        size, at = second & 127, 2
        if size > 125:
            at = 4 if size == 126 else 10
            size = int.from_bytes(self.bytes_of(2, at), "big")
        part = self.bytes_of(at, at + size)
        del self.left[: at + size]
        return bool(first & 128), part

    def break_off(self, rudely=False):
        """Closes the connection; rudely, with a reset and whatever was not read."""
        if rudely:
            self.socket.setsockopt(socket.SOL_SOCKET, socket.SO_LINGER, struct.pack("ii", 1, 0))
        self.socket.close()
