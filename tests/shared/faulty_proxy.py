"""A proxy between a client and a server that cuts, delays, hangs or damages what the server sends."""
import contextlib
import socket
import threading
import time
from typing import Callable, List

CHUNK = 1 << 14


class Proxy:
    """Passes on what comes to an address and a port. fault is cut, hang, delay, damage or lose (a byte), and is for
    connections of which the server has sent `at` bytes: the first `times` of them."""

    def __init__(self, address: str, port: int, target: str, fault: str, at: int, times: int) -> None:
        self.fault, self.at, self.times, self.connections = fault, at, times, 0
        self._target, self._port = target, port
        self._listener = socket.create_server((address, port))
        self._open: List[socket.socket] = []
        threading.Thread(target=self._accept, daemon=True).start()

    def _accept(self) -> None:
        while True:
            try:
                client, _ = self._listener.accept()
                server = socket.create_connection((self._target, self._port))
            except OSError:
                return
            self.connections += 1
            self._open += [client, server]
            for words in ((client, server, lambda data, sent: data), (server, client, self._spoil)):
                threading.Thread(target=self._pass, args=words, daemon=True).start()

    def _spoil(self, data: bytes, sent: int) -> bytes:
        at = self.at - sent
        if not self.fault or not 0 <= at < len(data) or self.times <= 0:
            return data
        self.times -= 1
        if self.fault == "cut":
            raise OSError("cut")
        if self.fault in ("hang", "delay"):
            time.sleep(3_600 if self.fault == "hang" else 4)
            return data
        return data[:at] + (bytes([data[at] ^ 0x55]) if self.fault == "damage" else b"") + data[at + 1:]

    @staticmethod
    def _pass(source: socket.socket, to: socket.socket, change: Callable[[bytes, int], bytes]) -> None:
        sent = 0
        try:
            while True:
                data = source.recv(CHUNK)
                if not data:
                    break
                to.sendall(change(data, sent))
                sent += len(data)
        except OSError:
            pass
        _end(source, to)

    def close(self) -> None:
        _end(self._listener, *self._open)


def _end(*sockets: socket.socket) -> None:
    for one in sockets:
        with contextlib.suppress(OSError):
            one.shutdown(socket.SHUT_RDWR)  # which wakes a thread that waits for it
        one.close()
