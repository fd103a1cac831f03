"""A proxy between clients and a server, for tests and benches of clients that are cut off and come back."""

from __future__ import annotations

import contextlib
import socket
import threading
from types import TracebackType


class Proxy:
    """Stands before a server, counts the bytes that it sends to each connection, keeps what clients ask, and cuts all off."""

    def __init__(self, port: int) -> None:
        self.port = port
        self.asked: list[str] = []
        self.sent: list[int] = []
        self.open: list[tuple[socket.socket, socket.socket]] = []
        self.listener = socket.create_server(("127.0.0.1", 0))
        self.remote = f"tcp:127.0.0.1:{self.listener.getsockname()[1]}"
        threading.Thread(target=self.accept, daemon=True).start()

    def __enter__(self) -> Proxy:
        return self

    def __exit__(self, _kind: type[BaseException] | None, _error: BaseException | None, _trace: TracebackType | None) -> None:
        self.listener.close()
        self.cut()

    def accept(self) -> None:
        with contextlib.suppress(OSError):
            while True:
                client, _ = self.listener.accept()
                server = socket.create_connection(("127.0.0.1", self.port))
                self.open.append((client, server))
                self.asked.append("")
                self.sent.append(0)
                place = len(self.sent) - 1
                threading.Thread(target=self.move, args=(client, server, place, True), daemon=True).start()
                threading.Thread(target=self.move, args=(server, client, place, False), daemon=True).start()

    def move(self, source: socket.socket, target: socket.socket, place: int, is_asked: bool) -> None:
        with contextlib.suppress(OSError):
            while part := source.recv(65536):
                if is_asked:
                    self.asked[place] += part.decode()
                else:
                    self.sent[place] += len(part)
                target.sendall(part)
        for each in (source, target):
            with contextlib.suppress(OSError):
                each.shutdown(socket.SHUT_RDWR)

    def cut(self) -> None:
        for pair in self.open:
            for each in pair:
                with contextlib.suppress(OSError):
                    each.shutdown(socket.SHUT_RDWR)
        self.open = []
