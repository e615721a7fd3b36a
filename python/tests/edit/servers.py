"""A redis-server of the tests' own, on a free port of 127.0.0.1."""

import contextlib
import socket
import subprocess
import threading
from pathlib import Path

from waiting import BOUND, until


def free_port() -> int:
    """A port that nobody listens at."""
    with socket.socket() as probe:
        probe.bind(("127.0.0.1", 0))
        port: int = probe.getsockname()[1]
        return port


class Server:
    """A server that keeps what it has in an append-only file, so that it can be stopped and started."""

    def __init__(self, folder: Path, *words: str) -> None:
        self.folder = folder
        self.words = words
        self.port = free_port()
        self.url = f"redis://127.0.0.1:{self.port}/0"
        self.start()

    def start(self) -> None:
        """Starts it, and waits until it answers."""
        about = ["--port", str(self.port), "--bind", "127.0.0.1", "--dir", str(self.folder), "--save", ""]
        log = ["--appendonly", "yes", "--logfile", str(self.folder / "redis.log")]
        self.process = subprocess.Popen(["redis-server", *about, *log, *self.words], stdin=subprocess.DEVNULL)
        until(self.answers)

    def answers(self) -> bool:
        """Whether it has read its file and answers, if only that it wants a password."""
        with socket.socket() as probe:
            probe.settimeout(1)
            if probe.connect_ex(("127.0.0.1", self.port)):
                return False
            probe.sendall(b"PING\r\n")
            return probe.recv(100).startswith((b"+PONG", b"-NOAUTH"))

    def stop(self) -> None:
        """Stops it, and waits until it is gone."""
        self.process.terminate()
        self.process.wait()


class Way:
    """A way to a server, on which an answer may stop in the middle."""

    def __init__(self, server: Server) -> None:
        self.server = server
        self.flows, self.is_stopped = threading.Event(), threading.Event()
        self.flows.set()
        self.listening = socket.create_server(("127.0.0.1", 0))
        self.url = f"redis://127.0.0.1:{self.listening.getsockname()[1]}/0"
        threading.Thread(target=self.serve, daemon=True).start()

    def serve(self) -> None:
        """Joins each connection with one to the server."""
        with contextlib.suppress(OSError):
            while True:
                near, _ = self.listening.accept()
                far = socket.create_connection(("127.0.0.1", self.server.port))
                threading.Thread(target=self.carry, args=(near, far, False), daemon=True).start()
                threading.Thread(target=self.carry, args=(far, near, True), daemon=True).start()

    def carry(self, source: socket.socket, target: socket.socket, is_answer: bool) -> None:
        """Carries what comes; where answers don't flow, a half of the first one."""
        with contextlib.suppress(OSError), source, target:
            while data := source.recv(1 << 16):
                if is_answer and not self.flows.is_set():
                    target.sendall(data[: len(data) // 2])
                    data = data[len(data) // 2 :]
                    self.is_stopped.set()
                    self.flows.wait(BOUND)
                target.sendall(data)

    def close(self) -> None:
        """Takes no more connections."""
        self.listening.close()
