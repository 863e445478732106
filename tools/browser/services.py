"""What stands around a page in the tests: a Telnet server, the gateway, and a stand-in for the web server."""
import contextlib
import functools
import http.client
import http.server
import pathlib
import shutil
import signal
import socket
import subprocess
import threading
import time

import sockets
from checks import PATIENCE, until

TOP = pathlib.Path(__file__).resolve().parent.parent.parent
GATEWAY = TOP / "crates/guacgate/out/guacgate"
LOOK = TOP / "crates/look/out/look"
ADDRESS = "127.0.0.1"


def free_port():
    with socket.create_server((ADDRESS, 0)) as it:
        return it.getsockname()[1]


def telnetd():
    return shutil.which("telnetd") or shutil.which("/usr/sbin/telnetd")


class TelnetServer:
    """Starts Debian's telnetd for each connection, as inetd does. `shell` is what a user gets."""

    def __init__(self, shell):
        self.shell = shell
        self.listener = socket.create_server((ADDRESS, 0))
        self.port = self.listener.getsockname()[1]
        self.processes = []
        threading.Thread(target=self.serve, daemon=True).start()

    def serve(self):
        with contextlib.suppress(OSError):
            while True:
                connection, _ = self.listener.accept()
                with connection:
                    words, env = [telnetd(), "-E", self.shell], {"PATH": "/usr/bin:/bin", "PS1": "$ ", "ENV": "", "HOME": "/"}
                    # A test that runs in the background may have been told to ignore Control-C, and so would the shell.
                    self.processes.append(
                        subprocess.Popen(words, stdin=connection, stdout=connection, stderr=subprocess.DEVNULL, env=env, preexec_fn=lambda: signal.signal(signal.SIGINT, signal.SIG_DFL))
                    )

    def close(self):
        self.listener.close()
        for process in self.processes:
            process.terminate()
            process.wait()


class Gateway:
    """The gateway, which listens on a port of this machine. `words` are more words of `serve`."""

    def __init__(self, seed, port=None, words=()):
        # A port that was free may be taken by then.
        for _ in range(1 if port else 3):
            self.port = port or free_port()
            self.process = subprocess.Popen([GATEWAY, "serve", "--seed", seed, "--port", str(self.port), *words], stderr=subprocess.DEVNULL)
            if until(True, lambda: self.process.poll() is not None or self.listens()) and self.process.poll() is None:
                return
            self.close()
        raise RuntimeError("the gateway doesn't listen")

    def listens(self):
        with contextlib.suppress(OSError), socket.create_connection((ADDRESS, self.port)):
            return True
        return False

    def close(self):
        self.process.terminate()
        self.process.wait()


class WebServer:
    """Hands out the page's files, and hands on requests of `/tunnel`, and where it `has_sockets` those of `/links` and
    WebSockets, which count as tunnels. It keeps the texts that reads were given and what was written, by tunnel. Where `forged` is set,
    reads are answered with that instead, while `holds` is, writes have no answer, and while `refuses` is set, those over
    HTTP aren't handed on: they are answered with that status, or with nothing for 0."""

    def __init__(self, gateway_port, has_sockets=True):
        self.has_sockets = has_sockets
        self.texts = {}
        self.written = {}
        self.forged = None
        self.holds = False
        self.refuses = None
        owner = self

        class Handler(http.server.SimpleHTTPRequestHandler):
            def __init__(self, *given):
                super().__init__(*given, directory=TOP / "web")

            def log_message(self, *_):
                pass

            def do_GET(self):
                path = self.path.partition("?")[0]
                if path == "/tunnel":
                    self.hand_on()
                elif path == "/websocket-tunnel" and owner.has_sockets:
                    self.close_connection = True
                    sockets.carry(owner, self, gateway_port)
                else:
                    super().do_GET()

            def do_POST(self):
                if self.path.startswith("/links") and not owner.has_sockets:
                    self.send_error(404)
                else:
                    self.hand_on()

            def hand_on(self):
                body = self.rfile.read(int(self.headers.get("Content-Length", 0)))
                end = time.time() + 4 * PATIENCE
                while owner.holds and "?write:" in self.path and time.time() < end:
                    time.sleep(0.05)
                if owner.refuses is not None and "?write:" in self.path:
                    if owner.refuses != 0:
                        self.send_error(owner.refuses)
                    return
                gateway = http.client.HTTPConnection(ADDRESS, gateway_port)
                try:
                    gateway.request(self.command, self.path, body)
                    answer = gateway.getresponse()
                    text = answer.read()
                except OSError:
                    with contextlib.suppress(OSError):
                        self.send_error(502)
                    return
                if owner.forged is not None and "?read:" in self.path:
                    text = owner.forged
                owner.note(self.path, body, answer.status, text)
                # A browser that was closed takes no answer any more.
                with contextlib.suppress(OSError):
                    self.answer(answer, text)

            def answer(self, answer, text):
                self.send_response(answer.status)
                for name, value in answer.getheaders():
                    self.send_header(name, str(len(text)) if name == "Content-Length" else value)
                self.end_headers()
                self.wfile.write(text)

        self.server = http.server.ThreadingHTTPServer((ADDRESS, 0), Handler)
        self.server.daemon_threads = True
        self.port = self.server.server_port
        threading.Thread(target=self.server.serve_forever, daemon=True).start()

    def note(self, path, body, status, text):
        _, _, query = path.partition("?")
        form, _, tunnel = query.partition(":")
        if status == 200 and form == "read":
            self.texts.setdefault(tunnel.split(":")[0], []).append(text.removesuffix(b"0.;"))
        elif status == 200 and form == "write":
            self.written[tunnel] = self.written.get(tunnel, b"") + body
        elif status == 200 and form == "connect":
            self.texts.setdefault(text.decode(), [])

    def given(self, tunnel):
        return b"".join(self.texts[tunnel])

    def close(self):
        self.server.shutdown()


class Link:
    """A port that is another one's, as long as the link isn't cut, which ends all connections at once, and isn't silent,
    when nothing goes through them."""

    def __init__(self, port):
        self.far = port
        self.is_silent = False
        self.is_cut = False
        self.pairs = set()
        self.listener = socket.create_server((ADDRESS, 0), backlog=64)
        self.port = self.listener.getsockname()[1]
        threading.Thread(target=self.serve, daemon=True).start()

    def serve(self):
        with contextlib.suppress(OSError):
            while True:
                near, _ = self.listener.accept()
                pair = (near, socket.create_connection((ADDRESS, self.far)))
                self.pairs.add(pair)
                if self.is_cut:
                    self.end(pair)
                for way in (pair, pair[::-1]):
                    threading.Thread(target=self.carry, args=(pair, *way), daemon=True).start()

    def carry(self, pair, source, sink):
        with contextlib.suppress(OSError):
            while piece := source.recv(65536):
                while self.is_silent:
                    time.sleep(0.02)
                sink.sendall(piece)
        self.end(pair)

    def end(self, pair):
        for it in pair:
            with contextlib.suppress(OSError):
                it.shutdown(socket.SHUT_RDWR)
            it.close()
        self.pairs.discard(pair)

    def cut(self):
        self.is_cut = True
        for pair in list(self.pairs):
            self.end(pair)

    def mend(self):
        self.is_cut = False
        self.is_silent = False

    def close(self):
        self.listener.close()
        self.cut()


def element(text):
    return f"{len(text)}.{text}"


def instruction(*elements):
    return (",".join(map(element, elements)) + ";").encode()


class Viewer:
    """A viewer by the Guacamole protocol over TCP, who reads all that it is given."""

    def __init__(self, port, *parts):
        self.socket = socket.create_connection((ADDRESS, port))
        for part in parts:
            self.socket.sendall(part)
        self.text = b""
        self.first = self.next()
        while self.first.startswith(b"4.args"):
            self.first = self.next()
        threading.Thread(target=self.read, daemon=True).start()

    def next(self):
        """The next instruction of the greeting, none of which has a `;` in a value."""
        got = b""
        while not got.endswith(b";"):
            byte = self.socket.recv(1)
            if not byte:
                return got
            got += byte
        return got

    def read(self):
        with contextlib.suppress(OSError):
            while piece := self.socket.recv(65536):
                self.text += piece
                self.acknowledge()

    def acknowledge(self):
        """Answers the last sync, as a client does: one who doesn't is given nothing more after 64."""
        self.socket.sendall(last_sync(self.text))

    @property
    def id(self):
        return self.first.decode().removeprefix("5.ready,37.").removesuffix(";")

    def close(self):
        self.socket.close()


def last_sync(text):
    """The last sync of a text that is whole, or nothing where the last isn't."""
    begin = text.rfind(b"4.sync,")
    return text[begin : text.find(b";", begin) + 1] if begin >= 0 else b""


def owner(gateway_port, telnet_port, sharing, width=640, height=384):
    """A viewer that opens a session."""
    ask = instruction("connect", "VERSION_1_1_0", ADDRESS, str(telnet_port), "", "", sharing)
    return Viewer(gateway_port, instruction("select", "telnet"), instruction("size", str(width), str(height), "96"), ask)


@functools.lru_cache(maxsize=8)
def screen_of(stream):
    """The screen that a stream leaves, as text, from `look`."""
    return subprocess.run([LOOK], input=stream, stdout=subprocess.PIPE, stderr=subprocess.DEVNULL).stdout.decode()


def screen_at(stream, stamp):
    """The screen of a stream at a stamp, as text, from `look`."""
    return subprocess.run([LOOK, "stamp", stamp], input=stream, stdout=subprocess.PIPE, stderr=subprocess.DEVNULL).stdout.decode()


def until_prompt(stream_of):
    """Waits for the shell's prompt. What is typed before it is shown on a line of its own, above it."""
    until(True, lambda: screen_of(stream_of()).rstrip()[-1:] in ("$", "#"))


def picture_at(stream, stamp):
    """The pixels that the gateway's own canvas shows of a stream at a stamp: width, height, and the bytes of red,
    green and blue, from `look`."""
    ran = subprocess.run([LOOK, "ppm", "stamp", stamp], input=stream, stdout=subprocess.PIPE, stderr=subprocess.DEVNULL, check=True)
    kind, width, height, most, pixels = ran.stdout.split(None, 4) if ran.stdout[:2] == b"P3" else binary(ran.stdout)
    return int(width), int(height), pixels


def binary(text):
    """The parts of a binary pixmap: the head's four words end with one white space."""
    words, at = [], 0
    while len(words) < 4:
        end = next(k for k in range(at, len(text)) if text[k : k + 1].isspace())
        words.append(text[at:end])
        at = end + 1
    return (*words, text[at:])
