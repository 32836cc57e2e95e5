"""What the scripts here and in bench/ share: the built program as a service, clients of it, and made records."""
import hashlib
import http.client
import os
import signal
import socket
import struct
import subprocess
import threading
import time

TOP = os.path.dirname(os.path.dirname(os.path.abspath(__file__)))
PROGRAM = os.path.join(TOP, "crates", "velkatsa", "out", "velkatsa")
PASSWORD = "password"


def md5(text):
    return hashlib.md5(text.encode()).hexdigest()


def ha1_of(user):
    return md5(f"{user}:FDSN:{PASSWORD}")


def user_line(user, role):
    """The line of a revision that adds a user."""
    return f"USR|{user}|{ha1_of(user)}|{role}\n"


def record(second=0, station="ANMO", network="IU", location="00", month=2):
    """100 samples at 20 Hz of the channel BHZ, from so many seconds after the first of that month of 2024; 512 bytes."""
    day, rest = divmod(second, 86400)
    day += {1: 1, 2: 32}[month]
    head = b"000001D " + station.ljust(5).encode() + location.encode() + b"BHZ" + network.encode()
    head += (2024).to_bytes(2, "big") + day.to_bytes(2, "big") + bytes([rest // 3600, rest // 60 % 60, rest % 60, 0, 0, 0])
    head += bytes.fromhex("0064 0014 0001 00000001 00000000 0040 0030 03e8 0000 0a01 0900".replace(" ", ""))
    return head + bytes(512 - len(head))


class Wrongs:
    """What came out otherwise than it should."""

    def __init__(self):
        self.lines = []

    def expect(self, what, got, wanted):
        if got != wanted:
            self.lines.append(f"{what}: {got!r}, wanted {wanted!r}")

    def told(self):
        """Prints them, and gives the status."""
        for line in self.lines:
            print(line)
        return 1 if self.lines else 0


def authorization(user, nonce, method, target):
    """The value of the header by which a user answers a challenge (RFC 2617, without qop)."""
    response = md5(f"{ha1_of(user)}:{nonce}:{md5(f'{method}:{target}')}")
    return f'Digest username="{user}", realm="FDSN", nonce="{nonce}", uri="{target}", response="{response}"'


def nonce_of(challenge):
    return challenge.split('nonce="')[1].split('"')[0]


def founded(journal):
    """A new archive of the operator op."""
    subprocess.run([PROGRAM, "init", "--journal", journal, "--operator", "op", "--ha1", ha1_of("op")], check=True)
    return journal


def free_port(count):
    """A port from which on so many are free on 127.0.0.1."""
    while True:
        with socket.socket() as free:
            free.bind(("127.0.0.1", 0))
            port = free.getsockname()[1]
        try:
            for number in range(count):
                with socket.socket() as it:
                    it.bind(("127.0.0.1", port + number))
            return port
        except OSError:
            continue


def await_port(port):
    """Waits until somebody listens there."""
    for _ in range(2400):
        try:
            socket.create_connection(("127.0.0.1", port), timeout=1).close()
            return
        except OSError:
            time.sleep(0.05)
    raise SystemExit("nobody listens")


class Service:
    """A process of `serve` on 127.0.0.1."""

    def __init__(self, journal, workers=2, *options, port=None):
        self.port = port or free_port(workers)
        self.process = subprocess.Popen(
            [PROGRAM, "serve", f"--journal={journal}", "--listen", f"127.0.0.1:{self.port}", "--workers", str(workers), *options],
            stdin=subprocess.DEVNULL, stdout=subprocess.PIPE, stderr=subprocess.PIPE,
        )
        await_port(self.port)

    def url(self, target="", worker=0):
        return f"http://127.0.0.1:{self.port + worker}{target}"

    def client(self, worker=0):
        return Client(self.port + worker)

    def kill(self):
        self.process.send_signal(signal.SIGKILL)
        self.process.communicate()

    def end(self):
        """The status and the text on standard error, once it ended by itself."""
        _, errors = self.process.communicate(timeout=60)
        return self.process.returncode, errors.decode()


class Client:
    """One connection, kept open; it is opened again where the service closed it."""

    def __init__(self, port):
        self.link = http.client.HTTPConnection("127.0.0.1", port, timeout=120)
        self.nonce = None

    def ask(self, method, target, body=None, fields=None):
        """The status, the headers and the body of the reply."""
        self.link.request(method, target, body, fields or {})
        reply = self.link.getresponse()
        return reply.status, reply.headers, reply.read()

    def signed(self, user, method, target, body=None, fields=None):
        """The same as a user, with Digest: where the nonce is none, or too old, the reply has a new one."""
        for _ in range(2):
            signed = dict(fields or {})
            if self.nonce:
                signed["Authorization"] = authorization(user, self.nonce, method, target)
            status, got, told = self.ask(method, target, body, signed)
            if status != 401:
                break
            self.nonce = nonce_of(got["WWW-Authenticate"])
        return status, got, told

    def post(self, user, target, body):
        """Posts, and gives the status, the text and the front."""
        status, got, told = self.signed(user, "POST", target, body)
        return status, told.decode(), int(got["X-Archive-Front"])

    def close(self):
        self.link.close()


class Talk:
    """One process of `talk`, and its connection; `before` are words that come before the program's."""

    def __init__(self, journal, *options, before=(), **more):
        self.process = subprocess.Popen(
            [*before, PROGRAM, "talk", "--journal", journal, *options],
            stdin=subprocess.PIPE, stdout=subprocess.PIPE, stderr=subprocess.PIPE, **more,
        )

    def ask(self, method, target, body=b"", fields=""):
        """The status, the fields and the body of the reply."""
        head = f"{method} {target} HTTP/1.1\r\nHost: localhost\r\n{fields}"
        if method == "POST":
            head += f"Content-Length: {len(body)}\r\n"
        self.process.stdin.write(head.encode() + b"\r\n" + body)
        self.process.stdin.flush()
        return self.reply()

    def reply(self):
        lines = []
        while (line := self.process.stdout.readline()) not in (b"\r\n", b""):
            lines.append(line.decode().strip())
        fields = dict(line.split(": ", 1) for line in lines[1:])
        body = self.process.stdout.read(int(fields.get("Content-Length", 0)))
        return int(lines[0].split()[1]) if lines else 0, fields, body

    def post(self, user, target, body):
        """The same with Digest: what is asked first is answered with a nonce."""
        _, fields, _ = self.ask("POST", target, body)
        signed = authorization(user, nonce_of(fields["WWW-Authenticate"]), "POST", target)
        status, fields, told = self.ask("POST", target, body, f"Authorization: {signed}\r\n")
        return status, told.decode()

    def end(self):
        """The status and the text on standard error."""
        out, errors = self.process.communicate()
        return self.process.returncode, errors.decode()


def reply(status, body=b"", front=4, length=None):
    """The bytes of a reply, with such a front and such a Content-Length: none where it is None or "", and the body's by default."""
    fields = [f"X-Archive-Front: {front}"] if front is not None else []
    size = length if length is not None else len(body) if status != 204 else ""
    fields += [f"Content-Length: {size}"] if size != "" else []
    return "\r\n".join([f"HTTP/1.1 {status} Told", *fields, "", ""]).encode() + body


class Peer:
    """A data centre of a few lines on 127.0.0.1. To each request `answer`, of its number from 0, gives the bytes that it sends
    before it closes the connection, or None where it resets it; `heads` are the requests, and `sent` counts the bytes."""

    def __init__(self, answer):
        self.answer, self.heads, self.sent = answer, [], 0
        self.listener = socket.create_server(("127.0.0.1", 0))
        self.address = f"127.0.0.1:{self.listener.getsockname()[1]}"
        self.thread = threading.Thread(target=self.run, daemon=True)
        self.thread.start()

    def run(self):
        while True:
            try:
                link, _ = self.listener.accept()
            except OSError:
                return
            with link:
                try:
                    self.serve(link)
                except OSError:
                    pass

    def serve(self, link):
        head = b""
        while not head.endswith(b"\r\n\r\n"):
            piece = link.recv(4096)
            if not piece:
                return
            head += piece
        self.heads.append(head.decode())
        told = self.answer(len(self.heads) - 1)
        if told is None:
            link.setsockopt(socket.SOL_SOCKET, socket.SO_LINGER, struct.pack("ii", 1, 0))
        else:
            self.sent += len(told)
            link.sendall(told)

    def close(self):
        self.listener.shutdown(socket.SHUT_RDWR)
        self.thread.join()
        self.listener.close()
