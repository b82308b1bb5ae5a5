"""What both parts of the page's tests need: a server of the page over a program, calls to it by plain sockets, and a
count of what passed."""
import base64
import json
import os
import re
import resource
import shutil
import signal
import socket
import subprocess
import sys
import tempfile

TOP = os.path.dirname(os.path.dirname(os.path.dirname(os.path.abspath(__file__))))
# How long anything may take on a loaded machine, in seconds.
PATIENCE = 120


class Notes:
    """Counts what passed and what failed, and tells what failed."""

    def __init__(self):
        self.passed = self.failed = 0

    def same(self, told, found, wanted):
        """Notes whether what was found is what was wanted."""
        self.so(told, found == wanted, f"{found!r}, not {wanted!r}")

    def so(self, told, is_so, why=""):
        """Notes whether something is so."""
        self.passed, self.failed = self.passed + bool(is_so), self.failed + (not is_so)
        if not is_so:
            print(f"WRONG: {told}: {why}", flush=True)


class Served:
    """A server of the page, with a folder of its own for all its files."""

    def __init__(self, program, *words, command=None, most_bytes=None, **environ):
        # pylint: disable=consider-using-with
        self.room = tempfile.TemporaryDirectory()
        limit = most_bytes and (lambda: resource.setrlimit(resource.RLIMIT_FSIZE, (most_bytes, most_bytes)))
        self.process = subprocess.Popen(
            [*(command or [f"{TOP}/page/serve", program]), *words], stdin=subprocess.DEVNULL, stdout=subprocess.PIPE,
            stderr=subprocess.PIPE, env={**os.environ, "TMPDIR": self.room.name, **environ}, preexec_fn=limit,
        )
        self.address = self.process.stdout.readline().decode().strip()
        found = re.fullmatch(r"http://(127\.0\.0\.1:(\d+))/([\w-]+)/", self.address)
        self.host, self.port, self.key = found[1], int(found[2]), found[3]

    def __enter__(self):
        return self

    def __exit__(self, *_):
        self.end()
        self.process.stdout.close()
        self.process.stderr.close()
        self.room.cleanup()

    def end(self, number=signal.SIGTERM):
        """Ends the server, and gives its status and what it left in its folder."""
        self.process.send_signal(number)
        return self.process.wait(PATIENCE), os.listdir(self.room.name)

    def connect(self):
        """A connection to the server."""
        return socket.create_connection(("127.0.0.1", self.port), timeout=PATIENCE)

    def send(self, data):
        """What the server answers to these bytes: the status, the head and the body."""
        with self.connect() as it:
            it.sendall(data)
            return read_answer(it)

    def call(self, path, method="GET", body=None, key=None, **heads):
        """What the server answers to a call: the status, the head and the body."""
        data = b"" if body is None else json.dumps(body).encode()
        lines = {"Host": self.host, **heads, **({} if body is None else {"Content-Length": len(data)})}
        head = "".join(f"{name}: {value}\r\n" for name, value in lines.items())
        return self.send(f"{method} /{self.key if key is None else key}/{path} HTTP/1.1\r\n{head}\r\n".encode() + data)

    def begin(self, ask, words=None, files=None, **more):
        """Begins a job, and gives the status and what is told of it."""
        given = {
            name: {"name": it, "bytes": base64.b64encode(data).decode()} for name, (it, data) in (files or {}).items()
        }
        status, _, body = self.call("jobs", "POST", {"ask": ask, "words": words or {}, "files": given, **more})
        return status, json.loads(body)

    def events(self, job):
        """All that a job tells, up to its end."""
        lines = self.call(f"jobs/{job}")[2].decode().split("\n")
        told = [json.loads(line[6:]) for line in lines if line.startswith("data: ")]
        return [it for it in told if it["told"] != "time"]


def read_answer(connection):
    """An answer from a connection, read to its end."""
    data = b""
    while part := connection.recv(1 << 16):
        data += part
    head, _, body = data.partition(b"\r\n\r\n")
    return int(head.split(b" ")[1]) if head else 0, head.decode("latin-1"), body


def refusal(answer):
    """The status and the words of a refusal; what came instead, where it is none."""
    try:
        return answer[0], json.loads(answer[2])["refused"]
    except (ValueError, KeyError):
        return answer[0], answer[2][:80]


def example(name):
    """The name and the bytes of an example."""
    with open(f"{TOP}/examples/{name}", "rb") as it:
        return name, it.read()


def copy_examples(room):
    """A folder with the files of examples/, which may be written even where these may not."""
    folder = os.path.join(room, "examples")
    os.mkdir(folder)
    for name in os.listdir(f"{TOP}/examples"):
        if os.path.isfile(f"{TOP}/examples/{name}"):
            shutil.copyfile(f"{TOP}/examples/{name}", f"{folder}/{name}")
    return folder


def run_program(program, words, folder):
    """The exit code and the output of the program."""
    ran = subprocess.run(
        [program, *words], cwd=folder, stdin=subprocess.DEVNULL, stdout=subprocess.PIPE, stderr=subprocess.DEVNULL,
        timeout=PATIENCE, check=False,
    )
    return ran.returncode, ran.stdout


def page_module(name):
    """A module of the page's server."""
    if f"{TOP}/page" not in sys.path:
        sys.path.insert(0, f"{TOP}/page")
    return __import__(name)
