"""What the tests of the service share: services that are started and killed, requests, and the check of what is stored."""
import atexit
import hashlib
import http.client
import json
import os
import socket
import subprocess
import tempfile
import time
import urllib.parse

TOP = os.path.dirname(os.path.dirname(os.path.dirname(os.path.realpath(__file__))))
PROGRAM = os.path.join(TOP, "build", "mlscheckd")
MLSCHECK = os.environ.get("MLSCHECK") or os.path.join(TOP, "crates", "mlscheck", "out", "mlscheck")


def request(url, method, path, body=b"", seconds=20, headers=None):
    """Returns the status and the body of an answer, or None if no answer came."""
    place = urllib.parse.urlsplit(url)
    connection = http.client.HTTPConnection(place.hostname, place.port, timeout=seconds)
    try:
        connection.request(method, path, body, headers or {})
        answer = connection.getresponse()
        return answer.status, answer.read()
    except (OSError, http.client.HTTPException):
        return None
    finally:
        connection.close()


def insist(url, method, path, body=b""):
    """Sends a request until it has an answer, as a client does, and returns the body."""
    while True:
        answer = request(url, method, path, body)
        if answer and answer[0] < 300:
            return answer[1]
        if answer and answer[0] < 500:
            raise RuntimeError(f"{method} {path}: {answer}")
        time.sleep(0.02)


def free_port():
    with socket.socket() as free:
        free.bind(("127.0.0.1", 0))
        return free.getsockname()[1]


class Service:
    """A process of mlscheckd, which ends with this program."""

    def __init__(self, db, *flags, program=PROGRAM, log=None):
        port = free_port()
        self.url = f"http://127.0.0.1:{port}"
        self.words = [program, "--listen", f"127.0.0.1:{port}", "--db", db, *flags]
        self.log = log
        self.process = None
        atexit.register(lambda: self.process and self.process.kill())

    def run(self):
        with open(self.log or os.devnull, "ab") as log:
            self.process = subprocess.Popen(self.words, stderr=log)

    def start(self):
        """Starts the service, and returns after how many seconds it was ready."""
        begun = time.monotonic()
        self.run()
        while True:
            answer = request(self.url, "GET", "/readyz", seconds=2)
            if answer and answer[0] == 200:
                return time.monotonic() - begun
            if self.process.poll() is not None:
                self.run()
            time.sleep(0.002)

    def kill(self):
        self.process.kill()
        self.process.wait()

    def stop(self):
        self.process.terminate()
        return self.process.wait()


def records(data):
    """Yields the bodies of the vectors (RFC 9420, 2.1.2) of a log."""
    while data:
        size = 1 << (data[0] >> 6)
        count = int.from_bytes(data[:size], "big") & ((1 << (8 * size - 2)) - 1)
        yield data[size:size + count]
        data = data[size + count:]


def read(name):
    with open(name, "rb") as file:
        return file.read()


def digest(message):
    return hashlib.sha256(message).hexdigest()


def stored(url, name):
    """Returns all rows of a group's log."""
    rows = []
    while True:
        after = rows[-1]["sequence"] if rows else 0
        more = json.loads(insist(url, "GET", f"/v1/groups/{name}/handshakes?limit=1000&after={after}"))["handshakes"]
        rows += more
        if len(more) < 1000:
            return rows


def check_rows(rows):
    """Checks that the sequences are 1, 2, .., that no message is accepted twice and no epoch begun twice. Returns the digests."""
    assert [row["sequence"] for row in rows] == list(range(1, len(rows) + 1)), "a gap in the sequences"
    kept = [row for row in rows if "undone_by" not in row and row["kind"] != "undo"]
    digests = [row["digest"] for row in kept]
    assert len(set(digests)) == len(digests), "a message is stored twice"
    epochs = [row["answer"]["epoch"] for row in kept if row["kind"] == "commit"]
    assert not epochs or epochs == list(range(epochs[0], epochs[0] + len(epochs))), "an epoch is begun twice"
    return {row["sequence"]: row.get("digest") for row in rows}


def check_replay(url, name, profile="members", rules=("--strict",)):
    """Checks that `mlscheck replay` over the group's files accepts each message and reaches the state of the service."""
    with tempfile.TemporaryDirectory() as folder:
        for what in ("info", "info-tree", "state", "log", "receipts"):
            answer = request(url, "GET", f"/v1/groups/{name}/{what}")
            if what == "info-tree" and answer[0] == 404:
                continue
            assert answer[0] == 200, (what, answer)
            with open(f"{folder}/{what}", "wb") as file:
                file.write(answer[1])
        tree = ["--tree", f"{folder}/info-tree"] if os.path.exists(f"{folder}/info-tree") else []
        done = subprocess.run([MLSCHECK, "replay", "--profile", profile, *rules, "--info", f"{folder}/info", *tree, "--log",
                               f"{folder}/log", "--receipts", f"{folder}/receipts", "--save", f"{folder}/replayed"],
                              stdout=subprocess.PIPE, text=True, check=False)
        assert done.returncode == 0, done.stdout[-300:]
        assert read(f"{folder}/state") == read(f"{folder}/replayed"), "another state"
        return done.stdout.splitlines()[-1]


def can_replay():
    """Says whether the program mlscheck is built, and tells a person if it is not."""
    if os.path.exists(MLSCHECK):
        return True
    print(f"{MLSCHECK} is not built: the stored files are not replayed")
    return False


class Postgres:
    """A PostgreSQL server of its own, with the settings of a service."""

    BIN = "/usr/lib/postgresql"

    def __init__(self):
        versions = sorted(os.listdir(self.BIN)) if os.path.isdir(self.BIN) else []
        if not versions:
            raise SystemExit("there is no PostgreSQL here")
        self.bin = os.path.join(self.BIN, versions[-1], "bin")
        self.folder = tempfile.mkdtemp()
        self.as_user = []
        if os.getuid() == 0:  # PostgreSQL does not run as root
            subprocess.run(["chown", "nobody", self.folder], check=True)
            self.as_user = ["setpriv", "--reuid=nobody", "--regid=nogroup", "--clear-groups", "env", f"HOME={self.folder}"]
        self.url = f"postgres://test@/postgres?host={self.folder}"
        self.call("initdb", "-D", self.data(), "-U", "test", "--auth=trust", "-E", "UTF8", "--locale=C")
        self.start()
        atexit.register(self.remove)

    def data(self):
        return os.path.join(self.folder, "data")

    def call(self, name, *words):
        subprocess.run([*self.as_user, os.path.join(self.bin, name), *words], check=True, cwd=self.folder,
                       stdout=subprocess.DEVNULL, stderr=subprocess.DEVNULL)

    def start(self):
        self.call("pg_ctl", "-D", self.data(), "-w", "-l", os.path.join(self.folder, "server.log"), "-o",
                  f"-c listen_addresses= -c unix_socket_directories={self.folder} -c max_connections=100", "start")

    def kill(self):
        """Ends the server at once, as if the machine had stopped, and starts it again."""
        self.call("pg_ctl", "-D", self.data(), "-m", "immediate", "stop")
        self.start()

    def remove(self):
        subprocess.run([*self.as_user, os.path.join(self.bin, "pg_ctl"), "-D", self.data(), "-m", "immediate", "stop"],
                       check=False, cwd="/", stdout=subprocess.DEVNULL, stderr=subprocess.DEVNULL)
        subprocess.run(["rm", "-rf", self.folder], check=False)
