"""A server for tests: started on a free port, and ended or killed."""

import contextlib
import http.client
import json
import os
import pathlib
import random
import re
import signal
import socket
import subprocess
import sys
import time
import weakref

from support.programs import server_words
from wfserve.http import HttpService, answer_to


# So many seconds something may take that is so at once where the machine has nothing else to do.
PATIENCE = 60


# A call that the program answers, and that changes nothing.
ASKED = b'{"op":"describe","workflow_id":"nobody"}'


def until(holds, seconds=PATIENCE):
    """Waits until something is so."""
    late = time.monotonic() + seconds
    while not holds():
        if time.monotonic() > late:
            raise AssertionError(f"after {seconds} s it is not so")
        time.sleep(0.02)


def has_ended(pid):
    """Whether a process has ended, also where nobody has waited for it."""
    try:
        return pathlib.Path(f"/proc/{pid}/stat").read_text(encoding="utf-8").rpartition(") ")[2][0] in "ZX"
    except (FileNotFoundError, ProcessLookupError):
        return True


def kill_all(*pids):
    """Kills processes, and returns once they have ended: from then on none of them answers anything."""
    for pid in pids:
        with contextlib.suppress(ProcessLookupError):
            os.kill(pid, signal.SIGKILL)
    until(lambda: all(has_ended(pid) for pid in pids))


def is_program(pid):
    """Whether a process is a program that the edge serves by, and no page."""
    try:
        words = pathlib.Path(f"/proc/{pid}/cmdline").read_bytes().split(b"\0")
    except OSError:
        return False
    # A process that is just being started has the edge's own words.
    return b"--capacity" in words and not {b"--save", b"--snapshot", b"--program"} & set(words)


def begun(pid):
    """When a process began. None where it has ended."""
    try:
        return int(pathlib.Path(f"/proc/{pid}/stat").read_text(encoding="utf-8").rpartition(") ")[2].split()[19])
    except OSError:
        return None


def children_of(pid):
    """All processes that an edge has started: its threads start them."""
    found = []
    for children in pathlib.Path(f"/proc/{pid}/task").glob("*/children"):
        # A thread may have ended meanwhile.
        with contextlib.suppress(OSError):
            found += [int(child) for child in children.read_text(encoding="utf-8").split()]
    return found


def programs_of(pid):
    """All programs of an edge, the one that serves first, without the page. One that follows began later."""
    ages = [(begun(child), child) for child in children_of(pid) if is_program(child)]
    return [child for _, child in sorted((age, child) for age, child in ages if age is not None)]


def program_of(pid):
    """The program that an edge serves by. None where there is none."""
    return next(iter(programs_of(pid)), None)


def free_port():
    """A port on which nobody listens, and which the system gives no client for its own end. One that looks for a server
    that is away would hold such a port, and find itself there."""
    try:
        first = int(pathlib.Path("/proc/sys/net/ipv4/ip_local_port_range").read_text(encoding="utf-8").split()[0])
    except OSError:
        first = 32_768
    # Another process draws other ones, whatever this one's tests have seeded.
    draw = random.SystemRandom()
    for _ in range(1_000):
        port = draw.randrange(10_000, max(first, 11_000))
        try:
            with socket.create_server(("127.0.0.1", port)):
                return port
        except OSError:
            pass
    raise AssertionError("no port is free")


# All servers that are there still, for who ends the tests as their time is over.
SERVERS = weakref.WeakSet()


def tell_all():
    """Says on standard error what all servers said."""
    for server in list(SERVERS):
        print(server.account(), file=sys.stderr, flush=True)


class Server:
    """A server over a log, on a port of its own. Killed and started again it has the same port."""

    def __init__(self, program, log, *options):
        self._clients, self.port = [], free_port()
        self.said = pathlib.Path(f"{log}.said")
        # How each process before this one ended, with what it said; and those of them that ended by themselves.
        self.former, self.own_ends, self.process = [], [], None
        SERVERS.add(self)
        self._command = server_words(program, "--log", str(log), *options)
        self.start()

    def start(self):
        if self.process is not None:
            self.former.append(self.ended())
        with open(self.said, "w", encoding="utf-8") as said:
            self.process = subprocess.Popen(
                [*self._command, "--port", str(self.port)], stdout=subprocess.PIPE, stderr=said, text=True
            )
        line = self.process.stdout.readline()
        found = re.fullmatch(r"serving (http://(.*):(\d+)/)\n", line)
        if found is None:
            self.process.kill()
            self.process.communicate()
            raise AssertionError(f"the server did not start: {line}{self.said.read_text()}")
        self.url, self.host, self.port = found[1], found[2], int(found[3])

    def client(self, **more):
        client = HttpService(self.url, **more)
        self._clients.append(client)
        return client

    def asked(self, method, path, body=None, headers=None):
        """The status, the headers and the text of an answer."""
        connection = http.client.HTTPConnection(self.host, self.port, timeout=2 * PATIENCE)
        try:
            answer = answer_to(connection, method, path, body, {"Content-Type": "application/json", **(headers or {})})
            return answer.status, answer.headers, answer.read().decode()
        finally:
            connection.close()

    def read(self, path):
        return json.loads(self.asked("GET", path)[2])

    def gauge(self, name):
        """A value of now of its metrics."""
        return float(re.search(rf"^wfserve_{name} (.+)$", self.asked("GET", "/metrics")[2], re.MULTILINE)[1])

    def ended(self):
        """How the process stands, and what it said."""
        said = self.said.read_text(encoding="utf-8", errors="replace") if self.said.exists() else "(it is not kept any more)"
        return f"process {self.process.pid}, status {self.process.poll()}: {said}"

    def account(self):
        """What all processes said, for who looks why a test failed."""
        return "\n".join(["what the server said:", *self.former, self.ended()])

    def answers(self):
        """Whether the program answers a call."""
        try:
            return self.asked("POST", "/calls", ASKED)[0] == 200
        except (OSError, http.client.HTTPException):
            return False

    def go_on(self, seconds=PATIENCE):
        """Returns once the program answers a call. A server that has ended by itself is started again, and that is noted."""
        late = time.monotonic() + seconds
        while not self.answers():
            if self.process.poll() is not None:
                self.own_ends.append(self.ended())
                self.process.stdout.close()
                self.start()
            if time.monotonic() > late:
                raise AssertionError(f"the program answers nothing in {seconds} s; {self.account()}")
            time.sleep(0.02)

    def has_polls(self, count):
        """Waits until so many polls wait for a task."""
        until(lambda: self.gauge("polls_waiting") == count)

    def give_up(self):
        """Has its clients make no call again."""
        for client in self._clients:
            client.give_up()

    def kill(self):
        self.process.kill()
        self.process.wait()
        self.process.stdout.close()

    def stop(self):
        """Ends the server as a person does. Its status."""
        self.process.terminate()
        status = self.process.wait()
        self.process.stdout.close()
        for client in self._clients:
            client.close()
        return status
