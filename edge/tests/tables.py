"""What the tests over a table of PostgreSQL share: a database, edges over it, clients that make calls by keys, and what is
looked at afterwards: the table's lines, given to a program by hand, give the replies that clients had.

WFSERVE_SEED draws other moments, WFEDGE_TAKEOVERS more of them, and WFEDGE_CLIENTS makes more clients. WFEDGE_SILENCE is
for how many milliseconds a leader may be silent, and WFEDGE_WITHIN for how many seconds at most a compaction goes on before
it is disturbed.
"""

import contextlib
import http.client
import json
import os
import pathlib
import pwd
import random
import shutil
import signal
import statistics
import subprocess
import sys
import tempfile
import threading
import time
import unittest
from collections import Counter, defaultdict
from concurrent.futures import ThreadPoolExecutor
from dataclasses import dataclass
from typing import List

from the_edge import WFEDGE, children_of, programs_of, reply_by_key

from by_hand import left_undone, replies_of, sweep_of
from support.programs import BUILT, memory_folder
from support.served import free_port
from wfserve.durable import Settings
from wfserve.durable.edge_log import read_header

SEED = int(os.environ.get("WFSERVE_SEED", random.randrange(1 << 32)))
TAKEOVERS = int(os.environ.get("WFEDGE_TAKEOVERS", 8))
CLIENTS, HOUR = int(os.environ.get("WFEDGE_CLIENTS", 8)), 3_600_000
# For how many milliseconds a leader may be silent.
SILENCE = int(os.environ.get("WFEDGE_SILENCE", 2_000))
# So many seconds something may take that is done at once where the machine has nothing else to do.
PATIENCE = 120
# Between two tries of a call, in seconds; and between two calls of a client, so that a log stays short.
LONGEST_PAUSE, PACE = 0.1, 0.02
# So many seconds a client waits for an answer before it asks elsewhere, and for how many a poll waits for a task.
ANSWER, POLL = 0.6, 0.5
# In seconds: when a compaction that was asked is disturbed.
WITHIN = float(os.environ.get("WFEDGE_WITHIN", 1.5))
# After these another edge leads, or the same one anew.
ENDED = ("kill", "stop", "database")
PASSWORD = "of tests: ' & more"
TOKEN = "a token of some length"


def postgres_folder():
    """Where PostgreSQL's programs lie, or None."""
    found = sorted(pathlib.Path("/usr/lib/postgresql").glob("*/bin/initdb"))
    named = shutil.which("initdb")
    return found[-1].parent if found else pathlib.Path(named).parent if named else None


def has_client(edge):
    """Whether an edge was built with a client of PostgreSQL."""
    words = [str(edge), "--program", "none", "--log", "postgres:///none?host=/nowhere"]
    return edge.exists() and "built without" not in subprocess.run(words, capture_output=True, text=True).stderr


POSTGRES = postgres_folder()
needs_postgres = unittest.skipUnless(POSTGRES, "PostgreSQL is not here: apt-get install postgresql")
needs_client = unittest.skipUnless(has_client(WFEDGE), "this edge has no client of PostgreSQL: edge/setup.sh postgres")

# Keeps what a compaction deletes, for who compares it with what clients had; but not what a try left that came to nothing.
ARCHIVE = """
    create schema kept;
    create table kept.wfserve_log (like public.wfserve_log);
    create table kept.wfserve_starts (like public.wfserve_starts);
    create table kept.wfserve_records (like public.wfserve_records);
    create function kept.keep() returns trigger language plpgsql security definer as $$
        begin execute format('insert into kept.%I select ($1).*', tg_table_name) using old; return old; end $$;
    create function kept.has_start(bigint, bigint) returns boolean language sql security definer as $$
        select exists (select 1 from public.wfserve_starts where epoch = $1 and generation = $2
        union all select 1 from kept.wfserve_starts where epoch = $1 and generation = $2) $$;
    create trigger keep before delete on wfserve_log for each row execute function kept.keep();
    create trigger keep before delete on wfserve_starts for each row execute function kept.keep();
    create trigger keep before delete on wfserve_records for each row
        when (kept.has_start(old.epoch, old.generation)) execute function kept.keep();
"""


@dataclass
class Generation:
    """A log from one compaction to the next: its settings, its lines, how many of them the next one doesn't have, and the words
    that open its snapshots."""

    settings: Settings
    lines: List[bytes]
    once: int
    load: List[str]


class Database:
    """A cluster of its own in a folder, reached by a socket there, and at `host` too. Root has it run by the user postgres."""

    def __init__(self, folder, primary=None, host="", certificate=None):
        self.folder, self._data, self._host, self._certificate = folder, folder / "data", host, certificate
        self._user, self.port = [], free_port()
        folder.mkdir(exist_ok=True)
        if os.geteuid() == 0:
            owner = pwd.getpwnam("postgres")
            os.chown(folder, owner.pw_uid, owner.pw_gid)
            self._user = ["setpriv", f"--reuid={owner.pw_uid}", f"--regid={owner.pw_gid}", "--clear-groups"]
        if primary is None:
            self._begin()
        else:
            self._run("pg_basebackup", "-h", str(primary.folder), "-p", str(primary.port), "-U", "wf", "-D", str(self._data),
                      "-R", "-c", "fast", "--no-sync")
        self.start()
        if primary is None:
            # The edge owns its database, and nothing else.
            quoted = PASSWORD.replace("'", "''")
            self.rows(f"create role edge login password '{quoted}'", "postgres")
            self.make()
        self.address = f"postgres://edge@/orders?host={folder}&port={self.port}"

    def _begin(self):
        password = self.folder / "password"
        password.write_text(PASSWORD, encoding="utf-8")
        self._run("initdb", "-D", str(self._data), "-U", "wf", "-A", "scram-sha-256", "--pwfile", str(password),
                  "--no-sync", "--no-instructions", "-E", "UTF8")
        with open(self._data / "pg_hba.conf", "a", encoding="utf-8") as rules:
            rules.write("host all all 10.231.0.0/16 scram-sha-256\n")

    def make(self):
        """Makes the edges' database."""
        self.rows("create database orders owner edge", "postgres")

    def make_anew(self):
        """Makes it again, empty."""
        self.rows("drop database orders with (force)", "postgres")
        self.make()

    def _words(self, name, *words):
        return [*self._user, str(POSTGRES / name), *words]

    def _run(self, name, *words):
        environment = {**os.environ, "PGPASSWORD": PASSWORD}
        subprocess.run(self._words(name, *words), check=True, stdout=subprocess.DEVNULL, cwd=self.folder, env=environment)

    def start(self):
        """Starts the server. The machine is not switched off in these tests: nothing is synced."""
        words = ["-D", str(self._data), "-k", str(self.folder), "-c", f"listen_addresses={self._host}", "-c", "fsync=off",
                 "-c", "shared_buffers=16MB", "-c", f"port={self.port}"]
        if self._certificate is not None:
            words += ["-c", "ssl=on", "-c", f"ssl_cert_file={self._certificate}.crt", "-c", f"ssl_key_file={self._certificate}.key"]
        with open(self.folder / "said", "ab") as said:
            self._server = subprocess.Popen(self._words("postgres", *words), stdout=said, stderr=said, cwd=self.folder)
        self._wait("select 1")

    def _wait(self, question):
        """Waits until a question is answered by a row."""
        late = time.monotonic() + PATIENCE
        while True:
            try:
                if self.rows(question, "postgres"):
                    return
            except subprocess.CalledProcessError:
                pass
            if time.monotonic() > late:
                raise AssertionError((self.folder / "said").read_text(encoding="utf-8"))
            time.sleep(0.05)

    def stop(self):
        """Ends the server at once, as a fault would."""
        self._server.send_signal(signal.SIGQUIT)
        self._server.wait()

    def promote(self):
        """Has a standby be the database."""
        self.rows("select pg_promote(false)", "postgres")
        self._wait("select 1 where not pg_is_in_recovery()")

    def rows(self, question, name="orders"):
        """The rows of an answer, as psql writes them."""
        words = self._words("psql", "-h", str(self.folder), "-p", str(self.port), "-U", "wf", "-At", "-c", question, name)
        environment = {**os.environ, "PGPASSWORD": PASSWORD}
        return subprocess.run(words, check=True, capture_output=True, text=True, cwd=self.folder, env=environment).stdout.splitlines()

    def archive(self):
        """Has it keep what is deleted from now on."""
        self.rows(ARCHIVE)

    def _all(self, table, columns, where="true"):
        """The rows of a table, with those that were deleted, where these are kept."""
        kept = self.rows("select 1 from pg_namespace where nspname = 'kept'")
        also = f" union all select {columns} from kept.{table} where {where}" if kept else ""
        return [row.split("|") for row in self.rows(f"select {columns} from {table} where {where}{also}")]

    def generations(self, folder):
        """The generations of the log. A generation has the lines behind its base, some of which the one before has too."""
        batches = sorted((int(number), bytes.fromhex(lines)) for number, lines in self._all("wfserve_log", "number, encode(lines, 'hex')"))
        starts = sorted((int(number), generation, epoch) for number, generation, epoch in self._all("wfserve_starts", "number, generation, epoch"))
        assert [number for number, _ in batches] == list(range(1, len(batches) + 1)), "batches are gone"
        pieces = self._all("wfserve_records", "epoch, generation, convert_from(data, 'UTF8')", "name = 'base'")
        bases, found = {(epoch, generation): int(base) for epoch, generation, base in pieces}, []
        firsts = [(1, "0", "0"), *starts]
        for place, (first, generation, epoch) in enumerate(firsts):
            following = firsts[place + 1] if place + 1 < len(firsts) else (len(batches) + 1, None, None)
            base, next_base = bases.get((epoch, generation), first), bases.get((following[2], following[1]), following[0])
            settings, said = read_header(batches[first - 1][1], "the table")
            assert said == int(generation), (said, generation)
            own = [(number, line) for number, lines in batches[base:following[0] - 1] if number != first for line in lines.split(b"\n")]
            once = sum(number <= next_base for number, _ in own)
            load = self._load(folder, epoch, generation) if said else []
            found.append(Generation(settings, [line for _, line in own], once, load))
        return found

    def _load(self, folder, epoch, generation):
        """The words that open the records of a generation."""
        place = pathlib.Path(folder) / generation
        place.mkdir()
        named = f"epoch = {epoch} and generation = {generation} and name like 'shard-%'"
        pieces = self._all("wfserve_records", "number, name, encode(data, 'hex')", named)
        for _, name, data in sorted(pieces, key=lambda piece: int(piece[0])):
            with open(place / name, "ab") as record:
                record.write(bytes.fromhex(data))
        return ["--load", str(place)]


def tell_all(pids, number):
    """Sends a signal to processes, which may have ended meanwhile."""
    for pid in pids:
        with contextlib.suppress(ProcessLookupError):
            os.kill(pid, number)


class Session:
    """A connection of the edges' role to a database, which is asked now and then."""

    def __init__(self, database):
        words = ["psql", "-h", str(database.folder), "-p", str(database.port), "-U", "edge", "-At", "-X", "orders"]
        environment = {**os.environ, "PGPASSWORD": PASSWORD}
        self._process = subprocess.Popen(
            [str(POSTGRES / words[0]), *words[1:]], stdin=subprocess.PIPE, stdout=subprocess.PIPE, stderr=subprocess.DEVNULL, text=True,
            env=environment)

    def ask(self, question):
        """The first value of an answer. Empty where the connection has ended."""
        try:
            self._process.stdin.write(f"{question};\n")
            self._process.stdin.flush()
        except BrokenPipeError:
            return ""
        return self._process.stdout.readline().strip()

    def __enter__(self):
        return self

    def __exit__(self, *_):
        self._process.kill()
        self._process.communicate()


class Node:
    """An edge, which is started again where it ends. On a machine of its own, where there is one."""

    def __init__(self, edge, address, said, *options, machine=None):
        self.port, self.process, self.leads, self.machine = free_port(), None, False, machine
        self.host = machine.host if machine else "127.0.0.1"
        # Since when it leads, or when it did last.
        self.since = 0
        self.said = said
        self._said = open(said, "wb")
        self._words = [*(machine.words if machine else []), str(edge), "--program", str(BUILT), "--log", address, "--host", self.host,
                       "--port", str(self.port), "--silence", str(SILENCE), *options]
        self._stopped = threading.Event()
        self._thread = threading.Thread(target=self._keep)
        self._thread.start()

    def _keep(self):
        while not self._stopped.is_set():
            environment = {**os.environ, "PGPASSWORD": PASSWORD}
            self.process = subprocess.Popen(self._words, stdout=subprocess.PIPE, stderr=self._said, env=environment)
            if self.process.stdout.readline().startswith(b"serving"):
                self.leads, self.since = True, time.monotonic()
            self.process.stdout.read()
            self.process.wait()
            self.process.stdout.close()
            self.leads = False
            self._stopped.wait(0.05)

    def tell(self, *numbers):
        """Sends signals to the edge."""
        for number in numbers:
            try:
                self.process.send_signal(number)
            except (AttributeError, ProcessLookupError):
                pass

    def compact(self, **fields):
        """Has its log compacted. The answer's status and body; None where there is none."""
        connection = http.client.HTTPConnection(self.host, self.port, timeout=PATIENCE)
        headers = {"Content-Type": "application/json", "Authorization": f"Bearer {TOKEN}"}
        try:
            connection.request("POST", "/compact", json.dumps(fields), headers)
            answer = connection.getresponse()
            return answer.status, json.loads(answer.read())
        except (OSError, http.client.HTTPException, ValueError):
            return None
        finally:
            connection.close()

    def stop(self):
        self._stopped.set()
        while self._thread.is_alive():
            self.tell(signal.SIGCONT, signal.SIGTERM)
            self._thread.join(1)
        self._said.close()


class Caller:
    """Makes calls by keys to whichever node answers, until each is answered."""

    def __init__(self, nodes, number, stop):
        self._nodes, self._number, self._stop = list(nodes), number, stop
        self._draw = random.Random(f"{SEED} {number}")
        self._connection = None
        self.had, self.when, self.again, self.fault = {}, [], 0, None

    def call(self, key, **request):
        key, late, pause = f"{self._number}-{key}", time.monotonic() + PATIENCE, 0.01
        while True:
            try:
                text = self._asked(json.dumps(request), key, ANSWER + request.get("wait", 0) / 1_000)
                if text is not None:
                    self.had[key] = text
                    self.when.append(time.monotonic())
                    return json.loads(text)
            except (OSError, http.client.HTTPException):
                pass
            if time.monotonic() > late:
                raise AssertionError(f"{request}: no answer in {PATIENCE} s")
            self.again += 1
            self.close()
            self._nodes.append(self._nodes.pop(0))
            time.sleep(pause * (0.5 + self._draw.random()))
            pause = min(2 * pause, LONGEST_PAUSE)

    def _asked(self, body, key, seconds):
        if self._connection is None:
            self._connection = http.client.HTTPConnection(self._nodes[0].host, self._nodes[0].port, timeout=seconds)
            self._connection.connect()
        self._connection.sock.settimeout(seconds)
        return reply_by_key(self._connection, body, key, (500, 503), Authorization=f"Bearer {TOKEN}")

    def close(self):
        if self._connection is not None:
            self._connection.close()
        self._connection = None

    def run(self):
        """Works until it is told to stop. A fault is kept for who waits for its answers."""
        try:
            self.work()
        except BaseException as fault:
            self.fault = repr(fault)
            raise
        finally:
            self.close()
        return self

    def work(self):
        """Starts workflows, signals them and completes their tasks."""
        count, wait = 0, int(POLL * 1_000)
        while not self._stop.is_set():
            count += 1
            name = f"{self._number}-{count}"
            self.call(f"start-{count}", op="start", workflow_id=name, workflow_type="T", task_queue="main", task_timeout=HOUR)
            self._stop.wait(PACE)
            self.call(f"signal-{count}", op="signal", workflow_id=name, name="s")
            task = self.call(f"poll-{count}", op="poll_workflow_task", task_queue="main", wait=wait)
            self._stop.wait(PACE)
            if task["ok"] == "task":
                done = {"type": "CompleteWorkflowExecution", "result": name}
                self.call(f"done-{count}", op="complete_workflow_task", token=task["token"], commands=[done])


class OverATable(unittest.TestCase):
    """Has a database, and edges over it."""

    # The machines of the edges, where they have some of their own.
    machines = (None, None)

    def setUp(self):
        folder = memory_folder()
        self.addCleanup(folder.cleanup)
        self.folder = pathlib.Path(folder.name)
        # Another user runs the database in it.
        self.folder.chmod(0o711)
        self.database = self.new_database()
        self.addCleanup(lambda: self.database.stop())
        self.address, self.takeovers = self.database.address, TAKEOVERS
        self.token_file = self.folder / "token"
        self.token_file.write_text(TOKEN, encoding="utf-8")

    def new_database(self):
        return Database(self.folder / "one")

    # What else the edges are started with.
    options = ()

    def nodes(self, edge):
        options = ["--shards", "2", "--token-file", str(self.token_file), *self.options]
        found = [Node(edge, self.address, self.folder / f"said-{number}", *options, machine=machine)
                 for number, machine in enumerate(self.machines)]
        for node in found:
            self.addCleanup(node.stop)
        self.all_nodes = found
        return found

    def leader(self, nodes):
        late = time.monotonic() + PATIENCE
        while time.monotonic() < late:
            # One that hung may not have found yet that another one leads.
            found = [node for node in nodes if node.leads]
            if found:
                return max(found, key=lambda node: node.since)
            time.sleep(0.01)
        raise AssertionError(f"no edge leads: {self.states(nodes)}")

    def compact(self, nodes):
        """Has whoever leads compact the log. Where a machine is slow, another one may lead meanwhile: then it is asked."""
        late = time.monotonic() + PATIENCE
        while (said := self.leader(nodes).compact()) is None or said[0] != 200:
            self.assertLess(time.monotonic(), late, f"not compacted: {said}; {self.states(nodes)}")
            time.sleep(0.05)

    def disturb(self, nodes, callers, stop, kinds, draw):
        """Disturbs leaders, each time in another way. For how long nothing was answered each time, by its kind."""
        waits = {kind: [] for kind in kinds}
        try:
            for count in range(self.takeovers):
                self.leader(nodes)
                time.sleep(0.2 + 0.6 * draw.random())
                # Another one may lead by now: where a machine is slow, a leader is taken for a silent one.
                leader, kind, began = self.leader(nodes), kinds[count % len(kinds)], time.monotonic()
                if kind == "compact":
                    self.compact(nodes)
                else:
                    self.do(kind, leader, draw)
                if kind == "compact":
                    waits[kind].append(time.monotonic() - began)
                else:
                    # Who was not ended leads on where the other one was not there yet.
                    mended = None if kind.startswith(ENDED) else time.monotonic()
                    waits[kind].append(self.next_answer(nodes, callers, began, mended))
        finally:
            stop.set()
        return waits

    def do(self, kind, leader, draw):
        """Disturbs a leader."""
        if kind == "kill":
            leader.tell(signal.SIGKILL)
        elif kind.endswith(" within a compaction"):
            compacting = threading.Thread(target=leader.compact)
            compacting.start()
            time.sleep(WITHIN * draw.random())
            self.do(kind.partition(" ")[0], leader, draw)
            compacting.join()
        elif kind == "programs":
            tell_all([pid for pid in children_of(leader.process.pid) if draw.random() < 0.5], signal.SIGKILL)
        elif kind == "follower":
            for node in self.all_nodes:
                if node is not leader:
                    node.tell(signal.SIGKILL)
        elif kind == "connections":
            self.database.rows(f"select pg_terminate_backend(pid) from pg_stat_activity where usename = 'edge' and random() < {draw.random():.3f}")
        elif kind == "stop":
            leader.tell(signal.SIGTERM)
        elif kind == "hang":
            self.hang(leader)
        elif kind == "cut":
            leader.machine.cut()
            time.sleep(SILENCE / 1_000 + 1)
            leader.machine.mend()
        else:
            self.end_database()

    def end_database(self):
        """Ends the database as a fault does, and starts it again."""
        self.database.stop()
        self.database.start()

    def hang(self, leader):
        """Has an edge and its program stand still for longer than a leader may."""
        programs = programs_of(leader.process.pid)
        leader.tell(signal.SIGSTOP)
        tell_all(programs, signal.SIGSTOP)
        time.sleep(SILENCE / 1_000 + 1)
        tell_all(programs, signal.SIGCONT)
        leader.tell(signal.SIGCONT)

    def next_answer(self, nodes, callers, began, mended):
        """Waits until an edge leads that did not before, or one that was mended does, and has answered. For how long nothing
        was answered."""
        late = time.monotonic() + PATIENCE
        while time.monotonic() < late and not any(caller.fault for caller in callers):
            since = max((node.since for node in nodes), default=0)
            leads = since if since > began else mended
            found = sorted(when for caller in callers for when in caller.when[-200:])
            after = [when for when in found if leads is not None and when > leads]
            if after:
                return after[0] - max([began, *(when for when in found if when <= leads)])
            time.sleep(0.005)
        faults = [caller.fault for caller in callers if caller.fault]
        raise AssertionError(f"nothing is answered any more: {faults}; {self.states(nodes)}; {began}, {mended}")

    def states(self, nodes):
        """What is known of each edge, and what it said last."""
        return [(node.leads, node.since, node.process.pid, node.process.poll(), node.said.read_text()[-2_000:]) for node in nodes]

    def disturbed(self, edge, kinds, draw=None):
        """What clients had, by their keys, after so many takeovers."""
        nodes, stop = self.nodes(edge), threading.Event()
        self.leader(nodes)
        self.database.archive()
        callers = [Caller(nodes, number, stop) for number in range(CLIENTS)]
        with ThreadPoolExecutor(CLIENTS) as pool:
            working = [pool.submit(caller.run) for caller in callers]
            waits = self.disturb(nodes, callers, stop, kinds, draw or random.Random(SEED))
            for it in working:
                it.result()
        time.sleep(1)
        for node in nodes:
            node.stop()
        self.again = sum(caller.again for caller in callers)
        self.waits = waits
        had = {key: text for caller in callers for key, text in caller.had.items()}
        print(f"takeovers: {shown(waits)}; {len(had)} replies, {self.again} calls made again", file=sys.stderr)
        return had

    def same_snapshots(self, it, following, folder):
        """The snapshots of a generation are those of a program that is given by hand the lines that it doesn't have."""
        made = pathlib.Path(tempfile.mkdtemp(dir=folder))
        replies_of(BUILT, it.settings, it.lines[:it.once], [*it.load, "--snapshot", str(made)])
        wanted, found = ({path.name: path.read_bytes() for path in place.iterdir()} for place in (made, pathlib.Path(following.load[1])))
        self.assertEqual(sorted(wanted), sorted(found))
        self.assertEqual([name for name in wanted if wanted[name] != found[name]], [])

    def wrong_in(self, had):
        """The replies of clients that the lines of their keys don't give, keys that have several lines, and turns that are
        missing at the end."""
        given, moments, left = defaultdict(set), [], []
        keys = Counter()
        with tempfile.TemporaryDirectory(dir=self.folder) as folder:
            generations = self.database.generations(folder)
            for place, it in enumerate(generations, 1):
                turns = sweep_of(it.settings, it.lines, moments[-1:]) if place == len(generations) else []
                replies = replies_of(BUILT, it.settings, [*it.lines, *turns], it.load)
                self.assertEqual(len(replies), len(it.lines) + len(turns))
                for number, (line, reply) in enumerate(zip(it.lines, replies)):
                    key = line.rpartition(b',"call":"')[2].partition(b'"')[0].decode() if b',"call":"' in line else None
                    if key is not None:
                        given[key].add(reply)
                        keys[key] += number < it.once
                moments += [json.loads(line)["at"] for line in it.lines[:it.once]]
                left = left_undone(turns, replies)
            for it, following in zip(generations, generations[1:]):
                self.same_snapshots(it, following, folder)
        self.assertEqual(moments, sorted(moments))
        wrong = [(key, text) for key, text in had.items() if text not in given[key]]
        return wrong, [key for key, count in keys.items() if count > 1 and "-poll-" not in key], left


def shown(waits):
    """How long nothing was answered, by what was done."""
    return "; ".join(f"{len(found)} of {kind}, p50 {statistics.median(found):.2f} s, most {max(found):.2f} s"
                     for kind, found in waits.items() if found)
