"""Two edges over one table of PostgreSQL, with clients that make calls by keys: leaders are killed, hang, compact the log
and are followed by the other one. The table's lines, given to a program by hand, give the replies that clients had.
"""

import contextlib
import hashlib
import http.client
import os
import pathlib
import random
import signal
import socket
import subprocess
import sys
import threading
import time
import unittest

from the_edge import WFEDGE, needs_edge

from support.programs import BUILT, needs_program
from support.served import until
from tables import (
    CLIENTS, HOUR, PASSWORD, PATIENCE, SEED, TOKEN, Caller, Database, Node, OverATable, Session, needs_client, needs_postgres,
)

PLANTED = WFEDGE.parent / "wfedge-planted"


@needs_edge
@needs_program
@needs_postgres
@needs_client
class TwoEdges(OverATable):
    def test_no_answer_is_lost_and_no_call_is_made_twice(self):
        print(f"\ntwo edges: seed {SEED}", file=sys.stderr)
        had = self.disturbed(WFEDGE, ["kill", "compact", "hang", "kill within a compaction", "stop", "database", "kill"])
        self.assertGreater(len(had), 4 * CLIENTS)
        self.assertEqual(self.wrong_in(had), ([], [], []))

    def test_who_hung_answers_no_read_once_another_one_leads(self):
        nodes = self.nodes(WFEDGE)
        first = self.leader(nodes)
        self.once([first], op="start", workflow_id="w", workflow_type="T", task_queue="main", task_timeout=HOUR)
        first.tell(signal.SIGSTOP)
        self.stands_still(first)
        second = next(node for node in nodes if node is not first)
        # What it is asked while it stands still it finds once it goes on.
        with socket.create_connection(("127.0.0.1", first.port), timeout=PATIENCE) as connection:
            body = b'{"op":"describe","workflow_id":"w"}'
            connection.sendall(b"POST /calls HTTP/1.1\r\nHost: 127.0.0.1\r\nContent-Type: application/json\r\n"
                               b"Authorization: Bearer %s\r\nContent-Length: %d\r\n\r\n%s" % (TOKEN.encode(), len(body), body))
            self.leader([second])
            self.once([second], op="terminate", workflow_id="w")
            first.tell(signal.SIGCONT)
            try:
                answer = connection.recv(1 << 16)
            except ConnectionResetError:
                answer = b""
        self.assertNotIn(b"Running", answer)
        self.assertFalse(answer.startswith(b"HTTP/1.1 200"), answer)
        said = "".join(path.read_text() for path in self.folder.glob("said-*"))
        self.assertIn("this edge follows", said)

    def once(self, nodes, **request):
        """Makes one call."""
        caller = Caller(nodes, 0, threading.Event())
        caller.call(request["op"], **request)
        caller.close()

    def stands_still(self, node):
        """Waits until all threads of an edge have stopped."""
        late, states = time.monotonic() + PATIENCE, {"?"}
        while states != {"T"} and time.monotonic() < late:
            tasks = pathlib.Path(f"/proc/{node.process.pid}/task").glob("*/stat")
            # A thread may have ended meanwhile.
            with contextlib.suppress(OSError):
                states = {path.read_text().rpartition(") ")[2][0] for path in tasks}
            time.sleep(0.01)

    def test_settings_that_are_others_are_refused_and_followers_are_told(self):
        nodes = self.nodes(WFEDGE)
        leader = self.leader(nodes)
        self.once([leader], op="start", workflow_id="w", workflow_type="T", task_queue="main")
        late = time.monotonic() + PATIENCE
        while not self.database.rows("select name from wfserve_followers") and time.monotonic() < late:
            time.sleep(0.05)
        self.assertEqual(len(self.database.rows("select name from wfserve_followers where number > 0")), 1)
        words = [str(WFEDGE), "--program", str(BUILT), "--log", self.address, "--shards", "3"]
        environment = {**os.environ, "PGPASSWORD": PASSWORD}
        ran = subprocess.run(words, capture_output=True, text=True, timeout=PATIENCE, env=environment)
        self.assertEqual(ran.returncode, 2)
        self.assertIn("the log's shards is 2, and not 3", ran.stderr)


    def test_keys_and_tasks_are_known_after_compactions_and_takeovers(self):
        nodes = self.nodes(WFEDGE)
        leader, had = self.leader(nodes), {}
        self.database.archive()
        for place in range(4):
            caller = Caller([leader], 0, threading.Event())
            # The calls of all turns before are made again, and then those of this one.
            for turn in range(place + 1):
                name = f"w{turn}"
                caller.call(f"start-{turn}", op="start", workflow_id=name, workflow_type="T", task_queue="main", task_timeout=HOUR)
                task = caller.call(f"poll-{turn}", op="poll_workflow_task", task_queue="main", wait=20_000)
                if turn < place:
                    done = {"type": "CompleteWorkflowExecution", "result": name}
                    caller.call(f"done-{turn}", op="complete_workflow_task", token=task["token"], commands=[done])
            caller.close()
            for key, text in caller.had.items():
                self.assertEqual(had.setdefault(key, text), text)
            status, said = leader.compact(capacity=1_024 * (place + 2))
            self.assertEqual((status, said["capacity"]), (200, 1_024 * (place + 2)))
            # Once the other one has followed, the leader is killed: who is started again goes on from the records.
            self.follows(leader)
            leader.tell(signal.SIGKILL)
            leader = self.leader([node for node in nodes if node is not leader])
        # What is older than the generation before is deleted meanwhile.
        self.becomes("select generation from wfserve_starts order by 1", ["3", "4"])
        self.becomes("select distinct generation from wfserve_records order by 1", ["3", "4"])
        base = "select convert_from(data, 'UTF8')::bigint from wfserve_records where generation = 3 and name = 'base'"
        self.assertEqual(self.database.rows(f"select min(number) = ({base}) + 1 from wfserve_log"), ["t"])
        for node in nodes:
            node.stop()
        self.assertEqual(self.wrong_in(had), ([], [], []))

    def becomes(self, question, wanted):
        """Waits until a question is answered so."""
        late = time.monotonic() + PATIENCE
        while (found := self.database.rows(question)) != wanted:
            self.assertLess(time.monotonic(), late, found)
            time.sleep(0.1)

    def follows(self, leader):
        """Waits until another edge has served all that a leader added."""
        question = "select 1 from wfserve_followers where number >= (select max(number) from wfserve_log) - 1 and at > now() - interval '2 s'"
        self.becomes(question, ["1"])

    def test_who_is_about_to_lead_is_not_taken_for_silent(self):
        """It has the lock, and what is said of when the leader was heard is still of the one before."""
        self.machines = (None,)
        first, = self.nodes(WFEDGE)
        self.leader([first])
        first.stop()
        with Session(self.database) as session:
            self.assertEqual(session.ask("select pg_try_advisory_lock(7233, hashtext(current_schema()))"), "t")
            self.database.rows("update wfserve_leader set until = now() - interval '1 h'")
            options = ["--shards", "2", "--token-file", str(self.token_file), "--silence", "6000"]
            other = Node(WFEDGE, self.address, self.folder / "said-other", *options)
            self.addCleanup(other.stop)
            until(lambda: "this edge follows" in other.said.read_text(), PATIENCE)
            for _ in range(10):
                self.assertEqual(session.ask("select 1"), "1")
                time.sleep(0.1)
            # Once it asks nothing any more it is silent.
            self.leader([other])
            self.assertEqual(session.ask("select 1"), "")

    def test_blobs_are_in_the_database_for_both(self):
        nodes = self.nodes(WFEDGE)
        first = self.leader(nodes)
        text = random.Random(SEED).randbytes(1 << 20)
        name = hashlib.sha256(text).hexdigest()
        self.assertEqual(self.blob(first, "GET", name), (404, None))
        for _ in range(2):
            self.assertEqual(self.blob(first, "PUT", name, text)[0], 200)
        self.assertEqual(self.database.rows("select name, length(data) from wfserve_blobs"), [f"{name}|{len(text)}"])
        self.assertEqual(self.blob(first, "PUT", "0" * 64, text)[0], 422)
        first.tell(signal.SIGKILL)
        second = self.leader([node for node in nodes if node is not first])
        self.assertEqual(self.blob(second, "GET", name), (200, text))
        # A connection that ended is made anew.
        self.end_database()
        self.assertEqual(self.blob(self.leader(nodes), "GET", name), (200, text))
        self.database.rows("update wfserve_blobs set data = 'other'")
        self.assertEqual(self.blob(self.leader(nodes), "GET", name)[0], 500)

    def blob(self, node, method, name, text=None):
        """The status of a request for a blob, asked until the edge answers, and the bytes that were had."""
        late = time.monotonic() + PATIENCE
        while True:
            connection = http.client.HTTPConnection(node.host, node.port, timeout=PATIENCE)
            try:
                connection.request(method, f"/blobs/{name}", text, {"Authorization": f"Bearer {TOKEN}"})
                answer = connection.getresponse()
                data = answer.read()
                return answer.status, data if answer.status == 200 else None
            except (OSError, http.client.HTTPException):
                self.assertLess(time.monotonic(), late)
                time.sleep(0.05)
            finally:
                connection.close()


@needs_edge
@needs_program
@needs_postgres
@needs_client
class FailsOver(OverATable):
    """The database is lost for good, and its synchronous standby takes its place."""

    def setUp(self):
        super().setUp()
        self.standby = Database(self.folder / "two", self.database)
        self.addCleanup(self.standby.stop)
        self.database.rows("alter system set synchronous_standby_names = '*'")
        self.database.rows("select pg_reload_conf()")
        places = "&".join(f"host={it.folder}&port={it.port}" for it in (self.database, self.standby))
        self.address = f"postgres://edge@/orders?{places}&target_session_attrs=read-write"
        self.takeovers = 3

    def end_database(self):
        self.database.stop()
        self.standby.promote()
        self.database = self.standby

    def test_what_was_answered_is_on_the_standby(self):
        print(f"\na database that fails over: seed {SEED}", file=sys.stderr)
        late = time.monotonic() + PATIENCE
        while self.database.rows("select sync_state from pg_stat_replication") != ["sync"] and time.monotonic() < late:
            time.sleep(0.05)
        had = self.disturbed(WFEDGE, ["kill", "database", "kill"])
        self.assertGreater(len(had), CLIENTS)
        self.assertEqual(self.wrong_in(had), ([], [], []))


@needs_edge
@needs_program
@needs_postgres
@unittest.skipUnless(PLANTED.exists(), "the edge with the planted fault is not built: tools/gate edge builds it")
class Planted(OverATable):
    """Answers that are given before their lines are kept: the test above would see that some are lost."""

    def test_a_planted_fault_is_found(self):
        had = self.disturbed(PLANTED, ["kill"])
        self.assertNotEqual(self.wrong_in(had)[0], [])


if __name__ == "__main__":
    unittest.main()
