"""Texts that are too long for a history: the store, the codec, the server's paths, and what is deleted when.

WFSERVE_SEED draws other texts.
"""

import asyncio
import hashlib
import json
import os
import pathlib
import random
import stat
import tempfile
import threading
import unittest
from unittest import mock

from support.programs import BUILT, needs_program, needs_server
from test_server import TOKEN, WithAServer
from wfserve.blobs import (
    MOST_BYTES, BlobDamaged, BlobMissing, Blobs, BlobsNotKept, BlobTooLarge, FolderStore, MemoryStore, name_of, names_in,
)
from wfserve.client import Client
from wfserve.errors import NotServed
from wfserve.ids import run_id
from wfserve.page.listing import Workflows
from wfserve.page.sweeping import Sweeper
from wfserve.testing import WorkflowEnvironment
from wfserve.workflows import Converter, Gzip, Retry, Worker, minutes, seconds, workflow

SEED = int(os.environ.get("WFSERVE_SEED", random.randrange(1 << 32)))
LONG = 100_000


def drawn(size, seed=SEED):
    """A text of so many bytes that gets no smaller."""
    return random.Random(seed).randbytes(size // 2).hex()


class Folders(unittest.TestCase):
    def setUp(self):
        folder = tempfile.TemporaryDirectory()
        self.addCleanup(folder.cleanup)
        self.store = FolderStore(f"{folder.name}/a.log.blobs")

    def put(self, data):
        self.store.put(name_of(data), data)
        return name_of(data)

    def files(self):
        return sorted(path for path in self.store.folder.rglob("*") if path.is_file())

    def test_what_is_put_is_there_for_its_owner_alone(self):
        name = self.put(b"a text")
        self.assertEqual(name, hashlib.sha256(b"a text").hexdigest())
        self.assertEqual((self.store.get(name), list(self.store.names())), (b"a text", [name]))
        self.assertEqual([stat.S_IMODE(path.stat().st_mode) for path in self.files()], [0o600])
        self.assertEqual({stat.S_IMODE(it.stat().st_mode) for it in (self.store.folder, self.files()[0].parent)}, {0o700})

    def test_it_is_synced_before_it_has_its_name(self):
        seen = []
        real = os.fsync

        def fsync(descriptor):
            seen.append((stat.S_ISDIR(os.fstat(descriptor).st_mode), name_of(b"a text") in list(self.store.names())))
            real(descriptor)

        with mock.patch("os.fsync", fsync):
            self.put(b"a text")
        # Two folders are made, the file is synced under another name, and then its folder with the name.
        self.assertEqual(seen, [(True, False), (True, False), (False, False), (True, True)])

    def test_what_can_not_be_synced_leaves_nothing(self):
        self.put(b"another")
        with mock.patch("os.fsync", side_effect=OSError(28, "no room")), self.assertRaises(OSError):
            self.put(b"a text")
        self.assertEqual([path.read_bytes() for path in self.files()], [b"another"])

    def test_put_again_it_is_one_file(self):
        first = self.put(b"a text")
        os.utime(self.files()[0], (1, 1))
        self.assertEqual((self.put(b"a text"), len(self.files())), (first, 1))
        self.assertGreater(self.files()[0].stat().st_mtime, 1_000)

    def test_one_that_was_cut_off_is_put_again(self):
        name = self.put(b"a text")
        self.files()[0].write_bytes(b"a t")
        with self.assertRaises(BlobDamaged):
            self.store.get(name)
        self.put(b"a text")
        self.assertEqual(self.store.get(name), b"a text")

    def test_what_is_not_there_and_what_is_no_name(self):
        for name in ("0" * 64, "../../etc/passwd", "", "A" * 64, "0" * 63, "0" * 65):
            with self.assertRaises(BlobMissing):
                self.store.get(name)

    def test_one_that_is_too_large_is_refused(self):
        with self.assertRaisesRegex(BlobTooLarge, "2097153 bytes, and a blob has at most 2097152"):
            self.put(b"x" * (MOST_BYTES + 1))
        self.assertEqual(len(self.put(b"x" * MOST_BYTES)), 64)

    def test_what_was_neither_put_nor_named_for_long_goes(self):
        names = [self.put(text) for text in (b"old", b"named", b"new")]
        for name in names[:2]:
            self.store.touch(name, 1_000)
        self.store.touch(names[1], 5_000)
        self.store.touch("0" * 64, 5_000)
        self.assertEqual(self.store.delete_before(2_000), 1)
        self.assertEqual(set(self.store.names()), set(names[1:]))

    def test_many_may_put_the_same_at_a_time(self):
        texts = [f"text {number % 3}".encode() for number in range(24)]
        threads = [threading.Thread(target=self.put, args=(text,)) for text in texts]
        for thread in threads:
            thread.start()
        for thread in threads:
            thread.join()
        self.assertEqual({self.store.get(name) for name in self.store.names()}, set(texts))
        self.assertEqual(len(self.files()), 3)


class Codecs(unittest.TestCase):
    def setUp(self):
        self.store = MemoryStore()
        self.blobs = Blobs(self.store)

    def test_a_text_that_fits_stays_and_a_longer_one_is_named(self):
        for text in ("", "x" * 4_096, "é" * 2_048, '{"blob:":1}', "blob:", "blob:12:3"):
            self.assertEqual((self.blobs.encode(text), self.blobs.decode(text)), (text, text))
        for text in ("x" * 4_097, "é" * 2_049, drawn(MOST_BYTES)):
            named = self.blobs.encode(text)
            self.assertEqual(named, f"blob:{name_of(text.encode())}:{len(text.encode())}")
            self.assertEqual(Blobs(self.store).decode(named), text)
        with self.assertRaises(BlobTooLarge):
            self.blobs.encode("x" * (MOST_BYTES + 1))

    def test_what_is_known_is_not_asked_for_again(self):
        asked = []
        self.store.get = asked.append
        text = drawn(LONG)
        named = self.blobs.encode(text)
        self.assertEqual((self.blobs.decode(named), asked), (text, []))

    def test_what_was_put_or_read_long_ago_is_put_again_before_it_is_named(self):
        """No history may have named it since, and a server with a retention has deleted it."""
        now = [1_000.0]
        with mock.patch("wfserve.blobs.time.monotonic", lambda: now[0]):
            text = drawn(LONG)
            named = self.blobs.encode(text)
            for seconds_more, is_put in ((3_000, False), (3_000, True), (3_000, False), (90_000, True)):
                now[0] += seconds_more
                self.store._kept.clear()
                self.assertEqual((self.blobs.encode(text), bool(self.store._kept)), (named, is_put))
            # Who has read it has seen it there.
            other = Blobs(self.store)
            self.assertEqual(other.decode(named), text)
            self.store._kept.clear()
            self.assertEqual((other.encode(text), bool(self.store._kept)), (named, False))
            now[0] += 4_000
            self.assertEqual((other.encode(text), bool(self.store._kept)), (named, True))

    def test_memory_has_an_end(self):
        with mock.patch("wfserve.blobs.KEPT_BYTES", 3 * LONG):
            for seed in range(10):
                self.blobs.encode(drawn(LONG, seed))
            self.assertLessEqual(sum(map(len, self.blobs._known.values())), 3 * LONG)
        self.assertEqual(self.blobs.decode(self.blobs.encode(drawn(LONG, 0))), drawn(LONG, 0))

    def test_it_comes_after_all_other_codecs(self):
        converter = Converter(Gzip()).with_blobs(mock.Mock(blobs=self.store))
        self.assertIs(converter.with_blobs(mock.Mock(blobs=MemoryStore())), converter)
        even, uneven = converter.text_of("x" * LONG), converter.text_of(drawn(LONG))
        self.assertTrue(even.startswith("gzip:") and uneven.startswith("blob:"))
        self.assertEqual(len(self.store._kept), 1)
        self.assertTrue(next(iter(self.store._kept.values())).startswith(b"gzip:"))
        self.assertEqual((converter.value_of(even), converter.value_of(uneven)), ("x" * LONG, drawn(LONG)))
        self.assertIs(Converter().with_blobs(object()).with_blobs(None).__class__, Converter)

    def test_names_are_found_in_a_text(self):
        named = [self.blobs.encode(drawn(LONG, seed)) for seed in (1, 2)]
        text = json.dumps({"events": [{"attrs": {"input": named[0]}}, {"attrs": {"result": named[1], "x": "blob:12:4"}}]})
        self.assertEqual(names_in(text), {it.split(":")[1] for it in named})


def doubles(text):
    return text + text[::-1]


def gives_too_much():
    return "x" * (MOST_BYTES + 1)


@workflow
async def long_texts(ctx, text, again=True):
    told = await ctx.signal("told")
    kept = ctx.once(lambda: text[:LONG // 2])
    made = await ctx.activity(doubles, text, start_to_close=seconds(5))
    child = await ctx.child(returns, made)
    await ctx.timer(minutes(1))
    if again:
        ctx.continue_as_new(text, False)
    return [told, kept, made, child]


@workflow
async def returns(ctx, text):
    return text


@workflow
async def too_much(ctx):
    await ctx.activity(gives_too_much, start_to_close=seconds(5), retry=Retry(attempts=3))


def texts_of(events):
    """All texts of histories."""
    found, left = [], list(events)
    while left:
        it = left.pop()
        if isinstance(it, str):
            found.append(it)
        elif isinstance(it, (dict, list)):
            left.extend(it.values() if isinstance(it, dict) else it)
    return found


@needs_program
class InWorkflows(unittest.TestCase):
    def setUp(self):
        self.env = WorkflowEnvironment([long_texts, returns, too_much], [doubles, gives_too_much], [str(BUILT)])
        self.addCleanup(self.env.close)

    def test_long_texts_go_everywhere_and_none_is_in_a_history(self):
        print(f"blobs: seed {SEED}")
        text = drawn(LONG)
        handle = self.env.start(long_texts, text, id="w")
        first = self.env.service.describe("w")["run"]
        for _ in range(2):
            self.env.client.handle("w").signal("told", {"said": text})
            self.env.sleep(minutes(1))
        made = doubles(text)
        self.assertEqual(handle.result(), [{"said": text}, text[:LONG // 2], made, made])
        events = [*self.env.service.history("w", first), *self.env.service.history("w")]
        self.assertLess(max(map(len, texts_of(events))), 200)
        self.assertGreater(len({it for it in texts_of(events) if it.startswith("blob:")}), 3)

    def test_one_that_is_too_long_is_refused_by_name_and_its_activity_is_made_once(self):
        with self.assertRaisesRegex(Exception, "2097155 bytes, and a blob has at most 2097152"):
            self.env.execute(too_much)
        with self.assertRaises(BlobTooLarge):
            self.env.start(returns, "x" * MOST_BYTES, id="v")


@needs_server
class Paths(WithAServer):
    def setUp(self):
        super().setUp()
        self.server = self.serve(program=self.double())
        self.data = drawn(LONG).encode()
        self.path = f"/blobs/{name_of(self.data)}"

    def ask(self, method, path, body=None, **headers):
        status, found, text = self.server.asked(method, path, body, {"Content-Type": "application/octet-stream", **headers})
        return status, (text if method == "GET" and status == 200 else json.loads(text)), found

    def test_what_was_put_is_read_and_lies_beside_the_log(self):
        self.assertEqual(self.ask("PUT", self.path, self.data)[:2], (200, {"ok": "kept", "bytes": len(self.data)}))
        status, text, headers = self.ask("GET", self.path)
        self.assertEqual((status, text), (200, self.data.decode()))
        self.assertEqual((headers["Content-Disposition"], headers["X-Content-Type-Options"]), ("attachment", "nosniff"))
        files = [path for path in pathlib.Path(f"{self.log}.blobs").rglob("*") if path.is_file()]
        self.assertEqual([path.read_bytes() for path in files], [self.data])

    def test_what_is_refused(self):
        other = "/blobs/" + "0" * 64
        for method, path, body, status, name in (
            ("GET", other, None, 404, "NoBlob"), ("PUT", other, self.data, 422, "OtherHash"),
            ("PUT", "/blobs/x", self.data, 404, "NoBlob"), ("GET", "/blobs/..%2Fa.log", None, 404, "NoBlob"),
            ("PUT", self.path, b"x" * (MOST_BYTES + 1), 413, "BlobTooLarge"),
        ):
            found, said, _ = self.ask(method, path, body)
            self.assertEqual((found, said["error"]), (status, name), path)
        self.assertEqual(self.server.asked("POST", self.path, b"{}")[0], 405)
        self.assertFalse(pathlib.Path(f"{self.log}.blobs").exists())

    def test_the_largest_one(self):
        data = drawn(MOST_BYTES).encode()
        service = self.server.client()
        service.blobs.put(name_of(data), data)
        self.assertEqual(service.blobs.get(name_of(data)), data)
        with self.assertRaises(BlobMissing):
            service.blobs.get("0" * 64)
        with self.assertRaises(NotServed):
            service.blobs.put("0" * 64, data)

    def test_they_want_the_token(self):
        self.server.stop()
        server = self.serve("--host", "0.0.0.0", "--token-file", self.token_file(), program=self.double())
        self.assertEqual(server.asked("PUT", self.path, self.data)[0], 401)
        self.assertEqual(server.asked("GET", self.path)[0], 401)
        service = server.client(token=TOKEN)
        service.blobs.put(name_of(self.data), self.data)
        self.assertEqual(service.blobs.get(name_of(self.data)), self.data)

    def test_a_server_without_blobs_is_said(self):
        service = self.server.client()
        for status in (404, 405):
            with mock.patch.object(service, "_exchange", lambda *_: (status, "{}")):
                with self.assertRaisesRegex(BlobsNotKept, "the server keeps no blobs"):
                    service.blobs.put(name_of(self.data), self.data)


@needs_server
@needs_program
class OverTheServer(WithAServer):
    def test_a_client_and_a_worker_see_nothing_of_it(self):
        server = self.serve()
        client = Client(server.client(wait=200))
        text, stop = drawn(LONG), threading.Event()
        worker = Worker(server.client(wait=200), workflows=[long_texts, returns], activities=[doubles])
        working = threading.Thread(target=worker.run, args=(stop,))
        working.start()
        try:
            handle = client.start(returns, text, id="w")
            self.assertEqual(handle.result(timeout=60), text)
        finally:
            stop.set()
            working.join(60)
        line = next(line for line in self.log.read_bytes().splitlines() if b'"start"' in line)
        self.assertIn(f"blob:{name_of(json.dumps([text]).encode())}".encode(), line)
        self.assertLess(self.log.stat().st_size, LONG)


def history_of(*attrs, closed=False, more=()):
    """A history whose inputs are these."""
    first = {"workflow_type": "W", "task_queue": "main", "input": "", "workflow_id": "w"}
    kinds = [("WorkflowExecutionStarted", first), *(("WorkflowExecutionSignaled", {"input": it}) for it in attrs), *more]
    kinds += [("WorkflowExecutionCompleted", {"result": ""})] if closed else []
    return [{"at": n, "attrs": attrs, "id": n, "type": kind} for n, (kind, attrs) in enumerate(kinds, 1)]


class FakeCore:
    """Answers reads by run, or the latest of a workflow ID; what is not there is gone."""

    def __init__(self):
        self.histories, self.latest, self.asked = {}, {}, []

    def submit(self, request, begin, waiter, key=None):
        run = request.get("run") or self.latest.get(request["workflow_id"])
        reply = {"error": "NotFound", "line": 1, "no": 2}
        if request["op"] == "describe" and run:
            reply = {"line": 1, "ok": "described", "run": run}
        elif request["op"] == "history" and run in self.histories:
            self.asked.append(run)
            reply = {"events": self.histories[run], "line": 1, "ok": "history", "run": run}
        waiter.answer(json.dumps(reply).encode())


RUNS = {name: run_id(1, 0, n) for n, name in enumerate(("open", "closed", "gone", "child", "next", "later"))}


class Swept(unittest.TestCase):
    DAY = 86_400

    def setUp(self):
        folder = tempfile.TemporaryDirectory()
        self.addCleanup(folder.cleanup)
        self.store = FolderStore(f"{folder.name}/blobs")
        self.core, self.workflows = FakeCore(), Workflows()
        self.sweeper = Sweeper(self.core, self.workflows, self.store, 10_000)
        self.named = {name: self.put(name) for name in ("open", "closed", "gone", "early")}
        self.add("open", "open")
        self.add("closed", "closed", closed=True)
        self.add("gone", "gone", closed=True)

    def put(self, name):
        """A blob that was put long ago. The text that names it."""
        data = drawn(LONG, name).encode()
        self.store.put(name_of(data), data)
        self.store.touch(name_of(data), 0)
        return f"blob:{name_of(data)}:{LONG}"

    def add(self, run, *blobs, closed=False, more=()):
        """A run that the list knows, and what its history names."""
        self.core.histories[RUNS[run]] = history_of(*(self.named[it] for it in blobs), closed=closed, more=more)
        self.workflows.add(run, RUNS[run], "W", 1)

    def sweep(self, now):
        return asyncio.run(self.sweeper.sweep(now))

    def left(self):
        names = set(self.store.names())
        return {name for name, it in self.named.items() if it.split(":")[1] in names}

    def test_what_no_history_names_goes_after_the_retention_and_a_day(self):
        self.assertEqual((self.sweep(1_000), len(self.left())), (0, 4))
        self.assertEqual((self.sweep(self.DAY + 11), self.left()), (1, {"open", "closed", "gone"}))
        # The retention deletes a run.
        self.workflows.remove(RUNS["gone"])
        del self.core.histories[RUNS["gone"]]
        self.assertEqual((self.sweep(self.DAY + 100), self.left()), (0, {"open", "closed", "gone"}))
        self.assertEqual((self.sweep(2 * self.DAY + 30), self.left()), (1, {"open", "closed"}))
        self.assertEqual((self.sweep(100 * self.DAY), self.left()), (0, {"open", "closed"}))
        # Runs that have closed are read once.
        self.assertEqual((self.core.asked.count(RUNS["closed"]), self.core.asked.count(RUNS["open"])), (1, 5))

    def test_runs_that_others_began_are_looked_for(self):
        for name in ("child", "next", "later"):
            self.named[name] = self.put(name)
        # One that a history names, and that names another; and one that only a command named.
        child = ("ChildWorkflowExecutionStarted", {"initiated": 2, "workflow_id": "c", "run": RUNS["child"]})
        follower = ("WorkflowExecutionContinuedAsNew", {"new_run": RUNS["next"], "workflow_type": "W", "input": ""})
        self.add("open", "open", more=[child])
        self.core.histories[RUNS["child"]] = history_of(self.named["child"], more=[follower])
        self.core.histories[RUNS["next"]] = history_of(self.named["next"])
        self.core.histories[RUNS["later"]] = history_of(self.named["later"])
        self.core.latest["l"] = RUNS["later"]
        command = {"type": "StartChildWorkflowExecution", "workflow_id": "l"}
        self.workflows.observe({"op": "complete_workflow_task", "commands": [command], "token": "none"}, {"ok": "completed"})
        self.assertEqual(self.sweep(3 * self.DAY), 1)
        self.assertEqual(self.left(), set(self.named) - {"early"})

    def test_where_there_are_no_blobs_nothing_is_read(self):
        self.store.delete_before(1 << 40)
        self.assertEqual((self.sweep(1_000), self.core.asked), (0, []))

    def test_without_a_retention_it_never_begins(self):
        self.sweeper._seconds = 0
        asyncio.run(asyncio.wait_for(self.sweeper.run(), 60))
        self.assertEqual(self.core.asked, [])


if __name__ == "__main__":
    unittest.main()
