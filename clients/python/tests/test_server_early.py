"""Requests that are refused before all of them has come: who sends on reads the refusal, and no reset."""

import http.client
import json
import select
import socket
import unittest
from unittest import mock

from support.programs import needs_server
from support.served import answer_to
from test_server import TOKEN, WithAServer

HASH = "0" * 64
# More than any body may have, and less than a server drops.
LONG = 3_000_000
# So many seconds an answer may take to come before all was sent. A server that reads first takes longer.
EARLY_SECONDS = 0.3
JSON = ("Content-Type", "application/json")
# A request's method, its path, its headers, its status and the name of its fault.
REFUSED = (
    ("PUT", f"/blobs/{HASH}", (), 413, "BlobTooLarge"),
    ("PUT", "/blobs/x", (), 404, "NoBlob"),
    ("POST", f"/blobs/{HASH}", (), 405, "MethodNotAllowed"),
    ("POST", "/calls", (JSON,), 413, "RequestEntityTooLarge"),
    ("POST", "/calls/signal", (JSON,), 413, "RequestEntityTooLarge"),
    ("POST", "/compact", (JSON,), 413, "RequestEntityTooLarge"),
    ("POST", "/calls", (("Content-Type", "text/plain"),), 415, "NotJson"),
    ("POST", "/calls", (JSON, ("Idempotency-Key", "a b")), 413, "RequestEntityTooLarge"),
    ("POST", "/calls/nothing", (JSON,), 404, "NoSuchOperation"),
    ("PUT", "/calls", (JSON,), 405, "MethodNotAllowed"),
    ("POST", "/nothing", (JSON,), 404, "NotFound"),
    ("POST", "/calls", (JSON, ("Host", "evil.test")), 403, "WrongHost"),
    ("PUT", f"/blobs/{HASH}", (("Host", "evil.test"),), 403, "WrongHost"),
)


def head_of(method, path, headers, *more):
    """The head of a request of this server, with headers that may have another host."""
    named = {"Host": "127.0.0.1", **dict(headers), **dict(more)}
    lines = [f"{method} {path} HTTP/1.1", *(f"{name}: {value}" for name, value in named.items())]
    return "\r\n".join(lines).encode() + b"\r\n\r\n"


def pieces_of(size, is_chunked=False):
    """A body of so many bytes, in twelve pieces."""
    piece = b"x" * (size // 12)
    for _ in range(12):
        yield b"%x\r\n%s\r\n" % (len(piece), piece) if is_chunked else piece
    if is_chunked:
        yield b"0\r\n\r\n"


@needs_server
class Early(WithAServer):
    def told(self, server, head, pieces):
        """The status and the JSON of an answer that is read only once all was sent."""
        with socket.create_connection((server.host, server.port), timeout=60) as connection:
            connection.sendall(head)
            for number, piece in enumerate(pieces):
                connection.sendall(piece)
                if number in (0, 1):
                    select.select([connection], [], [], EARLY_SECONDS)
            with http.client.HTTPResponse(connection) as answer:
                answer.begin()
                return answer.status, json.loads(answer.read() or b"null")

    def test_who_sends_a_long_body_to_its_end_is_told(self):
        server = self.serve(program=self.double())
        for method, path, headers, status, name in REFUSED:
            for is_chunked in (False, True):
                length = ("Transfer-Encoding", "chunked") if is_chunked else ("Content-Length", LONG)
                with self.subTest(method=method, path=path, headers=headers, is_chunked=is_chunked):
                    told, said = self.told(server, head_of(method, path, headers, length), pieces_of(LONG, is_chunked))
                    # A key is looked at before the body or after it.
                    if dict(headers).get("Idempotency-Key"):
                        self.assertIn(told, (400, status))
                    else:
                        self.assertEqual((told, said["error"]), (status, name))
        self.assertEqual(server.asked("POST", "/calls", b'{"op":"signal","name":"after them"}')[0], 200)
        self.assertEqual((server.stop(), server.said.read_text()), (0, ""))

    def test_who_bears_no_token_is_told(self):
        server = self.serve("--host", "0.0.0.0", "--token-file", self.token_file(), program=self.double())
        for method, path in (("PUT", f"/blobs/{HASH}"), ("POST", "/calls"), ("GET", "/")):
            head = head_of(method, path, (JSON,), ("Content-Length", LONG))
            told, said = self.told(server, head, pieces_of(LONG))
            self.assertEqual((told, said["error"]), (401, "NoToken"), path)
        bearer = {"Authorization": f"Bearer {TOKEN}"}
        self.assertEqual(server.asked("POST", "/calls", b'{"op":"signal","name":"a"}', bearer)[0], 200)

    def test_whose_head_is_no_head_is_told(self):
        server = self.serve(program=self.double())
        for more, statuses in ((("X", "x" * 20_000), (400, 431)), (("X", "x" * 200_000), (400, 431)), (("Content-Length", "x"), (400,))):
            head = head_of("POST", "/calls", (JSON,), more)
            with socket.create_connection((server.host, server.port), timeout=60) as connection:
                connection.sendall(head)
                select.select([connection], [], [], EARLY_SECONDS)
                for piece in pieces_of(LONG):
                    connection.sendall(piece)
                answer = http.client.HTTPResponse(connection)
                answer.begin()
                self.assertIn(answer.status, statuses)
                answer.close()

    def test_who_is_slow_is_told(self):
        # For as long the server drops what comes after its answer.
        server = self.serve("--read-timeout", "4", program=self.double())
        for method, path in (("POST", "/calls"), ("PUT", f"/blobs/{HASH}")):
            body = b"x" * 600_000
            with socket.create_connection((server.host, server.port), timeout=60) as connection:
                connection.sendall(head_of(method, path, (JSON,), ("Content-Length", len(body))) + body[:100])
                self.assertTrue(select.select([connection], [], [], 60)[0], path)
                for begin in range(100, len(body), 100_000):
                    connection.sendall(body[begin:begin + 100_000])
                with http.client.HTTPResponse(connection) as answer:
                    answer.begin()
                    self.assertEqual((answer.status, json.loads(answer.read())["error"]), (408, "SlowBody"), path)

    def test_after_a_short_body_that_is_refused_the_connection_goes_on(self):
        server = self.serve(program=self.double())
        plain, evil = {"Content-Type": "text/plain"}, {"Host": "evil.test", "Content-Type": "application/json"}
        connection = http.client.HTTPConnection(server.host, server.port, timeout=60)
        self.addCleanup(connection.close)
        connection.connect()
        first = connection.sock
        for path, headers, status in (("/calls", plain, 415), ("/calls", evil, 403), ("/nothing", plain, 404), ("/calls/x", plain, 404)):
            answer = answer_to(connection, "POST", path, b"x" * 2_000, headers)
            self.assertEqual((answer.status, bool(answer.read())), (status, True), path)
        answer = answer_to(connection, "POST", "/calls", b'{"op":"signal","name":"a"}', dict([JSON]))
        self.assertEqual((answer.status, json.loads(answer.read())["ok"]), (200, "signaled"))
        self.assertIs(connection.sock, first)

    def test_a_client_that_sends_nothing_more_and_stays_is_cut_off(self):
        server = self.serve("--read-timeout", "1", program=self.double())
        with socket.create_connection((server.host, server.port), timeout=60) as connection:
            connection.sendall(head_of("PUT", f"/blobs/{HASH}", (), ("Content-Length", LONG)))
            with http.client.HTTPResponse(connection) as answer:
                answer.begin()
                self.assertEqual((answer.status, json.loads(answer.read())["error"]), (413, "BlobTooLarge"))
            # What is sent beyond that is refused in the end: nobody reads it.
            with self.assertRaises(ConnectionError):
                for _ in range(600):
                    connection.sendall(b"x")
                    select.select([], [], [], 0.1)


class Cut(unittest.TestCase):
    def test_an_answer_that_came_before_the_end_is_read_where_sending_fails(self):
        """The other end is one that closes at once, as some do."""
        with socket.create_server(("127.0.0.1", 0)) as server:
            connection = http.client.HTTPConnection(*server.getsockname(), timeout=60)
            self.addCleanup(connection.close)
            connection.connect()
            there, _ = server.accept()
            with there:
                there.sendall(b"HTTP/1.1 413 Too Long\r\nContent-Length: 2\r\nConnection: close\r\n\r\n{}")
            answer = answer_to(connection, "POST", "/calls", b"x" * LONG, {})
            self.assertEqual((answer.status, answer.read()), (413, b"{}"))

    def test_a_connection_that_is_cut_off_while_it_is_made_is_lost(self):
        connection = http.client.HTTPConnection("127.0.0.1", 9)
        with mock.patch.object(connection, "connect", side_effect=ConnectionResetError):
            with self.assertRaises(ConnectionResetError):
                answer_to(connection, "POST", "/calls", b"{}", {})

    def test_where_there_is_none_it_is_said_what_sending_met(self):
        with socket.create_server(("127.0.0.1", 0)) as server:
            connection = http.client.HTTPConnection(*server.getsockname(), timeout=60)
            self.addCleanup(connection.close)
            connection.connect()
            server.accept()[0].close()
            with self.assertRaises((BrokenPipeError, ConnectionResetError)):
                answer_to(connection, "POST", "/calls", b"x" * LONG, {})


if __name__ == "__main__":
    unittest.main()
