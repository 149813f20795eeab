"""Calls over sockets: many on one connection and at once, by whoever is let in, and clients that hang up."""

import json
import socket
import unittest

from support.programs import needs_server
from test_server import TOKEN, WithAServer


def read_answer(connection):
    """The status and the body of the next answer."""
    with connection.makefile("rb") as answer:
        status, length = int(answer.readline().split()[1]), 0
        while (line := answer.readline().strip()):
            if line.lower().startswith(b"content-length:"):
                length = int(line.split(b":")[1])
        return status, json.loads(answer.read(length))


@needs_server
class OverSockets(WithAServer):
    def asked(self, connection, name, head):
        """The status of a call, and what the program was told of it."""
        body = json.dumps({"op": "signal", "name": name}).encode()
        connection.sendall(head.replace(b"LENGTH", b"%d" % len(body)) + body)
        return read_answer(connection)

    def head(self, *more):
        lines = ["POST /calls HTTP/1.1", "Host: 127.0.0.1", "Content-Type: application/json", "Content-Length: LENGTH", *more]
        return "".join(f"{line}\r\n" for line in [*lines, ""]).encode()

    def test_each_call_has_its_own_body_and_key(self):
        server = self.serve(program=self.double())
        with socket.create_connection((server.host, server.port), timeout=60) as connection:
            for number in range(10, 30):
                status, reply = self.asked(connection, f"n{number}", self.head())
                self.assertEqual((status, json.loads(reply["said"])["name"]), (200, f"n{number}"))
            for number in range(10, 30):
                # Each key twice: the second time the reply of the first is had.
                first = self.asked(connection, f"k{number}", self.head(f"Idempotency-Key: key-{number}"))
                self.assertEqual(self.asked(connection, f"k{number}", self.head(f"Idempotency-Key: key-{number}")), first)
                self.assertEqual(self.asked(connection, "other", self.head(f"Idempotency-Key: key-{number}"))[0], 422)
        self.assertEqual(server.stop(), 0)
        text = self.log.read_bytes()
        self.assertEqual([text.count(b'"n%d"' % number) for number in range(10, 30)], [1] * 20)
        self.assertEqual([text.count(b'"k%d"' % number) for number in range(10, 30)], [1] * 20)

    def test_requests_that_come_together_are_each_answered_by_themselves(self):
        server = self.serve(program=self.double())
        connections = [socket.create_connection((server.host, server.port), timeout=60) for _ in range(20)]
        for connection in connections:
            self.addCleanup(connection.close)
            self.assertEqual(self.asked(connection, "first", self.head())[0], 200)
        bodies = {number: b'{"op":"signal","name":"n%02d"}' % number for number in range(20)}
        # None of these is a plain call, and each is as long as the others.
        bodies[3], bodies[7] = b'{"op":"signal","name":"n07" ', b'{"name":"x" ,"name":"n07"   }'[:len(bodies[0])]
        bodies[11] = b'{"op":"signal", "name":[1,2]}'[:len(bodies[0])]
        head = self.head().replace(b"LENGTH", b"%d" % len(bodies[0]))
        for _ in range(30):
            for number, connection in enumerate(connections):
                connection.sendall(head + bodies[number])
            for number, connection in enumerate(connections):
                status, reply = read_answer(connection)
                if number in (3, 7, 11):
                    self.assertEqual((status, reply["error"]), (400, "BadCall"), bodies[number])
                else:
                    self.assertEqual((status, json.loads(reply["said"])["name"]), (200, f"n{number:02}"))
        self.assertEqual(server.stop(), 0)
        self.assertEqual(self.log.read_bytes().count(b'"n12"'), 30)

    def test_who_hung_up_behind_its_call_has_it_counted(self):
        server = self.serve(program=self.double())
        for number in range(20):
            with socket.create_connection((server.host, server.port), timeout=60) as connection:
                self.assertEqual(self.asked(connection, f"a{number}", self.head())[0], 200)
                body = b'{"op":"signal","name":"b%d"}' % number
                connection.sendall(self.head().replace(b"LENGTH", b"%d" % len(body)) + body)
        self.assertEqual(server.stop(), 0)
        self.assertEqual([self.log.read_bytes().count(b'"b%d"' % number) for number in range(20)], [1] * 20)

    def test_who_has_no_token_is_not_let_in_after_who_has(self):
        server = self.serve("--token-file", self.token_file(), program=self.double())
        good, bad = self.head(f"Authorization: Bearer {TOKEN}"), self.head(f"Authorization: Bearer {TOKEN[:-1]}!")
        for head, wanted in ((good, 200), (good, 200), (bad, 401), (self.head(), 401), (good, 200)):
            with socket.create_connection((server.host, server.port), timeout=60) as connection:
                self.assertEqual(self.asked(connection, "s", head)[0], wanted)

    def test_a_connection_that_is_to_be_closed_is_closed_each_time(self):
        server = self.serve(program=self.double())
        for _ in range(3):
            with socket.create_connection((server.host, server.port), timeout=60) as connection:
                self.assertEqual(self.asked(connection, "s", self.head("Connection: close"))[0], 200)
                self.assertEqual(connection.recv(1), b"")


if __name__ == "__main__":
    unittest.main()
