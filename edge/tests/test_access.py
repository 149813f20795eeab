"""Who may do what: TLS with certificates of both ends, tokens with names and rights, the log of access, limits."""

import contextlib
import hashlib
import http.client
import json
import os
import re
import signal
import socket
import subprocess
import sys
import time
import unittest

from the_edge import WFEDGE, needs_edge, python_client

from support.served import free_port, until
from test_server import WithAServer
from wfserve.errors import NotServed, NotTrusted
from wfserve.http import HttpService, tls_context

# So many seconds a process may take that does its work at once where the machine has nothing else to do.
PATIENCE = 60
CALL = {"op": "signal", "workflow_id": "w", "name": "n"}
# The others' keys are of a curve.
RSA = ("next", "stranger")
TOKENS = ("dashboard", "mail", "front", "ops", "peer", "all")


def openssl(*words, folder):
    subprocess.run(["openssl", *words], check=True, capture_output=True, cwd=folder)


def make_certificate(folder, name, issuer=None, days="2", hosts="DNS:localhost,IP:127.0.0.1"):
    """A certificate and its key, signed by an issuer's or by itself, and both in one file."""
    kind = ["rsa:2048"] if name in RSA else ["ec", "-pkeyopt", "ec_paramgen_curve:P-256"]
    key = ["-newkey", *kind, "-nodes", "-keyout", f"{name}.key"]
    openssl("req", *key, "-out", f"{name}.req", "-subj", f"/CN={name}", folder=folder)
    names = f"subjectAltName={hosts}\n" if issuer else "basicConstraints=critical,CA:true\n"
    (folder / f"{name}.ext").write_text(names, encoding="utf-8")
    by_issuer = ["-CA", f"{issuer}.crt", "-CAkey", f"{issuer}.key", "-CAcreateserial"]
    signed = by_issuer if issuer else ["-signkey", f"{name}.key"]
    made = ["-in", f"{name}.req", "-out", f"{name}.crt", "-days", days, "-extfile", f"{name}.ext"]
    openssl("x509", "-req", *made, *signed, folder=folder)
    both = (folder / f"{name}.key").read_text(encoding="utf-8") + (folder / f"{name}.crt").read_text(encoding="utf-8")
    (folder / f"{name}.pem").write_text(both, encoding="utf-8")


class WithAnEdge(WithAServer):
    """An edge over a program that counts, with options of access."""

    def edge(self, *options):
        """Starts an edge with these options, and waits until it serves."""
        said = open(self.folder / "said", "w", encoding="utf-8")
        self.addCleanup(said.close)
        words = [str(WFEDGE), "--program", self.double(), "--log", str(self.log), "--port", str(free_port())]
        words += map(str, options)
        self.process = subprocess.Popen(words, stdout=subprocess.PIPE, stderr=said, text=True)
        self.addCleanup(self.end)
        found = re.fullmatch(r"serving ((https?)://(.*):(\d+)/)\n", line := self.process.stdout.readline())
        self.assertIsNotNone(found, f"{line}{self.said()}")
        self.url, self.port = found[1], int(found[4])
        return found[2]

    def said(self):
        return (self.folder / "said").read_text(encoding="utf-8")

    def end(self):
        """Ends the edge. Its status."""
        if self.process.poll() is None:
            self.process.terminate()
        try:
            return self.process.wait(PATIENCE)
        finally:
            self.process.kill()
            self.process.stdout.close()

    def hang_up(self, said):
        """Has the edge read its files again, and waits until it has said this."""
        before = len(self.said())
        self.process.send_signal(signal.SIGHUP)
        until(lambda: said in self.said()[before:])

    def service(self, **more):
        service = HttpService(self.url, patience=0, **more)
        self.addCleanup(service.close)
        return service

    def refused(self, *options):
        """What an edge says that these options can't start."""
        words = [str(WFEDGE), "--program", self.double(), "--log", str(self.log), "--port", "0", *map(str, options)]
        ran = subprocess.run(words, capture_output=True, text=True, timeout=PATIENCE)
        self.assertEqual((ran.returncode, ran.stdout), (2, ""), ran.stderr)
        return ran.stderr


@needs_edge
class Encrypted(WithAnEdge):
    def setUp(self):
        super().setUp()
        self.files = self.folder / "certificates"
        self.files.mkdir()
        for name, issuer, days in (
            ("root", None, "2"), ("other", None, "2"), ("server", "root", "2"), ("next", "other", "2"),
            ("old", "root", "-1"), ("worker", "root", "2"), ("stranger", "other", "2"),
        ):
            make_certificate(self.files, name, issuer, days)

    def at(self, name):
        return str(self.files / name)

    def options(self, name="server"):
        return ("--tls-cert", self.at(f"{name}.crt"), "--tls-key", self.at(f"{name}.key"))

    def trusting(self, root="root", client=None):
        """A service that trusts this authority, and shows this certificate."""
        return self.service(context=tls_context(self.at(f"{root}.crt"), client and self.at(f"{client}.pem")))

    def test_calls_are_made_by_https_on_both_ways_of_the_edge(self):
        self.assertEqual(self.edge(*self.options()), "https")
        service = self.trusting()
        for number in range(20):
            self.assertEqual(service.call("signal", workflow_id="w", name=f"n{number}")["ok"], "signaled")
        long = "x" * 200_000
        self.assertIn(long, service.call("signal", workflow_id="w", name="n", input=long)["said"])
        self.assertEqual(service.read("/health/ready")["status"], "ready")
        self.assertEqual(service.call("signal", workflow_id="w", name="last")["ok"], "signaled")
        # Another name of this host is not the certificate's.
        self.url = self.url.replace("127.0.0.1", "localhost")
        self.assertEqual(self.trusting().call("signal", workflow_id="w", name="n")["ok"], "signaled")
        self.assertEqual((self.end(), self.said()), (0, ""))

    def test_a_request_in_pieces_and_one_after_the_other_are_answered(self):
        self.edge(*self.options())
        body = json.dumps(CALL).encode()
        head = "POST /calls HTTP/1.1\r\nHost: 127.0.0.1\r\nContent-Type: application/json\r\n"
        whole = f"{head}Content-Length: {len(body)}\r\n\r\n".encode() + body
        context = tls_context(self.at("root.crt"))
        with socket.create_connection(("127.0.0.1", self.port), timeout=PATIENCE) as plain:
            with context.wrap_socket(plain, server_hostname="127.0.0.1") as connection:
                connection.sendall(whole + whole[:30])
                time.sleep(0.2)
                connection.sendall(whole[30:] + whole.replace(b"POST /calls", b"GET /health/live"))
                text = b""
                while text.count(b"HTTP/1.1 200 OK") < 3 or not text.endswith(b'"live"}'):
                    piece = connection.recv(1 << 16)
                    self.assertTrue(piece, text)
                    text += piece

    def test_an_edge_whose_certificate_is_not_good_is_not_trusted(self):
        for name, root, said in (("server", "other", "verify failed"), ("old", "root", "expired")):
            self.edge(*self.options(name))
            begun = time.monotonic()
            service = HttpService(self.url, patience=30, context=tls_context(self.at(f"{root}.crt")))
            self.addCleanup(service.close)
            with self.assertRaisesRegex(NotTrusted, said):
                service.describe("w")
            # That is not tried again.
            self.assertLess(time.monotonic() - begun, 25)
            self.assertEqual(self.end(), 0)
        self.edge(*self.options())
        with self.assertRaises(NotTrusted):
            self.service().describe("w")

    def test_who_speaks_no_tls_is_told_so(self):
        self.edge(*self.options())
        connection = http.client.HTTPConnection("127.0.0.1", self.port, timeout=PATIENCE)
        connection.request("POST", "/calls", json.dumps(CALL), {"Content-Type": "application/json"})
        answer = connection.getresponse()
        self.assertEqual((answer.status, json.load(answer)["error"]), (400, "NotEncrypted"))
        connection.close()

    def test_clients_show_a_certificate_where_one_is_wanted(self):
        self.edge(*self.options(), "--tls-client-ca", self.at("root.crt"))
        self.assertEqual(self.trusting(client="worker").call("signal", workflow_id="w", name="n")["ok"], "signaled")
        with self.assertRaisesRegex(NotServed, "403.*NoCertificate.*wants a client's certificate"):
            self.trusting().describe("w")
        self.assertEqual(self.trusting().read("/health/live")["status"], "live")
        make_certificate(self.files, "late", "root", "-1")
        for client in ("stranger", "late"):
            with self.assertRaises(NotTrusted) as refused:
                self.trusting(client=client).describe("w")
            self.assertRegex(str(refused.exception).lower(), "alert|unknown|expired")
        self.assertIn("TLS: a client was refused: invalid peer certificate", self.said())

    def test_certificates_are_read_again_and_a_bad_file_is_not_taken(self):
        shown = {name: self.at(f"shown.{name}") for name in ("crt", "key")}

        def show(name):
            for kind, path in shown.items():
                (self.files / f"shown.{kind}").write_bytes((self.files / f"{name}.{kind}").read_bytes())

        show("server")
        self.edge("--tls-cert", shown["crt"], "--tls-key", shown["key"])
        first = self.trusting()
        self.assertEqual(first.call("signal", workflow_id="w", name="n")["ok"], "signaled")
        show("next")
        self.hang_up("the certificates are read again")
        self.assertEqual(self.trusting("other").call("signal", workflow_id="w", name="n")["ok"], "signaled")
        with self.assertRaises(NotTrusted):
            self.trusting().describe("w")
        # A connection that is there goes on.
        self.assertEqual(first.call("signal", workflow_id="w", name="n")["ok"], "signaled")
        # The certificate alone is exchanged, as between two copies.
        (self.files / "shown.crt").write_bytes((self.files / "server.crt").read_bytes())
        self.hang_up("the certificates before go on to count")
        self.assertEqual(self.trusting("other").call("signal", workflow_id="w", name="n")["ok"], "signaled")

    def test_files_that_are_not_good_are_refused_by_name(self):
        empty, none = self.files / "empty", self.files / "none"
        empty.write_text("", encoding="utf-8")
        for options, said in (
            (("--tls-cert", self.at("server.crt"), "--tls-key", empty), "empty: it has no private key"),
            (("--tls-cert", empty, "--tls-key", self.at("server.key")), "empty: it has no certificate"),
            (("--tls-cert", none, "--tls-key", self.at("server.key")), "none: No such file"),
            ((*self.options(), "--tls-client-ca", empty), "empty: it has no certificate"),
            ((*self.options()[:2], "--tls-key", self.at("worker.key")), "worker.key: it is not the key of"),
            (("--tls-cert", self.at("server.crt")), "TLS needs --tls-cert and --tls-key"),
        ):
            self.assertIn(said, self.refused(*options))

    def test_the_command_wf_speaks_https_with_an_authority_of_its_own(self):
        self.edge(*self.options(), "--tls-client-ca", self.at("root.crt"))

        def wf(*words, **environment):
            words = [sys.executable, "-m", "wfserve.cli", "call", '{"op":"describe","workflow_id":"w"}', *words]
            path = os.pathsep.join([str(python_client.PACKAGE), os.environ.get("PYTHONPATH", "")])
            ran = subprocess.run(words, capture_output=True, text=True, timeout=PATIENCE,
                                 env={**os.environ, "PYTHONPATH": path, "WFSERVE_URL": self.url, **environment})
            return ran.returncode, ran.stdout + ran.stderr

        ca, cert = self.at("root.crt"), self.at("worker.pem")
        for words, environment in (
            (("--ca", ca, "--client-cert", cert), {}), ((), {"WFSERVE_CA": ca, "WFSERVE_CLIENT_CERT": cert}),
        ):
            status, text = wf(*words, **environment)
            self.assertEqual((status, '"ok"' in text), (0, True), text)
        self.assertEqual(wf("--ca", ca)[0], 5)
        status, text = wf("--ca", self.at("other.crt"), "--client-cert", cert)
        self.assertEqual((status, "CERTIFICATE_VERIFY_FAILED" in text), (5, True), text)
        self.assertEqual(wf("--ca", str(self.files / "none"))[0], 2)


@needs_edge
class Tokens(WithAnEdge):
    """Tokens with names and rights."""

    RIGHTS = {
        "dashboard": "read", "mail": "work:mail,orders", "front": "start", "ops": "operate", "peer": "peer",
        "all": "read work start operate",
    }

    def setUp(self):
        super().setUp()
        self.tokens = self.folder / "tokens"
        self.write(self.RIGHTS)

    def write(self, rights):
        """The file with these names, whose tokens are made of them."""
        hashes = {name: hashlib.sha256(self.token(name).encode()).hexdigest() for name in rights}
        lines = [f"{name} sha256:{hashes[name]} {own}" for name, own in rights.items()]
        self.tokens.write_text("# names, hashes, rights\n" + "\n".join(lines) + "\n", encoding="utf-8")

    def token(self, name):
        return f"the token of {name}, which is long"

    def asked(self, name, method, path, body=None, **headers):
        """The status and the text of an answer to the bearer of a name's token."""
        connection = http.client.HTTPConnection("127.0.0.1", self.port, timeout=PATIENCE)
        with contextlib.closing(connection):
            bearer = {"Authorization": f"Bearer {self.token(name)}"} if name else {}
            text = body if isinstance(body, bytes) or body is None else json.dumps(body)
            connection.request(method, path, text, {"Content-Type": "application/json", **bearer, **headers})
            answer = connection.getresponse()
            return answer.status, answer.read().decode(), answer.headers

    def bearers_of(self, method, path, body=None, **headers):
        """The names whose tokens let such a request in. The others lack a right, which their answers name."""
        found = []
        for name in TOKENS:
            status, text, _ = self.asked(name, method, path, body, **headers)
            if status == 403:
                self.assertEqual(json.loads(text)["error"], "NotPermitted", text)
                said = f"^the token {name} lacks the right [a-z]+( for the queue [a-z]+)?$"
                self.assertRegex(json.loads(text)["said"], said)
            else:
                found.append(name)
        return found

    def test_each_request_wants_its_right(self):
        self.edge("--tokens", self.tokens)
        for op, fields, names in (
            ("start", {"workflow_id": "w"}, ["front", "all"]),
            ("signal", {"workflow_id": "w", "name": "n"}, ["front", "all"]),
            ("terminate", {"workflow_id": "w"}, ["front", "all"]),
            ("describe", {"workflow_id": "w"}, ["dashboard", "all"]),
            ("history", {"workflow_id": "w"}, ["dashboard", "all"]),
            ("heartbeat", {"token": "t"}, ["mail", "all"]),
            ("complete_activity", {"token": "t"}, ["mail", "all"]),
            ("poll_activity_task", {"task_queue": "mail"}, ["mail", "all"]),
            ("poll_workflow_task", {"task_queue": "orders"}, ["mail", "all"]),
            ("poll_workflow_task", {"task_queue": "payments"}, ["all"]),
            ("timer_turn", {"shard": 0}, ["ops", "all"]),
            ("nothing", {}, ["front", "all"]),
        ):
            with self.subTest(op, **fields):
                body = {"op": op, **fields}
                self.assertEqual(self.bearers_of("POST", "/calls", body), names)
                # The same by hyper, which reads what isn't plain.
                self.assertEqual(self.bearers_of("POST", "/calls", body, Expect=""), names)
                if op != "nothing":
                    self.assertEqual(self.bearers_of("POST", f"/calls/{op}", fields), names)
        blob = f"/blobs/{hashlib.sha256(b'text').hexdigest()}"
        for method, path, body, names in (
            ("GET", "/metrics", None, ["ops", "all"]),
            ("POST", "/compact", {"capacity": "none"}, ["ops", "all"]),
            ("GET", "/workflows", None, ["dashboard", "all"]),
            ("PUT", blob, b"text", ["mail", "front", "all"]),
            ("GET", blob, None, ["dashboard", "mail", "all"]),
            ("GET", "/health/ready", None, list(TOKENS)),
        ):
            with self.subTest(path, method=method):
                self.assertEqual(self.bearers_of(method, path, body), names)
        self.assertEqual(self.asked(None, "GET", "/health/live")[0], 200)
        for token in ("", "another token"):
            status, text, _ = self.asked(None, "POST", "/calls", CALL, Authorization=f"Bearer {token}")
            self.assertEqual((status, json.loads(text)["error"]), (401, "NoToken"))
        self.assertNotIn(self.token("all"), self.log.read_text(encoding="utf-8", errors="replace") + self.said())
        self.assertIn('wfserve_refused_total{reason="NotPermitted"}', self.asked("ops", "GET", "/metrics")[1])

    def test_what_is_refused_has_no_effect(self):
        self.edge("--tokens", self.tokens)
        self.assertEqual(self.asked("dashboard", "POST", "/calls", {**CALL, "name": "forbidden"})[0], 403)
        self.assertEqual(self.asked("front", "POST", "/calls", {**CALL, "name": "allowed"})[0], 200)
        text = self.log.read_text(encoding="utf-8", errors="replace")
        self.assertEqual(("forbidden" in text, "allowed" in text), (False, True))

    def test_the_file_is_read_again_and_a_bad_one_is_not_taken(self):
        self.edge("--tokens", self.tokens)
        describe = {"op": "describe", "workflow_id": "w"}
        self.assertEqual(self.asked("dashboard", "POST", "/calls", describe)[0], 200)
        self.write({"front": "start", "new": "read"})
        self.assertEqual(self.asked("new", "POST", "/calls", describe)[0], 401)
        self.hang_up("2 tokens count from now on")
        found = [self.asked(name, "POST", "/calls", describe)[0] for name in ("dashboard", "new", "front")]
        self.assertEqual(found, [401, 200, 403])
        self.tokens.write_text("new\n", encoding="utf-8")
        self.hang_up("the tokens before go on to count")
        self.assertIn("tokens: line 1: behind the name", self.said())
        self.assertEqual(self.asked("new", "POST", "/calls", describe)[0], 200)
        self.assertEqual(self.end(), 0)

    def test_a_file_that_is_not_good_starts_nothing(self):
        self.tokens.write_text("# none\n", encoding="utf-8")
        self.assertIn("it has no token: wf token new NAME writes one", self.refused("--tokens", self.tokens))
        self.assertIn("No such file", self.refused("--tokens", self.folder / "none"))
        self.assertIn("name one of them", self.refused("--tokens", self.tokens, "--token-file", self.token_file()))

    def test_another_address_needs_a_token_of_either_kind(self):
        self.assertIn("--host 0.0.0.0 needs a --token-file", self.refused("--host", "0.0.0.0"))
        self.edge("--tokens", self.tokens, "--host", "0.0.0.0")
        self.assertEqual(self.asked("front", "POST", "/calls", CALL, Host="any.test")[0], 200)

    def test_wf_makes_a_token_that_the_edge_takes(self):
        words = [sys.executable, "-m", "wfserve.cli", "token", "new", "drawn", "start", "--file", str(self.tokens)]
        environment = {**os.environ, "PYTHONPATH": str(python_client.PACKAGE)}
        ran = subprocess.run(words, capture_output=True, text=True, timeout=PATIENCE, env=environment)
        self.assertEqual((ran.returncode, ran.stderr), (0, ""))
        drawn = ran.stdout.strip()
        self.assertNotIn(drawn, self.tokens.read_text(encoding="utf-8"))
        self.edge("--tokens", self.tokens)
        self.token = lambda name: drawn
        self.assertEqual(self.asked("drawn", "POST", "/calls", CALL)[0], 200)
        again = subprocess.run(words, capture_output=True, text=True, timeout=PATIENCE, env=environment)
        self.assertEqual((again.returncode, again.stdout), (2, ""))
        self.assertIn("has a token of the name drawn", again.stderr)

    def test_the_log_of_access_has_each_request_with_its_name(self):
        log = self.folder / "access"
        self.edge("--tokens", self.tokens, "--access-log", log)
        self.asked("front", "POST", "/calls/signal", {"workflow_id": "w", "name": "n"})
        self.asked("dashboard", "POST", "/calls", CALL)
        self.asked(None, "GET", "/workflows?token=a%20secret")
        self.asked("ops", "GET", "/metrics")

        def lines():
            return [json.loads(line) for line in log.read_text(encoding="utf-8").splitlines()]

        until(lambda: len(lines()) == 4)
        found = [tuple(line[key] for key in ("name", "method", "path", "op", "status")) for line in lines()]
        self.assertEqual(found, [
            ("front", "POST", "/calls/signal", "signal", 200), ("dashboard", "POST", "/calls", "signal", 403),
            (None, "GET", "/workflows", None, 401), ("ops", "GET", "/metrics", None, 200),
        ])
        for line in lines():
            self.assertLess(abs(line["at"] - time.time()), 3_600)
            self.assertGreaterEqual(line["ms"], 0)
            self.assertGreater(line["bytes"], 0)
        log.rename(self.folder / "moved")
        self.hang_up("tokens count from now on")
        self.asked("front", "POST", "/calls", CALL)
        until(lambda: log.exists() and len(lines()) == 1)
        self.assertEqual(log.stat().st_mode & 0o777, 0o600)

    def test_a_name_makes_so_many_requests_a_second(self):
        self.edge("--tokens", self.tokens, "--rate-limit", "1")
        answers = self.pipelined("front", 30)
        self.assertEqual(answers[0][0], 200)
        refused = [answer for answer in answers if answer[0] != 200]
        self.assertGreater(len(refused), 0)
        for status, head, text in refused:
            self.assertEqual((status, "retry-after: 1\r\n" in head, json.loads(text)), (429, True, {
                "error": "TooManyCalls", "said": "front may make 1 calls a second"}))
        # Another name has a limit of its own, and health has none.
        self.assertEqual(self.asked("dashboard", "GET", "/workflows")[0], 404)
        self.assertEqual({self.asked(None, "GET", "/health/live")[0] for _ in range(20)}, {200})
        # A client of the package makes a call again that counts once.
        service = HttpService(self.url, self.token("front"))
        self.addCleanup(service.close)
        for number in range(3):
            reply = service.call("signal", workflow_id="w", name="n", request_id=f"r{number}")
            self.assertEqual(reply["ok"], "signaled")

    def pipelined(self, name, count):
        """The statuses, heads and texts of the answers to so many calls, which are sent at once."""
        body = json.dumps(CALL)
        request = (f"POST /calls HTTP/1.1\r\nHost: 127.0.0.1\r\nContent-Type: application/json\r\n"
                   f"Authorization: Bearer {self.token(name)}\r\nContent-Length: {len(body)}\r\n\r\n{body}")
        with socket.create_connection(("127.0.0.1", self.port), timeout=PATIENCE) as connection:
            connection.sendall(request.encode() * count)
            answers, reader = [], connection.makefile("rb")
            for _ in range(count):
                head = b""
                while not head.endswith(b"\r\n\r\n"):
                    head += reader.readline()
                length = int(re.search(rb"content-length: (\d+)", head)[1])
                answers.append((int(head.split()[1]), head.decode(), reader.read(length).decode()))
            reader.close()
        return answers


if __name__ == "__main__":
    unittest.main()
