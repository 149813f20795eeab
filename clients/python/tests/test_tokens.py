"""`wf token new`: what it writes, what it refuses, and what the client makes of an address with https."""

import contextlib
import hashlib
import io
import pathlib
import socket
import ssl
import tempfile
import threading
import unittest

from wfserve.cli import main
from wfserve.errors import CallLost, NotServed, NotTrusted
from wfserve.http import HttpService, tls_context


def ran(*words):
    """The status of `wf token new`, and its standard output and error."""
    out, err = io.StringIO(), io.StringIO()
    with contextlib.redirect_stdout(out), contextlib.redirect_stderr(err):
        try:
            status = main(["token", "new", *words])
        except SystemExit as ended:
            status = ended.code
    return status, out.getvalue(), err.getvalue()


class Written(unittest.TestCase):
    def setUp(self):
        folder = tempfile.TemporaryDirectory()
        self.addCleanup(folder.cleanup)
        self.file = pathlib.Path(folder.name) / "tokens"

    def test_a_line_has_the_hash_of_the_token_that_is_printed(self):
        self.file.write_text("# mine\nfirst sha256:0 read", encoding="utf-8")
        self.file.chmod(0o640)
        status, out, err = ran("mail.worker-1", "work:mail,orders", "read", "--file", str(self.file))
        self.assertEqual((status, err, out.count("\n")), (0, "", 1))
        token = out.strip()
        self.assertGreaterEqual(len(token), 43)
        line = f"mail.worker-1 sha256:{hashlib.sha256(token.encode()).hexdigest()} work:mail,orders read"
        self.assertEqual(self.file.read_text(encoding="utf-8"), f"# mine\nfirst sha256:0 read\n{line}\n")
        self.assertEqual((self.file.stat().st_mode & 0o777, len(list(self.file.parent.iterdir()))), (0o640, 1))

    def test_a_new_file_is_its_owners_alone_and_tokens_differ(self):
        drawn = {ran(f"n{number}", "start", "--file", str(self.file))[1] for number in range(3)}
        self.assertEqual((len(drawn), self.file.stat().st_mode & 0o777), (3, 0o600))

    def test_what_the_server_would_not_take_is_not_written(self):
        ran("taken", "read", "--file", str(self.file))
        before = self.file.read_bytes()
        for words, said in (
            (("taken", "read"), "has a token of the name taken"),
            (("a b", "read"), "is no name"), (("-", "read"), "is no name"), (("n" * 65, "read"), "is no name"),
            (("n", "write"), "write is no right"), (("n", "read:x"), "read:x is no right"),
            (("n", "work:"), "is no right"), (("n", "work:a,,b"), "is no right"),
            (("n", "read", "read"), "stands there twice"), (("n", "work", "work:a"), "stands there twice"), (("n",), "RIGHT"),
        ):
            status, out, err = ran(*words, "--file", str(self.file))
            self.assertEqual((status, out), (2, ""), words)
            self.assertIn(said, err)
        self.assertEqual(self.file.read_bytes(), before)


class Https(unittest.TestCase):
    """What a client says of the other end of an address with https."""

    def answering(self, data):
        """The port of a server that answers each connection by these bytes, and closes it."""
        listener = socket.create_server(("127.0.0.1", 0))
        self.addCleanup(listener.close)

        def serve():
            with contextlib.suppress(OSError):
                while True:
                    connection, _ = listener.accept()
                    with connection:
                        connection.recv(1 << 16)
                        connection.sendall(data)

        threading.Thread(target=serve, daemon=True).start()
        return listener.getsockname()[1]

    def test_one_that_speaks_no_tls_is_not_trusted_and_not_asked_again(self):
        service = HttpService(f"https://127.0.0.1:{self.answering(b'HTTP/1.1 400 Bad Request')}", patience=3_600)
        self.addCleanup(service.close)
        with self.assertRaises(NotTrusted) as fault:
            service.describe("w")
        self.assertIsInstance(fault.exception.__cause__, ssl.SSLError)
        self.assertFalse(fault.exception.passes)

    def test_one_that_hangs_up_is_away(self):
        service = HttpService(f"https://127.0.0.1:{self.answering(b'')}", patience=0)
        self.addCleanup(service.close)
        with self.assertRaises(CallLost):
            service.describe("w")

    def test_other_addresses_and_files_are_refused(self):
        for url in ("ftp://127.0.0.1", "https://", "127.0.0.1:7233"):
            with self.assertRaises(ValueError):
                HttpService(url)
        with self.assertRaises(OSError):
            tls_context("/nowhere")
        with self.assertRaises(OSError):
            tls_context(None, "/nowhere")

    def test_who_calls_too_often_may_call_again(self):
        self.assertTrue(NotServed(429, "").passes)


if __name__ == "__main__":
    unittest.main()
