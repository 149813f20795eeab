"""TLS to the database: what each sslmode wants, and what is refused by name."""

import os
import pwd
import subprocess
import threading
import unittest

from the_edge import WFEDGE, needs_edge

from support.programs import BUILT, needs_program
from tables import HOUR, PASSWORD, PATIENCE, Caller, Database, OverATable, needs_client, needs_postgres


def openssl(*words, folder):
    subprocess.run(["openssl", *words], check=True, capture_output=True, cwd=folder)


def make_certificate(folder, name, host, issuer=None):
    """A certificate of a host, signed by an issuer's or by itself."""
    openssl("req", "-newkey", "rsa:2048", "-nodes", "-keyout", f"{name}.key", "-out", f"{name}.req", "-subj", f"/CN={host}", folder=folder)
    (folder / f"{name}.ext").write_text(
        f"subjectAltName=DNS:{host}\n" if issuer else "basicConstraints=critical,CA:true\n", encoding="utf-8")
    signed = ["-CA", f"{issuer}.crt", "-CAkey", f"{issuer}.key", "-CAcreateserial"] if issuer else ["-signkey", f"{name}.key"]
    openssl("x509", "-req", "-in", f"{name}.req", "-out", f"{name}.crt", "-days", "2", "-extfile", f"{name}.ext", *signed, folder=folder)


@needs_edge
@needs_program
@needs_postgres
@needs_client
class Encrypted(OverATable):
    """A database whose certificate is one of `localhost`."""

    def new_database(self):
        folder = self.folder / "certificates"
        folder.mkdir(mode=0o711)
        make_certificate(folder, "root", "an authority of tests")
        make_certificate(folder, "other", "another authority")
        make_certificate(folder, "server", "localhost", "root")
        self.roots = {name: str(folder / f"{name}.crt") for name in ("root", "other")}
        if os.geteuid() == 0:
            os.chown(folder / "server.key", pwd.getpwnam("postgres").pw_uid, -1)
        (folder / "server.key").chmod(0o600)
        return Database(self.folder / "one", host="localhost", certificate=folder / "server")

    def at(self, host, query=""):
        """The database's address by TCP."""
        return f"postgres://edge@{host}:{self.database.port}/orders{query}"

    def ssl(self):
        """Whether each of the edge's connections is encrypted."""
        question = "select ssl from pg_stat_ssl join pg_stat_activity using (pid) where application_name = 'wfedge'"
        return set(self.database.rows(question))

    def test_what_is_asked_for_is_had(self):
        root = f"sslrootcert={self.roots['root']}"
        for host, query, encrypted in (
            ("localhost", "", "t"), ("localhost", "?sslmode=prefer", "t"), ("localhost", "?sslmode=disable", "f"),
            ("localhost", "?sslmode=require", "t"), ("127.0.0.1", f"?sslmode=verify-ca&{root}", "t"),
            ("localhost", f"?sslmode=verify-full&{root}", "t"),
        ):
            self.address, self.machines = self.at(host, query), (None,)
            node = self.nodes(WFEDGE)[0]
            self.leader([node])
            caller = Caller([node], query, threading.Event())
            caller.call("start", op="start", workflow_id=f"w{query}", workflow_type="T", task_queue="main", task_timeout=HOUR)
            caller.close()
            self.assertEqual(self.ssl(), {encrypted}, query)
            self.assertEqual(node.compact()[0], 200)
            node.stop()

    def test_what_can_not_be_had_is_refused_by_name(self):
        other, root = f"sslrootcert={self.roots['other']}", f"sslrootcert={self.roots['root']}"
        socket = f"postgres://edge@/orders?host={self.database.folder}&port={self.database.port}"
        for address, said in (
            (self.at("localhost", f"?sslmode=verify-full&{other}"), "certificate verify failed"),
            (self.at("localhost", f"?sslmode=verify-ca&{other}"), "certificate verify failed"),
            (self.at("localhost", f"?sslmode=require&{other}"), "certificate verify failed"),
            (self.at("localhost", "?sslmode=verify-full"), "certificate verify failed"),
            (self.at("127.0.0.1", f"?sslmode=verify-full&{root}"), "IP address mismatch"),
            (self.at("localhost", "?sslmode=allow"), "sslmode is disable, prefer, require, verify-ca or verify-full, and not allow"),
            (self.at("localhost", "?sslmode=verify-full&sslrootcert=/nowhere"), "/nowhere: No such file"),
            # A Unix socket has no TLS, nor has a server without a certificate.
            (f"{socket}&sslmode=require", "server does not support TLS"),
        ):
            self.refused(address, said)

    def refused(self, address, said):
        words = [str(WFEDGE), "--program", str(BUILT), "--log", address, "--port", "0"]
        environment = {**os.environ, "PGPASSWORD": PASSWORD}
        ran = subprocess.run(words, capture_output=True, text=True, timeout=PATIENCE, env=environment)
        self.assertEqual((ran.returncode, ran.stdout), (2, ""))
        self.assertIn(said, ran.stderr)
        self.assertNotIn(PASSWORD, ran.stderr)


if __name__ == "__main__":
    unittest.main()
