"""Where the server is that `wf` asks, its token, and whom it trusts."""

from __future__ import annotations

import argparse
import os
import pathlib
import ssl
from typing import Optional

from wfserve.http import HttpService, tls_context

URL = "http://127.0.0.1:7233"
# For how many seconds a call is made again while the server is away: a person waits.
PATIENCE = 3.0


def add_connection(parser: argparse.ArgumentParser) -> None:
    """The words that say which server is asked."""
    parser.add_argument("--url", default=os.environ.get("WFSERVE_URL", URL), help=f"the server; WFSERVE_URL, or {URL}")
    parser.add_argument(
        "--token-file", default=os.environ.get("WFSERVE_TOKEN_FILE"),
        help="a file with the server's token, where it wants one; WFSERVE_TOKEN_FILE",
    )
    parser.add_argument(
        "--ca", metavar="FILE", default=os.environ.get("WFSERVE_CA"),
        help="the certificates that sign the server's, for an address with https; WFSERVE_CA, or the system's",
    )
    parser.add_argument(
        "--client-cert", metavar="FILE", default=os.environ.get("WFSERVE_CLIENT_CERT"),
        help="a certificate and its key, for a server that wants one; WFSERVE_CLIENT_CERT",
    )


def service_of(args: argparse.Namespace, wait: int = 0, patience: Optional[float] = None) -> HttpService:
    """The server that the words name. A poll waits for so many milliseconds; without a patience it is a person's."""
    most = PATIENCE if patience is None else patience
    return HttpService(args.url, token_of(args), wait=wait, patience=most, context=context_of(args))


def context_of(args: argparse.Namespace) -> Optional[ssl.SSLContext]:
    """Whom https trusts, where the words say so."""
    return tls_context(args.ca, args.client_cert) if args.ca or args.client_cert else None


def token_of(args: argparse.Namespace) -> Optional[str]:
    return pathlib.Path(args.token_file).read_text(encoding="utf-8").strip() if args.token_file else None
