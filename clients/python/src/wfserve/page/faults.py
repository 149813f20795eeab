"""How the page answers a fault: as JSON."""

from __future__ import annotations

import logging
from typing import Awaitable, Callable

from aiohttp import web

LOG = logging.getLogger("wfserve.http")
# What answers a request that a middleware lets through.
Handler = Callable[[web.Request], Awaitable[web.StreamResponse]]


def fault(status: int, name: str, said: str) -> web.Response:
    """An answer that is no reply of the service."""
    return web.json_response({"error": name, "said": said}, status=status)


@web.middleware
async def answer_faults(request: web.Request, handler: Handler) -> web.StreamResponse:
    """Answers each fault as JSON. One of the page's own is said on standard error."""
    try:
        return await handler(request)
    except web.HTTPException as answer:
        if answer.status < 400:
            raise
        found = fault(answer.status, type(answer).__name__[len("HTTP"):], answer.text or answer.reason)
        if "Allow" in answer.headers:
            found.headers["Allow"] = answer.headers["Allow"]
        return found
    except Exception as wrong:
        LOG.exception("%s %s: %s: %s", request.method, request.path, type(wrong).__name__, wrong)
        return fault(500, "Fault", "the server is at fault; its standard error says more")
