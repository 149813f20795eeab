"""A client and an SDK of wfserve, a workflow service that behaves as Temporal's server does.

    wfserve.client      starts workflows, and asks about them by handles
    wfserve.calls       the calls of a service, one line each, and a program that is spoken with by pipes
    wfserve.http        the same calls over HTTP, for a server that others share
    wfserve.durable     the same calls over a journal, which survives being killed
    wfserve.workflows   workflows and activities as code, and workers for them
    wfserve.testing     tests of workflows, in time that jumps
    wfserve.page        the page of the compiled edge, which serves over HTTP
    wfserve.errors      what all of them raise, with one base

The program is proved; this package is not. It needs Python 3.9 and nothing else, but the page, which needs aiohttp.
"""

__version__ = "0.1.0"
