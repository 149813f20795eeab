"""A service that survives being killed: the program keeps a journal in a folder, and goes on from there.

    from wfserve.durable import DurableService

    with DurableService(["./serve"], "orders") as service:
        service.start("order-17", "Order", request_id="order-17-start")
"""

from .background import Compaction
from .moving import move_journal, move_log
from .service import DurableService
from .settings import Settings

__all__ = ["Compaction", "DurableService", "Settings", "move_journal", "move_log"]
