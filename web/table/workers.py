"""The worker of gunicorn that serves the page."""
from __future__ import annotations

import selectors
from typing import Any

from gunicorn.workers.gthread import ThreadWorker

PATIENCE = 20.0


class Worker(ThreadWorker):  # type: ignore[misc]
    """A worker with threads that does not wait for ever. A browser may open a connection and say nothing, which would hold a thread until it
    leaves."""

    def handle(self, conn: Any) -> Any:
        """Answers a connection, or closes it if nothing comes."""
        with selectors.DefaultSelector() as selector:
            selector.register(conn.sock, selectors.EVENT_READ)
            if not selector.select(PATIENCE):
                return False, conn
        conn.sock.settimeout(PATIENCE)
        return super().handle(conn)
