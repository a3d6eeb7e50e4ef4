"""The HTTP server: uvicorn's, with a bound on each time that a client can make it wait."""

from __future__ import annotations

import asyncio
import socket
from typing import Any

import uvicorn
from uvicorn.protocols.http.httptools_impl import HttpToolsProtocol

from clear_service.settings import Settings

GRACE = 5.0  # seconds that requests have to end after SIGTERM; with the engine's end the service takes less than 10
ABORT = "clear.abort"  # the member of a request's scope that ends its connection at once


class BoundedProtocol(HttpToolsProtocol):  # type: ignore[misc]
    """A connection on which a request has to begin, and its head to be complete, within the idle time."""

    idle_seconds = 75.0
    _timer: asyncio.TimerHandle | None = None

    def connection_made(self, transport: asyncio.Transport) -> None:
        """The client has connected."""
        super().connection_made(transport)
        self._wait()

    def connection_lost(self, exc: Exception | None) -> None:
        """The connection has ended."""
        self._stop_waiting()
        super().connection_lost(exc)

    def on_message_begin(self) -> None:
        """A request begins."""
        super().on_message_begin()
        self.scope[ABORT] = self.transport.abort

    def on_headers_complete(self) -> None:
        """The head of a request is complete."""
        self._stop_waiting()
        super().on_headers_complete()

    def on_response_complete(self) -> None:
        """All of a response is written or in the connection's buffer."""
        super().on_response_complete()
        self._wait()

    def _wait(self) -> None:
        self._stop_waiting()
        if self.cycle is None or self.cycle.response_complete:
            self._timer = self.loop.call_later(self.idle_seconds, self.transport.abort)

    def _stop_waiting(self) -> None:
        if self._timer is not None:
            self._timer.cancel()
            self._timer = None


class Server(uvicorn.Server):  # type: ignore[misc]
    """A server whose end does not wait for clients longer than its grace."""

    async def shutdown(self, sockets: list[socket.socket] | None = None) -> None:
        """Ends the server. After the grace, connections are aborted, and their requests with them."""
        timer = asyncio.get_running_loop().call_later(GRACE, self._abort)
        try:
            await super().shutdown(sockets)
        finally:
            timer.cancel()

    def _abort(self) -> None:
        for connection in list(self.server_state.connections):
            connection.transport.abort()
        for task in list(self.server_state.tasks):
            task.cancel()


class Beside:
    """A server at a second address, which starts and ends with another one."""

    def __init__(self, server: Server) -> None:
        self._server = server

    async def start(self) -> None:
        """Listens from now on."""
        config = self._server.config
        config.load()
        self._server.lifespan = config.lifespan_class(config)
        await self._server.startup()

    async def stop(self) -> None:
        """Ends the server."""
        await self._server.shutdown()


def server_of(app: Any, settings: Settings, lifespan: str = "on") -> Server:
    """The server of the application by the settings."""
    protocol = type("Protocol", (BoundedProtocol,), {"idle_seconds": float(settings.idle_seconds)})
    config = uvicorn.Config(
        app,
        host=settings.host,
        port=settings.port,
        http=protocol,
        access_log=False,
        log_config=None,
        server_header=False,
        timeout_keep_alive=settings.idle_seconds,
        lifespan=lifespan,
    )
    return Server(config)
