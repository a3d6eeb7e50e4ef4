"""The application: the endpoints, the engine that answers them, and the layer that every request passes first."""

from __future__ import annotations

import logging
from collections.abc import Callable
from typing import Any

from fastapi import FastAPI, Request
from fastapi.exceptions import RequestValidationError
from fastapi.openapi.utils import get_openapi
from starlette.exceptions import HTTPException
from starlette.responses import Response

from clear_service import clearing, credentials, lists, ocpi, ocpi_lists, operation, page, peer_list, receipts
from clear_service.access import Access, error_body
from clear_service.configuration import Configuration
from clear_service.engine import Engine
from clear_service.house import House
from clear_service.keep_engine import KeepEngine
from clear_service.lines import LineError
from clear_service.metrics import Metrics
from clear_service.offers import Offers
from clear_service.outbox import Outbox
from clear_service.peers import Peers
from clear_service.postgres_engine import PostgresEngine
from clear_service.records import records_of
from clear_service.registers import Registers
from clear_service.responses import Problem
from clear_service.rows import JSON
from clear_service.senders import Senders, TokenFile
from clear_service.server import Beside, server_of
from clear_service.settings import Settings
from clear_service.shares import Shares
from clear_service.waiting import Unavailable

log = logging.getLogger("clear_service")

TITLE = "Clear"


def engine_of(settings: Settings, registers: Registers, shares: Shares) -> Engine:
    """The engine that the store asks for."""
    if settings.is_postgres:
        return PostgresEngine(settings, registers, shares)
    return KeepEngine(settings, registers, shares)


def create_app(settings: Settings) -> Access:
    """The application with these settings. The engine starts and stops with it."""
    assert settings.own_party  # a party that is malformed is an error of the start
    registers = Registers()
    shares = Shares(settings)
    engine = engine_of(settings, registers, shares)
    peers = Peers(records_of(settings))
    outbox = Outbox(settings, engine, registers, peers)
    metrics = Metrics(engine, registers, outbox)

    starts, stops = [peers.start, engine.start, outbox.start], [outbox.stop, engine.stop, peers.stop]
    at_metrics = settings.at_metrics
    if at_metrics is not None:
        beside = Beside(server_of(figures_app(metrics), at_metrics, lifespan="off"))
        starts.append(beside.start)
        stops.insert(0, beside.stop)
    app = FastAPI(
        title=TITLE,
        version="1",
        docs_url=None,
        redoc_url=None,
        openapi_url=None,
        on_startup=starts,
        on_shutdown=stops,
    )
    house = House(engine, registers, settings, shares)
    house.more_warnings.append(outbox.warnings)
    app.state.house = house
    app.state.outbox = outbox
    app.state.offers = Offers(peers)
    registers.listeners += [house.compare, note_platforms(settings)]
    app.state.metrics = metrics
    for router in (
        ocpi.router,
        ocpi.modules,
        ocpi_lists.clients,
        *(
            part.router
            for part in (ocpi_lists, credentials, clearing, lists, receipts, peer_list, operation, page)
        ),
    ):
        app.include_router(router)
    add_openapi(app)
    add_errors(app)
    senders = Senders(settings.tokens, peers.senders)
    senders.load()
    app.state.senders = senders
    return Access(app, settings, senders, metrics, shares, peers)


def note_platforms(settings: Settings) -> Callable[[Configuration], None]:
    """Writes the platforms of the configuration beside the file of tokens, for `service/tokens add`."""

    def note(configuration: Configuration) -> None:
        try:
            TokenFile(settings.tokens).note_platforms(configuration.platforms)
        except OSError as error:
            log.warning("cannot write the platforms beside %s: %s", settings.tokens, error)

    return note


def figures_app(metrics: Metrics) -> FastAPI:
    """What listens at an address of its own: the figures, for everybody who can connect to it."""
    app = FastAPI(title=TITLE, docs_url=None, redoc_url=None, openapi_url=None)
    app.state.metrics = metrics
    app.add_api_route("/metrics", operation.metrics, methods=["GET"])
    return app


def add_openapi(app: FastAPI) -> None:
    """Serves the description of all endpoints."""
    made: dict[str, Any] = {}

    @app.get("/openapi.json", include_in_schema=False)
    async def openapi() -> dict[str, Any]:
        if not made:
            made.update(get_openapi(title=TITLE, version="1", routes=app.routes))
            scheme = {"type": "apiKey", "in": "header", "name": "Authorization", "description": "Token TOKEN"}
            made.setdefault("components", {})["securitySchemes"] = {"token": scheme}
            made["security"] = [{"token": []}]
        return made


def add_errors(app: FastAPI) -> None:
    """The responses to exceptions of the endpoints."""

    def failed(request: Request, status: int, status_code: int, message: str) -> Response:
        return Response(error_body(request.url.path, status_code, message), status, media_type=JSON)

    @app.exception_handler(Unavailable)
    async def unavailable(request: Request, error: Unavailable) -> Response:
        response = failed(request, error.status, 3000, error.reason)
        response.headers["Retry-After"] = str(error.retry_after)
        return response

    @app.exception_handler(LineError)
    async def line_error(request: Request, error: LineError) -> Response:
        return failed(request, error.status, 2001, error.message)

    @app.exception_handler(Problem)
    async def problem(request: Request, error: Problem) -> Response:
        return failed(request, error.status, error.status_code, error.message)

    @app.exception_handler(RequestValidationError)
    async def malformed(request: Request, error: RequestValidationError) -> Response:
        return failed(request, 400, 2001, f"a parameter is malformed: {error.errors()[0]['loc'][-1]}")

    @app.exception_handler(HTTPException)
    async def http_error(request: Request, error: HTTPException) -> Response:
        response = failed(request, error.status_code, 2000, str(error.detail))
        response.headers.update(error.headers or {})
        return response
