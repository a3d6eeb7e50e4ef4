"""Endpoints for operation: health, readiness, figures."""

from __future__ import annotations

import asyncio
from dataclasses import asdict
from typing import Any

from fastapi import APIRouter, Request
from starlette.responses import Response

from clear_service.responses import described, FLAG, TEXT, WHOLE, house_of, json_response, list_of, schema
from clear_service.rows import JSON

router = APIRouter(tags=["Operation"])

STATE = schema(
    {
        "status": {"type": "string", "enum": ["up", "down"]},
        "engine": TEXT,
        "ready": FLAG,
        "replayed": WHOLE,
        "kept": WHOLE,
        "version": TEXT,
        "starts": WHOLE,
        "torn": FLAG,
        "last_end": {"type": ["string", "null"]},
        "details": {"type": "object"},
        "lines": WHOLE,
        "events": WHOLE,
        "waiting": WHOLE,
        "config_differs": list_of(TEXT),
        "warnings": list_of(TEXT),
    }
)
OF_STATE: dict[int | str, dict[str, Any]] = {
    200: {"description": "The house answers", "content": {JSON: {"schema": STATE}}},
    503: {"description": "The house does not answer", "content": {JSON: {"schema": STATE}}},
}


def state_of(request: Request) -> Response:
    """The state of the engine."""
    house = house_of(request)
    state = house.engine.state
    ready = house.engine.is_ready
    figures: dict[str, object] = {
        "ready": ready,
        "lines": house.registers.lines,
        "events": house.registers.events,
        "waiting": house.engine.waiting.lines,
        "config_differs": house.config_differs,
        "warnings": house.warnings() if house.registers.configuration else [],
    }
    shown: dict[str, object] = {"status": "up" if ready else "down", **asdict(state), **figures}
    return json_response(shown, 200 if ready else 503)


@router.get("/health", responses={200: OF_STATE[200]})
async def health(request: Request) -> Response:
    """The state of the house's program. It is served with status 200 as long as the service runs."""
    response = state_of(request)
    response.status_code = 200
    return response


@router.get("/ready", responses=OF_STATE)
async def ready(request: Request) -> Response:
    """Status 200 if the house answers, and 503 if it does not."""
    return state_of(request)


@router.get("/metrics", responses=described("text/plain", 403))
async def metrics(request: Request) -> Response:
    """Figures in the form of Prometheus."""
    text = await asyncio.to_thread(request.app.state.metrics.text)
    return Response(text, media_type="text/plain; version=0.0.4; charset=utf-8")
