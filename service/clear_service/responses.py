"""Responses of the endpoints, and how they are described in /openapi.json."""

from __future__ import annotations

from typing import Any

from fastapi import Request
from starlette.responses import Response

from clear_service.access import Call
from clear_service.answers import Answer
from clear_service.house import House
from clear_service.json_text import text_of
from clear_service.moments import now
from clear_service.rows import JSON
from clear_service.senders import Sender

LINES = "application/jsonl"


class Problem(Exception):
    """A request that the service itself refuses."""

    def __init__(self, status: int, message: str, status_code: int = 2001) -> None:
        super().__init__(message)
        self.status, self.message, self.status_code = status, message, status_code


def call_of(request: Request) -> Call:
    """What the access layer found of the request."""
    found = request.scope["clear"]
    assert isinstance(found, Call)
    return found


def sender_of(request: Request) -> Sender:
    """The request's sender."""
    sender = call_of(request).sender
    assert sender is not None
    return sender


def house_of(request: Request) -> House:
    """The house of the application."""
    found = request.app.state.house
    assert isinstance(found, House)
    return found


def answer_response(answer: Answer) -> Response:
    """An answer of the house as it is, with the HTTP status of its row."""
    return Response(answer.plain + b"\n", answer.clearing_status, media_type=JSON)


def json_response(value: object, status: int = 200) -> Response:
    """The value as JSON."""
    return Response(text_of(value) + b"\n", status, media_type=JSON)


def success(data: bytes, status: int = 200, headers: dict[str, str] | None = None) -> Response:
    """OCPI's envelope around data, which is JSON."""
    body = b'{"data":%b,"status_code":1000,"status_message":"Success","timestamp":"%b"}\n' % (
        data,
        now().encode(),
    )
    return Response(body, status, headers, JSON)


def refused(answer: Answer) -> Response:
    """OCPI's envelope of a refusal."""
    row = answer.refusal
    envelope = {"status_code": row.status_code, "status_message": answer.message, "timestamp": now()}
    return Response(text_of(envelope) + b"\n", row.ocpi_http, media_type=JSON)


def schema(properties: dict[str, Any], *optional: str) -> dict[str, Any]:
    """The schema of an object with these members, all required but the optional ones."""
    required = [name for name in properties if name not in optional]
    return {"type": "object", "properties": properties, "required": required}


TEXT: dict[str, Any] = {"type": "string"}
AMOUNT: dict[str, Any] = {"type": "string", "pattern": r"^-?\d+\.\d{4}$", "example": "5.0000"}
WHOLE: dict[str, Any] = {"type": "integer", "minimum": 0}
FLAG: dict[str, Any] = {"type": "boolean"}


def list_of(items: dict[str, Any]) -> dict[str, Any]:
    """The schema of a list."""
    return {"type": "array", "items": items}


ENVELOPE = schema({"data": {}, "status_code": WHOLE, "status_message": TEXT, "timestamp": TEXT}, "data")
ANSWER = schema({"status_code": WHOLE, "answer": TEXT, "refusal": TEXT}, "answer", "refusal")
ERROR = schema({"error": TEXT})


def described(
    good: dict[str, Any] | str,
    *statuses: int,
    error: dict[str, Any] = ERROR,
    good_statuses: tuple[int, ...] = (200,),
) -> dict[int | str, dict[str, Any]]:
    """The responses of an endpoint: a schema of JSON, or another media type, and the statuses of its errors."""
    content: dict[str, Any] = {good: {}} if isinstance(good, str) else {JSON: {"schema": good}}
    responses: dict[int | str, dict[str, Any]] = {
        status: {"description": "Success", "content": content} for status in good_statuses
    }
    for status in (400, 401, 429, 503, *statuses):
        responses.setdefault(
            status,
            {
                "description": REASONS[status],
                "content": {JSON: {"schema": {"anyOf": [error, good_or(good)]}}},
            },
        )
    return responses


def good_or(good: dict[str, Any] | str) -> dict[str, Any]:
    """The schema of an answer or refusal, if the endpoint returns such."""
    return ANSWER if isinstance(good, str) else good


REASONS = {
    400: "The request is malformed",
    401: "The token is missing or unknown",
    403: "The platform of the token may not do this",
    404: "Not there, or not for this platform",
    405: "The platform has registered already, or has not",
    408: "The body did not come in time",
    409: "In conflict with the state of the house",
    413: "The body is too long",
    422: "The house refuses the content",
    429: "Too many requests of this token",
    501: "The engine of the service does not have it",
    503: "Nothing is known of the outcome, or the queue is full: ask again with the same X-Request-ID",
    507: "A store of the house is full",
}


def takes(
    media_type: str, example: object | None = None, body: dict[str, Any] | None = None
) -> dict[str, Any]:
    """How a body is described: its media type, with a schema or an example."""
    content: dict[str, Any] = {"schema": body or {}}
    if example is not None:
        content["example"] = example
    return {"requestBody": {"required": True, "content": {media_type: content}}}
