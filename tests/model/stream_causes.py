"""Where a refused line of a store is at fault, and why, by docs/FORMATS.md alone: beside causes.py, the lines that only a stream has."""

from __future__ import annotations

from causes import EXPECTED, MISSING, OBJECT, UNFIT, Explainer, Row, row, written
from rules import Json, Refused, Request, fold, request_of
from streams import Change, Stream, request_id_of

VERSION = "a whole number from 1 to 2 in digits alone"


class StreamExplainer(Explainer):
    """The explanations of the lines of a stream, each under the configuration that is in force at the line."""

    house: Stream

    def __init__(self, house: Stream) -> None:
        super().__init__(house)
        self.known: dict[tuple[str, str], tuple[str, str]] = {}

    def after(self, line: str) -> None:
        """To be called when the stream has answered the line, and the line is explained."""
        super().after(line)
        self.known = dict(self.house.remembered)

    def is_repeated(self, line: str) -> bool:
        """Whether the line, the last one that was answered, was done before under its request id."""
        try:
            value = self.read(line)
            given = request_id_of(value)
            asked: Change | Request = self.house.change_of(value) if is_change(value) else request_of(line)
        except (ValueError, Refused):
            return False
        first, _ = self.known.get((asked["platform"], given or ""), (None, None))
        return first == line

    def row(self, line: str, answer: Json) -> Row | None:
        if answer.get("refusal") != "Field":
            return super().row(line, answer)
        value, field = self.read(line), answer["field"]
        if field == "request_id":
            found = written(value["request_id"])
            return row(field, UNFIT, found, "a string of 1 to 64 bytes")
        if is_change(value):
            return self.of_change(value, field)
        explained = super().row(line, answer)
        if explained and field == "do":
            return explained._replace(against=explained.against + " configure")
        return explained

    def of_change(self, value: Json, field: str) -> Row:
        expected = {"platform": EXPECTED[None]["platform"], "configuration": OBJECT}
        if field in expected:
            return at_fault(field, value.get(field, MISSING), expected[field])
        if field == "platforms":
            return row("configuration.platforms", "no hub")
        found = value["configuration"].get("version", MISSING)
        return at_fault("configuration.version", found, VERSION)

    def NotYours(self, v: Json, answer: Json) -> Row:
        if v["do"] != "configure":
            return super().NotYours(v, answer)
        names = [fold(p["name"]) for p in self.house.config["platforms"]]
        cause = "no hub" if fold(v["platform"]) in names else "not configured"
        return row("platform", cause, v["platform"])

    def ComesOutOtherwise(self, _: Json, answer: Json) -> Row:
        cause = "an event would come out otherwise"
        return row("configuration", cause, answer["kind"], "", answer["event"])

    def RequestIdUsed(self, v: Json, _: Json) -> Row:
        given = v["request_id"]
        is_plain = given.isascii() and given.isprintable()
        found = given if is_plain else written(given)
        return row("request_id", "given to another line", found)


def at_fault(path: str, found: Json, expected: str) -> Row:
    cause = "missing" if found is MISSING else UNFIT
    return row(path, cause, written(found), expected)


def is_change(value: Json) -> bool:
    return isinstance(value, dict) and value.get("do") == "configure"
