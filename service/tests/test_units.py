"""Parts of the service alone: lines and their platforms, texts of JSON, tokens, rates, the store's file."""

from __future__ import annotations

import asyncio
import hashlib
import json
import os
import subprocess
import time
from collections.abc import Callable
from pathlib import Path

import pytest
import uvloop
from clear_service.child import Child, PipeEnd
from clear_service.configuration import Configuration, differences
from clear_service.json_text import NotJson, member_text, object_of
from clear_service.lines import BulkLines, LineError, in_one_line, may_take_long, request_line
from clear_service.senders import Rates, Sender, Senders, TokenFile, TokenFileError
from clear_service.settings import SettingError, settings_of
from clear_service.store_file import StoreError, StoreFile, TimeMarks
from hypothesis import given, settings
from hypothesis import strategies as st

from examples import CONFIG, CONFIGURATION, TOKEN, line

EXAMPLES = int(os.environ.get("CLEAR_TEST_EXAMPLES", "1500"))
JSON = st.recursive(
    st.none()
    | st.booleans()
    | st.integers()
    | st.floats(allow_nan=False, allow_infinity=False)
    | st.text(max_size=5),
    lambda inner: st.lists(inner, max_size=3) | st.dictionaries(st.text(max_size=4), inner, max_size=3),
    max_leaves=8,
)
KEYS = st.sampled_from(
    ["platform", "plat\\u0066orm", "\\u0070latform", "platf\\u006Frm", "Platform", "f\\u00fcr", "do", "x"]
)
NAMES = st.sampled_from(["emp", "EMP", "hub", "e\\u006dp", "emp ", ""])
SPACES = st.sampled_from(["", " ", "\t", "\r"])


@st.composite
def objects(draw: st.DrawFn) -> str:
    """Objects with members named and spelled in many ways, some of them named `platform`."""
    members = []
    for _ in range(draw(st.integers(0, 4))):
        value = draw(st.one_of(NAMES.map(lambda it: f'"{it}"'), JSON.map(json.dumps)))
        members.append(f'{draw(SPACES)}"{draw(KEYS)}"{draw(SPACES)}:{draw(SPACES)}{value}')
    return draw(SPACES) + "{" + ",".join(members) + draw(SPACES) + "}" + draw(SPACES)


@settings(max_examples=EXAMPLES, deadline=None)
@given(objects())
def test_a_line_that_is_taken_is_of_the_platform(text: str) -> None:
    try:
        (taken,) = BulkLines("emp").read(text.encode(), 1)
    except LineError as error:
        assert error.status == 403
        assert json.loads(text).get("platform", "emp") not in ("emp", "EMP")
        return
    members = json.loads(taken)
    assert members["platform"] in ("emp", "EMP")
    assert {**members, "platform": 0} == {**json.loads(text), "platform": 0}


def plainly(text: str) -> str:
    """The object with the platform as its first member, as most lines have it."""
    rest = text.strip(" \t\r")[1:]
    return '{"platform":"emp","y":0' + ("" if rest.lstrip(" \t\r") == "}" else ",") + rest


@settings(max_examples=EXAMPLES, deadline=None)
@given(st.lists(st.one_of(objects(), objects().map(plainly)), max_size=4))
def test_lines_that_are_taken_are_of_the_platform(texts: list[str]) -> None:
    """Lines together are taken if and only if each of them alone is, and then they are the same lines."""
    alone: list[bytes] = []
    try:
        for text in texts:
            alone += BulkLines("emp").read(text.encode(), 1)
    except LineError:
        with pytest.raises(LineError):
            BulkLines("emp").read("\n".join(texts).encode(), len(texts))
        return
    assert BulkLines("emp").read("\n".join(texts).encode(), len(texts)) == alone
    assert all(json.loads(line)["platform"] in ("emp", "EMP") for line in alone)


@pytest.mark.parametrize("name", ["platform", "\\u0070latform", "platfor\\u006D", "p\\u006catform"])
@pytest.mark.parametrize("place", [0, 1, 2])
def test_another_platform_among_plain_lines(name: str, place: int) -> None:
    lines = ['{"platform":"emp","do":"x","y":"M\\u00fcnchen"}'] * 3
    assert BulkLines("emp").read("\n".join(lines).encode(), 3) == [each.encode() for each in lines]
    lines[place] = f'{{"platform":"emp","do":"x","{name}":"hub"}}'
    with pytest.raises(LineError) as error:
        BulkLines("emp").read("\n".join(lines).encode(), 3)
    assert error.value.status == 403 and f"line {place + 1} " in error.value.message


@settings(max_examples=EXAMPLES // 3, deadline=None)
@given(st.binary(max_size=40) | st.text(alphabet='{}[]",:\\ platformemhub', max_size=40).map(str.encode))
def test_bytes_that_are_taken_are_an_object_or_begin_plainly(body: bytes) -> None:
    try:
        taken = BulkLines("emp").read(body, 100)
    except LineError as error:
        assert error.status in (400, 403)
        return
    for each in taken:
        assert each.startswith(b'{"platform":"emp"') or object_of(each)["platform"].lower() == "emp"


@settings(max_examples=EXAMPLES // 3, deadline=None)
@given(JSON, st.sampled_from([None, 1, 2]))
def test_an_object_inside_a_line(value: object, indent: int | None) -> None:
    body = json.dumps({"a": value}, indent=indent, ensure_ascii=False).encode("utf-8", "surrogatepass")
    try:
        object_of(body)
    except NotJson:
        return
    made = request_line("emp", "put_token", [("token", in_one_line(body))], 'r"\n')
    assert b"\n" not in made
    members = json.loads(made)
    assert members == {"platform": "emp", "request_id": 'r"\n', "do": "put_token", "token": {"a": value}}
    assert json.loads(member_text(made, "token")) == {"a": value}
    assert member_text(made, "token") == in_one_line(body)


@pytest.mark.parametrize(
    "body", [b"{} {}", b'{"a":1},"platform":"hub"', b'{"a":1}}', b"\xef\xbb\xbf{}", b"{'a':1}"]
)
def test_what_is_no_object(body: bytes) -> None:
    with pytest.raises(NotJson):
        object_of(body)


def test_a_number_of_many_digits_is_read() -> None:
    text = b'{"platform":"hub","x":' + b"9" * 5000 + b"}"
    assert object_of(text)["platform"] == "hub"
    with pytest.raises(LineError):
        BulkLines("emp").read(text, 1)
    with pytest.raises(LineError):
        BulkLines("emp").read(b'{"x":' + b"[" * 100_000 + b"]" * 100_000 + b',"platform":"hub"}', 1)


def test_a_line_that_may_take_long() -> None:
    lines = ('{"do":"configure"}', '{"do":"\\u0063onfigure"}', '{"do":"configu\\u0072e"}')
    assert all(may_take_long(each.encode()) for each in lines)
    others = (
        '{"do":"post","x":"M\\u00fcller"}',
        '{"do":"find","id":"configure","x":"\\u0061"}',
        "\\u0061",
        '["configure"]',
    )
    assert not any(may_take_long(each.encode()) for each in others)


def test_the_last_of_equal_members() -> None:
    assert member_text(b'{"a":1, "b" : [1, 2.50] ,"a":{"x":1.0}}', "a") == b'{"x":1.0}'
    assert member_text(b'{"a":1, "b" : [1, 2.50] }', "b") == b"[1, 2.50]"
    with pytest.raises(KeyError):
        member_text(b"{}", "a")


def test_tokens(tmp_path: Path) -> None:
    path = str(tmp_path / "tokens")
    file = TokenFile(path)
    tokens = {file.add("a platform"): "a platform", file.add("hub"): "hub"}
    senders = Senders(path)
    for token, platform in tokens.items():
        found = senders.of("Token " + token)
        assert found is not None and found.platform == platform
    assert senders.of("Token " + "x" * 43) is None
    assert senders.of("Token é") is None
    assert [row.platform for row in file.rows()] == ["a platform", "hub"]
    assert file.remove(file.rows()[0].name) == 1
    assert [row.platform for row in file.rows()] == ["hub"]


def test_rates() -> None:
    rates = Rates(3)
    one, other = Sender("a", "1"), Sender("a", "2")
    assert [rates.take(one) for _ in range(4)] == [True, True, True, False]
    assert rates.take(other)


def test_settings() -> None:
    made = settings_of("c", "s", {"CLEAR": "p", "CLEAR_PORT": "1", "CLEAR_URL": "u"})
    assert (made.program, made.port, made.url, made.is_postgres) == ("p", 1, "u", False)
    assert settings_of("c", "postgresql:///x", {}).is_postgres
    for text in ("", "x", "-1", "1.0", "٣", "65536"):
        with pytest.raises(SettingError):
            settings_of("c", "s", {"CLEAR_PORT": text})
    for name in ("CLEAR_TOKEN_LINES", "CLEAR_ANSWER_SECONDS", "CLEAR_DAY_BYTES"):
        for text in ("0", str(10**12 + 1)):
            with pytest.raises(SettingError, match=f"{name} has to be from 1 to 1000000000000"):
                settings_of("c", "s", {name: text})
    assert settings_of("c", "s", {"CLEAR_HOLD_SECONDS": "0", "CLEAR_WORKER": "0"}).hold_seconds == 0


def test_a_configuration() -> None:
    made = Configuration(CONFIGURATION)
    assert made.platform_for("nl/cpb") == "cpb" and made.platform_for("NL/XXX") is None
    assert made.is_hub("HUB") and not made.is_hub("cpo") and not made.is_hub("none")
    assert made.operators_of("both") == ["NL/CPA", "NL/CPB"]
    assert made.hold("nl/msa", "EUR") == "20.0000" and made.hold("nl/msa", "SEK") == "0.0001"


def kept_lines(tmp_path: Path) -> tuple[list[str], list[str]]:
    """The arguments of a `keep` over a store, and the lines that it keeps, without its record."""
    config = tmp_path / "config.json"
    config.write_text(json.dumps(CONFIGURATION, indent=1))
    lines = [line("put_token", platform="emp", token=TOKEN), "", "no JSON", line("find", platform="cpo")]
    words = [settings_of("", "").program, "keep", str(config), str(tmp_path / "store")]
    subprocess.run(
        words, input="".join(it + "\n" for it in lines).encode(), stdout=subprocess.DEVNULL, check=True
    )
    return words, lines


def head_of(store: str, count: int) -> str:
    """The head after so many lines by the program."""
    words = [settings_of("", "").program, "head", store, "--at", str(count)]
    return str(json.loads(subprocess.run(words, capture_output=True, check=True).stdout)["head"])


def test_the_file_of_a_store(tmp_path: Path) -> None:
    words, lines = kept_lines(tmp_path)
    store = words[-1]
    file = StoreFile(store)
    with pytest.raises(StoreError):
        file.head(0)
    file.open()
    assert file.record["config"] == json.loads(CONFIG)
    assert [file.read_next().decode() for _ in lines] == lines
    assert [file.line(number).decode() for number in range(1, len(lines) + 1)] == lines
    for more in (b"one more\n", b"two\n\nthree\n"):
        subprocess.run([*words, "--from", "4"], input=more, stdout=subprocess.DEVNULL, check=True)
    assert file.passed([b"one more", b"two"]) == 5 and file.line(5) == b"one more"
    assert file.passed([b"", b"three"]) == 7
    assert [file.line(number) for number in range(4, 9)] == [
        lines[3].encode(),
        b"one more",
        b"two",
        b"",
        b"three",
    ]
    assert [file.head(count).hex() for count in range(9)] == [head_of(store, count) for count in range(9)]
    with pytest.raises(StoreError):
        file.head(9)
    assert file.size == (Path(store) / "requests").stat().st_size - len("----")
    file.close()


@pytest.mark.parametrize("other", [[b"one", b"no"], [b"one more", b"no"], [b"one", b"more", b"no"]])
def test_other_lines_than_were_answered(tmp_path: Path, other: list[bytes]) -> None:
    """The places stay as they were."""
    words, lines = kept_lines(tmp_path)
    file = StoreFile(words[-1])
    file.open()
    for _ in lines:
        file.read_next()
    subprocess.run([*words, "--from", "4"], input=b"one\n", stdout=subprocess.DEVNULL, check=True)
    with pytest.raises(StoreError):
        file.passed(other)
    assert len(file) == 4 and file.passed([b"one"]) == 5 and file.head(5).hex() == head_of(words[-1], 5)
    file.close()


def test_a_batch_that_was_changed_later(tmp_path: Path) -> None:
    words, lines = kept_lines(tmp_path)
    file = StoreFile(words[-1])
    file.open()
    for _ in lines:
        file.read_next()
    with open(Path(words[-1]) / "requests", "r+b") as changed:
        place = changed.read().index(b"no JSON")
        changed.seek(place)
        changed.write(b"N")
    assert file.head(0).hex() == head_of_record(Path(words[-1]))
    for count in (1, 4):
        with pytest.raises(StoreError):
            file.head(count)
    file.close()


def head_of_record(store: Path) -> str:
    """The head after the record alone."""
    record = (store / "requests").read_bytes().split(b"\n")[1][1:]
    return hashlib.sha256(hashlib.sha256(b"").digest() + record).hexdigest()


@pytest.mark.parametrize("mark", [b"kep-", b"--pt", b"\x00\x00\x00\x00", b"\xff\n\n\n"])
def test_a_batch_whose_mark_is_half_written(tmp_path: Path, mark: bytes) -> None:
    """The program keeps its lines, so they are read."""
    words, lines = kept_lines(tmp_path)
    with open(Path(words[-1]) / "requests", "r+b") as file:
        file.seek(file.read().rindex(b"kept 0"))
        file.write(mark)
    found = StoreFile(words[-1])
    found.open()
    assert [found.read_next().decode() for _ in lines] == lines
    assert found.head(4).hex() == head_of(words[-1], 4)
    found.close()


def test_times(tmp_path: Path) -> None:
    marks = TimeMarks(str(tmp_path))
    marks.open()
    assert marks.of(1) is None
    now = marks.mark(3)
    marks.close()
    again = TimeMarks(str(tmp_path))
    again.open()
    assert again.of(1) is None and again.of(3) == again.of(4) == int(now)
    again.close()


MARKS = ["5 x", "²3 1700000000", "6 99999999999999999999999", "7 ", "", "8 0", "x", "4 1700000001", "\xff 3"]


@pytest.mark.parametrize("malformed", MARKS)
def test_a_malformed_time_is_dropped(
    tmp_path: Path, malformed: str, caplog: pytest.LogCaptureFixture
) -> None:
    (tmp_path / "service-times").write_text(f"5 1700000000\n{malformed}\n9 1700000009\n")
    marks = TimeMarks(str(tmp_path))
    marks.open()
    assert (marks.of(5), marks.of(8), marks.of(9)) == (1.7e9, 1.7e9, 1.7e9 + 9)
    assert "dropped" in caplog.text
    marks.close()


def test_a_torn_time(tmp_path: Path) -> None:
    (tmp_path / "service-times").write_text("5 1700000000\n9 17")
    for number in (10, 11):
        marks = TimeMarks(str(tmp_path))
        marks.open()
        marks.mark(number)
        assert marks.of(5) == 1.7e9 and (marks.of(10) or 0) > 1.7e9
        marks.close()


def test_a_clock_that_jumps(tmp_path: Path, monkeypatch: pytest.MonkeyPatch) -> None:
    marks = TimeMarks(str(tmp_path))
    marks.open()
    now = time.time()
    for number, second in ((1, now), (2, now + 1e9), (3, now + 1), (4, now - 1e8), (5, now + 2)):
        monkeypatch.setattr(time, "time", lambda: second)
        marks.mark(number)
        assert marks.of(number) == int(second)
    marks.close()
    monkeypatch.setattr(time, "time", lambda: now + 3)
    again = TimeMarks(str(tmp_path))
    again.open()
    assert [again.of(number) for number in (1, 3, 5)] == [int(now), int(now + 1), int(now + 2)]
    assert again.of(2) == int(now)
    again.close()


def test_a_file_of_tokens_that_is_not_utf_8(tmp_path: Path, caplog: pytest.LogCaptureFixture) -> None:
    path = tmp_path / "tokens"
    token = TokenFile(str(path)).add("cpo")
    senders = Senders(str(path))
    senders.load()
    assert senders.of("Token " + token) is not None
    path.write_bytes(b"\xff\xfe" + path.read_bytes())
    with pytest.raises(TokenFileError):
        Senders(str(path)).load()
    time.sleep(1.1)
    assert senders.of("Token " + token) is not None
    assert "stay as they were" in caplog.text


def test_a_digest_that_is_none(tmp_path: Path) -> None:
    path = tmp_path / "tokens"
    token = TokenFile(str(path)).add("cpo")
    path.write_text("é 2024-07-01T00:00:00Z cpo\n" + path.read_text(), encoding="utf-8")
    senders = Senders(str(path))
    assert senders.of("Token x") is None and senders.of("Token " + token) is not None


def test_differences() -> None:
    other = {**CONFIGURATION, "tolerance": 5, "currencies": ["EUR", "SEK"]}
    other["providers"] = [{**CONFIGURATION["providers"][0], "party": "NL/MSB"}]
    assert list(differences(CONFIGURATION, other)) == ["tolerance", "currencies", "providers[0].party"]
    assert list(differences(CONFIGURATION, CONFIGURATION)) == []


@pytest.mark.parametrize("new_loop", [uvloop.new_event_loop, asyncio.new_event_loop])
def test_the_pipe_to_a_program_is_closed_once(
    monkeypatch: pytest.MonkeyPatch, new_loop: Callable[[], asyncio.AbstractEventLoop]
) -> None:
    """A file that gets the number of the descriptor when it is closed stays open."""
    closed: list[int] = []
    close = PipeEnd.close

    def taken(self: PipeEnd) -> None:
        with open("/dev/null", "rb") as null:
            try:
                os.fstat(self.fileno())
            except OSError:
                os.dup2(null.fileno(), self.fileno())
                closed.append(self.fileno())
        close(self)
        if not closed:
            with pytest.raises(OSError):
                os.fstat(self.fileno())
            closed.append(os.open("/dev/null", os.O_RDONLY))

    monkeypatch.setattr(PipeEnd, "close", taken)

    async def work() -> None:
        child = await Child.start(["/bin/cat"])
        await child.write(b"a line\n")
        assert await child.first_line() == b"a line"
        await child.stop(20)
        while not closed:
            await asyncio.sleep(0.01)

    with asyncio.Runner(loop_factory=new_loop) as runner:
        runner.run(asyncio.wait_for(work(), 60))
    os.close(closed[0])
