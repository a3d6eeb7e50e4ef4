"""The page in a browser, over a month of lines: its figures are those of the endpoints.

With the variable CLEAR_SCREENSHOTS, the tests put pictures of the page into that folder.
"""

# mypy: allow-untyped-calls

from __future__ import annotations

import base64
import csv
import io
import json
import os
import random
import re
import shutil
import time
from collections.abc import Iterator
from fractions import Fraction
from itertools import groupby, product
from pathlib import Path
from typing import Any

import httpx
import pytest
from clear_service.senders import REGISTER, TokenFile

from conftest import SERVICE, Service, wait_until
from examples import CONFIGURATION, TARIFF, changed, line
from ocpi_peer import OcpiPeer

selenium = pytest.importorskip("selenium")
from selenium.common.exceptions import SessionNotCreatedException  # noqa: E402
from selenium.webdriver import ActionChains, Chrome, ChromeOptions  # noqa: E402
from selenium.webdriver.chrome.service import Service as Driver  # noqa: E402
from selenium.webdriver.common.by import By  # noqa: E402
from selenium.webdriver.common.keys import Keys  # noqa: E402
from selenium.webdriver.remote.webelement import WebElement  # noqa: E402
from selenium.webdriver.support.select import Select  # noqa: E402

if not shutil.which("chromium") or not shutil.which("chromedriver"):
    pytest.skip("Chromium is not installed", allow_module_level=True)

MONTH = SERVICE.parent / "examples" / "month"
LINES = [json.loads(line) for line in (MONTH / "lines.jsonl").read_text().splitlines()]
SCREENSHOTS = os.environ.get("CLEAR_SCREENSHOTS")
DESKTOP = (1280, 900)
PHONE = (360, 780)
MARKUP = "<img src=x onerror=alert(1)>"


class Month(Service):
    """A service over the month of the examples, and over a third period that is open."""

    def __init__(self, folder: Path) -> None:
        shutil.copy(MONTH / "config.json", folder / "config.json")
        file = TokenFile(str(folder / "tokens"))
        own = {platform: file.add(platform) for platform in ("cpa", "cpb", "msa", "msb")}
        super().__init__(folder, str(folder / "house"))
        self.tokens.update(own)
        for platform, lines in groupby(LINES + more(), key=lambda line: str(line["platform"])):
            self.lines(platform, *map(json.dumps, lines))

    def read(self, path: str, platform: str = "hub") -> Any:
        response = self.get(platform, path)
        assert response.status_code == 200, response.text
        return response.json()

    def balances(self, period: int, currency: str) -> list[dict[str, Any]]:
        rows = self.read("/clearing/balances")
        return [row for row in rows if (row["period"], row["currency"]) == (period, currency)]


def cdr(like: str, new: str, kwh: float, cost: float) -> dict[str, Any]:
    """The line of another CDR like one of the month."""
    found = next(line for line in LINES if line["do"] == "post" and line["cdr"]["id"] == like)
    made: dict[str, Any] = json.loads(json.dumps(found))
    made["cdr"].update(id=new, session_id=f"S-{new}", total_energy=kwh, total_cost={"excl_vat": cost})
    made["cdr"].pop("authorization_reference", None)
    (only,) = made["cdr"]["charging_periods"]
    only["dimensions"] = [{"type": "ENERGY", "volume": kwh}]
    return made


def more() -> list[dict[str, Any]]:
    """Lines of the third period: debts, a hold, a declined authorisation, and a CDR whose id looks like HTML."""
    ask = {"platform": "cpa", "do": "authorize", "operator": "NL/CPA", "currency": "EUR"}
    return [
        cdr("DAY-1", "AUG-1", 160.5, 64.2),
        cdr("DAY-3", "AUG-2", 112, 44.8),
        cdr("DAY-1", MARKUP, 1, 0.4),
        {**ask, "provider": "NL/MSA", "uid": "U1"},
        {**ask, "provider": "DE/MSB", "uid": "U2"},
    ]


class Browser:
    """A headless Chromium with the page."""

    def __init__(self, size: tuple[int, int] = DESKTOP, downloads: Path | None = None) -> None:
        options = ChromeOptions()
        for word in (
            "--headless=new",
            "--no-sandbox",
            "--disable-gpu",
            "--disable-dev-shm-usage",
            "--hide-scrollbars",
        ):
            options.add_argument(word)
        options.set_capability("goog:loggingPrefs", {"browser": "ALL"})
        try:
            self.driver = Chrome(service=Driver(shutil.which("chromedriver") or ""), options=options)
        except SessionNotCreatedException as error:
            pytest.skip(f"Chromium does not start: {error.msg}")
        self.driver.set_script_timeout(60)
        self.resize(size)
        if downloads is not None:
            where = {"behavior": "allow", "downloadPath": str(downloads)}
            self.driver.execute_cdp_cmd("Browser.setDownloadBehavior", where)

    def resize(self, size: tuple[int, int]) -> None:
        metrics = {"width": size[0], "height": size[1], "deviceScaleFactor": 1, "mobile": size[0] < 600}
        self.driver.execute_cdp_cmd("Emulation.setDeviceMetricsOverride", metrics)
        self.size = size

    def one(self, selector: str) -> WebElement:
        return self.driver.find_element(By.CSS_SELECTOR, selector)

    def all(self, selector: str) -> list[WebElement]:
        return self.driver.find_elements(By.CSS_SELECTOR, selector)

    def script(self, text: str, *words: object) -> Any:
        return self.driver.execute_script(text, *words)

    def texts(self, selector: str) -> list[str]:
        """The texts of the elements as the document has them, without what the style adds."""
        return list(
            self.script(
                "return [...document.querySelectorAll(arguments[0])].map(e => e.textContent)", selector
            )
        )

    def rows(self, table: str) -> list[list[str]]:
        """The cells of the rows of a table."""
        text = """return [...document.querySelectorAll(arguments[0] + " tbody tr")].map(
            row => [...row.cells].map(cell => cell.textContent))"""
        return list(self.script(text, table))

    def open(self, url: str, token: str) -> None:
        self.driver.get(url)
        self.script("sessionStorage.clear()")
        self.driver.get(url)
        assert wait_until(lambda: self.one("#login").is_displayed())
        self.one("#token").send_keys(token)
        self.one("#login button").click()

    def open_loaded(self, url: str, token: str) -> None:
        self.open(url, token)
        self.loaded()

    def loaded(self) -> None:
        quiet = "return !document.querySelector('[aria-busy]') && document.getElementById('state').textContent.startsWith('as of')"
        assert wait_until(lambda: self.script(quiet)), self.texts("#house")

    def refresh(self) -> None:
        self.one("#refresh").click()
        self.loaded()

    def choose(self, **values: object) -> None:
        for name, value in values.items():
            if name == "measure":
                self.one(f"input[name=measure][value={value}]").click()
            else:
                Select(self.one(f"#{name}")).select_by_value(str(value))

    def find_later(self, operator: str, cdr_id: str) -> None:
        Select(self.one("#find-operator")).select_by_value(operator)
        field = self.one("#find-id")
        field.clear()
        field.send_keys(cdr_id + Keys.ENTER)

    def find(self, operator: str, cdr_id: str) -> None:
        self.find_later(operator, cdr_id)
        assert wait_until(lambda: not self.all("#find-body[aria-busy]") and self.texts("#find-body") != [""])

    def scrolls_sideways(self) -> bool:
        return bool(self.script("return document.documentElement.scrollWidth > innerWidth"))

    def outside(self) -> list[str]:
        """Elements that reach over the right border of the window, but for texts that only a screen reader reads."""
        text = """return [...document.querySelectorAll("body *")].filter(e => {
                const box = e.getBoundingClientRect();
                return box.width > 1 && box.height > 1 && (box.right > innerWidth + 0.5 || box.left < -0.5);
            }).map(e => e.tagName + " " + e.className + " " + e.textContent.slice(0, 40))"""
        return list(self.script(text))

    def said(self) -> list[dict[str, Any]]:
        """What the browser reported, but for responses that are errors and are shown by the page."""
        return [row for row in self.driver.get_log("browser") if row["source"] != "network"]

    def screenshot(self, name: str) -> None:
        if SCREENSHOTS:
            height = self.script("return document.documentElement.scrollHeight")
            clip = {"x": 0, "y": 0, "width": self.size[0], "height": height, "scale": 1}
            found = self.driver.execute_cdp_cmd(
                "Page.captureScreenshot", {"captureBeyondViewport": True, "clip": clip}
            )
            Path(SCREENSHOTS, f"{name}.png").write_bytes(base64.b64decode(found["data"]))

    def media(self, **features: str) -> None:
        list_of = [{"name": name.replace("_", "-"), "value": value} for name, value in features.items()]
        self.driver.execute_cdp_cmd("Emulation.setEmulatedMedia", {"features": list_of})


@pytest.fixture(scope="module")
def month(tmp_path_factory: pytest.TempPathFactory) -> Iterator[Month]:
    service = Month(tmp_path_factory.mktemp("month"))
    yield service
    service.stop()


@pytest.fixture(scope="module")
def downloads(tmp_path_factory: pytest.TempPathFactory) -> Path:
    return tmp_path_factory.mktemp("downloads")


@pytest.fixture(scope="module")
def running(downloads: Path) -> Iterator[Browser]:
    made = Browser(downloads=downloads)
    yield made
    made.driver.quit()


@pytest.fixture
def browser(running: Browser) -> Iterator[Browser]:
    """The browser; the test fails if it reported an error of a script or of the policy."""
    running.resize(DESKTOP)
    running.said()
    yield running
    assert running.said() == []


@pytest.fixture
def hub(browser: Browser, month: Month) -> Browser:
    """The browser with the page of the hub."""
    browser.open_loaded(month.url, month.tokens["hub"])
    return browser


def turned(row: dict[str, Any], measure: str) -> tuple[str, str, list[str]]:
    """Debtor, creditor and the amounts of a balance, turned so that the measure is not below 0."""
    amounts = [row[name] for name in ("owed", "settled", "open")]
    if not row[measure].startswith("-"):
        return row["provider"], row["operator"], amounts
    other = [a[1:] if a.startswith("-") else a if a == "0.0000" else f"-{a}" for a in amounts]
    return row["operator"], row["provider"], other


def written(units: int) -> str:
    """Ten-thousandths as an amount."""
    return f"{'-' if units < 0 else ''}{abs(units) // 10_000}.{abs(units) % 10_000:04d}"


def added(texts: list[str]) -> str:
    """The sum of amounts."""
    return written(sum(int(text.replace(".", "")) for text in texts))


def test_a_wrong_token_is_told(browser: Browser, month: Month) -> None:
    browser.open(month.url, "no-such-token")
    assert wait_until(lambda: browser.one("#login-said").is_displayed())
    assert browser.one("#login-said").text == "The service does not know this token."
    assert not browser.one("#house").is_displayed()
    assert browser.script("return sessionStorage.length") == 0
    browser.one("#token").send_keys("a token")
    browser.one("#login button").click()
    assert wait_until(lambda: browser.one("#login-said").text == "This is no token.")


def test_the_token_stays_in_the_tab(hub: Browser, month: Month) -> None:
    token = month.tokens["hub"]
    assert token not in hub.driver.current_url
    assert hub.script(
        "return [localStorage.length, document.cookie, location.hash, history.length > 20]"
    ) == [0, "", "", False]
    assert token not in hub.driver.page_source
    urls = hub.script("return performance.getEntriesByType('resource').map(e => e.name)")
    assert len(urls) > 8 and not any(token in url for url in urls)
    assert all(url.startswith(month.url) for url in urls)
    hub.driver.refresh()
    hub.loaded()
    assert hub.one("#who").text == "hub"
    hub.one("#leave").click()
    assert hub.one("#login").is_displayed()
    assert hub.script("return sessionStorage.length") == 0
    assert "24.5000" not in hub.driver.page_source
    hub.driver.refresh()
    assert wait_until(lambda: hub.one("#login").is_displayed())


def test_picture_and_table_have_the_figures_of_the_endpoint(hub: Browser, month: Month) -> None:
    for period, currency, measure in product((0, 1, 2), ("EUR", "SEK"), ("owed", "open")):
        have_the_figures(hub, month, period, currency, measure)


def have_the_figures(hub: Browser, month: Month, period: int, currency: str, measure: str) -> None:
    hub.choose(period=period, currency=currency, measure=measure)
    wanted = [turned(row, measure) for row in month.balances(period, currency)]
    assert sorted(hub.rows(".pairs")) == sorted([d, c, *amounts] for d, c, amounts in wanted)
    place = ("owed", "settled", "open").index(measure)
    flows = [(d, c, amounts[place]) for d, c, amounts in wanted if amounts[place] != "0.0000"]
    assert sorted(hub.texts(".picture .band title")) == sorted(
        f"{d} owes {c} {amount}" for d, c, amount in flows
    )
    assert sorted(hub.texts(".picture .label")) == sorted(amount for _, _, amount in flows)
    if not wanted:
        assert hub.texts("#owes-body .empty") == [f"Nothing is booked in period {period} in {currency}."]
    for text in hub.texts(".picture .total"):
        assert text in {
            added([a for d, c, a in flows if party in (d, c)])
            for party in sum(([d, c] for d, c, _ in flows), [])
        }


def test_amounts_are_exact(hub: Browser) -> None:
    """Amounts and costs far beyond what a binary fraction holds are added, turned and written digit by digit."""
    chosen = random.Random(11)
    amounts = [written(chosen.randrange(-(10 ** chosen.randrange(1, 22)), 10**21)) for _ in range(200)]
    amounts += ["0.0000", "-0.0001", "0.0001", "999.9999", "-1000.0000", "123456789012345678.9012"]
    costs = [
        "4",
        "-0.00005",
        "0.133333333333 3/9",
        "-0.133333333333 3/9",
        "123456789.123456789012 8/9",
        "10.0000",
    ]
    found = hub.driver.execute_async_script(
        """
        const [amounts, costs, done] = arguments;
        import("/page/amounts.js").then(m => done([
          m.sum(amounts), amounts.map(m.reversed), amounts.map(a => m.groups(a)), costs.map(c => String(m.ninths(c))),
        ]));""",
        amounts,
        costs,
    )
    assert found[0] == added(amounts)
    assert found[1] == [added(["-" + a if a[0] != "-" else a[1:]]) for a in amounts]
    for text, groups in zip(amounts, found[2], strict=True):
        assert "".join(groups) == text
        first, *others = groups
        assert len(first.lstrip("-").partition(".")[0]) <= 3
        assert all(len(group.partition(".")[0]) == 3 for group in others)
    assert [int(text) for text in found[3]] == [fraction(cost) * 9 * 10**12 for cost in costs]


def test_bands_are_as_wide_as_their_amounts(hub: Browser) -> None:
    hub.choose(period=0, currency="EUR", measure="owed")
    bands = {
        e.get_attribute("textContent").split()[-1]: float(e.get_attribute("stroke-width"))
        for e in hub.all(".band")
    }
    assert (bands["24.5000"] + 1) / (bands["20.0000"] + 1) == pytest.approx(24.5 / 20, rel=0.01)


def test_net_positions_of_closed_periods(hub: Browser, month: Month) -> None:
    for period, currency in ((0, "EUR"), (0, "SEK"), (1, "EUR")):
        have_the_net_positions(hub, month, period, currency)


def have_the_net_positions(hub: Browser, month: Month, period: int, currency: str) -> None:
    hub.choose(period=period, currency=currency)
    closed = month.read("/clearing/periods")["closed"][period]["positions"]
    wanted = [row for row in closed if row["currency"] == currency]
    shown = {row[0]: (row[1], row[2]) for row in hub.rows(".positions")}
    busy = [row for row in wanted if row["net"] != "0.0000"]
    assert shown == {r["party"]: (r["net"], "pays" if r["net"].startswith("-") else "receives") for r in busy}
    (idle,) = [text for text in hub.texts("#owes-body .aside") if text.startswith("0.0000: ")]
    assert idle == "0.0000: " + ", ".join(row["party"] for row in wanted if row["net"] == "0.0000")
    assert hub.texts("#owes-body .problem") == []


def test_net_positions_of_the_open_period(hub: Browser, month: Month) -> None:
    hub.choose(period=2, currency="EUR")
    assert "Net positions so far" in hub.texts("#owes-body h3")
    rows = month.balances(2, "EUR")
    shown = {row[0]: row[1] for row in hub.rows(".positions")}
    wanted = {row["provider"]: added(["-" + row["owed"]]) for row in rows}
    wanted["NL/CPA"] = added([row["owed"] for row in rows])
    assert shown == wanted


def test_the_choice_of_a_party(hub: Browser, month: Month) -> None:
    hub.choose(period=0, currency="EUR", party="DE/MSB")
    assert [row[:3] for row in hub.rows(".pairs")] == [["DE/MSB", "NL/CPA", "20.0000"]]
    assert [row[:2] for row in hub.rows(".positions")] == [["DE/MSB", "-20.0000"]]


def test_periods(hub: Browser, month: Month) -> None:
    balances = month.read("/clearing/balances")
    wanted = []
    for period, state in ((2, "open"), (1, "closed"), (0, "closed")):
        for currency in ("EUR", "SEK"):
            rows = [row for row in balances if (row["period"], row["currency"]) == (period, currency)]
            if rows:
                sums = [added([row[name] for row in rows]) for name in ("owed", "settled", "open")]
                wanted.append([f"{period} {state}", currency, *sums])
    assert hub.rows(".periods") == wanted
    hub.one("button[aria-label='Show who owes whom in period 0, SEK']").click()
    assert [row[:3] for row in hub.rows(".pairs")] == [["NL/MSA", "SE/CPB", "74.0000"]]
    assert hub.script("return document.activeElement.id") == "owes"


def test_exposure(hub: Browser, month: Month) -> None:
    found = {(row["provider"], row["currency"]): row for row in month.read("/clearing/exposure")}
    shown = {}
    for table in hub.all(".exposures"):
        currency = table.find_element(By.TAG_NAME, "caption").get_attribute("textContent")
        for row in table.find_elements(By.CSS_SELECTOR, "tbody tr"):
            cells = [
                cell.get_attribute("textContent") for cell in row.find_elements(By.CSS_SELECTOR, "th, td")
            ]
            shown[(cells[0], currency)] = row, cells[2:]
    busy = {
        key: row for key, row in found.items() if {row["holds"], row["debts"], row["limit"]} != {"0.0000"}
    }
    assert shown.keys() == busy.keys() and len(shown) == 3
    for key, (row, figures) in shown.items():
        each = busy[key]
        free = added([each["limit"], "-" + each["debts"], "-" + each["holds"]])
        assert figures == [each["debts"], each["holds"], free, each["limit"]]
        label = row.find_element(By.CSS_SELECTOR, ".bar").get_attribute("aria-label")
        assert label.startswith(
            f"Debts {each['debts']} and holds {each['holds']} of the limit {each['limit']} {key[1]}"
        )
        for kind in ("debts", "holds"):
            width = row.find_element(By.CSS_SELECTOR, f".bar .{kind}").get_attribute("width")
            assert float(width.rstrip("%")) == pytest.approx(
                100 * float(each[kind]) / float(each["limit"]), abs=0.01
            )


def test_a_refusal_shows_up(hub: Browser, month: Month) -> None:
    count = {(row[0], row[1]): int(row[2]) for row in refusals(hub)}
    for row in month.read("/clearing/refusals"):
        assert count[(row["platform"], row["name"])] == row["count"]
    answers = month.lines("cpa", json.dumps({**LINES[5], "currency": "USD"}), '{"do":"post","cdr":{}}')
    assert [answer["refusal"] for answer in answers] == ["WrongCurrency", "Field"]
    hub.refresh()
    after = {(row[0], row[1]): int(row[2]) for row in refusals(hub)}
    assert after == {**count, ("cpa", "WrongCurrency"): 1, ("cpa", "Field"): 1}
    assert any("The currency is not configured" in text for text in hub.texts(".refusals .meaning"))


def refusals(browser: Browser) -> list[list[str]]:
    names = browser.texts(".refusals tbody strong")
    return [[row[0], name, row[2]] for row, name in zip(browser.rows(".refusals"), names, strict=True)]


def fraction(cost: str) -> Fraction:
    """A cost of `explain_cost`."""
    found = re.fullmatch(r"(-?)([0-9.]+)(?: (\d)/9)?", cost)
    assert found is not None, cost
    value = Fraction(found[2]) + Fraction(int(found[3] or 0), 9 * 10**12)
    return -value if found[1] else value


FOUND = {
    ("NL/CPA", "DAY-1"): ["Energy, period 0", "Energy, up to a step"],
    ("NL/CPA", "NIGHT-2"): ["Energy, period 0", "Energy, up to a step", "Flat fee"],
    ("SE/CPB", "CITY-1"): ["Energy, period 0", "Energy, period 1", "Energy, up to a step"],
    ("NL/CPA", MARKUP): ["Energy, period 0", "Energy, up to a step"],
}


def test_the_search_finds_a_cdr_and_its_rows_add_up(hub: Browser, month: Month) -> None:
    for (operator, cdr_id), names in FOUND.items():
        is_found(hub, month, operator, cdr_id, names)


def is_found(hub: Browser, month: Month, operator: str, cdr_id: str, names: list[str]) -> None:
    hub.find(operator, cdr_id)
    response = month.get("hub", "/clearing/cdrs", params={"operator": operator, "id": cdr_id})
    wanted = response.json()
    facts = dict(zip(hub.texts(".facts dt"), hub.texts(".facts dd"), strict=True))
    assert (
        facts["CDR"] == cdr_id and facts["Operator"] == operator and facts["Provider"] == wanted["provider"]
    )
    assert facts["Amount"] == f"{wanted['amount']} {wanted['currency']}"
    assert facts["Booked in"] == f"period {wanted['period']}"
    rows = hub.rows(".prices")
    assert [row[0] for row in rows] == names
    assert [row[3] for row in rows] == [row["cost"] for row in wanted["rows"][:-1]]
    (total,) = hub.texts(".prices tfoot td:last-child")
    assert total == wanted["amount"] and sum(fraction(row[3]) for row in rows) == Fraction(total)
    assert "The costs add up to the booked amount exactly." in hub.texts("#find-body .aside")
    assert hub.all("#find-body img") == []


def test_the_search_for_what_is_not_there(hub: Browser) -> None:
    hub.find("SE/CPB", "DAY-1")
    assert hub.texts("#find-body .empty") == ["SE/CPB has no booked CDR with the id DAY-1."]


def test_the_search_for_a_credit_cdr(hub: Browser) -> None:
    (credit,) = (
        line["cdr"]
        for line in LINES
        if line["do"] == "post" and line["cdr"].get("credit_reference_id") == "DAY-2"
    )
    hub.find("NL/CPA", credit["id"])
    assert "Credit CDR of DAY-2" in hub.texts(".facts dd")
    assert hub.all(".prices") == []
    hub.find("NL/CPA", "DAY-2")
    assert "taken back by a Credit CDR" in hub.texts(".facts dd")


def test_statements_are_saved_as_csv(hub: Browser, month: Month, downloads: Path) -> None:
    hub.choose(period=0, currency="EUR", party="")
    for kind in ("statement", "cdrs"):
        text = "CDRs" if kind == "cdrs" else "statement"
        hub.one(f"button[aria-label='{text} of NL/CPA in period 0, as CSV']").click()
        saved = downloads / f"{kind}-0-NL-CPA.csv"
        wanted = month.get("hub", f"/clearing/statements/0/NL-CPA/{kind}.csv").content
        assert wait_until(lambda: saved.exists() and saved.read_bytes() == wanted)
    assert len(list(csv.DictReader(io.StringIO(wanted.decode())))) == 7


def test_another_platform_sees_its_own(browser: Browser, month: Month) -> None:
    browser.open_loaded(month.url, month.tokens["msb"])
    assert browser.one("#who").text == "msb, no hub: only its own"
    browser.choose(period=0, currency="EUR", party="", measure="owed")
    assert [row[:3] for row in browser.rows(".pairs")] == [["DE/MSB", "NL/CPA", "20.0000"]]
    assert [row[0] for row in browser.rows(".positions")] == ["DE/MSB"]
    assert [row[0] for row in browser.rows(".exposures")] == ["DE/MSB"]
    browser.find("NL/CPA", "DAY-1")
    assert browser.texts("#find-body .empty") == ["NL/CPA has no booked CDR with the id DAY-1."]


def test_a_phone_has_no_sideways_scrolling(hub: Browser) -> None:
    for width in (360, 320):
        hub.resize((width, 780))
        for period, currency in ((0, "EUR"), (1, "EUR"), (2, "EUR")):
            hub.choose(period=period, currency=currency)
            hub.find("NL/CPA", "NIGHT-2")
            assert wait_until(lambda: not hub.scrolls_sideways() and hub.outside() == [])
            width_of_picture = hub.script(
                "return document.querySelector('.picture').getBoundingClientRect().width"
            )
            assert 200 < width_of_picture <= width
    hub.one("#leave").click()
    assert not hub.scrolls_sideways()


def test_large_amounts_fit(hub: Browser) -> None:
    """Amounts of a hundred million, put into the figures of the page."""
    text = """
        const answers = {
          "/clearing/balances": rows => rows.map(r => ({...r, owed: "98765432.1000", settled: "12345678.9000", open: "86419753.2000"})),
          "/clearing/exposure": rows => rows.map(r => ({...r, debts: "98765432.1000", holds: "1234567.8900", limit: "100000000.0000"})),
        };
        const asked = window.fetch;
        window.fetch = async (path, options) => {
          const response = await asked(path, options);
          const change = answers[path];
          return change ? new Response(JSON.stringify(change(await response.json())), {status: 200}) : response;
        };"""
    hub.script(text)
    hub.refresh()
    assert hub.rows(".exposures")[0][2] == "98765432.1000"
    hub.choose(period=2, currency="EUR")
    for width in (320, 360, 700, 1152, 1280):
        hub.resize((width, 780))
        assert wait_until(lambda: not hub.scrolls_sideways() and hub.outside() == []), width


def test_the_page_by_keyboard(browser: Browser, month: Month) -> None:
    browser.open(month.url, "")
    keys = ActionChains(browser.driver)
    assert browser.script("return document.activeElement.id") == "token"
    keys.send_keys(month.tokens["hub"], Keys.TAB, Keys.ENTER).perform()
    browser.loaded()
    browser.script("document.activeElement.blur()")
    reached = []
    for _ in range(60):
        ActionChains(browser.driver).send_keys(Keys.TAB).perform()
        text = """const e = document.activeElement;
            const style = getComputedStyle(e);
            return e === document.body ? null : [e.id || e.name || e.getAttribute("aria-label") || e.textContent, style.outlineStyle !== "none"]"""
        found = browser.script(text)
        if found is None:
            break
        assert found[1], f"{found[0]} shows no focus"
        reached.append(found[0])
    for name in (
        "refresh",
        "leave",
        "period",
        "currency",
        "party",
        "measure",
        "find-operator",
        "find-id",
        "Find",
        "hours",
    ):
        assert name in reached
    assert "Show who owes whom in period 1, EUR" in reached
    assert "statement of NL/CPA in period 2, as CSV" not in reached


def test_everything_has_a_name(hub: Browser) -> None:
    hub.find("NL/CPA", "DAY-1")
    nodes = hub.driver.execute_cdp_cmd("Accessibility.getFullAXTree", {})["nodes"]
    kinds = (
        "button",
        "link",
        "textbox",
        "combobox",
        "radio",
        "image",
        "table",
        "navigation",
        "form",
        "region",
        "group",
    )
    count = 0
    for node in nodes:
        role = node.get("role", {}).get("value", "")
        if node.get("ignored") or role not in kinds or (role == "group" and not node.get("name")):
            continue
        count += 1
        assert node.get("name", {}).get("value"), node
    assert count > 25
    for width in (1280, 360):
        hub.resize((width, 780))
        nodes = hub.driver.execute_cdp_cmd("Accessibility.getFullAXTree", {})["nodes"]
        roles = [node.get("role", {}).get("value") for node in nodes if not node.get("ignored")]
        assert roles.count("table") == len(hub.all("table")) and roles.count("row") > 20
        assert roles.count("rowheader") > 10 and roles.count("columnheader") > 10


CONTRAST = """
    const light = color => {
      const parts = color.match(/[\\d.]+/g).map(Number).slice(0, 3).map(v => v / 255);
      const [r, g, b] = parts.map(v => v <= 0.04045 ? v / 12.92 : ((v + 0.055) / 1.055) ** 2.4);
      return 0.2126 * r + 0.7152 * g + 0.0722 * b;
    };
    const ground = e => {
      for (let each = e; each; each = each.parentElement) {
        const color = getComputedStyle(each).backgroundColor;
        if (!/, 0\\)$/.test(color)) return color;
      }
      return getComputedStyle(document.body).backgroundColor;
    };
    const low = [];
    const walker = document.createTreeWalker(document.body, NodeFilter.SHOW_TEXT);
    while (walker.nextNode()) {
      const e = walker.currentNode.parentElement;
      if (!walker.currentNode.data.trim() || !e.getClientRects().length || e.disabled) continue;
      const style = getComputedStyle(e);
      const [a, b] = [light(e.ownerSVGElement ? style.fill : style.color), light(ground(e))].sort((x, y) => y - x);
      const ratio = (a + 0.05) / (b + 0.05);
      if (ratio < 4.5) low.push([walker.currentNode.data, ratio]);
    }
    return low;"""


def test_light_and_dark(hub: Browser) -> None:
    hub.find("NL/CPA", "DAY-1")
    for scheme in ("light", "dark"):
        hub.media(prefers_color_scheme=scheme)
        ground = hub.script("return getComputedStyle(document.body).backgroundColor")
        dark = sum(map(int, re.findall(r"\d+", ground))) < 3 * 128
        assert dark == (scheme == "dark")
        assert hub.script(CONTRAST) == []
    hub.media()


def test_the_policy_forbids_what_is_foreign(hub: Browser, month: Month) -> None:
    policy = httpx.get(month.url + "/").headers["content-security-policy"]
    for part in ("default-src 'none'", "script-src 'self'", "connect-src 'self'", "frame-ancestors 'none'"):
        assert part in policy
    assert "unsafe" not in policy and "http" not in policy
    tried = hub.driver.execute_async_script(
        """
        const done = arguments[0];
        const seen = new Set();
        document.addEventListener("securitypolicyviolation", event => seen.add(event.effectiveDirective));
        const inline = document.createElement("style");
        inline.textContent = "body { display: none }";
        document.head.append(inline);
        const picture = new Image();
        picture.src = "http://127.0.0.2:9/x.png";
        fetch("http://127.0.0.2:9/").catch(() => {});
        try { document.body.innerHTML = "<p>x"; } catch { seen.add("trusted-types"); }
        let looks = 0;
        const look = () => seen.size >= 4 || ++looks > 500 ? done([...seen].sort()) : setTimeout(look, 100);
        look();"""
    )
    assert {"connect-src", "img-src", "style-src-elem", "trusted-types"} <= set(tried)
    hub.said()


def test_what_loads_is_told(hub: Browser) -> None:
    """While a section loads, it says so, and the others are there."""
    hub.script(
        """
        window.asked = window.fetch;
        window.fetch = (path, options) => path.startsWith("/clearing/exposure")
          ? new Promise(resolve => { window.goOn = () => resolve(window.asked(path, options)); })
          : window.asked(path, options);"""
    )
    hub.one("#refresh").click()
    assert wait_until(lambda: hub.texts("#exposure-body[aria-busy] [role=status]") == ["Loading…"])
    assert wait_until(lambda: hub.all("#owes-body[aria-busy]") == [] and hub.rows(".pairs") != [])
    assert hub.one("#state").text == "Loading…"
    hub.script("window.goOn()")
    hub.loaded()
    assert hub.all(".exposures") != []
    assert hub.script("return document.activeElement.id") == "refresh"


def test_another_login_while_something_loads(hub: Browser, month: Month) -> None:
    """What was asked for before the tab was signed out is not shown to whoever logs in then."""
    hub.script(
        """
        window.asked = window.fetch;
        window.late = [];
        window.fetch = (path, options) => new Promise(resolve => window.late.push(() => resolve(window.asked(path, options))));"""
    )
    hub.one("#refresh").click()
    hub.find_later("NL/CPA", "DAY-1")
    hub.one("#leave").click()
    hub.script("window.fetch = window.asked")
    hub.one("#token").send_keys(month.tokens["msb"] + Keys.ENTER)
    assert wait_until(lambda: hub.one("#who").text.startswith("msb"))
    hub.loaded()
    hub.script("window.late.forEach(goOn => goOn())")
    time.sleep(0.5)
    assert [row[0] for row in hub.rows(".exposures")] == ["DE/MSB"]
    assert "DAY-1" not in "".join(hub.texts("#find-body"))


def test_what_failed_is_told_and_tried_again(hub: Browser, month: Month) -> None:
    """A request that fails in one section leaves the others, and another attempt shows it."""
    hub.script(
        """
        window.asked = window.fetch;
        window.fetch = (path, options) => path.startsWith("/clearing/exposure")
          ? Promise.resolve(new Response('{"error":"the house is starting"}', {status: 503}))
          : path.startsWith("/clearing/refusals") ? Promise.reject(new TypeError("gone")) : window.asked(path, options);"""
    )
    hub.refresh()
    assert hub.texts("#exposure-body .problem") == [
        "The house does not answer at present: the house is starting."
    ]
    assert hub.texts("#refusals-body .problem") == ["The service does not answer."]
    assert hub.rows(".pairs")
    hub.script("window.fetch = window.asked")
    hub.one("#exposure-body button").click()
    assert wait_until(lambda: hub.all(".exposures") != [])
    assert hub.texts("#exposure-body .problem") == []


def test_a_token_that_is_removed_ends_the_session(browser: Browser, month: Month) -> None:
    file = TokenFile(month.settings.tokens)
    token = file.add("hub")
    time.sleep(1.1)
    browser.open_loaded(month.url, token)
    from clear_service.senders import digest_of

    assert file.remove(digest_of(token.encode())[:12]) == 1
    time.sleep(1.1)
    browser.one("#refresh").click()
    assert wait_until(lambda: browser.one("#login-said").is_displayed())
    assert browser.one("#login-said").text == "The service does not know this token."
    assert "24.5000" not in browser.driver.page_source


def test_an_empty_house(browser: Browser, tmp_path: Path) -> None:
    service = Service(tmp_path, str(tmp_path / "house"))
    try:
        browser.open_loaded(service.url, service.tokens["hub"])
        assert browser.texts("#periods-body .empty") == ["Nothing is booked yet; period 0 is open."]
        assert browser.texts("#owes-body .empty") == ["Nothing is booked in period 0 in EUR."]
        assert browser.texts("#refusals-body .empty") == ["No request was refused."]
        assert [row[0] for row in browser.rows(".exposures")] == ["NL/MSA"]
        browser.resize(PHONE)
        assert not browser.scrolls_sideways()
    finally:
        service.stop()


def test_a_warning_is_shown(browser: Browser, tmp_path: Path) -> None:
    (tmp_path / "config.json").write_text(json.dumps({**CONFIGURATION, "limits": {"tariffs": 1}}))
    service = Service(tmp_path, str(tmp_path / "house"))
    try:
        service.lines("cpo", line("put_tariff", tariff=TARIFF))
        browser.open_loaded(service.url, service.tokens["hub"])
        assert wait_until(lambda: browser.texts("#warnings .problem") == ["NL/CPA has 1 of 1 tariffs"])
    finally:
        service.stop()


def test_peers_and_what_waits_for_them(browser: Browser, tmp_path: Path) -> None:
    """A hub sees them; without any, and for another platform, there is no such section."""
    peer = OcpiPeer("EMSP", "NL", "MSA", "emp")
    token_a = TokenFile(str(tmp_path / "tokens")).add(REGISTER + "emp")
    service = Service(tmp_path, str(tmp_path / "house"), peer_hosts=httpx.URL(peer.url).netloc.decode())
    try:
        browser.open_loaded(service.url, service.tokens["hub"])
        assert not browser.one("#peers").is_displayed() and not browser.one("#peers-link").is_displayed()
        peer.register(f"{service.url}/ocpi/versions", token_a)
        service.lines("cpo", line("put_tariff", tariff=TARIFF))
        assert wait_until(lambda: peer.names("tariffs") == ["G1"])
        browser.refresh()
        (row,) = browser.rows(".peers")
        assert row[0] == "emp" and row[1].startswith("connectedlast contact 20") and row[2:] == ["0", "0"]
        peer.close()
        service.lines("cpo", line("put_tariff", tariff=changed(TARIFF, id="G2")))

        def is_shown() -> bool:
            browser.refresh()
            (row,) = browser.rows(".peers")
            return row[1].startswith("cannot be called") and "Connect" in row[1] and row[2:] == ["1", "0"]

        assert wait_until(is_shown)
        assert wait_until(
            lambda: any("waits for emp" in each for each in browser.texts("#warnings .problem"))
        )
        browser.resize(PHONE)
        assert wait_until(lambda: not browser.scrolls_sideways() and browser.outside() == [])
        browser.one("#leave").click()
        browser.open_loaded(service.url, service.tokens["cpo"])
        assert not browser.one("#peers").is_displayed() and browser.rows(".peers") == []
    finally:
        service.stop()
        peer.close()


def test_files_are_sent_once(month: Month) -> None:
    first = httpx.get(month.url + "/page/page.js")
    assert first.headers["content-type"].startswith("text/javascript")
    again = httpx.get(month.url + "/page/page.js", headers={"If-None-Match": first.headers["etag"]})
    assert (again.status_code, again.content) == (304, b"")
    for name in ("page.py", "..%2Fpage.py", "%2e%2e/page.py", ""):
        assert httpx.get(f"{month.url}/page/{name}").status_code == 404


def test_who_the_sender_is(month: Month) -> None:
    hub = month.read("/clearing/sender")
    assert hub == {
        "warnings": [],
        "platform": "hub",
        "hub": True,
        "currencies": ["EUR", "SEK"],
        "operators": ["NL/CPA", "SE/CPB"],
        "providers": ["NL/MSA", "DE/MSB"],
    }
    assert month.read("/clearing/sender", "cpa")["hub"] is False
    assert month.get(None, "/clearing/sender").status_code == 401


def test_a_cdr_is_only_for_its_parties(month: Month) -> None:
    path = "/clearing/cdrs?operator=nl/cpa&id=day-1"
    for platform in ("hub", "cpa", "msa"):
        assert month.read(path, platform)["id"] == "DAY-1"
    for platform in ("cpb", "msb"):
        assert month.get(platform, path).status_code == 404
    assert month.get("hub", "/clearing/cdrs?operator=NL/CPA").status_code == 400


def test_screenshots(hub: Browser) -> None:
    """The page as docs/page has it; without a folder for pictures only that it can be drawn in both sizes."""
    hub.choose(period=0, currency="EUR", party="", measure="owed")
    hub.find("NL/CPA", "NIGHT-1")
    hub.script("document.activeElement.blur()")
    hub.screenshot("desktop")
    hub.media(prefers_color_scheme="dark")
    hub.choose(period=2, currency="EUR")
    hub.screenshot("desktop-dark")
    hub.media()
    hub.resize(PHONE)
    time.sleep(0.3)
    hub.script("document.activeElement.blur()")
    hub.screenshot("phone")
    hub.resize(DESKTOP)
