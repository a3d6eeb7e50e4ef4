// The page: the login, what was read, and the sections that show it. Nothing is asked for again until the reader asks.

import { cdrBody } from "./cdr.js";
import { element, offer, table } from "./elements.js";
import { exposureBody } from "./exposure.js";
import { owesBody, periodRows, periodsTable } from "./owes.js";
import { peersBody } from "./peers.js";
import { MEANINGS } from "./refusals.js";
import { Failure, isToken, read, readFile, token, withParameters } from "./service.js";

const at = (id) => document.getElementById(id);
// What was read in this session. Each login begins another one, and what comes for an earlier one is dropped.
let known = { sender: null, periods: null, balances: null };

// --- login ---

/** Forgets the token and all that was read, and shows the login. */
function signOut(message = "") {
  token.forget();
  for (const body of document.querySelectorAll(".body")) {
    body.replaceChildren();
    body.removeAttribute("aria-busy");
  }
  for (const id of ["period", "currency", "party", "find-operator", "warnings"]) at(id).replaceChildren();
  hidePeers(true);
  at("find-id").value = "";
  known = { sender: null, periods: null, balances: null };
  showLogin(message);
}

function showLogin(message = "") {
  document.title = "Clear";
  at("house").hidden = true;
  at("login").hidden = false;
  at("token").value = token.get() ?? "";
  at("login-said").textContent = message;
  at("login-said").hidden = !message;
  at("token").focus();
}

async function logIn(event) {
  event.preventDefault();
  const text = at("token").value.trim();
  if (!isToken(text)) {
    signOut("This is no token.");
    return;
  }
  token.set(text);
  await open();
}

async function open() {
  const button = at("login").querySelector("button");
  button.disabled = true;
  const session = known;
  try {
    session.sender = await read("/clearing/sender");
  } catch (error) {
    if (error.status === 401) signOut(error.message);
    else showLogin(error instanceof Failure ? error.message : String(error));
    return;
  } finally {
    button.disabled = false;
  }
  if (known !== session) return;
  const { platform, hub, operators } = session.sender;
  document.title = `Clear, ${platform}`;
  at("who").textContent = hub ? platform : `${platform}, no hub: only its own`;
  offer(at("find-operator"), operators.map((value) => ({ value, text: value })));
  at("login").hidden = true;
  at("house").hidden = false;
  at("title").focus();
  await refresh();
}

// --- sections ---

/** Runs what fills a section: says that it loads, and what failed if it fails. Only the last run of a section is shown. */
const runs = new Map();
async function fill(id, make, again) {
  const body = at(id);
  const session = known;
  const run = (runs.get(id) ?? 0) + 1;
  runs.set(id, run);
  body.setAttribute("aria-busy", "true");
  const isLast = () => known === session && runs.get(id) === run;
  const loading = () => isLast() && body.replaceChildren(element("p", { class: "empty", role: "status" }, "Loading…"));
  const wait = setTimeout(loading, body.childElementCount ? 400 : 0);
  let shown;
  try {
    shown = await make();
  } catch (error) {
    if (known !== session) return;
    if (error instanceof Failure && error.status === 401) {
      signOut(error.message);
      return;
    }
    if (!(error instanceof Failure)) console.error(error);
    shown = [failed(error instanceof Failure ? error.message : "The page failed to show this.", again)];
  } finally {
    clearTimeout(wait);
  }
  if (!isLast()) return;
  body.replaceChildren(...shown.filter(Boolean));
  body.removeAttribute("aria-busy");
}

function failed(message, again) {
  const button = again && element("button", { type: "button", click: again }, "Try again");
  return element("div", { class: "failed" }, element("p", { class: "problem", role: "alert" }, message), button);
}

let refreshes = 0;
async function refresh() {
  refreshes += 1;
  const own = refreshes;
  at("state").textContent = "Loading…";
  await Promise.all([showPeriods(), showExposure(), showRefusals(), showPeers(), showWarnings()]);
  if (own === refreshes) at("state").textContent = `as of ${new Date().toLocaleTimeString("en-GB")}`;
}

/** The warnings of the service: an operator that nears its limit of CDRs, a token that nears its quota. */
async function showWarnings() {
  const session = known;
  const { warnings } = await read("/clearing/sender").catch(() => session.sender ?? { warnings: [] });
  if (known === session) at("warnings").replaceChildren(...warnings.map((text) => element("p", { class: "problem" }, text)));
}

async function showPeriods() {
  const session = known;
  const pending = Promise.all([read("/clearing/periods"), read("/clearing/balances")]).then(([periods, balances]) => {
    Object.assign(session, { periods, balances });
  });
  const periods = fill("periods-body", async () => {
    await pending;
    return known === session ? periodsBody() : [];
  }, showPeriods);
  const owes = fill("owes-body", async () => {
    await pending;
    if (known !== session) return [];
    offerChoices();
    return owed();
  }, showPeriods);
  await Promise.all([periods, owes]);
}

function periodsBody() {
  const rows = periodRows(known.periods, known.balances);
  const made = periodsTable(rows, choose);
  return [rows.length === 1 && !rows[0].currency ? element("p", { class: "empty" }, "Nothing is booked yet; period 0 is open.") : made];
}

function offerChoices() {
  const { current } = known.periods;
  const periods = Array.from({ length: current + 1 }, (_, place) => current - place);
  const booked = known.balances.map((row) => row.period);
  const newest = booked.length ? String(Math.max(...booked)) : String(current);
  offer(at("period"), periods.map((value) => ({ value: String(value), text: value === current ? `${value}, open` : `${value}, closed` })), newest);
  offerCurrencies();
}

/** The currencies of the house; chosen at first is one in which something is booked in the period. */
function offerCurrencies() {
  const own = known.balances.filter((row) => String(row.period) === at("period").value);
  const first = own.length ? own[0].currency : known.sender.currencies[0];
  offer(at("currency"), known.sender.currencies.map((value) => ({ value, text: value })), first);
  const parties = [...new Set(known.balances.flatMap((row) => [row.operator, row.provider]))].sort();
  offer(at("party"), [{ value: "", text: "all" }, ...parties.map((value) => ({ value, text: value }))], "");
}

function owed() {
  const chosen = {
    period: Number(at("period").value),
    currency: at("currency").value,
    party: at("party").value,
    measure: document.querySelector("input[name=measure]:checked").value,
  };
  return owesBody(known.periods, known.balances, chosen, at("owes-body").clientWidth, download);
}

function showOwed() {
  if (known.balances) at("owes-body").replaceChildren(...owed().filter(Boolean));
}

function choose(period, currency) {
  at("period").value = String(period);
  at("currency").value = currency;
  at("party").value = "";
  showOwed();
  at("owes").focus();
  at("owes").scrollIntoView();
}

async function download(path, name) {
  const body = at("owes-body");
  const session = known;
  body.querySelector(".failed")?.remove();
  try {
    const file = await readFile(path);
    if (known !== session) return;
    const url = URL.createObjectURL(file);
    element("a", { href: url, download: name }).click();
    setTimeout(() => URL.revokeObjectURL(url), 60000);
  } catch (error) {
    if (known !== session) return;
    if (error.status === 401) signOut(error.message);
    else body.append(failed(`${name}: ${error.message}`));
  }
}

function showExposure() {
  return fill("exposure-body", async () => exposureBody(await read("/clearing/exposure")), showExposure);
}

function showRefusals() {
  const hours = at("hours").value;
  return fill("refusals-body", async () => refusalsBody(await read(withParameters("/clearing/refusals", { hours }))), showRefusals);
}

function refusalsBody(rows) {
  if (!rows.length) return [element("p", { class: "empty" }, "No request was refused.")];
  const columns = [{ title: "Platform", head: true }, { title: "Refusal" }, { title: "Count", number: true }];
  const ordered = [...rows].sort((a, b) => b.count - a.count);
  const cellsOf = (row) => [
    row.platform || "–",
    element("span", {}, element("strong", {}, row.name), element("span", { class: "meaning" }, MEANINGS[row.name] ?? "")),
    String(row.count),
  ];
  return [table("refusals", "Refused requests and declined authorisations", columns, ordered.map(cellsOf))];
}

/** The registered platforms, for a hub. Without one there is no such section. */
async function showPeers() {
  const session = known;
  if (!session.sender.hub) return;
  await fill("peers-body", async () => {
    const peers = await read("/clearing/peers");
    if (known === session) hidePeers(peers.length === 0);
    return peersBody(peers);
  }, showPeers);
}

function hidePeers(hidden) {
  at("peers").hidden = hidden;
  at("peers-link").hidden = hidden;
}

function find(event) {
  event?.preventDefault();
  const operator = at("find-operator").value;
  const id = at("find-id").value.trim();
  const path = withParameters("/clearing/cdrs", { operator, id });
  return fill("find-body", async () => {
    try {
      return cdrBody(await read(path));
    } catch (error) {
      if (error instanceof Failure && error.status === 404) return [element("p", { class: "empty", role: "status" }, `${operator} has no booked CDR with the id ${id}.`)];
      throw error;
    }
  }, find);
}

// --- begin ---

at("login").addEventListener("submit", logIn);
at("leave").addEventListener("click", () => signOut());
at("refresh").addEventListener("click", refresh);
at("find-form").addEventListener("submit", find);
at("hours").addEventListener("change", showRefusals);
for (const id of ["period", "currency", "party"]) at(id).addEventListener("change", showOwed);
for (const radio of document.querySelectorAll("input[name=measure]")) radio.addEventListener("change", showOwed);

let widthBefore = 0;
new ResizeObserver(() => {
  const width = at("owes-body").clientWidth;
  if (width && width !== widthBefore) {
    widthBefore = width;
    showOwed();
  }
}).observe(at("owes-body"));

if (token.get()) await open();
else showLogin();
