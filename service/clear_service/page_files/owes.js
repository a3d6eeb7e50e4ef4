// Periods, and who owes whom in one of them: the pairs of /clearing/balances, the positions of /clearing/periods.

import { amount, inOrder, reversed, sum, units, written } from "./amounts.js";
import { element, table } from "./elements.js";
import { MOST_BANDS, picture } from "./picture.js";

const SUMS = ["owed", "settled", "open"];

/** The rows of periods, the newest first: one for each currency in which something is booked. */
export function periodRows(periods, balances) {
  const rows = [];
  for (let period = periods.current; period >= 0; period -= 1) {
    const own = balances.filter((row) => row.period === period);
    const currencies = [...new Set(own.map((row) => row.currency))];
    const state = period === periods.current ? "open" : "closed";
    for (const currency of currencies) {
      const some = own.filter((row) => row.currency === currency);
      const sums = Object.fromEntries(SUMS.map((name) => [name, sum(some.map((row) => row[name]))]));
      rows.push({ period, state, currency, ...sums });
    }
    if (!currencies.length) rows.push({ period, state, currency: "" });
  }
  return rows;
}

/** The table of periods. `choose` is called with a period and a currency. */
export function periodsTable(rows, choose) {
  const columns = [
    { title: "Period", head: true },
    { title: "Currency" },
    ...["Owed", "Settled", "Still open"].map((title) => ({ title, number: true })),
  ];
  const cellsOf = (row) => [
    element("span", {}, `${row.period} `, element("span", { class: `tag ${row.state}` }, row.state)),
    row.currency
      ? element(
          "button",
          {
            type: "button",
            class: "link",
            "aria-label": `Show who owes whom in period ${row.period}, ${row.currency}`,
            click: () => choose(row.period, row.currency),
          },
          row.currency,
        )
      : element("span", { class: "aside" }, "nothing booked"),
    ...SUMS.map((name) => (row.currency ? amount(row[name]) : "")),
  ];
  return table("periods", "All periods", columns, rows.map(cellsOf));
}

/** Pairs as {debtor, creditor, owed, settled, open}: turned so that the measure is not below 0. */
export function pairsOf(balances, measure) {
  return balances.map((row) => {
    if (!row[measure].startsWith("-")) return { debtor: row.provider, creditor: row.operator, ...pick(row) };
    const turned = Object.fromEntries(SUMS.map((name) => [name, reversed(row[name])]));
    return { debtor: row.operator, creditor: row.provider, ...turned };
  });
}

const pick = (row) => Object.fromEntries(SUMS.map((name) => [name, row[name]]));

/** What the section shows of a period and currency. `chosen` is {period, currency, party, measure}. */
export function owesBody(periods, balances, chosen, width, download) {
  const inPeriod = balances.filter((row) => row.period === chosen.period && row.currency === chosen.currency);
  const shown = inPeriod.filter((row) => !chosen.party || row.operator === chosen.party || row.provider === chosen.party);
  const pairs = pairsOf(shown, chosen.measure);
  if (!pairs.length) return [element("p", { class: "empty" }, emptyText(chosen))];
  const flows = pairs
    .filter((pair) => units(pair[chosen.measure]) > 0n)
    .map((pair) => ({ debtor: pair.debtor, creditor: pair.creditor, amount: pair[chosen.measure] }));
  return [drawing(flows, chosen, width), pairsTable(pairs, chosen), ...positions(periods, inPeriod, chosen, download)];
}

function emptyText(chosen) {
  const party = chosen.party ? ` of ${chosen.party}` : "";
  return `Nothing${party} is booked in period ${chosen.period} in ${chosen.currency}.`;
}

function drawing(flows, chosen, width) {
  const words = chosen.measure === "owed" ? "owed" : "still open";
  if (!flows.length) return element("p", { class: "empty" }, `Nothing is ${words}.`);
  const title = `Who owes whom in period ${chosen.period}, ${chosen.currency}, ${words}. The table after it has the same amounts.`;
  const more = flows.length > MOST_BANDS && `The ${MOST_BANDS} largest of ${flows.length} amounts are drawn.`;
  return element("figure", {}, picture(flows, width, title), more && element("figcaption", { class: "aside" }, more));
}

function pairsTable(pairs, chosen) {
  const columns = [
    { title: "Owes", head: true },
    { title: "To" },
    ...["Owed", "Settled", "Still open"].map((title, place) => ({ title, number: true, wide: SUMS[place] === chosen.measure })),
  ];
  const ordered = [...pairs].sort((a, b) => inOrder(units(b[chosen.measure]), units(a[chosen.measure])));
  const rows = ordered.map((pair) => ({
    cells: [pair.debtor, pair.creditor, ...SUMS.map((name) => amount(pair[name]))],
    "data-pair": `${pair.debtor} ${pair.creditor}`,
  }));
  const made = table("pairs", `Pairs in ${chosen.currency}`, columns, rows);
  const below = pairs.some((pair) => SUMS.some((name) => pair[name].startsWith("-")));
  return below ? element("div", {}, made, note("An amount below 0 is owed the other way round.")) : made;
}

const note = (text) => element("p", { class: "aside" }, text);

/** The sums of a party's pairs: what it is owed less what it owes. */
function sumsOf(inPeriod) {
  const nets = new Map();
  const add = (party, value) => nets.set(party, (nets.get(party) ?? 0n) + value);
  for (const row of inPeriod) {
    add(row.operator, units(row.owed));
    add(row.provider, -units(row.owed));
  }
  return nets;
}

function positions(periods, inPeriod, chosen, download) {
  const nets = sumsOf(inPeriod);
  const closed = periods.closed.find((each) => each.period === chosen.period);
  const rows = (closed ? closed.positions : openPositions(nets, chosen.currency)).filter((row) => row.currency === chosen.currency);
  const mine = chosen.party ? rows.filter((row) => row.party === chosen.party) : rows;
  const busy = mine.filter((row) => units(row.net) !== 0n);
  const idle = mine.filter((row) => units(row.net) === 0n).map((row) => row.party);
  const differs = closed && rows.some((row) => units(row.net) !== (nets.get(row.party) ?? 0n));
  return [
    element("h3", {}, closed ? "Net positions" : "Net positions so far"),
    busy.length ? positionsTable(busy, closed, chosen, download) : note("All net positions are 0.0000."),
    busy.length > 0 && idle.length > 0 && note(`0.0000: ${idle.join(", ")}`),
    differs && element("p", { class: "problem", role: "alert" }, "These positions are not the sums of the pairs. Refresh the page, and report it if it stays."),
  ];
}

function openPositions(nets, currency) {
  return [...nets].map(([party, net]) => ({ party, currency, net: written(net) }));
}

function positionsTable(rows, closed, chosen, download) {
  const columns = [{ title: "Party", head: true }, { title: "Net", number: true, wide: true }, { title: "" }];
  if (closed) columns.push({ title: "As CSV" });
  const cellsOf = (row) => [
    row.party,
    amount(row.net),
    row.net.startsWith("-") ? "pays" : "receives",
    ...(closed ? [element("span", { class: "links" }, file(row.party, "statement", chosen, download), file(row.party, "cdrs", chosen, download))] : []),
  ];
  return table("positions", `Net positions in ${chosen.currency}`, columns, rows.map((row) => ({ cells: cellsOf(row), "data-party": row.party })));
}

function file(party, kind, chosen, download) {
  const path = `/clearing/statements/${chosen.period}/${encodeURIComponent(party.replace("/", "-"))}/${kind}.csv`;
  const name = `${kind}-${chosen.period}-${party.replace("/", "-")}.csv`;
  const text = kind === "cdrs" ? "CDRs" : "statement";
  return element(
    "button",
    { type: "button", class: "link", "aria-label": `${text} of ${party} in period ${chosen.period}, as CSV`, click: () => download(path, name) },
    text,
  );
}
