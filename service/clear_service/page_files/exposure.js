// Each provider's exposure against its limit, by currency.

import { amount, share, units, written } from "./amounts.js";
import { drawn, element, table } from "./elements.js";

/** The tables of all currencies. */
export function exposureBody(exposures) {
  if (!exposures.length) return [element("p", { class: "empty" }, "No provider is configured that this token may read.")];
  const currencies = [...new Set(exposures.map((row) => row.currency))];
  const shown = currencies.map((currency) => [currency, exposures.filter((row) => row.currency === currency && !isNothing(row))]);
  const without = currencies.filter((currency) => !shown.find(([each, rows]) => each === currency && rows.length));
  return [
    legend(),
    ...shown.filter(([, rows]) => rows.length).map(([currency, rows]) => exposureTable(currency, rows)),
    without.length > 0 && element("p", { class: "aside" }, `No limit and no debt: ${without.join(", ")}`),
  ];
}

/** Whether the provider has neither a limit nor an exposure in the currency. */
function isNothing(row) {
  return ["holds", "debts", "limit"].every((name) => units(row[name]) === 0n);
}

function legend() {
  const key = (kind, text) => element("span", {}, element("span", { class: `key ${kind}` }), text);
  return element("p", { class: "legend", "aria-hidden": "true" }, key("debts", "debts"), key("holds", "holds"), key("free", "free"));
}

function exposureTable(currency, rows) {
  const columns = [
    { title: "Provider", head: true },
    { title: "Of the limit" },
    ...["Debts", "Holds", "Free", "Limit"].map((title) => ({ title, number: true })),
  ];
  const cellsOf = (row) => {
    const free = written(units(row.limit) - units(row.debts) - units(row.holds));
    return [row.provider, bar(row), amount(row.debts), amount(row.holds), amount(free), amount(row.limit)];
  };
  return table("exposures", currency, columns, rows.map((row) => ({ cells: cellsOf(row), "data-provider": `${row.provider} ${row.currency}` })));
}

/** The bar, with what it says in words. A bar whose exposure is above the limit has the limit as a line. */
function bar(row) {
  const [debts, holds, limit] = [units(row.debts), units(row.holds), units(row.limit)];
  const used = debts + holds;
  const all = used > limit ? used : limit;
  const first = share(debts, all) * 100;
  const second = share(holds, all) * 100;
  const mark = share(limit, all) * 100;
  const percent = limit > 0n ? `${(used * 100n) / limit} %` : used > 0n ? "no limit" : "0 %";
  const words = used > limit ? `${percent}, over the limit` : percent;
  const label = `Debts ${row.debts} and holds ${row.holds} of the limit ${row.limit} ${row.currency}: ${words}`;
  const shape = drawn(
    "svg",
    { class: used > limit ? "bar over" : "bar", role: "img", "aria-label": label, width: "100%", height: 14 },
    drawn("rect", { class: "free", width: "100%", height: 14 }),
    drawn("rect", { class: "debts", width: `${first}%`, height: 14 }),
    drawn("rect", { class: "holds", x: `${first}%`, width: `${second}%`, height: 14 }),
    used > limit && drawn("rect", { class: "mark", x: `${mark}%`, width: 2, height: 14 }),
  );
  return element("span", { class: "measured" }, shape, element("span", { class: used > limit ? "percent over" : "percent", "aria-hidden": "true" }, words));
}
