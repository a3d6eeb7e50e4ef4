// A booked CDR with its price row by row, as `clear explain_cost` prints it.

import { amount, ninths, units } from "./amounts.js";
import { element, table } from "./elements.js";

const NAMES = {
  ENERGY: "Energy",
  TIME: "Charging time",
  PARKING_TIME: "Parking time",
  FLAT: "Flat fee",
  MINIMUM: "Raised to the minimum",
  MAXIMUM: "Lowered to the maximum",
  ROUNDING: "Rounding",
  TOTAL: "Total",
};
const VOLUMES = { ENERGY: "kWh", TIME: "s", PARKING_TIME: "s" };
const PRICES = { ENERGY: "per kWh", TIME: "per hour", PARKING_TIME: "per hour" };

/** What the section shows of a CDR. */
export function cdrBody(cdr) {
  return [facts(cdr), ...(cdr.credits ? [creditNote(cdr)] : prices(cdr))];
}

function facts(cdr) {
  const pair = (title, content) => [element("dt", {}, title), element("dd", {}, content)];
  const time = (text) => element("time", { datetime: text }, text.replace("T", " ").replace("Z", " UTC"));
  return element(
    "dl",
    { class: "facts" },
    ...pair("CDR", cdr.id),
    ...pair("Operator", cdr.operator),
    ...pair("Provider", cdr.provider),
    ...(cdr.session ? pair("Session", cdr.session) : []),
    ...pair("From", time(cdr.start)),
    ...pair("To", time(cdr.end)),
    ...pair("Energy", `${cdr.energy} kWh`),
    ...pair("Amount", element("span", {}, amount(cdr.amount), ` ${cdr.currency}`)),
    ...pair("Booked in", `period ${cdr.period}`),
    ...pair("State", cdr.credits ? `Credit CDR of ${cdr.credits}` : cdr.credited ? "taken back by a Credit CDR" : "booked"),
  );
}

function creditNote(cdr) {
  return element("p", { class: "aside" }, `A Credit CDR has no price of its own: its amount is that of ${cdr.credits}, negated.`);
}

function prices(cdr) {
  const columns = [
    { title: "For", head: true },
    { title: "Volume", number: true },
    { title: "Price", number: true },
    { title: "Cost", number: true },
  ];
  const isTotal = (row) => row.component === "TOTAL";
  const cellsOf = (row) => [nameOf(row), withUnit(row.volume, VOLUMES[row.component]), withUnit(row.price, PRICES[row.component]), exact(row.cost)];
  const rows = cdr.rows.filter((row) => !isTotal(row)).map((row) => ({ cells: cellsOf(row), "data-component": row.component }));
  const total = cdr.rows.find(isTotal);
  const costs = cdr.rows.filter((row) => !isTotal(row)).reduce((all, row) => all + ninths(row.cost), 0n);
  const agrees = total && costs === ninths(total.cost) && units(total.cost) === units(cdr.amount);
  const foot = total && { cells: ["Total", "", "", exact(total.cost)], "data-component": "TOTAL" };
  return [
    table("prices", `Price in ${cdr.currency}`, columns, rows, foot),
    agrees
      ? element("p", { class: "aside" }, "The costs add up to the booked amount exactly.")
      : element("p", { class: "problem", role: "alert" }, `The costs do not add up to the booked amount ${cdr.amount}. Please report it.`),
  ];
}

function nameOf(row) {
  const name = NAMES[row.component] ?? row.component;
  if (row.period === "step") return `${name}, up to a step`;
  return row.period === "" ? name : `${name}, period ${row.period}`;
}

function withUnit(text, unit) {
  return text && unit ? element("span", {}, text, element("span", { class: "unit" }, ` ${unit}`)) : text;
}

/** A cost; what follows a space is ninths of 10^-12. */
function exact(text) {
  const [decimals, rest] = text.split(" ");
  return rest ? element("span", {}, decimals, element("span", { class: "unit", title: "ninths of the last digit" }, ` ${rest}`)) : text;
}
