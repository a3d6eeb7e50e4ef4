// Amounts are texts with four decimals, such as "-6.0000". They are added as whole ten-thousandths, and never become binary
// fractions. Only `share` makes a number, for the length of a bar or the width of a band.

import { element } from "./elements.js";

const AMOUNT = /^(-?)(\d+)\.(\d{4})$/;

/** The amount as a whole number of ten-thousandths. */
export function units(text) {
  const [, minus, whole, decimals] = AMOUNT.exec(text);
  const found = BigInt(whole + decimals);
  return minus ? -found : found;
}

/** Ten-thousandths as a text with four decimals. */
export function written(amount) {
  const digits = String(amount < 0n ? -amount : amount).padStart(5, "0");
  return `${amount < 0n ? "-" : ""}${digits.slice(0, -4)}.${digits.slice(-4)}`;
}

/** The same amount, owed the other way round. */
export function reversed(text) {
  if (units(text) === 0n) return text;
  return text.startsWith("-") ? text.slice(1) : `-${text}`;
}

/** The sum of amounts. */
export function sum(texts) {
  return written(texts.reduce((total, text) => total + units(text), 0n));
}

/** Whether the first amount is smaller, equal or larger, as a sort asks: -1, 0 or 1. */
export function inOrder(one, other) {
  return one < other ? -1 : one > other ? 1 : 0;
}

/** Which part `some` is of `all`, from 0 to 1: for lengths only. */
export function share(some, all) {
  if (all <= 0n || some <= 0n) return 0;
  return Math.min(1, Number((some * 100000n) / all) / 100000);
}

/** The digits of a number in groups of three, as they stand: "-", "1", "234", "567.0000". */
export function groups(text) {
  const [, minus, whole, rest] = /^(-?)(\d*)(.*)$/.exec(text);
  const first = whole.length % 3;
  const parts = whole.slice(first).match(/\d{3}/g) ?? [];
  if (first) parts.unshift(whole.slice(0, first));
  if (!parts.length) return [text];
  parts[0] = minus + parts[0];
  parts[parts.length - 1] += rest;
  return parts;
}

/** An amount for a table. Its text is the amount as it is; the style sets its groups apart. */
export function amount(text) {
  const kind = /^-?0\.0000$/.test(text) ? "amount zero" : text.startsWith("-") ? "amount below" : "amount";
  return element("span", { class: kind }, ...groups(text).map((part) => element("span", {}, part)));
}

/** A cost of `explain_cost`, as a whole number of ninths of 10^-12: "0.133333333333 3/9" is 1200000000000. */
export function ninths(text) {
  const [, minus, whole, decimals = "", rest = "0"] = /^(-?)(\d+)(?:\.(\d{1,12}))?(?: (\d)\/9)?$/.exec(text);
  const found = BigInt(whole + decimals.padEnd(12, "0")) * 9n + BigInt(rest);
  return minus ? -found : found;
}
