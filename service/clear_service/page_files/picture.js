// The picture of who owes whom: debtors at the left, creditors at the right, a band for each pair. The width of a band is its part
// of the sum. Each end of a band has room for a line of text, so no amount covers another.

import { groups, inOrder, share, sum, units } from "./amounts.js";
import { drawn } from "./elements.js";

const LINE = 20; // pixels that an end of a band takes at least
const GAP = 16; // pixels between two parties
const TOP = 26; // pixels for the titles of the two sides
const NODE = 4; // pixels that a party's bar is wide
export const MOST_BANDS = 40;

/** The picture. A flow is {debtor, creditor, amount}, with amounts above 0; `width` is in pixels. */
export function picture(flows, width, title) {
  const drawnFlows = largest(flows);
  const total = drawnFlows.reduce((all, flow) => all + units(flow.amount), 0n);
  const bands = drawnFlows.map((flow) => ({ ...flow, thickness: thicknessOf(flow, total, drawnFlows.length) }));
  const left = sideOf(bands, "debtor", "creditor");
  const right = sideOf(bands, "creditor", "debtor");
  const height = TOP + Math.max(left.height, right.height) + 4;
  place(left, height);
  place(right, height);
  const margin = namesWidth([...left.nodes, ...right.nodes]);
  const from = margin + NODE;
  const to = width - margin - NODE;
  return drawn(
    "svg",
    { class: "picture", role: "img", width, height, viewBox: `0 0 ${width} ${height}`, "aria-labelledby": "picture-title" },
    drawn("title", { id: "picture-title" }, title),
    drawn("text", { class: "side", x: 0, y: 12 }, "Owes"),
    drawn("text", { class: "side", x: width, y: 12, "text-anchor": "end" }, "Is owed"),
    bands.map((band) => curve(band, from, to)),
    left.nodes.map((node) => party(node, margin, margin - 8, "end")),
    right.nodes.map((node) => party(node, to, to + NODE + 8, "start")),
    bands.map((band) => label(band, to)),
  );
}

function largest(flows) {
  return [...flows].sort((a, b) => inOrder(units(b.amount), units(a.amount))).slice(0, MOST_BANDS);
}

function thicknessOf(flow, total, count) {
  return Math.max(1.5, share(units(flow.amount), total) * Math.min(340, 70 + 26 * count));
}

/** The parties of a side, the largest first, each with its bands in the order of the other side. */
function sideOf(bands, own, other) {
  const nodes = new Map();
  for (const band of bands) {
    if (!nodes.has(band[own])) nodes.set(band[own], { name: band[own], bands: [], own });
    nodes.get(band[own]).bands.push(band);
  }
  const list = [...nodes.values()];
  for (const node of list) node.total = sum(node.bands.map((band) => band.amount));
  list.sort((a, b) => inOrder(units(b.total), units(a.total)));
  const sizes = new Map();
  for (const band of bands) sizes.set(band[other], (sizes.get(band[other]) ?? 0n) + units(band.amount));
  for (const node of list) {
    node.bands.sort((a, b) => inOrder(sizes.get(b[other]), sizes.get(a[other])));
    node.height = node.bands.reduce((all, band) => all + Math.max(LINE, band.thickness), 0);
    node.height = Math.max(node.height, node.bands.length > 1 ? 2 * LINE : LINE);
  }
  const height = list.reduce((all, node) => all + node.height, 0) + GAP * (list.length - 1);
  return { nodes: list, height };
}

/** Places the parties of a side one below the other, in the middle of the height. */
function place(side, height) {
  let y = TOP + (height - TOP - 4 - side.height) / 2;
  for (const node of side.nodes) {
    node.y = y;
    for (const band of node.bands) {
      const room = Math.max(LINE, band.thickness);
      band[`${node.own}Y`] = y + room / 2;
      y += room;
    }
    y = node.y + node.height + GAP;
  }
}

function namesWidth(nodes) {
  const widths = nodes.flatMap((node) => [widthOf(node.name, "600 13px"), node.bands.length > 1 ? widthOf(node.total, "12px") : 0]);
  return Math.ceil(Math.max(...widths)) + 10;
}

/** How many pixels the text takes in the page's font. */
function widthOf(text, font) {
  const pen = document.createElement("canvas").getContext("2d");
  pen.font = `${font} ${getComputedStyle(document.body).fontFamily}`;
  return pen.measureText(text).width + 2.5 * groups(text).length;
}

function curve(band, from, to) {
  const middle = (from + to) / 2;
  const path = `M${from} ${band.debtorY}C${middle} ${band.debtorY} ${middle} ${band.creditorY} ${to} ${band.creditorY}`;
  return drawn(
    "path",
    { class: "band", d: path, "stroke-width": Math.max(1.5, band.thickness - 1).toFixed(2) },
    drawn("title", {}, `${band.debtor} owes ${band.creditor} ${band.amount}`),
  );
}

function party(node, x, textX, anchor) {
  const middle = node.y + node.height / 2;
  const several = node.bands.length > 1;
  return drawn(
    "g",
    { class: "party" },
    drawn("rect", { x, y: node.y, width: NODE, height: node.height }),
    drawn("text", { x: textX, y: middle + (several ? -3 : 5), "text-anchor": anchor }, node.name),
    several && number(node.total, { class: "total", x: textX, y: middle + 14, "text-anchor": anchor }),
  );
}

function label(band, to) {
  return number(band.amount, { class: "label", x: to - 6, y: band.creditorY + 5, "text-anchor": "end" });
}

function number(text, attributes) {
  const parts = groups(text).map((part, place) => drawn("tspan", { dx: place ? 2.5 : null }, part));
  return drawn("text", attributes, ...parts);
}
