// The platforms that have registered by OCPI: whether they can be called, and what waits for them.

import { element, table } from "./elements.js";

/** The table of the peers, if there are some. */
export function peersBody(peers) {
  if (!peers.length) return [];
  const columns = [
    { title: "Platform", head: true },
    { title: "State" },
    { title: "Waiting", number: true },
    { title: "Refused", number: true },
  ];
  const rows = peers.map((peer) => [peer.platform, stateOf(peer), String(peer.waiting), String(peer.refused.length)]);
  return [table("peers", "Registered platforms, and the objects that wait for them or that they refused", columns, rows)];
}

/** Whether the peer can be called, when it was heard of last, and why it could not be called. */
function stateOf(peer) {
  const heard = peer.last_contact ? `last contact ${peer.last_contact}` : "not heard of since the start";
  const isConnected = peer.status === "CONNECTED";
  return element(
    "span",
    {},
    element("strong", {}, isConnected ? "connected" : "cannot be called"),
    element("span", { class: "meaning" }, isConnected ? heard : `${heard}; ${peer.failure}`),
  );
}
