// Requests to the service. The token is in the header of each request and in this tab's session, and nowhere else.

const KEPT = "clear-token";

/** A request that failed. `status` is that of HTTP, and 0 if there was no response. */
export class Failure extends Error {
  constructor(status, message) {
    super(message);
    this.status = status;
  }
}

export const token = {
  get: () => sessionStorage.getItem(KEPT),
  set: (text) => sessionStorage.setItem(KEPT, text),
  forget: () => sessionStorage.removeItem(KEPT),
};

/** Whether the text can be a token; another could not be in a header. */
export function isToken(text) {
  return /^[\x21-\x7e]+$/.test(text);
}

async function responseOf(path, accept) {
  const headers = { Authorization: `Token ${token.get()}`, Accept: accept };
  try {
    return await fetch(path, { headers, cache: "no-store", credentials: "omit", redirect: "error" });
  } catch {
    throw new Failure(0, "The service does not answer.");
  }
}

async function failureOf(response) {
  let said = "";
  try {
    const body = await response.json();
    said = body.error ?? body.refusal ?? "";
  } catch {
    // A response without JSON is described by its status alone.
  }
  const texts = {
    401: "The service does not know this token.",
    403: `This token may not read it${said ? `: ${said}` : ""}.`,
    429: "Too many requests with this token. Wait a second.",
    503: `The house does not answer at present${said ? `: ${said}` : ""}.`,
  };
  return new Failure(response.status, texts[response.status] ?? (said || `The service answered with status ${response.status}.`));
}

/** The JSON at the path. Throws Failure. */
export async function read(path) {
  const response = await responseOf(path, "application/json");
  if (!response.ok) throw await failureOf(response);
  try {
    return await response.json();
  } catch {
    throw new Failure(0, "The answer broke off.");
  }
}

/** The CSV at the path, as a file. Throws Failure. */
export async function readFile(path) {
  const response = await responseOf(path, "text/csv");
  if (!response.ok) throw await failureOf(response);
  return response.blob();
}

/** The path with parameters, each written so that no character of it has a meaning. */
export function withParameters(path, parameters) {
  return `${path}?${new URLSearchParams(parameters)}`;
}
