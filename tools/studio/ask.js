// What all parts share: requests, refusals in words, and elements. Documents are strangers' text, so text is set by textContent alone.

export const settings = await (await fetch("settings")).json();

export const $ = (id) => document.getElementById(id);

export function element(name, { text, ...properties } = {}, ...children) {
  const made = Object.assign(document.createElement(name), properties);
  if (text !== undefined) made.textContent = text;
  made.append(...children);
  return made;
}

export const button = (text, className, onclick) => element("button", { text, className: `link ${className}`, onclick });
export const cell = (text, className = "") => element("td", { text, className });
export const grouped = (number) => number.toLocaleString("en");

// JavaScript rounds numbers beyond 2^53, so those of 16 digits and more are kept as the texts of their digits.
const LONG = /"(?:[^"\\]|\\.)*"|-?\d{16,}/g;
export const read = (text) => JSON.parse(text.replace(LONG, (token) => (token[0] === '"' ? token : `"${token}"`)));

// Asks the database. A body that is a text is sent as it is.
export async function ask(method, page, body, match) {
  const headers = match === undefined ? {} : { "If-Match": `"${match}"` };
  const sent = body === undefined || typeof body === "string" ? body : JSON.stringify(body);
  try {
    const response = await fetch(`/databases/${settings.Database}${page}`, { method, body: sent, headers });
    const text = await response.text();
    return { ok: response.ok, status: response.status, text, reply: text ? read(text) : {} };
  } catch (fault) {
    return { ok: false, status: 0, text: "", reply: { Error: "NoStudio", Message: String(fault) } };
  }
}

const OWN = {
  NoServer: "nothing answers there: is the server running?",
  NoStudio: "tools/studio.py does not answer any more",
  KeeperFault: "the file took nothing of this: is the disk full?",
};

// When such a refusal comes, as the documents say.
function when(reply) {
  const members = Object.keys(reply).filter((name) => name !== "Error").sort().join();
  const found = settings.Causes.find((cause) => cause.Names.includes(reply.Error) && cause.Members.join() === members);
  return OWN[reply.Error] ?? (found ? `if ${found.When.replaceAll("`", "")}` : "");
}

// The line of a text that has this byte, and a caret below it.
export function pointed(text, at) {
  const before = new TextDecoder().decode(new TextEncoder().encode(text).slice(0, at));
  const start = Math.max(before.lastIndexOf("\n") + 1, before.length - 60);
  const line = text.slice(start).split("\n")[0].replace(/\s/g, " ");
  return `${line}\n${" ".repeat([...before.slice(start)].length)}^`;
}

// Shows why a request was refused, or nothing. The text is the one in which the refusal names a byte.
export function refuse(place, response, text) {
  place.hidden = !response;
  if (!response) return;
  const { reply, status } = response;
  const others = Object.entries(reply).filter(([name]) => name !== "Error");
  const members = others.map(([name, value]) => `${name} ${JSON.stringify(value)}`);
  const lines = [`${status || ""} ${reply.Error}${members.length ? `: ${members.join(", ")}` : ""}`, when(reply)].filter(Boolean);
  // Other refusals have an `At` too, beside more members: it is no byte of the text.
  const hasPlace = text !== undefined && "At" in reply && others.every(([name]) => name === "At" || name === "Part");
  const mark = hasPlace ? [element("pre", { text: pointed(text, reply.At) })] : [];
  place.replaceChildren(...mark, ...lines.map((line) => element("p", { text: line })));
}
