// One document. It is shown and sent as the text that it is, so no number of it is rounded on the way.

import { $, ask, refuse } from "./ask.js";
import { noteCollection } from "./collections.js";

const BEFORE = '{"Includes":{},"Results":[';
const BEHIND = "]}";
let loaded = { id: null, vector: "" }; // what Save expects

const page = (id) => `/docs?id=${encodeURIComponent(id)}`;

// Compact JSON with a line for each member. Its tokens stay as they are.
export function indented(text) {
  let depth = 0;
  const line = () => `\n${"  ".repeat(depth)}`;
  return text.replace(/"(?:[^"\\]|\\.)*"|\{\}|\[\]|[{}[\],:]/g, (token) => {
    if (token === "{" || token === "[") return depth++, token + line();
    if (token === "}" || token === "]") return depth--, line() + token;
    return token === "," ? token + line() : token === ":" ? ": " : token;
  });
}

function expect(id, vector) {
  loaded = { id, vector };
  $("conflict").hidden = true;
  showVector();
}

// What Save and Delete expect of the id in the box: what was loaded, or that there is nothing.
const expected = () => ($("id").value === loaded.id ? loaded.vector : "");

function showVector() {
  const vector = expected();
  $("vector").textContent = vector ? `Change vector ${vector}` : "Not loaded: Save creates it, and is a Conflict if it is there.";
}

function told(response) {
  const isConflict = response.reply.Error === "Conflict";
  $("conflict").hidden = !isConflict;
  $("conflict").title = isConflict ? "It was written meanwhile. Load shows what is there now, in place of your text." : "";
  refuse($("document-refused"), response.ok ? null : response);
  return response.ok;
}

export async function openDocument(id) {
  $("id").value = id;
  const response = await ask("GET", page(id));
  if ($("id").value !== id) return; // another one was chosen meanwhile
  if (!told(response)) return expect(id, "");
  const metadata = response.reply.Results[0]["@metadata"];
  $("document").value = indented(response.text.slice(BEFORE.length, -BEHIND.length));
  noteCollection(metadata["@collection"]);
  expect(id, metadata["@change-vector"]);
}

async function save() {
  const id = $("id").value;
  const response = await ask("PUT", page(id), $("document").value, expected());
  if (told(response)) await openDocument(id);
}

async function remove() {
  const id = $("id").value;
  if (!confirm(`Delete the document ${id}?`)) return;
  const vector = expected();
  const response = await ask("DELETE", page(id), undefined, vector || undefined);
  if (told(response)) expect(id, "");
}

export function startDocument() {
  $("load").onclick = () => openDocument($("id").value);
  $("save").onclick = save;
  $("delete").onclick = remove;
  $("id").oninput = showVector;
}
