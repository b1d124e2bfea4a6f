// The collections that are known. No route lists them: definitions and results name them.

import { $, button, element, grouped } from "./ask.js";

const known = new Map(); // how many documents a collection had when all of it was asked for, if it was
let show = () => {};

export const onOpen = (open) => (show = open);

export function noteCollection(name, count) {
  if (typeof name !== "string" || !name || name.startsWith("@") && name !== "@empty") return;
  if (known.has(name) && (count === undefined || known.get(name) === count)) return;
  known.set(name, count ?? known.get(name));
  const rows = [...known].sort(([a], [b]) => (a < b ? -1 : 1)).map(([collection, documents]) => {
    const text = documents === undefined ? "" : grouped(documents);
    return element("li", {}, button(collection, "", () => show(collection)), element("span", { className: "kind", text }));
  });
  $("collections").replaceChildren(...rows);
  $("no-collections").hidden = true;
}

export function noteDefinition(definition) {
  noteCollection(definition.Collection);
  for (const [, name] of (definition.Map ?? "").matchAll(/\bdocs\.(\w+)/g)) noteCollection(name);
  for (const [, name] of (definition.Map ?? "").matchAll(/\bLoadDocument\([^"]*"(\w+)"\)/g)) noteCollection(name);
}
