// The indexes, each with what is built beside it, and the box that defines one.

import { $, ask, button, cell, element, grouped, refuse } from "./ask.js";
import { noteDefinition } from "./collections.js";
import { colourOf } from "./lag.js";
import { askIndex } from "./query.js";

const BESIDE = "ReplacementOf/";
const isBeside = (index) => index.Name.startsWith(BESIDE);
const isAutomatic = (index) => index.Definition.Kind !== "static";
const named = (index) => encodeURIComponent(index.Name);

// What the server lists, and how far behind each is. Only those that are stale are asked for it.
export async function readIndexes() {
  const response = await ask("GET", "/indexes");
  if (!response.ok) return null;
  return Promise.all(response.reply.Results.map(async (index) => {
    const found = index.IsStale ? await ask("GET", `/indexes/staleness?name=${named(index)}`) : null;
    const isBehind = found?.ok && found.reply.IsStale;
    const newest = isBehind ? found.reply.Newest : index.Etag;
    return { ...index, newest, behind: isBehind ? Math.max(0, newest - found.reply.IndexEtag) : 0 };
  }));
}

// A replacement stands under the index whose name it will take.
function inOrder(indexes) {
  const mains = indexes.filter((index) => !isBeside(index));
  const besides = indexes.filter(isBeside);
  return mains.flatMap((main) => [main, ...besides.filter((index) => index.Name.slice(BESIDE.length) === main.Name)]);
}

const rows = new Map(); // those that are shown, by the name of their index

// Rows stay the same elements, so that a click is not lost when they are brought up to date.
export function showIndexes(indexes, refresh) {
  for (const index of indexes) noteDefinition(index.Definition);
  $("no-indexes").hidden = indexes.length > 0;
  const before = [...rows.keys()].join("\n");
  const shown = inOrder(indexes).map((index) => [index.Name, update(rows.get(index.Name) ?? newRow(index.Name, refresh), index)]);
  rows.clear();
  for (const [name, row] of shown) rows.set(name, row);
  if ([...rows.keys()].join("\n") !== before) $("indexes").tBodies[0].replaceChildren(...shown.map(([, row]) => row.line));
}

function newRow(name, refresh) {
  const row = {
    kind: element("span", { className: "kind" }),
    numbers: [cell(), cell(), cell(), cell()],
    flag: element("span"),
    progress: element("progress"),
  };
  const swatch = element("span", { className: `swatch ${colourOf(name)}` });
  const named = element("td", {}, element("div", {}, swatch, element("div", {}, button(name, "", () => choose(row.index)), row.kind)));
  const removal = element("td", {}, button("×", "danger", () => remove(row.index, refresh)));
  removal.firstChild.title = `Remove ${name}`;
  row.line = element("tr", {}, named, ...row.numbers, element("td", {}, row.flag, row.progress), removal);
  return row;
}

function update(row, index) {
  row.index = index;
  row.line.className = isBeside(index) ? "beside" : "";
  row.kind.textContent = isBeside(index) ? "built beside" : isAutomatic(index) ? "automatic" : index.Definition.Reduce ? "with a reduce" : "";
  [index.Entries, index.Errors, index.Etag, index.behind].forEach((number, at) => (row.numbers[at].textContent = grouped(number)));
  for (const number of row.numbers) number.className = "number";
  row.numbers[1].classList.toggle("wrong", index.Errors > 0);
  row.flag.className = `flag ${index.IsStale ? "stale" : "fresh"}`;
  row.flag.textContent = index.IsStale ? "STALE" : "FRESH";
  row.progress.hidden = !index.IsStale;
  Object.assign(row.progress, { max: index.newest || 1, value: index.Etag, title: `${index.Etag} of ${index.newest}` });
  return row;
}

// Puts a query of it, and its definition, into their boxes.
function choose(index) {
  askIndex(index.Name);
  if (isAutomatic(index)) return;
  $("name").value = isBeside(index) ? index.Name.slice(BESIDE.length) : index.Name;
  $("map").value = index.Definition.Map;
  $("reduce").value = index.Definition.Reduce ?? "";
}

async function remove(index, refresh) {
  if (!confirm(`Remove the index ${index.Name}?`)) return;
  const response = await ask("DELETE", `/indexes?name=${named(index)}`);
  refuse($("define-refused"), response.ok ? null : response);
  refresh();
}

async function define(refresh) {
  const texts = { Map: $("map").value, Reduce: $("reduce").value };
  const definition = { Name: $("name").value, Maps: [texts.Map], Reduce: texts.Reduce.trim() ? texts.Reduce : null };
  const response = await ask("PUT", "/admin/indexes", { Indexes: [definition] });
  refuse($("define-refused"), response.ok ? null : response, texts[response.reply.Part]);
  $("defined").textContent = response.ok ? `Defined: ${response.reply.Index}` : "";
  refresh();
}

export const startIndexes = (refresh) => ($("define").onclick = () => define(refresh));
