// The query box. It stands in the address, so it can be sent on, and runs by a click alone, since a query may make an index.

import { $, ask, button, cell, element, grouped, refuse } from "./ask.js";
import { noteCollection, onOpen } from "./collections.js";
import { openDocument } from "./document.js";

const BETWEEN = 300; // milliseconds before a stale query is asked again
const MOST_ASKED = 600; // three minutes
const FIELDS = ["query", "start", "size", "cutoff", "parameters"];
let current = 0; // the run whose answers count

function fromAddress() {
  const given = new URLSearchParams(location.hash.slice(1));
  for (const name of FIELDS) if (given.has(name)) $(name).value = given.get(name);
}

function toAddress() {
  const shown = FIELDS.filter((name) => $(name).value !== $(name).defaultValue).map((name) => [name, $(name).value]);
  history.replaceState(null, "", `#${new URLSearchParams(shown)}`);
}

function question() {
  const asked = { Query: $("query").value, Start: +$("start").value, PageSize: +$("size").value };
  if ($("cutoff").value) asked.CutoffEtag = +$("cutoff").value;
  // The parameters go as they are typed, so that no number of theirs is rounded.
  const parameters = $("parameters").value.trim();
  return parameters ? `${JSON.stringify(asked).slice(0, -1)},"QueryParameters":${parameters}}` : JSON.stringify(asked);
}

async function run() {
  const mine = ++current;
  const text = $("query").value;
  const asked = question(); // what is typed meanwhile waits for a click of its own
  const lacks = $("cutoff").value ? "it lacks nothing up to the cutoff" : "it lacks nothing that is written";
  toAddress();
  for (let times = 1; times <= MOST_ASKED; times++) {
    const began = performance.now();
    const response = await ask("POST", "/queries", asked);
    if (mine !== current) return;
    refuse($("query-refused"), response.ok ? null : response, text);
    $("answer").hidden = !response.ok;
    if (!response.ok) return clear();
    show(response.reply, lacks, performance.now() - began, times);
    if (!response.reply.IsStale || !$("again").checked) return;
    await new Promise((wake) => setTimeout(wake, BETWEEN));
    if (mine !== current) return;
  }
}

function clear() {
  $("results").replaceChildren();
  $("included").replaceChildren();
}

function show(answer, lacks, took, times) {
  $("flag").className = `flag ${answer.IsStale ? "stale" : "fresh"}`;
  $("flag").textContent = answer.IsStale ? "STALE" : "FRESH";
  const said = [
    answer.IsStale ? "it may lack what was written last" : lacks,
    `${grouped(answer.TotalResults)} found`,
    `${answer.IndexName} at etag ${grouped(answer.IndexEtag)}`,
    `${Math.round(took)} ms`,
    ...(times > 1 ? [`asked ${times} times`] : []),
  ];
  $("answer-said").textContent = said.join(" · ");
  const whole = /^collection\/(.*)$/.exec(answer.IndexName);
  if (whole) noteCollection(whole[1], answer.TotalResults);
  table(answer.Results);
  const included = Object.keys(answer.Includes).map((id) => button(id, "", () => openDocument(id)));
  $("included").replaceChildren(...(included.length ? ["included: ", ...included] : []));
}

function table(rows) {
  const ids = rows.map((row) => row["@metadata"]?.["@id"]);
  const hasIds = ids.some((id) => id !== undefined);
  const names = [...new Set(rows.flatMap(Object.keys))].filter((name) => name !== "@metadata");
  const isNumber = (name) => rows.every((row) => ["number", "undefined"].includes(typeof row[name]));
  const heads = names.map((name) => element("th", { text: name, className: isNumber(name) ? "number" : "" }));
  const lines = rows.map((row, at) => {
    noteCollection(row["@metadata"]?.["@collection"]);
    const id = element("td", {}, button(ids[at] ?? "", "", () => openDocument(ids[at])));
    return element("tr", {}, ...(hasIds ? [id] : []), ...names.map((name) => cell(plain(row[name]), isNumber(name) ? "number" : "")));
  });
  $("results").replaceChildren(
    element("thead", {}, element("tr", {}, ...(hasIds ? [element("th", { text: "id" })] : []), ...heads)),
    element("tbody", {}, ...lines),
  );
}

const plain = (value) => (value === undefined ? "" : typeof value === "object" ? JSON.stringify(value) : String(value));
const quoted = (name) => `'${name.replace(/[\\']/g, "\\$&")}'`;

// A query of an index is only put into the box.
export function askIndex(name) {
  current++;
  $("query").value = `from index ${quoted(name)}`;
  $("query").focus();
}

// That of a whole collection needs no index, so the click that chose it runs it.
function openCollection(name) {
  $("query").value = `from ${quoted(name)}`;
  $("start").value = 0;
  run();
}

export function startQuery() {
  fromAddress();
  onOpen(openCollection);
  $("run").onclick = run;
  $("query").onkeydown = (event) => {
    if (event.key !== "Enter" || !(event.ctrlKey || event.metaKey)) return;
    event.preventDefault();
    run();
  };
  addEventListener("hashchange", fromAddress);
}
