// Starts the parts, and looks every half second at how far the indexes are.

import { $, ask, element, grouped, refuse, settings } from "./ask.js";
import { startDocument } from "./document.js";
import { readIndexes, showIndexes, startIndexes } from "./indexes.js";
import { draw, note } from "./lag.js";
import { startQuery } from "./query.js";

const BETWEEN = 500; // milliseconds
const AT_ONCE = 200; // sample documents of one transaction
const CITIES = ["Berlin", "London", "Oslo", "Paris", "Rome"];

function showState(isUp) {
  $("state").className = `flag ${isUp ? "fresh" : "bad"}`;
  $("state").textContent = isUp ? "answers" : "no answer";
}

async function look() {
  const [stats, indexes] = await Promise.all([ask("GET", "/stats"), readIndexes()]);
  const isUp = stats.ok && indexes !== null;
  showState(isUp);
  if (!isUp) return;
  const { CountOfDocuments, CountOfTombstones, CountOfIndexes, LastDocEtag } = stats.reply;
  const counts = { documents: CountOfDocuments, tombstones: CountOfTombstones, indexes: CountOfIndexes, "last etag": LastDocEtag };
  $("counts").replaceChildren(...Object.entries(counts).map(([name, count]) =>
    element("div", {}, element("dt", { text: name }), element("dd", { text: grouped(count) }))));
  const now = performance.now() / 1000;
  note(indexes, now);
  showIndexes(indexes, look);
  draw(now);
}

async function lookOn() {
  for (;;) {
    // What answers may be something else, of which nothing can be shown.
    if (!document.hidden) await look().catch(() => showState(false));
    await new Promise((wake) => setTimeout(wake, BETWEEN));
  }
}

const sample = (collection, at) => ({
  Type: "PUT",
  Id: `${collection.toLowerCase()}/${at + 1}`,
  Document: { City: CITIES[(at * 7) % CITIES.length], Cents: (at * 7919) % 10000, "@metadata": { "@collection": collection } },
});

async function writeSamples() {
  const count = +$("sample-count").value;
  const collection = $("sample-collection").value;
  $("sample-write").disabled = true;
  for (let from = 0; from < count; from += AT_ONCE) {
    const commands = Array.from({ length: Math.min(AT_ONCE, count - from) }, (_, at) => sample(collection, from + at));
    const response = await ask("POST", "/bulk_docs", { Commands: commands });
    if (!response.ok) {
      refuse($("sample-said"), response);
      break;
    }
    $("sample-said").textContent = `${grouped(from + commands.length)} of ${grouped(count)} written`;
  }
  $("sample-write").disabled = false;
}

$("place").textContent = `${settings.Server} · database ${settings.Database}`;
document.title = `raven · ${settings.Database}`;
startQuery();
startDocument();
startIndexes(look);
$("sample-write").onclick = writeSamples;
lookOn();
