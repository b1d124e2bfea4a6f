// How far each index was behind, over the last two minutes.

import { $, grouped } from "./ask.js";

const SECONDS = 120;
const COLOURS = 8;
const LEFT = 46, RIGHT = 8, TOP = 10, BOTTOM = 20;
const seen = new Map(); // the name of an index: its colour, and points of a time and a lag

export function colourOf(name) {
  if (!seen.has(name)) seen.set(name, { colour: `c${seen.size % COLOURS}`, points: [] });
  return seen.get(name).colour;
}

export function note(indexes, now) {
  for (const index of indexes) {
    colourOf(index.Name);
    seen.get(index.Name).points.push([now, index.behind]);
  }
  for (const kept of seen.values()) kept.points = kept.points.filter(([time]) => time >= now - SECONDS);
}

function shape(name, attributes, text) {
  const made = document.createElementNS("http://www.w3.org/2000/svg", name);
  for (const [key, value] of Object.entries(attributes)) made.setAttribute(key, value);
  if (text !== undefined) made.textContent = text;
  return made;
}

// The least of 10, 20, 30, 50, 100, .. that is not below all lags.
function scale(most) {
  for (let ten = 10; ; ten *= 10) for (const step of [1, 2, 3, 5]) if (ten * step >= most) return ten * step;
}

export function draw(now) {
  const { clientWidth: width, clientHeight: height } = $("plot");
  const lines = [...seen.values()].filter((kept) => kept.points.length);
  const most = scale(Math.max(0, ...lines.flatMap((kept) => kept.points.map(([, lag]) => lag))));
  const x = (time) => LEFT + ((width - LEFT - RIGHT) * (time - now + SECONDS)) / SECONDS;
  const y = (lag) => height - BOTTOM - ((height - TOP - BOTTOM) * lag) / most;
  const rules = [0, 1, 2].map((half) => (most * half) / 2).flatMap((lag) => [
    shape("line", { x1: LEFT, x2: width - RIGHT, y1: y(lag), y2: y(lag) }),
    shape("text", { x: LEFT - 6, y: y(lag) + 4, "text-anchor": "end" }, grouped(lag)),
  ]);
  const times = [[-SECONDS, "2 minutes ago", "start"], [-SECONDS / 2, "1 minute ago", "middle"], [0, "now", "end"]];
  const marks = times.map(([ago, text, anchor]) => shape("text", { x: x(now + ago), y: height - 4, "text-anchor": anchor }, text));
  const path = (points) => points.map(([time, lag]) => `${x(time)},${y(lag)}`).join(" ");
  const drawn = lines.map(({ colour, points }) => shape("polyline", { class: colour, points: path(points) }));
  $("plot").replaceChildren(...rules, ...marks, ...drawn);
}
