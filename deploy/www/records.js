// What there is: for each channel its stretches, drawn to scale.
import { addressFor, draw, find, go, make, note, state } from "./parts.js";
import { momentOf, stretches, textOf, textOfError } from "./services.js";

const view = document.getElementById("view-records");
const told = find(view, ".told");
const pointer = find(view, ".pointer");
const chart = find(view, ".chart");
const form = find(view, "form");
const PATTERNS = ["net", "sta", "loc", "cha"];
const NAMES = [...PATTERNS, "start", "end"];
const DAY = 86_400_000;
// Of spans longer than this the extents are asked for first, and the stretches then only of so few channels.
const LONG = 400 * DAY;
const MANY = 200;
const WIDTH = 1000;
// The pixels that the text of a tick takes.
const TICK = 96;
let asking = null;
let shown = null;
let dragged = null;

function words() {
  const given = Object.fromEntries(NAMES.map((name) => [name, form.elements[name].value.trim()]));
  return { ...given, user: form.elements.user.checked ? "1" : "" };
}

// The span that is drawn: as asked, or of all that came.
function spanOf(asked, found) {
  let from = momentOf(asked.start) ?? found.reduce((least, { spans }) => Math.min(least, spans[0].from), Infinity);
  let to = momentOf(asked.end) ?? found.reduce((most, { spans }) => Math.max(most, spans[spans.length - 1].to), -Infinity);
  if (!(to > from)) [from, to] = [from - 1000, from + 1000];
  return { from, to };
}

// Where the axis has a line.
function ticksOf({ from, to }, most) {
  const width = to - from;
  const seconds = [0.001, 0.01, 0.1, 1, 5, 15, 60, 300, 900, 3600, 10_800, 21_600, 43_200].map((it) => it * 1000);
  const step = [...seconds, ...[1, 2, 7, 14].map((days) => days * DAY)].find((it) => width / it <= most);
  const ticks = [];
  if (step) {
    for (let at = Math.ceil(from / step) * step; at <= to; at += step) ticks.push(at);
    return ticks;
  }
  const years = width / (365 * DAY);
  const months = [1, 2, 3, 6].find((it) => years * 12 / it <= most) ?? 12 * Math.max(1, Math.ceil(years / most));
  const first = new Date(from);
  let month = Math.floor((first.getUTCFullYear() * 12 + first.getUTCMonth()) / months) * months;
  for (;; month += months) {
    const at = Date.UTC(Math.floor(month / 12), month % 12, 1);
    if (at > to) return ticks;
    if (at >= from) ticks.push(at);
  }
}

const placeOf = (span, at) => ((at - span.from) / (span.to - span.from)) * WIDTH;

// The stretches as a path; those that fall together on the screen are drawn as one.
function pathOf(span, spans) {
  const marks = [];
  for (const it of spans) {
    const left = Math.max(0, placeOf(span, it.from));
    const right = Math.min(WIDTH, Math.max(placeOf(span, it.to), left + 1));
    if (right <= 0 || left >= WIDTH) continue;
    const last = marks[marks.length - 1];
    if (last && left <= last.right + 0.25) last.right = Math.max(last.right, right);
    else marks.push({ left, right });
  }
  return marks.map(({ left, right }) => `M${left.toFixed(2)} 2H${right.toFixed(2)}V14H${left.toFixed(2)}Z`).join("");
}

const bare = (time) => time.replace(/Z$/, "").replace(/\.000000$/, "");

const fills = (c, it) => addressFor("request", {
  service: "dataselect", net: c.network, sta: c.station, loc: c.location, cha: c.channel, start: bare(it.earliest), end: bare(it.latest), user: words().user,
});

// The stretches of a channel as links, below its line.
function listOf(channel) {
  const all = channel.spans.slice(0, MANY).map((it) => make("li", {}, make("a", { href: fills(channel, it) }, `${bare(it.earliest)} to ${bare(it.latest)}`)));
  if (channel.spans.length > MANY) all.push(make("li", {}, `and ${channel.spans.length - MANY} more: choose a shorter span`));
  return all;
}

function lineOf(channel, span) {
  const { key, spans } = channel;
  const says = `${key}: ${spans.length} stretch${spans.length === 1 ? "" : "es"}, ${bare(spans[0].earliest)} to ${bare(spans[spans.length - 1].latest)}`;
  const picture = draw("svg", { viewBox: `0 0 ${WIDTH} 16`, preserveAspectRatio: "none", role: "img", "aria-label": says });
  picture.append(draw("path", { d: pathOf(span, spans), class: "stretch" }));
  const listed = make("ul", { class: "listed", hidden: "" });
  const opens = make("button", { type: "button", class: "name", "aria-expanded": "false" }, key);
  opens.addEventListener("click", () => {
    listed.hidden = !listed.hidden;
    opens.setAttribute("aria-expanded", String(!listed.hidden));
    if (!listed.childElementCount) listed.append(...listOf(channel));
  });
  const drawn = make("div", { class: "drawn" }, picture);
  drawn.channel = channel;
  return make("div", { class: "line" }, opens, drawn, listed);
}

function axisOf(span) {
  const axis = draw("svg", { viewBox: `0 0 ${WIDTH} 6`, preserveAspectRatio: "none", class: "axis" });
  const texts = make("div", { class: "ticks" });
  // Beside the names, or below them where that is narrow.
  const width = chart.clientWidth - (chart.clientWidth < 640 ? 0 : 186);
  for (const at of ticksOf(span, Math.max(2, Math.floor(width / TICK)))) {
    const x = placeOf(span, at);
    axis.append(draw("path", { d: `M${x} 0V6`, class: "tick" }));
    const text = make("span", {}, ...textOf(at).split("T").map((part) => make("span", {}, part)));
    text.style.left = `${x / (WIDTH / 100)}%`;
    if (x / WIDTH * width < width - TICK * 0.8) texts.append(text);
  }
  return make("div", { class: "line head", "aria-hidden": "true" }, make("span", { class: "name" }, "UTC"), make("div", { class: "drawn" }, axis, texts));
}

function momentAt(event, drawn) {
  const box = drawn.getBoundingClientRect();
  const part = Math.min(1, Math.max(0, (event.clientX - box.left) / box.width));
  return shown.from + part * (shown.to - shown.from);
}

// The stretch at a moment of a line, or within three pixels of it.
function stretchAt(drawn, at) {
  const near = (shown.to - shown.from) / drawn.clientWidth * 3;
  const distance = (it) => Math.max(it.from - at, at - it.to, 0);
  const all = (drawn.channel?.spans ?? []).filter((it) => distance(it) <= near);
  return all.sort((a, b) => distance(a) - distance(b))[0];
}

// Tells the time under the pointer, and marks what is dragged over.
function follow(event) {
  if (!shown) return;
  const drawn = dragged?.drawn ?? event.target.closest(".drawn");
  pointer.textContent = drawn ? textOf(Math.round(momentAt(event, drawn))).replace("T", " ") : "";
  if (!drawn) return;
  const it = dragged ? null : stretchAt(drawn, momentAt(event, drawn));
  if (it) pointer.textContent += ` · ${drawn.channel.key} ${bare(it.earliest)} to ${bare(it.latest)}`;
  if (!dragged) return;
  const [from, to] = [dragged.from, momentAt(event, drawn)].sort((a, b) => a - b).map((at) => placeOf(shown, at) / (WIDTH / 100));
  dragged.mark.style.left = `${from}%`;
  dragged.mark.style.width = `${to - from}%`;
}

function drop() {
  dragged?.mark.remove();
  dragged = null;
}

const zoom = (from, to) => go("records", { ...words(), start: textOf(Math.floor(from)), end: textOf(Math.ceil(to)) });

// The pointer tells its time; a drag chooses a span, and a click the stretch under it.
chart.addEventListener("pointermove", follow);
chart.addEventListener("pointerleave", () => { pointer.textContent = ""; });
chart.addEventListener("pointercancel", drop);
chart.addEventListener("pointerdown", (event) => {
  const drawn = event.target.closest(".drawn");
  if (!drawn || !shown || event.button !== 0) return;
  dragged = { drawn, from: momentAt(event, drawn), x: event.clientX, mark: make("div", { class: "mark" }) };
  drawn.append(dragged.mark);
  drawn.setPointerCapture(event.pointerId);
});
chart.addEventListener("pointerup", (event) => {
  if (!dragged || !shown) return drop();
  const { drawn, from, x } = dragged;
  const to = momentAt(event, drawn);
  drop();
  if (Math.abs(event.clientX - x) > 4) return zoom(Math.min(from, to), Math.max(from, to));
  const it = stretchAt(drawn, to);
  if (it) location.hash = fills(drawn.channel, it);
});

find(view, ".steps").addEventListener("click", (event) => {
  const moves = { earlier: [-0.5, -0.5], later: [0.5, 0.5], closer: [0.25, -0.25], wider: [-0.5, 0.5] }[event.target.dataset.move];
  if (!moves || !shown) return;
  const [from, to] = moves.map((part) => part * (shown.to - shown.from));
  zoom(shown.from + from, shown.to + to);
});

// What is asked for: the stretches, or where the span is long the extents, if there are many channels.
async function found({ user, ...asked }, more) {
  const [from, to] = [momentOf(asked.start), momentOf(asked.end)];
  const isLong = from === null || to === null || to - from > LONG;
  const auth = user ? "auth" : "";
  const query = () => stretches(`query${auth}`, { ...asked, merge: "samplerate,quality,overlap" }, more);
  if (!isLong) return { all: await query(), areExtents: false };
  const extents = await stretches(`extent${auth}`, { ...asked, merge: "samplerate,quality" }, more);
  if (extents.length > MANY) return { all: extents, areExtents: true };
  return { all: await query(), areExtents: false };
}

function drawAll({ all, areExtents }, asked) {
  shown = spanOf(asked, all);
  chart.replaceChildren(axisOf(shown), ...all.map((channel) => lineOf(channel, shown)));
  const count = all.reduce((sum, channel) => sum + channel.spans.length, 0);
  const channels = `${all.length} channel${all.length === 1 ? "" : "s"}`;
  told.textContent = areExtents ? `${channels}, from the first record to the last: choose a shorter span, or fewer channels, to see the gaps`
    : `${channels}, ${count} stretch${count === 1 ? "" : "es"}`;
  note(view);
}

export async function show(given) {
  for (const name of NAMES) form.elements[name].value = given[name] ?? (PATTERNS.includes(name) ? "*" : "");
  form.elements.user.checked = given.user === "1";
  asking?.abort();
  asking = new AbortController();
  drop();
  told.textContent = "Asking …";
  const asked = words();
  try {
    drawAll(await found(asked, { signal: asking.signal }), asked);
  } catch (error) {
    if (error.name === "AbortError") return;
    shown = null;
    chart.replaceChildren();
    told.textContent = textOfError(error);
  }
}

form.addEventListener("submit", (event) => {
  event.preventDefault();
  const to = addressFor("records", words());
  if (to === location.hash) show(state().words);
  else location.hash = to;
});
