// The services: their addresses, what they answer, and their tables of text.

// What there is to say where no rows came.
export class Told extends Error {}

export const LOST = "The connection was lost. Look at the network, and ask again.";
const KEPT = "The browser keeps what was typed: close all its windows before you ask with another name or password.";

// The name of the parameter that stands at a place of an address.
const nameAt = (address, place) => [...new URL(address, location.href).searchParams.keys()][place - 1];

// What a status means for who asked; `text` is the body.
export function said(status, text, address) {
  const line = text.trim().split("\n")[0];
  const place = /^Error 400: query: \w+ (\d+)$/.exec(line);
  if (status === 204 || (status === 404 && line.endsWith("no data"))) return "No data.";
  if (status === 400 && place) return `${line} (${nameAt(address, Number(place[1])) ?? "the query"})`;
  if (status === 413) return `${line}. Ask for fewer channels or a shorter span.`;
  if (status === 401) return `${line}. Ask again with the name and the password of a user of the archive.`;
  if (status === 403) return `${line}. ${KEPT}`;
  if (status === 429) return "Too many requests from this address. Wait a few seconds, and ask again.";
  if (status === 502 || status === 504) return "The archive doesn't answer. Wait a moment, and ask again.";
  return line.startsWith("Error ") ? line : `Status ${status}`;
}

export const textOfError = (error) => (error instanceof Told ? error.message : String(error));

// What a promise gives; a connection that ends before is told.
async function whole(promise) {
  try {
    return await promise;
  } catch (error) {
    if (error.name === "AbortError") throw error;
    throw new Told(LOST);
  }
}

// Asks, and gives the body by the method of Response of that name; a reply that isn't 200 is told.
export async function ask(address, kind, more = {}) {
  const reply = await whole(fetch(address, { cache: "no-store", ...more }));
  if (reply.status !== 200) throw new Told(said(reply.status, await whole(reply.text()), address));
  return whole(reply[kind]());
}

const linesOf = async (address, more) => (await ask(address, "text", more)).split("\n").filter((line) => line && !line.startsWith("#"));

export function addressOf(service, method, words) {
  const given = Object.entries(words).filter(([, value]) => value !== "" && value !== undefined && value !== null);
  const query = given.map(([name, value]) => `${name}=${encodeURIComponent(value)}`).join("&");
  return `/fdsnws/${service}/1/${method}${query ? `?${query}` : ""}`;
}

const number = (text) => (text === "" || text === undefined ? null : Number(text));

// The milliseconds of a time of the services, which is in UTC; null where it is none.
export function momentOf(text) {
  const found = /^(\d{4}-\d\d-\d\d)(?:T(\d\d:\d\d:\d\d)(?:\.(\d{1,6}))?Z?)?$/.exec((text ?? "").trim());
  if (!found) return null;
  const [, day, time = "00:00:00", part = "0"] = found;
  const seconds = Date.parse(`${day}T${time}Z`);
  return Number.isNaN(seconds) ? null : seconds + Number(`0.${part}`) * 1000;
}

export const textOf = (moment) => new Date(moment).toISOString().replace(/Z$/, "").replace(/\.000$/, "").replace(/T00:00:00$/, "");

export async function stations(words, more) {
  const all = await linesOf(addressOf("station", "query", { level: "station", ...words }), more);
  return all.map((line) => {
    const [network, station, latitude, longitude, elevation, site, from, to] = line.split("|");
    return { network, station, latitude: number(latitude), longitude: number(longitude), elevation: number(elevation), site, from, to };
  });
}

export async function channels(words, more) {
  const all = await linesOf(addressOf("station", "query", { level: "channel", ...words }), more);
  return all.map((line) => {
    const [network, station, location, channel, , , , depth, azimuth, dip, sensor, , , , rate, from, to] = line.split("|");
    return { network, station, location, channel, depth, azimuth, dip, sensor, rate, from, to };
  });
}

export async function events(words, more) {
  const all = await linesOf(addressOf("event", "query", words), more);
  return all.map((line) => {
    const [id, time, latitude, longitude, depth, , catalog, , , type, magnitude, , place] = line.split("|");
    return { id, time, latitude: number(latitude), longitude: number(longitude), depth: number(depth), catalog, type, magnitude: number(magnitude), place };
  });
}

// The stretches of each channel, in the order in which they come.
export async function stretches(method, words, more) {
  const all = await linesOf(addressOf("availability", method, words), more);
  const found = new Map();
  for (const line of all) {
    const [network, station, location, channel, , , earliest, latest] = line.split(" ");
    const key = [network, station, location, channel].join(".");
    if (!found.has(key)) found.set(key, { key, network, station, location, channel, spans: [] });
    found.get(key).spans.push({ from: momentOf(earliest), to: momentOf(latest), earliest, latest });
  }
  return [...found.values()];
}
