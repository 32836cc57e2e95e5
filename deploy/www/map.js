// The map: Leaflet, where the operator has it, with a graticule, and tiles where an address for them is given.
import { ATTRIBUTION, LEAFLET, TILES } from "./settings.js";
import { make } from "./parts.js";

const STEPS = [0.1, 0.25, 0.5, 1, 2, 5, 10, 15, 30, 60];
const dark = matchMedia("(prefers-color-scheme: dark)");
let coming = null;

// Leaflet, or null where there is none.
function leaflet() {
  if (!LEAFLET) return Promise.resolve(null);
  coming ??= new Promise((done) => {
    const style = make("link", { rel: "stylesheet", href: `${LEAFLET}leaflet.css` });
    const script = make("script", { src: `${LEAFLET}leaflet.js`, onload: () => done(window.L ?? null), onerror: () => done(null) });
    style.addEventListener("load", () => document.head.append(script));
    style.addEventListener("error", () => done(null));
    document.head.append(style);
  });
  return coming;
}

const degrees = (at, signs) => `${Math.abs(Number(at.toFixed(2)))}°${at > 0 ? signs[0] : at < 0 ? signs[1] : ""}`;

// Lines of latitude and longitude, with what they are at the left and lower edge.
function graticule(L, map) {
  const layer = L.layerGroup().addTo(map);
  map.createPane("grid").style.zIndex = "250";
  const renderer = L.svg({ padding: 0.5, pane: "grid" });
  const line = (points) => L.polyline(points, { renderer, className: "grid", interactive: false }).addTo(layer);
  const text = (place, words, side) => {
    const icon = L.divIcon({ className: `degrees ${side}`, html: make("span", {}, words), iconSize: [0, 0] });
    L.marker(place, { icon, interactive: false, keyboard: false }).addTo(layer);
  };
  const lines = () => {
    layer.clearLayers();
    // The lines are sixty pixels apart at least.
    const step = STEPS.find((it) => it * 256 * 2 ** map.getZoom() / 360 >= 60) ?? 90;
    const bounds = map.getBounds();
    const [south, north] = [Math.max(bounds.getSouth(), -85), Math.min(bounds.getNorth(), 85)];
    const [west, east] = [Math.max(bounds.getWest(), -180), Math.min(bounds.getEast(), 180)];
    for (let at = Math.ceil(south / step) * step; at <= north; at += step) {
      line([[at, -180], [at, 180]]);
      text([at, bounds.getWest()], degrees(at, "NS"), "left");
    }
    for (let at = Math.ceil(west / step) * step; at <= east; at += step) {
      line([[-85, at], [85, at]]);
      if (map.latLngToContainerPoint([0, at]).x < map.getSize().x - 40) text([bounds.getSouth(), at], degrees(at, "EW"), "below");
    }
  };
  map.on("moveend", lines);
}

const colours = () => ({ color: dark.matches ? "#cfe3f3" : "#0d2c42", fillColor: dark.matches ? "#69b1e4" : "#1f6ea8" });

// A map in this place, on which `show` puts points.
export async function mapIn(where) {
  const L = await leaflet();
  if (!L) return null;
  where.hidden = false;
  const map = L.map(where, { preferCanvas: true, worldCopyJump: true, zoomSnap: 0.5, minZoom: 0, attributionControl: Boolean(ATTRIBUTION) });
  map.attributionControl?.setPrefix(false);
  map.setView([20, 0], 1).zoomControl.setPosition("topright");
  if (TILES) L.tileLayer(TILES, { attribution: ATTRIBUTION, maxZoom: 18 }).addTo(map);
  graticule(L, map);
  const points = L.featureGroup().bindTooltip((point) => make("span", {}, point.options.text)).addTo(map);
  points.on("click", ({ layer }) => layer.options.chosen?.());
  dark.addEventListener("change", () => points.setStyle(colours()));
  // The bounds that are still to be shown, once the map is seen.
  let bounds = null;
  const fit = () => {
    map.invalidateSize({ animate: false });
    if (!bounds || !where.clientWidth) return;
    if (bounds.isValid()) map.fitBounds(bounds.pad(0.1), { maxZoom: 8, animate: false });
    else map.fire("moveend");
    bounds = null;
  };
  new ResizeObserver(fit).observe(where);
  return {
    // Points with a place, a radius in pixels, a text, and what a click does.
    show(all) {
      points.clearLayers();
      const placed = all.filter(({ latitude, longitude }) => latitude !== null && longitude !== null);
      bounds = L.latLngBounds(placed.map(({ latitude, longitude }) => [latitude, longitude]));
      fit();
      const look = { weight: 1, fillOpacity: 0.7, ...colours() };
      for (const { latitude, longitude, ...more } of placed) points.addLayer(L.circleMarker([latitude, longitude], { ...look, ...more }));
    },
  };
}
