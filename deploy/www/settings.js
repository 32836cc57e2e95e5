// What the operator of the page may change.

// The folder of Leaflet (Debian's libjs-leaflet, by deploy/nginx.conf), or "" for no map.
export const LEAFLET = "/leaflet/";

// The address of map tiles, as "https://tiles.example.org/{z}/{x}/{y}.png", or "" for none. Its host has to be named in the policy
// of deploy/nginx.conf too, by img-src.
export const TILES = "";

// What is said of the tiles on the map.
export const ATTRIBUTION = "";
