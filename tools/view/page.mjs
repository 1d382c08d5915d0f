// The page of labelled records that tools/page writes.
import { Gallery, byId } from "./gallery.mjs";

const [settings, entries] = ["settings", "records"].map((id) => JSON.parse(byId(id).textContent));
const gallery = new Gallery(settings), { records } = gallery;
gallery.add(entries);
// Once the first cards are painted, how long that took can be read off the page.
requestAnimationFrame(() => setTimeout(() => { document.body.dataset.opened = Math.round(performance.now()); }));
