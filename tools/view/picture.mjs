// The drawing of a record with its letters.
import { fixed, shape } from "./elements.mjs";
import { isSmall, numbersOf } from "./records.mjs";
import { RANKS } from "./rules.mjs";

const BADGE = 19;

// The classes by which style sheets colour the elements; S and P are letters of labels too.
const COLOURED = new Map([["S", "Su"], ["P", "Ph"], ["D", "H"], ["T", "H"]]);
for (const symbol of ["C", "N", "O", "F", "Cl", "Br", "I", "B", "Si", "H"]) COLOURED.set(symbol, symbol);
export function colour(symbol) { return COLOURED.get(symbol) || "other"; }

export class Picture {
  constructor(record) {
    this.record = record;
    this.atoms = record.atoms.map((atom) => ({ ...atom, near: [] }));
    this.bonds = record.bonds;
    this.badges = new Map();
    for (const bond of this.bonds) {
      this.atoms[bond.first].near.push(bond.second);
      this.atoms[bond.second].near.push(bond.first);
    }
    for (const atom of this.atoms) {
      const plain = atom.charge === 0 && atom.isotope === 0 && atom.radical === 0;
      atom.shown = atom.symbol !== "C" || atom.near.length === 0 || !plain;
      const right = atom.near.reduce((sum, near) => sum + this.atoms[near].x - atom.x, 0);
      atom.toLeft = right > 4;
      const isEndHydrogen = atom.symbol === "H" && atom.near.length === 1;
      atom.bare = record.isInSpace && isEndHydrogen && this.atoms[atom.near[0]].symbol === "C";
    }
    this.taken = [];
    this.points = this.obstacles();
  }

  obstacles() {
    const points = this.atoms.filter((atom) => !atom.bare).map((atom) => [atom.x, atom.y, atom.shown ? 4 : 0]);
    for (const atom of this.atoms) {
      if (atom.shown && atom.hydrogens) points.push([atom.x + (atom.toLeft ? -13 : 13), atom.y, 6]);
    }
    for (const bond of this.bonds) {
      const a = this.atoms[bond.first], b = this.atoms[bond.second];
      if (a.bare || b.bare) continue;
      for (const part of [0.25, 0.5, 0.75]) points.push([a.x + (b.x - a.x) * part, a.y + (b.y - a.y) * part, 0]);
    }
    return points;
  }

  // The free place beside a point: of sixteen around it, that farthest from all else.
  beside(x, y, radius, width) {
    let best = null, most = -Infinity;
    for (let turn = 0; turn < 16; turn++) {
      const angle = (turn * Math.PI) / 8;
      const px = x + Math.cos(angle) * (radius + width), py = y + Math.sin(angle) * radius;
      let least = Infinity;
      for (const [ox, oy, more] of this.points) {
        if (Math.abs(ox - px) < 60 && Math.abs(oy - py) < 60) {
          least = Math.min(least, Math.hypot(Math.max(0, Math.abs(ox - px) - width), oy - py) - more);
        }
      }
      for (const [ox, oy, other] of this.taken) {
        least = Math.min(least, Math.hypot(Math.max(0, Math.abs(ox - px) - width - other), oy - py) - 9);
      }
      if (least > most + 0.01) { most = least; best = [px, py]; }
    }
    this.taken.push([best[0], best[1], width]);
    return best;
  }

  drawn() {
    const xs = this.atoms.map((atom) => atom.x), ys = this.atoms.map((atom) => atom.y);
    const left = Math.min(...xs) - 34, top = Math.min(...ys) - 30;
    const width = Math.max(...xs) - left + 34, height = Math.max(...ys) - top + 30;
    const svg = shape("svg", { viewBox: [left, top, width, height].map(fixed).join(" "), width, height, role: "img" });
    svg.setAttribute("aria-label", "Drawing of " + (this.record.name || "a record without a name"));
    for (const bond of this.bonds) this.drawBond(svg, bond);
    for (const unit of this.record.open) this.drawOpen(svg, unit);
    for (const atom of this.atoms) this.drawAtom(svg, atom);
    for (const unit of [...this.record.labels, ...this.record.further]) this.drawBadge(svg, unit, unit.letter);
    for (const unit of this.record.over) this.drawBadge(svg, unit, "over");
    return svg;
  }

  // The ends of a bond's line, short of the symbols.
  ends(bond) {
    const a = this.atoms[bond.first], b = this.atoms[bond.second];
    const long = Math.hypot(b.x - a.x, b.y - a.y) || 1, ux = (b.x - a.x) / long, uy = (b.y - a.y) / long;
    const cut = (atom) => (atom.shown && long > 22 ? (atom.symbol.length > 1 ? 10 : 8) : 0);
    return { x1: a.x + ux * cut(a), y1: a.y + uy * cut(a), x2: b.x - ux * cut(b), y2: b.y - uy * cut(b), ux, uy, a, b };
  }

  // A line between two places, each half in the colour of its atom.
  line(group, ends, offset, inset, dashed) {
    const { ux, uy, a, b } = ends, dx = -uy * offset, dy = ux * offset;
    const x1 = ends.x1 + dx + ux * inset, y1 = ends.y1 + dy + uy * inset;
    const x2 = ends.x2 + dx - ux * inset, y2 = ends.y2 + dy - uy * inset;
    const mx = (x1 + x2) / 2, my = (y1 + y2) / 2;
    const halves = colour(a.symbol) === colour(b.symbol)
      ? [[x1, y1, x2, y2, a]] : [[x1, y1, mx, my, a], [mx, my, x2, y2, b]];
    for (const [fromX, fromY, toX, toY, atom] of halves) {
      const made = shape("line", { class: "bond " + colour(atom.symbol), x1: fromX, y1: fromY, x2: toX, y2: toY });
      if (dashed) made.setAttribute("stroke-dasharray", "4 3");
      group.append(made);
    }
  }

  // The side of a double bond at which more neighbours stand: 1, -1, or 0 where neither has more.
  side(bond) {
    const a = this.atoms[bond.first], b = this.atoms[bond.second];
    if (a.near.length === 1 || b.near.length === 1) return 0;
    let sum = 0;
    for (const [atom, other] of [[a, bond.second], [b, bond.first]]) {
      for (const near of atom.near) {
        if (near === other) continue;
        const it = this.atoms[near];
        sum += Math.sign((b.x - a.x) * (it.y - a.y) - (b.y - a.y) * (it.x - a.x));
      }
    }
    return Math.sign(sum);
  }

  drawBond(svg, bond) {
    const ends = this.ends(bond);
    const group = shape("g", ends.a.bare || ends.b.bare ? { class: "hydrogen" } : {});
    if (bond.order === 2 && bond.mark === 4) this.drawCrossed(group, ends);
    else if (bond.order === 2) this.drawDouble(group, ends, this.side(bond));
    else if (bond.order === 3) for (const offset of [-4, 0, 4]) this.line(group, ends, offset, 0);
    else if (bond.order === 4) this.drawAromatic(group, ends, this.side(bond) || 1);
    else if (bond.order !== 1) this.line(group, ends, 0, 0, true);
    else if (bond.mark === 1) this.drawWedge(group, ends);
    else if (bond.mark === 6) this.drawHashed(group, ends);
    else if (bond.mark === 4) this.drawWave(group, ends);
    else this.line(group, ends, 0, 0);
    svg.append(group);
  }

  drawDouble(group, ends, side) {
    if (side === 0) {
      this.line(group, ends, -2.4, 0);
      this.line(group, ends, 2.4, 0);
    } else {
      this.line(group, ends, 0, 0);
      this.line(group, ends, 4.6 * side, 4.2);
    }
  }

  drawAromatic(group, ends, side) {
    this.line(group, ends, 0, 0);
    this.line(group, ends, 4.5 * side, 4, true);
  }

  drawCrossed(group, ends) {
    const { x1, y1, x2, y2, ux, uy } = ends;
    for (const turn of [3, -3]) {
      const dx = -uy * turn, dy = ux * turn;
      group.append(shape("line", { class: "bond C", x1: x1 + dx, y1: y1 + dy, x2: x2 - dx, y2: y2 - dy }));
    }
  }

  drawWedge(group, { x1, y1, x2, y2, ux, uy }) {
    const points = [[x1, y1], [x2 - uy * 4.6, y2 + ux * 4.6], [x2 + uy * 4.6, y2 - ux * 4.6]];
    const text = points.map((point) => point.map(fixed).join(",")).join(" ");
    group.append(shape("polygon", { class: "wedge", points: text }));
  }

  drawHashed(group, { x1, y1, x2, y2, ux, uy }) {
    let path = "";
    const long = Math.hypot(x2 - x1, y2 - y1), count = Math.max(4, Math.round(long / 4));
    for (let step = 1; step <= count; step++) {
      const part = step / count, x = x1 + (x2 - x1) * part, y = y1 + (y2 - y1) * part, half = 0.7 + 4 * part;
      path += `M${fixed(x - uy * half)} ${fixed(y + ux * half)}L${fixed(x + uy * half)} ${fixed(y - ux * half)}`;
    }
    group.append(shape("path", { class: "hash", d: path }));
  }

  drawWave(group, { x1, y1, x2, y2, ux, uy }) {
    let path = `M${fixed(x1)} ${fixed(y1)}`;
    const long = Math.hypot(x2 - x1, y2 - y1), count = Math.max(4, Math.round(long / 5));
    for (let step = 0; step < count; step++) {
      const middle = ((step + 0.5) / count) * long, end = ((step + 1) / count) * long, turn = step % 2 ? 5 : -5;
      const bent = [x1 + ux * middle - uy * turn, y1 + uy * middle + ux * turn], to = [x1 + ux * end, y1 + uy * end];
      path += "Q" + [...bent, ...to].map(fixed).join(" ");
    }
    group.append(shape("path", { class: "wave", d: path }));
  }

  drawAtom(svg, atom) {
    if (!atom.shown) return;
    const group = shape("g", atom.bare ? { class: "hydrogen" } : {});
    this.drawSymbol(group, atom);
    svg.append(group);
  }

  // The numbers of atoms, once they are asked for.
  drawNumbers(svg) {
    if (!this.numbered) this.atoms.forEach((atom, place) => this.drawNumber(svg, atom, place));
    this.numbered = true;
  }

  drawNumber(svg, atom, place) {
    if (atom.bare) return;
    const text = String(place + 1), kept = this.taken.length;
    const [x, y] = this.beside(atom.x, atom.y, atom.shown ? 14 : 10, text.length * 2);
    this.taken.length = kept;
    svg.append(shape("text", { class: "place", x, y: y + 3.2 }, text));
  }

  // The symbol in the middle, its hydrogens at the freer side, charge and radical behind, the isotope before.
  drawSymbol(group, atom) {
    const kind = "atom " + colour(atom.symbol), half = atom.symbol.length * 4.8 + 0.6, y = atom.y + 5.3;
    const toLeft = atom.toLeft;
    const wide = atom.hydrogens > 1 ? 19 : atom.hydrogens ? 12 : 0;
    const anchor = toLeft ? "end" : "start";
    group.append(shape("text", { class: kind, x: atom.x, y, "text-anchor": "middle" }, atom.symbol));
    if (atom.hydrogens) {
      const text = shape("text", { class: kind, x: atom.x + (toLeft ? -half : half), y, "text-anchor": anchor });
      text.append(shape("tspan", {}, "H"));
      if (atom.hydrogens > 1) text.append(shape("tspan", { class: "script", dy: "4" }, String(atom.hydrogens)));
      group.append(text);
    }
    const raised = { class: kind + " script", y: atom.y - 3 };
    const charge = chargeText(atom.charge) + (atom.radical ? "•" : "");
    const behind = atom.x + half + (toLeft ? 0 : wide), before = atom.x - half - (toLeft ? wide : 0);
    if (charge) group.append(shape("text", { ...raised, x: behind }, charge));
    if (atom.isotope) group.append(shape("text", { ...raised, x: before, "text-anchor": "end" }, String(atom.isotope)));
  }

  middle({ ends }) {
    const atoms = ends.map((place) => this.atoms[place]).filter(Boolean);
    return ["x", "y"].map((way) => atoms.reduce((sum, atom) => sum + atom[way], 0) / atoms.length);
  }

  // The letter of a unit with its atoms; of a centre in a racemic or relative group both letters, and the group.
  drawBadge(svg, unit, letter) {
    const [x, y] = this.middle(unit), group = this.record.groups.get(unit.unit);
    if (Number.isNaN(x)) return;
    const shownLetter = group && group.isOpen ? `${group.letter}/${group.other}` : letter;
    const place = numbersOf(unit) + (group && group.isOpen ? " " + group.sign : "");
    const half = shownLetter.length * 4.1 + place.length * 2.8 + 4.5;
    const isShown = unit.ends.length === 1 && this.atoms[unit.ends[0]].shown;
    const [px, py] = this.beside(x, y, isShown ? BADGE + 3 : BADGE - 1, half - 8);
    const kind = letter + (letter !== "over" && isSmall(letter) ? " small" : "");
    const text = shape("text", { class: "pilltext " + kind, x: px, y: py + 4.3 }, shownLetter);
    text.append(shape("tspan", { class: "pillplace", dx: 2.5 }, place));
    const box = { x: px - half, y: py - 8, width: 2 * half, height: 16, rx: 8 };
    const badge = shape("g", { class: "badge" }, shape("rect", { class: "pill " + kind, ...box }), text);
    this.badges.set(unit.unit, badge);
    svg.append(badge);
  }

  // A circle around a unit whose sense isn't drawn, dashed where its ligands tie as long as others aren't drawn.
  drawOpen(svg, unit) {
    const [x, y] = this.middle(unit);
    if (!Number.isNaN(x)) svg.append(shape("circle", { class: "open " + unit.state, cx: x, cy: y, r: 9.5 }));
  }

  // What is lit up for a unit: rings around its atoms, and its ligands with their ranks.
  lighting({ ends, order }) {
    const group = shape("g", { class: "lighting" });
    for (const place of ends) {
      const atom = this.atoms[place];
      if (atom) group.append(shape("circle", { class: "ring", cx: atom.x, cy: atom.y, r: 12 }));
    }
    (order || []).forEach((ligands, side) => {
      this.lightEnd(group, ligands, this.atoms[ends[Math.min(side, ends.length - 1)]]);
    });
    return group;
  }

  lightEnd(group, ligands, root) {
    if (!root) return;
    const kept = this.taken.length;
    ligands.forEach((name, place) => {
      const rank = "rank" + (place + 1), atom = this.atoms[Number(name) - 1];
      let x, y;
      if (atom) [x, y] = [atom.x, atom.y];
      else {
        [x, y] = this.beside(root.x, root.y, 27, 0);
        group.append(shape("circle", { class: "unseen", cx: x, cy: y, r: 9 }));
        group.append(shape("text", { class: "unseentext", x, y: y + 4 }, name));
        x += 10; y -= 8;
      }
      group.append(shape("circle", { class: "disc " + rank, cx: x, cy: y, r: 8.5 }));
      group.append(shape("text", { class: "digit " + rank, x, y: y + 4 }, RANKS[place]));
    });
    this.taken.length = kept;
  }
}

function chargeText(charge) {
  const sign = charge > 0 ? "+" : "−", size = Math.abs(charge);
  return size === 0 ? "" : size === 1 ? sign : size + sign;
}
