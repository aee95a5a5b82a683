// Draws a world: variables as rows, values as nested boxes, each cell once, and an arrow from each
// of its holders.
import { made, svg } from "./patch.js";
import { ROW, arrow, placed } from "./places.js";
import { called, clean, hue, inline, label } from "./texts.js";

const PAD = 5;
const FEW = 6;
const DEEP = 4;

const pen = document.createElement("canvas").getContext("2d");
pen.font = "12px monospace";
const SIGN = pen.measureText("0").width;

/// The width of a text; all plain signs have the same.
function width(text) {
  return /^[ -~]*$/.test(text) ? SIGN * text.length : pen.measureText(text).width;
}

function write(x, y, kind, text) {
  return svg("text", { x, y: y + 14, class: kind }, clean(text));
}

/// A drawing in the making: which values are unfolded, and the places of holders.
class Drawing {
  constructor(picture, unfolded) {
    this.picture = picture;
    this.unfolded = unfolded;
  }

  /// A box of a value: its size, its holders with their places in it, and how it is painted.
  box(value, path, level) {
    if (value.k === "cell") return this.holder(value);
    const text = inline(value);
    if (text !== null) {
      const isClosed = value.k === "closed";
      const cut = text.length > 60 ? text.slice(0, 58) + ".." : text;
      const wide = width(clean(cut)) + 2 * PAD;
      return { wide, high: ROW, ports: [], paint: (x, y) => svg("g", {}, svg("title", {}, clean(text)),
        isClosed ? svg("rect", { x: x + 1, y: y + 2, width: wide - 2, height: ROW - 4, rx: 3, class: "closed" }) : "",
        write(x + PAD, y, value.k, cut)) };
    }
    return this.container(value, path, level);
  }

  holder(value) {
    const isDrawn = String(value.n) in this.picture.cells;
    const text = label(value) + (isDrawn ? "" : `cell ${value.n}`);
    const wide = width(text) + 2 * PAD + 12;
    return { wide, high: ROW, ports: [{ cell: value.n, x: wide - PAD - 5, y: ROW / 2 }], paint: (x, y) =>
      svg("g", { class: `${hue(value.n)} at` }, svg("title", {}, `holds cell ${value.n}`), text ? write(x + PAD, y, "soft", text) : "",
        svg("circle", { cx: x + wide - PAD - 5, cy: y + ROW / 2, r: 5, class: "holder" })) };
  }

  container(value, path, level) {
    const isOpen = this.unfolded.has(path);
    const few = isOpen ? value.of.length : level >= DEEP ? 0 : FEW;
    const shown = value.of.slice(0, value.n - few <= 1 ? value.n : few);
    const keys = shown.map((_, at) => (value.k === "map" ? value.keys[at] : value.k === "fn" ? (value.s.startsWith("anon$") ? "captured" : "curried") : String(at)));
    const inside = shown.map((item, at) => this.box(item, `${path}/${at}`, level + 1));
    const column = Math.max(0, ...keys.map((key) => width(clean(key)))) + 2 * PAD;
    const title = label(value) + (value.k === "fn" ? called(value.s) : `${value.k} of ${value.n}`);
    const more = this.more(value, shown.length, isOpen);
    const wide = Math.max(width(title) + 2 * PAD, column + Math.max(0, ...inside.map((box) => box.wide)) + PAD, more ? width(more) + 2 * PAD + 8 : 0);
    const ports = [];
    let high = ROW;
    const places = inside.map((box) => {
      const y = high;
      ports.push(...box.ports.map((port) => ({ ...port, x: port.x + column, y: port.y + y })));
      high += box.high + 2;
      return y;
    });
    const foot = high;
    if (more) high += ROW;
    return { wide, high: high + 2, ports, paint: (x, y) => svg("g", {},
      svg("rect", { x, y: y + 1, width: wide, height: high, rx: 4, class: "inside" }),
      write(x + PAD, y, "soft", title),
      ...inside.flatMap((box, at) => [write(x + PAD, y + places[at], "soft", keys[at]), box.paint(x + column, y + places[at])]),
      more ? this.fold(more, path, x + PAD, y + foot) : "") };
  }

  /// What stands below the values of a container that aren't all shown.
  more(value, shown, isOpen) {
    const hidden = value.n - shown;
    if (isOpen && shown > FEW) return hidden > 0 ? `fold (${hidden} more)` : "fold";
    return hidden > 0 ? `.. ${hidden} more` : null;
  }

  fold(more, path, x, y) {
    return svg("g", { class: "fold", tabindex: 0, role: "button", "aria-label": more, "data-path": path }, write(x, y, "", more));
  }

  /// A group of rows with a title.
  group(group) {
    const rows = group.rows.map((row) => ({ ...row, box: this.box(row.value, `${group.path}/${row.name}`, 0) }));
    const column = Math.max(20, ...rows.map((row) => width(clean(row.name)))) + 3 * PAD;
    const note = group.all > rows.length ? `.. ${group.all - rows.length} more` : rows.length === 0 ? "none" : "";
    const wide = Math.max(width(group.title) + 2 * PAD, column + Math.max(0, ...rows.map((row) => row.box.wide)) + PAD, width(note) + 2 * PAD);
    const ports = [];
    let high = ROW + 2;
    for (const row of rows) {
      row.y = high;
      ports.push(...row.box.ports.map((port) => ({ ...port, x: port.x + column, y: port.y + high })));
      high += row.box.high + 4;
    }
    const foot = high;
    if (note) high += ROW;
    return { wide, high: high + 2, ports, paint: (x, y, most) => svg("g", {},
      svg("rect", { x, y, width: most, height: high + 2, rx: 6, class: "frame" }),
      write(x + PAD, y, "title", group.title),
      ...rows.map((row) => svg("g", { class: `row${row.changed ? " changed" : ""}${row.hidden ? " hidden" : ""}` },
        svg("rect", { x: x + 1, y: y + row.y, width: 3, height: row.box.high, class: "bar" }),
        write(x + 2 * PAD, y + row.y, "name", row.name), row.box.paint(x + column, y + row.y))),
      note ? write(x + PAD, y + foot, "soft", note) : "") };
  }

  cell(number) {
    const content = this.picture.cells[number];
    const box = this.box(content, `cell ${number}`, 0);
    const isMarked = number < (this.picture.allOpenMarks ?? 0);
    const title = isMarked ? `cell ${number}, marked` : `cell ${number}`;
    const wide = Math.max(box.wide, width(title)) + 2 * PAD;
    return { number, wide, high: box.high + ROW + PAD,
      ports: box.ports.map((port) => ({ ...port, x: port.x + PAD, y: port.y + ROW })), paint: (x, y) =>
        svg("g", { class: `cell ${hue(number)}${isMarked ? " marked" : ""}`, "data-cell": number }, svg("rect", { x, y, width: wide, height: box.high + ROW + PAD, rx: 8 }),
          write(x + 2 * PAD, y + 1, "title", title), box.paint(x + PAD, y + ROW)) };
  }
}

/// Describes a drawing of groups of rows, as `groupsOf` makes them, and of the cells of a picture.
/// Where there is little room it is drawn smaller.
export function draw(picture, groups, unfolded, room) {
  const drawing = new Drawing(picture, unfolded);
  const { items, known } = placed(drawing, groups, room < 500 ? 46 : 76);
  for (const item of items) item.met = 0;
  const low = Math.max(0, ...items.map((item) => item.y + item.box.high));
  const loops = { count: 0, right: 0, low };
  const arrows = items.flatMap((item) => item.box.ports.filter((port) => known.has(port.cell))
    .map((port) => arrow(item, port, known.get(port.cell), loops, low)));
  const wide = Math.ceil(Math.max(loops.right, ...items.map((item) => item.x + item.wide)) + 8);
  const high = Math.ceil(loops.low + 8);
  const about = `${picture.values} values, ${known.size} cells drawn`;
  const size = Math.min(1, Math.max(0.8, room / wide));
  return svg("svg", { class: "world", width: Math.floor(wide * size), height: Math.ceil(high * size), viewBox: `0 0 ${wide} ${high}`,
    role: "group", "aria-label": about }, ...items.map((item) => item.box.paint(item.x, item.y, item.wide)), ...arrows);
}

/// The picture as a file: with its colours, and all texts escaped.
export function file(picture) {
  const copy = picture.cloneNode(true);
  const rules = [...document.styleSheets[0].cssRules].filter((rule) => /^:root|^\.world/.test(rule.selectorText ?? "") || /prefers-color/.test(rule.media?.mediaText ?? ""));
  copy.prepend(made(svg("style", {}, rules.map((rule) => rule.cssText).join("\n") + "\n.world{background:var(--panel)}")));
  for (const fold of copy.querySelectorAll("[tabindex]")) fold.removeAttribute("tabindex");
  return '<?xml version="1.0" encoding="UTF-8"?>\n' + new XMLSerializer().serializeToString(copy);
}
