// Where the parts of a drawing stand, and the arrows between them.
import { svg } from "./patch.js";
import { hue } from "./texts.js";

export const ROW = 20;

/// Places groups in the first column and each cell one column right of the first that holds it.
export function placed(drawing, groups, gap) {
  const boxes = groups.map((group) => drawing.group(group));
  let wide = Math.max(40, ...boxes.map((box) => box.wide));
  let y = 4;
  const items = boxes.map((box) => {
    const item = { box, x: 4, y, wide, column: 0 };
    y += box.high + 14;
    return item;
  });
  const known = new Map();
  let from = items, x = 4;
  for (let column = 1; from.length > 0; column += 1) {
    const wanted = new Map();
    for (const item of from) {
      for (const port of item.box.ports) {
        if (known.has(port.cell) || !(String(port.cell) in drawing.picture.cells)) continue;
        wanted.set(port.cell, [...(wanted.get(port.cell) ?? []), item.y + port.y]);
      }
    }
    x += wide + gap;
    from = [...wanted].map(([cell, places]) => ({ box: drawing.cell(cell), want: places.reduce((sum, one) => sum + one, 0) / places.length }))
      .sort((one, other) => one.want - other.want);
    wide = Math.max(0, ...from.map((item) => item.box.wide));
    let free = 4;
    for (const item of from) {
      Object.assign(item, { x, y: Math.max(free, item.want - ROW), wide: item.box.wide, column });
      free = item.y + item.box.high + 16;
      known.set(item.box.number, item);
      items.push(item);
    }
  }
  return { items, known };
}

function rounded(points) {
  const [first, ...rest] = points;
  let path = `M${first[0]} ${first[1]}`;
  rest.forEach(([x, y], at) => {
    const next = rest[at + 1], before = points[at];
    if (!next) { path += `L${x} ${y}`; return; }
    const near = (to) => {
      const far = Math.hypot(to[0] - x, to[1] - y) || 1, step = Math.min(9, far / 2) / far;
      return `${x + (to[0] - x) * step} ${y + (to[1] - y) * step}`;
    };
    path += `L${near(before)}Q${x} ${y} ${near(next)}`;
  });
  return path;
}

/// An arrow from a holder to its cell: to the right, or around as a loop.
export function arrow(item, port, target, loops, low) {
  const x = item.x + port.x, y = item.y + port.y, right = item.x + item.wide;
  const isForward = target.column > item.column;
  let path, tip;
  if (isForward) {
    const aim = target.y + Math.min(target.box.high / 2, ROW / 2 + 1 + 3 * (target.met++ % 4));
    const bend = (target.x - right) / 2;
    tip = [target.x, aim, 1];
    path = `M${x} ${y}L${right} ${y}C${right + bend} ${y} ${target.x - bend} ${aim} ${target.x - 7} ${aim}`;
  } else {
    const side = target.x + target.wide, aim = target.y + ROW / 2 + 1;
    const turn = right + 16 + 5 * (loops.count % 6), lane = Math.max(side, target.column === item.column ? right : 0) + 16 + 5 * (loops.count % 6);
    tip = [side, aim, -1];
    if (target.column === item.column) path = rounded([[x, y], [lane, y], [lane, aim], [side + 7, aim]]);
    else {
      const bottom = low + 12 + 8 * loops.count;
      loops.low = Math.max(loops.low, bottom);
      path = rounded([[x, y], [turn, y], [turn, bottom], [lane, bottom], [lane, aim], [side + 7, aim]]);
    }
    loops.right = Math.max(loops.right, turn, lane);
    loops.count += 1;
  }
  const [tx, ty, way] = tip;
  return svg("g", { class: `arrow ${hue(port.cell)}${isForward ? "" : " loop"}`, "data-cell": port.cell }, svg("path", { d: path, class: "edge" }),
    svg("path", { d: `M${tx} ${ty}l${-8 * way} -4.5v9z`, class: "head" }));
}

