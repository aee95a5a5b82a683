// Variables in groups, and the lists of calls, variables and output next to the drawing.
import { element } from "./editor.js";
import { put } from "./patch.js";
import { clean, functionName, hue, plain } from "./texts.js";

const $ = (id) => document.getElementById(id);

/// Groups of rows of a picture, the innermost function first. A key names a variable at every step.
export function groupsOf(picture) {
  if (!picture) return [];
  const rowsOf = (rows, path, isNewestFirst) => {
    const counts = new Map(), ordered = isNewestFirst ? [...rows].reverse() : rows;
    const keyed = ordered.map((row) => {
      const count = (counts.get(row.name) ?? 0) + 1;
      counts.set(row.name, count);
      return { ...row, count, key: `${path}/${row.name}/${count}` };
    });
    for (const row of keyed) row.hidden = row.count < counts.get(row.name);
    return keyed;
  };
  if (picture.calls) {
    const all = picture.allCalls;
    return picture.calls.map((one, at) => ({ title: callName(one), path: `f${all - at}`, all: one.allRows, rows: rowsOf(one.rows, `f${all - at}`, true) }));
  }
  const groups = [{ title: picture.title ?? "variables", path: "f1", all: picture.allRows ?? 0, rows: rowsOf(picture.rows ?? [], "f1", false) }];
  if (picture.allOpenMarks > 0) {
    const rows = picture.openMarks.map((value, at) => ({ name: String(at), value, key: `open mark/${at}`, mark: "open" }));
    groups.push({ title: "marks", path: "open mark", all: picture.allOpenMarks, rows });
  }
  if (picture.allHand > 0) {
    const rows = picture.hand.map((value, at) => ({ name: String(at), value, key: `hand/${at}`, mark: picture.handMarks[at] }));
    groups.push({ title: "hand", path: "hand", all: picture.allHand, rows });
  }
  return groups;
}

export function callName(one) {
  return one.name === "" ? "the script" : functionName(one.name);
}

/// A value as text, with what its cell holds behind a dot.
function textOf(value, picture, level) {
  const parts = [];
  if (value.const) parts.push("const ");
  if (value.k === "cell") {
    parts.push(element("span", `dot ${hue(value.n)}`));
    const content = picture.cells[value.n];
    return level > 3 || !content ? [...parts, `cell ${value.n}`] : [...parts, ...textOf(content, picture, level + 1)];
  }
  const own = plain(value);
  if (own !== null) return [...parts, clean(own)];
  const [open, close] = value.k === "map" ? ["#{", "}"] : value.k === "fn" ? [`${functionName(value.s)}(`, ")"] : ["[", "]"];
  parts.push(open);
  for (const [at, item] of value.of.slice(0, level > 2 ? 0 : 8).entries()) {
    if (at > 0) parts.push(", ");
    if (value.k === "map") parts.push(`${clean(value.keys[at])}: `);
    parts.push(...textOf(item, picture, level + 1));
  }
  return [...parts, value.n > 8 || level > 2 ? ` .. ${value.n}` : "", close];
}

/// The lists, which change only where they have to.
export class Lists {
  constructor(onCall) {
    this.onCall = onCall;
    this.named = "";
    this.lines = new Map();
    this.printed = [];
  }

  /// Lists the active functions, with the chosen one marked.
  showCalls(list, chosen) {
    $("calls").hidden = list.length === 0;
    $("no-calls").hidden = list.length > 0;
    const names = list.map((one) => `${callName(one)}, line ${one.line}`);
    const named = JSON.stringify([names, chosen]);
    if (named === this.named) return;
    this.named = named;
    $("calls").replaceChildren(...names.map((name, at) => {
      const button = element("button", "", name);
      button.setAttribute("role", "option");
      button.setAttribute("aria-selected", at === chosen);
      button.addEventListener("click", () => this.onCall(at));
      return button;
    }));
  }

  showVariables(group, picture, changed) {
    const rows = group ? (picture.calls ? [...group.rows].reverse() : group.rows) : [];
    const before = this.lines;
    this.lines = new Map(rows.map((row) => {
      const kind = `${changed.has(row.key) ? "changed" : ""} ${row.hidden ? "hidden" : ""}`;
      const sign = JSON.stringify([kind, row.value]);
      const known = before.get(row.key);
      // (what a cell holds isn't in the sign)
      const isSame = known?.sign === sign && !sign.includes('"k":"cell"');
      return [row.key, isSame ? known : { sign, line: lineOf(row, kind, picture) }];
    }));
    put($("variables").tBodies[0], [...this.lines.values()].map((one) => one.line));
  }

  /// Shows what was printed; after a step that is mostly what was there, and some lines more.
  showPrinted(lines) {
    const out = $("printed"), had = this.printed.length;
    const isMore = lines.length >= had && this.printed.every((line, at) => line === lines[at]);
    if (isMore && lines.length === had) return;
    const more = lines.slice(isMore ? had : 0).join("\n");
    if (isMore && had > 0) out.append(`\n${more}`); else out.textContent = more;
    this.printed = [...lines];
    out.scrollTop = out.scrollHeight;
  }
}

function lineOf(row, kind, picture) {
  const line = element("tr", kind);
  const name = element("th", "", clean(row.name)), value = element("td");
  name.scope = "row";
  value.append(...textOf(row.value, picture, 0));
  value.title = value.textContent;
  line.append(name, value);
  return line;
}
