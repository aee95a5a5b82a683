// A text with line numbers: a textarea over the same text in colours.
const TOKENS = new RegExp([
  String.raw`(?<comment>\/\/[^\n]*|\/\*[\s\S]*?(?:\*\/|$))`,
  String.raw`(?<string>"(?:\\[\s\S]|[^"\\])*"?|\x60[^\x60]*\x60?|'(?:\\.|[^'\\\n])+')`,
  String.raw`(?<word>\b(?:let|const|fn|if|else|for|in|while|loop|do|until|break|continue|return|throw|try|catch|switch|this|true|false|private|import|export|as)\b)`,
  String.raw`(?<number>\b\d[\w.]*)`,
].join("|"), "g");

export function element(name, kind, text) {
  const made = document.createElement(name);
  if (kind) made.className = kind;
  if (text !== undefined) made.textContent = text;
  return made;
}

/// The pieces of a text, each with its class and its text, line by line.
function piecesOf(text, has_colours) {
  const lines = [[]];
  const add = (kind, part) => part.split("\n").forEach((piece, at) => {
    if (at > 0) lines.push([]);
    if (piece) lines[lines.length - 1].push([kind, piece]);
  });
  let before = 0;
  if (has_colours) {
    for (const match of text.matchAll(TOKENS)) {
      add("", text.slice(before, match.index));
      add(Object.keys(match.groups).find((kind) => match.groups[kind] !== undefined), match[0]);
      before = match.index + match[0].length;
    }
  }
  add("", text.slice(before));
  return lines;
}

/// Marks what begins at a column, which counts characters from 1.
function underlined(pieces, column) {
  let left = column - 1;
  const marked = [];
  for (const [kind, text] of pieces) {
    const characters = [...text];
    if (left >= 0 && left < characters.length) {
      const word = characters.slice(left).join("").match(/^(\w+|\W)/u)[0];
      const before = characters.slice(0, left).join("");
      if (before) marked.push([kind, before]);
      marked.push([kind + " wrong", word]);
      const behind = text.slice(before.length + word.length);
      if (behind) marked.push([kind, behind]);
    } else {
      marked.push([kind, text]);
    }
    left -= characters.length;
  }
  if (left >= 0) marked.push(["wrong", " "]);
  return marked;
}

export class Editor {
  /// `parts` has the elements: text, shown, gutter, root.
  constructor(parts, options) {
    Object.assign(this, parts);
    this.options = options;
    this.breakpoints = new Set();
    this.now = 0;
    this.error = null;
    this.painted = null;
    this.pieces = [];
    this.text.addEventListener("input", () => { this.paint(); options.onEdit(); });
    this.gutter.addEventListener("click", (event) => {
      const line = Number(event.target.dataset?.line);
      if (line) this.toggle(line);
    });
  }

  get value() { return this.text.value; }

  set value(text) {
    this.text.value = text;
    this.breakpoints.clear();
    this.painted = null;
    this.show(0, null);
    this.root.scrollTop = 0;
  }

  /// Shows a line as the one that runs, and an error at its column.
  show(now, error) {
    const before = [this.now, this.error?.line];
    this.now = now;
    this.error = error?.line ? error : null;
    if (this.painted === this.value) for (const line of new Set([...before, this.now, this.error?.line])) this.repaint(line);
    else this.paint();
    // (in a frame, all is laid out anyway)
    if (now || this.error) requestAnimationFrame(() => this.reveal());
  }

  /// Scrolls to the line of the error, or to the one that runs.
  reveal() {
    const line = this.shown.children[(this.error?.line ?? this.now) - 1];
    if (!line) return;
    const { scrollTop, clientHeight } = this.root;
    const top = line.offsetTop;
    if (top < scrollTop + 20) this.root.scrollTop = Math.max(0, top - 40);
    else if (top + 40 > scrollTop + clientHeight) this.root.scrollTop = top + 60 - clientHeight;
  }

  /// Paints all lines, as after an edit.
  paint() {
    this.painted = this.value;
    this.pieces = piecesOf(this.value, this.options.hasColours);
    this.shown.replaceChildren(...this.pieces.map((_, at) => this.line(at + 1)));
    this.gutter.replaceChildren(...this.pieces.map((_, at) => this.number(at + 1)));
  }

  /// Paints one line again, if there is such a line.
  repaint(line) {
    if (!this.pieces[line - 1]) return;
    this.shown.children[line - 1].replaceWith(this.line(line));
    this.gutter.children[line - 1].replaceWith(this.number(line));
  }

  line(number) {
    const pieces = this.pieces[number - 1], isWrong = this.error?.line === number;
    const made = element("span", number === this.now ? "line now" : "line");
    const marked = isWrong ? underlined(pieces, this.error.column) : pieces;
    made.append(...marked.map(([kind, text]) => (kind ? element("span", kind, text) : text)));
    return made;
  }

  number(line) {
    const button = element("button", line === this.now ? "now" : "", String(line));
    button.dataset.line = line;
    button.tabIndex = -1;
    if (this.options.onBreakpoint) {
      button.setAttribute("aria-pressed", this.breakpoints.has(line));
      button.setAttribute("aria-label", `Breakpoint on line ${line}`);
    }
    return button;
  }

  toggle(line) {
    if (!this.options.onBreakpoint) return;
    if (!this.breakpoints.delete(line)) this.breakpoints.add(line);
    this.repaint(line);
    this.options.onBreakpoint();
  }

  /// The line of the caret.
  caretLine() {
    return this.value.slice(0, this.text.selectionStart).split("\n").length;
  }
}
