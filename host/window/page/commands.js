// The tab of commands: lines over one world, and their answers.
import { Editor, element } from "./editor.js";
import { clean } from "./texts.js";
import { groupsOf } from "./values.js";

const $ = (id) => document.getElementById(id);

export class Commands {
  constructor(page) {
    this.page = page;
    this.count = 0;
    this.told = null;
    this.marks = new Map();
    this.changed = new Set();
    this.editor = new Editor({ root: $("line-editor"), text: $("lines"), shown: $("shown-lines"), gutter: $("line-gutter") },
      { hasColours: false, onEdit: () => this.reset() });
    $("run-lines").addEventListener("click", () => this.run(this.all()));
    $("next-line").addEventListener("click", () => this.run(this.next(1)));
    $("previous-line").addEventListener("click", () => this.run(this.next(-1)));
    $("line-gutter").addEventListener("click", (event) => { if (event.target.dataset.line) this.run(Number(event.target.dataset.line)); });
  }

  set value(text) {
    this.editor.value = text;
    this.reset();
  }

  all() { return this.editor.value.split("\n").length; }

  /// The next line in a direction that is a command.
  next(way) {
    const lines = this.editor.value.split("\n");
    let count = this.count + way;
    while (count > 0 && count < lines.length && lines[count - 1] === "") count += way;
    return Math.max(0, Math.min(count, lines.length));
  }

  reset() {
    Object.assign(this, { count: 0, told: null, marks: new Map(), changed: new Set() });
    this.show();
  }

  /// Runs the first lines over a new world.
  async run(count) {
    try {
      const told = await this.ask(count);
      const marks = new Map(groupsOf(told.picture).flatMap((group) => group.rows.map((row) => [row.key, row.mark])));
      this.changed = new Set([...marks.keys()].filter((key) => this.told && marks.get(key) !== this.marks.get(key)));
      Object.assign(this, { told, count, marks });
    } catch (error) {
      this.page.notice(error.message);
    }
    this.show();
  }

  async ask(count) {
    this.page.notice("");
    const told = await this.page.call({ do: "lines", text: this.editor.value, count });
    told.picture.title = "entries";
    return told;
  }

  /// Runs the same lines again, for the items of a value that was unfolded.
  async again() {
    try {
      if (this.told) this.told = await this.ask(this.count);
    } catch (error) {
      this.page.notice(error.message);
    }
    this.show();
  }

  show() {
    if ($("panel-lines").hidden) return;
    this.editor.show(this.count, null);
    const answers = this.told?.answers ?? [];
    $("answers").replaceChildren(...answers.map((answer) => {
      const line = element("div", answer?.refused ? "refused" : "", clean(answer?.s.split("\n", 1)[0] ?? "") + (answer?.s.includes("\n") ? " .." : ""));
      line.title = answer?.s ?? "";
      return line;
    }));
    $("line-count").textContent = this.told ? `after line ${this.count} of ${this.all()}` : "not started";
    $("previous-line").disabled = this.count === 0;
    $("next-line").disabled = this.count >= this.all();
    this.page.world(this.told?.picture, groupsOf(this.told?.picture), this.changed);
  }

  key(event, isEnter) {
    if (isEnter) this.run(this.all());
    else if (event.key === "F8" || event.key === "F10") this.run(this.next(1));
    else if (event.key === "F2") this.run(this.next(-1));
    else return false;
    return true;
  }
}
