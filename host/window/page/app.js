// The page: calls of the server, the tab of the script, and what both tabs share.
import { Commands } from "./commands.js";
import { Editor, element } from "./editor.js";
import { EXAMPLES } from "./examples.js";
import { Canvas } from "./patch.js";
import { clean } from "./texts.js";
import { Lists, callName, groupsOf } from "./values.js";
import { draw, file } from "./world.js";

const $ = (id) => document.getElementById(id);
const page = { token: "", session: null, unfolded: new Set(), picture: null, groups: [], room: 0 };
const run = { begun: false, busy: false, waits: false, stops: false, told: null, printed: [], marks: new Map(), changed: new Set(), frame: 0 };

function token() {
  const given = location.hash.slice(1);
  if (/^[0-9a-f]{32}$/.test(given)) {
    sessionStorage.setItem("token", given);
    history.replaceState(null, "", location.pathname);
  }
  return sessionStorage.getItem("token") ?? "";
}

/// Sets the text of an element, unless it has it: a new text is laid out again.
function write(name, text) {
  if ($(name).textContent !== text) $(name).textContent = text;
}

function notice(text) {
  write("notice", text);
  $("notice").hidden = !text;
}

async function post(what) {
  const headers = { "Content-Type": "application/json", "X-Token": page.token };
  let answer;
  try {
    answer = await fetch("call", { method: "POST", headers, body: JSON.stringify(what) });
  } catch {
    throw new Error("rhai-window doesn't answer: it was ended, or never began.");
  }
  if (answer.ok) return answer.json();
  if (answer.status === 410) page.session = null;
  if (answer.status === 403) throw new Error("This page isn't the one that rhai-window printed: open the whole address, with what is behind #.");
  throw new Error(answer.status === 410 ? "The session has ended. Run begins a new one." : `The call was refused: ${await answer.text()}`);
}

/// Calls the session, which is opened if there is none. It answers with the first items of long
/// values, and with more of those that are unfolded.
async function call(what) {
  if (!page.session) page.session = (await post({ do: "open" })).session;
  const told = await post({ ...what, session: page.session, unfolded: [...page.unfolded] });
  if (told.wrong) throw new Error(told.wrong);
  return told;
}

const editor = new Editor({ root: $("editor"), text: $("script"), shown: $("shown"), gutter: $("gutter") },
  { hasColours: true, onEdit: reset, onBreakpoint: () => {} });
const lists = new Lists((at) => { run.frame = at; show(); });
const canvas = new Canvas($("picture"));

function reset() {
  Object.assign(run, { begun: false, told: null, printed: [], marks: new Map(), changed: new Set() });
  editor.show(0, null);
  show();
}

/// Does what a control asks for, one at a time. The controls show it once it takes long, so that a
/// quick step draws none of them twice.
async function act(work) {
  if (run.busy) { return; }
  Object.assign(run, { busy: true, stops: false });
  document.body.dataset.busy = true;
  const slow = setTimeout(() => { run.waits = true; controls(); }, 150);
  try {
    notice("");
    await work();
  } catch (error) {
    run.begun = false;
    notice(error.message);
    show();
  }
  clearTimeout(slow);
  Object.assign(run, { busy: false, waits: false });
  document.body.dataset.busy = false;
  controls();
}

/// Asks for a goal, and goes on until it is reached or the user stops.
async function goal(what) {
  const breakpoints = [...editor.breakpoints];
  const began = performance.now();
  let told = await call({ ...what, breakpoints });
  while (told.going) {
    take(told);
    if (run.stops) { told = await call({ do: "look" }); break; }
    told = await call({ do: "go", how: "on", breakpoints });
  }
  take(told);
  compare(told);
  show();
  document.body.dataset.took = (performance.now() - began).toFixed(1);
}

function begin() {
  Object.assign(run, { begun: true, printed: [], marks: new Map(), changed: new Set(), frame: 0 });
  return goal({ do: "begin", script: editor.value });
}

function take(told) {
  run.printed.length = Math.min(run.printed.length, told.from);
  for (const line of told.printed) run.printed.push(line);
  run.told = told;
  lists.showPrinted(run.printed);
  controls();
}

/// Notes which variables have other marks than at the last stop.
function compare(told) {
  const marks = new Map();
  run.changed = new Set();
  const isFirst = run.marks.size === 0 && told.step <= 1;
  for (const group of groupsOf(told.picture)) {
    for (const row of group.rows) {
      marks.set(row.key, row.mark);
      if (!isFirst && row.mark && run.marks.get(row.key) !== row.mark) run.changed.add(row.key);
    }
  }
  run.marks = marks;
  run.frame = 0;
}

function show() {
  const { told } = run;
  controls();
  editor.show(told && !told.ended ? told.line : 0, told?.error);
  $("error").hidden = !told?.error;
  write("error", told?.error ? errorText(told.error) : "");
  lists.showPrinted(run.printed);
  const groups = groupsOf(told?.picture);
  lists.showCalls(told?.picture?.calls ?? [], run.frame);
  lists.showVariables(groups[Math.min(run.frame, groups.length - 1)], told?.picture, run.changed);
  if (!$("panel-script").hidden) world(told?.picture, groups, run.changed);
}

function errorText(error) {
  const calls = (error.calls ?? []).slice(0, 8).map((one) => `  in ${callName(one)}, line ${one.line}, column ${one.column}`);
  return [error.message, ...calls].join("\n");
}

function controls() {
  const { told, waits, begun } = run;
  const isOver = Boolean(told?.ended);
  write("run", begun && !isOver ? "Continue" : "Run");
  $("run").disabled = $("back").disabled = waits;
  $("into").disabled = waits || (begun && isOver);
  $("over").disabled = $("out").disabled = waits || !begun || isOver;
  $("back").disabled = waits || !begun || !told || told.step <= 1;
  $("stop").disabled = !waits;
  const steps = $("steps");
  steps.disabled = !begun || !told?.last;
  steps.max = Math.max(1, told?.last ?? 1);
  if (!steps.matches(":active")) steps.value = told?.step ?? 1;
  let text = "not started";
  if (begun && told) text = told.last ? `step ${told.step} of ${told.last}` : "not valid";
  if (begun && isOver && told.last) text += told.error ? ": error" : told.value === "()" ? ": done" : `: ${clean(told.value).slice(0, 24)}`;
  write("step", text);
}

function world(picture, groups, changed) {
  Object.assign(page, { picture, groups });
  $("save").disabled = !picture;
  write("count", picture ? `${picture.values} value${picture.values === 1 ? "" : "s"}` : "");
  if (!picture) { canvas.replace(element("p", "", "The values stand here while a script runs, or after a command.")); return; }
  for (const group of groups) for (const row of group.rows) row.changed = changed.has(row.key);
  const focused = document.activeElement?.dataset?.path;
  canvas.show(draw(picture, groups, page.unfolded, page.room));
  const isLost = focused && document.activeElement?.dataset?.path !== focused;
  if (isLost) $("picture").querySelector(`[data-path="${CSS.escape(focused)}"]`)?.focus();
}

/// Draws again if the room for the drawing is less, or much more. A bar to scroll may take some of
/// it, and give it back, without another drawing.
function fit(room) {
  if (room >= page.room && room < page.room + 20) return;
  page.room = room;
  redraw();
}

function unfold(event) {
  const fold = event.target.closest?.(".fold");
  if (!fold || (event.type === "keydown" && event.key !== "Enter" && event.key !== " ")) return;
  event.preventDefault();
  event.stopPropagation();
  const { path } = fold.dataset;
  const isOpened = !page.unfolded.delete(path);
  if (isOpened) page.unfolded.add(path);
  fold.focus();
  redraw();
  if (isOpened) more();
}

/// Asks for the items of a value that was unfolded.
function more() {
  if ($("panel-script").hidden) commands.again();
  else if (run.begun) act(async () => { take(await call({ do: "look" })); show(); });
}

/// Draws the same picture again, as after a change of the room for it.
function redraw() {
  world(page.picture, page.groups, new Set(page.groups.flatMap((group) => group.rows.filter((row) => row.changed).map((row) => row.key))));
}

function light(event) {
  const cell = event.target.closest?.("[data-cell]")?.dataset.cell;
  for (const arrow of $("picture").querySelectorAll(".arrow")) arrow.classList.toggle("lit", arrow.dataset.cell === cell);
}

function save() {
  const made = URL.createObjectURL(new Blob([file($("picture").querySelector("svg"))], { type: "image/svg+xml" }));
  const link = element("a");
  Object.assign(link, { href: made, download: "world.svg" });
  link.click();
  setTimeout(() => URL.revokeObjectURL(made), 10000);
}

const actions = {
  run: () => act(async () => {
    if (!run.begun || run.told?.ended) {
      await begin();
      if (run.told.ended || run.stops || editor.breakpoints.has(run.told.line)) return;
    }
    await goal({ do: "go", how: "run" });
  }),
  into: () => act(() => (run.begun ? goal({ do: "go", how: "into" }) : begin())),
  over: () => run.begun && act(() => goal({ do: "go", how: "over" })),
  out: () => run.begun && act(() => goal({ do: "go", how: "out" })),
  back: () => run.begun && act(() => goal({ do: "to", step: Math.max(1, run.told.step - (run.told.within ? 0 : 1)) })),
  stop: () => { run.stops = true; },
};

let slid = null;
async function slide() {
  slid = Number($("steps").value);
  while (slid !== null && !run.busy) {
    const step = slid;
    slid = null;
    await act(() => goal({ do: "to", step }));
  }
}

function fragment(text) {
  const bytes = new TextEncoder().encode(text);
  let binary = "";
  for (const byte of bytes) binary += String.fromCharCode(byte);
  return "#" + btoa(binary).replaceAll("+", "-").replaceAll("/", "_").replace(/=+$/, "");
}

async function handOn() {
  const text = fragment(editor.value);
  try {
    await navigator.clipboard.writeText(`rhai-window '${text}'`);
    notice("Copied: the command that opens this script elsewhere. It opens there without running.");
  } catch {
    notice(`rhai-window '${text}'`);
  }
}

const commands = new Commands({ call, world, notice });

function tab(name) {
  for (const one of ["script", "lines"]) {
    const isIt = one === name;
    $(`tab-${one}`).setAttribute("aria-selected", isIt);
    $(`tab-${one}`).tabIndex = isIt ? 0 : -1;
    $(`panel-${one}`).hidden = !isIt;
  }
  $("hand-on").hidden = name !== "script";
  if (name === "script") show(); else commands.show();
}

function example(at) {
  const { about, script, lines } = EXAMPLES[at];
  notice("");
  $("about").textContent = about;
  page.unfolded.clear();
  if (script !== undefined) { editor.value = script; reset(); tab("script"); } else { commands.value = lines; tab("lines"); }
}

const KEYS = { F8: "into", F10: "over", F4: "out", F2: "back", Escape: "stop" };
function key(event) {
  const isScript = !$("panel-script").hidden;
  const isEnter = event.key === "Enter" && (event.ctrlKey || event.metaKey);
  if (!isScript) { if (commands.key(event, isEnter)) event.preventDefault(); return; }
  if (isEnter) actions.run();
  else if (event.key === "F9") editor.toggle(editor.caretLine());
  else if (KEYS[event.key]) actions[KEYS[event.key]]();
  else return;
  event.preventDefault();
}

function listen() {
  for (const name of Object.keys(actions)) $(name).addEventListener("click", actions[name]);
  $("steps").addEventListener("input", slide);
  $("hand-on").addEventListener("click", handOn);
  $("save").addEventListener("click", save);
  $("help-button").addEventListener("click", () => {
    $("help").hidden = !$("help").hidden;
    $("help-button").setAttribute("aria-expanded", !$("help").hidden);
  });
  for (const name of ["script", "lines"]) $(`tab-${name}`).addEventListener("click", () => tab(name));
  document.querySelector(".tabs").addEventListener("keydown", (event) => {
    if (event.key !== "ArrowLeft" && event.key !== "ArrowRight") return;
    const other = $("panel-script").hidden ? "script" : "lines";
    tab(other);
    $(`tab-${other}`).focus();
  });
  $("examples").addEventListener("change", () => example(Number($("examples").value)));
  $("picture").addEventListener("click", unfold);
  $("picture").addEventListener("keydown", unfold);
  $("picture").addEventListener("pointerover", light);
  document.addEventListener("keydown", key);
  new ResizeObserver(([entry]) => fit(entry.contentRect.width - 2)).observe($("picture"));
  addEventListener("pagehide", end);
}

/// Ends the session of a page that is left.
function end() {
  if (!page.session) return;
  const headers = { "Content-Type": "application/json", "X-Token": page.token };
  fetch("call", { method: "POST", keepalive: true, headers, body: JSON.stringify({ do: "end", session: page.session }) });
}

async function start() {
  page.token = token();
  page.room = $("picture").clientWidth - 18;
  $("examples").append(...EXAMPLES.map((one, at) => new Option(one.title, at)));
  listen();
  example(0);
  try {
    const opened = await post({ do: "open" });
    page.session = opened.session;
    if (opened.script !== null) {
      $("examples").prepend(new Option("(the given script)", ""));
      $("examples").value = "";
      $("about").textContent = "This script was given when the program was started. It hasn't run yet.";
      editor.value = opened.script;
      reset();
    }
  } catch (error) {
    notice(error.message);
  }
  document.body.dataset.ready = "true";
}

start();
