"use strict";
// One run: its history, what is pending, and the buttons. It is read again every second; of the history what is new.

const [, , workflowId, run] = location.pathname.split("/").map(decodeURIComponent);
const path = pathOf(workflowId, run);
// For so many milliseconds a button waits for its second press.
const SURE = 5000;
// So many rows stand on a page, and so many events a picture has by itself.
const ROWS = 100;
const DRAWN = 200;
// So much of a text is shown before one asks for the rest.
const CLIPPED = 400;
const HEADS = {
  events: ["Event", "When", "Type", "Attributes"],
  folded: ["Events", "Since", "What", "Status", "Took", ""],
};
const events = [];
// The folded history, and of how many events; how many pages are newer than the one that is shown.
let groups = [];
let groupsOf = 0;
let page = 0;
// Which groups are unfolded, by their first events.
const unfolded = new Set();

function eventRow(event) {
  return made("tr", [
    made("td", String(event.id)),
    made("td", moment(event.at)),
    made("td", event.type),
    made("td", [attributes(event.attrs)]),
  ]);
}

function groupRows(group) {
  const [first] = group.events;
  const button = made("button", unfolded.has(first.id) ? "fold" : "unfold");
  button.type = "button";
  button.addEventListener("click", () => {
    if (!unfolded.delete(first.id)) unfolded.add(first.id);
    showRows();
  });
  const last = group.events[group.events.length - 1];
  const row = made("tr", [
    made("td", last === first ? String(first.id) : `${first.id} to ${last.id}`),
    made("td", moment(group.from)),
    made("td", group.type ? `${group.about}: ${group.type}` : group.about),
    made("td", group.status, `status ${group.status}`),
    made("td", group.status && group.status !== "Pending" ? lasting(group.until - group.from) : ""),
    made("td", [button]),
  ]);
  if (!unfolded.has(first.id)) return [row];
  const within = made("td", group.events.map((it) => made("div", [made("strong", `${it.id} ${it.type}`), attributes(it.attrs)])));
  within.colSpan = HEADS.folded.length;
  return [row, made("tr", [within])];
}

function attributes(attrs) {
  const list = made("dl", []);
  for (const [name, value] of Object.entries(attrs)) {
    if (value === "" || value === 0) continue;
    const text = typeof value === "string" ? value : JSON.stringify(value);
    const other = workflowOf(name, attrs);
    list.append(made("dt", name), made("dd", [other ? linked(text, other, value) : clippedText(text)]));
  }
  return list;
}

// A text, or its beginning and a way to the rest. One that lies beside the log is a link to it.
function clippedText(text) {
  const blob = /^blob:([0-9a-f]{64}):([0-9]+)$/.exec(text);
  if (blob) {
    const link = made("a", `${blob[2]} bytes beside the log`);
    link.href = `/blobs/${blob[1]}`;
    return link;
  }
  if (text.length <= CLIPPED) return made("span", text);
  const whole = made("details", [made("summary", `${text.slice(0, CLIPPED)}…`), made("span", text)]);
  return whole;
}

// The workflow whose run an attribute names, where that is another run.
function workflowOf(name, attrs) {
  if (name === "new_run" || name === "continued_from") return workflowId;
  return name === "run" ? attrs.workflow_id : undefined;
}

function showParent(parent) {
  element("parent").hidden = !parent;
  if (parent) element("parent").replaceChildren("Child of ", linked(parent.workflow_id, parent.workflow_id, parent.run));
}

// The runs before and after this one, and its children.
function showOthers() {
  const found = [];
  const [first] = events;
  const last = events[events.length - 1];
  if (first.attrs.continued_from) found.push(linked("the run before", workflowId, first.attrs.continued_from));
  if (last.attrs.new_run) found.push(linked("the run after", workflowId, last.attrs.new_run));
  const children = events.filter((it) => it.type === "ChildWorkflowExecutionStarted");
  for (const it of children.slice(-20)) found.push(linked(`child ${it.attrs.workflow_id}`, it.attrs.workflow_id, it.attrs.run));
  element("others").hidden = found.length === 0;
  element("others").replaceChildren(...found.flatMap((it, index) => (index ? [", ", it] : [it])));
  if (children.length > 20) element("others").append(` and ${children.length - 20} earlier children`);
}

// Why something is pending, in words.
function why(it, now) {
  if (it.kind !== "activity") return it.kind === "timer" ? "" : "it has not ended";
  const said = [];
  if (it.state === "a worker has it") said.push(`attempt ${it.attempt}: a worker has it for ${lasting(now - it.since)}`);
  else if (it.next_try > now) said.push(`attempt ${it.attempt} may begin in ${lasting(it.next_try - now)}`);
  else said.push(`attempt ${it.attempt || 1} waits for a worker that polls ${it.queue}`);
  if (it.last_failure !== undefined) said.push(`the last one failed: ${it.last_failure_type || ""} ${it.last_failure}`.trim());
  if (it.heartbeat_at) said.push(`heartbeat ${ago(now - it.heartbeat_at)}${it.heartbeat ? `: ${it.heartbeat}` : ""}`);
  return said.join("; ");
}

function showPending(pending, now) {
  element("pending-part").hidden = pending.length === 0;
  const items = pending.slice(0, ROWS).map((it) => {
    const reason = why(it, now);
    return made("li", `${it.kind} ${it.id}, since event ${it.event}, ${moment(it.since)}${reason ? `: ${reason}` : ""}`);
  });
  if (pending.length > ROWS) items.push(made("li", `and ${pending.length - ROWS} more`));
  element("pending").replaceChildren(...items);
}

function showWorkflow(workflow) {
  document.title = workflow.workflow_id;
  element("title").textContent = workflow.workflow_id;
  element("type").textContent = workflow.type;
  element("run").textContent = workflow.run;
  element("status").textContent = statusOf(workflow);
  element("status").className = `status ${statusOf(workflow)}`;
  showStuck(workflow.stuck);
  element("actions").hidden = workflow.status !== "Running";
}

function showStuck(stuck) {
  element("stuck").hidden = !stuck;
  if (!stuck) return;
  const message = stuck.message ? `: ${stuck.message}` : "";
  element("stuck").textContent = `Its workflow task fails, at attempt ${stuck.attempt} now: ${stuck.cause}${message}`;
}

// What a run is given and what it comes to, before its history.
function showFacts(workflow) {
  const { attrs, at } = events[0];
  const last = events[events.length - 1];
  const facts = { queue: attrs.task_queue, started: moment(at), events: String(events.length), input: attrs.input };
  if (workflow.status !== "Running") facts.closed = `${moment(last.at)}, after ${lasting(last.at - at)}`;
  for (const name of ["result", "message", "reason", "details"]) {
    if (workflow.status !== "Running" && last.attrs[name]) facts[name] = last.attrs[name];
  }
  const list = [];
  for (const [name, value] of Object.entries(facts)) {
    if (value) list.push(made("dt", name), made("dd", [clippedText(value)]));
  }
  element("facts").replaceChildren(...list);
}

function view() {
  return document.querySelector("#views input:checked").value;
}

// The rows of the page that is shown, the newest first.
function showRows() {
  const isFolded = view() === "folded";
  if (isFolded && groupsOf !== events.length) [groups, groupsOf] = [folded(events), events.length];
  const all = isFolded ? groups : events;
  page = Math.min(page, Math.max(Math.ceil(all.length / ROWS) - 1, 0));
  const end = all.length - page * ROWS;
  const rows = all.slice(Math.max(end - ROWS, 0), end).reverse();
  element("head").replaceChildren(made("tr", HEADS[view()].map((it) => made("th", it))));
  element("events").replaceChildren(...rows.flatMap((it) => (isFolded ? groupRows(it) : [eventRow(it)])));
  element("newer").disabled = page === 0;
  element("older").disabled = end <= ROWS;
  element("place").textContent = `${all.length - end + 1} to ${all.length - end + rows.length} of ${all.length}, the newest first`;
}

function showPicture() {
  if (!element("drawn").open) return;
  const image = document.createElement("img");
  image.src = `${path}/picture.svg?length=${events.length}`;
  image.alt = "The history: events down, time across";
  element("picture").replaceChildren(image);
}

async function show() {
  const known = events.length;
  const answer = await asked(`/api${path}?length=${known}&after=${known}`);
  showWorkflow(answer.workflow);
  if (!answer.events) return;
  events.push(...answer.events.filter((it) => it.id > events.length));
  showPending(answer.pending, answer.now);
  showParent(answer.parent);
  showOthers();
  showFacts(answer.workflow);
  if (!known) element("drawn").open = events.length <= DRAWN;
  showRows();
  if (events.length <= DRAWN) showPicture();
  if (!known) document.body.dataset.shown = String(Math.round(performance.now()));
}

function turn(by) {
  page = Math.max(page + by, 0);
  showRows();
}

// What can't be taken back wants a second press.
function isSure(form, sure) {
  const pressed = element(form).querySelector("button");
  if (!sure || pressed.textContent === sure) return true;
  const before = pressed.textContent;
  pressed.textContent = sure;
  setTimeout(() => (pressed.textContent = before), SURE);
  return false;
}

// Each press of a button is one request, which takes effect once.
function button(form, call, sure) {
  element(form).addEventListener("submit", async (event) => {
    event.preventDefault();
    if (!isSure(form, sure)) return;
    try {
      const reply = await called({ workflow_id: workflowId, run, ...call() });
      say(reply.error ? `${form}: ${reply.error}` : `${form}: ${reply.ok}`);
      await show();
    } catch (fault) {
      say(`${form}: ${fault}`);
    }
  });
}

button("signal", () => ({
  op: "signal",
  name: element("signal-name").value,
  input: element("signal-input").value,
  request_id: requestId(),
}));
button("cancel", () => ({ op: "request_cancel", request_id: requestId() }));
button("terminate", () => ({ op: "terminate", reason: element("reason").value }), "Terminate at once?");
element("newer").addEventListener("click", () => turn(-1));
element("older").addEventListener("click", () => turn(1));
element("views").addEventListener("change", () => {
  page = 0;
  showRows();
});
element("drawn").addEventListener("toggle", showPicture);
element("download").href = `/api${path}/history.json`;
element("download").download = "";
repeat(show);
