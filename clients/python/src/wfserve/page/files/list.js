"use strict";
// The list of workflows: searched as one types, and read again every second.

// So many rows the server gives at most.
const ROWS = 200;
let shown = "";
let skipped = 0;

function row(it) {
  return made("tr", [
    made("td", [linked(it.workflow_id, it.workflow_id, it.run)]),
    made("td", it.type),
    made("td", statusOf(it), `status ${statusOf(it)}`),
    made("td", moment(it.started)),
    made("td", `${it.length} ${it.last}, ${moment(it.last_at)}`),
  ]);
}

// A field's moment in milliseconds; none where it is empty.
function momentOf(id) {
  const text = element(id).value;
  return text ? String(new Date(text).getTime()) : "";
}

function asking() {
  const words = {
    search: element("text").value,
    status: element("status").value,
    type: element("kind").value,
    from: momentOf("from"),
    until: momentOf("until"),
    skip: String(skipped),
  };
  return new URLSearchParams(Object.entries(words).filter(([, value]) => value));
}

async function show() {
  const answer = await asked(`/api/workflows?${asking()}`);
  const found = JSON.stringify(answer);
  if (found !== shown) {
    shown = found;
    element("rows").replaceChildren(...answer.workflows.map(row));
    element("newer").hidden = skipped === 0;
    element("older").hidden = answer.workflows.length < ROWS;
  }
  say(`${answer.workflows.length} shown${skipped ? `, after the latest ${skipped}` : ""}`);
}

async function go(by) {
  skipped = Math.max(skipped + by, 0);
  await show();
}

element("search").addEventListener("input", () => go(-skipped));
element("search").addEventListener("submit", (event) => event.preventDefault());
element("older").addEventListener("click", () => go(ROWS));
element("newer").addEventListener("click", () => go(-ROWS));
repeat(show);
