"use strict";
// The task queues, read again every second. What waits while nobody polls is marked.

const KINDS = { workflow: "workflows", activity: "activities" };
// So many milliseconds after its last poll a queue counts as one that nobody polls.
const ALONE = 60000;

function isAlone(it, now) {
  return it.waiting > 0 && !it.polls && !(it.last_poll && now - it.last_poll < ALONE);
}

function row(it, now) {
  const cells = [
    made("td", it.queue),
    made("td", KINDS[it.kind]),
    made("td", String(it.waiting)),
    made("td", it.oldest ? ago(now - it.oldest) : ""),
    made("td", String(it.later)),
    made("td", String(it.at_work)),
    made("td", it.polls === null ? "unknown" : String(it.polls)),
    made("td", it.last_poll ? ago(now - it.last_poll) : "none seen"),
  ];
  return made("tr", cells, isAlone(it, now) ? "alone" : "");
}

async function show() {
  const answer = await asked("/api/queues");
  element("rows").replaceChildren(...answer.queues.map((it) => row(it, answer.now)));
  const alone = answer.queues.filter((it) => isAlone(it, answer.now));
  say(alone.map((it) => `No worker polls ${it.queue} for ${KINDS[it.kind]}.`).join(" ") || `${answer.runs} runs are open`);
}

repeat(show);
