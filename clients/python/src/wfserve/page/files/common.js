"use strict";
// What both pages need. Texts of workflows are only ever put into the page as text.

const REFRESH = 1000;

function element(id) {
  return document.getElementById(id);
}

// An element with a text or with other elements within.
function made(tag, content, kind) {
  const it = document.createElement(tag);
  if (kind) it.className = kind;
  if (Array.isArray(content)) it.append(...content);
  else it.textContent = content;
  return it;
}

function pathOf(workflowId, run) {
  return `/workflows/${encodeURIComponent(workflowId)}/${run}`;
}

// A link to a run's page.
function linked(text, workflowId, run) {
  const link = made("a", text);
  link.href = pathOf(workflowId, run);
  return link;
}

function moment(milliseconds) {
  return new Date(milliseconds).toLocaleString();
}

// A duration in words.
function lasting(milliseconds) {
  const seconds = Math.max(milliseconds, 0) / 1000;
  if (seconds < 60) return `${Number(seconds.toFixed(seconds < 10 ? 2 : 0))} s`;
  if (seconds < 3600) return `${Math.floor(seconds / 60)} min ${Math.floor(seconds % 60)} s`;
  if (seconds < 86400) return `${Math.floor(seconds / 3600)} h ${Math.floor((seconds % 3600) / 60)} min`;
  return `${Math.floor(seconds / 86400)} d ${Math.floor((seconds % 86400) / 3600)} h`;
}

function ago(milliseconds) {
  return `${lasting(milliseconds)} ago`;
}

// What a status is called: of a run that is open and fails again and again that it is stuck.
function statusOf(workflow) {
  return workflow.stuck ? "Stuck" : workflow.status;
}

// A text that no other call has. crypto.randomUUID is there only where a page came over HTTPS or from localhost.
function requestId() {
  return Array.from(crypto.getRandomValues(new Uint8Array(16)), (it) => it.toString(16).padStart(2, "0")).join("");
}

function say(text) {
  element("said").textContent = text;
}

async function asked(path) {
  const answer = await fetch(path, { cache: "no-store" });
  if (!answer.ok) throw new Error(`the server answered ${answer.status}`);
  return answer.json();
}

async function called(call) {
  const answer = await fetch("/calls", {
    method: "POST",
    headers: { "Content-Type": "application/json" },
    body: JSON.stringify(call),
  });
  const reply = await answer.json();
  if (!answer.ok) throw new Error(`the server answered ${answer.status}: ${reply.said}`);
  return reply;
}

// Does something again and again; what goes wrong is said, and it goes on.
async function repeat(work) {
  for (;;) {
    try {
      await work();
    } catch (fault) {
      say(String(fault));
    }
    await new Promise((go) => setTimeout(go, REFRESH));
  }
}
