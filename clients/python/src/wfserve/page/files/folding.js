"use strict";
// Events of one activity, timer, child, word to another workflow or workflow task, as one row each.

// What opens a group: its kind, and the attribute that names it.
const OPENINGS = {
  WorkflowTaskScheduled: ["workflow task", "attempt"],
  ActivityTaskScheduled: ["activity", "activity_id"],
  TimerStarted: ["timer", "timer_id"],
  StartChildWorkflowExecutionInitiated: ["child", "workflow_id"],
  SignalExternalWorkflowExecutionInitiated: ["signal to", "workflow_id"],
  RequestCancelExternalWorkflowExecutionInitiated: ["request to cancel", "workflow_id"],
};
// By these attributes an event names the one that opened its group.
const KEYS = ["scheduled", "initiated", "started"];
// What is no end of a group.
const BETWEEN = ["WorkflowTaskStarted", "ActivityTaskStarted", "ActivityTaskCancelRequested", "ChildWorkflowExecutionStarted"];
const WORDS = ["Completed", "Failed", "TimedOut", "Canceled", "Terminated", "Fired", "Signaled", "CancelRequested"];

// The events of a history, folded, in the order of their first events.
function folded(events) {
  const groups = [];
  const byEvent = new Map();
  for (const event of events) {
    const key = KEYS.find((it) => byEvent.has(event.attrs[it]));
    const group = key ? byEvent.get(event.attrs[key]) : groupOf(event);
    if (!key) groups.push(group);
    if (!key && OPENINGS[event.type]) byEvent.set(event.id, group);
    group.events.push(event);
    if (key) goOn(group, event);
  }
  return groups;
}

function groupOf(event) {
  const [kind, name] = OPENINGS[event.type] || ["", ""];
  const type = event.attrs.activity_type || (kind === "child" ? event.attrs.workflow_type : "") || "";
  const about = kind ? `${kind} ${event.attrs[name]}` : event.type;
  return { about, type, kind, events: [], status: kind ? "Pending" : "", from: event.at, until: event.at };
}

// What an event says of its group.
function goOn(group, event) {
  group.until = event.at;
  if (event.type === "ActivityTaskStarted" && event.attrs.attempt > 1) group.about += `, attempt ${event.attrs.attempt}`;
  if (BETWEEN.includes(event.type)) {
    if (group.status === "Pending") group.status = event.type === "ActivityTaskCancelRequested" ? "Pending" : "Started";
    return;
  }
  group.status = WORDS.find((it) => event.type.endsWith(it)) || event.type;
}
