//! The text of a record, as it is written by hand.

/// A workflow from its start to its end: its task is dispatched, taken and completed.
pub(crate) const WORKFLOW: &str =
    r#"{"pass":0,"request":{"at":0,"conflict":"Fail","input":"","op":"start","request_id":"r1","reuse":"AllowDuplicate","run_timeout":0,"task_queue":"main","task_timeout":0,"workflow_id":"a","workflow_type":"w"}}
{"pass":0,"request":{"at":0,"op":"next_dispatch"}}
{"pass":0,"request":{"at":0,"number":1,"op":"dispatched"}}
{"pass":0,"request":{"at":0,"attempt":1,"event":2,"kind":"workflow","op":"start_task","run":1}}
{"pass":0,"request":{"at":0,"commands":[{"result":"x","type":"CompleteWorkflowExecution"}],"op":"complete_workflow_task","token":"AQEAAAAAAAAAAAABAAAAAAAAAAIAAAAB"}}
{"pass":0,"request":{"at":0,"op":"describe","workflow_id":"a"}}
"#;
