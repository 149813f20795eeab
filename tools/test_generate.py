"""What is generated is what stands in the sources, and a table that is changed changes each place and no other line."""

import contextlib
import copy
import io
import shutil
import sys
import tempfile
import unittest
import unittest.mock
from pathlib import Path

sys.path.insert(0, str(Path(__file__).resolve().parent))
try:
    import generate
except SystemExit as unable:
    raise unittest.SkipTest(str(unable)) from None


class Generated(unittest.TestCase):
    def setUp(self):
        folder = tempfile.TemporaryDirectory()
        self.addCleanup(folder.cleanup)
        self.top = Path(folder.name)
        self.table = generate.read_table()
        self.parts = list(generate.parts_of(self.table))
        for path in {part.path for part in self.parts}:
            (self.top / path).parent.mkdir(parents=True, exist_ok=True)
            shutil.copy(generate.TOP / path, self.top / path)

    def text(self, file: str) -> str:
        return (self.top / generate.Part(file, "", "").path).read_text(encoding="utf-8")

    def type_named(self, table: dict, name: str) -> dict:
        return next(kind for kind in table["type"] if kind["name"] == name)

    def added(self, old: dict[str, str]) -> dict[str, list[str]]:
        """The lines of each file that weren't there, after a new table was written."""
        return {file: [line for line in self.text(file).splitlines() if line not in text.splitlines()]
                for file, text in old.items() if self.text(file) != text}

    def written_with(self, change) -> dict[str, list[str]]:
        """What a changed table adds to each file. Afterwards nothing differs."""
        table = copy.deepcopy(self.table)
        change(table)
        old = {part.file: self.text(part.file) for part in self.parts}
        self.assertNotEqual(generate.look(table, self.top, writes=True), [])
        self.assertEqual(generate.look(table, self.top, writes=False), [])
        return self.added(old)

    def test_what_stands_in_the_crates_is_what_the_table_gives(self):
        self.assertEqual(generate.look(self.table, generate.TOP, writes=False), [])
        self.assertGreater(len(self.parts), 250)
        heads = [(part.file, part.head) for part in self.parts]
        self.assertEqual(len(heads), len(set(heads)))

    def test_each_line_that_is_changed_by_hand_is_found_and_written_back(self):
        for part in self.parts[::12]:
            with self.subTest(head=part.head):
                path, lines = self.top / part.path, part.text.split("\n")
                text = path.read_text(encoding="utf-8")
                path.write_text(text.replace(part.text, "\n".join([*lines[:-1], lines[-1] + " "])), encoding="utf-8")
                faults = generate.look(self.table, self.top, writes=True)
                self.assertEqual(faults, [f"{part.path}: not what {generate.TABLE} gives: {part.head}"])
                self.assertEqual(path.read_text(encoding="utf-8"), text)

    def test_a_part_that_is_not_there_or_there_twice_is_a_fault(self):
        head = "pub record IsStart (q : Start) : Type 0 where"
        path = self.top / "crates/wire_record_steps/specs/Limits.antt"
        text = path.read_text(encoding="utf-8")
        for other in (text.replace(head, "-- " + head), f"{text}\n{head}\n  pub x : IsId q.x\n"):
            path.write_text(other, encoding="utf-8")
            self.assertEqual(generate.look(self.table, self.top, writes=True),
                             [f"crates/wire_record_steps/specs/Limits.antt: there is not one part that begins: {head}"])
            self.assertEqual(path.read_text(encoding="utf-8"), other)

    def test_what_ends_something_names_the_event_that_opened_it(self):
        types = {kind["name"]: generate.fields_of(kind) for kind in self.table["type"]}
        attributes, = (listed for listed in self.table["enum"] if listed["name"] == "Attributes")
        carried = {name: of.removeprefix("Boxed<").rstrip(">") for name, of in generate.variants_of(attributes)}
        ended = [end for opening in self.table["opening"] for end in opening["ends"]]
        self.assertEqual(len(ended), len(set(ended)))
        for opening in self.table["opening"]:
            self.assertIn(opening["event"], carried)
            if "name" in opening:
                self.assertIn(opening["name"], [field.key for field in types[carried[opening["event"]]]])
            for end in opening["ends"]:
                self.assertIn(opening["key"], [field.key for field in types[carried[end]]], end)
            self.assertLessEqual(set(generate.settled_by(opening)), set(opening["ends"]))
        closing = next(part for part in self.parts if part.head.startswith("STATUS"))
        for event in closing.text.split('"')[1::4]:
            self.assertIn(event, carried)

    def test_an_event_that_ends_something_is_one_row(self):
        def change(table: dict) -> None:
            table["opening"][1]["ends"].append("ActivityTaskSkipped")

        # It ends a bar, and settles what code waits for.
        row = '    "ActivityTaskSkipped": SCHEDULED,'
        self.assertEqual(self.written_with(change), {generate.HISTORIES: [row, row]})

    def test_a_new_field_of_a_request_is_one_row(self):
        def change(table: dict) -> None:
            self.type_named(table, "Signal")["fields"].append("identity if_text")

        self.assertEqual(self.written_with(change), {
            "service_model_types/src/request.rt": ["    pub identity: Option<Text>,", "            identity: _,"],
            "wire_record_steps/proofs/OperationsBack.antt": [
                "    (then _ (optional_is text_of IsText string field.Identity rows q.identity refl refl "
                "(text_back field.Identity) h.identity)", "    refl)))))",
            ],
            "wire_record_steps/proofs/RequestsBack.antt": [
                "operation_plain at (operation.Signal q) m h = let run = if_plain IsRun (λ r. string (run_text r)) 4 "
                "(λ x l. tt) q.run h.run in let request_id = if_plain IsId string 4 (λ x l. tt) q.request_id "
                "h.request_id in let identity = if_plain IsText string 4 (λ x l. tt) q.identity h.identity in "
                "search (moment_plain at m, run, request_id, identity)",
            ],
            "wire_record_steps/proofs/TextsUtf8.antt": [
                "operation_utf8 at (operation.Signal q) h = (tt, (if_utf8 IsText (λ t l. l.1) q.identity h.identity, "
                "(h.input.1, (h.name.1, (literal _ refl, (if_utf8 IsId (λ t l. l.1) q.request_id h.request_id, "
                "(if_run_utf8 q.run, (h.workflow_id.1, tt))))))))",
            ],
            "wire_record_steps/specs/Limits.antt": ["  pub identity : IfSome q.identity IsText"],
            "wire_record_steps/src/put_starts.rt": ['    put_if_text(page, "identity", &signal.identity)?;'],
            "wire_record_steps/src/known.rt": ["    known_if_text(&asked.identity);"],
            "wire_requests/specs/Operations.antt": [
                "  identity ← optional text_of field.Identity line", "  Ok (record {",
                "    workflow_id = workflow_id;", "    run = run;", "    name = name;", "    input = input;",
                "    request_id = request_id;", "    identity = identity;", "  })",
            ],
            "wire_requests/src/operations.rt": [
                "    let identity = optional(alloc, line, Field::Identity)?;", "        identity,",
            ],
            "wire_record_steps/specs/Trees.antt": [
                '    count (codes "at") at ∷ if_text (codes "identity") q.identity ∷ text (codes "input") q.input',
                '    ∷ text (codes "name") q.name ∷ text (codes "op") (codes "signal") ∷ '
                'if_text (codes "request_id") q.request_id',
                '    ∷ if_run (codes "run") q.run ∷ text (codes "workflow_id") q.workflow_id ∷ []',
            ],
        })

    def test_a_new_field_of_an_event_is_one_row(self):
        def change(table: dict) -> None:
            self.type_named(table, "MarkerRecorded")["fields"].append("at_moment moment key=when keyed")

        self.assertEqual(self.written_with(change), {
            "wf_event/src/payloads.rt": ["    pub at_moment: Moment,"],
            "wire_record_events/proofs/PayloadsBack.antt": [
                '    (then _ (keyed_is moment_of (codes "when") rows _ a.at_moment refl refl '
                "(moment_back field.Line a.at_moment h.at_moment))",
            ],
            "wire_record_events/proofs/RowsPlain.antt": [
                "attributes_plain (event.MarkerRecorded a) h = (tt, (tt, (moment_plain a.at_moment h.at_moment, tt)))",
            ],
            "wire_record_events/proofs/TextsUtf8.antt": [
                "attributes_utf8 (event.MarkerRecorded a) h = (h.details.1, (h.name.1, (tt, tt)))",
            ],
            "wire_record_events/specs/Limits.antt": ["  pub at_moment : IsMoment a.at_moment"],
            "wire_record_events/specs/Reading.antt": [
                '  at_moment ← keyed moment_of (codes "when") d',
                "  Ok (record { name = name; details = details; at_moment = at_moment })",
            ],
            "wire_record_events/specs/Trees.antt": [
                '    text (codes "details") a.details ∷ text (codes "name") a.name ∷ count (codes "when") a.at_moment ∷ []',
            ],
            "wire_record_events/src/activities.rt": [
                '    let at_moment = keyed(alloc, object, "when")?;', "    Ok(MarkerRecorded {", "        name,",
                "        details,", "        at_moment,",
            ],
            "wire_record_events/src/known.rt": ["    let _at_moment = attributes.at_moment.millis();"],
            "wire_events/specs/Activities.antt": ['    ▸ number_member (codes "when") a.at_moment'],
            "wire_events/src/activities.rt": [
                '    page.text("name", attributes.name.as_str())?;',
                '    page.number("when", attributes.at_moment.millis())',
            ],
        })

    def test_a_new_kind_of_event_is_one_row(self):
        def change(table: dict) -> None:
            listed = next(one for one in table["enum"] if one["name"] == "Attributes")
            listed["variants"].append("WorkflowPaused Text")
            listed["read"]["fields"]["WorkflowPaused"] = "reason text"

        self.assertEqual(self.written_with(change), {
            "wire_record_events/specs/Names.antt": [
                "    ∷ kind.ExternalWorkflowExecutionSignaled ∷ kind.ExternalWorkflowExecutionCancelRequested "
                "∷ kind.WorkflowPaused ∷ [])",
            ],
            "wire_record_events/specs/Reading.antt": [
                "attributes_of kind.WorkflowPaused d = required text_of field.Reason d "
                ">>= (λ a. Ok (event.WorkflowPaused a))",
            ],
            "wire_record_events/src/by_kind.rt": [
                "        Kind::WorkflowPaused => {", "            Ok(Attributes::WorkflowPaused(reason))",
            ],
            "wire_record_events/src/names.rt": ['        "WorkflowPaused" => Some(Kind::WorkflowPaused),'],
            "wf_event/src/attributes.rt": [
                "    WorkflowPaused(Text),", "            Attributes::WorkflowPaused(_) => {}",
                "            Attributes::WorkflowPaused(a) => Ok(Attributes::WorkflowPaused(a.clone()?)),"],
            "wf_event/src/kind.rt": [
                "    WorkflowPaused,", '            Kind::WorkflowPaused => "WorkflowPaused",',
                "            Attributes::WorkflowPaused(_) => Kind::WorkflowPaused,"],
            "wf_event/specs/Kinds.antt": ["kind_of (event.WorkflowPaused a) = kind.WorkflowPaused",
                                          'kind_name kind.WorkflowPaused = codes "WorkflowPaused"'],
        })

    def test_a_new_kind_of_event_of_a_struct_is_read_by_its_row(self):
        def change(table: dict) -> None:
            listed = next(one for one in table["enum"] if one["name"] == "Attributes")
            listed["variants"] += ["TimerPaused TimerEnd", "MarkerMoved Boxed<MarkerRecorded>"]
            self.type_named(table, "TimerStarted")["fields"] += ["why cause keyed", "since if_number keyed"]

        written = self.written_with(change)
        self.assertEqual(written["wire_record_events/src/by_kind.rt"], [
            "        Kind::TimerPaused => Ok(Attributes::TimerPaused(timer_end(alloc, object)?)),",
            "        Kind::MarkerMoved => {", "            let event = Boxed::new(alloc, marker(alloc, object)?)?;",
            "            Ok(Attributes::MarkerMoved(event))"])
        self.assertEqual(written["wire_record_events/src/activities.rt"], [
            '    let since = if_keyed(alloc, object, "since")?;', '    let why = cause_in(word(object, "why")?)?;',
            "    Ok(TimerStarted {", "        timer_id,", "        duration,", "        why,", "        since,"])
        self.assertIn('  why ← keyed string_of (codes "why") d >>= cause_in',
                      written["wire_record_events/specs/Reading.antt"])
        self.assertIn("    (then _ (then cause_in (keyed_is string_of (codes \"why\") rows _ (cause_name a.why) refl refl refl) "
                      "(cause_back a.why))", written["wire_record_events/proofs/PayloadsBack.antt"])

    def test_a_field_that_may_be_missing_has_its_default(self):
        def change(table: dict) -> None:
            self.type_named(table, "Terminate")["fields"].append("grace span default")

        written = self.written_with(change)
        self.assertIn("  grace ← or_default span_of 0 field.Grace line",
                      written["wire_requests/specs/CancelFields.antt"])
        self.assertIn("    let grace = or_default(alloc, line, Field::Grace, Span::none())?;",
                      written["wire_requests/src/ends.rt"])

    def test_a_new_field_of_a_command_is_read_in_its_place(self):
        def change(table: dict) -> None:
            self.type_named(table, "RecordMarker")["fields"].append("reuse reuse default")
            self.type_named(table, "StartChild")["fields"].insert(0, "header text default")
            self.type_named(table, "SignalExternal")["fields"].append("retry policy default")

        written = self.written_with(change)
        self.assertEqual(written["wire_requests/src/commands.rt"], [
            "    let reuse = or_default(alloc, object, Field::Reuse, ReusePolicy::AllowDuplicate)?;",
            "    Ok(RecordMarker {", "        name,", "        details,", "        reuse,",
        ])
        self.assertEqual(written["wire_requests/src/external_commands.rt"], [
            "    let header = or_default(alloc, object, Field::Header, Text::empty(alloc))?;", "        header,",
            "    let by_default = Policy::by_default(alloc);",
            "    let policy = or_default(alloc, object, Field::Retry, by_default)?;", "        retry: policy.fields,",
        ])

    def test_a_new_field_of_a_transfer_is_read_in_the_order_of_the_keys(self):
        def change(table: dict) -> None:
            self.type_named(table, "ChildStartFailed")["fields"].append("status child_status keyed key=ended")

        self.written_with(change)
        self.assertIn('''
    let status: AStatus = keyed(alloc, object, "ended")?;
    let initiated = keyed(alloc, object, "initiated")?;
    let parent_run = keyed(alloc, object, "parent_run")?;
    Ok(ChildStartFailed {
        parent_run,
        initiated,
        status: status.status,
    })
''', self.text("wire_record_transfers/src/contents.rt"))

    def test_a_new_kind_of_transfer_is_read_by_its_row(self):
        def change(table: dict) -> None:
            next(one for one in table["enum"] if one["name"] == "TransferContent")["variants"].append("Closed ChildClosed")
            next(one for one in table["names"] if one["name"] == "TransferKind")["variants"].append("Closed closed")

        written = self.written_with(change)
        self.assertEqual(written["wire_record_transfers/src/contents.rt"], [
            "        TransferKind::Closed => Ok(TransferContent::Closed(child_closed(alloc, object)?)),"])
        self.assertEqual(written["wire_record_transfers/specs/Reading.antt"], [
            "content_of kind.Closed d = child_closed_of d >>= (λ c. Ok (content.Closed c))"])
        self.assertEqual(written["wire_record_transfers/src/kinds.rt"], [
            "    Closed,", "        TransferContent::Closed(_) => TransferKind::Closed,",
            '            TransferKind::Closed => "closed",', '        "closed" => Some(TransferKind::Closed),'])
        self.assertEqual(written["wire_record_transfers/specs/Names.antt"], [
            'transfer_kind_name kind.Closed = codes "closed"',
            "    ∷ kind.SignalExternal ∷ kind.CancelExternal ∷ kind.ExternalDone ∷ kind.Closed ∷ [])",
            "kind_of (content.Closed c) = kind.Closed"])

    def test_a_new_command_is_read_by_its_row(self):
        def change(table: dict) -> None:
            commands = next(one for one in table["enum"] if one["name"] == "Command")
            commands["variants"] += ["Pause Text", "UpsertWorkflowSearchAttributesOfOne RecordMarker"]
            commands["read"]["fields"]["Pause"] = "reason text default"
            types = next(one for one in table["names"] if one["name"] == "CommandType")
            types["variants"] += ["Pause Pause", "UpsertWorkflowSearchAttributesOfOne Upsert"]

        written = self.written_with(change)
        self.assertEqual(written["wire_requests/src/commands.rt"], [
            "    Pause,", "    UpsertWorkflowSearchAttributesOfOne,", '        "Pause" => Some(CommandType::Pause),',
            '        "Upsert" => Some(CommandType::UpsertWorkflowSearchAttributesOfOne),',
            "        CommandType::Pause => {", "            let reason = text(alloc, object, Field::Reason)?;",
            "            Ok(Command::Pause(reason))", "        CommandType::UpsertWorkflowSearchAttributesOfOne => {",
            "            Ok(Command::UpsertWorkflowSearchAttributesOfOne(marker(alloc, object)?))"])
        self.assertIn("fields_of Pause d = or_default text_of [] field.Reason d >>= (λ x. Ok (command.Pause x))",
                      written["wire_requests/specs/Commands.antt"])

    def test_a_new_name_is_one_row(self):
        def change(table: dict) -> None:
            next(one for one in table["names"] if one["name"] == "Field")["variants"].append("Identity identity")

        self.assertEqual(self.written_with(change), {
            "wf_event_values/src/field.rt": ["    Identity,", '            Field::Identity => "identity",'],
            "wf_event_values/specs/Names.antt": ['field_name field.Identity = codes "identity"'],
        })

    def test_the_status_says_whether_anything_differs(self):
        with contextlib.redirect_stdout(io.StringIO()) as out:
            self.assertEqual(generate.main([]), 0)
            with unittest.mock.patch.object(generate, "TOP", self.top), \
                    unittest.mock.patch.object(generate, "read_table", return_value={**self.table, "enum": []}):
                self.assertEqual(generate.main([]), 0)
                (self.top / "crates/wire_record_steps/src/known.rt").write_text("")
                self.assertEqual(generate.main([]), 1)
        self.assertIn("known.rt: there is not one part that begins: fn known_start", out.getvalue())


if __name__ == "__main__":
    unittest.main()
