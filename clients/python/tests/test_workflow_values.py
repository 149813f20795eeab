"""Values by type hints, and converters with codecs: what goes into a history and what comes out of it."""

import dataclasses
import datetime
import decimal
import enum
import random
import sys
import typing
import unittest
import uuid
from typing import Any, Dict, List, Optional, Set, Tuple, Union

from support import CLIENT
from support.programs import needs_program
from support.workflow_fixture import WithAService
from wfserve.client import Client
from wfserve.workflows import Converter, Gzip, Worker, check, seconds, workflow
from wfserve.workflows.converter import JSON
from wfserve.workflows.typed import parameter_hints, result_hint, typed, typed_arguments


try:
    import pydantic
except ModuleNotFoundError:
    pydantic = None
try:
    sys.path.append(str(CLIENT))
    from cryptography.fernet import Fernet, InvalidToken
    from examples.encrypted import Encrypted
except ModuleNotFoundError:
    Encrypted = None
needs_pydantic = unittest.skipUnless(pydantic, "Pydantic is not here: Debian has it as python3-pydantic")
needs_cryptography = unittest.skipUnless(Encrypted, "cryptography is not here: Debian has it as python3-cryptography")


class Size(enum.Enum):
    SMALL = "s"
    LARGE = "l"


@dataclasses.dataclass
class Item:
    name: str
    count: int = 1
    size: Optional[Size] = None


@dataclasses.dataclass
class Order:
    id: uuid.UUID
    items: List[Item]
    prices: Dict[str, decimal.Decimal] = dataclasses.field(default_factory=dict)
    placed: Optional[datetime.datetime] = None
    pair: Tuple[int, str] = (0, "")


@dataclasses.dataclass
class Receipt:
    total: decimal.Decimal
    of: Order


ORDER = Order(
    uuid.UUID(int=7), [Item("pen", 2, Size.LARGE), Item("ink")], {"pen": decimal.Decimal("1.50")},
    datetime.datetime(2026, 1, 2, 3, 4, tzinfo=datetime.timezone.utc), (1, "one"),
)


def charge(order: Order, rate: decimal.Decimal) -> Receipt:
    return Receipt(sum(price * rate for price in order.prices.values()), order)


@workflow(name="Order")
async def placed(ctx, order: Order) -> Receipt:
    notes: List[Item] = []

    def add(item: Item):
        notes.append(item)

    ctx.on_signal("add", add)
    await ctx.wait_condition(lambda: notes)
    order.items += notes
    receipt = await ctx.activity(charge, order, decimal.Decimal("2"), start_to_close=seconds(9))
    drawn = ctx.once(lambda: {"drawn": True})
    return Receipt(receipt.total, receipt.of if drawn["drawn"] else order)


class Typed(unittest.TestCase):
    def test_there_and_back(self):
        for value, hint in (
            (ORDER, Order), (Receipt(decimal.Decimal("3.00"), ORDER), Receipt), ([Item("pen")], List[Item]),
            ({"a": Item("pen")}, Dict[str, Item]), ({1: "one"}, Dict[int, str]), ((1, Size.SMALL), Tuple[int, Size]),
            ((Size.SMALL, Size.LARGE), Tuple[Size, ...]), ({1, 2}, Set[int]), (Size.SMALL, Size), (None, Optional[Item]),
            (Item("pen"), Union[Item, str]), ("pen", Union[Item, str]), ([1, 2], typing.Sequence[int]),
            (datetime.date(2026, 1, 2), datetime.date), (uuid.UUID(int=9), uuid.UUID), (5, int), (1.5, float), ("x", Any),
            ({"any": [1]}, dict), ([1], list), (True, "a hint that is a text"),
        ):
            with self.subTest(hint=str(hint)):
                made = typed(JSON.value_of(JSON.text_of(sorted(value) if isinstance(value, set) else value)), hint)
                self.assertEqual((made, type(made)), (value, type(value)))

    def test_without_hints_values_are_json(self):
        self.assertEqual(JSON.value_of(JSON.text_of((1, Item("pen")))), [1, {"name": "pen", "count": 1, "size": None}])
        self.assertEqual(JSON.value_of("no json"), "no json")
        self.assertIsNone(JSON.value_of(""))

    def test_what_does_not_fit_is_refused(self):
        for value, hint in ((["pen"], Item), ("huge", Size), ("not a date", datetime.date), ({"count": 2}, Item), ([1], Tuple[int, int])):
            with self.subTest(hint=str(hint)), self.assertRaises((TypeError, ValueError)):
                typed(value, hint)

    def test_fields_that_a_later_version_has_are_left_out(self):
        self.assertEqual(typed({"name": "pen", "colour": "blue"}, Item), Item("pen"))

    def test_hints_of_functions(self):
        def one(ctx, first: int, *rest: Item): ...

        def odd(value): ...
        odd.__annotations__["value"] = "NoSuchName"
        self.assertEqual(parameter_hints(one, 1), ([int], Item))
        self.assertEqual(typed_arguments(one, [1, {"name": "pen"}, {"name": "ink"}], 1), [1, Item("pen"), Item("ink")])
        self.assertEqual((typed_arguments(odd, ["x"]), typed_arguments(len, ["x"])), (["x"], ["x"]))
        self.assertEqual((result_hint(charge), result_hint("Charge"), result_hint(one)), (Receipt, Any, Any))

    def test_what_json_has_not(self):
        for value in (object(), {1, 2}, b"bytes", open):
            with self.assertRaisesRegex(TypeError, "is not JSON serializable"):
                JSON.text_of(value)


class Codecs(unittest.TestCase):
    def test_texts_get_smaller_and_come_back(self):
        converter, draw = Converter(Gzip()), random.Random(5)
        for length in (0, 1, 255, 256, 300, 3_000):
            for letters in ("a", "äöü€", "".join(chr(draw.randrange(32, 0x300)) for _ in range(200))):
                value = "".join(draw.choice(letters) for _ in range(length))
                text = converter.text_of(value)
                self.assertLessEqual(len(text.encode()), len(JSON.text_of(value).encode()))
                self.assertEqual(converter.value_of(text), value)
        self.assertLess(len(converter.text_of("a" * 5_000)), 4_096)

    def test_what_another_client_wrote_is_read(self):
        converter = Converter(Gzip())
        for text in ('{"a":1}', "", "no json", "gzip:no base64", "gzip:AAAA", "gzip:"):
            self.assertEqual(converter.plain(text), text)
        self.assertEqual(JSON.value_of('{"a":1}'), converter.value_of('{"a":1}'))

    def test_codecs_are_undone_from_the_last_to_the_first(self):
        class Marked:
            def __init__(self, mark):
                self.mark = mark

            def encode(self, text):
                return self.mark + text

            def decode(self, text):
                return text[len(self.mark):] if text.startswith(self.mark) else text

        converter = Converter(Marked("a:"), Marked("b:"))
        self.assertEqual((converter.text_of(7), converter.plain("b:a:7"), converter.value_of("b:a:7")), ("b:a:7", "7", 7))
        self.assertEqual((converter.text_of(None), converter.value_of("")), ("", None))


@needs_pydantic
class Pydantic(unittest.TestCase):
    def setUp(self):
        class Line(pydantic.BaseModel):
            name: str
            price: decimal.Decimal
            size: Optional[Size] = None

        class Cart(pydantic.BaseModel):
            lines: List[Line]
            by: datetime.date

        self.line, self.cart = Line, Cart
        self.value = Cart(
            lines=[Line(name="pen", price=decimal.Decimal("1.50")), Line(name="cap", price=2, size=Size.LARGE)],
            by=datetime.date(2026, 1, 2),
        )

    def test_there_and_back(self):
        for value, hint in ((self.value, self.cart), ([self.value], List[self.cart]), (self.value.lines[1], Optional[self.line])):
            made = JSON.value_of(JSON.text_of(value), hint)
            self.assertEqual((made, type(made)), (value, type(value)))
        self.assertEqual(JSON.value_of(JSON.text_of(self.value))["lines"][1], {"name": "cap", "price": "2", "size": "l"})

    def test_what_does_not_fit_is_refused(self):
        for value in ({"lines": [{"name": "pen"}], "by": "2026-01-02"}, {"lines": []}, {"lines": [], "by": "soon"}):
            with self.assertRaises(ValueError):
                typed(value, self.cart)


@needs_cryptography
class Encryption(unittest.TestCase):
    def test_a_key_is_replaced_and_texts_of_before_are_read(self):
        old, new = Fernet.generate_key(), Fernet.generate_key()
        before, after = Converter(Gzip(), Encrypted(old)), Converter(Gzip(), Encrypted(new, old))
        for value in ([1, "two"], {"a": "b"}, "x" * 1_000, "", None):
            for converter in (before, Converter()):
                self.assertEqual(after.value_of(converter.text_of(value)), JSON.value_of(JSON.text_of(value)))
        text = after.text_of("a card")
        self.assertTrue(text.startswith("fernet:"))
        self.assertNotIn("card", text)
        for wrong, converter in ((text, before), (text[:-9] + "A" * 9, after)):
            with self.assertRaises(InvalidToken):
                converter.value_of(wrong)


class Drawn:
    """Hides texts under a number that is drawn anew each time, as encryption does."""

    def encode(self, text):
        # It asks the system for chance, which a workflow's code may not.
        return f"drawn:{uuid.uuid4().hex}:{text[::-1]}"

    def decode(self, text):
        return text.split(":", 2)[2][::-1] if text.startswith("drawn:") else text


@needs_program
class Played(WithAService):
    WORKFLOWS, ACTIVITIES = [placed], [charge]
    CONVERTER = JSON

    def worker(self, workflows=None, activities=None):
        return Worker(self.service, "main", self.WORKFLOWS, self.ACTIVITIES, self.clock, self.CONVERTER)

    def result(self):
        handle = Client(self.service, converter=self.CONVERTER).start(placed, ORDER, id="w")
        self.idle()
        handle.signal("add", Item("cap"))
        self.assertEqual(self.ended()[0], "Completed")
        return handle.result()

    def replayed(self, converter):
        reply = self.service.call("history", workflow_id="w")
        check(placed, reply["events"], reply["run"], converter)

    def test_dataclasses_go_through_a_workflow(self):
        receipt = self.result()
        self.assertEqual((type(receipt), receipt.total), (Receipt, decimal.Decimal("3.00")))
        self.assertEqual([item.name for item in receipt.of.items], ["pen", "ink", "cap"])
        self.replayed(self.CONVERTER)


class PlayedSmaller(Played):
    CONVERTER = Converter(Gzip(least=1))

    def test_what_the_history_has_is_smaller(self):
        self.result()
        inputs = [e["attrs"]["input"] for e in self.service.history("w") if e["type"] == "ActivityTaskScheduled"]
        self.assertTrue(inputs[0].startswith("gzip:"))

    def test_a_history_from_before_the_codec_is_read(self):
        Client(self.service).start(placed, ORDER, id="w").signal("add", Item("cap"))
        self.assertEqual(self.ended()[0], "Completed")


@needs_cryptography
class PlayedEncrypted(Played):
    def setUp(self):
        self.CONVERTER = Converter(Gzip(least=1), Encrypted(Fernet.generate_key()))
        super().setUp()

    def test_no_value_can_be_read_in_the_history(self):
        self.result()
        attrs = [e["attrs"] for e in self.service.history("w")]
        values = [it[name] for it in attrs for name in ("input", "result") if it.get(name)]
        self.assertGreater(len(values), 3)
        self.assertEqual({value.split(":")[0] for value in values}, {"fernet"})


class PlayedHidden(Played):
    """A codec that gives another text each time: histories agree by what the texts mean."""

    CONVERTER = Converter(Drawn())

    def test_texts_differ_and_their_meaning_does_not(self):
        self.result()
        self.replayed(self.CONVERTER)
        # Without the codec the arguments are no order.
        with self.assertRaises((TypeError, AttributeError)):
            self.replayed(JSON)


if __name__ == "__main__":
    unittest.main()
