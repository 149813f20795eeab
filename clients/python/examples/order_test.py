"""A test of the order in order.py: the money comes back where it is called off. pytest runs it, or a main program."""

from examples.order import charge, order, refund
from wfserve.testing import WorkflowEnvironment
from wfserve.workflows import minutes


def test_an_order_that_is_called_off_gets_its_money_back():
    with WorkflowEnvironment([order], [charge, refund]) as env:
        env.mock(charge, "receipt 4711")
        env.mock(refund, lambda receipt: f"{receipt} is refunded")
        handle = env.start(order, "order-17", "49.90 EUR")
        env.sleep(minutes(5))
        handle.signal("call off", "found it cheaper")
        assert handle.result()["refund"] == "receipt 4711 is refunded"
        assert env.clock.now == minutes(5)
