"""The message by which an acquirer asks for an order. Its verdict is that order."""
from .message import Message

PROCESSES = {"debit": b"000000", "completion": b"000000", "credit": b"200000", "inquiry": b"310000"}
FEES = b"0" * 12 + b"D00000000" * 2


def request(order):
    """The request for an order, with the elements that it needs and no other."""
    elements = {7: b"%010d" % order.key.time, 11: b"%06d" % order.key.trace, 32: b"%d" % order.key.acquirer}
    if order.act != "reversal":
        elements |= {2: order.account, 3: PROCESSES[order.act], 49: order.currency}
    if order.act in ("debit", "credit", "completion"):
        elements[4] = b"%012d" % order.amount
    if order.names:
        name = order.names
        elements[90] = b"%s%06d%010d%011d%011d" % (name.mti.encode(), name.trace, name.time, name.acquirer, 0)
    if order.leaves:
        elements[95] = b"%012d" % order.leaves + FEES
    return Message(order.key.mti, elements)
