"""The journal: the orders that were entered, with their answers, and the sums over all of them.

A sum looks through the whole journal each time, for what came before an entry and for what came after it.
"""
from dataclasses import dataclass

from .order import Order
from .response import Answer

MONEY = ("debit", "credit", "completion")


@dataclass(frozen=True)
class Entry:
    """An order, and what it was answered."""
    order: Order
    answer: Answer


def entry_of(journal, key):
    """The entry of a key, if it has one."""
    return next((entry for entry in journal if entry.order.key == key), None)


def first_reversal(journal, key):
    """The first entered reversal of a key, whenever that came, if one did."""
    return next((entry.order for entry in journal if entry.order.act == "reversal" and entry.order.names == key), None)


def left(journal, order):
    """What of an order's amount the first reversal of its key leaves; all of it where none came."""
    reversal = first_reversal(journal, order.key)
    return min(order.amount, reversal.leaves) if reversal else order.amount


def counted(journal, entry):
    """The amount with which an entry counts: what is left of it, where it has code 00 and moves money."""
    granted = entry.answer.code == "00" and entry.order.act in MONEY
    return left(journal, entry.order) if granted else 0


def is_completed(journal, hold):
    """Whether a completion ends a hold: one that names it, of the same account, and that still counts."""
    return any(entry.order.names == hold.key and entry.order.account == hold.account and counted(journal, entry)
               for entry in journal if entry.order.act == "completion")


def ledger(journal, account):
    """The opening amount, plus the credits and less the debits of class 2, completions among them."""
    balance = account.opening
    for entry in journal:
        if entry.order.account == account.number and not entry.order.is_hold():
            balance += counted(journal, entry) if entry.order.act == "credit" else -counted(journal, entry)
    return balance


def available(journal, account):
    """The ledger less the holds that aren't completed."""
    holds = [entry for entry in journal if entry.order.account == account.number and entry.order.is_hold()]
    return ledger(journal, account) - sum(counted(journal, hold) for hold in holds if not is_completed(journal, hold.order))
