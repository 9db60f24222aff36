"""The issuer: accounts, a journal, and the code of each order. It decides each order once."""
from .journal import Entry, available, entry_of, first_reversal, left
from .message_type import is_request
from .response import Answer

LIMIT = 999_999
TWELVE_DIGITS = 999_999_999_999


class Issuer:
    """An issuer. Its journal begins empty, and no entry is ever taken out of it."""

    def __init__(self, accounts, limit=LIMIT):
        self.accounts = accounts
        self.limit = limit
        self.journal = []

    def handle(self, order):
        """The answer to an order. A known key gets its first answer again, or 94 where the order is another one."""
        known = entry_of(self.journal, order.key)
        if known:
            return known.answer if known.order == order else Answer("94")
        if len(self.journal) == self.limit:
            return Answer("96")
        code = self.code(order)
        shown = self.available(order) if order.act == "inquiry" and code == "00" else None
        answer = Answer(code, len(self.journal) + 1, shown)
        self.journal.append(Entry(order, answer))
        return answer

    def code(self, order):
        """The code of a new order: the first line that holds. It is decided on the entries before it, and never again."""
        if order.act == "reversal":
            return "00"
        reversal = first_reversal(self.journal, order.key)
        if reversal and reversal.leaves == 0:
            return "21"
        account = self.account(order)
        if account is None:
            return "14"
        if account.currency != order.currency:
            return "12"
        if order.act == "debit" and is_request(order.key.mti) and left(self.journal, order) > self.available(order):
            return "51"
        if order.act == "inquiry" and abs(self.available(order)) > TWELVE_DIGITS:
            return "96"
        return "00"

    def account(self, order):
        """The account that an order names, if there is one."""
        return next((account for account in self.accounts if account.number == order.account), None)

    def available(self, order):
        """What is available on the account of an order."""
        return available(self.journal, self.account(order))
