"""What a message asks: an order, a response code that is answered at once, or nothing.

The first line of the table in docs/ORDERS.md that holds decides. Each `if` below is a line of it, in its order.
"""
from .characters import are_digits, in_class
from .message_type import is_advice, is_request, without_repeat
from .order import Key, Order

SILENT = None
NETWORK = (b"001", b"002", b"301")    # sign on, sign off, echo test
DEBITS = (b"00", b"01")
CREDITS = (b"20", b"21")
INQUIRY = b"31"


def verdict(message):
    """An order, a code in two digits, or `SILENT`."""
    version, message_class, _, origin = message.mti
    if version != "0" or not (is_request(message.mti) or is_advice(message.mti)):
        return SILENT
    if origin > "5":
        return "12"
    if message_class == "8":
        return network_verdict(message)
    if message_class not in "124":
        return "12"
    if not (message.is_digits(7, 10) and message.is_digits(11, 6) and message.is_digits(32, 1, 11)):
        return "30"
    if message_class == "4":
        return reversal_verdict(message)
    if message_class == "2" and is_advice(message.mti) and 90 in message.elements:
        return original_refusal(message, "1") or payment_verdict(message, original(message))
    return payment_verdict(message, None)


def network_verdict(message):
    """Class 8: signing on and off, and the echo test."""
    if not message.is_digits(70, 3):
        return "30"
    return "00" if message.elements[70] in NETWORK else "12"


def reversal_verdict(message):
    """Class 4: undo the transaction in 90, but for what 95 leaves."""
    left = message.elements.get(95)
    if left is not None and not (len(left) == 42 and are_digits(left[:12])):
        return "30"
    refusal = original_refusal(message, "12")
    if refusal:
        return refusal
    return Order(key_of(message), "reversal", names=original(message), leaves=int(left[:12]) if left else 0)


def payment_verdict(message, hold):
    """Classes 1 and 2: a debit, a credit, an inquiry, or the completion of a hold."""
    currency = message.elements.get(49, b"")
    if not (message.is_digits(2, 1, 19) and message.is_digits(3, 6) and len(currency) == 3 and in_class("AN", currency)):
        return "30"
    process = message.elements[3][:2]
    if process not in (*DEBITS, *CREDITS, INQUIRY):
        return "12"
    if process in CREDITS and (message.mti[1] == "1" or hold) or process == INQUIRY and is_advice(message.mti):
        return "12"
    key, account = key_of(message), message.elements[2]
    if process == INQUIRY:
        return Order(key, "inquiry", account, currency)
    if not message.is_digits(4, 12):
        return "30"
    amount = int(message.elements[4])
    if amount == 0:
        return "13"
    act = "completion" if hold else "debit" if process in DEBITS else "credit"
    return Order(key, act, account, currency, amount, hold)


# ---- the key of a message, and that of the transaction which it names

def key_of(message):
    """The message type without its repeat digit, the trace number, the time and the acquirer."""
    trace, time, acquirer = (int(message.elements[number]) for number in (11, 7, 32))
    return Key(without_repeat(message.mti), trace, time, acquirer)


def original_refusal(message, classes):
    """Why element 90 names no transaction of these classes: a code, or nothing where it names one."""
    if not message.is_digits(90, 42):
        return "30"
    mti, acquirer = message.elements[90][:4].decode(), int(message.elements[90][20:31])
    if mti[0] != "0" or mti[1] not in classes or not (is_request(mti) or is_advice(mti)) or mti[3] > "5":
        return "12"
    return None if acquirer in (0, int(message.elements[32])) else "12"


def original(message):
    """The key that element 90 names: its type, trace number and time, under the message's own acquirer."""
    digits = message.elements[90]
    return Key(without_repeat(digits[:4].decode()), int(digits[4:10]), int(digits[10:20]), int(message.elements[32]))
