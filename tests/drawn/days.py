"""A host's day: accounts, and frames.

Keys and account numbers come from small pools, so that repeats, changed repeats, and reversals and completions before and after
what they name come by themselves.
"""
from dataclasses import dataclass, replace

from model.frames import SIZES, frame
from model.message import Message
from model.message_type import is_advice
from model.order import Key, Order
from model.part import value_fault
from model.request import request

from .messages import draw_characters, draw_message, draw_value, spell
from .spoiling import damage

MOST = 999_999_999_999
PAYMENTS = ["0100", "0100", "0120", "0200", "0200", "0200", "0220", "0220", "0202", "0224", "0104"]
REVERSALS = ["0400", "0420", "0420", "0422"]
MORE = [5, 12, 13, 14, 22, 33, 35, 37, 41, 42, 48, 52, 55, 60, 70, 90, 95, 102, 128]
PROCESSES = [b"000000", b"010000", b"200000", b"210000", b"310000", b"400000", b"001000", b"990000"]
OPENINGS = [0, -50, MOST - 100, MOST, MOST + 1, -MOST, -MOST - 1, 9 * 10 ** 15, -9 * 10 ** 15]
CURRENCIES = ["840", "978", "usd", "USD"]


@dataclass
class Pools:
    """What a day's orders are made of."""
    accounts: list         # as the document has them
    keys: list             # of payments
    reversal_keys: list
    orders: dict           # the order that each key has asked for first


def draw_accounts(draw):
    """The accounts of a document. Openings are small, or at a limit."""
    numbers = draw.sample(["1", "01", "4111111111111111", "378282246310005", "9" * 19, "0"], draw.choice([0, 1, 1, 1, 2, 4]))
    return [{"pan": number, "currency": draw.choice(CURRENCIES),
             "opening": draw.choice([5000, 9000, draw.randint(0, 20_000), draw.choice(OPENINGS)])} for number in numbers]


def draw_pools(draw, accounts):
    """Few keys, so that they come again."""
    traces, times = range(1, draw.choice([3, 6, 20])), (102030405, 102030405, 9999999999)
    acquirers = (12345, 12345, 12345, draw.choice([0, 99999999999]))

    def keys(types, count):
        return [Key(draw.choice(types), draw.choice(traces), draw.choice(times), draw.choice(acquirers)) for _ in range(count)]
    return Pools(accounts, keys(PAYMENTS, draw.choice([3, 8, 30])), keys(REVERSALS, draw.choice([2, 5, 20])), {})


# ---- orders

def draw_order(draw, pools):
    """An order of the pools: mostly the one that its key has asked for already."""
    key = draw.choice(pools.reversal_keys if draw.random() < 0.3 else pools.keys)
    if key in pools.orders and draw.random() < 0.85:
        return pools.orders[key]
    order = draw_reversal(draw, pools, key) if key.mti[1] == "4" else draw_payment(draw, pools, key)
    return pools.orders.setdefault(key, order) if draw.random() < 0.5 else order


def draw_reversal(draw, pools, key):
    """A reversal, whole or but for a part."""
    named = replace(draw.choice(pools.keys), acquirer=key.acquirer)
    return Order(key, "reversal", names=named, leaves=draw.choice([0, 0, 1, 400, draw_amount(draw, pools)]))


def draw_payment(draw, pools, key):
    """A debit, a credit, an inquiry or a completion, mostly on an account that there is and in its currency."""
    account, currency = draw_account(draw, pools)
    holds = [hold for hold in pools.keys if hold.mti[1] == "1"]
    act = draw.choice(["debit", "debit", "debit", "credit", "inquiry", "inquiry"])
    if is_advice(key.mti) and key.mti[1] == "2" and holds and draw.random() < 0.7:
        hold = replace(draw.choice(holds), acquirer=key.acquirer)
        if hold in pools.orders and draw.random() < 0.8:
            account, currency = pools.orders[hold].account, pools.orders[hold].currency
        return Order(key, "completion", account, currency, draw_amount(draw, pools), hold)
    if act == "inquiry" and not is_advice(key.mti):
        return Order(key, "inquiry", account, currency)
    act = "credit" if act == "credit" and key.mti[1] == "2" else "debit"
    return Order(key, act, account, currency, draw_amount(draw, pools))


def draw_account(draw, pools):
    """The number of an account and a currency; sometimes there is no such account, or it has another currency."""
    if not pools.accounts or draw.random() < 0.05:
        return draw.choice([b"4000000000000002", b"0" * 19, b"2"]), b"840"
    given = draw.choice(pools.accounts)
    return given["pan"].encode(), (given["currency"] if draw.random() < 0.95 else draw.choice(CURRENCIES)).encode()


def draw_amount(draw, pools):
    """An amount: a small one, a round one, what an account opens with or one more, or the greatest."""
    openings = [abs(account["opening"]) for account in pools.accounts] or [1]
    opening = draw.choice(openings)
    amount = draw.choice([1, 100, 1000, 2500, 5000, draw.randint(1, 6000), opening, opening + 1, MOST])
    return min(max(amount, 1), MOST)


# ---- messages

def draw_request(draw, table, pools):
    """The request for an order, sometimes with more elements, and sometimes with something wrong."""
    message = request(draw_order(draw, pools))
    elements = dict(message.elements)
    if message.elements.get(3) == b"000000" and draw.random() < 0.2:
        elements[3] = b"010000"
    if message.elements.get(3) == b"200000" and draw.random() < 0.2:
        elements[3] = b"210000"
    if draw.random() < 0.3:
        for number in draw.sample(MORE, draw.randint(1, 4)):
            if number in table.rows and number not in elements:
                elements[number] = draw_value(draw, table.rows[number])
    mti = message.mti[:3] + str(int(message.mti[3]) + (draw.random() < 0.2))
    return spoil_message(draw, table, Message(mti, elements)) if draw.random() < 0.15 else Message(mti, elements)


def spoil_message(draw, table, message):
    """A message with one thing that is wrong in it, or only other."""
    mti, elements = message.mti, dict(message.elements)
    kind = draw.choice(["type", "digit", "gone", "process", "amount", "original", "replacement", "value", "zeros"])
    if kind == "type":
        mti = f"0{draw.randint(0, 999):03d}"
    if kind == "digit":
        place = draw.randint(1, 3)
        mti = mti[:place] + draw.choice("0123456789") + mti[place + 1:]
    if kind == "gone":
        del elements[draw.choice(sorted(elements))]
    if kind == "process":
        elements[3] = draw.choice(PROCESSES)
    if kind == "amount":
        elements[4] = draw.choice([b"0" * 12, b"9" * 12])
    if kind == "original":
        elements[90] = draw_original(draw, elements.get(90, draw_characters(draw, "N", 42)))
    if kind == "replacement":
        elements[95] = draw.choice([b"0" * 42, b"9" * 42, b"A" * 42, b"00000000001" + b"D" * 31, b"000000000400" + b"D" * 30])
    if kind == "value":
        number = draw.choice([number for number in elements if number in table.rows] or [7])
        elements[number] = draw_value(draw, table.rows[number])
    if kind == "zeros" and 32 in elements:
        elements[32] = elements[32].zfill(draw.randint(1, 11))
    return Message(mti, elements)


def draw_original(draw, digits):
    """An element 90 with another message type, acquirer or institution."""
    near = b"0%d%d%d" % (draw.randint(0, 4), draw.randint(0, 3), draw.randint(0, 6))
    mti = draw.choice([digits[:4], b"%04d" % draw.randint(0, 9999), near])
    acquirer = draw.choice([digits[20:31], b"0" * 11, b"00000054321"])
    return mti + digits[4:20] + acquirer + draw.choice([digits[31:], b"9" * 11])


def draw_network(draw):
    """A sign-on, a sign-off, an echo test, or what is none."""
    elements = {7: b"0102030405", 11: b"%06d" % draw.randint(0, 20), 70: draw.choice([b"001", b"002", b"301", b"161", b"003"])}
    for number in (7, 11, 70):
        if draw.random() < 0.1:
            del elements[number]
    return Message(draw.choice(["0800", "0801", "0820", "0810", "0805", "0809"]), elements)


# ---- frames

def draw_frames(draw, table, header, accounts):
    """The frames of a day, what is then available on each account, and an end that may be bad."""
    pools, bodies = draw_pools(draw, accounts), []
    for _ in range(draw.choice([0, 1, 5, 20, 40, 60])):
        bodies.append(draw_body(draw, table, pools, bodies))
    if draw.random() < 0.9:
        bodies += [spell_known(draw, table, last_inquiry(trace, account)) for trace, account in enumerate(accounts, 900_000)]
    frames = [frame(header, body) for body in bodies if len(body) <= (65_535 if header == "binary2" else 9_999)]
    if draw.random() < 0.25:
        frames.append(draw_bad_end(draw, header, frames))
    return frames


def last_inquiry(trace, account):
    """An inquiry that shows what a day has left on an account."""
    return request(Order(Key("0200", trace, 1231235959, 12345), "inquiry", account["pan"].encode(), account["currency"].encode()))


def draw_body(draw, table, pools, bodies):
    """A body: mostly a request, or one that came before."""
    kind = draw.choices(["request", "repeat", "network", "any", "damaged", "bytes", "long"], [60, 15, 5, 5, 6, 2, 3])[0]
    if kind == "repeat" and bodies:
        return as_repeat(draw, table, draw.choice(bodies))
    if kind == "bytes":
        return draw.randbytes(draw.choice([0, 1, 3, 20, 5000]))
    if kind == "any":
        return spell(draw, table, draw_message(draw, table))
    if kind == "network":
        return spell_known(draw, table, draw_network(draw))
    message = draw_request(draw, table, pools)
    if kind == "long":
        long_ones = [number for number, row in table.rows.items() if row.max > 100 and number not in message.elements]
        some = {number: table.rows[number] for number in draw.sample(long_ones, min(len(long_ones), 9))}
        more = {number: draw_characters(draw, row.char_class, row.max) for number, row in some.items()}
        message = Message(message.mti, message.elements | more)
    body = spell_known(draw, table, message)
    return damage(draw, body) if kind == "damaged" else body


def spell_known(draw, table, message):
    """A spelling of a message without what the table can't write."""
    return spell(draw, table, Message(message.mti, {number: value for number, value in message.elements.items()
                                                    if number in table.rows and value_fault(table.rows[number], value) is None}))


def as_repeat(draw, table, body):
    """A body again, with the digit of a repeat where its type is of ASCII digits."""
    if table.mti == "ascii" and body[3:4] == b"0" and draw.random() < 0.5:
        return body[:3] + b"1" + body[4:]
    return body


def draw_bad_end(draw, header, frames):
    """Bytes in which a stream ends badly: a part of a frame, or a header that isn't of digits."""
    if frames and draw.random() < 0.5:
        whole = draw.choice(frames)
        return whole[:draw.randint(1, len(whole))]
    ends = [b"\n", b"0", b"00", b"008", b"00A2", b"0082", b"\x00Z", b"\xa0\x00", b"-001", b" 123", draw.randbytes(SIZES[header])]
    return draw.choice(ends)
