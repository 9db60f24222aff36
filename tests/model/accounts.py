"""The document of accounts."""
import re
from dataclasses import dataclass

from .json_text import I64, NotJson, has_members, is_whole, value_of
from .refused import Refused

PAN = re.compile("[0-9]{1,19}")
CURRENCY = re.compile("[0-9A-Za-z]{3}")
MOST = 9_000_000_000_000_000


@dataclass(frozen=True)
class Account:
    """Whose number, in which currency, and with what it opens, in minor units."""
    number: bytes
    currency: bytes
    opening: int


def read_accounts(text):
    """The accounts of a document, or the first thing that is wrong with it. Places count from 0."""
    try:
        document = value_of(text)
    except NotJson:
        raise Refused("accounts NotJson") from None
    if not has_members(document, ("accounts",)) or not isinstance(document["accounts"], list):
        raise Refused("accounts Shape")
    if not all(map(has_shape, document["accounts"])):
        raise Refused("accounts Shape")
    accounts = [Account(given["pan"].encode(), given["currency"].encode(), given["opening"]) for given in document["accounts"]]
    for place, account in enumerate(accounts):
        if abs(account.opening) > MOST:
            raise Refused(f"accounts OutOfRange {place}")
        if account.number in (earlier.number for earlier in accounts[:place]):
            raise Refused(f"accounts Twice {place}")
    return accounts


def has_shape(given):
    """Whether a value is an account, with no member but its three."""
    return (has_members(given, ("pan", "currency", "opening"))
            and isinstance(given["pan"], str) and PAN.fullmatch(given["pan"]) is not None
            and isinstance(given["currency"], str) and CURRENCY.fullmatch(given["currency"]) is not None
            and is_whole(given["opening"], -I64, I64 - 1))
