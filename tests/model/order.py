"""Orders: what is asked of an issuer."""
from dataclasses import dataclass


@dataclass(frozen=True)
class Key:
    """What all deliveries of one transaction share."""
    mti: str               # without its repeat digit
    trace: int
    time: int
    acquirer: int          # a number: zeros in front don't count


@dataclass(frozen=True)
class Order:
    """An order. Two orders are the same where all of this is."""
    key: Key
    act: str               # debit, credit, inquiry, completion or reversal
    account: bytes | None = None
    currency: bytes | None = None
    amount: int = 0
    names: Key | None = None    # the hold that a completion ends, the transaction that a reversal takes back
    leaves: int = 0             # how much of its amount a reversal leaves

    def is_hold(self):
        """A debit of class 1 keeps an amount from being spent."""
        return self.act == "debit" and self.key.mti[1] == "1"
