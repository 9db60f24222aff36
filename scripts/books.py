"""What moved on the accounts of a journal, by its entries and by the balances that are told of it."""
import json

from traffic import journal_told


def masked(pan):
    """An account number as the journal shows it."""
    return pan[:6].decode() + "*" * (len(pan) - 10) + pan[-4:].decode()


def name_of(told):
    """What names an order, in an entry or in what a reversal is of."""
    return tuple(told[part] for part in ("type", "trace", "time", "acquirer"))


def moved_by_entries(book, pans):
    """What the entries add to each account, less what was reversed."""
    taken_back = {name_of(entry["of"]) for entry in book if entry["what"] == "reversal"}
    sums = dict.fromkeys(map(masked, pans), 0)
    for entry in book:
        if entry["code"] == "00" and entry["what"] in ("debit", "credit") and name_of(entry) not in taken_back:
            sums[entry["account"]] += entry["amount"] if entry["what"] == "credit" else -entry["amount"]
    return sums


def moved_by_ledgers(command, folder, pans, journal="journal"):
    """What the ledger of each account moved by, as `rumpadol journal balance` tells it."""
    sums = dict.fromkeys(map(masked, pans), 0)
    for line in journal_told(command, folder, "balance", journal, "--accounts", "accounts.json", "--json"):
        row = json.loads(line)
        sums[row["account"]] += row["ledger"] - row["opening"]
    return sums
