"""The four digits of a message type: version, class, function and origin."""

VERSIONS = {"0": "1987", "1": "1993", "2": "2003", "9": "Private"}
CLASSES = {"1": "Authorization", "2": "Financial", "3": "FileAction", "4": "Reversal", "5": "Reconciliation",
           "6": "Administrative", "7": "FeeCollection", "8": "NetworkManagement"}
FUNCTIONS = {"0": "Request", "1": "Response", "2": "Advice", "3": "AdviceResponse"}
ORIGINS = {"0": "Acquirer", "1": "AcquirerRepeat", "2": "Issuer", "3": "IssuerRepeat", "4": "Other", "5": "OtherRepeat"}


def words(mti):
    """What the digits mean. A digit without a meaning is reserved."""
    return " ".join(names.get(digit, f"Reserved({digit})") for names, digit in zip((VERSIONS, CLASSES, FUNCTIONS, ORIGINS), mti))


def without_repeat(mti):
    """The type without its repeat digit: 0201 repeats 0200, 0203 repeats 0202."""
    return mti[:3] + str(int(mti[3]) // 2 * 2)


def is_request(mti):
    """Whether it is a request, of function 0."""
    return mti[2] == "0"


def is_advice(mti):
    """Whether it is an advice, of function 2."""
    return mti[2] == "2"


def response_to(mti):
    """The type of the response to a request or an advice: the next function, and no repeat digit."""
    return mti[:2] + str(int(mti[2]) + 1) + without_repeat(mti)[3]
