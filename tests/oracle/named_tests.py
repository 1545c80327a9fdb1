"""The tests that a query may ask of spans: each is a name and what it says of the span's bytes."""


def luhn(data):
    """Digits, one at least, with the sum of card numbers: from the right each second digit is doubled, 9 is taken off
    where that is more, and the sum is divisible by ten."""
    if not data or any(not 0x30 <= b <= 0x39 for b in data):
        return False
    digits = [b - 0x30 for b in reversed(data)]
    doubled = [2 * digit - 9 if 2 * digit > 9 else 2 * digit for digit in digits[1::2]]
    return (sum(digits[0::2]) + sum(doubled)) % 10 == 0


def upper(data):
    """Capital letters of ASCII, one at least."""
    return len(data) > 0 and all(0x41 <= b <= 0x5a for b in data)


TESTS = {'luhn': luhn, 'upper': upper}
