"""Decimal numbers of tables as whole numbers of a smaller unit, exactly."""
import re

from .tables import Refused

NUMBER = re.compile(r"[-+]?(?:[0-9]+\.?[0-9]*|\.[0-9]+)(?:[eE][-+]?[0-9]{1,3})?")
PLAIN = re.compile(r"-?(?:0|[1-9][0-9]*)(\.[0-9]+)?")
LONGEST = 1000


def whole(text, digits):
    """Returns a decimal number times 10^digits."""
    if len(text) > LONGEST:
        raise Refused(f"{text[:40]!r}.. is too long for a number")
    plain = PLAIN.fullmatch(text)
    decimals = len(plain[1] or ".") - 1 if plain else 0
    if plain and decimals <= digits:
        return int(text.replace(".", "")) * 10 ** (digits - decimals)
    if not NUMBER.fullmatch(text):
        hint = ": where its comma parts the decimals, say --comma" if re.fullmatch(r"-?[0-9]+,[0-9]+", text) else ""
        raise Refused(f"{text!r} is no number{hint}")
    sign, before, after, power = re.fullmatch(r"([-+]?)([0-9]*)\.?([0-9]*)(?:[eE]([-+]?[0-9]+))?", text).groups()
    value, shift = int(before + after), digits + int(power or 0) - len(after)
    if shift < 0 and value % 10**-shift:
        raise Refused(f"{text} has more than {digits} decimal{'s' * (digits > 1)}" if digits else f"{text} is no whole number")
    value = value * 10**shift if shift >= 0 else value // 10**-shift
    return -value if sign == "-" else value
