"""How people write times and money, read as the whole numbers of the tables."""
import re
import unicodedata

from . import formats
from .formats import DURATION, MINUTE, MONEY

CLOCK = re.compile(r"(\d{1,2})\s*[:h]\s*(\d{2})(?::00(?:[.,]0+)?)?\s*([ap]\.?m\.?)?", re.IGNORECASE)
MINUTES = re.compile(r"(\d+)(?:[.,]0+)?\s*(?:'|’|′|m|min|min\.|mins|minutes?)?", re.IGNORECASE)
NEXT_DAY = re.compile(r"\s*\+\s*1(?:d|day)?\s*|\s*\(\+1\)\s*", re.IGNORECASE)
OCLOCK = re.compile(r"\s*(?:uhr|o'clock|hrs)\.?$", re.IGNORECASE)
CURRENCY = re.compile(r"[€$£]|\b(?:EUR|CHF|USD|GBP|SEK|NOK|DKK|PLN|CZK|Fr)\b\.?|\.[-–—]", re.IGNORECASE)
SPACES = re.compile(r"[\s\u00a0\u2007\u2009\u202f]+")
GROUPED = re.compile(r"\d{1,3}(?:['’.,]\d{3})+")
DECIMAL = re.compile(r"(\d+)[.,](\d{1,2})")


class Unclear(Exception):
    """What is wrong with a field, as the rest of a sentence that begins with its value."""


def stripped(text):
    """A text without the spaces around it, also those that don't break a line."""
    return text.strip().strip("\ufeff\u200b").strip()


def ascii_digits(text):
    """A text with the digits of other scripts as those of ASCII."""
    return "".join(str(unicodedata.digit(letter)) if unicodedata.digit(letter, None) is not None else letter for letter in text)


def hours_and_minutes(found):
    """The minutes of a clock time that was found; None where it is none."""
    hours, minutes, half = int(found[1]), int(found[2]), (found[3] or "").lower()
    if minutes > 59 or hours > 47 or (half and not 1 <= hours <= 12):
        return None
    if half:
        hours = hours % 12 + (12 if half.startswith("p") else 0)
    return 60 * hours + minutes


def clock_minute(text):
    """The minute of a clock time such as 7:30, 07:30:00, 7:30 pm, 31:30 or 7:30+1; None where it is none."""
    day, count = NEXT_DAY.subn("", text)
    found = CLOCK.fullmatch(OCLOCK.sub("", day.strip()))
    minute = hours_and_minutes(found) if found else None
    return None if minute is None or count > 1 else minute + 1440 * count


def day_fraction(text):
    """The minute of a share of a day, as spreadsheets keep times (0.3125 is 7:30); None where it is none."""
    if not re.fullmatch(r"[01]?[.,]\d{2,}", text):
        return None
    minutes = float(text.replace(",", ".")) * 1440
    return round(minutes) if abs(minutes - round(minutes)) < 0.01 else None


def minute_of(text):
    """A minute of the two days, of a clock time or of minutes from midnight."""
    text = stripped(text)
    for minute in (clock_minute(text), day_fraction(text)):
        if minute is not None:
            return minute
    if text.isascii() and text.isdigit():
        return int(text)
    meant = OCLOCK.sub("", text).replace(".", ":").replace(",", ":")
    raise Unclear("is no time" if clock_minute(meant) is None else f"is no time, and {meant} is")


def duration_of(text):
    """Whole minutes, of a number or of hours and minutes."""
    text = stripped(text)
    found = MINUTES.fullmatch(text)
    if found:
        return int(found[1])
    minute = clock_minute(text)
    if minute is not None:
        return minute
    if re.fullmatch(r"\d+[.,]\d+", text):
        raise Unclear("is a fraction")
    raise Unclear("is no number of minutes")


def plain_money(text):
    """Money without its currency, spaces and signs of thousands; the sign of decimals is a point."""
    text = SPACES.sub("", CURRENCY.sub("", text))
    grouped = GROUPED.match(text)
    rest = text[grouped.end():] if grouped else ""
    if grouped and re.fullmatch(r"[.,]\d{1,2}", rest) or grouped and not rest and not re.fullmatch(r"\d{1,3}[.,]\d{3}", text):
        return re.sub(r"\D", "", grouped[0]) + rest.replace(",", ".")
    return text.replace(",", ".")


def is_in_units(text):
    """Whether money is written with decimals or a currency, so that it is no number of cents."""
    return DECIMAL.fullmatch(plain_money(text)) is not None or CURRENCY.search(text) is not None


def money_of(text, in_cents):
    """Cents, of a number of cents or of whole units with decimals."""
    plain = plain_money(text)
    found = DECIMAL.fullmatch(plain)
    if found and not in_cents:
        return 100 * int(found[1]) + int(found[2].ljust(2, "0"))
    if plain.isascii() and plain.isdigit():
        return int(plain) * (1 if in_cents else 100)
    if re.fullmatch(r"\d{1,3}\.\d{3}", plain):
        raise Unclear("may be thousands or a fraction")
    raise Unclear("is no amount of money")


def in_words(kind):
    """What a kind of number is, as advice."""
    return {MINUTE: "minutes from midnight", DURATION: "whole minutes", MONEY: "whole cents"}.get(kind, "a whole number")


def read_by_kind(kind, text):
    """The number that is most likely meant, and what was written; or Unclear."""
    if kind == MINUTE:
        found = minute_of(text)
        return found, "a share of a day" if ":" not in text and re.search(r"[.,]", text) else "a clock time"
    if kind == MONEY:
        return money_of(text, in_cents=not is_in_units(text)), "money with decimals" if re.search(r"[.,]\d{1,2}\b", text) else "money with signs"
    return duration_of(text), "a number with a sign"


def simple_advice(text):
    """What is wrong with a number whatever it means, and what to write; None where it is something else."""
    plain = stripped(text)
    if plain == "":
        return "is empty"
    if plain != text and formats.is_number(plain):
        return f"has spaces around it; write {plain}"
    if re.fullmatch(r"\+\d{1,10}", plain):
        return f"has a sign; write {plain[1:]}"
    if re.fullmatch(r"[-−–]\s*\d+([.,]\d+)?", plain):
        return "is negative"
    if re.fullmatch(r"\d{11,}", plain):
        return "has more than 10 digits"
    if formats.is_number(ascii_digits(plain)):
        return f"has digits of another script; write {ascii_digits(plain)}"
    return None


def advice(column, text):
    """Of a field that is no number: what is wrong and what to write instead, as the rest of a sentence."""
    kind, (low, high) = formats.KINDS[column], formats.RANGES[column]
    wanted = f"write {in_words(kind)}, {low} to {high}"
    simple = simple_advice(text)
    if simple:
        return simple if "write" in simple else f"{simple}; {wanted}"
    try:
        number, what = read_by_kind(kind, text)
    except Unclear as fault:
        return f"{fault}; {wanted}"
    return f"is {what}; write {number} ({in_words(kind)})"
