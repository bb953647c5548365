"""Times as people write them, as the server reads and writes them, and as the local zone shows them."""

import datetime
import re

from .trouble import Status, Trouble

UNSET = "0001-01-01T00:00:00Z"
UNITS = {"s": 1, "m": 60, "h": 3600, "d": 86400, "w": 604800}
UTC = datetime.timezone.utc
DATES = ("%Y-%m-%d", "%Y-%m-%d %H:%M", "%Y-%m-%dT%H:%M", "%Y-%m-%d %H:%M:%S", "%Y-%m-%dT%H:%M:%S")


def wire_text(moment):
    """A moment as the server reads it."""
    at = moment.astimezone(UTC)
    return f"{at.year:04}-{at:%m-%dT%H:%M:%S}Z"


def moment_of_date(text):
    """A date in the local zone, perhaps with a time, or one with an offset of its own; none if it is neither."""
    for form in DATES:
        try:
            return datetime.datetime.strptime(text, form).astimezone()
        except ValueError:
            continue
    try:
        moment = datetime.datetime.fromisoformat(text)
    except ValueError:
        return None
    return moment if moment.tzinfo else moment.astimezone()


def moment_of(text, now=None):
    """The moment that a person means: `24h` and `7d` are from now on, a date is the beginning of its day."""
    found = re.fullmatch(r"([0-9]{1,9})([smhdw])", text)
    try:
        if found:
            seconds = int(found.group(1)) * UNITS[found.group(2)]
            return (now or datetime.datetime.now(UTC)) + datetime.timedelta(seconds=seconds)
        moment = moment_of_date(text)
        if moment is not None and 1 < moment.astimezone(UTC).year:
            return moment
    except (OverflowError, ValueError):
        pass
    advice = "Write how long from now, as 24h or 7d, or a date, as 2030-01-31 or '2030-01-31 18:00'"
    raise Trouble(f"'{text[:40]}' is no time", advice, Status.WORDS)


def wire_time(text):
    """What a person wrote as a time, as the server reads it."""
    return wire_text(moment_of(text))


def shown(text):
    """A time of the server in the local zone, with the zone's name; the unset one as `never`."""
    if text == UNSET:
        return "never"
    try:
        moment = datetime.datetime.fromisoformat(text.replace("Z", "+00:00")).astimezone()
    except (ValueError, OverflowError):
        return text
    return f"{moment:%Y-%m-%d %H:%M} {moment.tzname()}"


def has_passed(text):
    """Whether a time of the server is behind us, by this machine's clock; the unset one never is."""
    return text != UNSET and datetime.datetime.fromisoformat(text.replace("Z", "+00:00")) <= datetime.datetime.now(UTC)
