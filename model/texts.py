"""Texts and their values: moments, keys, addresses, prefixes, endpoints, logins, labels, domains, tags."""

import datetime
import ipaddress
import re

FIRST_MOMENT = -62135596800  # 0001-01-01T00:00:00Z, which as a time is as absent
LAST_MOMENT = 253402300799  # 9999-12-31T23:59:59Z
SECONDS_OF_400_YEARS = 146097 * 86400
ZERO_KEY = "0" * 64

DATE_TIME = re.compile(
    r"([0-9]{4})-([0-9]{2})-([0-9]{2})T([0-9]{2}):([0-9]{2}):([0-9]{2})(?:\.[0-9]+)?(?:Z|([+-])([0-9]{2}):([0-9]{2}))"
)
FIRST_DAY = datetime.datetime(1, 1, 1)


def clamped(seconds):
    return max(FIRST_MOMENT, min(LAST_MOMENT, seconds))


def moment_of(text):
    """The moment that a text spells, or None."""
    match = DATE_TIME.fullmatch(text)
    if not match:
        return None
    year, month, day, hour, minute, second = (int(part) for part in match.groups()[:6])
    sign, offset_hours, offset_minutes = match.groups()[6:]
    if sign and (int(offset_hours) > 23 or int(offset_minutes) > 59):
        return None
    # (by its offset a time of the year 0 may lie in the year 1; the calendar repeats after 400 years)
    cycles = 1 if year == 0 else 0
    try:
        local = datetime.datetime(year + 400 * cycles, month, day, hour, minute, second)
    except ValueError:
        return None
    moment = FIRST_MOMENT + round((local - FIRST_DAY).total_seconds()) - cycles * SECONDS_OF_400_YEARS
    if sign:
        offset = int(offset_hours) * 3600 + int(offset_minutes) * 60
        moment += -offset if sign == "+" else offset
    return moment if FIRST_MOMENT <= moment <= LAST_MOMENT else None


def moment_text(moment):
    """The text of a moment; of none, the zero time."""
    at = FIRST_DAY + datetime.timedelta(seconds=(FIRST_MOMENT if moment is None else moment) - FIRST_MOMENT)
    return f"{at.year:04}-{at:%m-%dT%H:%M:%S}Z"


def key_of(head, text):
    """The 64 lower-case digits of a key's text with this head, or None."""
    match = re.fullmatch(head + "([0-9a-fA-F]{64})", text)
    return match.group(1).lower() if match else None


def address_of(text):
    """An IPv4 address, or an IPv6 address in hexadecimal groups without a zone; or None."""
    if ":" in text and ("." in text or "%" in text):
        return None
    try:
        return ipaddress.ip_address(text)
    except ValueError:
        return None


def prefix_of(text):
    """A prefix without bits behind its length, or None."""
    match = re.fullmatch("(.*)/(0|[1-9][0-9]{0,2})", text, re.DOTALL)
    address = address_of(match.group(1)) if match else None
    if address is None or int(match.group(2)) > address.max_prefixlen:
        return None
    try:
        return ipaddress.ip_network((address, int(match.group(2))))
    except ValueError:
        return None


def prefix_order(prefix):
    """By family, base and length."""
    return prefix.version, int(prefix.network_address), prefix.prefixlen


def endpoint_of(text):
    """The written text of an endpoint, or None."""
    match = re.fullmatch(r"(?:([^:\[\]]*)|\[(.*)\]):(0|[1-9][0-9]{0,4})", text, re.DOTALL)
    if not match or int(match.group(3)) > 65535:
        return None
    v4, v6, port = match.groups()
    address = address_of(v6 if v4 is None else v4)
    if address is None or address.version != (4 if v6 is None else 6):
        return None
    return f"{address}:{port}" if v6 is None else f"[{address}]:{port}"


def lowered(text):
    """The text with its ASCII capitals lowered."""
    return re.sub("[A-Z]", lambda match: match.group().lower(), text)


def login_of(text):
    """The login that a text is, with capitals lowered, or None."""
    text = lowered(text)
    return text if re.fullmatch(r"[a-z0-9._+-]{1,63}@[a-z0-9.-]{0,63}", text) else None


def is_label(text):
    return re.fullmatch("[a-z0-9]([a-z0-9-]{0,61}[a-z0-9])?", text) is not None


def is_domain(text):
    """Labels joined by dots, no longer than a name in the DNS may be."""
    return len(text) <= 253 and all(is_label(label) for label in text.split("."))


def is_tag(text):
    return re.fullmatch("tag:[A-Za-z][A-Za-z0-9-]{0,62}", text) is not None


def label_of_host(host):
    """The label that a host name results in."""
    label = re.sub(rb"[^a-z0-9]+", b"-", lowered(host).encode())
    return label[:63].strip(b"-").decode() or "node"


def numbered(label, number):
    """The label with a number, cut so that both fit into 63 bytes."""
    end = f"-{number}"
    return label[: 63 - len(end)].rstrip("-") + end
