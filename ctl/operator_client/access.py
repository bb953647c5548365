"""Which server is asked, and with which token: from words, the environment, or a file. A token never stands in words."""

import os
import re
import stat
import tomllib
from dataclasses import dataclass
from urllib.parse import urlsplit

from .trouble import Status, Trouble

USUAL_SERVER = "127.0.0.1:8080"
SYSTEM_FILE = "/etc/tailnetd/ctl.toml"
KEYS = ("server", "token", "token_file")


@dataclass(frozen=True)
class Address:
    """Where a server listens."""

    is_secure: bool
    host: str
    port: int

    def __str__(self):
        host = f"[{self.host}]" if ":" in self.host else self.host
        return f"{'https://' if self.is_secure else ''}{host}:{self.port}"


@dataclass(frozen=True)
class Access:
    """A server, the token for it, and where the token came from."""

    address: Address
    token: str
    source: str


def address_of(text):
    """The address that a text names: `HOST:PORT`, or a URL without a path."""
    no_address = Trouble(
        f"'{text.split('@')[-1][:80]}' is no server's address", "Write it as 127.0.0.1:8080 or https://tail.example", Status.WORDS
    )
    if "@" in text:
        raise Trouble("a server's address has no name or password in it", "Put the token into a file, and name it by --token-file", Status.WORDS)
    try:
        parts = urlsplit(text if "://" in text else f"http://{text}")
        port = parts.port or {"http": 80, "https": 443}.get(parts.scheme)
    except ValueError:
        raise no_address from None
    if parts.scheme not in ("http", "https") or not parts.hostname or parts.path not in ("", "/") or parts.query:
        raise no_address
    if "://" not in text and parts.port is None:
        raise no_address
    return Address(parts.scheme == "https", parts.hostname, port)


def is_open_to_others(path, status):
    """Whether others may read a file. What systemd hands to a unit lies in a folder of its own, where the group's rights are
    those of the unit's user."""
    handed = os.environ.get("CREDENTIALS_DIRECTORY")
    if handed and os.path.dirname(os.path.realpath(path)) == os.path.realpath(handed):
        return bool(status.st_mode & 0o007)
    return stat.S_ISREG(status.st_mode) and bool(status.st_mode & 0o077)


def private_text(path, what):
    """The text of a file that nobody else may read."""
    try:
        with open(path, encoding="utf-8") as file:
            if is_open_to_others(path, os.fstat(file.fileno())):
                advice = f"It holds the operator's token: chmod 600 {path}"
                raise Trouble(f"{path} may be read by others, and isn't used", advice, Status.SETTINGS)
            return file.read(65536)
    except (OSError, ValueError) as fault:
        why = getattr(fault, "strerror", None) or "it isn't text"
        raise Trouble(f"{what} {path} can't be read: {why}", "Name another one, or run as who may read it", Status.SETTINGS) from None


def token_in(path):
    """The token in a file: its one line."""
    text = private_text(path, "the token's file")
    token = text.removesuffix("\n").removesuffix("\r")
    if not re.fullmatch(r"[\x21-\x7e]{1,255}", token):
        raise Trouble(f"{path} holds no token", "A token is one line of 1 to 255 visible ASCII characters", Status.SETTINGS)
    return token


def own_file(environment):
    """The file that keeps server and token for the user, or for the machine; none if there is neither."""
    home = environment.get("XDG_CONFIG_HOME") or f"{environment.get('HOME', '')}/.config"
    for path in (f"{home}/tailnetd/ctl.toml", SYSTEM_FILE):
        if os.path.exists(path) and (path != SYSTEM_FILE or os.access(path, os.R_OK)):
            return path
    return None


def kept_settings(path):
    """What `ctl.toml` says."""
    try:
        found = tomllib.loads(private_text(path, "the file"))
    except tomllib.TOMLDecodeError as fault:
        raise Trouble(f"{path} is no TOML: {fault}", 'It has lines as server = "127.0.0.1:8080"', Status.SETTINGS) from None
    wrong = [key for key, value in found.items() if key not in KEYS or not isinstance(value, str)]
    if wrong:
        raise Trouble(f"{path} has a key '{wrong[0]}' that isn't known, or no text at it", f"There are {', '.join(KEYS)}", Status.SETTINGS)
    if "token" in found and "token_file" in found:
        raise Trouble(f"{path} has both token and token_file", "Leave one of them out", Status.SETTINGS)
    return found


def token_of(words, environment, kept, path, address):
    """The token, and where it came from."""
    for source, named in (("--token-file", words.token_file), ("TAILNETD_TOKEN_FILE", environment.get("TAILNETD_TOKEN_FILE"))):
        if named:
            return token_in(named), f"{named} (by {source})"
    if "token" not in kept and "token_file" not in kept:
        advice = "Name its file by --token-file or TAILNETD_TOKEN_FILE, or write ~/.config/tailnetd/ctl.toml with token_file = \"..\""
        if os.path.exists(SYSTEM_FILE) and not os.access(SYSTEM_FILE, os.R_OK):
            advice = f"Run it as root, whose {SYSTEM_FILE} is; or name a file of your own by --token-file or TAILNETD_TOKEN_FILE"
        raise Trouble("there is no token", advice, Status.SETTINGS)
    if "server" in kept and address_of(kept["server"]) != address:
        advice = "Name the file of its token by --token-file"
        raise Trouble(f"the token in {path} is for {kept['server']}, and not for {address}", advice, Status.SETTINGS)
    if "token_file" in kept:
        named = os.path.join(os.path.dirname(path), os.path.expanduser(kept["token_file"]))
        return token_in(named), f"{named} (by {path})"
    return kept["token"], path


def is_named(words, environment):
    """Whether words, the environment or a file name a server or a token."""
    names = (words.server, words.token_file, environment.get("TAILNETD_SERVER"), environment.get("TAILNETD_TOKEN_FILE"))
    return any(names) or own_file(environment) is not None


def access_of(words, environment):
    """Which server is asked, and with which token."""
    path = own_file(environment)
    named = words.server or environment.get("TAILNETD_SERVER")
    needs_file = not (named and (words.token_file or environment.get("TAILNETD_TOKEN_FILE")))
    kept = kept_settings(path) if path and needs_file else {}
    address = address_of(named or kept.get("server", USUAL_SERVER))
    return Access(address, *token_of(words, environment, kept, path, address))
