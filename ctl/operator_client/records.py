"""Commands for extra DNS records."""

import json

from .files import bytes_of
from .shown import plain, print_json, print_table
from .trouble import Status, Trouble


def print_records(words, rows):
    if words.json:
        return print_json(rows)
    lines = [(row["Name"], row["Type"], row["Value"]) for row in rows]
    print_table(("NAME", "TYPE", "VALUE"), lines, "There are no extra records.")


def records(client, words):
    print_records(words, client.value("GET", "/api/v1/dns"))


def save_records(client, words):
    """Puts the records of a file in the place of all that were there."""
    try:
        rows = json.loads(bytes_of(words.file).decode("utf-8"))
    except (ValueError, RecursionError) as fault:
        advice = 'It is a list as [{"Name":"nas.tail.example","Value":"192.168.5.9"}]'
        raise Trouble(f"{plain(words.file)} is no JSON: {plain(fault)}", advice, Status.WORDS) from None
    print_records(words, client.value("PUT", "/api/v1/dns", rows))
