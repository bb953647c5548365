"""The words of the command line."""

import argparse
from functools import cache

from . import editing, nodes, people, policies, reaching, records
from .trouble import Status
from .version import version

DESCRIPTION = "What an operator of a tailnet types. The server and the token come from ~/.config/tailnetd/ctl.toml, the environment or the options below."


class Words(argparse.ArgumentParser):
    """A parser that takes no abbreviated options, so that `--token X` isn't `--token-file X`."""

    def __init__(self, **settings):
        super().__init__(allow_abbrev=False, **settings)

    def error(self, message):
        self.exit(Status.WORDS, f"{self.prog}: {message}. See {self.prog} --help.\n")


def shared():
    """The options that stand anywhere."""
    options = Words(add_help=False, argument_default=argparse.SUPPRESS)
    options.add_argument("--server", metavar="ADDRESS", help="the server, as 127.0.0.1:8080 or https://tail.example (TAILNETD_SERVER)")
    options.add_argument("--token-file", metavar="FILE", help="the file whose one line is the operator's token (TAILNETD_TOKEN_FILE)")
    options.add_argument("--json", action="store_true", default=argparse.SUPPRESS, help="write the server's JSON in place of a table")
    options.add_argument("--version", action="version", version=f"tailnetctl {version()}")
    return options


class Group:
    """The commands at one place of the line."""

    def __init__(self, parser, options, required=True):
        self.options = options
        self.commands = parser.add_subparsers(metavar="COMMAND", required=required)

    def add(self, name, run, sentence, **settings):
        command = self.commands.add_parser(name, parents=[self.options], help=sentence, description=f"{sentence[0].upper()}{sentence[1:]}.", **settings)
        command.set_defaults(run=run)
        return command

    def inner(self, name, sentence, run=None):
        command = self.add(name, run, sentence)
        return Group(command, self.options, required=run is None)


def tag_list(text):
    """Tags joined by commas; `none` is the empty list."""
    return [] if text == "none" else [tag if tag.startswith("tag:") else f"tag:{tag}" for tag in text.split(",")]


def add_yes(command):
    command.add_argument("--yes", action="store_true", help="don't ask")


def add_nodes(top):
    top.add("nodes", nodes.nodes, "list the machines")
    group = top.inner("node", "rename, tag, route, expire and remove a machine")
    named = {"help": "the machine's name, address or id"}
    command = group.add("rename", nodes.rename, "give a machine another name")
    command.add_argument("node", **named)
    command.add_argument("name")
    command = group.add("tags", nodes.tags, "replace a machine's tags")
    command.add_argument("node", **named)
    command.add_argument("tags", type=tag_list, metavar="TAGS", help="as tag:web,tag:db, or none")
    command = group.add("routes", nodes.routes, "list a machine's routes, and which are in effect")
    command.add_argument("node", **named)
    command = group.add("approve", nodes.approve, "approve routes beside those approved before; all advertised ones if none is named")
    command.add_argument("node", **named)
    command.add_argument("routes", nargs="*", metavar="ROUTE")
    command.add_argument("--none", action="store_true", help="take every approval back")
    command = group.add("expire", nodes.expire, "let a machine's node key expire, now or at a time")
    command.add_argument("node", **named)
    command.add_argument("time", nargs="?", metavar="TIME", help="as 24h, 7d or 2030-01-31; now if it is left out")
    command = group.add("remove", nodes.remove, "remove a machine")
    command.add_argument("node", **named)
    add_yes(command)


def add_people(top):
    top.add("users", people.users, "list the users")
    group = top.inner("user", "add and remove users")
    group.add("add", people.add_user, "add a user").add_argument("name", help="a name, or a login as ann@example.org")
    command = group.add("remove", people.remove_user, "remove a user, with all keys of the user")
    command.add_argument("login")
    add_yes(command)
    command = top.add("keys", people.keys, "list the pre-auth keys")
    command.add_argument("--show", action="store_true", help="show the keys whole, and not their beginnings")
    group = top.inner("key", "make and expire pre-auth keys")
    command = group.add("make", people.make_key, "make a pre-auth key for a user's machines")
    command.add_argument("login")
    command.add_argument("--reusable", action="store_true", help="for any number of machines")
    command.add_argument("--ephemeral", action="store_true", help="for machines that are removed when they are gone")
    command.add_argument("--expiry", metavar="TIME", help="as 24h, 7d or 2030-01-31; never if it is left out")
    command.add_argument("--tags", type=tag_list, default=[], metavar="TAGS", help="as tag:web,tag:db")
    command.add_argument("--bare", action="store_true", help="write the key alone, for scripts")
    command = group.add("expire", people.expire_key, "let a pre-auth key expire now")
    command.add_argument("key", help="its id, or its text")
    add_yes(command)


def add_waiting(top):
    top.add("pending", people.pending, "list the machines that wait to be admitted")
    command = top.add("admit", people.admit, "admit a machine that waits, for a user")
    command.add_argument("entry", help="its host name, or its entry, as reg-2")
    command.add_argument("login")
    top.add("sweep", nodes.sweep, "remove ephemeral machines that are gone, and waiting ones whose time has passed")
    group = top.inner("dns", "list the extra DNS records, or save others", records.records)
    group.add("save", records.save_records, "put a file's records in the place of all").add_argument("file", help="a JSON list, or - for the input")


def add_policy(top):
    group = top.inner("policy", "show, edit, save and check the policy")
    group.add("show", policies.show, "write the policy in force, byte for byte")
    add_yes(group.add("edit", editing.edit, "edit the policy in force, check it, and save it"))
    group.add("save", policies.save, "save a file as the policy, and put it in force").add_argument("file", help="a file, or - for the input")
    command = group.add("check", policies.check, "check a policy, by the running server if one is named, and save nothing")
    command.add_argument("files", nargs="+", metavar="FILE", help="a file, or - for the input")
    command.add_argument("--offline", action="store_true", help="ask no server, but the program, over no machines")
    command.add_argument("--program", metavar="PATH", help="the program tailnetd that checks offline (TAILNETD_PROGRAM)")
    command.add_argument("--format", choices=("text", "github"), default="text", help="github writes annotations of a workflow")
    command = top.add("can", policies.can, "say whether one end reaches another, by the policy in force, and change nothing")
    command.add_argument("source", metavar="SRC", help="a user, group, tag, machine or address")
    command.add_argument("dest", metavar="DST:PORT", help="the same, a colon, and a port")
    command.add_argument("protocol", nargs="?", metavar="PROTO", help="as tcp or icmp; TCP or UDP if it is left out")
    command = top.add("reach", reaching.reach, "draw which machine reaches which, and by which rule, over the store of a server that stands still")
    command.add_argument("settings", metavar="SETTINGS", help="the server's settings file, which names the store")
    command.add_argument("--program", metavar="PATH", help="the program tailnetd that reads the store (TAILNETD_PROGRAM)")


@cache
def parser():
    """The parser of all words."""
    options = shared()
    words = Words(prog="tailnetctl", description=DESCRIPTION, parents=[options])
    top = Group(words, options)
    add_nodes(top)
    add_people(top)
    add_waiting(top)
    add_policy(top)
    command = top.add("watch", None, "show what a machine is told, as it is told")
    command.set_defaults(watches=True)
    command.add_argument("file", metavar="NODE-KEY-FILE", help="a file with the machine's mkey:.. and nodekey:..")
    command.add_argument("--count", type=int, default=0, metavar="N", help="end after N responses")
    return words


def read(line):
    """The words of a line. The shared options have their defaults from here, since a command's parser would put its own in
    the place of what stood before the command."""
    return parser().parse_args(line, argparse.Namespace(server=None, token_file=None, json=False))
