"""Bodies of requests: each is read field by field, and the first fault is the answer."""

from jsons import value_of_json
from texts import (
    FIRST_MOMENT,
    ZERO_KEY,
    address_of,
    endpoint_of,
    is_domain,
    is_tag,
    key_of,
    moment_of,
    prefix_of,
    prefix_order,
)


class BodyFault(Exception):
    """A body, or the header with a machine's key, is at fault."""

    def __init__(self, error, field=None):
        super().__init__(error)
        self.answer = {"error": error} if field is None else {"error": error, "field": field}


def value_of(body, wanted):
    """The JSON value of this type that a body is."""
    try:
        value = value_of_json(body)
    except ValueError:
        raise BodyFault("NotJson") from None
    if not isinstance(value, wanted):
        raise BodyFault("NotJson")
    return value


def object_of(body):
    return value_of(body, dict)


class Fields:
    """The fields of an object. A field that is null is as absent, which is None."""

    def __init__(self, members):
        self.members = members

    def required(self, name):
        value = self.members.get(name)
        if value is None:
            raise BodyFault("Missing", name)
        return value

    def of_type(self, name, wanted):
        value = self.members.get(name)
        if value is not None and type(value) is not wanted:
            raise BodyFault("BadField", name)
        return value

    def inner(self, name):
        """An object; an absent one is None."""
        members = self.of_type(name, dict)
        return None if members is None else Fields(members)

    def text(self, name):
        self.required(name)
        return self.of_type(name, str)

    def flag(self, name):
        return self.of_type(name, bool) or False

    def number(self, name, most):
        value = self.of_type(name, int)
        if value is not None and not 0 <= value <= most:
            raise BodyFault("BadField", name)
        return value or 0

    def host(self, name):
        value = self.of_type(name, str)
        if value is not None and len(value.encode()) > 255:
            raise BodyFault("BadField", name)
        return value

    def time(self, name):
        value = self.of_type(name, str)
        if value is None:
            return None
        moment = moment_of(value)
        if moment is None:
            raise BodyFault("BadField", name)
        return None if moment == FIRST_MOMENT else moment

    def key(self, name, head):
        """A key; a zero or absent one is None."""
        value = self.of_type(name, str)
        if value is None:
            return None
        key = key_of(head, value)
        if key is None:
            raise BodyFault("BadField", name)
        return None if key == ZERO_KEY else key

    def node_key(self):
        self.required("NodeKey")
        key = self.key("NodeKey", "nodekey:")
        if key is None:
            raise BodyFault("BadField", "NodeKey")
        return key

    def list(self, name, most, read):
        """A list of texts, each read to a value that isn't None."""
        values = self.of_type(name, list) or []
        if len(values) > most:
            raise BodyFault("BadField", name)
        items = [read(value) if isinstance(value, str) else None for value in values]
        if any(item is None for item in items):
            raise BodyFault("BadField", name)
        return items

    def routes(self, name):
        return sorted(set(self.list(name, 32, prefix_of)), key=prefix_order)

    def tags(self, name, most):
        return self.list(name, most, lambda text: text if is_tag(text) else None)


def read_register(body):
    fields = Fields(object_of(body))
    form = {"node": fields.node_key(), "old": fields.key("OldNodeKey", "nodekey:")}
    auth = fields.inner("Auth")
    form["auth"] = (auth and auth.of_type("AuthKey", str)) or ""
    form["expiry"] = fields.time("Expiry")
    form["ephemeral"] = fields.flag("Ephemeral")
    host = fields.inner("Hostinfo") or Fields({})
    form["host"] = host.host("Hostname") or ""
    form["routes"] = host.routes("RoutableIPs")
    form["tags"] = host.tags("RequestTags", 16)
    return form


def read_host_update(host):
    """What a machine tells of its host; None where it tells nothing of it."""
    if host is None:
        return None
    name = host.host("Hostname")
    net = host.inner("NetInfo")
    derp = None if net is None else net.number("PreferredDERP", 65535)
    return {"name": name, "derp": derp, "routes": host.routes("RoutableIPs")}


def read_map_request(body):
    fields = Fields(object_of(body))
    if fields.members.get("Compress") not in (None, ""):
        raise BodyFault("Compressed")
    form = {"node": fields.node_key(), "is_poll": fields.flag("Stream")}
    form["omits_peers"] = fields.flag("OmitPeers")
    form["reads_only"] = fields.flag("ReadOnly")
    form["handle"] = fields.of_type("MapSessionHandle", str) or ""
    form["seq"] = fields.number("MapSessionSeq", 2**64 - 1)
    form["endpoints"] = fields.list("Endpoints", 32, endpoint_of)
    form["disco"] = fields.key("DiscoKey", "discokey:")
    form["host"] = read_host_update(fields.inner("Hostinfo"))
    return form


def read_key_form(body):
    fields = Fields(object_of(body))
    return {
        "login": fields.text("user"),
        "reusable": fields.flag("reusable"),
        "ephemeral": fields.flag("ephemeral"),
        "expiry": fields.time("expiry"),
        "tags": fields.tags("tags", 16),
    }


def read_admit_form(body):
    fields = Fields(object_of(body))
    return {"text": fields.text("id"), "login": fields.text("user")}


def read_tags_form(body):
    fields = Fields(object_of(body))
    fields.required("tags")
    return fields.tags("tags", 32)


def read_routes_form(body):
    fields = Fields(object_of(body))
    fields.required("routes")
    return fields.routes("routes")


def read_record(element):
    """An extra record as it is shown. Its type is tried against its address when that was read."""
    if not isinstance(element, dict):
        raise BodyFault("BadField", "Name")
    fields = Fields(element)
    name = fields.text("Name")
    if not is_domain(name):
        raise BodyFault("BadField", "Name")
    given = fields.of_type("Type", str)
    address = address_of(fields.text("Value"))
    if address is None:
        raise BodyFault("BadField", "Value")
    fitting = "AAAA" if address.version == 6 else "A"
    if given not in (None, "", fitting):
        raise BodyFault("BadField", "Type")
    return {"Name": name, "Type": fitting, "Value": str(address)}


def read_extras_form(body):
    elements = value_of(body, list)
    if len(elements) > 256:
        raise BodyFault("BadField", "Name")
    return [read_record(element) for element in elements]
