"""Logs of OpenTelemetry's protocol, drawn and written in both of its forms by encoders that are none of the gateway's,
and what Loki's documentation makes of them. A value is a str, bool, int, float, bytes, list or dict."""
import base64
import json

from gateway_bodies import pack

# the attributes of a resource that are labels, some of those that are not, and values of each kind
LABELS = ["service.name", "service.namespace", "k8s.pod.name", "k8s.namespace.name", "cloud.region", "container.name"]
OTHERS = ["host.name", "os.type", "process.pid", "9lives", "_own", "é"]
VALUES = ["v", "é\n\"", 5, -7, True, 1.5, 2.0, b"\x00\xff", ["a", 1, [None]], {"b.c": 1, "d": {"e": "f"}}, ""]


class OTLPDraw:
    def __init__(self, draw):
        self.draw, self.random = draw, draw.random

    def attributes(self, names, most):
        return {name: self.random.choice(VALUES) for name in self.random.sample(names, self.random.randint(0, most))}

    def record(self):
        chance = self.random.random
        attributes = self.attributes(["a.b", "c", "host.name"], 2)
        found = {"body": self.random.choice([*VALUES, "a line", None]), "attributes": attributes}
        found["observed" if chance() < 0.2 else "time"] = self.draw.time()
        if "time" in found and chance() < 0.3:
            found["observed"] = found["time"] + 5
        if chance() < 0.5:
            found |= {"severity_number": self.random.randint(1, 24), "severity_text": "INFO"}
        if chance() < 0.3:
            found |= {"trace": self.random.randbytes(16), "span": self.random.randbytes(8), "flags": 1}
        return found

    def resource(self):
        """The attributes of a resource and its scopes, each with its name, attributes and records."""
        records = lambda: [self.record() for _ in range(self.random.randint(0, 5))]
        scopes = [(self.random.choice(["", "scope"]), self.attributes(["s.x"], 1), records())
                  for _ in range(self.random.randint(1, 2))]
        return {**self.attributes(LABELS, 4), **self.attributes(OTHERS, 2)}, scopes


def name_of(key):
    key = "".join(it if it.isascii() and it.isalnum() else "_" for it in key)
    if key[0].isdigit():
        return "key_" + key
    return "key" + key if key[0] == "_" and key[1:2] != "_" else key


def text_of(value):
    """A value as OpenTelemetry's collector, which is written in Go, writes it."""
    if value is None:
        return ""
    if isinstance(value, bytes):
        return base64.b64encode(value).decode()
    return value if isinstance(value, str) else json_of(value)


def json_of(value):
    if isinstance(value, float) and value.is_integer():
        value = int(value)
    text = json.dumps(value, ensure_ascii=False, separators=(",", ":"), sort_keys=True)
    return text.replace("<", "\\u003c").replace(">", "\\u003e").replace("&", "\\u0026")


def flat(attributes, above=""):
    for key, value in attributes.items():
        name = name_of(f"{above}_{key}" if above else key)
        if isinstance(value, dict):
            yield from flat(value, name)
        else:
            yield name, text_of(value)


def streams_of(resources):
    """What a server has of them: labels, and entries as JSON has them."""
    for attributes, scopes in resources:
        labels = dict(flat({key: value for key, value in attributes.items() if key in LABELS}))
        shared = dict(flat({key: value for key, value in attributes.items() if key not in LABELS}))
        labels = {name: value for name, value in labels.items() if value}
        labels.setdefault("service_name", labels.get("container_name", "unknown_service"))
        entries = [entry_of(record, {**shared, **dict(flat(its)), **({"scope_name": name} if name else {})})
                   for name, its, records in scopes for record in records]
        yield labels, entries


def entry_of(record, shared):
    metadata = {**shared, **dict(flat(record["attributes"]))}
    if "time" in record and "observed" in record:
        metadata["observed_timestamp"] = str(record["observed"])
    for name in ("severity_number", "severity_text", "flags"):
        if name in record:
            metadata[name] = str(record[name])
    if "trace" in record:
        metadata |= {"trace_id": record["trace"].hex(), "span_id": record["span"].hex()}
    entry = [str(record.get("time", record.get("observed"))), text_of(record["body"])]
    return [*entry, metadata] if metadata else entry


class OTLPWriter:
    def __init__(self, messages, random):
        self.messages, self.random = messages, random

    def value(self, to, value):
        if isinstance(value, list):
            to.array_value.SetInParent()
            for it in value:
                self.value(to.array_value.values.add(), it)
        elif isinstance(value, dict):
            to.kvlist_value.SetInParent()
            self.attributes(to.kvlist_value.values, value)
        elif value is not None:
            kind = {bool: "bool", int: "int", float: "double", str: "string", bytes: "bytes"}[type(value)]
            setattr(to, f"{kind}_value", value)
        return to

    def attributes(self, to, attributes):
        for key, value in attributes.items():
            self.value(to.add(key=key).value, value)

    def protobuf(self, resources):
        body = self.messages.ExportLogsServiceRequest()
        for attributes, scopes in resources:
            resource = body.resource_logs.add(schema_url="a")
            self.attributes(resource.resource.attributes, attributes)
            for name, its, records in scopes:
                scope = resource.scope_logs.add()
                scope.scope.name = name
                self.attributes(scope.scope.attributes, its)
                for record in records:
                    self.record(scope.log_records.add(), record)
        return body.SerializeToString()

    def record(self, to, record):
        to.time_unix_nano, to.observed_time_unix_nano = record.get("time", 0), record.get("observed", 0)
        to.severity_number, to.severity_text = record.get("severity_number", 0), record.get("severity_text", "")
        to.trace_id, to.span_id, to.flags = record.get("trace", b""), record.get("span", b""), record.get("flags", 0)
        self.value(to.body, record["body"])
        self.attributes(to.attributes, record["attributes"])

    def json_value(self, value):
        if isinstance(value, list):
            return {"arrayValue": {"values": [self.json_value(it) for it in value]}}
        if isinstance(value, dict):
            return {"kvlistValue": {"values": self.json_attributes(value)}}
        if isinstance(value, bytes):
            return {"bytesValue": base64.b64encode(value).decode()}
        if isinstance(value, int) and not isinstance(value, bool):
            return {"intValue": self.random.choice([value, str(value)])}
        names = {bool: "boolValue", float: "doubleValue", str: "stringValue"}
        return {} if value is None else {names[type(value)]: value}

    def json_attributes(self, attributes):
        return [{"key": key, "value": self.json_value(value)} for key, value in attributes.items()]

    def json_record(self, record):
        names = {"severity_number": "severityNumber", "severity_text": "severityText", "flags": "flags"}
        found = {to: record[name] for name, to in names.items() if name in record}
        found |= {to: self.random.choice([str, int])(record[name])
                  for name, to in {"time": "timeUnixNano", "observed": "observedTimeUnixNano"}.items() if name in record}
        if "trace" in record:
            found |= {"traceId": record["trace"].hex(), "spanId": record["span"].hex()}
        body, attributes = self.json_value(record["body"]), self.json_attributes(record["attributes"])
        return {**found, "body": body, "attributes": attributes}

    def json(self, resources):
        shown = [{"resource": {"attributes": self.json_attributes(attributes)}, "scopeLogs": list(map(self.json_scope, scopes))}
                 for attributes, scopes in resources]
        return json.dumps({"resourceLogs": shown}).encode()

    def json_scope(self, scope):
        name, attributes, records = scope
        shown = {"name": name, "attributes": self.json_attributes(attributes)}
        return {"scope": shown, "logRecords": list(map(self.json_record, records))}

    def draw(self, resources, is_json):
        body = self.json(resources) if is_json else self.protobuf(resources)
        kind = "application/json" if is_json else "application/x-protobuf"
        body, encoding = pack(body, self.random.choice([None, "gzip"]))
        return body, {"Content-Type": kind, **({"Content-Encoding": encoding} if encoding else {})}
