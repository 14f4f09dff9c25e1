"""What docs/openapi.yaml says about a request and its answer: for tests/openapi."""

import json
import re
import urllib.parse

import jsonschema
import yaml

METHODS = ["get", "put", "post", "delete", "options", "head", "patch", "trace"]

# The kinds of requests that no operation is for, as the document names them (`x-other-requests`).
NOT_HTTP, NO_ROUTE, OTHER_METHOD = "not-http", "no-route", "other-method"

# A first line that may be one of HTTP/1.0 or 1.1, with a target that begins with a slash. Empty lines may come before it.
FIRST_LINE = re.compile(rb"(?:\r?\n)*([!#$%&'*+.^_`|~0-9A-Za-z-]+) (/[^ ]*) HTTP/1\.[01]\r?\n")

# The bodies that are kept have at most so many bytes. Examples have fewer.
LONGEST_EXAMPLE = 4096
DEEPEST = 127


# Schemas. `$` is only the end of a text, as in ECMAScript. A whole number has no point, as the document says for a job.

def matches(validator, pattern, instance, schema):
    if validator.is_type(instance, "string") and not re.search(pattern.replace("$", r"\Z"), instance):
        yield jsonschema.ValidationError(f"{instance[:300]!r} does not match {pattern!r}")


def is_whole_number(checker, instance):
    return isinstance(instance, int) and not isinstance(instance, bool)


DIALECT = jsonschema.Draft202012Validator
Validator = jsonschema.validators.extend(
    DIALECT, {"pattern": matches}, type_checker=DIALECT.TYPE_CHECKER.redefine("integer", is_whole_number))


def misfit(schema, value):
    """Why a value doesn't fit a schema, or None."""
    error = jsonschema.exceptions.best_match(Validator(schema).iter_errors(value))
    return error and f"{'/'.join(map(str, error.absolute_path))}: {error.message[:300]}"


def codes_of(schema):
    """The codes that a schema lists for `error`."""
    error = schema.get("properties", {}).get("error", {})
    return error.get("enum", [error["const"]] if "const" in error else [])


def exact_json(data):
    """A JSON text as the document means it, or ValueError: without lone surrogates, NaN and infinite numbers, and not too deep."""
    text = data.decode()
    depth = 0
    for part in re.finditer(r'"(?:[^"\\]|\\.)*"|[][{}]', text):
        depth += {"[": 1, "{": 1, "]": -1, "}": -1}.get(part[0], 0)
        if depth > DEEPEST:
            raise ValueError("it nests too deep")

    def members(pairs):
        json.dumps(pairs, ensure_ascii=False, allow_nan=False).encode()
        return dict(pairs)

    return json.loads(text, object_pairs_hook=members, parse_int=lambda digits: float(digits) if digits == "-0" else int(digits))


# The document.

class Operation:
    """An operation: its path, its method, what it accepts, and its answers by status."""

    def __init__(self, path, method, parts):
        self.path, self.method, self.name, self.tag = path, method.upper(), parts["operationId"], parts["tags"][0]
        self.pattern = re.compile(re.sub(r"\\{(\w+)\\}", r"(?P<\1>[^/]+)", re.escape(path)))
        self.parameters, self.responses = parts.get("parameters", []), parts["responses"]
        self.media, self.body = next(iter(parts.get("requestBody", {}).get("content", {}).items()), (None, None))

    def of(self, where):
        """The parameters in a path or in a query, by name."""
        return {it["name"]: it for it in self.parameters if it["in"] == where}

    def takes(self, target, body):
        """Whether a target and a body are what the document asks for."""
        path, _, query = target.partition("?")
        values = self.pattern.fullmatch(path).groupdict()
        if any(misfit(it["schema"], values[name]) for name, it in self.of("path").items()):
            return False
        pairs = urllib.parse.parse_qsl(query, keep_blank_values=True)
        declared = self.of("query")
        if any(name not in declared for name, _ in pairs):
            return False
        for name, parameter in declared.items():
            found = [value for key, value in pairs if key == name]
            if parameter["schema"].get("type") != "array":
                if len(found) > 1 or (not found and parameter.get("required")):
                    return False
                found = found[0] if found else parameter["schema"].get("default")
            if found is not None and misfit(parameter["schema"], found):
                return False
        return self.takes_body(body)

    def takes_body(self, body):
        if self.media != "application/json":
            return True
        try:
            return misfit(self.body["schema"], exact_json(body)) is None
        except (ValueError, RecursionError):
            return False


class Document:
    """The document, with the content of each `$ref` in its place."""

    def __init__(self, path):
        with open(path, encoding="utf-8") as file:
            self.raw = yaml.safe_load(file)
        whole = self.whole(self.raw)
        self.operations = [Operation(path, method, parts) for path, item in whole["paths"].items() for method, parts in item.items()
                           if method in METHODS]
        self.others = {kind: parts["responses"] for kind, parts in whole["x-other-requests"].items()}

    def whole(self, part):
        if isinstance(part, list):
            return [self.whole(it) for it in part]
        if not isinstance(part, dict):
            return part
        others = {key: self.whole(value) for key, value in part.items() if key != "$ref"}
        if "$ref" not in part:
            return others
        named = self.raw
        for key in part["$ref"].removeprefix("#/").split("/"):
            named = named[key]
        return {"allOf": [self.whole(named)], **others} if others else self.whole(named)

    def kind_of(self, sent):
        """The operation that the bytes of a request are for, with its target. If there is none, the kind of the request."""
        line = FIRST_LINE.match(sent)
        if line is None:
            return NOT_HTTP, None
        method, target = (part.decode("utf-8", "replace") for part in line.groups())
        found = [it for it in self.operations if it.pattern.fullmatch(target.partition("?")[0])]
        if not found:
            return NO_ROUTE, target
        return next((it for it in found if it.method == method), OTHER_METHOD), target

    def answers(self):
        """Each status of each operation and of each other kind: the name, the status and the answer."""
        for name, responses in [*((it.name, it.responses) for it in self.operations), *self.others.items()]:
            for status, response in responses.items():
                yield name, status, response


class Answer:
    """The bytes of an answer, split into parts."""

    def __init__(self, data):
        head, self.is_headed, self.body = data.partition(b"\r\n\r\n")
        line, *fields = head.decode("latin-1").split("\r\n")
        self.status = line.split(" ")[1] if re.fullmatch(r"HTTP/1\.1 [0-9]{3} [A-Za-z ]+", line) else None
        self.fields = dict(field.split(": ", 1) for field in fields)

    def is_whole(self, method):
        """Whether nothing of it was lost."""
        size = self.fields.get("Content-Length", "")
        return bool(self.is_headed) and size.isdecimal() and (len(self.body) == int(size) or (method == b"HEAD" and not self.body))

    def misfit(self, response):
        """Why the document doesn't have this answer, or None."""
        media = self.fields.get("Content-Type")
        if media not in response["content"]:
            return f"the type {media} isn't in the document"
        declared, found = response["headers"], {name: value for name, value in self.fields.items() if name != "Content-Type"}
        for name, value in found.items():
            if name not in declared:
                return f"the field {name} isn't in the document"
            schema = declared[name]["schema"]
            if error := misfit(schema, int(value) if schema.get("type") == "integer" else value):
                return f"the field {name}: {error}"
        lacking = [name for name, it in declared.items() if it.get("required") and name not in found]
        if lacking:
            return f"the fields {lacking} are missing"
        return self.body_misfit(media, response["content"][media]["schema"])

    def body_misfit(self, media, schema):
        if not self.body and self.fields["Content-Length"] != "0":
            return None
        try:
            return misfit(schema, json.loads(self.body) if media == "application/json" else self.body.decode())
        except ValueError as error:
            return f"the body: {error}"

    def code(self):
        """The code of a refusal, or None."""
        return json.loads(self.body).get("error") if self.body.startswith(b"{") else None
