#!/usr/bin/env python3
"""A client of `mdstore serve` that is made of its description, with Python's standard library alone.

    examples/client.py OPENAPI.JSON http://127.0.0.1:8080 OPERATION [NAME=VALUE ..] [< BODY]

The library reads no YAML, so OPENAPI.JSON is docs/openapi.yaml as JSON:

    python3 -c 'import json, sys, yaml; json.dump(yaml.safe_load(sys.stdin), sys.stdout)' < docs/openapi.yaml > openapi.json
"""

import functools
import json
import sys
import urllib.error
import urllib.parse
import urllib.request


class Client:
    """Has a method for each operation: `client.day(nmi="NEM1201009", suffix="E1", date="20240101")`. A body is bytes, or a value for JSON. What is
    answered is a value of JSON, or a text. A refusal is `urllib.error.HTTPError`."""

    def __init__(self, document, address):
        self.document, self.address = document, address
        self.opener = urllib.request.build_opener(urllib.request.ProxyHandler({}))
        for path, operations in document["paths"].items():
            for method, operation in operations.items():
                setattr(self, operation["operationId"], functools.partial(self._ask, path, method.upper(), operation))

    def _ask(self, path, method, operation, body=None, **values):
        query = []
        for parameter in map(self._named, operation.get("parameters", [])):
            name = parameter["name"]
            if name not in values and parameter.get("required"):
                raise TypeError(f"{operation['operationId']} needs the parameter {name}")
            if parameter["in"] == "path":
                path = path.replace("{" + name + "}", urllib.parse.quote(values.pop(name), safe=""))
            elif name in values:
                query.append((name, values.pop(name)))
        if values:
            raise TypeError(f"{operation['operationId']} has no parameters {sorted(values)}")
        target = self.address + path + ("?" + urllib.parse.urlencode(query, doseq=True) if query else "")
        media = next(iter(operation.get("requestBody", {}).get("content", {})), None)
        data = json.dumps(body).encode() if media == "application/json" and not isinstance(body, bytes) else body
        request = urllib.request.Request(target, data, {"Content-Type": media} if media else {}, method=method)
        with self.opener.open(request) as answer:
            text = answer.read().decode()
            return json.loads(text) if answer.headers.get_content_type() == "application/json" else text

    def _named(self, part):
        """A part of the document, or the one that it refers to."""
        keys = part.get("$ref", "").split("/")[1:]
        return functools.reduce(lambda found, key: found[key], keys, self.document) if keys else part


def main(document, address, operation, *values):
    with open(document, encoding="utf-8") as file:
        client = Client(json.load(file), address)
    try:
        ask = getattr(client, operation)
        body = sys.stdin.buffer.read() if "requestBody" in ask.args[2] else None
        answer = ask(body=body, **dict(value.split("=", 1) for value in values))
    except urllib.error.HTTPError as refusal:
        sys.exit(f"{refusal.code} {refusal.read().decode()}")
    except (AttributeError, TypeError, urllib.error.URLError) as fault:
        sys.exit(str(fault))
    sys.stdout.write(answer if isinstance(answer, str) else json.dumps(answer, ensure_ascii=False) + "\n")


if __name__ == "__main__":
    if sys.argv[1:] in (["-h"], ["--help"]):
        print(__doc__.strip())
    elif len(sys.argv) > 3:
        main(*sys.argv[1:])
    else:
        sys.exit(__doc__)
