"""The commands that ask for the same as the requests of the examples, and what they print instead of the answers."""

import json
from urllib.parse import parse_qs, urlsplit

from inputs.example_texts import JSON

# The status for a refusal, by the first letter of its code. A body or a target without a meaning is refused with 400.
STATUSES = {"L": 1, "M": 1, "H": 1, "U": 3, "4": 2}


def words_of(request):
    """The words of the command that makes a request: its name, and the words after the store. `-` reads the body."""
    _, target, body = request
    path, query = urlsplit(target).path.removeprefix("/v1/").split("/"), parse_qs(urlsplit(target).query)
    kind, rest = path[0], path[1:]
    if kind == "imports":
        return ["import", *(["--kind", *query["kind"]] if "kind" in query else []), "-"]
    if kind == "substitutions":
        return ["substitute", "-"]
    if kind == "holidays" and body is not None:
        return ["holidays", "-"]
    if kind == "missing":
        return [kind, *(["--since", *query["since"]] if "since" in query else []), *query["from"], *query["to"]]
    if kind in ("gaps", "finals", "readings"):
        return [kind, *(query[name][0] for name in ["nmi", "suffix", "from", "to"])]
    if kind == "exports":
        return ["export", *(query[name][0] for name in ["nmi", "from", "to", "moment", "sender", "receiver"]), *query.get("suffix", [])]
    return [{"days": "day"}.get(kind, kind), *rest]


def printed_of(request, answer):
    """The status of that command and what it prints, if the request has this answer."""
    status, kind, text = answer
    if kind != JSON:
        return 0, text
    said = json.loads(text)
    if status != 200:
        code = said["error"]
        place = [f"{part} {said[part]}" for part in ["line", "field", "interval"] if part in said]
        return STATUSES[code[0]], " ".join(["bad job" if code == "400" else code, *place]) + "\n"
    if request[0] == "GET":
        return 0, text + "\n"
    if "added" in said:
        return 0, f"added {said['added']} known {said['known']}\n"
    return 0, f"{'known' if said['known'] else 'substituted'} {said['count']}\n"
