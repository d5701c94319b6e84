"""Rows as sessions and commands: what is sent for each row, which bodies are wanted, and what came in the words of the row."""
import json

import client

METHODS = {
    "definition": "textDocument/definition",
    "references": "textDocument/references",
    "all references": "textDocument/references",
    "highlights": "textDocument/documentHighlight",
    "prepare": "textDocument/prepareRename",
    "arrows": "scheme/arrows",
}
PUBLISH = "textDocument/publishDiagnostics"


def unknown(number):
    """The reply to a request that no server knows."""
    return client.compact({"jsonrpc": "2.0", "id": number, "error": {"code": -32601, "message": "method not found"}}).encode()


def made(value):
    """The bytes of a text: a string, or parts one behind another."""
    if isinstance(value, list):
        return b"".join(map(made, value))
    if isinstance(value, str):
        return value.encode()
    return bytes(value["bytes"]) if "bytes" in value else value["repeat"][0].encode() * value["repeat"][1]


def replies(text):
    """The bodies of `[BODY,..]`, each as it stands, and the status of ` end STATUS` behind it, if there is one."""
    found, at = [], 1
    while text[at] != "]":
        at += text[at] == ","
        end = json.JSONDecoder().raw_decode(text, at)[1]
        found.append(text[at:end].encode())
        at = end
    status = text[at + 1 :].removeprefix(" end ")
    return found, int(status) if status else None


class Step:
    """A row, the bodies that are sent for it, and those that are wanted; of a step without a row none are."""

    def __init__(self, row, sent, wanted):
        self.row, self.sent, self.wanted = row, sent, wanted

    def wrong(self, got):
        """What came in place of what is wanted, or None where it is that."""
        return None if self.row is None or self.is_right(got) else self.shown(got)

    def is_right(self, got):
        return got == self.wanted

    def shown(self, got):
        """The answer of the row that the bodies tell, or where they tell none or the same the bodies as they stand."""
        try:
            told = client.compact(self.told([json.loads(body) for body in got]))
        except (KeyError, TypeError, IndexError, ValueError, AttributeError):
            told = self.row.wanted
        return told if told != self.row.wanted else "[" + ",".join(body.decode(errors="replace") for body in got) + "]"

    def told(self, messages):
        raise ValueError


class Command:
    """A row that is a run of the program: its words, a text that it reads, what it prints and its status."""

    def __init__(self, row):
        words, text = json.loads(row.argument)
        printed, self.status = json.loads(row.wanted)
        self.words, self.text, self.printed = [made(it) for it in words], made(text), printed.encode()
        self.steps = [Step(row, [], [])]

    def cuts(self, seed):
        yield from client.cuts(self.text, seed, most=client.TEXT_PIECE)

    def judge(self, written):
        if written != self.printed:
            yield self.steps[0].row, client.compact(written.decode(errors="replace"))


class Session:
    """The rows of one session, of which each reply is wanted. Without `exit` it ends with status 1 at the end of the input."""

    words = ["serve"]

    def __init__(self):
        self.steps, self.status, self.given = [], 1, None

    def add(self, row):
        wanted, status = replies(row.wanted)
        if row.group == "stream":
            self.given = [made(piece) for piece in json.loads(row.argument)]
            sent = []
        else:
            sent = [row.argument.encode() if row.call == "session/body" else made(json.loads(row.argument))]
        self.steps.append(Step(row, sent, wanted))
        self.status = self.status if status is None else status

    def cuts(self, seed):
        stream = b"".join(self.given or [client.frame(body) for step in self.steps for body in step.sent])
        if self.given:
            yield "as given", self.given
        yield from client.cuts(stream, seed, short=20_000)

    def judge(self, written):
        """The rows that failed, each with what came. Behind a row with more or fewer replies than wanted all rows fail."""
        got, rest = client.bodies(written)
        for step in self.steps:
            here, got = got[: len(step.wanted)], got[len(step.wanted) :]
            if step is self.steps[-1]:
                here += got + [rest] * bool(rest)
            if (found := step.wrong(here)) is not None:
                yield step.row, found


class Ahead(Session):
    """A session that looks ahead, over pieces as they are given: how its input is cut counts."""

    words = ["serve", "--ahead"]

    def cuts(self, seed):
        yield "as given", self.given


class AheadByBytes(Ahead):
    """The same byte by byte."""

    def cuts(self, seed):
        yield "byte by byte", client.by_size(b"".join(self.given), 1)


# Sessions that rows give as streams.
STREAMS = {"stream/of": Session, "stream/ahead": Ahead, "stream/ahead_by_bytes": AheadByBytes}


class Renaming(Step):
    """Documents that are opened, and a rename in them, asked twice: the first leaves all as it was."""

    IDS = "rename", "again"

    def __init__(self, row):
        documents, (self.uri, (line, character)), name, *rest = json.loads(row.argument)
        texts = {uri: made(text).decode() for uri, text in documents}
        self.encoding = rest[0] if rest else "utf-16"
        self.lines = {uri: client.Lines(text, self.encoding) for uri, text in texts.items()}
        capabilities = {"general": {"positionEncodings": [self.encoding]}}
        params = {"textDocument": {"uri": self.uri}, "position": {"line": line, "character": character}, "newName": name}
        sent = [client.request(0, "initialize", {"capabilities": capabilities}), *(client.opened(*it) for it in texts.items()),
                *(client.request(it, "textDocument/rename", params) for it in self.IDS)]
        super().__init__(row, sent, [client.compact({"jsonrpc": "2.0", "id": it} | self.answer(json.loads(row.wanted))).encode() for it in self.IDS])

    def answer(self, wanted):
        """The result, or the error RequestFailed, by which the answer of a row comes."""
        if isinstance(wanted, str):
            return {"error": {"code": -32803, "message": wanted}}
        return {"result": {"changes": {uri: [{"newText": text, "range": self.lines[uri].range(start, end)} for start, end, text in edits]
                                       for uri, edits in wanted}}}

    def told(self, messages):
        first, second = ({key: it[key] for key in it if key != "id"} for it in messages)
        if first != second:
            raise ValueError
        if "error" in first:
            return first["error"]["message"]
        return [[uri, [[*self.lines[uri].span(it["range"]), it["newText"]] for it in edits]] for uri, edits in first["result"]["changes"].items()]


class Renamed:
    """The one row of a session. What is published before its replies isn't the row's."""

    words, status = ["serve"], 0

    def __init__(self, row):
        self.steps = [Renaming(row)]

    def cuts(self, seed):
        sent = [*self.steps[0].sent, client.request("end", "shutdown", None), client.notice("exit", None)]
        yield from client.cuts(b"".join(map(client.frame, sent)), seed, short=1_000)

    def judge(self, written):
        got, rest = client.bodies(written)
        got = [body for body in got if "id" in (told := json.loads(body)) and told["id"] not in (0, "end")] + [rest] * bool(rest)
        if (found := self.steps[0].wrong(got)) is not None:
            yield self.steps[0].row, found


# ---- programs: documents that are open together, and what is asked about them


class Documents(dict):
    """The open documents: their lines by uri. Places are `[URI,START,END]` in rows, in bytes, and ranges in messages."""

    def place(self, it):
        return {"range": self[it[0]].range(*it[1:]), "uri": it[0]}

    def drawn(self, it):
        return {"from": self.place(it[0]), "to": self.place(it[1])}

    def place_told(self, it):
        return [it["uri"], *self[it["uri"]].span(it["range"])]

    def written(self, it):
        return self[it[0]].bytes[it[1] : it[2]].decode()

    def drawn_told(self, it):
        ends = [self.place_told(it[end]) for end in ("from", "to")]
        return [*ends, self.written(ends[1])]

    def published(self, uri, found):
        """The body by which a document's diagnostics come."""
        listed = [{"code": code, "message": message, "range": self[uri].range(start, end), "severity": severity, "source": "scheme_ls"}
                  for start, end, code, severity, message in found]
        return client.notice(PUBLISH, {"diagnostics": listed, "uri": uri, "version": 1})

    def published_told(self, params):
        return [[*self[params["uri"]].span(it["range"]), it["code"], it["severity"], it["message"]] for it in params["diagnostics"]]


class Opening(Step):
    """Documents that are opened one after another; those that were open before are closed first. Where several are open at once the row
    doesn't tell what is published on the way, so of each document what is published last is wanted."""

    def __init__(self, row, before):
        pairs = [(uri, made(text).decode()) for uri, text in json.loads(row.argument)]
        self.documents = Documents((uri, client.Lines(text)) for uri, text in pairs)
        wanted = [(uri, client.notice(PUBLISH, {"diagnostics": [], "uri": uri})) for uri in before]
        wanted += [(uri, self.documents.published(uri, found)) for uri, found in json.loads(row.wanted)]
        self.is_exact = len(before) < 2 and len(pairs) < 2
        super().__init__(row, [*map(client.closed, before), *(client.opened(*it) for it in pairs)], wanted)

    def is_right(self, got):
        found = [(json.loads(body).get("params", {}).get("uri"), body) for body in got]
        return found == self.wanted if self.is_exact else dict(found) == dict(self.wanted)

    def told(self, messages):
        last = {it["params"]["uri"]: self.documents.published_told(it["params"]) for it in messages if it["params"]["uri"] in self.documents}
        return sorted(map(list, last.items()))


class Question(Step):
    """A question about open documents: one request, or one for each document."""

    def __init__(self, row, documents, number):
        self.documents = documents
        wanted = json.loads(row.wanted)
        if row.call == "programs/arrows":
            self.query, asked = "arrows", [(uri, None, [it for it in wanted if uri in (it[0][0], it[1][0])]) for uri in documents]
        else:
            uri, at, self.query = json.loads(row.argument)
            asked = [(uri, dict(zip(("line", "character"), at)), wanted)]
        sent = [client.request(number, METHODS[self.query], self.params(uri, at)) for uri, at, _ in asked]
        results = [self.answer(uri, it) for uri, _, it in asked]
        super().__init__(row, sent, [client.compact({"jsonrpc": "2.0", "id": number, "result": it}).encode() for it in results])

    def params(self, uri, at):
        return ({"textDocument": {"uri": uri}} | ({"position": at} if at else {})
                | ({"context": {"includeDeclaration": self.query == "all references"}} if "references" in self.query else {}))

    def answer(self, uri, wanted):
        """The result by which the answer of a row comes."""
        if wanted is None:
            return None
        if self.query == "highlights":
            return [{"kind": kind, "range": self.documents[uri].range(start, end)} for start, end, kind in wanted]
        if self.query == "prepare":
            return {"placeholder": wanted[2], "range": self.documents[uri].range(*wanted[:2])}
        if self.query == "arrows":
            assert all(self.documents.written(use) == name for _, use, name in wanted), f"{self.row}: not as the use is written"
            return [self.documents.drawn(it) for it in wanted]
        return [self.documents.place(it) for it in wanted]

    def told(self, messages):
        results = [message["result"] for message in messages]
        if self.query == "arrows":
            return sorted({client.compact(it): it for result in results for it in map(self.documents.drawn_told, result)}.values())
        [result] = results
        if self.query in ("prepare", "highlights") and result:
            lines = self.documents[json.loads(self.row.argument)[0]]
            if self.query == "prepare":
                return [*lines.span(result["range"]), result["placeholder"]]
            return [[*lines.span(it["range"]), it["kind"]] for it in result]
        return result and [self.documents.place_told(it) for it in result]


class Programs:
    """All rows of programs as one session. Behind each step comes a request that no server knows, whose reply ends its replies."""

    words, status = ["serve"], 0

    def __init__(self):
        self.steps, self.documents = [Step(None, [client.request(0, "initialize", {})], None)], Documents()

    def add(self, row):
        if row.call == "programs/open":
            step = Opening(row, list(self.documents))
            self.documents = step.documents
        else:
            step = Question(row, self.documents, len(self.steps))
        self.steps.append(step)

    def cuts(self, seed):
        sent = [body for place, step in enumerate(self.steps) for body in [*step.sent, client.request(f"step {place}", "step", None)]]
        sent += [client.request("end", "shutdown", None), client.notice("exit", None)]
        yield from client.cuts(b"".join(map(client.frame, sent)), seed, short=0)

    def judge(self, written):
        got, rest = client.bodies(written)
        parts = [[]]
        for body in got:
            if body == unknown(f"step {len(parts) - 1}"):
                parts.append([])
            else:
                parts[-1].append(body)
        parts += [[]] * (len(self.steps) - len(parts))
        for step, part in zip(self.steps, parts):
            if (found := step.wrong(part)) is not None:
                yield step.row, found
        behind = sum(parts[len(self.steps) :], []) + [rest] * bool(rest)
        if behind != [client.compact({"jsonrpc": "2.0", "id": "end", "result": None}).encode()]:
            yield self.steps[-1].row, f"behind all rows: {behind}"
