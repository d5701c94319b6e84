"""A session with open documents, asked by bytes: for tests that go through random workspaces."""
import re

import client

MACRO = re.compile(rb"\((?:define-syntax |let-syntax \(\()([^ ()]+)")


class Wrong(Exception):
    pass


class Session:
    """A session with open documents, whose texts are known here too, as bytes."""

    def __init__(self, program):
        self.client, self.texts, self.version = client.Client(program), {}, 1

    def open(self, texts):
        for uri, text in texts.items():
            self.texts[uri] = text.encode()
            self.client.open(uri, text)

    def close(self):
        for uri in self.texts:
            self.client.close(uri)
        self.texts = {}

    def lines(self, uri):
        return client.Lines(self.texts[uri].decode())

    def span(self, place):
        return (place["uri"], *self.lines(place["uri"]).span(place["range"]))

    def ask(self, method, uri, offset=None, **more):
        params = {"textDocument": {"uri": uri}} | more
        if offset is not None:
            params["position"] = self.lines(uri).position(offset)
        return self.client.ask(method, params)

    def arrows(self):
        found = [it for uri in self.texts for it in self.ask("scheme/arrows", uri)["result"]]
        return {(self.span(it["from"]), self.span(it["to"])) for it in found}

    def references(self, uri, offset):
        found = self.ask("textDocument/references", uri, offset, context={"includeDeclaration": True})["result"]
        return [self.span(it) for it in found]

    def macros(self):
        """Where macros are bound, and up to where their rules go."""
        return {(uri, *it.span(1)): end_of_list(text, it.end(1)) for uri, text in self.texts.items() for it in MACRO.finditer(text)}

    def diagnostics(self):
        """The diagnostics of the open documents, as they were published last: each with its place, code, severity and message."""
        lists = {uri: self.client.published[uri]["diagnostics"] for uri in self.texts}
        return {(uri, *self.lines(uri).span(it["range"]), it["code"], it["severity"], it["message"]) for uri, found in lists.items() for it in found}

    def errors(self):
        return {(*place, message) for *place, _, severity, message in self.diagnostics() if severity == 1}

    def rename(self, uri, offset, name):
        """The edits of each document in bytes, or the text of the refusal."""
        reply = self.ask("textDocument/rename", uri, offset, newName=name)
        if "error" in reply:
            if reply["error"]["code"] != -32803 or not re.match(r"refused [1-9] ", reply["error"]["message"]):
                raise Wrong(f"an error that is no refusal: {reply['error']}")
            return reply["error"]["message"]
        return {it: [(*self.lines(it).span(edit["range"]), edit["newText"].encode()) for edit in edits]
                for it, edits in reply["result"]["changes"].items()}

    def apply(self, edits):
        """Changes the documents, from the last edit of each to its first, so that no change moves one that comes behind it."""
        self.version += 1
        for uri, listed in edits.items():
            lines = self.lines(uri)
            changes = [{"range": lines.range(start, end), "text": text.decode()} for start, end, text in reversed(listed)]
            self.client.change(uri, changes, self.version)
            self.texts[uri] = edited(self.texts[uri], listed)


def end_of_list(text, at):
    """Where the innermost list ends that is open at an offset of a text without parentheses in strings."""
    depth = 1
    while depth:
        depth += {b"(": 1, b")": -1}.get(text[at : at + 1], 0)
        at += 1
    return at


def edited(text, edits):
    for start, end, new in reversed(edits):
        text = text[:start] + new + text[end:]
    return text
