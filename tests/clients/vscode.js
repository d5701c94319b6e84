// What tests/clients/vscode.sh has Node.js do: the steps of the file STEPS with extension.js of editors/vscode, where stubs stand for the
// editor and for the package `vscode-languageclient`. The stub of the client speaks with the server, and calls the extension's
// middleware as the package does; it shows what the extension does, and nothing of the editor. It ends with status 0 where every answer
// is as expected. SESSION_FILE is what tests/sessions/proxy writes down. Texts have no characters beyond ASCII here.
"use strict";
const assert = require("assert");
const { spawn } = require("child_process");
const fs = require("fs");
const Module = require("module");
const path = require("path");
const { pathToFileURL, fileURLToPath } = require("url");

const { HERE: here, ROOM: room, SCHEME_LS: program, SESSION_FILE: recording } = process.env;
const patience = 40000;
const questions = JSON.parse(fs.readFileSync(path.join(here, process.env.STEPS), "utf8"));

function write(name, lines) {
  const file = path.join(room, name);
  fs.mkdirSync(path.dirname(file), { recursive: true });
  fs.writeFileSync(file, `${lines.join("\n")}\n`);
}

function nameOf(uri) {
  return path.relative(room, fileURLToPath(uri));
}

function pause(milliseconds) {
  return new Promise((done) => setTimeout(done, milliseconds));
}

// What `get` answers, as soon as it is `want`, or else when patience ends.
async function sameSoon(get, want) {
  const until = Date.now() + patience;
  const same = () => JSON.stringify(get()) === JSON.stringify(want);
  while (!same() && Date.now() < until) await pause(20);
  return get();
}

// ---- the editor

const documents = new Map(); // by name
const said = [];
const onFiles = []; // whom changes of files are told

class Document {
  constructor(name) {
    this.name = name;
    this.uri = uriOf(path.join(room, name));
    this.languageId = "scheme";
    this.version = 1;
    this.text = fs.readFileSync(path.join(room, name), "utf8");
  }

  getText() {
    return this.text;
  }

  offset([line, character]) {
    return this.text.split("\n").slice(0, line).join("\n").length + (line && 1) + character;
  }
}

function uriOf(file) {
  return { scheme: "file", path: file, fsPath: file, toString: () => pathToFileURL(file).href };
}

const { default: command } = require("../../editors/vscode/package.json").contributes.configuration.properties["schemeLs.command"];
const settings = { command: [program, ...command.slice(1)], roots: (questions.roots ?? []).map((it) => path.join(room, it)) };
const vscode = {
  Uri: { file: uriOf, parse: (text) => uriOf(fileURLToPath(text)) },
  window: {
    showWarningMessage: (text) => said.push(text),
    showErrorMessage: (text) => said.push(text),
  },
  workspace: {
    getConfiguration: () => ({ get: (key) => settings[key] }),
    workspaceFolders: [{ uri: uriOf(room) }],
    get textDocuments() {
      return [...documents.values()];
    },
    createFileSystemWatcher: () => ({ onDidCreate: listen, onDidChange: listen, onDidDelete: listen, dispose() {} }),
    onDidSaveTextDocument: listen,
  },
};

function listen(listener) {
  onFiles.push(listener);
  return { dispose() {} };
}

// A pattern of paths as a regular expression, as far as it has `**/`, `*` and `{a,b}`.
function globbed(pattern) {
  const parts = { "**/": "(?:.*/)?", "*": "[^/]*", "{": "(?:", "}": ")", ",": "|", ".": "\\." };
  return new RegExp(`^${pattern.replace(/\*\*\/|[*{},.]/g, (it) => parts[it])}$`);
}

// ---- the client

const State = { Stopped: 1, Running: 2, Starting: 3 };
let client;

class LanguageClient {
  constructor(id, name, server, options) {
    Object.assign(this, { server, options, handlers: {}, waiting: new Map(), lists: new Map(), next: 0, starts: 0 });
    this.outputChannel = { appendLine() {} };
    this.state = State.Stopped;
    client = this;
  }

  onDidChangeState(listener) {
    this.onState = listener;
  }

  onNotification(method, handler) {
    this.handlers[method] = handler;
  }

  become(state) {
    const oldState = this.state;
    this.state = state;
    this.onState({ oldState, newState: state });
  }

  async start() {
    this.become(State.Starting);
    this.process = spawn(this.server.command, this.server.args, { stdio: ["pipe", "pipe", "inherit"] });
    this.process.stdin.on("error", () => {});
    this.process.on("exit", (code) => this.ended(code));
    this.rest = Buffer.alloc(0);
    this.process.stdout.on("data", (piece) => this.take(piece));
    await this.request("initialize", { processId: process.pid, rootUri: null, capabilities: {} });
    this.starts++;
    this.become(State.Running);
    await this.sendNotification("initialized", {});
    for (const it of documents.values()) await this.opened(it);
  }

  ended(code) {
    this.status = code;
    if (this.state !== State.Running) return;
    this.become(State.Stopped);
    this.start();
  }

  write(message) {
    const body = Buffer.from(JSON.stringify({ jsonrpc: "2.0", ...message }));
    this.process.stdin.write(Buffer.concat([Buffer.from(`Content-Length: ${body.length}\r\n\r\n`), body]));
  }

  take(piece) {
    this.rest = Buffer.concat([this.rest, piece]);
    for (;;) {
      const head = this.rest.indexOf("\r\n\r\n");
      const length = head < 0 ? 0 : Number(/Content-Length: (\d+)/i.exec(this.rest.subarray(0, head).toString())[1]);
      if (head < 0 || this.rest.length < head + 4 + length) return;
      const message = JSON.parse(this.rest.subarray(head + 4, head + 4 + length).toString());
      this.rest = this.rest.subarray(head + 4 + length);
      if (message.id !== undefined) this.waiting.get(message.id)(message);
      else if (message.method === "textDocument/publishDiagnostics") this.lists.set(message.params.uri, message.params);
      else if (this.handlers[message.method]) this.handlers[message.method](message.params);
    }
  }

  request(method, params) {
    const id = ++this.next;
    this.write({ id, method, params });
    return new Promise((done) => this.waiting.set(id, done));
  }

  async sendNotification(method, params) {
    if (this.state !== State.Running) throw new Error("not running");
    await undefined; // as the package waits for its connection
    this.write({ method, params });
  }

  // Whether the package takes a document, by the selector that it was given: schemes, languages, patterns.
  takes({ languageId, uri }) {
    return this.options.documentSelector.some(
      ({ scheme, language, pattern }) =>
        scheme === uri.scheme && language === languageId && (pattern === undefined || globbed(pattern).test(uri.path)),
    );
  }

  // As the package does, for documents that its selector names.
  opened(document) {
    const { uri, languageId, version } = document;
    if (!this.takes(document)) return undefined;
    const send = () =>
      this.sendNotification("textDocument/didOpen", { textDocument: { uri: uri.toString(), languageId, version, text: document.getText() } });
    return this.options.middleware.didOpen(document, send);
  }

  changed(document, contentChanges) {
    const textDocument = { uri: document.uri.toString(), version: document.version };
    const send = () => this.sendNotification("textDocument/didChange", { textDocument, contentChanges });
    return this.options.middleware.didChange({ document, contentChanges }, send);
  }

  closed(document) {
    const send = () => this.sendNotification("textDocument/didClose", { textDocument: { uri: document.uri.toString() } });
    return this.options.middleware.didClose(document, send);
  }

  async stop() {
    await this.request("shutdown");
    this.become(State.Stopped);
    this.write({ method: "exit" });
  }
}

const load = Module._load;
Module._load = (name, ...rest) => {
  if (name === "vscode") return vscode;
  return name === "vscode-languageclient/node" ? { LanguageClient, State } : load(name, ...rest);
};

// ---- what was sent

let readUntil = 0;
let opened = new Set();

// Reads on in the recording: which documents the server has open.
function readOn() {
  const bytes = fs.readFileSync(recording).subarray(readUntil);
  const whole = bytes.subarray(0, bytes.lastIndexOf(10) + 1);
  readUntil += whole.length;
  for (const line of whole.toString().split("\n").filter((it) => it.startsWith("<\t"))) {
    const { method, params } = JSON.parse(line.slice(2));
    if (method === "initialize") opened = new Set();
    if (method === "textDocument/didOpen") opened.add(params.textDocument.uri);
    if (method === "textDocument/didClose") opened.delete(params.textDocument.uri);
  }
}

// ---- steps

async function edit(document, from, to, text) {
  const start = { line: from[0], character: from[1] };
  const end = { line: to[0], character: to[1] };
  document.text = document.text.slice(0, document.offset(from)) + text + document.text.slice(document.offset(to));
  document.version++;
  await client.changed(document, [{ range: { start, end }, text }]);
}

const steps = {
  async open({ open: name }) {
    if (documents.has(name)) return;
    documents.set(name, new Document(name));
    await client.opened(documents.get(name));
    await pause(20);
  },

  async close({ close: name }) {
    const document = documents.get(name);
    documents.delete(name);
    await client.closed(document);
    await pause(20);
  },

  async change({ change: name, range, text }) {
    await edit(documents.get(name), range.slice(0, 2), range.slice(2), text);
  },

  async write({ write: name, lines }) {
    write(name, lines);
    onFiles.forEach((listener) => listener());
  },

  fill({ fill: name, lines, bytes }) {
    const head = `${lines.join("\n")}\n;`;
    write(name, [head + "x".repeat(bytes - head.length - 1)]);
  },

  async grow({ grow: name, bytes }) {
    const document = documents.get(name);
    const last = [document.text.split("\n").length - 1, 0];
    await edit(document, last, last, `;${"x".repeat(bytes - 2)}\n`);
  },

  async shrink({ shrink: name }) {
    const document = documents.get(name);
    const lines = document.text.split("\n").length;
    await edit(document, [lines - 2, 0], [lines - 1, 0], "");
  },

  async many({ many, lines }) {
    for (let number = 1; number <= many; number++) {
      write(`${number}.scm`, lines);
      await steps.open({ open: `${number}.scm` });
    }
  },

  // The editor closes the document and opens another.
  async save_as({ save_as: name, to }) {
    write(to, documents.get(name).text.split("\n").slice(0, -1));
    await steps.close({ close: name });
    await steps.open({ open: to });
  },

  async rename({ rename: name, to }) {
    await steps.save_as({ save_as: name, to });
  },

  async kill() {
    const before = client.starts;
    client.process.kill("SIGKILL");
    assert(await sameSoon(() => client.starts > before, true), "no other server");
  },

  // What the server would log.
  logged({ logged: message, level: type }) {
    client.handlers["window/logMessage"]({ type, message });
  },

  async served({ served, numbered: [first, last] = [1, 0] }) {
    const want = [...served, ...Array.from({ length: last - first + 1 }, (_, n) => `${first + n}.scm`)].sort();
    const get = () => {
      readOn();
      return [...opened].map(nameOf).sort();
    };
    assert.deepEqual(await sameSoon(get, want), want);
  },

  async said({ said: text, times }) {
    const get = () => said.filter((it) => it.includes(text)).length;
    assert.equal(await sameSoon(get, times), times, `how often was said: ${text}; of ${said.join("\n")}`);
  },

  async diagnostics({ diagnostics: name, are }) {
    const document = documents.get(name);
    const get = () => {
      const list = client.lists.get(document.uri.toString());
      if (list?.version !== document.version) return "none of this version";
      return list.diagnostics.map(({ range: { start, end }, severity, code, message }) => [
        ...[start.line, start.character, ...(start.line === end.line ? [] : [end.line]), end.character],
        ...[severity, code, message],
      ]);
    };
    assert.deepEqual(await sameSoon(get, are), are);
  },

  async definition({ definition: [name, line, character], are }) {
    const uri = documents.get(name).uri.toString();
    const { result } = await client.request("textDocument/definition", { textDocument: { uri }, position: { line, character } });
    const places = result.map(({ uri: there, range: { start, end } }) => [nameOf(there), start.line, start.character, end.character]);
    assert.deepEqual(places, are);
    if (places.length === 1) await steps.open({ open: places[0][0] }); // where the editor goes
  },
};

async function main() {
  Object.entries(questions.texts).forEach(([name, lines]) => write(name, lines));
  const extension = require(path.join(here, "../../editors/vscode/extension.js"));
  await extension.activate({ subscriptions: [] });
  for (const [number, step] of questions.steps.entries()) {
    for (const kind of Object.keys(steps).filter((it) => it in step)) {
      try {
        await steps[kind](step);
      } catch (error) {
        error.message = `step ${number + 1}, ${kind} ${JSON.stringify(step[kind])}: ${error.message}`;
        throw error;
      }
    }
  }
  for (const [scheme, want] of [["file", true], ["untitled", true], ["git", false], ["vscode-notebook-cell", false]]) {
    assert.equal(client.takes({ languageId: "scheme", uri: { scheme, path: "/a/b.scm" } }), want, scheme);
  }
  await extension.deactivate();
  assert.equal(await sameSoon(() => client.status, 0), 0, "the status after shutdown and exit");
  console.log(`tests/clients/vscode.js: ${questions.steps.length} steps passed`);
  process.exit(0);
}

main().catch((error) => {
  console.log(`tests/clients/vscode.js: ${error.message}`);
  process.exit(1);
});
