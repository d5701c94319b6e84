// Scheme in Visual Studio Code by scheme_ls: starts the server for Scheme files, and opens what they import and include.
"use strict";
const fs = require("fs");
const path = require("path");
const vscode = require("vscode");
const { LanguageClient, State } = require("vscode-languageclient/node");

const MOST = 64; // documents; the server refuses further ones
const LARGEST = 1048576; // bytes; the server refuses longer texts
const QUIET = 300; // milliseconds without a change before a document is looked at for what it names

let client;
let documents = new Map(); // by uri, what the server has open: { document } of the editor, or { stamp, version } of a library's file
let libraries = []; // the uris of these files, in the order in which they were found
let full = false; // whether there were more of them than there is room for
const refused = new Set(); // the uris of documents that aren't given to the server, once that was said
const files = new Map(); // by path: when a file was read, whether the server takes it, and what it imports and includes
const looking = new Map(); // by uri: the timer behind which a document is looked at
let following; // the timer behind which files are opened and closed

// ---- which libraries and texts a text names

// What is behind the comment between `#|` and `|#` that begins at a place. Such comments nest.
function behindBlock(text, at) {
  const mark = /#\||\|#/g;
  mark.lastIndex = at;
  let depth = 0;
  for (let found = mark.exec(text); found; found = mark.exec(text)) {
    depth += found[0] === "#|" ? 1 : -1;
    if (depth === 0) return mark.lastIndex;
  }
  return text.length;
}

// What is behind the string or name between two of the same marks that begins at a place.
function behindQuoted(text, at) {
  const mark = text[at];
  for (at++; at < text.length && text[at] !== mark; at++) {
    if (text[at] === "\\") at++;
  }
  return Math.min(at + 1, text.length);
}

// The first place at or behind a place where a global pattern is found, or the end.
function search(pattern, text, at) {
  pattern.lastIndex = at;
  const found = pattern.exec(text);
  return found ? found.index : text.length;
}

// The place behind white space and comments.
function behindSpace(text, at) {
  for (;;) {
    at = search(/\S/g, text, at);
    if (text[at] === ";") at = search(/[\r\n]/g, text, at);
    else if (text.startsWith("#|", at)) at = behindBlock(text, at);
    else return at;
  }
}

// The token at a place, and the place behind it: `(` of lists and vectors, a string without its last mark, the name of names, else what
// is written.
function token(text, at) {
  const list = /#\w*\(/y;
  list.lastIndex = at;
  if (list.test(text)) return ["(", list.lastIndex];
  if (text[at] === '"') {
    const stop = behindQuoted(text, at);
    return [text.slice(at, stop - 1), stop];
  }
  if (text[at] === "|") {
    const stop = behindQuoted(text, at);
    return [text.slice(at + 1, stop - 1), stop];
  }
  if (text.startsWith("#;", at)) return ["#;", at + 2];
  if ("()'`,".includes(text[at])) return [text[at], at + 1];
  const stop = search(/[\s()";|]/g, text, at + (text.startsWith("#\\", at) ? 3 : 1));
  return [text.slice(at, stop), stop];
}

// The datum that begins at a place, a list as an array, and the place behind it; nothing where it has no end. What `#;` drops isn't
// there.
function read(text, at) {
  const above = [];
  for (at = behindSpace(text, at); at < text.length; at = behindSpace(text, at)) {
    let word, datum;
    [word, at] = token(text, at);
    if (word === "(") above.push([]);
    else if (word === "#;") above.push(word);
    else if (word === ")") {
      datum = above.pop();
      if (!Array.isArray(datum)) break;
    } else if (!"'`,".includes(word)) datum = word;
    if (datum === undefined) continue;
    if (above[above.length - 1] === "#;") above.pop();
    else if (above.length === 0) return [datum, at];
    else above[above.length - 1].push(datum);
  }
  return [undefined, at];
}

// `a/b/c` for the name (a b c), also inside of an import set. None where no file has that name, and none for (scheme ...).
function library(set) {
  while (Array.isArray(set) && ["only", "except", "prefix", "rename"].includes(set[0]) && Array.isArray(set[1])) set = set[1];
  if (!Array.isArray(set) || set.length === 0 || set[0] === "scheme") return undefined;
  if (set.some((part) => typeof part !== "string" || /[/\\"\0]|^\.*$/.test(part))) return undefined;
  return set.join("/");
}

// The libraries that a text imports and defines, and the strings that it includes; nothing where one of these lists has no end. Every
// list that is headed by `import`, `define-library`, `include` or `include-library-declarations` counts, wherever it stands, but those in
// comments, in strings and behind `#;` don't.
function scan(text) {
  const imports = [];
  const includes = [];
  const defines = [];
  const mark = /[(";|]|#[|;\\]/g;
  for (let at = search(mark, text, 0); at < text.length; at = search(mark, text, at)) {
    const inside = text[at] === "(" ? behindSpace(text, at + 1) : undefined;
    const word = inside !== undefined && inside < text.length ? token(text, inside)[0] : undefined;
    let datum;
    if (word === "import") {
      [datum, at] = read(text, at);
      if (!datum) return undefined;
      imports.push(...datum.slice(1).map(library));
    } else if (word === "include" || word === "include-library-declarations") {
      [datum, at] = read(text, at);
      if (!datum) return undefined;
      includes.push(...datum.slice(1).filter((it) => typeof it === "string" && it.startsWith('"')).map((it) => it.slice(1)));
    } else if (word === "define-library") {
      [datum, at] = read(text, inside + word.length);
      defines.push(library(datum));
    } else if (inside !== undefined) at = inside;
    else if (text[at] === ";" || text.startsWith("#|", at)) at = behindSpace(text, at);
    else if (text.startsWith("#;", at)) at = read(text, at + 2)[1];
    else at = token(text, at)[1];
  }
  return { imports: imports.filter(Boolean), includes, defines: defines.filter(Boolean) };
}

// ---- what the server has open

function size(text) {
  return Buffer.byteLength(text, "utf8");
}

function send(method, params) {
  client.sendNotification(`textDocument/${method}`, params).catch(() => {}); // where the server has just ended
}

function close(uri) {
  if (documents.delete(uri)) send("didClose", { textDocument: { uri } });
}

// The documents of the editor that the server has open.
function shown() {
  return [...documents.values()].map((it) => it.document).filter(Boolean);
}

// Whether a document can't be opened at the server. If so this is said, once.
function refuse(document) {
  const uri = document.uri.toString();
  let why;
  if (size(document.getText()) > LARGEST) why = "it is longer than 1 MiB";
  else if (shown().filter((it) => it !== document).length >= MOST) why = `${MOST} files are open`;
  if (why && !refused.has(uri)) {
    vscode.window.showWarningMessage(`scheme_ls: ${path.basename(document.uri.path)} isn't given to the server: ${why}`);
  }
  if (why) refused.add(uri);
  else refused.delete(uri);
  return why !== undefined;
}

// Opens a document at the server, if it can be; the files of libraries make room.
function open(document, notify) {
  const uri = document.uri.toString();
  close(uri);
  if (refuse(document)) return undefined;
  while (documents.size >= MOST && libraries.length > 0) close(libraries.pop());
  documents.set(uri, { document, ...scan(document.getText()) });
  return notify(document);
}

function openAnew(document) {
  const textDocument = {
    uri: document.uri.toString(),
    languageId: document.languageId,
    version: document.version,
    text: document.getText(),
  };
  return open(document, () => send("didOpen", { textDocument }));
}

// Takes the notifications that the client would send, and sends what the server can take: it would refuse too long a text or a 65th, and
// a message of more than 8 MiB would end it.
const middleware = {
  didOpen(document, next) {
    followSoon();
    return Promise.resolve(open(document, next));
  },

  didChange(event, next) {
    const { document, contentChanges } = event;
    const uri = document.uri.toString();
    const known = documents.get(uri);
    lookSoon(document);
    if (!known || !known.document) return Promise.resolve();
    if (size(document.getText()) > LARGEST) {
      close(uri);
      refuse(document);
      return Promise.resolve();
    }
    if (contentChanges.reduce((sum, it) => sum + size(it.text), 0) <= LARGEST) return next(event);
    send("didChange", { textDocument: { uri, version: document.version }, contentChanges: [{ text: document.getText() }] });
    return Promise.resolve();
  },

  didClose(document) {
    const uri = document.uri.toString();
    refused.delete(uri);
    close(uri);
    followSoon();
    return Promise.resolve();
  },
};

// ---- the files of libraries and of texts that are included

function isFile(at) {
  try {
    return fs.statSync(at).isFile();
  } catch {
    return false;
  }
}

// The folder of a document, if it is a file.
function folderOf(document) {
  return document.uri.scheme === "file" ? path.dirname(document.uri.fsPath) : undefined;
}

// The file of a library: looked for upwards from a folder, and then in the roots.
function find(name, folder, further) {
  const above = [];
  for (let at = folder; at !== above[above.length - 1]; at = path.dirname(at)) above.push(at);
  return [...above, ...further].map((it) => path.join(it, `${name}.sld`)).find(isFile);
}

// The file that a string means in a text of a folder, as the server joins it to the text's uri.
function included(name, folder) {
  if (folder === undefined || /[\\?#\0]|^\/\//.test(name)) return undefined;
  try {
    const url = new URL(name, `${vscode.Uri.file(folder)}/`);
    const file = url.protocol === "file:" ? vscode.Uri.parse(url.href).fsPath : undefined;
    return file !== undefined && isFile(file) ? file : undefined;
  } catch {
    return undefined;
  }
}

// The text of a file, if it is one that the server takes.
function textIn(file) {
  try {
    const text = new TextDecoder("utf-8", { fatal: true }).decode(fs.readFileSync(file));
    return size(text) <= LARGEST ? text : undefined;
  } catch {
    return undefined;
  }
}

// What is known of a file, read anew where it has changed.
function lookInto(file) {
  const { mtimeMs, size: length } = fs.statSync(file);
  const stamp = `${mtimeMs} ${length}`;
  if (files.get(file)?.stamp !== stamp) {
    const text = length <= LARGEST + 3 ? textIn(file) : undefined;
    if (text === undefined) {
      vscode.window.showWarningMessage(`scheme_ls: ${file} isn't opened: it is longer than 1 MiB, or isn't UTF-8`);
    }
    files.set(file, { stamp, taken: text !== undefined, ...(scan(text ?? "") ?? { imports: [], includes: [] }) });
  }
  return files.get(file);
}

function realPath(file) {
  try {
    return fs.realpathSync(file);
  } catch {
    return file;
  }
}

function roots() {
  const folders = (vscode.workspace.workspaceFolders ?? []).filter((it) => it.uri.scheme === "file").map((it) => it.uri.fsPath);
  return [...folders, ...vscode.workspace.getConfiguration("schemeLs").get("roots", [])];
}

// The files that have to be open: those of the libraries that the documents of the editor import, those that they include, and what
// these import and include, as many as there is room for. Of each library it is one file, and none where a document of the editor has
// the library.
function wanted() {
  const beginnings = [...documents.values()].filter((it) => it.document);
  const room = MOST - beginnings.length;
  const further = roots();
  const found = new Set(beginnings.flatMap((it) => it.defines ?? []));
  const seen = new Set(beginnings.map((it) => realPath(it.document.uri.fsPath)));
  const queue = beginnings.map((it) => ({ folder: folderOf(it.document), imports: it.imports ?? [], includes: it.includes ?? [] }));
  const list = [];
  let more = false;
  function take(file) {
    if (seen.has(realPath(file))) return;
    seen.add(realPath(file));
    const known = lookInto(file);
    if (known.taken && list.length < room) {
      list.push(file);
      queue.push({ folder: path.dirname(file), imports: known.imports, includes: known.includes });
    } else more = more || known.taken;
  }
  for (let at = 0; at < queue.length; at++) {
    for (const name of queue[at].includes) {
      const file = included(name, queue[at].folder);
      if (file !== undefined) take(file);
    }
    for (const name of queue[at].imports) {
      const file = found.has(name) ? undefined : find(name, queue[at].folder, further);
      if (file === undefined) continue;
      found.add(name);
      take(file);
    }
  }
  return { list, more };
}

// Opens such a file, or sends its text anew where it has changed.
function openFile(file) {
  const uri = vscode.Uri.file(file).toString();
  const { stamp } = files.get(file);
  const known = documents.get(uri);
  const text = known?.stamp === stamp ? undefined : textIn(file);
  if (text === undefined) return;
  const version = known ? known.version + 1 : 0;
  documents.set(uri, { stamp, version });
  if (known) send("didChange", { textDocument: { uri, version }, contentChanges: [{ text }] });
  else send("didOpen", { textDocument: { uri, languageId: "scheme", version, text } });
}

// Opens what was refused and can be open by now, and opens and closes files, so that those that are wanted are open.
function follow() {
  if (client.state !== State.Running) return;
  for (const document of vscode.workspace.textDocuments) {
    const uri = document.uri.toString();
    if (refused.has(uri) && !refuse(document)) openAnew(document);
  }
  const { list, more } = wanted();
  const uris = list.map((it) => vscode.Uri.file(it).toString());
  for (const [uri, it] of [...documents]) {
    if (!it.document && !uris.includes(uri)) close(uri);
  }
  list.forEach(openFile);
  libraries = uris;
  if (more && !full) {
    vscode.window.showWarningMessage(`scheme_ls: not all that is imported and included is open: the server takes ${MOST} files`);
  }
  full = more;
}

function followSoon() {
  clearImmediate(following);
  following = setImmediate(follow);
}

// Looks at a document for imports, once it is left alone.
function lookSoon(document) {
  const uri = document.uri.toString();
  clearTimeout(looking.get(uri));
  looking.set(
    uri,
    setTimeout(() => {
      looking.delete(uri);
      const known = documents.get(uri);
      const found = known?.document && scan(document.getText());
      const { imports, includes, defines } = known ?? {};
      if (refused.has(uri) || (found && JSON.stringify(found) !== JSON.stringify({ imports, includes, defines }))) {
        Object.assign(known ?? {}, found);
        follow();
      }
    }, QUIET),
  );
}
// ---- the client

function activate(context) {
  const [command, ...args] = vscode.workspace.getConfiguration("schemeLs").get("command");
  const documentSelector = [
    { scheme: "file", language: "scheme", pattern: "**/*.{scm,sld}" },
    { scheme: "untitled", language: "scheme" },
  ];
  client = new LanguageClient("scheme_ls", "scheme_ls", { command, args }, { documentSelector, middleware });
  client.onDidChangeState(({ newState }) => {
    if (newState === State.Running) return;
    documents = new Map(); // the client opens its documents anew at the next server
    libraries = [];
  });
  client.onNotification("window/logMessage", ({ type, message }) => {
    if (type === 1) vscode.window.showErrorMessage(`scheme_ls: ${message}`);
    else client.outputChannel.appendLine(message);
  });
  const watcher = vscode.workspace.createFileSystemWatcher("**/*.sld");
  for (const event of [watcher.onDidCreate, watcher.onDidChange, watcher.onDidDelete, vscode.workspace.onDidSaveTextDocument]) {
    context.subscriptions.push(event(followSoon));
  }
  context.subscriptions.push(watcher);
  return client.start();
}

function deactivate() {
  return client && client.stop();
}

module.exports = { activate, deactivate };
