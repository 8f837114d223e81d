// A build server on node that answers what bench/requests asks, with the JSON, the URL and the maps that come
// with node. It checks of the workspace file what the server under test checks (of a fault it tells the kind
// alone), keeps each target's id and each document's address from then on, and writes an answer by one call as soon
// as its request is read.
//
// usage: node bench/requests_baseline.js serve DIR
"use strict";
const fs = require("fs");
const path = require("path");
const { isUtf8 } = require("buffer");

const NAME = /^[A-Za-z0-9_.-]{1,255}$/;
const IDENTIFIER = /^[A-Za-z][A-Za-z0-9]*$/;
const TAKEN = new Set(
  ("ARRAY BEGIN BY CASE CONST DIV DO ELSE ELSIF END FALSE FOR IF IMPORT IN IS MOD MODULE NIL OF OR POINTER PROCEDURE"
    + " RECORD REPEAT RETURN THEN TO TRUE TYPE UNTIL VAR WHILE Out").split(" "),
);
const KINDS = new Set(["library", "application", "test"]);

function refuse(code, message) {
  throw { code, message };
}

function need(fits, field) {
  if (!fits) refuse(-32602, `invalid params: ${field}`);
}

function isObject(value) {
  return typeof value === "object" && value !== null && !Array.isArray(value);
}

function isText(value) {
  return typeof value === "string";
}

// ---- the workspace file

function stemOf(module) {
  return module.slice(module.lastIndexOf("/") + 1).split(".", 1)[0];
}

function isName(value) {
  return isText(value) && NAME.test(value);
}

function isPath(value) {
  if (!isText(value) || value.length > 255) return false;
  if (!value.split("/").every((word) => NAME.test(word) && word !== "." && word !== "..")) return false;
  const stem = stemOf(value);
  return IDENTIFIER.test(stem) && !TAKEN.has(stem);
}

function isTarget({ name, kind, modules, dependencies, main }) {
  return isName(name)
    && KINDS.has(kind)
    && Array.isArray(modules) && modules.every(isPath)
    && (dependencies === undefined || (Array.isArray(dependencies) && dependencies.every(isName)))
    && (kind !== "application" || modules.some((module) => stemOf(module) === main));
}

// The closure of each target, as the bits of a number. Each is made once, of those of its dependencies.
function closuresOf(targets) {
  const closures = [];
  const entered = new Set();
  const closureOf = (place) => {
    if (closures[place] !== undefined) return closures[place];
    accept(!entered.has(place), "DependencyCycle");
    entered.add(place);
    closures[place] = targets[place].dependencies.map(closureOf).reduce((a, b) => a | b, 1n << BigInt(place));
    return closures[place];
  };
  targets.forEach((_, place) => closureOf(place));
  return closures;
}

// Looks for two modules of one stem in a closure. Only stems that several modules of the file have can be such.
function checkStems(targets) {
  const closures = closuresOf(targets);
  const owners = new Map();
  for (const [place, { modules }] of targets.entries()) {
    for (const module of modules) {
      const stem = stemOf(module);
      if (owners.has(stem)) owners.get(stem).push(place);
      else owners.set(stem, [place]);
    }
  }
  for (const places of owners.values()) {
    if (places.length === 1) continue;
    for (const closure of closures) {
      accept(places.filter((place) => (closure >> BigInt(place)) & 1n).length < 2, "StemTwice");
    }
  }
}

function accept(fits, kind) {
  if (!fits) refuse(-32010, `workspace refused: ${kind}`);
}

// The targets of a file, their dependencies by their places.
function targetsIn(bytes) {
  accept(bytes !== null && bytes.length <= 262144 && isUtf8(bytes), "NoFile");
  let file;
  try {
    file = JSON.parse(bytes.toString());
  } catch {
    accept(false, "BadJson");
  }
  const isFile = isObject(file) && file.version === 1 && Array.isArray(file.targets);
  accept(isFile && file.targets.every((entry) => isObject(entry) && isTarget(entry)), "BadField");
  const entries = file.targets;
  const count = (part) => entries.reduce((sum, entry) => sum + (entry[part] ?? []).length, 0);
  accept(entries.length <= 256 && count("modules") <= 1024 && count("dependencies") <= 1024, "TooMany");
  const places = new Map(entries.map(({ name }, place) => [name, place]));
  accept(places.size === entries.length, "NameTwice");
  const targets = entries.map(({ name, kind, modules, dependencies = [] }) => {
    return { name, kind, modules, dependencies: dependencies.map((other) => places.get(other)) };
  });
  accept(targets.every(({ dependencies }) => !dependencies.includes(undefined)), "UnknownDependency");
  checkStems(targets);
  return targets;
}

// ---- the session

const provider = { languageIds: ["oberon"] };
const greeting = {
  bspVersion: "2.2.0",
  capabilities: {
    buildTargetChangedProvider: true,
    canReload: true,
    compileProvider: provider,
    inverseSourcesProvider: true,
    runProvider: provider,
    testProvider: provider,
  },
  displayName: "oberon-bsp",
  version: "1.0.0",
};

const folder = process.argv[3];
let workspace = null;
let closed = false;

// What is known of an address, as it is spelled or else as URL prints it.
function known(map, uri) {
  const found = map.get(uri);
  if (found !== undefined) return found;
  try {
    return map.get(new URL(uri).href);
  } catch {
    return undefined;
  }
}

function rootAt(text) {
  let { href } = new URL(text);
  if (!/^[^:]*:\/[^?#]*$/.test(href)) refuse();
  if (!href.endsWith("/")) href += "/";
  if (href.length > 4096) refuse();
  return href;
}

function initialize(params) {
  need(isObject(params), "params");
  for (const field of ["displayName", "version", "bspVersion"]) need(isText(params[field]), field);
  need(isText(params.rootUri) && Buffer.byteLength(params.rootUri) <= 4096, "rootUri");
  need(isObject(params.capabilities), "capabilities");
  need(Array.isArray(params.capabilities.languageIds), "capabilities.languageIds");
  params.capabilities.languageIds.forEach((id, n) => need(isText(id), `capabilities.languageIds[${n}]`));
  let root, bytes;
  try {
    root = rootAt(params.rootUri);
  } catch {
    need(false, "rootUri");
  }
  try {
    bytes = fs.readFileSync(path.join(folder, "oberon-build.json"));
  } catch (error) {
    if (error.code !== "ENOENT") refuse(-32603, "sources unreadable");
    bytes = null;
  }
  const targets = targetsIn(bytes);
  const byId = new Map();
  const byDocument = new Map();
  for (const target of targets) {
    target.id = { uri: `${root}?id=${target.name}` };
    byId.set(target.id.uri, target);
    target.documents = target.modules.map((module) => root + module);
    for (const uri of new Set(target.documents)) {
      if (byDocument.has(uri)) byDocument.get(uri).push(target);
      else byDocument.set(uri, [target]);
    }
  }
  workspace = { targets, byId, byDocument };
  return greeting;
}

function described({ name, kind, dependencies, id }) {
  return {
    capabilities: { canCompile: true, canRun: kind === "application", canTest: kind === "test" },
    dependencies: dependencies.map((place) => workspace.targets[place].id),
    displayName: name,
    id,
    languageIds: ["oberon"],
    tags: [kind],
  };
}

function sources(params) {
  need(isObject(params), "params");
  need(Array.isArray(params.targets), "targets");
  params.targets.forEach((id, n) => need(isText(id?.uri), `targets[${n}].uri`));
  const asked = params.targets.map(({ uri }, n) => {
    const target = known(workspace.byId, uri);
    need(target !== undefined, `targets[${n}].uri`);
    return target;
  });
  const items = [...new Set(asked)].map((target) => {
    return { sources: target.documents.map((uri) => ({ generated: false, kind: 1, uri })), target: target.id };
  });
  return { items };
}

function inverseSources(params) {
  need(isObject(params), "params");
  need(isObject(params.textDocument), "textDocument");
  need(isText(params.textDocument.uri), "textDocument.uri");
  return { targets: (known(workspace.byDocument, params.textDocument.uri) ?? []).map((target) => target.id) };
}

function resultOf(method, params) {
  if (method === "build/initialize") return workspace ? refuse(-32600, "invalid request") : initialize(params);
  if (!workspace) refuse(-32002, "server not initialized");
  if (closed) refuse(-32600, "invalid request");
  switch (method) {
    case "build/shutdown":
      closed = true;
      return null;
    case "workspace/buildTargets":
      return { targets: workspace.targets.map(described) };
    case "buildTarget/sources":
      return sources(params);
    case "buildTarget/inverseSources":
      return inverseSources(params);
    default:
      return refuse(-32601, "method not found");
  }
}

// ---- messages and frames

function send(message) {
  const text = JSON.stringify(message);
  const bytes = Buffer.from(`Content-Length: ${Buffer.byteLength(text)}\r\n\r\n${text}`);
  for (let at = 0; at < bytes.length;) at += fs.writeSync(1, bytes, at);
}

function fail(id, code, message) {
  send({ error: { code, message }, id, jsonrpc: "2.0" });
}

function act(bytes) {
  let message;
  try {
    if (!isUtf8(bytes)) throw bytes;
    message = JSON.parse(bytes.toString());
  } catch {
    return fail(null, -32700, "parse error");
  }
  if (!isObject(message) || message.jsonrpc !== "2.0") return fail(null, -32600, "invalid request");
  const { id, method, params } = message;
  if (method === undefined) return undefined;
  if (!isText(method) || !(id === undefined || isText(id) || Number.isInteger(id))) {
    return fail(null, -32600, "invalid request");
  }
  if (id === undefined) {
    if (method === "build/exit") process.exit(closed ? 0 : 1);
    return undefined;
  }
  let result;
  try {
    result = resultOf(method, params);
  } catch (error) {
    return fail(id, error.code, error.message);
  }
  return send({ id, jsonrpc: "2.0", result });
}

function serve() {
  const piece = Buffer.allocUnsafe(65536);
  let held = Buffer.alloc(0);
  for (;;) {
    const count = fs.readSync(0, piece);
    if (count === 0) process.exit(1);
    held = Buffer.concat([held, piece.subarray(0, count)]);
    let at = 0;
    for (;;) {
      const head = held.indexOf("\r\n\r\n", at);
      if (head < 0) break;
      const length = /^content-length:[ \t]*(\d{1,8})[ \t]*$/im.exec(held.latin1Slice(at, head));
      if (length === null) process.exit(2);
      const end = head + 4 + Number(length[1]);
      if (end > held.length) break;
      act(held.subarray(head + 4, end));
      at = end;
    }
    held = held.subarray(at);
  }
}

serve();
