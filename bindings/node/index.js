'use strict';
// Peglinden for Node. index.d.ts says what each function takes and answers.

const { randomBytes } = require('crypto');
const { readFile } = require('fs/promises');
const path = require('path');

const native = require(process.env.PEGLINDEN_NODE || path.join(__dirname, 'peglinden.node'));

const COMMANDS = ['schema', 'check', 'typed', 'fields', 'lookup', 'format'];
const FLAGS = { json: 1, github: 2, adopt: 4, ignoreBuiltin: 8, check: 16 };

/** Files that are no GraphQL text. */
class Refused extends Error {
  constructor(refusals) {
    super(refusals.map((it) => (it.line ? `${it.file}:${it.line}:${it.column}: ${it.message}` : it.message)).join('\n'));
    this.name = 'Refused';
    this.refusals = refusals;
  }
}

/** A text that is no schema coordinate. */
class NoCoordinate extends Error {
  constructor(message) {
    super(message);
    this.name = 'NoCoordinate';
  }
}

const bytes = (text) => (typeof text === 'string' ? Buffer.from(text) : Buffer.from(text.buffer, text.byteOffset, text.byteLength));

const fileOf = (document, index) =>
  typeof document === 'string' || ArrayBuffer.isView(document) ? { path: `document${index + 1}.graphql`, text: document } : document;

const filesOf = (documents) => documents.map(fileOf).flatMap((file) => [bytes(file.path), bytes(file.text)]);

/** What `peglinden` prints on both outputs, and its exit status. */
function ask(command, { coordinate = '', files = [], documents = [], maxFaults, ...given } = {}) {
  const flags = Object.keys(FLAGS).reduce((sum, name) => sum | (given[name] ? FLAGS[name] : 0), 0);
  const limit = maxFaults === undefined ? -1 : maxFaults;
  return native.ask(COMMANDS.indexOf(command), randomBytes(16), flags, limit, bytes(coordinate), filesOf(files), filesOf(documents));
}

/** What a command says in JSON, by its sort. */
async function found(command, given) {
  const answer = await ask(command, { ...given, json: true });
  const objects = answer.output.split('\n').filter(Boolean).map((line) => JSON.parse(line));
  const of = (type) => objects.filter((it) => it.type === type);
  if (of('refusal').length) throw new Refused(of('refusal'));
  if (answer.status === 2) throw new NoCoordinate(answer.errors.replace(/^error: /, '').trimEnd());
  return of;
}

const printed = (of) => ({ text: of('text').map((it) => it.text).join(''), faults: of('fault') });

class Schema {
  constructor(files) {
    this.files = files;
  }

  static async fromFiles(...paths) {
    return new Schema(await Promise.all(paths.map(async (it) => ({ path: it, text: await readFile(it) }))));
  }

  static fromText(text, name = 'schema.graphql') {
    return new Schema([{ path: name, text }]);
  }

  async build(options = {}) {
    return printed(await found('schema', { ...options, files: this.files }));
  }

  async check(documents, options = {}) {
    return (await found('check', { ...options, files: this.files, documents: [].concat(documents) }))('fault');
  }

  async typed(documents, options = {}) {
    return printed(await found('typed', { ...options, files: this.files, documents: [].concat(documents) }));
  }

  async fields(documents) {
    return (await found('fields', { files: this.files, documents: [].concat(documents) }))('field');
  }

  async lookup(coordinate) {
    return (await found('lookup', { coordinate, files: this.files }))('definition')[0] || null;
  }
}

/** A document in the usual layout, without its comments. */
async function format(document) {
  return printed(await found('format', { files: [document] })).text;
}

const version = () => native.version();

module.exports = { NoCoordinate, Refused, Schema, ask, format, version };
