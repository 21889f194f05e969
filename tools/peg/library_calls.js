// Makes calls of Node's module that standard input has, as JSON, and writes what they answer: tools/checked_library runs it.
'use strict';
const peglinden = require(process.argv[2]);

const NAMES = { 1: 'json', 2: 'github', 4: 'adopt', 8: 'ignoreBuiltin', 16: 'check' };
const text = (encoded) => Buffer.from(encoded, 'base64');
const files = (list) => (list || []).map(([path, its]) => ({ path: text(path).toString(), text: text(its) }));

async function made(call) {
  const flags = Object.fromEntries(Object.entries(NAMES).map(([flag, name]) => [name, (call.flags & flag) !== 0]));
  const given = { ...flags, coordinate: call.coordinate, files: files(call.lists[0]), documents: files(call.lists[1]) };
  const answer = await peglinden.ask(call.command, call.limit === null ? given : { ...given, maxFaults: call.limit });
  return [answer.status, Buffer.from(answer.output).toString('base64'), Buffer.from(answer.errors).toString('base64')];
}

async function main() {
  const calls = JSON.parse(require('fs').readFileSync(0, 'utf8'));
  console.log(JSON.stringify(await Promise.all(calls.map(made))));
}

main();
