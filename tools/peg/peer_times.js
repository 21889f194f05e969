// Reads the GraphQL text of a file by graphql-js, builds the schema of what it has read, unchecked, and writes that, each again and again
// for so many seconds of the processor as the second word says, once to warm up and once more. Prints the seconds of each phase as JSON.
// With a third word it does so once, from the start, and prints the schema instead.
'use strict';
const fs = require('node:fs');
const { buildASTSchema, parse, print, printSchema } = require('./graphql');

const [path, seconds, whole] = process.argv.slice(2);

function now() {
  const { user, system } = process.cpuUsage();
  return (user + system) / 1e6;
}

function secondsOf(work) {
  const began = now();
  let done = 0;
  while (now() < began + Number(seconds)) {
    work();
    done += 1;
  }
  return (now() - began) / done;
}

function warmSecondsOf(work) {
  secondsOf(work);
  return secondsOf(work);
}

const built = (document) => buildASTSchema(document, { assumeValid: true, assumeValidSDL: true });

try {
  const text = fs.readFileSync(path, 'utf8');
  const document = parse(text);
  if (whole) {
    fs.writeFileSync(1, `${printSchema(built(document))}\n`);
  } else {
    const phases = {
      read: warmSecondsOf(() => parse(text)),
      build: warmSecondsOf(() => built(document)),
      write: warmSecondsOf(() => print(document)),
    };
    console.log(JSON.stringify(phases));
  }
} catch (error) {
  console.error(error.message);
  process.exitCode = 1;
}
