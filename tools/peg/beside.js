// Says of schemas in which way two texts of each differ: reads JSON from standard input, a list of the texts of files and of what
// `peglinden schema` prints of them, and answers with a list: whether graphql-js accepts the files, why it can't build a schema of them, and
// what differs between that and the schema of what is printed.
'use strict';
const fs = require('node:fs');
const {
  buildASTSchema, isExecutableDefinitionNode, lexicographicSortSchema, parse, printSchema, validateSDL, LoneSchemaDefinitionRule,
  PossibleTypeExtensionsRule, UniqueDirectiveNamesRule, UniqueEnumValueNamesRule, UniqueFieldDefinitionNamesRule,
  UniqueOperationTypesRule, UniqueTypeNamesRule,
} = require('./graphql');
const { printed } = require('./prints');

const whole = (texts) => ({ kind: 'Document', definitions: texts.flatMap((text) => parse(text).definitions) });

// Of the rules for documents of the type system those by which `schema` finds faults.
const RULES = [
  LoneSchemaDefinitionRule, PossibleTypeExtensionsRule, UniqueDirectiveNamesRule, UniqueEnumValueNamesRule,
  UniqueFieldDefinitionNamesRule, UniqueOperationTypesRule, UniqueTypeNamesRule,
];
const isAccepted = (document) => (
  !document.definitions.some(isExecutableDefinitionNode) && validateSDL(document, null, RULES).length === 0
);

// What a call throws, or null.
function refusal(call) {
  try {
    call();
    return null;
  } catch (error) {
    return String(error.message);
  }
}

const build = (document) => buildASTSchema(document, { assumeValid: true, assumeValidSDL: true });
const nodesOf = (it) => [it.astNode, ...it.extensionASTNodes].filter(Boolean);
const sorted = (nodes) => nodes.map(printed).sort();
const parts = (its) => sorted(Object.values(its ?? {}).map((it) => it.astNode));
const names = (types) => (types ?? []).map((it) => it.name).sort();
const directives = (it) => sorted(nodesOf(it).flatMap((node) => node.directives));

const shownType = (type) => [
  type.constructor.name, type.description, directives(type), names(type.getInterfaces?.()), names(type.getTypes?.()),
  parts(type.getValues?.()), parts(type.getFields?.()),
];

// What a schema says itself, as texts by what each is of.
function shown(schema) {
  const its = Object.values(schema.getTypeMap()).filter((type) => nodesOf(type).length > 0);
  const roots = ['query', 'mutation', 'subscription'].map((operation) => schema.getRootType(operation)?.name);
  return {
    ...Object.fromEntries(its.map((type) => [type.name, shownType(type)])),
    '@': parts(schema.getDirectives().filter((it) => it.astNode)),
    schema: [schema.description, roots, directives(schema)],
  };
}

// The types as graphql-js prints them, or why it can't.
function sortedText(schema) {
  try {
    return printSchema(lexicographicSortSchema(schema));
  } catch (error) {
    return String(error.message);
  }
}

function differences(given, written) {
  const [before, after] = [given, written].map((it) => JSON.parse(JSON.stringify(shown(it))));
  const keys = [...new Set([...Object.keys(before), ...Object.keys(after)])];
  const texts = (key) => [before, after].map((it) => JSON.stringify(it[key]));
  const found = keys.map((key) => [key, ...texts(key)]).filter(([, one, other]) => one !== other);
  const isSame = sortedText(given) === sortedText(written);
  return [...found.map(([key, one, other]) => `${key}: ${one} and ${other}`), ...(isSame ? [] : ['printed otherwise'])];
}

function answer([files, written]) {
  const unread = refusal(() => whole(files));
  if (unread) return { accepted: false, unbuilt: unread };
  const document = whole(files);
  const accepted = isAccepted(document);
  const unbuilt = refusal(() => build(document));
  const unreadAgain = refusal(() => build(whole([written])));
  if (unbuilt || unreadAgain) return { accepted, unbuilt, differences: [`what is printed: ${unreadAgain}`] };
  return { accepted, differences: differences(build(document), build(whole([written]))) };
}

fs.writeFileSync(1, JSON.stringify(JSON.parse(fs.readFileSync(0, 'utf8')).map(answer)));
