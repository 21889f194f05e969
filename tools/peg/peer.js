// Says what graphql-js makes of documents: reads a request of JSON on each line of standard input, and answers each in a line. A text
// says what went wrong.
'use strict';
const fs = require('node:fs');
const {
  buildASTSchema, GraphQLSchema, isIntrospectionType, isSpecifiedScalarType, parse, specifiedScalarTypes, validate, validateSDL,
  validateSchema, version,
  FieldsOnCorrectTypeRule, KnownTypeNamesRule, LoneAnonymousOperationRule, LoneSchemaDefinitionRule,
  PossibleTypeExtensionsRule, ScalarLeafsRule, UniqueDirectiveNamesRule, UniqueEnumValueNamesRule,
  UniqueFieldDefinitionNamesRule, UniqueFragmentNamesRule, UniqueOperationNamesRule, UniqueOperationTypesRule,
  UniqueTypeNamesRule, kindWord, notation,
} = require('./graphql');

const lineOf = (node) => node.loc.startToken.line;
const named = (rule) => rule.name.replace(/Rule$/, '');
const applied = (node) => node.directives.map((directive) => directive.name.value);
const text = (type) => type.toString();
const argumentsOf = (field) => field.args.map((argument) => [argument.name, text(argument.type)]);

function describedType(type) {
  const directives = [type.astNode, ...type.extensionASTNodes].flatMap(applied);
  const described = { kind: kindWord(type.astNode), directives };
  described.implements = (type.getInterfaces?.() ?? []).map((it) => it.name);
  described.members = (type.getTypes?.() ?? []).map((it) => it.name);
  described.values = (type.getValues?.() ?? []).map((it) => it.name);
  described.fields = {};
  for (const field of Object.values(type.getFields?.() ?? {})) {
    described.fields[field.name] = [text(field.type), field.args ? argumentsOf(field) : [], applied(field.astNode)];
  }
  return described;
}

const last = (error) => error.nodes[error.nodes.length - 1];

// The types, the directive definitions and the roots of a schema that are its own.
function described(schema) {
  const types = {};
  for (const type of Object.values(schema.getTypeMap())) {
    if (!isIntrospectionType(type) && !isSpecifiedScalarType(type)) types[type.name] = describedType(type);
  }
  const directives = {};
  for (const directive of schema.getDirectives().filter((it) => it.astNode)) {
    directives[directive.name] = [argumentsOf(directive), directive.isRepeatable, directive.locations];
  }
  const roots = {};
  for (const operation of ['query', 'mutation', 'subscription']) {
    const root = schema.getRootType(operation);
    if (root) roots[operation] = root.name;
  }
  const nodes = [schema.astNode, ...schema.extensionASTNodes].filter(Boolean);
  return { types, directives, roots, applied: nodes.flatMap(applied) };
}

// The schema of this text. Built-in scalars that nothing names are there too.
function schemaOf(document) {
  const config = buildASTSchema(document, { assumeValid: true }).toConfig();
  const missing = specifiedScalarTypes.filter((scalar) => !config.types.some((type) => type.name === scalar.name));
  return new GraphQLSchema({ ...config, types: [...config.types, ...missing] });
}

const without = (document, nodes) => ({
  ...document, definitions: document.definitions.filter((it) => !nodes.has(it) && !nodes.has(it.name)),
});

// What is refused for names handed in twice, and for extensions of nothing: first whole definitions, then, without these,
// whole extensions, then, without them too, components. Definitions come before their extensions.
function refusals(document) {
  const said = [];
  const dropped = (rules) => {
    const nodes = new Set();
    for (const rule of rules) {
      for (const error of validateSDL(document, null, [rule])) {
        nodes.add(last(error));
        said.push([named(rule), lineOf(last(error))]);
      }
    }
    document = without(document, nodes);
  };
  dropped([LoneSchemaDefinitionRule, UniqueTypeNamesRule, UniqueDirectiveNamesRule]);
  dropped([PossibleTypeExtensionsRule]);
  const isExtension = (it) => it.kind.endsWith('Extension');
  const definitions = document.definitions;
  const inOrder = [...definitions.filter((it) => !isExtension(it)), ...definitions.filter(isExtension)];
  document = { ...document, definitions: inOrder };
  dropped([UniqueOperationTypesRule, UniqueFieldDefinitionNamesRule, UniqueEnumValueNamesRule]);
  for (const error of validateSchema(buildASTSchema(document, { assumeValidSDL: true }))) {
    const rule = /can only (implement|include type) \w+ once/.exec(error.message);
    if (rule) said.push(...error.nodes.slice(1).map((node) => [rule[1], lineOf(node)]));
  }
  return said;
}

// The errors of documents. Operations without a root and fragments on what is no type take no name.
function errors(schema, document) {
  const rules = [FieldsOnCorrectTypeRule, ScalarLeafsRule, KnownTypeNamesRule];
  const unbuilt = document.definitions.filter((it) => it.typeCondition
    ? !schema.getType(it.typeCondition.name.value)
    : !schema.getRootType(it.operation));
  const said = unbuilt.filter((it) => it.operation).map((it) => ['rootless', lineOf(it)]);
  const no = { maxErrors: Infinity };
  for (const rule of rules) {
    for (const error of validate(schema, document, [rule], no)) {
      const isMissing = /must have a selection of subfields/.test(error.message);
      said.push([isMissing ? 'missing' : named(rule), lineOf(error.nodes[0])]);
    }
  }
  const rest = without(document, new Set(unbuilt));
  for (const rule of [UniqueOperationNamesRule, UniqueFragmentNamesRule, LoneAnonymousOperationRule]) {
    for (const error of validate(schema, rest, [rule], no)) said.push([named(rule), lineOf(last(error))]);
  }
  return said;
}

const ANSWERS = {
  version: () => version,
  whole: ({ schema }) => described(buildASTSchema(parse(schema), { assumeValid: true })),
  twice: ({ schema }) => refusals(parse(schema)),
  lines: ({ texts }) => notation(texts.map((it) => parse(it))).map((line) => line.text),
  document: ({ schema, document }) => errors(schemaOf(parse(schema)), parse(document)),
};

const requests = fs.readFileSync(0, 'utf8').split('\n').filter(Boolean).map((line) => JSON.parse(line));
const answers = requests.map((request) => {
  try {
    return ANSWERS[request.sort](request);
  } catch (error) {
    return String(error.stack);
  }
});
fs.writeFileSync(1, answers.map((answer) => `${JSON.stringify(answer)}\n`).join(''));
