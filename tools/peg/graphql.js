// graphql-js 16, where node finds it or where Debian's package node-graphql has it, and the documents that it parses in the notation
// of docs/NOTATION.md.
'use strict';

function load(name) {
  try {
    return require(name);
  } catch {
    return require(`/usr/share/nodejs/${name}`);
  }
}

const graphql = {
  ...load('graphql'),
  validateSDL: load('graphql/validation/validate').validateSDL,
  Parser: load('graphql/language/parser').Parser,
};
const { isExecutableDefinitionNode, print, visit } = graphql;

const KINDS = {
  Scalar: 'scalar', Object: 'object', Interface: 'interface', Union: 'union', Enum: 'enum', InputObject: 'input',
};
// The word for the kind of the type that a node defines or extends.
const kindWord = (node) => KINDS[node.kind.replace(/Type(Definition|Extension)$/, '')];

// A line, and the node that it says: the lines of a document are in the order of its text.
const line = (node, ...words) => ({ text: words.join(' '), node });
const named = (word, nodes = []) => nodes.map((node) => line(node, word, (node.name ?? node).value));
const typed = (word, nodes = []) => nodes.map((node) => line(node, word, node.name.value, print(node.type)));

const fieldLines = (field) => [
  ...typed('field', [field]),
  ...typed('arg', field.arguments),
  ...named('field@', field.directives),
];

function selectionWords(node) {
  switch (node.kind) {
    case 'Field':
      return ['field', node.name.value, ...(node.alias ? [node.alias.value] : [])];
    case 'FragmentSpread':
      return ['spread', node.name.value];
    default:
      return ['inline', ...(node.typeCondition ? [node.typeCondition.name.value] : [])];
  }
}

const selectionLines = (set, depth) => (set?.selections ?? []).flatMap((node) => [
  line(node, 'sel', depth, ...selectionWords(node)),
  ...selectionLines(node.selectionSet, depth + 1),
]);

function headerWords(node) {
  switch (node.kind) {
    case 'OperationDefinition':
      return ['operation', node.operation, node.name?.value ?? '-'];
    case 'FragmentDefinition':
      return ['fragment', node.name.value, node.typeCondition.name.value];
    case 'DirectiveDefinition':
      return ['directive', node.name.value];
    case 'SchemaDefinition':
      return ['schema'];
    case 'SchemaExtension':
      return ['ext-schema'];
    default:
      return [node.kind.endsWith('Extension') ? 'ext' : 'def', kindWord(node), node.name.value];
  }
}

const definitionLines = (node) => [
  line(node, ...headerWords(node)),
  ...named('implements', node.interfaces),
  ...typed('arg', node.arguments),
  ...named('@', node.directives),
  ...(node.repeatable ? [line(node, 'repeatable')] : []),
  ...named('on', node.locations),
  ...(node.operationTypes ?? []).map((root) => line(root, 'root', root.operation, root.type.name.value)),
  ...(node.fields ?? []).flatMap(fieldLines),
  ...named('member', node.types),
  ...named('value', node.values),
  ...selectionLines(node.selectionSet, 0),
];

const divided = (documents) => documents.flatMap((definitions, index) => [
  ...(index > 0 ? [line(null, '---')] : []),
  ...definitions.flatMap(definitionLines),
]);

// The lines of documents: first what each defines and extends, and then, if there are any, their operations and fragments.
function notation(documents) {
  const part = (isOfIt) => documents.map((it) => it.definitions.filter(isOfIt)).filter((it) => it.length > 0);
  const executable = part(isExecutableDefinitionNode);
  return [
    ...divided(part((it) => !isExecutableDefinitionNode(it))),
    ...(executable.length > 0 ? [line(null, '===')] : []),
    ...divided(executable),
  ];
}

// Where the directives stand that the notation has no line for, by the node that they are applied to.
const SELECTIONS = ['Field', 'FragmentSpread', 'InlineFragment'];
function directiveLeftOut(owners) {
  const [owner, outer] = owners;
  if (SELECTIONS.includes(owner.kind)) return 'directives of selections';
  if (owner.kind === 'EnumValueDefinition') return 'directives of enum values';
  const isArgument = owner.kind === 'InputValueDefinition' && !outer.kind.startsWith('InputObject');
  return isArgument ? 'directives of arguments' : null;
}

// What a node is that the notation has no line for, or null: `key` is what it is of its owner, the first of its owners.
function whatIsLeftOut(node, key, owners) {
  if (key === 'description') return 'descriptions';
  if (key === 'defaultValue') return 'default values';
  switch (node.kind) {
    case 'VariableDefinition':
      return 'variables';
    case 'Argument':
      return owners[0].kind === 'Directive' ? 'arguments of directives' : 'arguments of selected fields';
    case 'Directive':
      return directiveLeftOut(owners);
    default:
      return null;
  }
}

// How many things of each sort are in documents that the notation has no line for. What stands in such a thing is not counted.
function leftOut(documents) {
  const counts = new Map();
  const enter = (node, key, parent, path, ancestors) => {
    const owners = [...ancestors, parent].filter((it) => it && !Array.isArray(it)).reverse();
    const what = whatIsLeftOut(node, key, owners);
    if (!what) return undefined;
    counts.set(what, (counts.get(what) ?? 0) + 1);
    return false;
  };
  for (const document of documents) visit(document, { enter });
  return counts;
}

module.exports = { ...graphql, kindWord, leftOut, notation };
