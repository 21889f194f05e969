// Says what graphql-js reads texts as, as `gqltext` does: reads JSON, a list of words of `gqltext` and texts, from standard input, and
// writes a line for each: `tree` and the tree, or `refused`, the byte where, and why; with `print` in front it is `text` and the text
// that is printed, in place of the tree. What `gqltext` doesn't keep is left out: the places of lists, of non-null types, of members of
// objects and of operation types, and whether a string is a block.
'use strict';
const fs = require('node:fs');
const { parse, parseConstValue, Parser, parseType } = require('./graphql');
const { printedText } = require('./prints');

// The byte of each place in a text, of which graphql-js counts UTF-16 units.
function bytesOf(text) {
  const bytes = new Uint32Array(text.length + 1);
  for (let at = 0; at < text.length; at++) {
    const unit = text.charCodeAt(at);
    const isSurrogate = unit >= 0xd800 && unit < 0xe000;
    bytes[at + 1] = bytes[at] + (unit < 0x80 ? 1 : unit < 0x800 || isSurrogate ? 2 : 3);
  }
  return bytes;
}

const SHORT = { '\t': '\\t', '\n': '\\n', '\r': '\\r', '"': '\\"', "'": "\\'", '\\': '\\\\' };
const hexadecimal = (character) => `\\u{${character.codePointAt(0).toString(16)}}`;
const escaped = (text) => `"${text.replace(/[^\x20-\x7e]|["'\\]/gu, (it) => SHORT[it] ?? hexadecimal(it))}"`;

// `an object type definition` of `ObjectTypeDefinition`.
function described(kind) {
  const words = kind.replace(/\B[A-Z]/g, (letter) => ` ${letter}`).toLowerCase();
  return `${/^[aeio]/.test(words) ? 'an' : 'a'} ${words}`;
}

// Selections, with braces or without.
function parseSelections(text) {
  const parser = new Parser(text);
  if (parser._lexer.lookahead().kind !== '{') {
    return { kind: 'SelectionSet', selections: parser.many('<SOF>', parser.parseSelection, '<EOF>') };
  }
  parser.expectToken('<SOF>');
  const set = parser.parseSelectionSet();
  parser.expectToken('<EOF>');
  return set;
}

// The words of what a text is read as, in these bytes.
function told(sort, text, bytes) {
  const at = (it) => `${bytes[it.loc.start]}..${bytes[it.loc.end]}`;
  const name = (it) => (it ? [it.value, at(it)] : ['-']);
  const description = (it) => (it ? [escaped(it.value), at(it)] : ['-']);
  const list = (items, tell) => ['[', ...(items ?? []).flatMap(tell), ']'];
  const placed = (it, tell) => (it ? [at(it), ...tell(it)] : ['-']);
  const nodes = (items, tell) => list(items, (it) => placed(it, tell));

  const type = (it, mark = '?') => {
    switch (it.kind) {
      case 'NonNullType':
        return type(it.type, '!');
      case 'ListType':
        return ['[', ...type(it.type), `]${mark}`];
      default:
        return [...name(it.name), mark];
    }
  };
  const VALUES = {
    NullValue: () => ['null'],
    EnumValue: (it) => ['enum', it.value, at(it)],
    Variable: (it) => ['$', ...name(it.name)],
    StringValue: (it) => [escaped(it.value)],
    FloatValue: (it) => ['float', it.value],
    IntValue: (it) => ['int', it.value],
    BooleanValue: (it) => [String(it.value)],
    ListValue: (it) => ['list', ...nodes(it.values, value)],
    ObjectValue: (it) => ['object', ...list(it.fields, argument)],
  };
  const value = (it) => VALUES[it.kind](it);
  const argument = (it) => [...name(it.name), ...placed(it.value, value)];
  const given = (it) => nodes(it.arguments, argument);
  const directives = (it) => nodes(it.directives, (directive) => [...name(directive.name), ...given(directive)]);
  const variable = (it) => [
    ...name(it.variable.name), ...placed(it.type, type), ...placed(it.defaultValue, value), ...directives(it),
  ];

  const SELECTIONS = {
    Field: (it) => ['field', ...name(it.alias), ...name(it.name), ...given(it), ...directives(it), ...selections(it)],
    FragmentSpread: (it) => ['spread', ...name(it.name), ...directives(it)],
    InlineFragment: (it) => ['inline', ...name(it.typeCondition?.name), ...directives(it), ...selections(it)],
  };
  const selections = (it) => nodes(it.selectionSet?.selections, (selection) => SELECTIONS[selection.kind](selection));

  const head = (it) => [...description(it.description), ...name(it.name)];
  const input = (it) => [...head(it), ...placed(it.type, type), ...placed(it.defaultValue, value), ...directives(it)];
  const inputs = (items) => nodes(items, input);
  const field = (it) => [...head(it), ...inputs(it.arguments), ...type(it.type), ...directives(it)];
  const enumValue = (it) => [...head(it), ...directives(it)];
  const named = (it) => name(it.name);
  const root = (it) => [it.operation, ...named(it.type)];
  const outputType = (it) => [...list(it.interfaces, named), ...directives(it), ...nodes(it.fields, field)];
  const PARTS = {
    Schema: (it) => [...directives(it), ...nodes(it.operationTypes, root)],
    ScalarType: (it) => directives(it),
    ObjectType: outputType,
    InterfaceType: outputType,
    UnionType: (it) => [...directives(it), ...list(it.types, named)],
    EnumType: (it) => [...directives(it), ...nodes(it.values, enumValue)],
    InputObjectType: (it) => [...directives(it), ...inputs(it.fields)],
  };
  const definition = (it) => {
    switch (it.kind) {
      case 'OperationDefinition':
        return [
          it.operation, ...name(it.name), ...nodes(it.variableDefinitions, variable), ...directives(it), ...selections(it),
        ];
      case 'FragmentDefinition':
        return [...name(it.name), ...name(it.typeCondition.name), ...directives(it), ...selections(it)];
      case 'DirectiveDefinition':
        return [...head(it), ...inputs(it.arguments), String(it.repeatable), ...list(it.locations, (word) => [word.value])];
      default: {
        const [, sort, word] = /^(\w+)(Definition|Extension)$/.exec(it.kind);
        return [
          ...(word === 'Definition' ? description(it.description) : []),
          ...(sort === 'Schema' ? [] : name(it.name)),
          ...PARTS[sort](it),
        ];
      }
    }
  };
  switch (sort) {
    case 'selections':
      return selections({ selectionSet: parseSelections(text) });
    case 'type':
      return type(parseType(text));
    case 'value':
      return placed(parseConstValue(text), value);
    default:
      return list(parse(text).definitions, (it) => [described(it.kind), ...placed(it, definition)]);
  }
}

function answer([words, text]) {
  const bytes = bytesOf(text);
  const sort = words.at(-1);
  try {
    if (words[0] === 'print') return `text ${escaped(printedText(sort, text, parseSelections))} again`;
    return `tree ${told(sort, text, bytes).join(' ')} `;
  } catch (error) {
    if (!error.positions) throw error;
    return `refused ${bytes[error.positions[0]]} ${error.message}`.replace(/\s/g, ' ');
  }
}

const asked = JSON.parse(fs.readFileSync(0, 'utf8'));
fs.writeFileSync(1, asked.map((pair) => `${answer(pair)}\n`).join(''));
