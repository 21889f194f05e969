// What graphql-js prints of texts that it reads, in the layout that `gqltext print` promises: as docs/DIFFERENCES.md says, a description
// is a block string wherever that is read as it was, any other string is quoted, and a query keeps its keyword where it can't stand
// without it. graphql-js itself is asked where that is.
'use strict';
const { parse, parseConstValue, parseType, parseValue, print, visit } = require('./graphql');

// All control characters but tabs and line feeds.
const CONTROL = /[\0-\x08\x0b-\x1f\x7f-\x9f]/;

// Whether a block string of this value is read as the value again.
const isReadBack = (value) => parseValue(print({ kind: 'StringValue', value, block: true })).value === value;
const isBlock = (value) => !CONTROL.test(value) && isReadBack(value);

// A tree whose strings are to be printed so.
const withStrings = (tree) => visit(tree, {
  StringValue: (node, key) => ({ ...node, block: key === 'description' && isBlock(node.value) }),
});

const printed = (tree) => print(withStrings(tree));

// Whether a definition and a query without a keyword are read as two, one behind the other.
function standApart(definition, query) {
  try {
    return parse(`${definition}\n\n${query}`).definitions.length === 2;
  } catch {
    return false;
  }
}

// The texts of definitions, of which a query may want its keyword.
function printedDefinitions(definitions) {
  const texts = definitions.map(printed);
  return texts.map((text, at) => (at > 0 && text.startsWith('{') && !standApart(texts[at - 1], text) ? `query ${text}` : text));
}

function printedText(sort, text, parseSelections) {
  switch (sort) {
    case 'selections':
      return printed(parseSelections(text));
    case 'type':
      return printed(parseType(text));
    case 'value':
      return printed(parseConstValue(text));
    default:
      return printedDefinitions(parse(text).definitions).join('\n\n');
  }
}

module.exports = { printed, printedText };
