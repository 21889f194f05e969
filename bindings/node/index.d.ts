/** Peglinden for Node: GraphQL schemas and documents, read, checked and printed, by a library that is proved. */

/** A file in memory. The path is only a name, for what is said of it. */
export interface File {
  path: string;
  text: string | Uint8Array;
}

/** A document: its text, or a file. */
export type Document = string | Uint8Array | File;

/** Where something stands. Lines and columns count from 1; the end is the first column behind it. All are null for what is built in. */
export interface Place {
  file: string | null;
  line: number | null;
  column: number | null;
  end_line: number | null;
  end_column: number | null;
}

/** A definition of a document. The name of an anonymous operation is null. */
export interface Root {
  kind: 'query' | 'mutation' | 'subscription' | 'fragment';
  name: string | null;
}

/** Where a selection stands: in which definition, and below which response keys. */
export interface Path {
  root: Root;
  keys: string[];
}

/** What is wrong, and where, with the details of its kind: docs/JSON.md. */
export interface Fault extends Place {
  kind: string;
  message: string;
  path: Path | null;
  [detail: string]: unknown;
}

/** A field that an operation reaches, how often it stands there, and where it is defined. */
export interface FieldUsage extends Place {
  operation: Root;
  coordinate: string;
  field_type: string;
  count: number;
}

/** What a coordinate points to, as GraphQL text, and where it stands. */
export interface Definition extends Place {
  coordinate: string;
  text: string;
}

/** GraphQL text, and what is at fault beside it. */
export interface Printed {
  text: string;
  faults: Fault[];
}

/** Files that are no GraphQL text. */
export class Refused extends Error {
  refusals: Fault[];
}

/** A text that is no schema coordinate. */
export class NoCoordinate extends Error {}

export interface Reporting {
  /** So many faults are told at most. */
  maxFaults?: number;
}

export interface Building extends Reporting {
  /** What has extensions and no definition is taken as defined. */
  adopt?: boolean;
  /** Further definitions of built-in types are passed over. */
  ignoreBuiltin?: boolean;
}

/** The schema of some files. Each call reads them anew; they are kept in memory. */
export class Schema {
  constructor(files: File[]);
  static fromFiles(...paths: string[]): Promise<Schema>;
  static fromText(text: string | Uint8Array, name?: string): Schema;
  /** The schema as text, and its faults. */
  build(options?: Building): Promise<Printed>;
  /** The faults of the schema, and of these documents over it. */
  check(documents: Document | Document[], options?: Reporting): Promise<Fault[]>;
  /** These documents, typed over the schema, as text, and the faults of both. */
  typed(documents: Document | Document[], options?: Reporting): Promise<Printed>;
  /** The fields that each operation of these documents reaches. */
  fields(documents: Document | Document[]): Promise<FieldUsage[]>;
  /** What a coordinate, as `Book.title`, points to. Null where that is nothing; `NoCoordinate` is thrown where it is none. */
  lookup(coordinate: string): Promise<Definition | null>;
}

export interface Asked extends Building {
  coordinate?: string;
  files?: Document[];
  documents?: Document[];
  json?: boolean;
  github?: boolean;
  check?: boolean;
}

/** What `peglinden` prints on both outputs, and its exit status. */
export interface Answer {
  status: 0 | 1 | 2;
  output: string;
  errors: string;
}

/** The answer of a command, as the program prints it. The schema's files are `files`. */
export function ask(command: 'schema' | 'check' | 'typed' | 'fields' | 'lookup' | 'format', given?: Asked): Promise<Answer>;

/** A document in the usual layout, without its comments. */
export function format(document: Document): Promise<string>;

/** The version of the library. */
export function version(): string;
