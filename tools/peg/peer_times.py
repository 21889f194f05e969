"""Reads, builds and writes a GraphQL text by graphql-core, as peer_times.js does by graphql-js."""
import json
import pathlib
import sys
import time

from graphql import build_ast_schema, parse, print_ast, print_schema


def seconds_of(work, seconds):
    began, done = time.process_time(), 0
    while time.process_time() < began + seconds:
        work()
        done += 1
    return (time.process_time() - began) / done


def built(document):
    return build_ast_schema(document, assume_valid=True, assume_valid_sdl=True)


path, seconds, *whole = sys.argv[1:]
text = pathlib.Path(path).read_text()
document = parse(text)
if whole:
    print(print_schema(built(document)))
else:
    works = {"read": lambda: parse(text), "build": lambda: built(document), "write": lambda: print_ast(document)}
    print(json.dumps({phase: seconds_of(work, float(seconds)) for phase, work in works.items()}))
