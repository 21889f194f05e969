// Reads, builds and writes a GraphQL text by gqlparser, as peer_times.js does by graphql-js. To build is to read the text, to build
// and to check the schema, in one call.
package main

import (
	"bytes"
	"encoding/json"
	"fmt"
	"os"
	"strconv"
	"syscall"

	"github.com/vektah/gqlparser/ast"
	"github.com/vektah/gqlparser/formatter"
	"github.com/vektah/gqlparser/parser"
	"github.com/vektah/gqlparser/validator"
)

func orEnd(err error) {
	if err != nil {
		fmt.Fprintln(os.Stderr, err)
		os.Exit(1)
	}
}

func now() float64 {
	var used syscall.Rusage
	orEnd(syscall.Getrusage(syscall.RUSAGE_SELF, &used))
	return float64(used.Utime.Nano()+used.Stime.Nano()) / 1e9
}

func secondsOf(work func(), wanted float64) float64 {
	began, done := now(), 0
	for now() < began+wanted {
		work()
		done++
	}
	return (now() - began) / float64(done)
}

func warmSecondsOf(work func(), wanted float64) float64 {
	secondsOf(work, wanted)
	return secondsOf(work, wanted)
}

// What the phases of a schema take. What is no valid schema isn't built.
func ofSchema(source *ast.Source, read *ast.SchemaDocument, wanted float64) map[string]float64 {
	phases := map[string]float64{
		"read":  warmSecondsOf(func() { parser.ParseSchema(source) }, wanted),
		"write": warmSecondsOf(func() { formatter.NewFormatter(new(bytes.Buffer)).FormatSchemaDocument(read) }, wanted),
	}
	load := func() { validator.LoadSchema(validator.Prelude, source) }
	if _, refused := validator.LoadSchema(validator.Prelude, source); refused == nil {
		phases["build"] = warmSecondsOf(load, wanted)
	}
	return phases
}

// What the phases of operations and fragments take.
func ofQuery(source *ast.Source, wanted float64) map[string]float64 {
	read, err := parser.ParseQuery(source)
	if err != nil {
		orEnd(err)
	}
	return map[string]float64{
		"read":  warmSecondsOf(func() { parser.ParseQuery(source) }, wanted),
		"write": warmSecondsOf(func() { formatter.NewFormatter(new(bytes.Buffer)).FormatQueryDocument(read) }, wanted),
	}
}

func main() {
	text, err := os.ReadFile(os.Args[1])
	orEnd(err)
	source := &ast.Source{Name: os.Args[1], Input: string(text)}
	if len(os.Args) > 3 {
		schema, refused := validator.LoadSchema(validator.Prelude, source)
		if refused != nil {
			orEnd(refused)
		}
		formatter.NewFormatter(os.Stdout).FormatSchema(schema)
		return
	}
	wanted, err := strconv.ParseFloat(os.Args[2], 64)
	orEnd(err)
	var phases map[string]float64
	if read, failed := parser.ParseSchema(source); failed == nil {
		phases = ofSchema(source, read, wanted)
	} else {
		phases = ofQuery(source, wanted)
	}
	orEnd(json.NewEncoder(os.Stdout).Encode(phases))
}
