// Answers the questions of tests/library_cases.py by the Go package: `suite FILE`.
package main

import (
	"bufio"
	"bytes"
	"errors"
	"fmt"
	"os"
	"strconv"
	"strings"

	"example.org/odfilter"
)

// What is held from question to question; nil where nothing could be made.
type client struct {
	schema *odfilter.Schema
	ofType *odfilter.Type
	filter *odfilter.Filter
}

func main() {
	wire, err := os.ReadFile(os.Args[1])
	if err != nil {
		panic(err)
	}
	out := bufio.NewWriter(os.Stdout)
	defer out.Flush()
	next := func() []byte {
		colon := bytes.IndexByte(wire, ':')
		length, _ := strconv.Atoi(string(wire[:colon]))
		text := wire[colon+1 : colon+1+length]
		wire = wire[colon+length+2:]
		return text
	}
	asked := client{}
	for len(wire) > 0 {
		answer := asked.answer(string(next()), next)
		fmt.Fprintf(out, "%d:%s,", len(answer), answer)
	}
}

func (c *client) answer(word string, next func() []byte) string {
	switch word {
	case "schema":
		return c.readSchema(next())
	case "type":
		return c.findType(string(next()))
	case "filter", "query", "url":
		return c.check(word, string(next()))
	case "canonical", "explain":
		if c.filter == nil {
			return "nothing"
		}
		call := c.filter.Canonical
		if word == "explain" {
			call = c.filter.Explanation
		}
		text, err := call()
		return text + report(err)
	}
	rows, moment := next(), string(next())
	if c.filter == nil {
		return "nothing"
	}
	return c.judged(word, rows, moment)
}

func (c *client) readSchema(document []byte) string {
	c.ofType, c.filter = nil, nil
	var err error
	if c.schema, err = odfilter.ReadSchema(document); err == nil {
		return "accepted"
	}
	fault := err.(*odfilter.SchemaError)
	return strings.Join(append([]string{fault.Code}, fault.Names...), " ")
}

func (c *client) findType(name string) string {
	c.ofType, c.filter = nil, nil
	if c.schema == nil {
		return "nothing"
	}
	var err error
	if c.ofType, err = c.schema.Type(name); err == nil {
		return "found"
	}
	return report(err)
}

func (c *client) check(word, text string) string {
	if c.ofType == nil {
		return "nothing"
	}
	calls := map[string]func(string) (*odfilter.Filter, error){
		"filter": c.ofType.Check, "query": c.ofType.CheckQuery, "url": c.ofType.CheckURL,
	}
	var err error
	c.filter, err = calls[word](text)
	answer := "accepted"
	if err != nil {
		answer = report(err)
	}
	var refused *odfilter.RefusedError
	switch {
	case word != "url":
	case err == nil:
		answer += found(c.filter.Piece, c.filter.Value, c.filter.Text)
	case errors.As(err, &refused):
		answer += found(refused.Piece, refused.Value, refused.Text)
	}
	return answer
}

func found(piece, value odfilter.Span, text string) string {
	return fmt.Sprintf("\n%d %d %d %d\n%s", piece.Start, piece.Stop, value.Start, value.Stop, text)
}

func (c *client) judged(word string, rows []byte, moment string) string {
	options := []odfilter.JudgeOption{}
	if moment != "" {
		options = append(options, odfilter.At(moment))
	}
	judge, err := c.filter.NewJudge(options...)
	if err != nil {
		panic(err)
	}
	defer judge.Close()
	if word == "row" {
		verdict, err := judge.Verdict(rows)
		if err != nil {
			return report(err)
		}
		return verdict.String()
	}
	kept, err := judge.FilterLines(rows)
	if err == nil {
		return "\n" + string(kept.Text)
	}
	return fmt.Sprintf("row %d %s\n%s", err.(*odfilter.RowError).Line, report(err), err.(*odfilter.RowError).Kept)
}

// report returns an error as the program spells it.
func report(err error) string {
	var refused *odfilter.RefusedError
	var query *odfilter.QueryError
	var row *odfilter.RowError
	var unknown *odfilter.UnknownTypeError
	switch {
	case err == nil:
		return ""
	case errors.As(err, &refused):
		return fmt.Sprintf("refused %s %d..%d", refused.Code, refused.Span.Start, refused.Span.Stop)
	case errors.As(err, &query):
		return fmt.Sprintf("refused query %s %d", query.Code, query.Number)
	case errors.As(err, &row):
		return strings.TrimSpace(row.Code + " " + row.Path)
	case errors.As(err, &unknown):
		return "unknown"
	case errors.Is(err, odfilter.ErrNoFilter):
		return "no filter"
	}
	panic(err)
}
