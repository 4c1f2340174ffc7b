package odfilter

import (
	"errors"
	"fmt"
	"strings"
	"unicode"
	"unicode/utf8"
)

// What a call reports by itself: compare with errors.Is. Their text is the library's sentence.
var (
	ErrNoFilter      error = plainError{why: statusNoFilter}
	ErrMomentNeeded  error = plainError{why: statusMomentNeeded}
	ErrNotAMoment    error = plainError{why: statusNotAMoment}
	ErrTooCostly     error = plainError{why: statusTooCostly}
	ErrUnknownColumn error = plainError{why: statusUnknownColumn}
	ErrNotUTF8             = errors.New("odfilter: the text is not UTF-8")
	ErrClosed              = errors.New("odfilter: already closed")
	ErrOutOfMemory         = errors.New("odfilter: out of memory")
)

// A plainError is a status that says everything but what it is about.
type plainError struct {
	why   status
	about string
}

func (e plainError) Error() string { return messageOf(nil, e.why, []byte(e.about), new(answer)) }

// Is tells errors.Is that it does not matter what the error is about.
func (e plainError) Is(other error) bool {
	plain, isPlain := other.(plainError)
	return isPlain && plain.why == e.why
}

// errorOf returns the error of a status that says everything but what it is about.
func errorOf(s status, about string) error {
	name, isKnown := faultNames[s][0]
	switch {
	case s == statusNotUTF8:
		return ErrNotUTF8
	case s == statusMemory:
		return ErrOutOfMemory
	case s == statusUnsayable || s == statusTooDeep:
		return &UnsayableError{Code: name, Message: messageOf(nil, s, nil, new(answer))}
	case isKnown:
		return plainError{s, about}
	}
	return fmt.Errorf("odfilter: status %d", s)
}

// A Span is a range of bytes, from the first to the one after the last.
type Span struct{ Start, Stop int }

// A Kind says what a refused filter lacks: tokens, a tree, or types.
type Kind string

// The kinds of refusals.
const (
	KindText   Kind = "text"
	KindSyntax Kind = "syntax"
	KindType   Kind = "type"
)

// A RefusedError says why and where a filter is refused: at Text[Span.Start:Span.Stop]. Code is the fault's name, which
// stays from version to version; Message is a sentence for people. Piece and Value are those of a Filter. JSON, of this
// and other errors, is the object that the program prints by --format json, with the edits that the type suggests.
type RefusedError struct {
	Kind                      Kind
	Code, Text, Message, JSON string
	Span, Piece, Value        Span
}

// A QueryError says why a query is refused. Number is the byte of the '%' for the code BadEscape, and else the index of
// the option. Both count from 0, empty options too.
type QueryError struct {
	Code, Message, JSON string
	Number              uint64
}

// A SchemaError says why a document is no schema. Names are those that the fault carries, none to two.
type SchemaError struct {
	Code, Message, JSON string
	Names               []string
}

// An UnknownTypeError says that a schema has no entity type of that name.
type UnknownTypeError struct{ Name, Message, JSON string }

// A RowError says why a row has no verdict. Path leads from the row to the value at fault, as Parts/0/Qty; it may be
// empty. Line counts lines from 1, and Kept has the lines that were kept before it; JSON has no line. Of a row that
// costs more than the judge's bound Code is "TooCostly", and errors.Is finds ErrTooCostly.
type RowError struct {
	Code, Path, Message, JSON string
	Line                      uint64
	Kept                      []byte
}

// An UnsayableError says why a filter has no conditions of SQL. Code is "Nul" where a literal or a column's name holds
// U+0000, and "TooDeep" where the filter or its conditions nest too deeply.
type UnsayableError struct{ Code, Message string }

func (e *RefusedError) Error() string     { return e.Message }
func (e *QueryError) Error() string       { return e.Message }
func (e *SchemaError) Error() string      { return e.Message }
func (e *UnknownTypeError) Error() string { return e.Message }
func (e *RowError) Error() string         { return e.Message }
func (e *UnsayableError) Error() string   { return e.Message }

// Unwrap returns ErrTooCostly for a row that costs more than the judge's bound.
func (e *RowError) Unwrap() error {
	if e.Code == faultNames[statusTooCostly][0] {
		return ErrTooCostly
	}
	return nil
}

// Pointed returns the filter's text, and below it a caret under each character of the span, one at least. What is not
// printable, as a line feed, is shown as U+FFFD.
func (e *RefusedError) Pointed() string {
	shown := strings.Map(func(it rune) rune {
		if unicode.IsPrint(it) {
			return it
		}
		return unicode.ReplacementChar
	}, e.Text)
	before := utf8.RuneCountInString(e.Text[:e.Span.Start])
	within := utf8.RuneCountInString(e.Text[e.Span.Start:e.Span.Stop])
	if within == 0 {
		within = 1
	}
	return shown + "\n" + strings.Repeat(" ", before) + strings.Repeat("^", within)
}

// codeOf returns the name of a fault. A library that is newer than this package may know more of them.
func codeOf(s status, fault *answer) string {
	if name, isKnown := faultNames[s][uint32(fault.fault)]; isKnown {
		return name
	}
	name, _ := written(func(text []byte, a *answer) status { return faultName(s, uint32(fault.fault), text, a) })
	return string(name)
}

// messageOf returns the library's sentence about a fault of a text.
func messageOf(ofType handle, s status, about []byte, fault *answer) string {
	text, _ := written(func(text []byte, a *answer) status { return faultText(ofType, s, about, text, fault, a) })
	return string(text)
}

// jsonOf returns the library's object of a fault of a text.
func jsonOf(ofType handle, s status, about []byte, fault *answer) string {
	object, _ := written(func(text []byte, a *answer) status { return faultJSON(ofType, s, about, text, fault, a) })
	return string(object)
}
