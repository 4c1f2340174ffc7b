// Package odfilter checks OData 4.01 $filter expressions against a CSDL JSON schema, and judges JSON rows with them:
// the C library odfilter, by cgo.
//
//	schema, err := odfilter.ReadSchema(document)
//	product, err := schema.Type("Shop.Product")
//	filter, err := product.CheckURL(request.URL.RawQuery)
//	judge, err := filter.NewJudge(odfilter.Within(100_000))
//	verdict, err := judge.Verdict(row)
//
// Any number of goroutines may use one Schema, Type or Filter. They may share a Judge too, but its calls wait for one
// another, so give each goroutine its own. Close frees what is held, in any order and while calls are under way; what
// nobody closes is freed when it is collected. Using a closed object returns ErrClosed.
package odfilter

import (
	"bytes"
	"net/url"
	"strings"
)

// A Schema is read from a CSDL JSON document.
type Schema struct{ *owner }

// ReadSchema reads a CSDL JSON 4.01 document. A *SchemaError says why it is none.
func ReadSchema(document []byte) (*Schema, error) {
	names, a := make([]byte, 256), new(answer)
	for {
		var made handle
		s := readSchema(document, names, &made, a)
		switch {
		case s == statusOK:
			return &Schema{own(made, nil)}, nil
		case s != statusSchemaFault:
			return nil, errorOf(s, "")
		case uint64(a.length) <= uint64(len(names)):
			return nil, schemaError(names[:a.length], a)
		}
		names = make([]byte, a.length)
	}
}

func schemaError(names []byte, a *answer) error {
	both := []string{string(names[:a.first]), string(names[a.first:])}
	return &SchemaError{
		Code:    codeOf(statusSchemaFault, a),
		Message: messageOf(nil, statusSchemaFault, names, a),
		JSON:    jsonOf(nil, statusSchemaFault, names, a),
		Names:   both[:namesOf(a)],
	}
}

// namesOf returns how many names a schema's fault carries: none, one or two.
func namesOf(a *answer) int {
	switch {
	case int(a.fault) < len(schemaNames):
		return schemaNames[a.fault]
	case a.length == 0:
		return 0
	default:
		return 2
	}
}

// Type finds the entity type of that name, with its namespace or the alias of that. An *UnknownTypeError says that
// there is none.
func (s *Schema) Type(name string) (*Type, error) {
	in, err := s.use()
	if err != nil {
		return nil, err
	}
	defer in.release()
	var made handle
	switch found := findType(in.at, []byte(name), &made); found {
	case statusOK:
		return &Type{own(made, nil)}, nil
	case statusUnknownType:
		about, fault := []byte(name), new(answer)
		return nil, &UnknownTypeError{name, messageOf(nil, found, about, fault), jsonOf(nil, found, about, fault)}
	default:
		return nil, errorOf(found, "")
	}
}

// A Type is an entity type of a schema, for whose entities filters are checked.
type Type struct{ *owner }

// Check checks the text of a filter. A *RefusedError says why and where it is refused.
func (t *Type) Check(text string) (*Filter, error) {
	given := []byte(text)
	return t.filter(given, check, func(*answer) []byte { return given })
}

// CheckQuery checks the one option filter or $filter of a query string, as it stands in a URL after the '?', beside no
// other option of the standard's. The error is ErrNoFilter, a *QueryError or a *RefusedError.
func (t *Type) CheckQuery(query string) (*Filter, error) {
	return t.filter([]byte(query), checkQuery, func(*answer) []byte { return filterText(query) })
}

// CheckURL checks the filter among any options of a query string, as it stands in a URL after the '?', which net/http
// has as Request.URL.RawQuery. The error is ErrNoFilter, a *QueryError or a *RefusedError.
func (t *Type) CheckURL(query string) (*Filter, error) {
	text := make([]byte, len(query)+1)
	call := func(of handle, given []byte, made *handle, a *answer) status {
		return checkURL(of, given, text, made, a)
	}
	return t.filter([]byte(query), call, func(a *answer) []byte { return text[:a.length] })
}

// filter returns what a call made of a text or query, or why it is refused; textOf returns the filter's text.
func (t *Type) filter(
	given []byte,
	call func(handle, []byte, *handle, *answer) status,
	textOf func(*answer) []byte,
) (*Filter, error) {
	of, err := t.use()
	if err != nil {
		return nil, err
	}
	defer of.release()
	var made handle
	a := new(answer)
	s := call(of.at, given, &made, a)
	piece, value := Span{int(a.piece_start), int(a.piece_stop)}, Span{int(a.value_start), int(a.value_stop)}
	switch s {
	case statusOK:
		return &Filter{own(made, nil), string(textOf(a)), piece, value}, nil
	case statusTextFault, statusSyntaxFault, statusTypeFault:
		text := textOf(a)
		return nil, &RefusedError{
			Kind: kinds[s], Code: codeOf(s, a), Text: string(text), Message: messageOf(of.at, s, text, a),
			JSON: jsonOf(of.at, s, text, a), Span: Span{int(a.start), int(a.stop)}, Piece: piece, Value: value,
		}
	case statusQueryFault:
		return nil, &QueryError{codeOf(s, a), messageOf(nil, s, given, a), jsonOf(nil, s, given, a), uint64(a.number)}
	default:
		return nil, errorOf(s, "")
	}
}

var kinds = map[status]Kind{
	statusTextFault: KindText, statusSyntaxFault: KindSyntax, statusTypeFault: KindType,
}

// filterText returns the decoded text of the option filter or $filter of a query that has one.
func filterText(query string) []byte {
	for _, option := range strings.Split(query, "&") {
		name, value, _ := strings.Cut(option, "=")
		name, _ = url.PathUnescape(name)
		if name = strings.ToLower(name); name == "filter" || name == "$filter" {
			text, _ := url.PathUnescape(value)
			return bytes.ToValidUTF8([]byte(text), []byte("\uFFFD"))
		}
	}
	return nil
}
