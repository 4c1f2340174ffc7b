package odfilter

import (
	"sort"
	"strings"
)

// A Filter is a checked filter. Text is its text, decoded where it stood in a query. Of CheckURL, Piece and Value are
// where the option and its value stand in the query, so that another text can be put there.
type Filter struct {
	*owner
	Text         string
	Piece, Value Span
}

// Canonical returns one text for all filters that differ in spaces, parentheses and spelling alone.
func (f *Filter) Canonical() (string, error) { return f.textBy(canonical) }

// Explanation returns a line for each node: its span, what it is, and its type.
func (f *Filter) Explanation() (string, error) { return f.textBy(explain) }

// PropertyPaths returns the paths of the properties that the filter reads, each once and in order, as Name, Home/City
// and Parts/Qty.
func (f *Filter) PropertyPaths() ([]string, error) {
	text, err := f.textBy(propertyPaths)
	return strings.Fields(text), err
}

// NeedsMoment reports whether the filter calls now(), so that a judge needs a moment.
func (f *Filter) NeedsMoment() (bool, error) {
	number, err := f.numberBy(needsMoment)
	return number == 1, err
}

// NodeCount returns how many operators, calls, literals and names the filter has.
func (f *Filter) NodeCount() (uint64, error) { return f.numberBy(nodeCount) }

// LambdaDepth returns how many any() and all() stand in one another, at most.
func (f *Filter) LambdaDepth() (uint64, error) { return f.numberBy(lambdaDepth) }

func (f *Filter) textBy(call func(handle, []byte, *answer) status) (string, error) {
	of, err := f.use()
	if err != nil {
		return "", err
	}
	defer of.release()
	text, err := written(func(text []byte, a *answer) status { return call(of.at, text, a) })
	return string(text), err
}

func (f *Filter) numberBy(call func(handle, *answer) status) (uint64, error) {
	of, err := f.use()
	if err != nil {
		return 0, err
	}
	defer of.release()
	a := new(answer)
	if s := call(of.at, a); s != statusOK {
		return 0, errorOf(s, "")
	}
	return uint64(a.number), nil
}

// A Dialect is an engine that conditions of SQL are written for.
type Dialect uint32

// The dialects.
const (
	PostgreSQL = Dialect(formPostgresqlColumns)
	SQLite     = Dialect(formSqliteColumns)
)

// SQLOptions say how the rows of a table are stored.
type SQLOptions struct {
	// Now is the moment that now() stands for; it may be empty where the filter does not call now().
	Now string
	// Columns has the columns of those properties whose column has another name.
	Columns map[string]string
	// Document is the column that has each row as JSON. Where it is empty, each property has a column.
	Document string
}

// A Statement is an expression of SQL over a table t. Its parameters are numbered from 1; each is an int64 or a string.
type Statement struct {
	Text       string
	Parameters []any
}

// Conditions say of the rows of a table what the filter does. Outcome is 0 for false, 1 for true, 2 for null, 3 for
// Overflow and 4 for DivideByZero; Keep is true where the filter is; Fault, where it has a fault, and nil where no row
// can have one.
type Conditions struct {
	Outcome, Keep Statement
	Fault         *Statement
}

// SQL writes the filter as conditions of SQL. The error is an *UnsayableError, ErrUnknownColumn, ErrNotAMoment or
// ErrMomentNeeded.
func (f *Filter) SQL(dialect Dialect, options SQLOptions) (*Conditions, error) {
	how, err := options.lines()
	if err != nil {
		return nil, err
	}
	form := uint32(dialect)
	if options.Document != "" {
		form += formPostgresqlJSON - formPostgresqlColumns
	}
	of, err := f.use()
	if err != nil {
		return nil, err
	}
	defer of.release()
	var made handle
	if s := newSQL(of.at, form, how, &made, new(answer)); s != statusOK {
		return nil, errorOf(s, options.Now)
	}
	defer free(made)
	return readConditions(made)
}

// lines returns the options as odfilter_sql takes them.
func (o SQLOptions) lines() ([]byte, error) {
	if strings.Contains(o.Now, "\n") {
		return nil, errorOf(statusNotAMoment, o.Now)
	}
	if o.Document != "" {
		return []byte(o.Now + "\n" + o.Document), nil
	}
	lines := []string{}
	for name, column := range o.Columns {
		if strings.ContainsAny(name, "=\n") || strings.Contains(column, "\n") {
			return nil, ErrUnknownColumn
		}
		lines = append(lines, name+"="+column)
	}
	sort.Strings(lines)
	return []byte(strings.Join(append([]string{o.Now}, lines...), "\n")), nil
}

// readConditions reads the conditions of a handle.
func readConditions(made handle) (*Conditions, error) {
	found := new(Conditions)
	for _, it := range []struct {
		into  *Statement
		which uint32
	}{{&found.Outcome, statementOutcome}, {&found.Keep, statementKeep}} {
		if err := it.into.read(made, it.which); err != nil {
			return nil, err
		}
	}
	if sqlText(made, statementFault, nil, new(answer)) == statusUnknownNumber {
		return found, nil
	}
	found.Fault = new(Statement)
	return found, found.Fault.read(made, statementFault)
}

// read reads a statement of conditions, with the values of its parameters.
func (s *Statement) read(conditions handle, which uint32) error {
	count := uint32(0)
	text, err := written(func(text []byte, a *answer) status {
		got := sqlText(conditions, which, text, a)
		count = uint32(a.number)
		return got
	})
	s.Text, s.Parameters = string(text), []any{}
	for index := uint32(0); index < count && err == nil; index++ {
		var value any
		value, err = readValue(conditions, which, index)
		s.Parameters = append(s.Parameters, value)
	}
	return err
}

// readValue returns the value of a parameter: an int64 or a string.
func readValue(conditions handle, which, index uint32) (any, error) {
	kind, whole := uint32(valueWhole), int64(0)
	text, err := written(func(text []byte, a *answer) status {
		got := sqlValue(conditions, which, index, text, a)
		kind, whole = uint32(a.verdict), int64(a.number)
		return got
	})
	if kind == valueWhole {
		return whole, err
	}
	return string(text), err
}
