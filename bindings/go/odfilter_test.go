package odfilter

import (
	"bytes"
	"encoding/json"
	"errors"
	"fmt"
	"os"
	"reflect"
	"strconv"
	"strings"
	"sync"
	"testing"
	"time"
	"unsafe"
)

const document = `{"$Version":"4.01","Mini":{"Item":{"$Kind":"EntityType","ID":{"$Type":"Edm.Int64"},
"Name":{"$Nullable":true},"Active":{"$Type":"Edm.Boolean"},"Changed":{"$Type":"Edm.DateTimeOffset"},
"Tags":{"$Collection":true}}}}`

// types with each kind of property
const typesDocument = `{"$Version":"4.01","Mini":{"Base":{"$Kind":"EntityType","ID":{"$Type":"Edm.Int64"}},
"Part":{"$Kind":"ComplexType"},"Item":{"$Kind":"EntityType","$BaseType":"Mini.Base",
"Tags":{"$Collection":true,"$Nullable":true},"Weight":{"$Type":"Edm.Double","$Nullable":true},
"Parts":{"$Kind":"NavigationProperty","$Type":"Mini.Base","$Collection":true}}}}`

// row returns an item, with a name as JSON.
func row(id int, name string, active bool) []byte {
	return []byte(`{"ID":` + strconv.Itoa(id) + `,"Name":` + name + `,"Active":` + strconv.FormatBool(active) +
		`,"Changed":"2026-01-01T00:00:00Z","Tags":["a","b","c"]}`)
}

func must[T any](made T, err error) T {
	if err != nil {
		panic(err)
	}
	return made
}

func item() *Type { return must(must(ReadSchema([]byte(document))).Type("Mini.Item")) }

func TestAFilter(t *testing.T) {
	filter := must(item().Check("((Active)) AND ID ge +01 and Tags/any(t:t eq 'b') and Changed lt now()"))
	wanted := "Active and ID ge 1 and Tags/any(t:t eq 'b') and Changed lt now()"
	if got := must(filter.Canonical()); got != wanted {
		t.Error(got)
	}
	if got := must(filter.PropertyPaths()); !reflect.DeepEqual(got, []string{"Active", "ID", "Tags", "Changed"}) {
		t.Error(got)
	}
	if nodes, depth := must(filter.NodeCount()), must(filter.LambdaDepth()); nodes < 10 || depth != 1 {
		t.Error(nodes, depth)
	}
	if !must(filter.NeedsMoment()) || !strings.Contains(must(filter.Explanation()), "Edm.Boolean") {
		t.Error(must(filter.Explanation()))
	}
	long := must(item().Check(strings.Repeat("ID eq 1 or ", 200) + "Active"))
	if got := must(long.Canonical()); got != long.Text {
		t.Error(got)
	}
	if !strings.Contains(Version(), ".") {
		t.Error(Version())
	}
}

func TestVerdicts(t *testing.T) {
	judge := must(must(item().Check("Active and contains(Name,'a')")).NewJudge())
	rows := map[string]Verdict{
		string(row(1, `"cab"`, true)): True, string(row(1, `"xy"`, true)): False, string(row(1, "null", true)): Null,
	}
	for text, wanted := range rows {
		if got, err := judge.Verdict([]byte(text)); got != wanted || err != nil {
			t.Error(text, got, err)
		}
	}
	if True.String()+False.String()+Null.String() != "truefalsenull" {
		t.Error("the names of verdicts")
	}
	now := must(item().Check("Changed lt now()"))
	for moment, wanted := range map[string]Verdict{"2026-11-25T09:00:00Z": True, "2025-11-25T09:00:00Z": False} {
		at := must(time.Parse(time.RFC3339, moment))
		for _, option := range []JudgeOption{At(moment), AtTime(at)} {
			if got := must(must(now.NewJudge(option)).Verdict(row(1, "null", true))); got != wanted {
				t.Error(moment, got)
			}
		}
	}
	costly := must(item().Check("Tags/any(t:t eq 'b')"))
	if got := must(must(costly.NewJudge(Within(2))).Verdict(row(1, "null", true))); got != True {
		t.Error(got)
	}
}

// The error of each kind of mistake: its type or value, and what it carries.
func TestErrors(t *testing.T) {
	of := item()
	active := must(of.Check("Active"))
	_, err := of.Check("Name eq 'é' and Foo eq 1")
	var refused *RefusedError
	if !errors.As(err, &refused) || refused.Kind != KindType || refused.Code != "UnknownProperty" ||
		refused.Text[refused.Span.Start:refused.Span.Stop] != "Foo" || !strings.HasSuffix(refused.Error(), ".") {
		t.Errorf("%#v", err)
	}
	if got := refused.Pointed(); got != "Name eq 'é' and Foo eq 1\n                ^^^" {
		t.Error(got)
	}
	checkObject(t, refused.JSON, "typing", "UnknownProperty", refused.Message)
	_, err = of.Check("")
	if !errors.As(err, &refused) || refused.Kind != KindSyntax || refused.Pointed() != "\n^" {
		t.Errorf("%#v", err)
	}
	_, err = of.CheckURL("$top=5&$filter=Foo%20eq%201")
	if !errors.As(err, &refused) || refused.Piece != (Span{7, 27}) || refused.Value != (Span{15, 27}) {
		t.Errorf("%#v", err)
	}
	_, err = of.CheckQuery("x=1&%24Filter=Name%20eq%0A'\u00e9'&y=2")
	if !errors.As(err, &refused) || refused.Text != "Name eq\n'\u00e9'" || refused.Span != (Span{7, 8}) {
		t.Errorf("%#v", err)
	}
	var query *QueryError
	if _, err = of.CheckURL("x=1;$filter=Foo"); !errors.As(err, &query) || query.Code != "Disguised" || query.Number != 0 {
		t.Errorf("%#v", err)
	}
	checkObject(t, query.JSON, "query", "Disguised", query.Message)
	var schema *SchemaError
	name := strings.Repeat("A", 999)
	_, err = ReadSchema([]byte(`{"$Version":"4.01","N":{"` + name + `":{"$Kind":"EntityType","P":5}}}`))
	if !errors.As(err, &schema) || schema.Code != "BadProperty" || schema.Names[0] != "N."+name ||
		!reflect.DeepEqual(schema.Names[1:], []string{"P"}) {
		t.Errorf("%#v", err)
	}
	checkObject(t, schema.JSON, "schema", "BadProperty", schema.Message)
	var unknown *UnknownTypeError
	_, err = must(ReadSchema([]byte(document))).Type("Mini.No")
	if !errors.As(err, &unknown) || unknown.Name != "Mini.No" {
		t.Errorf("%#v", err)
	}
	checkObject(t, unknown.JSON, "unknown_type", "UnknownType", unknown.Message)
	var fault *RowError
	_, err = must(active.NewJudge()).Verdict(bytes.Replace(row(7, "null", true), []byte("7"), []byte(`"7"`), 1))
	if !errors.As(err, &fault) || fault.Code != "WrongKind" || fault.Path != "ID" || fault.Line != 1 {
		t.Errorf("%#v", err)
	}
	checkObject(t, fault.JSON, "row", "WrongKind", fault.Message)
	var unsayable *UnsayableError
	_, err = must(of.Check("Name eq 'a\x00'")).SQL(SQLite, SQLOptions{})
	if !errors.As(err, &unsayable) || unsayable.Code != "Nul" || !strings.Contains(err.Error(), "U+0000") {
		t.Errorf("%#v", err)
	}
	checkPlainErrors(t, of, active)
}

// checkObject reads the object of a fault: its class, its name and its sentence.
func checkObject(t *testing.T, object, class, name, sentence string) {
	var found struct{ Class, Name, Sentence string }
	if err := json.Unmarshal([]byte(object), &found); err != nil || found.Class != class || found.Name != name ||
		found.Sentence != sentence {
		t.Error(object, err)
	}
}

func TestTypes(t *testing.T) {
	schema := must(ReadSchema([]byte(typesDocument)))
	id := DeclaredProperty{Name: "ID", Type: "Edm.Int64"}
	wanted := []DeclaredType{
		{Name: "Mini.Base", Kind: "entity", Properties: []DeclaredProperty{id}},
		{Name: "Mini.Item", Kind: "entity", Properties: []DeclaredProperty{
			id, {Name: "Parts", Type: "Mini.Base", Collection: true, Navigation: true},
			{Name: "Tags", Type: "Edm.String", Collection: true, Nullable: true}, {Name: "Weight", Nullable: true},
		}},
		{Name: "Mini.Part", Kind: "complex"},
	}
	if got := must(schema.Types()); !reflect.DeepEqual(got, wanted) {
		t.Errorf("%+v", got)
	}
	if got := must(must(schema.Type("Mini.Item")).Properties()); !reflect.DeepEqual(got, wanted[1].Properties) {
		t.Errorf("%+v", got)
	}
	if got := must(must(ReadSchema([]byte(`{"$Version":"4.01"}`))).Types()); len(got) != 0 {
		t.Errorf("%+v", got)
	}
	schema.Close()
	if _, err := schema.Types(); !errors.Is(err, ErrClosed) {
		t.Error(err)
	}
}

// checkPlainErrors asks for each error that carries nothing. A lone surrogate is not UTF-8.
func checkPlainErrors(t *testing.T, of *Type, active *Filter) {
	text := row(1, "null", true)
	needs, costly := must(of.Check("Changed lt now()")), must(of.Check("Tags/any(t:t eq 'z')"))
	calls := map[error]func() error{
		ErrNoFilter:     func() error { _, err := of.CheckURL("$top=5"); return err },
		ErrNotUTF8:      func() error { _, err := of.Check("Name eq '\xed\xa0\x80'"); return err },
		ErrMomentNeeded: func() error { _, err := must(needs.NewJudge()).Verdict(text); return err },
		ErrNotAMoment:   func() error { _, err := needs.NewJudge(At("soon")); return err },
		ErrTooCostly:    func() error { _, err := must(costly.NewJudge(Within(2))).Verdict(text); return err },
		ErrUnknownColumn: func() error {
			_, err := active.SQL(SQLite, SQLOptions{Columns: map[string]string{"No": "x"}})
			return err
		},
	}
	for wanted, call := range calls {
		if err := call(); !errors.Is(err, wanted) || err.Error() == "" || errors.Is(err, ErrClosed) {
			t.Error(wanted, err)
		}
	}
	if _, err := needs.NewJudge(At("soon")); errors.Is(err, ErrMomentNeeded) || !strings.Contains(err.Error(), `"soon"`) {
		t.Error(err)
	}
	var costs *RowError
	_, err := must(costly.NewJudge(Within(2))).Verdict(text)
	if !errors.As(err, &costs) {
		t.Fatal(err)
	}
	checkObject(t, costs.JSON, "too_costly", "TooCostly", costs.Message)
	if _, err := of.CheckQuery("filter=%ED%A0%80"); err == nil {
		t.Error("a query with a lone surrogate")
	}
}

func TestSQL(t *testing.T) {
	of := item()
	filter := must(of.Check("ID eq 9007199254740993 and Name eq 'a''b'"))
	found := must(filter.SQL(PostgreSQL, SQLOptions{Columns: map[string]string{"ID": "key"}}))
	if !strings.Contains(found.Keep.Text, `t."key"`) || found.Fault != nil ||
		!reflect.DeepEqual(found.Keep.Parameters, []any{int64(9007199254740993), "a'b"}) {
		t.Errorf("%#v", found)
	}
	divided := must(must(of.Check("1 div ID eq 1")).SQL(SQLite, SQLOptions{Document: "doc"}))
	if divided.Fault == nil || !strings.Contains(divided.Outcome.Text, `t."doc"`) {
		t.Errorf("%#v", divided)
	}
	typed := must(of.Check("Name eq '7' and ID gt -7 and Changed ge 1970-01-01T00:00:00Z"))
	for dialect, instant := range map[Dialect]string{SQLite: "062135769600000000000", PostgreSQL: "0"} {
		got := must(typed.SQL(dialect, SQLOptions{})).Keep.Parameters
		if !reflect.DeepEqual(got, []any{"7", int64(-7), instant}) {
			t.Errorf("%#v", got)
		}
	}
	now := must(of.Check("Changed lt now()"))
	if _, err := now.SQL(SQLite, SQLOptions{Now: "2026-01-01T00:00:00Z\nID=x"}); !errors.Is(err, ErrNotAMoment) {
		t.Error(err)
	}
	if _, err := now.SQL(SQLite, SQLOptions{}); !errors.Is(err, ErrMomentNeeded) {
		t.Error(err)
	}
}

func TestAnswersFit(t *testing.T) {
	if size := unsafe.Sizeof(answer{}); !fits(size) || fits(size-1) {
		t.Error(size)
	}
}

// A schema, its type, filter and judge are closed in each order; what is left works, what is closed says so.
func TestClosingInAnyOrder(t *testing.T) {
	for _, order := range permutations(4) {
		schema := must(ReadSchema([]byte(document)))
		of := must(schema.Type("Mini.Item"))
		filter := must(of.Check("Active"))
		judge := must(filter.NewJudge())
		objects := []interface{ Close() error }{schema, of, filter, judge}
		calls := []func() error{
			func() error { _, err := schema.Type("Mini.Item"); return err },
			func() error { _, err := of.Check("Active"); return err },
			func() error { _, err := filter.Canonical(); return err },
			func() error { _, err := judge.FilterLines(row(1, "null", true)); return err },
		}
		for step, index := range order {
			for _, left := range order[step:] {
				if err := calls[left](); err != nil {
					t.Error(order, left, err)
				}
			}
			objects[index].Close()
			objects[index].Close()
			if err := calls[index](); !errors.Is(err, ErrClosed) {
				t.Error(order, index, err)
			}
		}
	}
	var none Filter
	if _, err := none.Canonical(); !errors.Is(err, ErrClosed) {
		t.Error(err)
	}
}

func permutations(count int) [][]int {
	if count == 0 {
		return [][]int{{}}
	}
	found := [][]int{}
	for _, rest := range permutations(count - 1) {
		for at := 0; at <= len(rest); at++ {
			order := append([]int{}, rest[:at]...)
			found = append(found, append(append(order, count-1), rest[at:]...))
		}
	}
	return found
}

// Eight goroutines use one type, one filter and one judge, while others close filters under calls.
func TestThreads(t *testing.T) {
	of := item()
	filter := must(of.Check("Active and ID lt 500"))
	shared := must(filter.NewJudge())
	var group sync.WaitGroup
	for worker := 0; worker < 8; worker++ {
		group.Add(1)
		go func() {
			defer group.Done()
			own := must(filter.NewJudge())
			defer own.Close()
			for id := 0; id < 1000; id++ {
				text, wanted := row(id, "null", true), False
				if id < 500 {
					wanted = True
				}
				if must(own.Verdict(text)) != wanted || must(shared.Verdict(text)) != wanted {
					t.Error(id)
				}
				closedUnderCalls(t, of)
			}
		}()
	}
	group.Wait()
}

func closedUnderCalls(t *testing.T, of *Type) {
	filter := must(of.Check("Active"))
	judge := must(filter.NewJudge())
	done := make(chan bool)
	go func() {
		judge.Close()
		filter.Close()
		close(done)
	}()
	if _, err := judge.Verdict(row(1, "null", true)); err != nil && !errors.Is(err, ErrClosed) {
		t.Error(err)
	}
	if _, err := filter.Canonical(); err != nil && !errors.Is(err, ErrClosed) {
		t.Error(err)
	}
	<-done
}

// A million calls leave the memory of the process as it was, with objects that are closed and with some that are not.
func TestNoGrowth(t *testing.T) {
	of := item()
	calls := func(rounds int) {
		for round := 0; round < rounds; round++ {
			filter := must(of.CheckURL("$top=5&$filter=Active%20and%20ID%20lt%20500"))
			must(filter.Canonical())
			judge := must(filter.NewJudge(At("2026-11-25T09:00:00Z"), Within(10)))
			must(judge.Verdict(row(round, "null", true)))
			_, refused := of.Check("Foo")
			_, faulty := judge.Verdict([]byte(`{"ID":"1"}`))
			if refused == nil || faulty == nil {
				t.Error("no error")
			}
			if round%4 != 0 {
				judge.Close()
				filter.Close()
			}
		}
	}
	calls(20_000)
	before := residentMemory()
	calls(100_000)
	after := residentMemory()
	if after > before+16<<20 {
		t.Errorf("%d bytes became %d", before, after)
	}
	fmt.Printf("figure: %d KiB more after a million calls\n", (after-before)/1024)
}

// residentMemory returns how many bytes of memory the process has.
func residentMemory() int {
	fields := strings.Fields(string(must(os.ReadFile("/proc/self/statm"))))
	return must(strconv.Atoi(fields[1])) * os.Getpagesize()
}
