package odfilter

import (
	"bytes"
	"errors"
	"io"
	"strings"
	"testing"
	"testing/iotest"
)

// Lines with faulty ones from an index on, and those that are kept before it.
func lines(count, faulty int) (all, kept []byte) {
	for index := 0; index < count; index++ {
		line := row(index, "null", index%3 == 0)
		switch {
		case index == faulty:
			line = []byte("{}")
		case index%7 == 0:
			line = []byte(" \t\r")
		case index%3 == 0 && (faulty < 0 || index < faulty):
			kept = append(append(kept, line...), '\n')
		}
		all = append(append(all, line...), '\n')
	}
	return all, kept
}

func TestLines(t *testing.T) {
	judge := must(must(item().Check("Active")).NewJudge())
	all, wanted := lines(100, -1)
	found := must(judge.FilterLines(all))
	if !bytes.Equal(found.Text, wanted) || found.Kept != uint64(bytes.Count(wanted, []byte("\n"))) || found.Rows != 85 {
		t.Error(found.Rows, found.Kept)
	}
	all, wanted = lines(100, 50)
	var fault *RowError
	_, err := judge.FilterLines(all)
	if !errors.As(err, &fault) || fault.Line != 51 || fault.Code != "Missing" || !bytes.Equal(fault.Kept, wanted) {
		t.Errorf("%#v", err)
	}
}

// A reader of kept lines over readers that give all at once, half of it, or a byte at a time.
func TestKeep(t *testing.T) {
	judge := must(must(item().Check("Active")).NewJudge())
	readers := map[string]func(io.Reader) io.Reader{
		"whole": func(it io.Reader) io.Reader { return it }, "halves": iotest.HalfReader, "bytes": iotest.OneByteReader,
		"with the end": iotest.DataErrReader,
	}
	for name, reader := range readers {
		for _, faulty := range []int{-1, 0, 1, 4_321} {
			all, wanted := lines(5_000, faulty)
			got, err := io.ReadAll(judge.Keep(reader(bytes.NewReader(all))))
			var fault *RowError
			isWell := err == nil
			if faulty >= 0 {
				isWell = errors.As(err, &fault) && fault.Line == uint64(faulty+1) && fault.Kept == nil
			}
			if !isWell || !bytes.Equal(got, wanted) {
				t.Error(name, faulty, len(got), len(wanted), err)
			}
		}
		last := row(3, "null", true)
		if got := must(io.ReadAll(judge.Keep(reader(bytes.NewReader(last))))); string(got) != string(last)+"\n" {
			t.Error(name, string(got))
		}
	}
}

// A line that costs more than the bound ends the lines as one at fault does, however they come.
func TestTooCostlyLines(t *testing.T) {
	judge := must(must(item().Check("Tags/any(t:t eq 'b')")).NewJudge(Within(2)))
	first := append(row(3, "null", true), '\n')
	costly := bytes.Replace(first, []byte(`"a","b"`), []byte(`"y","z"`), 1)
	all := bytes.Join([][]byte{first, []byte(" \n"), first, costly, first}, nil)
	wanted := append(append([]byte(nil), first...), first...)
	isWell := func(err error, kept []byte) bool {
		var fault *RowError
		return errors.Is(err, ErrTooCostly) && errors.As(err, &fault) && fault.Code == "TooCostly" &&
			fault.Line == 4 && fault.Path == "" && bytes.Equal(fault.Kept, kept)
	}
	if found, err := judge.FilterLines(all); !isWell(err, wanted) || found.Text != nil {
		t.Errorf("%#v", err)
	}
	for name, given := range map[string]io.Reader{
		"whole": bytes.NewReader(all), "bytes": iotest.OneByteReader(bytes.NewReader(all)),
	} {
		if got, err := io.ReadAll(judge.Keep(given)); !isWell(err, nil) || !bytes.Equal(got, wanted) {
			t.Errorf("%s %q %#v", name, got, err)
		}
	}
}

func TestKeepOfFaultyReaders(t *testing.T) {
	judge := must(must(item().Check("Active")).NewJudge())
	broken, first := errors.New("broken"), append(row(3, "null", true), '\n')
	given := io.MultiReader(bytes.NewReader(first), strings.NewReader(`{"ID":`), iotest.ErrReader(broken))
	if got, err := io.ReadAll(judge.Keep(given)); !bytes.Equal(got, first) || err != broken {
		t.Error(string(got), err)
	}
	if _, err := io.ReadAll(judge.Keep(idle{})); err != io.ErrNoProgress {
		t.Error(err)
	}
	spaces := strings.NewReader(strings.Repeat(" ", lineLimit+1))
	long := io.MultiReader(bytes.NewReader(first), spaces, iotest.ErrReader(broken))
	var fault *RowError
	got, err := io.ReadAll(judge.Keep(long))
	if !errors.As(err, &fault) || fault.Code != "LineTooLong" || fault.Line != 2 || !bytes.Equal(got, first) {
		t.Error(len(got), err)
	}
	closed := must(must(item().Check("Active")).NewJudge())
	closed.Close()
	if _, err := io.ReadAll(closed.Keep(bytes.NewReader(first))); !errors.Is(err, ErrClosed) {
		t.Error(err)
	}
}

// An idle reader gives nothing, again and again.
type idle struct{}

func (idle) Read([]byte) (int, error) { return 0, nil }
