package odfilter

import (
	"bytes"
	"errors"
	"io"
	"sync"
	"time"
)

// A Verdict is what a filter is on a row. A row is kept where it is True.
type Verdict uint8

// The verdicts.
const (
	False = Verdict(verdictFalse)
	True  = Verdict(verdictTrue)
	Null  = Verdict(verdictNoTruthValue)
)

func (v Verdict) String() string {
	switch v {
	case False:
		return "false"
	case True:
		return "true"
	default:
		return "null"
	}
}

// A Judge judges rows by one filter. Reuse it: it caches how rows of that shape are read. Its calls wait for one
// another.
type Judge struct {
	*owner
	oneCall sync.Mutex
	answer  *answer
}

// A JudgeOption is what NewJudge takes: At, AtTime or Within.
type JudgeOption func(judge handle) error

// At sets the moment that now() stands for, spelled as in a filter: 2026-11-25T09:00:00Z.
func At(now string) JudgeOption {
	return func(judge handle) error {
		if s := setMoment(judge, []byte(now)); s != statusOK {
			return errorOf(s, now)
		}
		return nil
	}
}

// AtTime sets the moment that now() stands for.
func AtTime(now time.Time) JudgeOption { return At(now.Format(time.RFC3339Nano)) }

// Within bounds what the filter may cost on each row: how many times it judges the body of an any() or all(), and how
// many items of lists and members of collections it compares after `in` within one; also, anywhere, the whole KiB of
// each text that a comparison takes, 8 times those of each that a function takes, and 16 times those of each that a
// function makes.
func Within(bound uint64) JudgeOption {
	return func(judge handle) error {
		setBound(judge, bound)
		return nil
	}
}

// NewJudge makes a judge by the filter, which it needs no longer. The error is that of an option: ErrNotAMoment.
func (f *Filter) NewJudge(options ...JudgeOption) (*Judge, error) {
	of, err := f.use()
	if err != nil {
		return nil, err
	}
	var made handle
	if s := newJudgeOf(of.at, &made); s != statusOK {
		of.release()
		return nil, errorOf(s, "")
	}
	judge := &Judge{owner: own(made, of), answer: new(answer)}
	for _, option := range options {
		if err := option(made); err != nil {
			judge.Close()
			return nil, err
		}
	}
	return judge, nil
}

// Verdict judges a row: one JSON object in UTF-8. The error is a *RowError or ErrMomentNeeded.
func (j *Judge) Verdict(row []byte) (Verdict, error) {
	by, err := j.use()
	if err != nil {
		return Null, err
	}
	defer by.release()
	j.oneCall.Lock()
	defer j.oneCall.Unlock()
	if s := judgeNext(by.at, row, j.answer); s != statusOK {
		return Null, rowError(by.at, s, j.answer, nil)
	}
	return Verdict(j.answer.verdict), nil
}

// Kept is what FilterLines returns: the kept lines, each with its line feed, how many rows there were and how many of
// them are kept.
type Kept struct {
	Text       []byte
	Rows, Kept uint64
}

// FilterLines judges rows, one JSON object a line, and returns those on which the filter is true. Blank lines are
// passed over. The first line at fault, or that costs more than the bound, is a *RowError, which has what is kept
// before it.
func (j *Judge) FilterLines(rows []byte) (Kept, error) {
	by, err := j.use()
	if err != nil {
		return Kept{}, err
	}
	defer by.release()
	kept, a := make([]byte, len(rows)+1), new(answer)
	j.oneCall.Lock()
	defer j.oneCall.Unlock()
	if s := filterLines(by.under.at, by.at, rows, kept, a); s != statusOK {
		return Kept{}, rowError(by.at, s, a, kept[:a.length])
	}
	return Kept{kept[:a.length], uint64(a.rows), uint64(a.kept)}, nil
}

// rowError returns why a row has no verdict; of lines, kept has those that are kept before it.
func rowError(judge handle, s status, a *answer, kept []byte) error {
	if s < statusJSONFault || s > statusTooCostly {
		return errorOf(s, "")
	}
	line := uint64(a.number)
	if kept == nil {
		line = 1
	}
	fault := &RowError{Code: codeOf(s, a), Line: line, Kept: kept}
	at, _ := written(func(text []byte, a *answer) status { return path(judge, text, a) })
	fault.Path, fault.Message = string(at), messageOf(nil, s, at, a)
	// Line may count from elsewhere, so the object has none
	alone := *a
	alone.number = 0
	fault.JSON = jsonOf(nil, s, at, &alone)
	return fault
}

// Keep returns a reader of those lines of rows on which the filter is true. What has come is judged before more is
// waited for. The first line at fault, or that costs more than the bound, ends it with a *RowError, after the lines
// that are kept before it; Line counts the lines of rows.
func (j *Judge) Keep(rows io.Reader) io.Reader {
	return &lineReader{judge: j, rows: rows, block: make([]byte, blockSize)}
}

const (
	blockSize = 1 << 18
	lineLimit = 1 << 20 // bytes: a longer line is at fault
	idleReads = 100     // reads in a row that give nothing
)

// A lineReader is the reader of kept lines.
type lineReader struct {
	judge       *Judge
	rows        io.Reader
	block       []byte
	pending     []byte // what follows the last line feed
	kept        []byte // what the caller has not read yet
	linesBefore uint64
	idle        int
	err         error
}

func (r *lineReader) Read(into []byte) (int, error) {
	for len(r.kept) == 0 && len(into) > 0 {
		if r.err != nil {
			return 0, r.err
		}
		r.err = r.fill()
	}
	count := copy(into, r.kept)
	r.kept = r.kept[count:]
	return count, nil
}

// fill judges the whole lines of what one read gives, and returns why there are no more.
func (r *lineReader) fill() error {
	count, err := r.rows.Read(r.block)
	if r.idle++; count > 0 {
		r.idle = 0
	}
	if err == nil && r.idle == idleReads {
		err = io.ErrNoProgress
	}
	end := bytes.LastIndexByte(r.block[:count], '\n') + 1
	if err == io.EOF || end == 0 && len(r.pending)+count > lineLimit {
		end = count
	}
	if end == 0 && err != io.EOF {
		r.pending = append(r.pending, r.block[:count]...)
		return err
	}
	lines := append(r.pending, r.block[:end]...)
	r.pending = append([]byte(nil), r.block[end:count]...)
	if fault := r.judgeLines(lines); fault != nil {
		return fault
	}
	return err
}

func (r *lineReader) judgeLines(lines []byte) error {
	found, err := r.judge.FilterLines(lines)
	r.kept = found.Text
	var fault *RowError
	if errors.As(err, &fault) {
		r.kept, fault.Kept = fault.Kept, nil
		fault.Line += r.linesBefore
	}
	r.linesBefore += uint64(bytes.Count(lines, []byte("\n")))
	return err
}
