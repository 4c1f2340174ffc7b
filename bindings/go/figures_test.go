package odfilter

import (
	"errors"
	"fmt"
	"os"
	"runtime"
	"strconv"
	"strings"
	"testing"
)

// The deepest filters, on the stack that the limit of the process gives its threads.
func TestDeepest(t *testing.T) {
	var open strings.Builder
	for number := 0; number < 64; number++ {
		fmt.Fprintf(&open, "Tags/any(x%d:", number)
	}
	deepest := []string{
		strings.Repeat("- ", 4090) + "ID eq 1", strings.Repeat("not ", 4090) + "Active",
		strings.Repeat("Active in (true,false or true and true eq ", 64) + "Active" + strings.Repeat(")", 64),
		open.String() + "x0 eq Name" + strings.Repeat(")", 64),
	}
	for number, text := range deepest {
		filter := must(item().Check(text))
		if len(must(filter.Canonical())) < 500 || len(must(filter.Explanation())) < 500 {
			t.Error("short")
		}
		verdict, err := must(filter.NewJudge(Within(1000))).Verdict(row(1, "null", true))
		if isWell := verdict == True && err == nil || number == 3 && errors.Is(err, ErrTooCostly); !isWell {
			t.Error(number, verdict, err)
		}
	}
}

// What a row and a check take of the processor.
func TestFigures(t *testing.T) {
	runtime.LockOSThread()
	defer runtime.UnlockOSThread()
	figure := func(name string, times int, call func()) {
		begun := nanoseconds()
		for time := 0; time < times; time++ {
			call()
		}
		took := float64(nanoseconds()-begun) / 1000 / float64(times)
		if took > 100 {
			t.Error(name, took)
		}
		fmt.Printf("figure: %s takes %.2f us of the processor\n", name, took)
	}
	of := item()
	judge := must(must(of.Check("Active and contains(Name,'a')")).NewJudge())
	text := row(1, `"abc"`, true)
	figure(fmt.Sprintf("a row of %d bytes", len(text)), 200_000, func() { must(judge.Verdict(text)) })
	filter := "Active and ID gt 1 and contains(Name,'abc') or ID in (1,2,3)"
	figure(fmt.Sprintf("a check of %d bytes", len(filter)), 20_000, func() { must(of.Check(filter)).Close() })
}

// nanoseconds returns how long this thread has had a processor.
func nanoseconds() int {
	fields := strings.Fields(string(must(os.ReadFile("/proc/thread-self/schedstat"))))
	return must(strconv.Atoi(fields[0]))
}
