package odfilter

/*
#cgo CFLAGS: -I${SRCDIR}/include
#cgo linux,amd64 LDFLAGS: ${SRCDIR}/lib/linux_amd64/libodfilter.a
#cgo linux,arm64 LDFLAGS: ${SRCDIR}/lib/linux_arm64/libodfilter.a
#include <odfilter.h>

// Go may not put the address of its own memory into a C struct, so bytes and buffers are passed as two arguments.
#define BYTES(name) (odfilter_bytes){name, name##_length}
#define BUFFER(name) (odfilter_buffer){name, name##_length}

static uint32_t go_read_schema(const char *document, size_t document_length, char *names, size_t names_length,
                               odfilter_handle **schema, odfilter_answer *answer)
{
    return odfilter_read_schema(BYTES(document), BUFFER(names), schema, answer);
}

static uint32_t go_find_type(const odfilter_handle *schema, const char *name, size_t name_length,
                             odfilter_handle **type)
{
    return odfilter_find_type(schema, BYTES(name), type);
}

static uint32_t go_check(const odfilter_handle *type, const char *text, size_t text_length, odfilter_handle **filter,
                         odfilter_answer *answer)
{
    return odfilter_check(type, BYTES(text), filter, answer);
}

static uint32_t go_check_query(const odfilter_handle *type, const char *query, size_t query_length,
                               odfilter_handle **filter, odfilter_answer *answer)
{
    return odfilter_check_query(type, BYTES(query), filter, answer);
}

static uint32_t go_check_url(const odfilter_handle *type, const char *query, size_t query_length, char *text,
                             size_t text_length, odfilter_handle **filter, odfilter_answer *answer)
{
    return odfilter_check_url(type, BYTES(query), BUFFER(text), filter, answer);
}

static uint32_t go_types(const odfilter_handle *given, char *text, size_t text_length, odfilter_answer *answer)
{
    return odfilter_types(given, BUFFER(text), answer);
}

static uint32_t go_canonical(const odfilter_handle *filter, char *text, size_t text_length, odfilter_answer *answer)
{
    return odfilter_canonical(filter, BUFFER(text), answer);
}

static uint32_t go_explain(const odfilter_handle *filter, char *text, size_t text_length, odfilter_answer *answer)
{
    return odfilter_explain(filter, BUFFER(text), answer);
}

static uint32_t go_property_paths(const odfilter_handle *filter, char *paths, size_t paths_length,
                                  odfilter_answer *answer)
{
    return odfilter_property_paths(filter, BUFFER(paths), answer);
}

static uint32_t go_new_sql(const odfilter_handle *filter, uint32_t form, const char *how, size_t how_length,
                           odfilter_handle **conditions, odfilter_answer *answer)
{
    return odfilter_new_sql(filter, form, BYTES(how), conditions, answer);
}

static uint32_t go_sql_text(const odfilter_handle *conditions, uint32_t which, char *text, size_t text_length,
                            odfilter_answer *answer)
{
    return odfilter_sql_text(conditions, which, BUFFER(text), answer);
}

static uint32_t go_sql_value(const odfilter_handle *conditions, uint32_t which, uint32_t index, char *text,
                             size_t text_length, odfilter_answer *answer)
{
    return odfilter_sql_value(conditions, which, index, BUFFER(text), answer);
}

static uint32_t go_set_moment(odfilter_handle *judge, const char *moment, size_t moment_length)
{
    return odfilter_set_moment(judge, BYTES(moment));
}

static uint32_t go_judge_next(odfilter_handle *judge, const char *row, size_t row_length, odfilter_answer *answer)
{
    return odfilter_judge_next(judge, BYTES(row), answer);
}

static uint32_t go_filter_lines(const odfilter_handle *filter, odfilter_handle *judge, const char *rows,
                                size_t rows_length, char *kept, size_t kept_length, odfilter_answer *answer)
{
    return odfilter_filter_lines(filter, judge, BYTES(rows), BUFFER(kept), answer);
}

static uint32_t go_path(const odfilter_handle *judge, char *path, size_t path_length, odfilter_answer *answer)
{
    return odfilter_path(judge, BUFFER(path), answer);
}

static uint32_t go_version(char *text, size_t text_length, odfilter_answer *answer)
{
    return odfilter_version(BUFFER(text), answer);
}

static uint32_t go_fault_name(uint32_t status, uint32_t fault, char *text, size_t text_length, odfilter_answer *answer)
{
    return odfilter_fault_name(status, fault, BUFFER(text), answer);
}

static uint32_t go_fault_text(const odfilter_handle *type, uint32_t status, const char *about, size_t about_length,
                              char *sentence, size_t sentence_length, const odfilter_answer *fault,
                              odfilter_answer *answer)
{
    return odfilter_fault_text(type, status, BYTES(about), BUFFER(sentence), fault, answer);
}

static uint32_t go_fault_json(const odfilter_handle *type, uint32_t status, const char *about, size_t about_length,
                              char *object, size_t object_length, const odfilter_answer *fault,
                              odfilter_answer *answer)
{
    return odfilter_fault_json(type, status, BYTES(about), BUFFER(object), fault, answer);
}
*/
import "C"

import "unsafe"

// Every call of include/odfilter.h that the package makes, over slices. An empty one stands at NULL: as a buffer it asks
// for the length, where a text is all that the call writes.

type (
	answer = C.odfilter_answer
	handle = *C.odfilter_handle
	status uint32
)

func address(of []byte) (*C.char, C.size_t) {
	if len(of) == 0 {
		return nil, 0
	}
	return (*C.char)(unsafe.Pointer(&of[0])), C.size_t(len(of))
}

// A library that is newer than the header that this package was built by may write longer answers.
func init() {
	if !fits(unsafe.Sizeof(answer{})) {
		panic("odfilter: the library is newer than the header of this package: its answers are longer")
	}
}

// fits returns whether an answer of so many bytes has all that the library writes.
func fits(size uintptr) bool { return status(C.odfilter_fits(C.uint64_t(size))) == statusOK }

func readSchema(document, names []byte, schema *handle, a *answer) status {
	from, size := address(document)
	to, most := address(names)
	return status(C.go_read_schema(from, size, to, most, schema, a))
}

func findType(schema handle, name []byte, made *handle) status {
	from, size := address(name)
	return status(C.go_find_type(schema, from, size, made))
}

func check(of handle, text []byte, made *handle, a *answer) status {
	from, size := address(text)
	return status(C.go_check(of, from, size, made, a))
}

func checkQuery(of handle, query []byte, made *handle, a *answer) status {
	from, size := address(query)
	return status(C.go_check_query(of, from, size, made, a))
}

func checkURL(of handle, query, text []byte, made *handle, a *answer) status {
	from, size := address(query)
	to, most := address(text)
	return status(C.go_check_url(of, from, size, to, most, made, a))
}

func types(given handle, text []byte, a *answer) status {
	to, most := address(text)
	return status(C.go_types(given, to, most, a))
}

func canonical(filter handle, text []byte, a *answer) status {
	to, most := address(text)
	return status(C.go_canonical(filter, to, most, a))
}

func explain(filter handle, text []byte, a *answer) status {
	to, most := address(text)
	return status(C.go_explain(filter, to, most, a))
}

func propertyPaths(filter handle, paths []byte, a *answer) status {
	to, most := address(paths)
	return status(C.go_property_paths(filter, to, most, a))
}

func needsMoment(filter handle, a *answer) status { return status(C.odfilter_needs_moment(filter, a)) }
func nodeCount(filter handle, a *answer) status   { return status(C.odfilter_node_count(filter, a)) }
func lambdaDepth(filter handle, a *answer) status { return status(C.odfilter_lambda_depth(filter, a)) }

func newSQL(filter handle, form uint32, how []byte, made *handle, a *answer) status {
	from, size := address(how)
	return status(C.go_new_sql(filter, C.uint32_t(form), from, size, made, a))
}

func sqlText(conditions handle, which uint32, text []byte, a *answer) status {
	to, most := address(text)
	return status(C.go_sql_text(conditions, C.uint32_t(which), to, most, a))
}

func sqlValue(conditions handle, which, index uint32, text []byte, a *answer) status {
	to, most := address(text)
	return status(C.go_sql_value(conditions, C.uint32_t(which), C.uint32_t(index), to, most, a))
}

func newJudgeOf(filter handle, made *handle) status {
	return status(C.odfilter_new_judge_of(filter, made))
}

func setMoment(judge handle, moment []byte) status {
	from, size := address(moment)
	return status(C.go_set_moment(judge, from, size))
}

func setBound(judge handle, most uint64) status {
	return status(C.odfilter_set_bound(judge, C.uint64_t(most)))
}

func judgeNext(judge handle, row []byte, a *answer) status {
	from, size := address(row)
	return status(C.go_judge_next(judge, from, size, a))
}

func filterLines(filter, judge handle, rows, kept []byte, a *answer) status {
	from, size := address(rows)
	to, most := address(kept)
	return status(C.go_filter_lines(filter, judge, from, size, to, most, a))
}

func path(judge handle, text []byte, a *answer) status {
	to, most := address(text)
	return status(C.go_path(judge, to, most, a))
}

func free(made handle) { C.odfilter_free(&made) }

func version(text []byte, a *answer) status {
	to, most := address(text)
	return status(C.go_version(to, most, a))
}

func faultName(of status, fault uint32, text []byte, a *answer) status {
	to, most := address(text)
	return status(C.go_fault_name(C.uint32_t(of), C.uint32_t(fault), to, most, a))
}

func faultText(ofType handle, of status, about, text []byte, fault, a *answer) status {
	from, size := address(about)
	to, most := address(text)
	return status(C.go_fault_text(ofType, C.uint32_t(of), from, size, to, most, fault, a))
}

func faultJSON(ofType handle, of status, about, object []byte, fault, a *answer) status {
	from, size := address(about)
	to, most := address(object)
	return status(C.go_fault_json(ofType, C.uint32_t(of), from, size, to, most, fault, a))
}
