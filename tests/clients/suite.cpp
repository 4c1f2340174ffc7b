/* Answers the questions of tests/library_cases.py by the calls of the library: `suite FILE`. In C++17: handles free
 * themselves, a status that is no answer is an exception, and each text that is handed in is a block of just as many
 * bytes, so that valgrind reports a byte too many. */
#include <cstdint>
#include <fstream>
#include <functional>
#include <iostream>
#include <iterator>
#include <map>
#include <memory>
#include <stdexcept>
#include <string>
#include <string_view>
#include <utility>
#include <vector>

#include "odfilter.h"

namespace
{

/* a status that no question is answered by */
class unexpected : public std::runtime_error
{
  public:
    unexpected(const std::string &what, uint32_t status) : runtime_error(what + ": status " + std::to_string(status))
    {
    }
};

/* a handle, freed with its owner */
class handle
{
  public:
    handle() = default;
    handle(handle &&other) noexcept : at(std::exchange(other.at, nullptr))
    {
    }
    handle &operator=(handle &&other) noexcept
    {
        std::swap(at, other.at);
        return *this;
    }
    ~handle()
    {
        odfilter_free(&at);
    }
    odfilter_handle *get() const
    {
        return at;
    }
    /* the variable for a new one */
    odfilter_handle **place()
    {
        odfilter_free(&at);
        return &at;
    }

  private:
    odfilter_handle *at = nullptr;
};

/* bytes in a block of their own */
class block
{
  public:
    explicit block(std::string_view text) : at(new char[text.size()]), length(text.size())
    {
        text.copy(at.get(), length);
    }
    odfilter_bytes bytes() const
    {
        return {at.get(), length};
    }

  private:
    std::unique_ptr<char[]> at;
    std::size_t length;
};

/* the text that a call writes: its length is asked for first; nothing where there is no handle */
template <typename Call> std::string written(Call call)
{
    odfilter_answer answer;
    std::unique_ptr<char[]> none(new char[0]);
    uint32_t status = call(odfilter_buffer{none.get(), 0}, &answer);
    if (status == ODFILTER_NULL)
        return "nothing";
    std::unique_ptr<char[]> room(new char[answer.length]);
    std::size_t length = answer.length;
    if (status == ODFILTER_TOO_SMALL)
        status = call(odfilter_buffer{room.get(), length}, &answer);
    if (status != ODFILTER_OK || answer.length != length)
        throw unexpected("a text", status);
    return std::string(room.get(), length);
}

std::string fault_name(uint32_t status, uint32_t fault)
{
    return written(
        [=](odfilter_buffer room, odfilter_answer *to) { return odfilter_fault_name(status, fault, room, to); });
}

/* the answers to questions, by what is held from one to the next */
class client
{
  public:
    std::string answer(const std::string &word, const std::vector<block> &given)
    {
        if (word == "schema")
            return schema_of(given[0].bytes());
        if (word == "type")
            return type_of(given[0].bytes());
        if (word == "filter")
            return checked(odfilter_check, given[0].bytes());
        if (word == "query")
            return checked(odfilter_check_query, given[0].bytes());
        if (word == "url")
            return found_in(given[0].bytes());
        if (word == "canonical")
            return text_of(odfilter_canonical, filter);
        if (word == "explain")
            return text_of(odfilter_explain, filter);
        if (word == "row")
            return verdict_of(given[0].bytes(), given[1].bytes());
        if (word == "lines")
            return lines_of(given[0].bytes(), given[1].bytes());
        throw std::invalid_argument("no such question: " + word);
    }

  private:
    using writer = uint32_t (*)(const odfilter_handle *, odfilter_buffer, odfilter_answer *);
    using checker = uint32_t (*)(const odfilter_handle *, odfilter_bytes, odfilter_handle **, odfilter_answer *);

    static std::string text_of(writer call, const handle &of)
    {
        return written([&](odfilter_buffer room, odfilter_answer *to) { return call(of.get(), room, to); });
    }

    /* how many names a schema's fault carries, each of which may be empty */
    static int names_of(uint32_t fault)
    {
        static const std::map<uint32_t, int> counts = {
            {ODFILTER_SCHEMA_BAD_TYPE, 1},       {ODFILTER_SCHEMA_UNKNOWN_BASE, 1},
            {ODFILTER_SCHEMA_BASE_CYCLE, 1},     {ODFILTER_SCHEMA_BAD_PROPERTY, 2},
            {ODFILTER_SCHEMA_PROPERTY_TWICE, 2}, {ODFILTER_SCHEMA_BAD_ENUM_MEMBER, 2}};
        auto found = counts.find(fault);
        return found == counts.end() ? 0 : found->second;
    }

    std::string schema_of(odfilter_bytes document)
    {
        odfilter_answer reported;
        char none;
        filter = handle();
        type = handle();
        uint32_t status = odfilter_read_schema(document, {&none, 0}, schema.place(), &reported);
        if (status == ODFILTER_OK)
            return "accepted";
        std::unique_ptr<char[]> names(new char[reported.length]);
        if (status != ODFILTER_SCHEMA_FAULT ||
            odfilter_read_schema(document, {names.get(), reported.length}, schema.place(), &reported) != status)
            throw unexpected("a schema", status);
        std::string said = fault_name(status, reported.fault);
        if (names_of(reported.fault) > 0)
            said += " " + std::string(names.get(), reported.first);
        if (names_of(reported.fault) > 1)
            said += " " + std::string(names.get() + reported.first, reported.length - reported.first);
        return said;
    }

    std::string type_of(odfilter_bytes name)
    {
        filter = handle();
        switch (uint32_t status = odfilter_find_type(schema.get(), name, type.place())) {
        case ODFILTER_OK:
            return "found";
        case ODFILTER_UNKNOWN_TYPE:
            return "unknown";
        case ODFILTER_NULL:
            return "nothing";
        default:
            throw unexpected("a type", status);
        }
    }

    /* the filter of a whole query, where its option and its value stand, and its text, in a buffer of just its length */
    std::string found_in(odfilter_bytes query)
    {
        odfilter_answer reported{};
        char none;
        odfilter_check_url(type.get(), query, {&none, 0}, filter.place(), &reported);
        std::string text(reported.length, '?');
        uint32_t status = odfilter_check_url(type.get(), query, {text.data(), text.size()}, filter.place(), &reported);
        std::string said = outcome(status, reported);
        if (reported.piece_stop == 0)
            return said;
        said += '\n' + std::to_string(reported.piece_start) + ' ' + std::to_string(reported.piece_stop);
        said += ' ' + std::to_string(reported.value_start) + ' ' + std::to_string(reported.value_stop);
        return said + '\n' + text;
    }

    std::string checked(checker call, odfilter_bytes text)
    {
        odfilter_answer reported;
        uint32_t status = call(type.get(), text, filter.place(), &reported);
        return outcome(status, reported);
    }

    static std::string outcome(uint32_t status, const odfilter_answer &reported)
    {
        switch (status) {
        case ODFILTER_OK:
            return "accepted";
        case ODFILTER_NULL:
            return "nothing";
        case ODFILTER_NO_FILTER:
            return "no filter";
        case ODFILTER_QUERY_FAULT:
            return "refused query " + fault_name(status, reported.fault) + " " + std::to_string(reported.number);
        case ODFILTER_TEXT_FAULT:
        case ODFILTER_SYNTAX_FAULT:
        case ODFILTER_TYPE_FAULT:
            return "refused " + fault_name(status, reported.fault) + " " + std::to_string(reported.start) + ".." +
                   std::to_string(reported.stop);
        default:
            throw unexpected("a filter", status);
        }
    }

    /* a judge with that moment, or a new one without any */
    const handle &judge_at(odfilter_bytes moment)
    {
        if (!judge.get() || (has_moment && moment.length == 0))
            if (uint32_t status = odfilter_new_judge(judge.place()))
                throw unexpected("a judge", status);
        has_moment = moment.length != 0;
        if (has_moment)
            if (uint32_t status = odfilter_set_moment(judge.get(), moment))
                throw unexpected("a moment", status);
        return judge;
    }

    /* why a row has no verdict */
    std::string row_fault(uint32_t status, const odfilter_answer &reported) const
    {
        if (status == ODFILTER_JSON_FAULT)
            return "Json";
        if (status == ODFILTER_LINE_TOO_LONG)
            return "LineTooLong";
        if (status != ODFILTER_ROW_FAULT && status != ODFILTER_EVAL_FAULT)
            throw unexpected("a row", status);
        std::string path = status == ODFILTER_ROW_FAULT ? text_of(odfilter_path, judge) : "";
        return fault_name(status, reported.fault) + (path.empty() ? "" : " " + path);
    }

    std::string verdict_of(odfilter_bytes row, odfilter_bytes moment)
    {
        static const std::map<uint32_t, std::string> verdicts = {
            {ODFILTER_TRUE, "true"}, {ODFILTER_FALSE, "false"}, {ODFILTER_NO_TRUTH_VALUE, "null"}};
        odfilter_answer reported;
        uint32_t status = odfilter_judge(filter.get(), judge_at(moment).get(), row, &reported);
        if (status == ODFILTER_NULL)
            return "nothing";
        return status == ODFILTER_OK ? verdicts.at(reported.verdict) : row_fault(status, reported);
    }

    std::string lines_of(odfilter_bytes rows, odfilter_bytes moment)
    {
        odfilter_answer reported;
        std::unique_ptr<char[]> kept(new char[rows.length + 1]);
        odfilter_buffer room = {kept.get(), rows.length + 1};
        uint32_t status = odfilter_filter_lines(filter.get(), judge_at(moment).get(), rows, room, &reported);
        if (status == ODFILTER_NULL)
            return "nothing";
        std::string said;
        if (status != ODFILTER_OK)
            said = "row " + std::to_string(reported.number) + " " + row_fault(status, reported);
        return said + "\n" + std::string(kept.get(), reported.length);
    }

    handle schema, type, filter, judge;
    bool has_moment = false;
};

/* the netstrings of a file, one after another */
class netstrings
{
  public:
    explicit netstrings(const std::string &path)
    {
        std::ifstream file(path, std::ios::binary);
        wire.assign(std::istreambuf_iterator<char>(file), {});
        if (!file)
            throw std::runtime_error("no questions in " + path);
    }
    bool is_at_end() const
    {
        return at == wire.size();
    }
    std::string_view next()
    {
        std::size_t colon = wire.find(':', at), length = std::stoul(wire.substr(at, colon - at));
        at = colon + length + 2;
        if (wire.at(at - 1) != ',')
            throw std::runtime_error("no netstring");
        return std::string_view(wire).substr(colon + 1, length);
    }

  private:
    std::string wire;
    std::size_t at = 0;
};

std::size_t given_to(std::string_view word)
{
    return word == "row" || word == "lines" ? 2 : word == "canonical" || word == "explain" ? 0 : 1;
}

} // namespace

int main(int count, char **words)
try {
    netstrings questions(count == 2 ? words[1] : "");
    client asked;
    while (!questions.is_at_end()) {
        std::string_view word = questions.next();
        std::vector<block> given;
        for (std::size_t number = given_to(word); number > 0; number--)
            given.emplace_back(questions.next());
        std::string answer = asked.answer(std::string(word), given);
        std::cout << answer.size() << ':' << answer << ',';
    }
    return std::cout.flush() ? 0 : 1;
} catch (const std::exception &fault) {
    std::cerr << "suite: " << fault.what() << '\n';
    return 3;
}
