// What `bench/rows` measures the program against: rows read by simdjson's On-Demand reader, every declared member held to
// its type as the program holds it, and the kept ones written. A member that is not declared is passed over.
//
// rows_by_simdjson Mini.Item|Shop.Product ROWS
#include <simdjson.h>

#include <array>
#include <cstdint>
#include <cstdio>
#include <cstdlib>
#include <cstring>
#include <fcntl.h>
#include <limits>
#include <string_view>
#include <unistd.h>
#include <vector>

namespace {

using simdjson::ondemand::object;
using simdjson::ondemand::raw_json_string;
using simdjson::ondemand::value;
using std::string_view;

[[noreturn]] void fail(const char* why) {
    std::fprintf(stderr, "rows_by_simdjson: %s\n", why);
    std::exit(1);
}

void require(bool holds, const char* why) {
    if (!holds) fail(why);
}

// ---- texts that stand for values ----

// Reads so many digits at the front of a text, and takes them off it.
bool take_digits(string_view& text, size_t count, int& number) {
    if (text.size() < count) return false;
    number = 0;
    for (size_t at = 0; at < count; at++) {
        unsigned digit = static_cast<unsigned char>(text[at]) - '0';
        if (digit > 9) return false;
        number = 10 * number + static_cast<int>(digit);
    }
    text.remove_prefix(count);
    return true;
}

bool take_mark(string_view& text, char mark) {
    if (text.empty() || text.front() != mark) return false;
    text.remove_prefix(1);
    return true;
}

bool take_day(string_view& text) {
    static constexpr std::array<int, 12> days = {31, 28, 31, 30, 31, 30, 31, 31, 30, 31, 30, 31};
    int year, month, day;
    if (!take_digits(text, 4, year) || !take_mark(text, '-') || !take_digits(text, 2, month)) return false;
    if (!take_mark(text, '-') || !take_digits(text, 2, day) || month < 1 || month > 12) return false;
    bool is_leap = year % 4 == 0 && (year % 100 != 0 || year % 400 == 0);
    return day >= 1 && day <= days[static_cast<size_t>(month) - 1] + (is_leap && month == 2);
}

bool take_minutes(string_view& text) {
    int hour, minute;
    return take_digits(text, 2, hour) && take_mark(text, ':') && take_digits(text, 2, minute) && hour < 24 && minute < 60;
}

bool is_date(string_view text) { return take_day(text) && text.empty(); }

bool is_moment(string_view text) {
    if (!take_day(text) || !(take_mark(text, 'T') || take_mark(text, 't')) || !take_minutes(text)) return false;
    if (take_mark(text, ':')) {
        int second;
        if (!take_digits(text, 2, second) || second >= 60) return false;
        if (take_mark(text, '.')) {
            size_t count = text.find_first_not_of("0123456789");
            if (count == string_view::npos || count == 0 || count > 9) return false;
            text.remove_prefix(count);
        }
    }
    if (take_mark(text, 'Z') || take_mark(text, 'z')) return text.empty();
    return (take_mark(text, '+') || take_mark(text, '-')) && take_minutes(text) && text.empty();
}

bool is_guid(string_view text) {
    if (text.size() != 36) return false;
    for (size_t at = 0; at < 36; at++) {
        bool is_between = at == 8 || at == 13 || at == 18 || at == 23;
        char c = text[at];
        bool is_digit = (c >= '0' && c <= '9') || ((c | 0x20) >= 'a' && (c | 0x20) <= 'f');
        if (is_between ? c != '-' : !is_digit) return false;
    }
    return true;
}

bool is_color_piece(string_view piece) {
    while (!piece.empty() && piece.front() == ' ') piece.remove_prefix(1);
    while (!piece.empty() && piece.back() == ' ') piece.remove_suffix(1);
    if (piece == "Red" || piece == "Green" || piece == "Blue") return true;
    if (take_mark(piece, '-') || take_mark(piece, '+')) {}
    int number;
    return !piece.empty() && piece.size() < 10 && take_digits(piece, piece.size(), number);
}

bool is_color(string_view text) {
    size_t comma;
    while ((comma = text.find(',')) != string_view::npos) {
        if (!is_color_piece(text.substr(0, comma))) return false;
        text.remove_prefix(comma + 1);
    }
    return is_color_piece(text);
}

// ---- members; JSON of another kind is an exception of simdjson's ----

template <typename Number>
Number whole(value held) {
    int64_t number = held.get_int64();
    require(number >= std::numeric_limits<Number>::min() && number <= std::numeric_limits<Number>::max(), "out of range");
    return static_cast<Number>(number);
}

string_view text(value held) { return held.get_string(); }

// Goes through the members of an object. `take` says which declared member it was, from 0 on, or -1; each of the first
// `count` has to be there.
template <typename Take>
void members(object row, int count, Take take) {
    unsigned seen = 0;
    for (auto field : row) {
        raw_json_string name = field.key();
        int member = take(name, field.value());
        if (member >= 0) seen |= 1u << member;
    }
    unsigned wanted = (1u << count) - 1;
    require((seen & wanted) == wanted, "a member is missing");
}

void line(object row) {
    members(row, 1, [](raw_json_string name, value held) {
        if (!name.unsafe_is_equal("Qty")) return -1;
        whole<int32_t>(held);
        return 0;
    });
}

void address(object row) {
    members(row, 2, [](raw_json_string name, value held) {
        if (name.unsafe_is_equal("City")) return (void)text(held), 0;
        if (!name.unsafe_is_equal("Lines")) return -1;
        for (auto one : held.get_array()) line(one.get_object());
        return 1;
    });
}

void part(object row) {
    members(row, 3, [](raw_json_string name, value held) {
        if (name.unsafe_is_equal("Name")) return (void)text(held), 0;
        if (name.unsafe_is_equal("Qty")) return (void)whole<int32_t>(held), 1;
        if (!name.unsafe_is_equal("Sub")) return -1;
        for (auto one : held.get_array()) part(one.get_object());
        return 2;
    });
}

// What the filter asks for.
struct Head {
    int32_t id = 0;
    string_view name;
    bool active = false;

    bool is_kept() const { return active && id == 1 && name == "a"; }
};

bool item(object row) {
    Head head;
    members(row, 3, [&](raw_json_string name, value held) {
        if (name.unsafe_is_equal("ID")) return head.id = whole<int32_t>(held), 0;
        if (name.unsafe_is_equal("Name")) return head.name = text(held), 1;
        if (!name.unsafe_is_equal("Active")) return -1;
        head.active = held.get_bool();
        return 2;
    });
    return head.is_kept();
}

bool product(object row) {
    Head head;
    members(row, 8, [&](raw_json_string name, value held) {
        if (name.unsafe_is_equal("ID")) return head.id = whole<int32_t>(held), 0;
        if (name.unsafe_is_equal("Name")) return head.name = text(held), 1;
        if (name.unsafe_is_equal("Stock")) return (void)whole<int64_t>(held), 2;
        if (name.unsafe_is_equal("Changed")) return require(is_moment(text(held)), "no moment"), 3;
        if (name.unsafe_is_equal("Color")) return require(is_color(text(held)), "no color"), 4;
        if (name.unsafe_is_equal("Code")) return require(is_guid(text(held)), "no Guid"), 5;
        if (name.unsafe_is_equal("Tags")) {
            for (auto tag : held.get_array()) (void)text(tag.value());
            return 6;
        }
        if (name.unsafe_is_equal("Parts")) {
            for (auto one : held.get_array()) part(one.get_object());
            return 7;
        }
        if (name.unsafe_is_equal("Rating")) {
            if (!held.is_null()) whole<int16_t>(held);
        } else if (name.unsafe_is_equal("Active")) {
            head.active = !held.is_null() && held.get_bool();
        } else if (name.unsafe_is_equal("Released")) {
            if (!held.is_null()) require(is_date(text(held)), "no date");
        } else if (name.unsafe_is_equal("Home")) {
            if (!held.is_null()) address(held.get_object());
        }
        return -1;
    });
    return head.is_kept();
}

// ---- lines ----

void write_all(const std::vector<char>& bytes) {
    for (size_t at = 0; at < bytes.size();) {
        ssize_t count = write(STDOUT_FILENO, bytes.data() + at, bytes.size() - at);
        require(count > 0, "the output is not written");
        at += static_cast<size_t>(count);
    }
}

// Judges whole lines, which stand in that much of a block, and puts the kept ones after the others.
void judge(simdjson::ondemand::parser& parser, const char* bytes, size_t length, bool (*is_kept)(object), std::vector<char>& kept) {
    auto rows = parser.iterate_many(bytes, length, length < 1000 ? 1000 : length).value();
    for (auto at = rows.begin(); at != rows.end(); ++at) {
        auto row = *at;
        if (!is_kept(row.get_object())) continue;
        const char* from = bytes + at.current_index();
        const void* end = std::memchr(from, '\n', length - static_cast<size_t>(from - bytes));
        kept.insert(kept.end(), from, static_cast<const char*>(end) + 1);
    }
}

}  // namespace

int main(int count, char** words) {
    require(count == 3, "rows_by_simdjson KIND ROWS");
    bool (*is_kept)(object) = std::strcmp(words[1], "Shop.Product") == 0 ? product : item;
    int file = open(words[2], O_RDONLY);
    require(file >= 0, "the rows are not read");
    constexpr size_t block = 2 << 20;
    std::vector<char> bytes(block + simdjson::SIMDJSON_PADDING), kept;
    simdjson::ondemand::parser parser;
    size_t held = 0;
    try {
        for (;;) {
            ssize_t more = read(file, bytes.data() + held, block - held);
            require(more >= 0, "the rows are not read");
            if (more == 0) break;
            held += static_cast<size_t>(more);
            const void* last = memrchr(bytes.data(), '\n', held);
            if (last == nullptr) continue;
            size_t whole_lines = static_cast<size_t>(static_cast<const char*>(last) - bytes.data()) + 1;
            judge(parser, bytes.data(), whole_lines, is_kept, kept);
            held -= whole_lines;
            std::memmove(bytes.data(), bytes.data() + whole_lines, held);
            if (kept.size() >= 1 << 16) {
                write_all(kept);
                kept.clear();
            }
        }
    } catch (const simdjson::simdjson_error& error) {
        fail(error.what());
    }
    require(held == 0, "the last line has no end");
    write_all(kept);
}
