// JSON read by simdjson's On-Demand interface into owned values. Ranges are checked here, UTF-8 and the
// end of the input by simdjson, whose parser is kept between calls, as its users keep it. A name is
// compared as it stands, so an escaped name of a field would be unknown.
#include "typed.hpp"
#include <limits>
#include <simdjson.h>

namespace ondemand = simdjson::ondemand;

template <class T> static bool read_numbers(ondemand::document &document, std::vector<T> &numbers) {
    ondemand::array items;
    if (document.get_array().get(items)) return false;
    for (auto item : items) {
        uint64_t number;
        if (item.get_uint64().get(number) || number > std::numeric_limits<T>::max()) return false;
        numbers.push_back(static_cast<T>(number));
    }
    return true;
}

static bool read_i32(ondemand::value value, int32_t &number) {
    int64_t wide;
    if (value.get_int64().get(wide) || wide < INT32_MIN || wide > INT32_MAX) return false;
    number = static_cast<int32_t>(wide);
    return true;
}

static bool read_note(ondemand::value value, std::optional<Text> &note) {
    bool is_null;
    std::string_view text;
    note.reset();
    if (value.is_null().get(is_null)) return false;
    if (is_null) return true;
    if (value.get_string().get(text)) return false;
    note.emplace(text);
    return true;
}

static bool read_record(ondemand::object fields, Record &record) {
    bool has_value = false;
    for (auto field : fields) {
        ondemand::raw_json_string name;
        ondemand::value value;
        if (field.key().get(name) || field.value().get(value)) return false;
        if (name == "value") {
            if (!read_i32(value, record.value)) return false;
            has_value = true;
        } else if (name == "note" && !read_note(value, record.note)) {
            return false;
        }
    }
    return has_value;
}

struct OnDemand {
    ondemand::document &document;

    bool read(std::vector<uint8_t> &numbers) { return read_numbers(document, numbers); }
    bool read(std::vector<uint64_t> &numbers) { return read_numbers(document, numbers); }
    bool read(std::vector<Text> &texts) {
        ondemand::array items;
        if (document.get_array().get(items)) return false;
        for (auto item : items) {
            std::string_view text;
            if (item.get_string().get(text)) return false;
            texts.emplace_back(text);
        }
        return true;
    }
    bool read(Map &map) {
        ondemand::object entries;
        if (document.get_object().get(entries)) return false;
        for (auto entry : entries) {
            std::string_view key;
            int32_t number;
            if (entry.unescaped_key().get(key) || !read_i32(entry.value(), number)) return false;
            map.insert_or_assign(Text(key), number);
        }
        return true;
    }
    bool read(std::vector<Record> &records) {
        ondemand::array items;
        if (document.get_array().get(items)) return false;
        for (auto item : items) {
            ondemand::object fields;
            Record record;
            if (item.get_object().get(fields) || !read_record(fields, record)) return false;
            records.push_back(std::move(record));
        }
        return true;
    }
};

// `room` is how many bytes may be read from `input` on: 64 more than its length.
extern "C" int64_t read_by_simdjson(int kind, const char *input, size_t length, size_t room) {
    static ondemand::parser parser;
    ondemand::document document;
    if (parser.iterate(input, length, room).get(document)) return -1;
    int64_t count = read_kind(kind, OnDemand{document});
    return document.current_location().error() == simdjson::OUT_OF_BOUNDS ? count : -1;
}
