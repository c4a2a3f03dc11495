// JSON read by RapidJSON's events into owned values, in place of a copy of the input, with its check of
// UTF-8. Ranges are checked here.
#define RAPIDJSON_SSE2
#include "typed.hpp"
#include <limits>
#include <memory>
#include <rapidjson/reader.h>

using rapidjson::SizeType;

// What is no event of a value's kind is refused.
template <class Events> struct Refusing : rapidjson::BaseReaderHandler<rapidjson::UTF8<>, Events> {
    bool Default() { return false; }
};

template <class T> struct NumberEvents : Refusing<NumberEvents<T>> {
    std::vector<T> &numbers;
    int depth = 0;
    explicit NumberEvents(std::vector<T> &numbers) : numbers(numbers) {}
    bool StartArray() { return depth++ == 0; }
    bool EndArray(SizeType) { return --depth == 0; }
    bool Uint64(uint64_t number) {
        if (depth != 1 || number > std::numeric_limits<T>::max()) return false;
        numbers.push_back(static_cast<T>(number));
        return true;
    }
    bool Uint(unsigned number) { return Uint64(number); }
};

struct TextEvents : Refusing<TextEvents> {
    std::vector<Text> &texts;
    int depth = 0;
    explicit TextEvents(std::vector<Text> &texts) : texts(texts) {}
    bool StartArray() { return depth++ == 0; }
    bool EndArray(SizeType) { return --depth == 0; }
    bool String(const char *text, SizeType length, bool) {
        if (depth != 1) return false;
        texts.emplace_back(std::string_view(text, length));
        return true;
    }
};

struct EntryEvents : Refusing<EntryEvents> {
    Map &map;
    Text key;
    int depth = 0;
    explicit EntryEvents(Map &map) : map(map) {}
    bool StartObject() { return depth++ == 0; }
    bool EndObject(SizeType) { return --depth == 0; }
    bool Key(const char *text, SizeType length, bool) {
        key = Text(std::string_view(text, length));
        return true;
    }
    bool Int(int number) {
        if (depth != 1) return false;
        map.insert_or_assign(std::move(key), number);
        return true;
    }
    bool Uint(unsigned number) { return number <= INT32_MAX && Int(static_cast<int>(number)); }
};

// A field that is neither `value` nor `note` is passed over, whatever it holds.
struct RecordEvents : Refusing<RecordEvents> {
    enum Field { Value, Note, Other };
    std::vector<Record> &records;
    Record record;
    bool has_value = false;
    int depth = 0;
    Field field = Other;
    explicit RecordEvents(std::vector<Record> &records) : records(records) {}
    bool is_other() const { return depth >= 2 && field == Other; }
    bool StartArray() { return depth++ == 0 || is_other(); }
    bool EndArray(SizeType) { return depth-- > 0; }
    bool StartObject() {
        if (depth++ != 1) return is_other();
        record.note.reset();
        has_value = false;
        return true;
    }
    bool EndObject(SizeType) {
        if (depth-- > 2) return true;
        if (has_value) records.push_back(std::move(record));
        return has_value;
    }
    bool Key(const char *text, SizeType length, bool) {
        std::string_view name(text, length);
        if (depth == 2) field = name == "value" ? Value : name == "note" ? Note : Other;
        return true;
    }
    bool String(const char *text, SizeType length, bool) {
        if (field == Note && depth == 2) record.note.emplace(std::string_view(text, length));
        return depth == 2 ? field != Value : is_other();
    }
    bool Int(int number) {
        if (field != Value || depth != 2) return is_other();
        record.value = number;
        return has_value = true;
    }
    bool Uint(unsigned number) {
        return is_other() || (number <= INT32_MAX && Int(static_cast<int>(number)));
    }
    bool Null() {
        if (field == Note && depth == 2) record.note.reset();
        return depth == 2 ? field != Value : is_other();
    }
    bool Default() { return is_other(); }
};

template <class Events, class T> static bool parsed(char *copy, T &value) {
    rapidjson::InsituStringStream stream(copy);
    rapidjson::Reader reader;
    Events events(value);
    constexpr auto flags = rapidjson::kParseInsituFlag | rapidjson::kParseValidateEncodingFlag;
    return !reader.Parse<flags>(stream, events).IsError();
}

struct InPlace {
    char *copy;

    bool read(std::vector<uint8_t> &value) { return parsed<NumberEvents<uint8_t>>(copy, value); }
    bool read(std::vector<uint64_t> &value) { return parsed<NumberEvents<uint64_t>>(copy, value); }
    bool read(std::vector<Text> &value) { return parsed<TextEvents>(copy, value); }
    bool read(Map &value) { return parsed<EntryEvents>(copy, value); }
    bool read(std::vector<Record> &value) { return parsed<RecordEvents>(copy, value); }
};

extern "C" int64_t read_by_rapidjson(int kind, const char *input, size_t length) {
    // It reads 16 bytes at a time, and ends at a NUL.
    std::unique_ptr<char, decltype(&free)> copy(static_cast<char *>(malloc(length + 16)), free);
    memcpy(copy.get(), input, length);
    memset(copy.get() + length, 0, 16);
    return read_kind(kind, InPlace{copy.get()});
}
