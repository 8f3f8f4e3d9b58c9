// `dap show` over simdjson: the file is read whole, each body is a slice of it and becomes a document of simdjson's, and the
// lines are gathered and written once. It prints what `baseline show` prints, and a status: 3 where a body is no message, 4
// where the file ends within a frame, 5 where the file can't be read.
#include <simdjson.h>

#include <cstdio>
#include <cstdlib>
#include <cstring>
#include <string>
#include <string_view>
#include <vector>

using simdjson::dom::object;

namespace {

// A text with `?` for each control character.
void add_plain(std::string &out, std::string_view text) {
    for (unsigned char byte : text) out.push_back(byte < 32 || byte == 127 ? '?' : byte);
}

// The line behind the offset and the number, or nothing added where the message is none.
bool add_kind(std::string &out, const object &message, std::string_view type) {
    std::string_view name, why;
    if (type == "request") {
        if (message["command"].get(name)) return false;
        out += " request ";
        add_plain(out, name);
    } else if (type == "event") {
        if (message["event"].get(name)) return false;
        out += " event ";
        add_plain(out, name);
    } else if (type == "response") {
        uint64_t to;
        bool success;
        if (message["command"].get(name) || message["request_seq"].get(to) || message["success"].get(success)) return false;
        out += " response ";
        add_plain(out, name);
        out += ' ' + std::to_string(to) + (success ? " ok" : " failed");
        if (!success && !message["message"].get(why)) {
            out += ' ';
            add_plain(out, why);
        }
    } else {
        out += " other ";
        add_plain(out, type);
    }
    return true;
}

bool read_file(const char *path, std::vector<char> &bytes, size_t &length) {
    FILE *file = fopen(path, "rb");
    if (!file) return false;
    fseek(file, 0, SEEK_END);
    length = ftell(file);
    rewind(file);
    bytes.resize(length + simdjson::SIMDJSON_PADDING);
    bool whole = fread(bytes.data(), 1, length, file) == length;
    fclose(file);
    return whole;
}

int show(char *bytes, size_t length, std::string &out) {
    simdjson::dom::parser parser;
    for (size_t start = 0; start < length;) {
        char *header = bytes + start;
        auto *end = static_cast<char *>(memmem(header, length - start, "\r\n\r\n", 4));
        if (!end) return 4;
        auto *colon = static_cast<char *>(memchr(header, ':', end - header));
        if (!colon) return 3;
        size_t size = strtoul(colon + 1, nullptr, 10);
        char *body = end + 4;
        if (size > size_t(bytes + length - body)) return 4;
        object message;
        uint64_t seq;
        std::string_view type;
        if (parser.parse(body, size, false).get(message)) return 3;
        if (message["seq"].get(seq) || message["type"].get(type)) return 3;
        out += std::to_string(start) + ' ' + std::to_string(seq);
        if (!add_kind(out, message, type)) return 3;
        out += '\n';
        start = size_t(body - bytes) + size;
    }
    return 0;
}

}  // namespace

int main(int count, char **words) {
    if (count != 2) return 2;
    std::vector<char> bytes;
    size_t length = 0;
    if (!read_file(words[1], bytes, length)) return 5;
    std::string out;
    int status = show(bytes.data(), length, out);
    fwrite(out.data(), 1, out.size(), stdout);
    return status;
}
