// Derivations, read and written.
#pragma once

#include <algorithm>
#include <utility>
#include <vector>

#include "paths.h"
#include "reader.h"

// ---- derivations: Nix Reference Manual, "Derivation Expression"

static const string HEAD = "Derive([(\"out\",\"\",\"\",\"\")],";

// What a text says of a derivation. The list of the inputs stands behind the head, and ends at an offset.
struct Parts {
    string name;
    std::vector<string> inputs, sources;
    size_t end_of_inputs = 0;
};

struct DerivationReader : Reader {
    Parts parts = {};
    string last_key = {};
    bool has_output = false;

    char escaped() {
        for (const string_view pair : {"\"\"", "\\\\", "n\n", "r\r", "t\t"})
            if (skip(pair.substr(0, 1))) return pair[1];
        throw std::runtime_error("no escape");
    }

    string quoted() {
        string value;
        for (expect("\""); !skip("\"");) {
            need(at < text.size(), "a string without an end");
            value += skip("\\") ? escaped() : text[at++];
        }
        return value;
    }

    void list(auto item) {
        expect("[");
        for (bool is_first = true; !skip("]"); is_first = false) {
            if (!is_first) expect(",");
            item();
        }
    }

    void path_of(std::vector<string> &paths) {
        const string path = quoted();
        need(paths.empty() || paths.back() < path, "paths that do not ascend");
        paths.push_back(path);
    }

    void input() {
        expect("(");
        path_of(parts.inputs);
        expect(",[\"out\"])");
    }

    void member(size_t shortest) {
        const size_t length = quoted().size();
        need(shortest <= length && length <= 255, "a platform or a builder");
        expect(",");
    }

    void variable() {
        expect("(");
        const string key = quoted();
        expect(",");
        const string value = quoted();
        expect(")");
        const bool is_good = std::ranges::all_of(key, [](char c) { return is_letter_or_digit(c) || c == '_'; });
        need(is_good && !key.empty() && key.size() <= 64 && !is_digit(key[0]) && key != "INPUTS", "a key");
        need(last_key < key, "keys that do not ascend");
        last_key = key;
        if (key == "name") parts.name = value;
        if (key == "out") has_output = value.empty();
    }
};

static Parts read_derivation(string_view text) {
    need(text.size() <= 1 << 20, "a text of more than 1 MiB");
    DerivationReader reader{{text}};
    reader.expect(HEAD);
    reader.list([&] { reader.input(); });
    reader.parts.end_of_inputs = reader.at;
    reader.expect(",");
    reader.list([&] { reader.path_of(reader.parts.sources); });
    reader.expect(",");
    reader.member(0);
    reader.member(1);
    reader.list([&] { reader.quoted(); });
    reader.expect(",");
    reader.list([&] { reader.variable(); });
    reader.expect(")");
    need(reader.at == text.size(), "more than a derivation");
    need(is_name(reader.parts.name, 207) && reader.has_output, "no name, or no output");
    return std::move(reader.parts);
}
