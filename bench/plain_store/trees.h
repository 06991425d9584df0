// Trees, their archives, and the hash parts in them.
#pragma once

#include <algorithm>
#include <functional>
#include <initializer_list>
#include <utility>
#include <vector>

#include "paths.h"
#include "reader.h"

// ---- trees and their archives: Nix Reference Manual, "Nix Archive (NAR) Format"

// A name, the bytes of a file or the target of a link: where it stands in the archive, and in the text, in base 16.
struct Piece {
    size_t in_archive, in_text, length;
    bool is_name;
};

struct Tree {
    string text, archive;
    std::vector<Piece> pieces;
};

static int digit_16(char c) { return is_digit(c) ? c - '0' : c >= 'a' && c <= 'f' ? c - 'a' + 10 : -1; }

struct TreeReader : Reader {
    Tree tree = {};

    void write(std::initializer_list<string_view> texts) {
        for (const string_view written : texts) {
            for (int shift = 0; shift < 64; shift += 8) tree.archive += static_cast<char>(written.size() >> shift);
            tree.archive.append(written).append(-written.size() % 8, '\0');
        }
    }

    string piece(bool is_name) {
        string bytes;
        const size_t begin = at;
        for (; at + 1 < text.size() && digit_16(text[at]) >= 0; at += 2) {
            need(digit_16(text[at + 1]) >= 0, "an odd digit");
            bytes += static_cast<char>(digit_16(text[at]) << 4 | digit_16(text[at + 1]));
        }
        tree.pieces.push_back({tree.archive.size() + 8, begin, bytes.size(), is_name});
        write({bytes});
        return bytes;
    }

    void entries(int level) {
        for (string last; !skip(")");) {
            if (!last.empty()) expect(",");
            write({"entry", "(", "name"});
            const string name = piece(true);
            need(name.size() <= 255 && name.find_first_of(string_view("/\0", 2)) == string::npos, "a name of an entry");
            need(name != "." && name != ".." && last < name, "a name of an entry");
            expect("=");
            write({"node"});
            node(level + 1);
            write({")"});
            last = name;
        }
    }

    void node(int level) {
        need(level <= 64, "a tree of more than 64 levels");
        write({"(", "type"});
        if (skip("d(")) {
            write({"directory"});
            entries(level);
        } else {
            if (skip("f:")) write({"regular", "contents"});
            else if (skip("x:")) write({"regular", "executable", "", "contents"});
            else if (skip("l:")) write({"symlink", "target"});
            else need(false, "no tree");
            piece(false);
        }
        write({")"});
    }
};

static Tree read_tree(string_view word) {
    TreeReader reader{{word}};
    reader.write({"nix-archive-1"});
    reader.node(1);
    need(reader.at == word.size(), "more than a tree");
    need(reader.tree.archive.size() <= 64 << 20, "an archive of more than 64 MiB");
    reader.tree.text = word;
    return std::move(reader.tree);
}

// ---- hash parts in trees: Dolstra 2006, sections 5.2.2 and 6.3.1

struct Place {
    size_t in_archive, in_text;
    string part;
    bool operator==(const Place &) const = default;
};

using Sought = std::function<bool(const string &)>;

static bool is_digit_32(char c) {
    return is_digit(c) || (c >= 'a' && c <= 'z' && c != 'e' && c != 'o' && c != 't' && c != 'u');
}

static void find_in(const string &archive, const Piece &piece, const Sought &is_sought, std::vector<Place> &places) {
    for (size_t at = 0; at + 32 <= piece.length;) {
        const string_view window = string_view(archive).substr(piece.in_archive + at, 32);
        size_t left = 32;
        while (left > 0 && is_digit_32(window[left - 1])) left--;
        if (left == 0 && is_sought(string(window))) {
            need(!piece.is_name, "a hash part in a name");
            places.push_back({piece.in_archive + at, piece.in_text + 2 * at, string(window)});
        }
        at += std::max<size_t>(left, 1);
    }
}

// Where hash parts stand that are sought. No two of them share bytes.
static std::vector<Place> find(const Tree &tree, const Sought &is_sought) {
    std::vector<Place> places;
    for (const Piece &piece : tree.pieces) find_in(tree.archive, piece, is_sought, places);
    for (size_t i = 1; i < places.size(); i++)
        need(places[i].in_archive - places[i - 1].in_archive >= 32, "hash parts that share bytes");
    return places;
}

// The digest of an archive in which its own hash part is blanked, with the offsets of that behind it.
static Digest modulo_digest(string archive, const std::vector<Place> &places, const string &own) {
    string offsets;
    for (const Place &place : places) {
        if (place.part != own) continue;
        archive.replace(place.in_archive, 32, 32, '\0');
        offsets += "|" + std::to_string(place.in_archive);
    }
    return sha256(archive + offsets);
}

// Puts a hash part in the places of the own one. The others stay where they were, and none may be new.
static void put(Tree &tree, std::vector<Place> places, const string &own, const string &part, const Sought &is_sought) {
    for (Place &place : places) {
        if (place.part != own) continue;
        place.part = part;
        tree.archive.replace(place.in_archive, 32, part);
        tree.text.replace(place.in_text, 64, hex(part));
    }
    const auto is_sought_now = [&](const string &found) { return found == part || is_sought(found); };
    need(find(tree, is_sought_now) == places, "a hash part where none was put");
}
