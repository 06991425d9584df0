// Digests, and the paths and names of a store.
#pragma once

#include <algorithm>
#include <array>
#include <bit>
#include <cstdint>
#include <ranges>
#include <stdexcept>
#include <string>
#include <string_view>

using std::size_t, std::string, std::string_view;

static void need(bool holds, const char *why) {
    if (!holds) throw std::runtime_error(why);
}

// ---- digests: FIPS 180-4, "SHA-256"

using Digest = std::array<std::uint8_t, 32>;

static const std::uint32_t CONSTANTS[64] = {
    0x428a2f98, 0x71374491, 0xb5c0fbcf, 0xe9b5dba5, 0x3956c25b, 0x59f111f1, 0x923f82a4, 0xab1c5ed5,
    0xd807aa98, 0x12835b01, 0x243185be, 0x550c7dc3, 0x72be5d74, 0x80deb1fe, 0x9bdc06a7, 0xc19bf174,
    0xe49b69c1, 0xefbe4786, 0x0fc19dc6, 0x240ca1cc, 0x2de92c6f, 0x4a7484aa, 0x5cb0a9dc, 0x76f988da,
    0x983e5152, 0xa831c66d, 0xb00327c8, 0xbf597fc7, 0xc6e00bf3, 0xd5a79147, 0x06ca6351, 0x14292967,
    0x27b70a85, 0x2e1b2138, 0x4d2c6dfc, 0x53380d13, 0x650a7354, 0x766a0abb, 0x81c2c92e, 0x92722c85,
    0xa2bfe8a1, 0xa81a664b, 0xc24b8b70, 0xc76c51a3, 0xd192e819, 0xd6990624, 0xf40e3585, 0x106aa070,
    0x19a4c116, 0x1e376c08, 0x2748774c, 0x34b0bcb5, 0x391c0cb3, 0x4ed8aa4a, 0x5b9cca4f, 0x682e6ff3,
    0x748f82ee, 0x78a5636f, 0x84c87814, 0x8cc70208, 0x90befffa, 0xa4506ceb, 0xbef9a3f7, 0xc67178f2};

using State = std::array<std::uint32_t, 8>;

static void take_block(State &state, const char *block) {
    std::uint32_t words[64];
    for (int i = 0; i < 16; i++) {
        words[i] = 0;
        for (int k = 0; k < 4; k++) words[i] = words[i] << 8 | static_cast<std::uint8_t>(block[4 * i + k]);
    }
    for (int i = 16; i < 64; i++) {
        const std::uint32_t x = words[i - 15], y = words[i - 2];
        const std::uint32_t small0 = std::rotr(x, 7) ^ std::rotr(x, 18) ^ x >> 3;
        const std::uint32_t small1 = std::rotr(y, 17) ^ std::rotr(y, 19) ^ y >> 10;
        words[i] = words[i - 16] + small0 + words[i - 7] + small1;
    }
    auto [a, b, c, d, e, f, g, h] = state;
    for (int i = 0; i < 64; i++) {
        const std::uint32_t large1 = std::rotr(e, 6) ^ std::rotr(e, 11) ^ std::rotr(e, 25);
        const std::uint32_t large0 = std::rotr(a, 2) ^ std::rotr(a, 13) ^ std::rotr(a, 22);
        const std::uint32_t one = h + large1 + ((e & f) ^ (~e & g)) + CONSTANTS[i] + words[i];
        const std::uint32_t two = large0 + ((a & b) ^ (a & c) ^ (b & c));
        h = g; g = f; f = e; e = d + one;
        d = c; c = b; b = a; a = one + two;
    }
    const State more = {a, b, c, d, e, f, g, h};
    for (int i = 0; i < 8; i++) state[i] += more[i];
}

static Digest sha256(string_view text) {
    State state = {0x6a09e667, 0xbb67ae85, 0x3c6ef372, 0xa54ff53a, 0x510e527f, 0x9b05688c, 0x1f83d9ab, 0x5be0cd19};
    const size_t whole = text.size() / 64 * 64;
    for (size_t at = 0; at < whole; at += 64) take_block(state, text.data() + at);
    string rest(text.substr(whole));
    rest += '\x80';
    rest.append((120 - rest.size()) % 64, '\0');
    for (int shift = 56; shift >= 0; shift -= 8) rest += static_cast<char>(text.size() * 8 >> shift);
    for (size_t at = 0; at < rest.size(); at += 64) take_block(state, rest.data() + at);
    Digest digest;
    for (int i = 0; i < 32; i++) digest[i] = static_cast<std::uint8_t>(state[i / 4] >> (24 - i % 4 * 8));
    return digest;
}

// ---- paths: Nix Reference Manual, "Complete Store Path Calculation"

static const string_view DIGITS = "0123456789abcdfghijklmnpqrsvwxyz";

static string hex(const auto &bytes) {
    string text;
    for (const std::uint8_t byte : bytes) {
        text += "0123456789abcdef"[byte >> 4];
        text += "0123456789abcdef"[byte & 15];
    }
    return text;
}

static string store_path(const string &kind, const Digest &digest, const string &name) {
    Digest folded = sha256(kind + ":sha256:" + hex(digest) + ":/nix/store:" + name);
    for (int i = 20; i < 32; i++) folded[i - 20] ^= folded[i];
    string path = "/nix/store/";
    for (int place = 31; place >= 0; place--) {
        const int at = place * 5 / 8, next = at < 19 ? folded[at + 1] : 0;
        path += DIGITS[(folded[at] | next << 8) >> place * 5 % 8 & 31];
    }
    return path + "-" + name;
}

static string behind_colons(const auto &paths) {
    string text;
    for (const string &path : paths) text += ":" + path;
    return text;
}

static string hash_part(const string &path) { return path.substr(11, 32); }

static bool is_digit(char c) { return c >= '0' && c <= '9'; }

static bool is_letter_or_digit(char c) { return is_digit(c) || (c >= 'A' && c <= 'Z') || (c >= 'a' && c <= 'z'); }

static bool is_name_byte(char c) { return is_letter_or_digit(c) || string_view("+-._?=").find(c) != string_view::npos; }

static bool is_name(string_view name, size_t longest) {
    return !name.empty() && name.size() <= longest && name[0] != '.' && std::ranges::all_of(name, is_name_byte);
}
