// Reading a text from the left.
#pragma once

#include <string_view>

#include "paths.h"

struct Reader {
    string_view text;
    size_t at = 0;

    bool skip(string_view tag) {
        const bool is_here = text.substr(at, tag.size()) == tag;
        if (is_here) at += tag.size();
        return is_here;
    }

    void expect(string_view tag) { need(skip(tag), "an ill-formed text"); }
};
