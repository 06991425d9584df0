// A plain store, beside which bench/plain measures the proved one: plain FILE
//
// It answers the lines of a file as `intstore replay` does, where they name users, or are sources, fetches, derivations
// and offers that are taken. At any other line, and at one that would be refused, it says why and ends with status 1.
// It keeps what each user has in hash tables, and nothing else.
#include <algorithm>
#include <fstream>
#include <iostream>
#include <map>
#include <optional>
#include <ranges>
#include <set>
#include <unordered_map>
#include <vector>

#include "derivations.h"
#include "trees.h"

// ---- desks: docs/events.md

// What an output refers to: paths, each with the class for which it is there, or with nothing for a source.
using Labels = std::map<string, string>;

struct Derivation {
    string name, output_class, mask;
    std::vector<string> input_classes;
    int rank = 1;
};

// A path, and a class where there is one.
struct Told {
    string path, output_class;
    auto operator<=>(const Told &) const = default;
};

class Desk {
    std::unordered_map<string, string> trees;    // the texts of trees, by path
    std::unordered_map<string, string> sources;  // paths, by hash part
    std::unordered_map<string, Derivation> derivations;
    std::unordered_map<string, std::map<string, std::vector<Labels>>> records;  // by class and path
    size_t count_of_records = 0, charge = 0;

    void hold(const string &path, const Tree &tree) {
        if (!trees.emplace(path, tree.text).second) return;
        charge += tree.archive.size();
        need(charge <= 1 << 30, "archives of more than 1 GiB");
    }

    void record(const Told &output, const Labels &labels, const Tree &tree) {
        auto &known = records[output.output_class][output.path];
        if (std::ranges::find(known, labels) != known.end()) return;
        known.push_back(labels);
        need(++count_of_records <= 4096, "more than 4,096 records");
        hold(output.path, tree);
    }

    const Derivation &derivation_at(const string &path) const {
        const auto found = derivations.find(path);
        need(found != derivations.end(), "no derivation on the desk");
        return found->second;
    }

    Derivation admitted(const Parts &parts, string_view text) const {
        Derivation made = {parts.name, "", "", {}};
        std::multiset<string> masks;
        for (const string &input : parts.inputs) {
            const Derivation &known = derivation_at(input);
            masks.insert(known.mask);
            made.input_classes.push_back(known.output_class);
            made.rank = std::max(made.rank, known.rank + 1);
        }
        for (const string &source : parts.sources) {
            const auto known = sources.find(hash_part(source));
            need(known != sources.end() && known->second == source, "no source on the desk");
        }
        need(made.rank <= 64, "a rank over 64");
        string inputs;
        for (const string &mask : masks) inputs += (inputs.empty() ? "(\"" : ",(\"") + mask + "\",[\"out\"])";
        const Digest digest = sha256(HEAD + "[" + inputs + "]" + string(text.substr(parts.end_of_inputs)));
        made.mask = hex(digest);
        made.output_class = store_path("output:out", digest, made.name);
        return made;
    }

    // What an output of a derivation may refer to beside sources, by hash part, each path with the least of its classes:
    // the outputs for the inputs, and those to which they refer, directly or through others.
    std::unordered_map<string, Told> candidates(const Derivation &derivation) const {
        std::set<Told> found;
        std::vector<Told> ahead;
        const auto reach = [&](const string &path, const string &output_class) {
            if (found.insert({path, output_class}).second) ahead.push_back({path, output_class});
        };
        for (const string &input : derivation.input_classes)
            if (const auto known = records.find(input); known != records.end())
                for (const string &path : known->second | std::views::keys) reach(path, input);
        while (!ahead.empty()) {
            const Told output = ahead.back();
            ahead.pop_back();
            for (const Labels &labels : records.at(output.output_class).at(output.path))
                for (const auto &[path, output_class] : labels)
                    if (!output_class.empty()) reach(path, output_class);
        }
        std::unordered_map<string, Told> least;
        for (const Told &output : found) least.try_emplace(hash_part(output.path), output);
        return least;
    }

  public:
    Told add_source(const string &name, string_view word) {
        need(is_name(name, 211), "a name");
        const Tree tree = read_tree(word);
        const string path = store_path("source", sha256(tree.archive), name);
        if (sources.try_emplace(hash_part(path), path).second) hold(path, tree);
        need(sources.size() <= 1024, "more than 1,024 sources");
        return {path, ""};
    }

    const string &fetch(const string &path) const {
        const auto found = trees.find(path);
        need(found != trees.end(), "no tree on the desk");
        return found->second;
    }

    Told add_derivation(string_view text) {
        const Parts parts = read_derivation(text);
        std::set<string> references(parts.inputs.begin(), parts.inputs.end());
        references.insert(parts.sources.begin(), parts.sources.end());
        const string path = store_path("text" + behind_colons(references), sha256(text), parts.name + ".drv");
        if (!derivations.contains(path)) derivations.emplace(path, admitted(parts, text));
        need(derivations.size() <= 1024, "more than 1,024 derivations");
        return {path, derivations.at(path).output_class};
    }

    Told offer(const string &file, string_view word) {
        const Derivation &derivation = derivation_at(file);
        Tree tree = read_tree(word);
        const string own = hash_part(derivation.output_class);
        const auto outputs = candidates(derivation);
        const Sought is_sought = [&](const string &part) {
            return part == own || outputs.contains(part) || sources.contains(part);
        };
        const std::vector<Place> places = find(tree, is_sought);
        Labels labels;
        string itself;
        for (const Place &place : places) {
            const auto output = outputs.find(place.part);
            if (place.part == own) itself = ":self";
            else if (output != outputs.end()) labels.emplace(output->second.path, output->second.output_class);
            else labels.emplace(sources.at(place.part), "");
        }
        const string kind = "source" + behind_colons(std::views::keys(labels)) + itself;
        const string path = store_path(kind, modulo_digest(tree.archive, places, own), derivation.name);
        put(tree, places, own, hash_part(path), is_sought);
        record({path, derivation.output_class}, labels, tree);
        return {path, ""};
    }
};

// ---- lines: docs/lines.md

static bool is_printed(char c) { return c >= ' ' && c <= '~'; }

static bool is_user_byte(char c) { return is_digit(c) || (c >= 'a' && c <= 'z'); }

static bool is_user(string_view name) {
    return !name.empty() && name.size() <= 32 && !is_digit(name[0]) && std::ranges::all_of(name, is_user_byte);
}

// What stands before the first blank; the text goes on behind it.
static string first_word(string_view &text) {
    const size_t end = text.find(' ');
    need(end != string_view::npos, "a word is missing");
    const string word(text.substr(0, end));
    text.remove_prefix(end + 1);
    return word;
}

class Session {
    std::unordered_map<string, Desk> desks;
    std::vector<Told> told;  // by the reply to each line until now

    // What stands for a text between braces, where anything does.
    std::optional<string> expansion(string_view text) const {
        if (text.size() < 2 || text.size() > 10 || string_view("phcg").find(text[0]) == string_view::npos) return {};
        const string number(text.substr(1));
        if (number[0] == '0' || !std::ranges::all_of(number, is_digit) || std::stoul(number) > told.size()) return {};
        const auto &[path, output_class] = told[std::stoul(number) - 1];
        const string &named = text[0] == 'p' || text[0] == 'h' ? path : output_class;
        need(!named.empty(), "an expansion of a reply that has no such path");
        return text[0] == 'p' || text[0] == 'c' ? named : hex(hash_part(named));
    }

    string expanded(string_view line) const {
        string text;
        for (size_t at; (at = line.find('{')) != string_view::npos;) {
            text += line.substr(0, at);
            line.remove_prefix(at + 1);
            const size_t end = line.find('}');
            const auto found = end == string_view::npos ? std::nullopt : expansion(line.substr(0, end));
            text += found.value_or("{");
            if (found) line.remove_prefix(end + 1);
        }
        return text.append(line);
    }

    void name_users(string_view line) {
        need(first_word(line) == "users", "no line of users");
        for (const auto &name : std::views::split(line, ' ')) {
            const string user(name.begin(), name.end());
            need(is_user(user) && desks.try_emplace(user).second, "an ill-formed list of users");
        }
        need(desks.size() <= 64, "more than 64 users");
    }

    // The user and the reply. What the reply tells is kept.
    string reply(string_view line) {
        if (desks.empty()) {
            name_users(line);
            return "- ok";
        }
        const string user = first_word(line), verb = first_word(line);
        need(user != "users" && desks.contains(user), "an unknown user");
        Desk &desk = desks.at(user);
        Told &now = told.back();
        if (verb == "fetch") return user + " tree " + desk.fetch(string(line));
        if (verb == "derivation") {
            now = desk.add_derivation(line);
            return user + " drv " + now.path + " class " + now.output_class;
        }
        need(verb == "source" || verb == "offer", "an unknown verb");
        const string word = first_word(line);
        now = verb == "source" ? desk.add_source(word, line) : desk.offer(word, line);
        return user + " path " + now.path;
    }

  public:
    void take(const string &line) {
        need(line.size() <= 1 << 28, "a line of more than 256 MiB");
        const bool has_reply = !line.empty() && line[0] != '#';
        need(!has_reply || std::ranges::all_of(line, is_printed), "a byte outside 32 to 126");
        const string text = has_reply ? expanded(line) : "";
        told.emplace_back();
        if (!has_reply) return;
        const string answer = reply(text);
        std::cout << told.size() << ' ' << answer << '\n';
    }
};

int main(int count, char **words) {
    if (count != 2) {
        std::cerr << "plain FILE\n";
        return 2;
    }
    std::ios::sync_with_stdio(false);
    size_t number = 0;
    try {
        std::ifstream file(words[1]);
        need(file.is_open(), "a file that cannot be read");
        Session session;
        for (string line; std::getline(file, line); session.take(line)) number++;
        need(!file.bad() && std::cout.flush(), "a fault of the reader or the writer");
    } catch (const std::exception &why) {
        std::cout.flush();
        std::cerr << "plain: line " << number << ": " << why.what() << '\n';
        return 1;
    }
}
