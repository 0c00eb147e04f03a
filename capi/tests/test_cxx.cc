/* redo.hpp: test_cxx FOLDER, an empty one. */
#include "../redo.hpp"
#include <array>
#include <cstdio>
#include <cstdlib>
#include <filesystem>
#include <map>
#include <random>

static void want(bool is_so, int line) {
    if (is_so) return;
    std::fprintf(stderr, "test_cxx.cc:%d\n", line);
    std::exit(1);
}
#define WANT(is_so) want(is_so, __LINE__)
template <typename Call> static redo::error thrown(int32_t code, Call &&call, int line) {
    try {
        call();
    } catch (const redo::error &e) {
        if (e.code != code) std::fprintf(stderr, "%d: %s\n", e.code, e.what());
        want(e.code == code, line);
        return e;
    }
    want(false, line), std::abort();
}
#define THROWN(code, call) thrown(code, [&] { call; }, __LINE__)

static redo::store moved(redo::store s) { return s; }

/* A map of wide pages beside a std::map. */
using model_t = std::map<std::string, std::string>;
static std::optional<redo::pair> at(const model_t &model, model_t::const_iterator i) {
    return i == model.end() ? std::nullopt : std::optional<redo::pair>(*i);
}
static std::optional<redo::pair> before(const model_t &model, model_t::const_iterator i) {
    return i == model.begin() ? std::nullopt : at(model, std::prev(i));
}
static bool is_as(const redo::map &map, const model_t &model, const std::string &key) {
    const std::vector<redo::pair> all(model.begin(), model.end()), back(model.rbegin(), model.rend());
    model_t prefix;
    std::ranges::copy_if(model, std::inserter(prefix, prefix.end()), [&](auto &p) { return p.first.starts_with(key); });
    return map.range() == all && map.back() == back && map.count() == all.size() && map.range(key) == std::vector<redo::pair>(model.lower_bound(key), model.end()) &&
           map.prefix(key) == std::vector<redo::pair>(prefix.begin(), prefix.end()) && map.first() == at(model, model.begin()) &&
           map.last() == before(model, model.end()) && map.next(key) == at(model, model.upper_bound(key)) &&
           map.prev(key) == before(model, model.lower_bound(key));
}
static void maps(const std::filesystem::path &folder) {
    const redo_params_t numbers{128, 1024, 1 << 20};
    std::filesystem::create_directory(folder), std::filesystem::create_directory(folder / "plain");
    {
        auto plain = redo::store::create(folder / "plain", numbers);
        THROWN(REDO_NO_PAGES, plain.map(0, 127).set("k", "v"));
        THROWN(REDO_BAD_WAY, redo::store::open(folder, {.pages = true}));
    }
    model_t model;
    std::mt19937 dice(1);
    auto text = [&](std::size_t most) {
        std::string made(dice() % most + 1, '\0');
        for (char &c : made) c = "\0ab\xff"[dice() % 4];
        return made;
    };
    for (int round = 0; round < 3; round++) {
        auto s = redo::store::open(folder, {.create = numbers, .upkeep = true, .pages = true});
        auto map = s.map(1, 127);
        WANT(is_as(map, model, text(3)));
        for (int i = 0; i < 700; i++) {
            std::string key = text(i % 50 ? 4 : 120), value(dice() % 3 ? dice() % 40 : 256, char(i));
            if (dice() % 3) map.set(key, value), model[key] = value;
            else WANT(map.erase(key) == (model.erase(key) == 1));
            WANT(map.get(key) == (model.contains(key) ? std::optional(model[key]) : std::nullopt));
            if (i % 70 == 0) WANT(is_as(map, model, text(3)));
        }
        WANT(map.range("a", "b", 2).size() == 2 && map.back("a", "", 1)[0] == redo::pair(*model.rbegin()));
        THROWN(REDO_TOO_LONG, map.set("", "v")), THROWN(REDO_TOO_LONG, map.set("k", std::string(257, 'v')));
        s.force();
    }
    auto reader = redo::store::open(folder, {.readonly = true});
    WANT(is_as(reader.map(1, 127), model, "a"));
    THROWN(REDO_READ_ONLY, reader.map(1, 127).set("k", "v"));
}

int main(int argc, char **argv) {
    const std::filesystem::path folder = argc > 1 ? argv[1] : ".";
    const redo_params_t numbers{64, 1024, 65536};
    WANT(std::string(THROWN(REDO_NO_FOLDER, redo::store::open(folder / "none")).what()).ends_with("No such file or directory"));
    THROWN(REDO_NOT_A_STORE, redo::store::open(folder));
    THROWN(REDO_BAD_PARAMS, redo::store::create(folder, {}));
    {
        auto s = moved(redo::store::open(folder, {.create = numbers, .upkeep = true}));
        WANT(s.params().cap == 1024);
        s.put(0, "hello"), s.put(1, s.get(0) + "!"), s.put(2, std::string_view("a\0b", 3)), s.put(3, std::vector<std::byte>(600));
        s.put(4, std::array<unsigned char, 2>{'x', 'y'}), s.put(5, "");
        WANT(s.get(1) == "hello!" && s.get(2).size() == 3 && s.get(3) == std::string(600, '\0') && s.get(4) == "xy" && s.get(5).empty());
        std::array<std::byte, 2> room;
        WANT(s.get(0, room) == 5 && room[1] == std::byte{'e'});
        s.copy(0, 6), s.append(4, 6), s.cut(6, 7, 5), s.swap(6, 7), s.sort(7, 8, 1);
        WANT(s.get(6) == "xy" && s.get(7) == "hello" && s.get(8) == "ehllo");
        THROWN(REDO_SAME, s.swap(1, 1)), THROWN(REDO_LOCKED, redo::store::open(folder, {.wait = std::chrono::milliseconds(5)}));
        WANT(s.force() == s.stat().accepted);

        try {
            auto g = s.group();
            s.put(0, "lost");
            WANT(THROWN(REDO_IN_GROUP, s.force()).detail.first == 1);
            throw 1;
        } catch (int) {}
        WANT(s.get(0) == "hello");
        { auto g = s.group(1000); s.put(0, "kept"); g.end(); }
        WANT(THROWN(REDO_LOG_FULL, auto g = s.group(65536)).detail.third == 65536);
        { auto t = s.transaction(); s.put(0, "lost"); WANT(s.get(0) == "lost"); }
        { auto t = s.transaction(); s.put(0, "one"); t.commit(); }
        { auto t = s.transaction(); s.put(1, "two"); t.commit_lazily(); }
        WANT(s.get(0) == "one" && s.get(1) == "two");
        {
            auto old = s.snapshot();
            s.put(0, "new"), THROWN(REDO_IN_SNAPSHOT, auto other = s.snapshot());
            WANT(old.get(0) == "one" && s.get(0) == "new");
        }
        auto tree = s.tree(16, 31);
        auto hash = s.hash(32, 47);
        tree.set("b", "2"), tree.set("a", "1"), hash.set("c", "3");
        WANT(tree.get("a") == "1" && !tree.get("x") && hash.get("c") == "3" && hash.erase("c") && !hash.erase("c"));
        auto pairs = tree.range("a", "z");
        WANT(pairs.size() == 2 && pairs[0].first == "a" && pairs[1].second == "2");
        THROWN(REDO_BAD_KEY, tree.set("", "v")), THROWN(REDO_NO_OBJECT, s.get(64));

        std::filesystem::create_directory(folder / "copy");
        { auto b = s.backup(folder / "copy"); WANT(b.copy(10) == 10); THROWN(REDO_IN_BACKUP, s.trim()); }
        { auto b = s.backup(folder / "copy"); WANT(b.finish() == s.stat().accepted); }
        s.drain(), s.trim(), WANT(s.tend(1) == 0);
    }
    auto reader = redo::store::open(folder / "copy", {.readonly = true}), other = redo::store::open(folder / "copy", {.readonly = true});
    WANT(reader.get(0) == "new" && other.tree(16, 31).get("b") == "2");
    THROWN(REDO_READ_ONLY, reader.put(0, "x")), THROWN(REDO_BAD_WAY, redo::store::open(folder, {.create = numbers, .readonly = true}));
    maps(folder / "maps");
    std::puts("test_cxx: ok");
}
