/* redo.h for C++20: what is begun ends with its scope, bytes are spans or strings, and an answer that is not REDO_OK is thrown.
 *
 *     auto s = redo::store::open("accounts", {.create = redo_params_t{64, 1024, 1 << 20}});
 *     auto t = s.transaction();                   // an exception drops it
 *     s.put(0, "hello"), s.put(1, s.get(0) + "!");
 *     t.commit(), s.force();                      // from here on no crash loses them
 *
 * redo.h says what each call does. Link with -lredo.
 *
 * SPDX-License-Identifier: MIT OR Apache-2.0 */
#ifndef REDO_HPP
#define REDO_HPP
#include "redo.h"
#include <algorithm>
#include <chrono>
#include <filesystem>
#include <memory>
#include <optional>
#include <ranges>
#include <span>
#include <stdexcept>
#include <string>
#include <string_view>
#include <utility>
#include <vector>

namespace redo {

/* Why a call was not done: the number of redo.h, what it says in words, and the numbers beside it. */
struct error : std::runtime_error {
    int32_t code;
    redo_detail_t detail;
    error(int32_t number, const char *text, redo_detail_t beside) : runtime_error(text), code(number), detail(beside) {}
};

inline void check(const redo_t *db, int32_t answer) {
    if (answer == REDO_OK) return;
    if (answer == REDO_BUSY) throw error(answer, redo_strerror(answer), {});
    char text[160];
    redo_detail_t detail{};
    redo_last_detail(db, &detail);
    throw error(answer, redo_last_error(db, text, sizeof text), detail);
}

/* Bytes of the caller: a string, span, vector or std::array of bytes; of a literal, a char * or an array of char up to its 0. */
struct bytes {
    const void *at;
    std::size_t length;
    template <class C> requires std::same_as<std::remove_const_t<C>, char> bytes(C *const &text) : bytes(std::string_view(text)) {}
    template <size_t n> bytes(const char (&text)[n]) : at(text), length(std::min(std::string_view(text, n).find('\0'), n)) {}
    template <std::ranges::contiguous_range R> requires(sizeof(std::ranges::range_value_t<R>) == 1 && !std::same_as<std::remove_extent_t<R>, char>)
    bytes(const R &range) : at(std::ranges::data(range)), length(std::ranges::size(range)) {}
};

/* The value that such a call puts into room; it is made once more where that was too small. Without one where a key is not there. */
std::optional<std::string> found_value(const redo_t *db, auto &&call) {
    std::string value(256, '\0');
    for (uint64_t length = 0;;) {
        int32_t answer = call(value.data(), value.size(), &length);
        if (answer == REDO_NO_KEY) return std::nullopt;
        check(db, answer);
        bool whole = length <= value.size();
        value.resize(length);
        if (whole) return value;
    }
}
std::string value_of(const redo_t *db, auto &&call) { return found_value(db, call).value(); }

inline uint64_t counted(const redo_t *db, auto &&call) { uint64_t n = 0; return check(db, call(&n)), n; }

/* What is begun, and is given up at the end of the scope unless it was ended before. */
template <int32_t (*give_up)(redo_t *)> class scope {
  protected:
    redo_t *db;
    scope(redo_t *of, int32_t answer) : db(of) { check(of, answer); }
    void end(int32_t answer) { check(db, answer), db = nullptr; }

  public:
    scope(scope &&other) noexcept : db(std::exchange(other.db, nullptr)) {}
    ~scope() { db ? give_up(db) : REDO_OK; }
};

struct group : scope<redo_group_abort> {
    explicit group(redo_t *of) : scope(of, redo_begin(of)) {}
    group(redo_t *of, uint64_t room) : scope(of, redo_begin_room(of, room)) {}
    void end() { scope::end(redo_end(db)); }
};

struct transaction : scope<redo_txn_abort> {
    explicit transaction(redo_t *of) : scope(of, redo_txn_begin(of)) {}
    void commit() { ended(redo_txn_commit(db)); }     // REDO_LOG_FULL and REDO_BUSY alone leave it open
    void commit_lazily() { ended(redo_txn_commit_lazily(db)); }

  private:
    void ended(int32_t answer) { check(answer == REDO_LOG_FULL || answer == REDO_BUSY ? db : std::exchange(db, nullptr), answer); }
};

struct snapshot : scope<redo_snapshot_end> {
    explicit snapshot(redo_t *of) : scope(of, redo_snapshot_begin(of)) {}
    std::string get(uint32_t x) const { return value_of(db, [&](auto... room) { return redo_snapshot_get(db, x, room...); }); }
};

struct backup : scope<redo_backup_give_up> {
    backup(redo_t *of, const std::filesystem::path &folder) : scope(of, redo_backup_start(of, folder.c_str())) {}
    uint64_t copy(uint32_t count) { return counted(db, [&](uint64_t *n) { return redo_backup_copy(db, count, n); }); }
    /* copies what is left, and says how many commands there are */
    uint64_t finish() { uint64_t n = 0; return copy(UINT32_MAX), end(redo_backup_finish(db, &n)), n; }
};

using pair = std::pair<std::string, std::string>;

/* The pair at a place of those that were found last, which such a call gives; and all that a call finds. */
pair pair_at(redo_t *db, auto give, uint64_t place) {
    std::string key(64, '\0'), value(256, '\0');
    for (redo_lengths_t n{};;) {
        check(db, give(db, place, key.data(), key.size(), value.data(), value.size(), &n));
        bool whole = n.key <= key.size() && n.value <= value.size();
        key.resize(n.key), value.resize(n.value);
        if (whole) return {std::move(key), std::move(value)};
    }
}
std::vector<pair> all_pairs(redo_t *db, auto give, auto &&find) {
    std::vector<pair> pairs(counted(db, find));
    for (std::size_t i = 0; i < pairs.size(); i++) pairs[i] = pair_at(db, give, i);
    return pairs;
}

/* A map in a range of objects, by its three calls in redo.h. */
template <auto set_, auto delete_, auto get_> class basic_map {
  protected:
    redo_t *db;
    redo_range_t at;

  public:
    basic_map(redo_t *of, uint32_t low, uint32_t high) : db(of), at{low, high} {}
    void set(bytes key, bytes value) { check(db, set_(db, at, key.at, key.length, value.at, value.length)); }
    bool erase(bytes key) {                         // false where the key is not there
        int32_t answer = delete_(db, at, key.at, key.length);
        return answer == REDO_NO_KEY ? false : (check(db, answer), true);
    }
    std::optional<std::string> get(bytes key) const {
        return found_value(db, [&](auto... room) { return get_(db, at, key.at, key.length, room...); });
    }
};
using hash = basic_map<redo_hash_put, redo_hash_delete, redo_hash_get>;

struct tree : basic_map<redo_tree_insert, redo_tree_delete, redo_tree_get> {
    using basic_map::basic_map;
    std::vector<pair> range(bytes from, bytes to) const {    // by rising key, up to `to`
        return all_pairs(db, redo_tree_pair, [&](auto *n) { return redo_tree_range(db, at, from.at, from.length, to.at, to.length, n); });
    }
};

/* A map of wide pages. The empty `to` is its end; a cursor is a key, which may have been erased. */
class map : public basic_map<redo_map_set, redo_map_delete, redo_map_get> {
    std::vector<pair> found(auto find, bytes from, bytes to, uint32_t most) const {
        return all_pairs(db, redo_map_pair, [&](auto *n) { return find(db, at, from.at, from.length, to.at, to.length, most, n); });
    }
    std::optional<pair> beside(auto find, bytes key) const {
        redo_lengths_t n{};
        int32_t answer = find(db, at, key.at, key.length, nullptr, 0, nullptr, 0, &n);
        if (answer == REDO_NO_KEY) return std::nullopt;
        return check(db, answer), pair_at(db, redo_map_pair, 0);
    }

  public:
    using basic_map::basic_map;
    /* by rising key, the first ones; by falling key, the last ones; those whose keys begin so */
    std::vector<pair> range(bytes from = "", bytes to = "", uint32_t most = UINT32_MAX) const { return found(redo_map_range, from, to, most); }
    std::vector<pair> back(bytes from = "", bytes to = "", uint32_t most = UINT32_MAX) const { return found(redo_map_back, from, to, most); }
    std::vector<pair> prefix(bytes front, uint32_t most = UINT32_MAX) const {
        std::string end(static_cast<const char *>(front.at), front.length);
        while (!end.empty() && end.back() == '\xff') end.pop_back();
        if (!end.empty()) end.back()++;
        return range(front, end, most);
    }
    uint64_t count(bytes from = "", bytes to = "") const {
        return counted(db, [&](auto *n) { return redo_map_count(db, at, from.at, from.length, to.at, to.length, n); });
    }
    std::optional<pair> first() const { return next(""); }
    std::optional<pair> last() const { return prev(""); }
    std::optional<pair> next(bytes key) const { return beside(redo_map_next, key); }    // above a key
    std::optional<pair> prev(bytes key) const { return beside(redo_map_prev, key); }    // below it
};

/* How a store is opened: made with these numbers where there is none, waited for, only read, with upkeep; one that is made has pages. */
struct opening {
    std::optional<redo_params_t> create{};
    std::chrono::milliseconds wait{0};
    bool readonly = false, upkeep = false, pages = false;
};

/* A store that is open. It closes at the end of its scope, and forces nothing. What it has begun ends before it. One that was moved from is
 * none, and takes no call. */
class store {
    struct closes { void operator()(redo_t *db) const { redo_close(db), delete db; } };
    std::unique_ptr<redo_t, closes> own{new redo_t REDO_CLOSED};
    redo_t *db() const { return own.get(); }
    void made(int32_t answer) const { check(db(), answer); }

  public:
    static store open(const std::filesystem::path &folder, const opening &how = {}) {
        store s;
        uint32_t way = how.create.has_value() * REDO_OR_CREATE + how.readonly * REDO_TO_READ + how.pages * REDO_WITH_PAGES;
        auto wait = uint32_t(std::clamp<int64_t>(how.wait.count(), 0, UINT32_MAX));
        s.made(redo_open_with(s.db(), folder.c_str(), way, wait, how.create ? &*how.create : nullptr));
        if (how.upkeep) s.made(redo_upkeep(s.db(), 1));
        return s;
    }
    static store create(const std::filesystem::path &folder, redo_params_t p, bool pages = false) {
        store s;
        s.made((pages ? redo_create_pages : redo_create)(s.db(), folder.c_str(), p.objects, p.cap, p.limit));
        return s;
    }
    redo_t *handle() const { return db(); }         // for the other calls of redo.h
    void put(uint32_t x, bytes value) { made(redo_put(db(), x, value.at, value.length)); }
    std::string get(uint32_t x) const { return value_of(db(), [&](auto... room) { return redo_get(db(), x, room...); }); }
    uint64_t get(uint32_t x, std::span<std::byte> into) const {     // as much as there is room for, and how long it is
        uint64_t length = 0;
        return made(redo_get(db(), x, into.data(), into.size(), &length)), length;
    }
    void copy(uint32_t from, uint32_t to) { made(redo_copy(db(), from, to)); }
    void append(uint32_t from, uint32_t to) { made(redo_append(db(), from, to)); }
    void cut(uint32_t from, uint32_t to, uint32_t place) { made(redo_cut(db(), from, to, place)); }
    void sort(uint32_t from, uint32_t to, uint32_t width) { made(redo_sort(db(), from, to, width)); }
    void swap(uint32_t first, uint32_t second) { made(redo_swap(db(), first, second)); }
    uint64_t force() { return counted(db(), [&](uint64_t *n) { return redo_force(db(), n); }); }
    uint64_t tend(uint64_t most) { return counted(db(), [&](uint64_t *n) { return redo_tend(db(), most, n); }); }
    void drain() { made(redo_drain(db())); }
    void trim() { made(redo_trim(db())); }
    redo_stat_t stat() const { redo_stat_t s; return made(redo_stat(db(), &s)), s; }
    redo_params_t params() const { redo_params_t p; return made(redo_params(db(), &p)), p; }
    [[nodiscard]] redo::group group() { return redo::group(db()); }
    [[nodiscard]] redo::group group(uint64_t room) { return {db(), room}; }
    [[nodiscard]] redo::transaction transaction() { return redo::transaction(db()); }
    [[nodiscard]] redo::snapshot snapshot() const { return redo::snapshot(db()); }
    [[nodiscard]] redo::backup backup(const std::filesystem::path &folder) { return {db(), folder}; }
    redo::tree tree(uint32_t low, uint32_t high) const { return {db(), low, high}; }
    redo::hash hash(uint32_t low, uint32_t high) const { return {db(), low, high}; }
    redo::map map(uint32_t low, uint32_t high) const { return {db(), low, high}; }
};
}
#endif
