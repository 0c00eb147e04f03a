// The work that bench/table measures, on LMDB or LevelDB: `peers lmdb|leveldb WORK N EVERY LENGTH` in a folder of its own.
// A key is four bytes, an object's number; what is written is made stable after each EVERY operations (0: at the end).
// Needs their headers and libraries (Debian: liblmdb-dev, libleveldb-dev); bench/table builds it with what is there.
#include <algorithm>
#include <cstdint>
#include <cstdio>
#include <cstdlib>
#include <cstring>
#include <functional>
#include <memory>
#include <random>
#include <string>
#include <vector>
#ifdef WITH_LMDB
#include <lmdb.h>
#endif
#ifdef WITH_LEVELDB
#include <leveldb/db.h>
#include <leveldb/write_batch.h>
#endif

// What the work needs of a database: values are read as they are, written ones are stable after `commit`.
struct Store {
  virtual ~Store() = default;
  virtual std::string get(const std::string &key) = 0;
  virtual void put(const std::string &key, const std::string &value) = 0;
  virtual void commit() = 0;
  virtual size_t count(const std::string &from, const std::string &to) = 0;
  // Copies the database into the folder `copy`; false where it has no such call.
  virtual bool backup() { return false; }
};

[[noreturn]] static void fail(const char *what) {
  std::fprintf(stderr, "peers: %s failed\n", what);
  std::exit(1);
}

#ifdef WITH_LMDB
struct Lmdb : Store {
  MDB_env *env = nullptr;
  MDB_txn *txn = nullptr;
  MDB_dbi dbi = 0;

  Lmdb() {
    if (mdb_env_create(&env) || mdb_env_set_mapsize(env, size_t{1} << 32) || mdb_env_open(env, ".", 0, 0644)) fail("open");
    begin();
    if (mdb_dbi_open(txn, nullptr, 0, &dbi)) fail("open");
  }
  ~Lmdb() override {
    mdb_txn_abort(txn);
    mdb_env_close(env);
  }
  void begin() {
    if (mdb_txn_begin(env, nullptr, 0, &txn)) fail("begin");
  }
  bool backup() override {
    // (a copy waits for the writer, which is this one)
    mdb_txn_abort(txn);
    const bool done = mdb_env_copy(env, "copy") == 0;
    begin();
    return done;
  }
  static MDB_val bytes_of(const std::string &s) { return MDB_val{s.size(), const_cast<char *>(s.data())}; }
  std::string get(const std::string &key) override {
    MDB_val k = bytes_of(key), v;
    return mdb_get(txn, dbi, &k, &v) ? std::string() : std::string(static_cast<char *>(v.mv_data), v.mv_size);
  }
  void put(const std::string &key, const std::string &value) override {
    MDB_val k = bytes_of(key), v = bytes_of(value);
    if (mdb_put(txn, dbi, &k, &v, 0)) fail("put");
  }
  void commit() override {
    if (mdb_txn_commit(txn)) fail("commit");
    begin();
  }
  size_t count(const std::string &from, const std::string &to) override {
    MDB_cursor *cursor;
    if (mdb_cursor_open(txn, dbi, &cursor)) fail("cursor");
    MDB_val k = bytes_of(from), v;
    size_t n = 0;
    for (int rc = mdb_cursor_get(cursor, &k, &v, MDB_SET_RANGE); rc == 0; rc = mdb_cursor_get(cursor, &k, &v, MDB_NEXT)) {
      if (std::string(static_cast<char *>(k.mv_data), k.mv_size) >= to) break;
      n++;
    }
    mdb_cursor_close(cursor);
    return n;
  }
};
#endif

#ifdef WITH_LEVELDB
struct LevelDb : Store {
  std::unique_ptr<leveldb::DB> db;
  leveldb::WriteBatch batch;

  LevelDb() {
    leveldb::Options options;
    options.create_if_missing = true;
    leveldb::DB *opened = nullptr;
    if (!leveldb::DB::Open(options, ".", &opened).ok()) fail("open");
    db.reset(opened);
  }
  // (a batch is not seen by reads until it is written, so it is written without a sync first)
  std::string get(const std::string &key) override {
    flush(false);
    std::string value;
    db->Get(leveldb::ReadOptions(), key, &value);
    return value;
  }
  void put(const std::string &key, const std::string &value) override { batch.Put(key, value); filled = true; }
  void commit() override { flush(true); }
  size_t count(const std::string &from, const std::string &to) override {
    flush(false);
    std::unique_ptr<leveldb::Iterator> it(db->NewIterator(leveldb::ReadOptions()));
    size_t n = 0;
    for (it->Seek(from); it->Valid() && it->key().ToString() < to; it->Next()) n++;
    return n;
  }

 private:
  bool filled = false;
  void flush(bool sync) {
    if (!filled && !sync) return;
    leveldb::WriteOptions how;
    how.sync = sync;
    if (!db->Write(how, &batch).ok()) fail("write");
    batch.Clear();
    filled = false;
  }
};
#endif

static std::string key_of(uint32_t object) {
  return {char(object >> 24), char(object >> 16), char(object >> 8), char(object)};
}

static std::string sorted(const std::string &value) {
  std::vector<std::string> records;
  for (size_t at = 0; at + 8 <= value.size(); at += 8) records.push_back(value.substr(at, 8));
  std::sort(records.begin(), records.end());
  std::string all;
  for (const auto &record : records) all += record;
  return all;
}

// the I-th operation of a kind of work, on values of so many bytes
static void operate(Store &store, const std::string &work, long i, size_t length, std::mt19937_64 &random) {
  if (work == "mixed") {
    if (i % 2) store.put(key_of(i % 64), std::string(1, char(i)));
    else store.get(key_of((i - 1) % 64));
  } else if (work == "puts") {
    store.put(key_of(i % 4000), std::string(length, char(i)));
  } else if (work == "copy") {
    store.put(key_of(4 + i % 60), store.get(key_of(0)));
  } else if (work == "sort") {
    store.put(key_of(4 + i % 60), sorted(store.get(key_of(0))));
  } else if (work == "swap") {
    std::string first = store.get(key_of(0)), second = store.get(key_of(4 + i % 60));
    store.put(key_of(0), second);
    store.put(key_of(4 + i % 60), first);
  } else if (work == "index") {
    uint64_t key = random(), value = random();
    store.put(std::string(reinterpret_cast<char *>(&key), 8), std::string(reinterpret_cast<char *>(&value), 8));
  } else {
    fail("the work");
  }
}

int main(int words, char **word) {
  if (words != 6) fail("the words");
  std::unique_ptr<Store> store;
#ifdef WITH_LMDB
  if (std::string(word[1]) == "lmdb") store = std::make_unique<Lmdb>();
#endif
#ifdef WITH_LEVELDB
  if (std::string(word[1]) == "leveldb") store = std::make_unique<LevelDb>();
#endif
  if (!store) fail("the database");
  const std::string work = word[2];
  const long count = std::atol(word[3]), every = std::atol(word[4]);
  const size_t length = std::atol(word[5]);
  std::mt19937_64 random(7);
  if (work == "open") {
    std::printf("%zu\n", store->count(key_of(0), key_of(UINT32_MAX)));
    return 0;
  }
  if (work == "backup") {
    if (!store->backup()) fail("the copy");
    return 0;
  }
  for (uint32_t x = 0; work != "index" && work != "puts" && x < 64; x++) store->put(key_of(x), std::string(length, 'a'));
  for (long i = 1; i <= count; i++) {
    operate(*store, work, i, length, random);
    if (every && i % every == 0) store->commit();
  }
  store->commit();
  return 0;
}
