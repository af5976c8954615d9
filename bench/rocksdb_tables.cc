// External tables by RocksDB's own writer and reader, for comparison: build text in, tables out, and back.
//
//   rocksdb_tables build TABLE [OPTION ..]        reads build text from standard input
//   rocksdb_tables show TABLE [verify]            writes the table's values as build text; verifies all sums first
//   rocksdb_tables ingest FOLDER TABLE [TEXT]     ingests the table into a new store, and writes the values of the store;
//                                                 the store has older values for the keys of TEXT
//   rocksdb_tables flush FOLDER                   reads build text, and flushes it from a new store
//
// The options of a table are `block_size N`, `restart N` and `filter`; and these, which the program refuses: `version N`,
// `xxh3`, `compressed`, `hash_index`, `partitioned_index`, `first_key_index`, `hash_blocks`, `range`, `merge`, `reverse`.
//
// Build text is what the program's `build` reads. Readers of RocksDB pass over tombstones, so `show` and `ingest` write the
// keys that have a value. Where RocksDB refuses, a line goes to standard error and the status is 1.
#include <rocksdb/comparator.h>
#include <rocksdb/db.h>
#include <rocksdb/filter_policy.h>
#include <rocksdb/options.h>
#include <rocksdb/slice_transform.h>
#include <rocksdb/sst_file_reader.h>
#include <rocksdb/sst_file_writer.h>
#include <rocksdb/table.h>

#include <cstdio>
#include <cstdlib>
#include <cstring>
#include <memory>
#include <string>

namespace {

using rocksdb::Slice;
using rocksdb::Status;

// The key that makes a store non-empty before a table is ingested. RocksDB 7.8 stops at an assertion where the first
// table of a family has rocksdb.num.entries but neither rocksdb.raw.key.size nor rocksdb.raw.value.size.
const char kFirst[] = "\xff\xff first";

void stop_unless(const Status& status, const char* what) {
  if (!status.ok()) {
    std::fprintf(stderr, "%s: %s\n", what, status.ToString().c_str());
    std::exit(1);
  }
}

std::string all_of(std::FILE* file) {
  std::string text;
  size_t size = 0;
  for (;;) {
    text.resize(size + (1 << 20));
    size_t got = std::fread(&text[size], 1, text.size() - size, file);
    size += got;
    if (got == 0) break;
  }
  text.resize(size);
  return text;
}

unsigned digit_of(char c) { return c <= '9' ? c - '0' : c - 'a' + 10; }

// The bytes that a word spells: `\xhh` is a byte, `\e` alone is no byte, and others stand for themselves. A word without
// a backslash is its own bytes; others are spelled out in `room`.
Slice bytes_of(const Slice& word, std::string* room) {
  if (std::memchr(word.data(), '\\', word.size()) == nullptr) return word;
  room->clear();
  if (word == Slice("\\e")) return Slice(*room);
  for (size_t i = 0; i < word.size(); ++i) {
    if (word[i] == '\\') {
      room->push_back(static_cast<char>(digit_of(word[i + 2]) * 16 + digit_of(word[i + 3])));
      i += 3;
    } else {
      room->push_back(word[i]);
    }
  }
  return Slice(*room);
}

void put_word(std::string* out, const Slice& bytes) {
  static const char digits[] = "0123456789abcdef";
  if (bytes.empty()) out->append("\\e");
  for (size_t i = 0; i < bytes.size(); ++i) {
    unsigned char b = static_cast<unsigned char>(bytes[i]);
    if (b >= 0x21 && b <= 0x7e && b != '\\' && b != '=') {
      out->push_back(static_cast<char>(b));
    } else {
      out->append("\\x");
      out->push_back(digits[b >> 4]);
      out->push_back(digits[b & 15]);
    }
  }
}

void put_line(std::string* out, const Slice& key, const Slice& value) {
  out->append("put ");
  put_word(out, key);
  out->push_back(' ');
  put_word(out, value);
  out->push_back('\n');
}

// Calls put(key, value) or gone(key) for each line.
template <class Put, class Gone>
void each_line(const std::string& text, Put put, Gone gone) {
  std::string key_room, value_room;
  const char* at = text.data();
  const char* end = at + text.size();
  while (at < end) {
    const char* line_end = static_cast<const char*>(std::memchr(at, '\n', end - at));
    const char* key = at + 4;
    if (*at == 'p') {
      const char* key_end = static_cast<const char*>(std::memchr(key, ' ', line_end - key));
      const char* value = key_end + 1;
      put(bytes_of(Slice(key, key_end - key), &key_room), bytes_of(Slice(value, line_end - value), &value_room));
    } else {
      gone(bytes_of(Slice(key, line_end - key), &key_room));
    }
    at = line_end + 1;
  }
}

// How a table is written. The profile has format version 2, CRC-32C and no compression.
struct Settings {
  rocksdb::BlockBasedTableOptions table;
  rocksdb::Options options;
  bool merges = false;
  bool deletes_range = false;

  Settings() {
    table.format_version = 2;
    table.checksum = rocksdb::kCRC32c;
    options.compression = rocksdb::kNoCompression;
  }

  void set(const std::string& word, const char* next) {
    using Table = rocksdb::BlockBasedTableOptions;
    unsigned number = static_cast<unsigned>(std::strtoul(next == nullptr ? "" : next, nullptr, 10));
    if (word == "block_size") table.block_size = number;
    if (word == "restart") table.block_restart_interval = static_cast<int>(number);
    if (word == "filter") table.filter_policy.reset(rocksdb::NewBloomFilterPolicy(10));
    if (word == "version") table.format_version = number;
    if (word == "xxh3") table.checksum = rocksdb::kXXH3;
    if (word == "compressed") options.compression = rocksdb::kZlibCompression;
    if (word == "hash_index") table.index_type = Table::kHashSearch;
    if (word == "hash_index") options.prefix_extractor.reset(rocksdb::NewFixedPrefixTransform(1));
    if (word == "partitioned_index") table.index_type = Table::kTwoLevelIndexSearch;
    if (word == "first_key_index") table.index_type = Table::kBinarySearchWithFirstKey;
    if (word == "hash_blocks") table.data_block_index_type = Table::kDataBlockBinaryAndHash;
    if (word == "range") deletes_range = true;
    if (word == "merge") merges = true;
    if (word == "reverse") options.comparator = rocksdb::ReverseBytewiseComparator();
  }

  const rocksdb::Options& whole() {
    options.table_factory.reset(rocksdb::NewBlockBasedTableFactory(table));
    return options;
  }
};

int build(int count, char** words) {
  Settings settings;
  for (int i = 3; i < count; ++i) settings.set(words[i], i + 1 < count ? words[i + 1] : nullptr);
  std::string text = all_of(stdin);
  rocksdb::SstFileWriter writer(rocksdb::EnvOptions(), settings.whole());
  stop_unless(writer.Open(words[2]), "open");
  each_line(
      text,
      [&](const Slice& key, const Slice& value) {
        stop_unless(settings.merges ? writer.Merge(key, value) : writer.Put(key, value), "put");
      },
      [&](const Slice& key) { stop_unless(writer.Delete(key), "delete"); });
  if (settings.deletes_range) stop_unless(writer.DeleteRange("y", "z"), "delete range");
  stop_unless(writer.Finish(), "finish");
  return 0;
}

void put_all(std::string* out, rocksdb::Iterator* rows) {
  for (rows->SeekToFirst(); rows->Valid(); rows->Next()) {
    if (rows->key() != Slice(kFirst)) put_line(out, rows->key(), rows->value());
  }
  stop_unless(rows->status(), "read");
}

int show(int count, char** words) {
  Settings settings;
  rocksdb::SstFileReader reader(settings.whole());
  stop_unless(reader.Open(words[2]), "open");
  if (count > 3) stop_unless(reader.VerifyChecksum(), "checksum");
  std::string out;
  std::unique_ptr<rocksdb::Iterator> rows(reader.NewIterator(rocksdb::ReadOptions()));
  put_all(&out, rows.get());
  std::fwrite(out.data(), 1, out.size(), stdout);
  return 0;
}

std::unique_ptr<rocksdb::DB> new_store(const char* folder) {
  Settings settings;
  settings.options.create_if_missing = true;
  settings.options.error_if_exists = true;
  rocksdb::DB* opened = nullptr;
  stop_unless(rocksdb::DB::Open(settings.whole(), folder, &opened), "open");
  return std::unique_ptr<rocksdb::DB>(opened);
}

int ingest(int count, char** words) {
  std::unique_ptr<rocksdb::DB> db = new_store(words[2]);
  rocksdb::WriteOptions write;
  stop_unless(db->Put(write, kFirst, "1"), "first");
  if (count > 4) {
    std::FILE* file = std::fopen(words[4], "rb");
    if (file == nullptr) stop_unless(Status::IOError(words[4]), "text");
    std::string text = all_of(file);
    std::fclose(file);
    each_line(
        text, [&](const Slice& key, const Slice&) { stop_unless(db->Put(write, key, "older"), "older"); },
        [&](const Slice& key) { stop_unless(db->Put(write, key, "older"), "older"); });
  }
  stop_unless(db->Flush(rocksdb::FlushOptions()), "flush");
  stop_unless(db->IngestExternalFile({words[3]}, rocksdb::IngestExternalFileOptions()), "ingest");
  stop_unless(db->VerifyChecksum(), "checksum");
  std::string out;
  std::unique_ptr<rocksdb::Iterator> rows(db->NewIterator(rocksdb::ReadOptions()));
  put_all(&out, rows.get());
  std::fwrite(out.data(), 1, out.size(), stdout);
  rows.reset();
  stop_unless(db->Close(), "close");
  return 0;
}

int flush(char** words) {
  std::string text = all_of(stdin);
  std::unique_ptr<rocksdb::DB> db = new_store(words[2]);
  rocksdb::WriteOptions write;
  each_line(
      text, [&](const Slice& key, const Slice& value) { stop_unless(db->Put(write, key, value), "put"); },
      [&](const Slice& key) { stop_unless(db->Delete(write, key), "delete"); });
  stop_unless(db->Flush(rocksdb::FlushOptions()), "flush");
  stop_unless(db->Close(), "close");
  return 0;
}

}  // namespace

int main(int count, char** words) {
  std::string what = count > 2 ? words[1] : "";
  if (what == "build") return build(count, words);
  if (what == "show") return show(count, words);
  if (what == "ingest" && count > 3) return ingest(count, words);
  if (what == "flush") return flush(words);
  std::fprintf(stderr, "rocksdb_tables build TABLE .. | show TABLE .. | ingest FOLDER TABLE .. | flush FOLDER\n");
  return 2;
}
