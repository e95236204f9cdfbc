/* Loads a store of random keys into maps: ranges [PAIRS [THREADS]]. One thread loads all by mtr_dump into one map; then each of
 * the threads loads one range, from mtr_cut_key of its number on, into a map of its own. The maps of the ranges, one after the
 * other, must be the one map. Told are the least times of some rounds. The last line is 'N passed, M failed'. */
#include "mtrecover.h"
#include <algorithm>
#include <chrono>
#include <cstdio>
#include <cstdlib>
#include <future>
#include <map>
#include <string>
#include <thread>
#include <vector>

typedef std::map<std::string, std::string> Map;

static const int ROUNDS = 3;

static const uint8_t *bytes(const std::string &text) { return reinterpret_cast<const uint8_t *>(text.data()); }

// A place of the library, which is freed at its end.
struct Place {
    mtr_place at = {};
    Place() = default;
    Place(const Place &) = delete;
    Place &operator=(const Place &) = delete;
    ~Place() { mtr_free(&at); }
};

// A store with so many keys of 16 bytes, of which each has its number.
static bool make_store(size_t keys, Place &store) {
    std::vector<uint8_t> log(64 + 64 * keys);
    size_t length = 0, count = 0;
    bool is_done = mtr_log_header(1, 0, log.data(), log.size(), &count) == MTR_DONE;
    for (size_t n = 1; is_done && n <= keys; n++) {
        char key[17], value[21];
        const size_t key_length = size_t(std::snprintf(key, sizeof key, "%016llx", n * 0x9E3779B97F4A7C15ull));
        const size_t value_length = size_t(std::snprintf(value, sizeof value, "%zu", n));
        const mtr_column column = {0, {reinterpret_cast<uint8_t *>(value), value_length}};
        length += count;
        is_done = mtr_put(1, n, n, reinterpret_cast<uint8_t *>(key), key_length, &column, 1, log.data() + length,
                          log.size() - length, &count) == MTR_DONE;
    }
    length += count;
    is_done = is_done && mtr_mark(keys + 1, log.data() + length, log.size() - length, &count) == MTR_DONE;
    Place feed;
    mtr_fault fault;
    return is_done && mtr_feed_log(&feed.at) == MTR_DONE && mtr_feed(&feed.at, log.data(), length + count) == MTR_DONE &&
           mtr_add(&store.at, &feed.at) == MTR_DONE && mtr_recover(&store.at, &fault) == MTR_DONE;
}

// Appends pairs to the map. The flat form of a pair of one column is its length, in 4 bytes, and a version, in 8; the length of
// the key, in 2, and the key; 1, the number 0, the length of the value, in 2, and the value; and its length again.
static void append(const uint8_t *pairs, size_t count, Map &map) {
    auto take = [&pairs] {
        const size_t length = size_t(pairs[0]) << 8 | pairs[1];
        const uint8_t *at = pairs + 2;
        pairs = at + length;
        return std::string(at, pairs);
    };
    for (const uint8_t *end = pairs + count; pairs < end; pairs += 4) {
        pairs += 12;
        std::string key = take();
        pairs += 2;
        map.emplace_hint(map.end(), std::move(key), take());
    }
}

// Loads what is dumped from a key on, a buffer at a time.
template <class Dump> static void load(std::string start, Map &map, Dump dump) {
    std::vector<uint8_t> out(1 << 16);
    size_t count, pairs;
    while (dump(bytes(start), start.size(), out.data(), out.size(), &count, &pairs) == MTR_DONE) {
        append(out.data(), count, map);
        start = map.rbegin()->first + '\0';
    }
}

static void load_all(Place &store, Map &map) {
    load("", map, [&](auto... out) { return mtr_dump(&store.at, out...); });
}

// Loads each range by a thread of its own. Where one begins the one before it ends.
static void load_ranges(std::vector<Place> &places, std::vector<Map> &maps) {
    const size_t n = places.size();
    std::vector<std::promise<std::string>> cuts(n + 1);
    cuts[n].set_value("");
    auto load_range = [&](size_t i) {
        uint8_t key[4097];
        size_t length = 0;
        mtr_cut_key(&places[i].at, i, n, key, sizeof key, &length);
        const std::string start(key, key + length);
        cuts[i].set_value(start);
        const std::string end = cuts[i + 1].get_future().get();
        load(start, maps[i], [&](auto at, auto at_length, auto... out) {
            return mtr_dump_until(&places[i].at, at, at_length, bytes(end), end.size(), out...);
        });
    };
    std::vector<std::thread> threads;
    for (size_t i = 0; i < n; i++)
        threads.emplace_back(load_range, i);
    for (auto &thread : threads)
        thread.join();
}

// Whether the maps, one after the other, are the one map, each with equally many keys, or one more.
static bool are_ranges(const std::vector<Map> &maps, const Map &map) {
    auto next = map.begin();
    for (auto &range : maps) {
        const size_t least = map.size() / maps.size();
        if (range.size() != least && range.size() != least + 1)
            return false;
        for (auto &pair : range)
            if (next == map.end() || *next++ != pair)
                return false;
    }
    return next == map.end();
}

// Returns the milliseconds that this takes.
template <class Work> static double time_of(Work work) {
    const auto start = std::chrono::steady_clock::now();
    work();
    return std::chrono::duration<double, std::milli>(std::chrono::steady_clock::now() - start).count();
}

int main(int count, char **arguments) {
    const size_t keys = count > 1 ? std::strtoull(arguments[1], nullptr, 10) : 100000;
    const size_t n = count > 2 ? std::strtoull(arguments[2], nullptr, 10) : 4;
    unsigned passed = 0, failed = 0;
    auto expect = [&](bool is_so) { is_so ? passed++ : failed++; };
    Place store;
    std::vector<Place> places(n);
    expect(make_store(keys, store));
    for (auto &place : places)
        expect(mtr_share(&store.at, &place.at) == MTR_DONE);
    double alone = 1e9, together = 1e9;
    for (int round = 0; round < ROUNDS; round++) {
        Map map;
        std::vector<Map> maps(n);
        alone = std::min(alone, time_of([&] { load_all(store, map); }));
        together = std::min(together, time_of([&] { load_ranges(places, maps); }));
        expect(map.size() == keys && are_ranges(maps, map));
    }
    std::printf("%zu pairs: %.0f ms by one thread, %.0f ms by %zu: %.1f times as fast\n", keys, alone, together, n, alone / together);
    std::printf("%u passed, %u failed\n", passed, failed);
    return failed != 0;
}
