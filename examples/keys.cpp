// Prints the keys of a store from its logs and the parts of its checkpoints: keys FILE .., with names that end in .mtl or .mtc.
#include "mtrecover.h"
#include <cstdio>
#include <fstream>
#include <string>

// A place of the library, which is freed at its end.
struct Place {
    mtr_place at = {};
    Place() = default;
    Place(const Place &) = delete;
    Place &operator=(const Place &) = delete;
    ~Place() { mtr_free(&at); }
};

// Adds a file to the logs, or to the parts. Logs are numbered in the order in which they are added.
static bool add(Place &inputs, const std::string &name) {
    Place feed;
    const bool is_part = name.size() > 4 && name.compare(name.size() - 4, 4, ".mtc") == 0;
    if ((is_part ? mtr_feed_part : mtr_feed_log)(&feed.at) != MTR_DONE) {
        return false;
    }
    std::ifstream file(name, std::ios::binary);
    char chunk[65536];
    while (file.read(chunk, sizeof chunk) || file.gcount() > 0) {
        if (mtr_feed(&feed.at, reinterpret_cast<const uint8_t *>(chunk), size_t(file.gcount())) == MTR_MEMORY) {
            return false;
        }
    }
    if (!file.eof()) {
        mtr_feed_failed(&feed.at);
    }
    return mtr_add(&inputs.at, &feed.at) == MTR_DONE;
}

// Prints the keys from the first one on.
static bool print_keys(Place &store) {
    std::string start;
    uint8_t key[4096];
    for (;;) {
        Place hits;
        size_t columns, length;
        if (mtr_range(&store.at, reinterpret_cast<const uint8_t *>(start.data()), start.size(), 1000, &hits.at) != MTR_DONE) {
            return false;
        }
        size_t i = 0;
        for (; mtr_hit(&hits.at, i, &columns, key, sizeof key, &length) == MTR_DONE; i++) {
            std::printf("%.*s, columns: %zu\n", int(length), reinterpret_cast<const char *>(key), columns);
        }
        if (i == 0) {
            return true;
        }
        start.assign(reinterpret_cast<const char *>(key), length);
        start.push_back('\0');
    }
}

int main(int count, char **names) {
    Place store;
    for (int n = 1; n < count; n++) {
        if (!add(store, names[n])) {
            std::fprintf(stderr, "no memory\n");
            return 3;
        }
    }
    mtr_fault fault;
    const uint32_t status = mtr_recover(&store.at, &fault);
    if (status == MTR_FAULT) {
        uint8_t text[200];
        size_t length = 0;
        mtr_fault_text(&fault, text, sizeof text, &length);
        std::fprintf(stderr, "%.*s\n", int(length), reinterpret_cast<const char *>(text));
        return 1;
    }
    return status == MTR_DONE && print_keys(store) ? 0 : 3;
}
