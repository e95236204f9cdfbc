// A server for tests/torture/run, over the library alone: kv DIR. Four workers with a log each update the keys of a table; a thread
// commits what they wrote, another makes checkpoints beside them. Logs are segments of format 3, parts of format 2. It prints the
// lines that mtrecover-torture asks for.
#include "mtrecover.h"
#include <algorithm>
#include <atomic>
#include <cstdio>
#include <cstring>
#include <deque>
#include <dirent.h>
#include <fcntl.h>
#include <map>
#include <mutex>
#include <random>
#include <string>
#include <thread>
#include <unistd.h>
#include <vector>
using Bytes = std::vector<uint8_t>;
using Lock = std::lock_guard<std::mutex>;

constexpr unsigned WORKERS = 4, KEYS = 100, WAITING = 64, FORMAT = 2;
constexpr size_t SEGMENT = 4096;

struct Row {
    uint64_t version;
    std::string value;
};
// An update that is not acknowledged yet.
struct Pending {
    uint64_t time;
    std::string key;
};
struct Worker {
    unsigned number;
    std::mutex m; // guards batch and waiting, and the order of timestamps in this log
    Bytes batch;
    std::deque<Pending> waiting;
    int fd = -1; // this and what follows is the commit thread's
    size_t size = 0;
    uint64_t reach = 0;
    std::mutex segments_m;
    std::map<uint32_t, uint64_t> segments; // the `from` of each
};
static std::mutex table_m;
static std::map<std::string, Row> table;
static Worker workers[WORKERS];
static std::atomic<uint64_t> now{0}, durable{0};

static void must(bool is_so, const std::string &what) {
    if (!is_so) {
        fprintf(stderr, "kv: %s failed\n", what.c_str());
        _exit(1);
    }
}
static void say(const std::string &line) { must(write(1, line.data(), line.size()) == (ssize_t)line.size(), "output"); }
static const uint8_t *u(const std::string &s) { return (const uint8_t *)s.data(); }

// ---- Files ----

static std::string log_name(unsigned worker, uint32_t segment) {
    char name[32];
    snprintf(name, sizeof name, "w%02u-%08u.mtl", worker, segment);
    return name;
}
static std::string part_name(uint32_t number, unsigned part) {
    char name[32];
    snprintf(name, sizeof name, "c%08u-%u.mtc", number, part);
    return name;
}
static void sync_folder() {
    int folder = open(".", O_RDONLY | O_DIRECTORY);
    must(folder >= 0 && fsync(folder) == 0, "folder");
    close(folder);
}
static void write_all(int fd, const Bytes &bytes) {
    for (size_t at = 0; at < bytes.size();) {
        ssize_t n = write(fd, bytes.data() + at, bytes.size() - at);
        must(n > 0, "write");
        at += n;
    }
}
// Writes a file aside, syncs it, renames it, and syncs the folder.
static int publish(const std::string &name, const Bytes &bytes) {
    std::string aside = name + ".new";
    int fd = open(aside.c_str(), O_WRONLY | O_CREAT | O_TRUNC | O_APPEND, 0666);
    must(fd >= 0, name);
    write_all(fd, bytes);
    must(fsync(fd) == 0 && rename(aside.c_str(), name.c_str()) == 0, name);
    sync_folder();
    return fd;
}
static Bytes read_file(const std::string &name) {
    int fd = open(name.c_str(), O_RDONLY);
    off_t size = fd < 0 ? -1 : lseek(fd, 0, SEEK_END);
    must(size >= 0 && fsync(fd) == 0, name);
    Bytes bytes(size);
    must(pread(fd, bytes.data(), size, 0) == size, name);
    close(fd);
    return bytes;
}

// ---- Records ----

// Calls an encoder that appends to these bytes.
template <class F> static void append(Bytes &out, F encode) {
    size_t at = out.size(), count = 0;
    out.resize(at + 64);
    uint32_t status = encode(out.data() + at, out.size() - at, &count);
    if (status == MTR_SHORT) {
        out.resize(at + count);
        status = encode(out.data() + at, out.size() - at, &count);
    }
    must(status == MTR_DONE, "record");
    out.resize(at + count);
}
static void put_mark(Bytes &out, uint64_t time) {
    append(out, [&](auto at, auto room, auto count) { return mtr_mark(time, at, room, count); });
}
static Bytes new_segment(uint64_t from, unsigned worker, uint32_t segment, uint64_t mark) {
    Bytes bytes;
    append(bytes, [&](auto at, auto room, auto count) { return mtr_segment_header(from, worker, segment, at, room, count); });
    put_mark(bytes, mark);
    return bytes;
}
static uint64_t from_of(const Bytes &log) {
    uint64_t from = 0;
    for (int i = 4; i < 12; i++)
        from = from << 8 | log[i];
    return from;
}

// ---- Its start ----

static void check(uint32_t status, const mtr_fault &fault) {
    uint8_t words[128];
    size_t count = 0;
    if (status == MTR_FAULT)
        mtr_fault_text(&fault, words, sizeof words, &count);
    must(status == MTR_DONE, "recovery: " + std::string((char *)words, count));
}

// Fills the table. No recovered key has a version above this one.
static void load(mtr_place &store, uint64_t version) {
    mtr_place hits{};
    must(mtr_range(&store, nullptr, 0, SIZE_MAX, &hits) == MTR_DONE, "range");
    uint8_t key[64], value[64], number;
    size_t length, columns, size;
    for (size_t i = 0; mtr_hit(&hits, i, &columns, key, sizeof key, &length) == MTR_DONE; i++) {
        must(mtr_hit_column(&hits, i, 0, &number, value, sizeof value, &size) == MTR_DONE, "a value");
        std::string name((char *)key, length);
        table[name] = {version, std::string((char *)value, size)};
        say("has " + name + " " + table[name].value + "\n");
    }
    mtr_free(&hits);
}

// Deletes the parts of all checkpoints but the chosen one; of each a broken part first, so that it never becomes valid.
static void delete_parts(const std::vector<std::string> &parts, uint64_t chosen) {
    std::map<uint32_t, std::vector<std::string>> checkpoints;
    for (auto &part : parts)
        checkpoints[(uint32_t)std::stoul(part.substr(1, 8))].push_back(part);
    for (auto &[number, names] : checkpoints) {
        if (number == chosen)
            continue;
        if (names.size() > 1) {
            Bytes broken;
            append(broken, [&, n = number](auto at, auto room, auto count) { return mtr_part_header(FORMAT, n, 0, 0, 1, at, room, count); });
            close(publish(names.back(), broken));
        }
        for (size_t i = 0; i + 1 < names.size(); i++)
            must(unlink(names[i].c_str()) == 0, "unlink");
        sync_folder();
        must(unlink(names.back().c_str()) == 0, "unlink");
    }
    sync_folder();
}

static void resume(const std::string &name, const Bytes &log, uint64_t cutoff) {
    Bytes out(log.size() + log.size() / 1024 + 33);
    size_t count = 0;
    mtr_resumed resumed{};
    must(mtr_resume_log(log.data(), log.size(), cutoff, 0, 0, &resumed, out.data(), out.size(), &count) == MTR_DONE, name);
    out.resize(count);
    if (resumed.changed)
        close(publish(name, out));
    Worker &worker = workers[std::stoul(name.substr(1, 2))];
    worker.segments[(uint32_t)std::stoul(name.substr(4, 8))] = from_of(out);
    worker.size = count;
}

// Recovers, and makes the files ready. Returns the greatest number of a checkpoint.
static uint32_t start() {
    std::vector<std::string> logs, parts;
    std::vector<Bytes> read;
    DIR *folder = opendir(".");
    must(folder != nullptr, "list");
    while (dirent *entry = readdir(folder)) {
        std::string name = entry->d_name;
        if (name.size() > 4 && name.substr(name.size() - 4) == ".mtl")
            logs.push_back(name);
        if (name.size() > 4 && name.substr(name.size() - 4) == ".mtc")
            parts.push_back(name);
    }
    closedir(folder);
    std::sort(logs.begin(), logs.end());
    std::sort(parts.begin(), parts.end());
    mtr_place store{};
    mtr_fault fault{};
    mtr_report report{};
    for (auto &names : {logs, parts})
        for (auto &name : names) {
            mtr_place feed{};
            must((read.size() < logs.size() ? mtr_feed_log(&feed) : mtr_feed_part(&feed)) == MTR_DONE, "feed");
            read.push_back(read_file(name));
            must(mtr_feed(&feed, read.back().data(), read.back().size()) != MTR_MEMORY && mtr_add(&store, &feed) == MTR_DONE, "feed");
        }
    sync_folder();
    uint32_t number = parts.empty() ? 0 : (uint32_t)std::stoul(parts.back().substr(1, 8));
    if (!logs.empty()) {
        check(mtr_recover(&store, &fault), fault);
        must(mtr_get_report(&store, &report) == MTR_DONE, "report");
        load(store, report.version);
    }
    mtr_free(&store);
    uint64_t cutoff = report.cutoff;
    now = std::max({report.last, report.version, cutoff});
    delete_parts(parts, logs.empty() ? UINT64_MAX : report.checkpoint);
    for (size_t i = 0; i < logs.size(); i++)
        resume(logs[i], read[i], cutoff);
    for (auto &worker : workers) {
        if (worker.segments.empty()) {
            worker.fd = publish(log_name(worker.number, 0), new_segment(0, worker.number, 0, cutoff));
            worker.segments[0] = 0;
        } else
            worker.fd = open(log_name(worker.number, worker.segments.rbegin()->first).c_str(), O_WRONLY | O_APPEND);
        must(worker.fd >= 0, "a log");
        worker.reach = cutoff;
    }
    sync_folder();
    return number;
}

// ---- Its threads ----

static void update(Worker &worker, const std::string &key, bool is_put) {
    Lock mine(worker.m);
    if (worker.waiting.size() >= WAITING)
        return;
    uint64_t time;
    std::string value = "-";
    {
        Lock all(table_m);
        time = ++now;
        if (is_put)
            table[key] = {time, value = std::to_string(worker.number) + "." + std::to_string(time)};
        else
            table.erase(key);
    }
    mtr_column column{0, {u(value), value.size()}};
    append(worker.batch, [&](auto at, auto room, auto count) {
        return is_put ? mtr_put(FORMAT, time, time, u(key), key.size(), &column, 1, at, room, count)
                      : mtr_remove(FORMAT, time, time, u(key), key.size(), at, room, count);
    });
    worker.waiting.push_back({time, key});
    say("put " + key + " " + std::to_string(time) + " " + value + "\n");
}

// Begins the next segment. The last record of the old one, which is synced, is the mark at worker.reach.
static void rotate(Worker &worker) {
    Lock l(worker.segments_m);
    uint32_t next = worker.segments.rbegin()->first + 1;
    Bytes bytes = new_segment(worker.reach, worker.number, next, worker.reach);
    int fd = publish(log_name(worker.number, next), bytes);
    close(worker.fd);
    worker.fd = fd;
    worker.size = bytes.size();
    worker.segments[next] = worker.reach;
}

static void commit() {
    for (;;) {
        uint64_t least = UINT64_MAX;
        for (auto &worker : workers) {
            Bytes out;
            uint64_t time;
            {
                Lock l(worker.m);
                time = ++now;
                put_mark(worker.batch, time);
                out.swap(worker.batch);
            }
            write_all(worker.fd, out);
            must(fsync(worker.fd) == 0, "fsync");
            worker.reach = time;
            worker.size += out.size();
            if (worker.size > SEGMENT)
                rotate(worker);
            least = std::min(least, time);
        }
        durable = least;
        for (auto &worker : workers) {
            Lock l(worker.m);
            for (; !worker.waiting.empty() && worker.waiting.front().time < least; worker.waiting.pop_front())
                say("ack " + worker.waiting.front().key + " " + std::to_string(worker.waiting.front().time) + "\n");
        }
        usleep(500);
    }
}

static void checkpoint(uint32_t number) {
    uint64_t begin, end;
    size_t half, seen = 0;
    Bytes parts[2];
    uint32_t entries[2] = {0, 0};
    {
        Lock l(table_m);
        begin = ++now;
        half = table.size() / 2;
    }
    for (uint16_t part = 0; part < 2; part++)
        append(parts[part], [&](auto at, auto room, auto count) { return mtr_part_header(FORMAT, number, begin, part, 2, at, room, count); });
    // Some rows at a time, so that updates go on.
    std::string last;
    for (bool is_first = true;; is_first = false) {
        std::vector<std::pair<std::string, Row>> rows;
        {
            Lock l(table_m);
            for (auto it = is_first ? table.begin() : table.upper_bound(last); it != table.end() && rows.size() < 8; ++it)
                rows.push_back(*it);
        }
        if (rows.empty())
            break;
        last = rows.back().first;
        for (auto &[key, row] : rows) {
            unsigned part = seen++ < half ? 0 : 1;
            mtr_column column{0, {u(row.value), row.value.size()}};
            append(parts[part], [&, &k = key, &r = row](auto at, auto room, auto count) {
                return mtr_entry(FORMAT, r.version, u(k), k.size(), &column, 1, at, room, count);
            });
            entries[part]++;
        }
        usleep(100);
    }
    {
        Lock l(table_m);
        end = ++now;
    }
    for (unsigned part = 0; part < 2; part++) {
        append(parts[part], [&](auto at, auto room, auto count) { return mtr_part_footer(end, entries[part], at, room, count); });
        close(publish(part_name(number, part), parts[part]));
    }
    // It stands once each log has a synced record above its end.
    while (durable <= end)
        usleep(500);
    for (auto &worker : workers) {
        Lock l(worker.segments_m);
        while (worker.segments.size() > 1 && std::next(worker.segments.begin())->second <= begin) {
            must(unlink(log_name(worker.number, worker.segments.begin()->first).c_str()) == 0, "unlink");
            sync_folder();
            worker.segments.erase(worker.segments.begin());
        }
    }
    for (unsigned part = 0; part < 2; part++)
        unlink(part_name(number - 1, part).c_str());
    sync_folder();
}

int main(int argc, char **argv) {
    must(argc == 2 && chdir(argv[1]) == 0, "folder");
    for (unsigned n = 0; n < WORKERS; n++)
        workers[n].number = n;
    uint32_t number = start();
    say("ready\n");
    std::vector<std::thread> threads;
    threads.emplace_back(commit);
    threads.emplace_back([number]() mutable {
        for (;;) {
            usleep(20000);
            checkpoint(++number);
        }
    });
    for (auto &worker : workers)
        threads.emplace_back([&worker] {
            for (std::mt19937 random(std::random_device{}());;) {
                update(worker, "key" + std::to_string(random() % KEYS), random() % 8 != 0);
                usleep(200);
            }
        });
    for (auto &thread : threads)
        thread.join();
}
