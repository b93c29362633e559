// The same insertions and searches by libxbase64, whose index lies in a file beside its table. It doesn't find some
// keys of ten bytes again.
#include "../../tests/exchange/xbase_numbers.h"
#include <chrono>
#include <cstdint>
#include <cstdio>

static const uint32_t KEYS = 100000;

static uint32_t next_of(uint32_t seed) { return seed * 1664525u + 1013904223u; }

static void key_of(uint32_t seed, char *key) {
    for (int place = 9; place >= 0; place--) {
        key[place] = static_cast<char>('0' + seed % 10);
        seed /= 10;
    }
    key[10] = 0;
}

static long long since(std::chrono::steady_clock::time_point start) {
    return std::chrono::duration_cast<std::chrono::nanoseconds>(std::chrono::steady_clock::now() - start).count();
}

int main() {
    xbSchema fields[] = {{"K", 'C', 10, 0}, {"", 0, 0, 0}};
    xbXBase base;
    xbDbf table(&base);
    xbNdx index(&table);
    if (table.CreateDatabase("BENCH.DBF", fields, 1) != 0) return 1;
    if (index.CreateIndex("BENCH.NDX", "K", 0, 1) != 0) return 2;
    char key[11];
    uint32_t seed = 1;
    auto start = std::chrono::steady_clock::now();
    for (uint32_t record = 0; record < KEYS; record++) {
        seed = next_of(seed);
        key_of(seed, key);
        table.BlankRecord();
        table.PutField(static_cast<xbShort>(0), key);
        if (table.AppendRecord() != 0) return 3;
    }
    long long filled = since(start);
    seed = 1;
    uint64_t found = 0;
    start = std::chrono::steady_clock::now();
    for (uint32_t turn = 0; turn < KEYS; turn++) {
        seed = next_of(seed);
        key_of(seed, key);
        if (index.FindKey(key) == XB_FOUND) found++;
    }
    long long sought = since(start);
    std::printf("%lld %lld %llu\n", filled, sought, static_cast<unsigned long long>(found));
    table.CloseDatabase();
    return 0;
}
