// What the programs in C++ share: the messages, and the best time of some runs, as `messages.rs` says them in Rust.
#pragma once

#include <algorithm>
#include <chrono>
#include <cmath>
#include <cstdint>
#include <cstdio>
#include <cstdlib>
#include <string>

const uint32_t BLOB_LEN = 1u << 20;
const int64_t ID = 1000000007000;
const int32_t STATE = 3;

inline std::string numbered(const char *before, uint32_t n) {
    char text[64];
    snprintf(text, sizeof text, "%s%03u", before, n);
    return text;
}

// An item's name, of 20 to 60 bytes.
inline std::string item_name(uint32_t n) {
    std::string name = numbered("item ", n) + " ";
    name.resize(20 + n * 7 % 41, 'x');
    return name;
}

inline int32_t item_count(uint32_t n) { return n * n * 31 % 70000; }

inline std::string note_key(uint32_t n) { return numbered("key ", n); }

inline std::string note(uint32_t n) { return numbered("what is to be said of it, number ", n); }

inline std::string blob() {
    std::string data(BLOB_LEN, 0);
    for (uint32_t n = 0; n < BLOB_LEN; n++) data[n] = n * 2654435761u >> 24;
    return data;
}

inline void check(bool holds, const char *what) {
    if (holds) return;
    fprintf(stderr, "%s\n", what);
    exit(1);
}

// Keeps what a pointer leads to from being left out.
inline void keep(const void *at) { asm volatile("" : : "r"(at) : "memory"); }

const int RUNS = 10;
const double RUN_NANOS = 4e6;

template <class Run> double nanos(Run &run, uint32_t times) {
    auto start = std::chrono::steady_clock::now();
    for (uint32_t i = 0; i < times; i++) run();
    return std::chrono::duration<double, std::nano>(std::chrono::steady_clock::now() - start).count();
}

// The nanoseconds of one of many turns.
template <class Run> double turn_time(Run run) {
    uint32_t times = 1;
    while (nanos(run, times) < RUN_NANOS) times *= 2;
    double least = HUGE_VAL;
    for (int i = 0; i < RUNS; i++) least = std::min(least, nanos(run, times));
    return least / times;
}

inline void print_row(const char *name, const char *kind, double encode, double decode, size_t len) {
    printf("%s %s %.0f %.0f %zu\n", name, kind, encode, decode, len);
}
