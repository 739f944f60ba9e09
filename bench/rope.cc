// The work of crates/cord_bench on the rope of libstdc++: the same texts, the same places, as many times.
#include <chrono>
#include <cstdint>
#include <cstdio>
#include <ext/rope>
#include <string>

using __gnu_cxx::crope;
using Clock = std::chrono::steady_clock;

static const uint64_t count = 1000000;

// a place below the end, one after the other as if at random
static uint64_t place(uint64_t k, uint64_t end) { return k * 2654435761 % end; }

static void report_of(const char *work, Clock::time_point start, uint64_t times) {
    auto taken = std::chrono::duration_cast<std::chrono::nanoseconds>(Clock::now() - start);
    std::printf("  %-34s %6lld ns\n", work, (long long)(taken.count() / (long long)times));
}

static void report(const char *work, Clock::time_point start) { report_of(work, start, count); }

// leaves of 64 bytes joined one behind the other
static uint64_t join_leaves(uint64_t leaves) {
    std::string line(64, 'x');
    crope leaf(line.c_str());
    auto start = Clock::now();
    crope text;
    for (uint64_t k = 0; k < leaves; k++)
        text = text + leaf;
    report_of(("a leaf joined, " + std::to_string(leaves) + " of them").c_str(), start, leaves);
    return text.size();
}

// keys typed one behind the other from the middle of a megabyte on
static uint64_t type_keys(crope text, uint64_t keys) {
    uint64_t middle = text.size() / 2;
    auto start = Clock::now();
    for (uint64_t k = 0; k < keys; k++)
        text.insert(middle + k, "x", 1);
    report_of("a key in the middle", start, keys);
    return text.size();
}

// keys typed one behind the other at the end of a megabyte
static uint64_t type_at_the_end(crope text, uint64_t keys) {
    auto start = Clock::now();
    for (uint64_t k = 0; k < keys; k++)
        text.insert(text.size(), "x", 1);
    report_of("a key at the end", start, keys);
    return text.size();
}

// bursts of twenty keys at random places
static uint64_t type_bursts(crope text, uint64_t bursts) {
    auto start = Clock::now();
    for (uint64_t k = 0; k < bursts; k++) {
        uint64_t from = place(k, text.size());
        for (uint64_t j = 0; j < 20; j++)
            text.insert(from + j, "x", 1);
    }
    report_of("a key in bursts of 20", start, bursts * 20);
    return text.size();
}

// insertions of ten bytes at random places
static uint64_t insert(crope text, uint64_t edits) {
    auto start = Clock::now();
    for (uint64_t k = 0; k < edits; k++)
        text.insert(place(k, text.size()), "0123456789", 10);
    report_of("ten bytes at a random place", start, edits);
    return text.size();
}

// appends, joins, substrings and fetches
static uint64_t time_store() {
    uint64_t sum = 0;
    {
        auto start = Clock::now();
        crope text;
        for (uint64_t k = 0; k < count; k++)
            text.push_back('x');
        sum += text.size();
        report("an append of one byte", start);
    }
    std::string line(64, 'x');
    crope text(line.c_str());
    for (int k = 0; k < 14; k++)
        text = text + text;
    {
        crope left(line.c_str()), right(line.c_str());
        auto start = Clock::now();
        for (uint64_t k = 0; k < count; k++)
            sum += (left + right).size();
        report("a join of two texts of 64 bytes", start);
    }
    {
        auto start = Clock::now();
        for (uint64_t k = 0; k < count; k++)
            sum += text.substr(place(k, text.size() - 1000), 1000).size();
        report("a substring of a megabyte", start);
    }
    {
        auto start = Clock::now();
        for (uint64_t k = 0; k < count; k++)
            sum += text[place(k, text.size())];
        report("a fetch in a megabyte", start);
    }
    return sum;
}

// 4,096 bytes of a megabyte replaced, one after the other
static uint64_t replace_each(crope text) {
    uint64_t step = text.size() / 4096;
    auto start = Clock::now();
    for (uint64_t k = 0; k < 4096; k++)
        text.replace(k * step, 1, "x", 1);
    auto taken = std::chrono::duration_cast<std::chrono::microseconds>(Clock::now() - start);
    std::printf("  %-38s %8lld us\n", "4,096 bytes one after the other", (long long)taken.count());
    return text.size();
}

// With the word `store` it times the operations alone, with `many` replacements, and else what an editor does.
int main(int words, char **word) {
    uint64_t sum = 0;
    if (words > 1 && std::string(word[1]) == "many")
        return replace_each(crope(std::string(1 << 20, 'y').c_str())) == 0;
    if (words > 1)
        return time_store() == 0;
    for (uint64_t leaves : {1000, 10000, 100000})
        sum += join_leaves(leaves);
    crope flat(std::string(1 << 20, 'x').c_str());
    sum += type_at_the_end(flat, count);
    sum += type_keys(flat, count);
    sum += type_bursts(flat, count / 20);
    sum += insert(flat, 600000);
    return sum == 0;
}
