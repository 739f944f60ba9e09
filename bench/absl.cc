// The walk of crates/cord_bench on absl::Cord: the bytes of a megabyte in leaves of 64, one after the other.
#include <absl/strings/cord.h>

#include <chrono>
#include <cstdio>
#include <string>

int main() {
    std::string line(64, 'x');
    absl::Cord text;
    for (int k = 0; k < 16384; k++)
        text.Append(absl::MakeCordFromExternal(line, [] {}));
    auto start = std::chrono::steady_clock::now();
    char all = 0;
    for (char byte : text.Chars())
        all ^= byte;
    auto taken = std::chrono::steady_clock::now() - start;
    auto each = std::chrono::duration<double, std::nano>(taken).count() / text.size();
    std::printf("  %-34s %6.1f ns\n", all ? "another byte" : "the next byte", each);
}
