// check IMAGE [SOURCE]...: the answer of `cordkit check`, by the library from C++. It makes every call that the header declares, and ends with status 4
// where two of them disagree.
#include "../cord.h"
#include <cstdio>
#include <fstream>
#include <iterator>
#include <string>
#include <vector>

static std::string read_file(const char *name) {
    std::ifstream file(name, std::ios::binary);
    return std::string(std::istreambuf_iterator<char>(file), std::istreambuf_iterator<char>());
}

static const uint8_t *bytes_of(const std::string &text) { return reinterpret_cast<const uint8_t *>(text.data()); }

// A verdict, as it is printed.
static std::string line(const cord_verdict &v) {
    std::string code = "C" + std::to_string(v.code), number = std::to_string(v.number);
    switch (v.code) {
    case 0: return "accepted " + std::to_string(v.revisions) + " revisions " + std::to_string(v.nodes) + " nodes " + std::to_string(v.rows) + " rows";
    case 1: return "refused C1(I" + std::to_string(v.kind) + ")";
    case 2: return "refused C2";
    case 11: return "refused C11(" + number + "," + std::to_string(v.row) + ")";
    case 12: return "refused C12(S" + std::to_string(v.kind) + ")";
    case 13: return "refused S" + std::to_string(v.kind);
    default: return "refused " + code + "(" + number + ")";
    }
}

// Whether the calls over an open image agree about the text of a revision, byte by byte to its first thousand.
static bool agrees(const cord_image &image, const cord_source *sources, size_t count, uint32_t revision) {
    uint64_t len = 0, place = 0;
    if (!cord_text_len(&image, revision, &len)) return false;
    while (place < len && place < 1000) {
        cord_run run;
        uint8_t out[64], byte;
        size_t got = 0;
        if (!cord_locate(&image, revision, place, &run)) return false;
        if (cord_read(&image, sources, count, revision, place, out, sizeof out, &got) != CORD_READ) return false;
        if (got != (run.len < sizeof out ? run.len : sizeof out)) return false;
        for (size_t i = 0; i < got; i++)
            if (cord_fetch(&image, sources, count, revision, place + i, &byte) != CORD_READ || byte != out[i]) return false;
        place += got;
    }
    uint8_t byte;
    return cord_fetch(&image, sources, count, revision, len, &byte) == CORD_NO_PLACE;
}

int main(int argc, char **argv) {
    if (argc < 2) return 2;
    std::vector<std::string> files;
    for (int i = 1; i < argc; i++) files.push_back(read_file(argv[i]));
    std::vector<cord_source> sources;
    for (size_t i = 1; i < files.size(); i++) sources.push_back({bytes_of(files[i]), files[i].size(), files[i].size()});
    const cord_source *given = sources.empty() ? cord_no_sources : sources.data();
    const std::string &bytes = files[0];
    cord_verdict verdict, counts;
    cord_image image = CORD_IMAGE_NONE;
    uint64_t looks;
    bool is_accepted = cord_open(bytes_of(bytes), bytes.size(), given, sources.size(), &image, &verdict);
    cord_counts(&image, &counts);
    if (is_accepted != cord_check(bytes_of(bytes), bytes.size(), given, sources.size(), &verdict)) return 4;
    if (cord_looks_bound(bytes_of(bytes), bytes.size(), &looks) == (verdict.code == 1)) return 4;
    if (counts.revisions != verdict.revisions || counts.rows != verdict.rows) return 4;
    for (uint32_t k = 0; k < counts.revisions; k++)
        if (!agrees(image, given, sources.size(), k)) return 4;
    std::puts(line(verdict).c_str());
    return is_accepted ? 0 : 1;
}
