// calls: the calls of calls.c, and all others of a session, `s`, and of a store, `t`, by the wrapper for C++. A rope is named by its place among those
// that were made.
#include "../cord_session.hpp"
#include <cstdlib>
#include <fstream>
#include <iostream>
#include <iterator>
#include <memory>
#include <sstream>

static std::istringstream line;

static std::string word() {
    std::string found;
    line >> found;
    return found;
}

static uint64_t number() { return std::strtoull(word().c_str(), nullptr, 10); }
static uint8_t byte() { return static_cast<uint8_t>(number()); }

static uint32_t narrow() {
    const uint64_t n = number();
    return n < UINT32_MAX ? static_cast<uint32_t>(n) : UINT32_MAX;
}

static std::string from_hex(const std::string &hex) {
    std::string bytes;
    for (size_t k = 0; k + 1 < hex.size(); k += 2) bytes += static_cast<char>(std::stoi(hex.substr(k, 2), nullptr, 16));
    return bytes;
}

static std::string bytes() { return from_hex(word()); }

static std::string hex(std::string_view bytes) {
    static const char digits[] = "0123456789abcdef";
    std::string spelled;
    for (const unsigned char c : bytes) spelled += {digits[c / 16], digits[c % 16]};
    return bytes.empty() ? "-" : spelled;
}

static std::string told(const std::optional<uint64_t> &place) { return place ? std::to_string(*place) : "none"; }

static std::string told(const cord_run &run) {
    std::ostringstream out;
    out << run.kind << ' ' << run.source << ' ' << run.function << ' ' << run.start << ' ' << run.len << ' '
        << hex({reinterpret_cast<const char *>(run.pattern), run.pattern_len});
    return out.str();
}

// Bytes of sources stay where they are.
static std::string_view kept(const std::string &bytes) {
    static std::vector<std::unique_ptr<std::string>> all;
    all.push_back(std::make_unique<std::string>(bytes));
    return *all.back();
}

template <class owner> std::string read(owner &texts, typename owner::number x) {
    const uint64_t place = number();
    std::string out(number(), '\xAA');
    try {
        return hex(out.substr(0, texts.read(x, place, reinterpret_cast<uint8_t *>(out.data()), out.size())));
    } catch (const cordkit::error &refused) {
        if (refused.code() != CORD_UNHELD && out.find_first_not_of('\xAA') != std::string::npos) return "WRITTEN";
        throw;
    }
}

// What a call that a session and a store have in common tells; text gives the number of the text that is named next.
template <class owner, class named> bool ask(owner &texts, const std::string &call, named text, std::string &answer) {
    if (call == "source") return answer = std::to_string(texts.add_source(cordkit::held(kept(bytes())))), true;
    if (call == "length") return answer = std::to_string(texts.add_source(cordkit::unheld(number()))), true;
    if (call == "begin") return texts = owner(), true;
    if (call == "end") return texts.close(), true;
    if (call != "len" && call != "read" && call != "text" && call != "locate" && call != "find" && call != "chr" && call != "rchr" && call != "compare")
        return false;
    const auto x = text();
    if (call == "len") answer = std::to_string(texts.len(x));
    if (call == "read") answer = read(texts, x);
    if (call == "text") answer = hex(texts.text(x));
    if (call == "locate") answer = told(texts.locate(x, number()));
    const uint64_t from = call == "find" || call == "chr" || call == "rchr" || call == "compare" ? number() : 0;
    if (call == "find") answer = told(texts.find(x, bytes(), from));
    if (call == "chr") answer = told(texts.find_byte(x, byte(), from));
    if (call == "rchr") answer = told(texts.find_last_byte(x, byte(), from));
    if (call == "compare") {
        const auto y = text();
        const uint64_t j = number();
        answer = std::to_string(texts.compare(x, from, y, j, number()));
    }
    return true;
}

static uint32_t many(cordkit::session &session, uint32_t r) {
    const std::string taken = bytes();
    std::vector<cord_change> changes(number());
    for (cord_change &change : changes) change.p = number(), change.m = number(), change.n = number();
    return session.many(r, changes, taken);
}

static uint32_t apply(cordkit::session &session, const std::string &name) {
    if (name == "code") return session.apply({byte(), 0, 0, 0, 0, 0, 0, cord_nothing, 0, cord_no_changes, 0});
    if (name == "new") return session.make_new();
    const uint32_t r = narrow();
    if (name == "open") return session.open(r);
    if (name == "back") return session.back(r);
    if (name == "balance") return session.balance(r);
    if (name == "join") return session.join(r, narrow());
    if (name == "many") return many(session, r);
    const uint64_t p = number();
    if (name == "insert") return session.insert(r, p, bytes());
    if (name == "delete") return session.erase(r, p, number());
    if (name == "cut") return session.cut(r, p, number());
    const uint64_t second = number();
    if (name == "replace") return session.replace(r, p, second, bytes());
    if (name == "fill") return session.fill(r, p, static_cast<uint8_t>(second), number());
    const uint64_t i = number();
    return session.paste(r, p, second < UINT32_MAX ? static_cast<uint32_t>(second) : UINT32_MAX, i, number());
}

static void resume(cordkit::session &session, std::string &answer) {
    std::ifstream file(word(), std::ios::binary);
    const std::string image{std::istreambuf_iterator<char>(file), {}};
    std::vector<cord_source> sources;
    for (std::string hex = word(); !hex.empty(); hex = word()) sources.push_back(cordkit::held(kept(from_hex(hex))));
    cord_verdict verdict{};
    cord_check(cordkit::bytes_of(image), image.size(), sources.empty() ? cord_no_sources : sources.data(), sources.size(), &verdict);
    try {
        session = cordkit::session(image, sources);
    } catch (const cordkit::refused &refused) {
        answer = std::to_string(refused.code()) + ' ' + std::to_string(refused.verdict.code) + " 0 0";
        return;
    }
    answer = "0 0 " + std::to_string(verdict.revisions) + ' ' + std::to_string(verdict.rows);
}

static std::string make_rope(cordkit::store &store, std::vector<cord_rope> &made, const std::string &call) {
    const auto rope = [&] {
        const uint64_t k = number();
        return k < made.size() ? made[k] : UINT64_MAX;
    };
    if (call == "depth") return std::to_string(store.depth(rope()));
    if (call == "bytes") made.push_back(store.bytes(bytes()));
    else if (call == "balance") made.push_back(store.balance(rope()));
    else if (call == "part" || call == "function") {
        const uint32_t which = narrow();
        const std::string pattern = call == "function" ? bytes() : "";
        const uint64_t i = number();
        made.push_back(call == "part" ? store.source(which, i, number()) : store.function(which, pattern, i));
    } else {
        const cord_rope x = rope();
        if (call == "fetch") return std::to_string(store.fetch(x, number()));
        if (call == "cat") made.push_back(store.cat(x, rope()));
        if (call == "append") made.push_back(store.append(x, bytes()));
        const uint64_t i = call == "substr" ? number() : 0;
        if (call == "substr") made.push_back(store.substr(x, i, number()));
    }
    return std::to_string(made.size() - 1);
}

static std::string answer_of(cordkit::session &session, cordkit::store &store, std::vector<cord_rope> &made) {
    const std::string owner = word(), call = word();
    std::string answer;
    const auto rope = [&] {
        const uint64_t k = number();
        return k < made.size() ? made[k] : UINT64_MAX;
    };
    if (owner == "t") return ask(store, call, rope, answer) ? answer : make_rope(store, made, call);
    if (ask(session, call, narrow, answer)) return answer;
    if (call == "save") {
        const std::string image = session.image();
        std::ofstream(word(), std::ios::binary) << image;
        return std::to_string(image.size());
    }
    if (call != "sizes") return std::to_string(apply(session, call));
    const cord_sizes sizes = session.sizes();
    return std::to_string(sizes.revisions) + ' ' + std::to_string(sizes.sources) + ' ' + std::to_string(sizes.pool);
}

int main() {
    cordkit::session session;
    cordkit::store store;
    std::vector<cord_rope> made;
    session.close();
    store.close();
    for (std::string text; std::getline(std::cin, text);) {
        line = std::istringstream(text);
        if (text.rfind("s resume ", 0) == 0) {
            std::string answer;
            word(), word(), resume(session, answer);
            std::cout << answer << '\n';
            continue;
        }
        try {
            const std::string answer = answer_of(session, store, made);
            std::cout << (answer.empty() ? "0" : answer == "WRITTEN" ? answer : "0 " + answer) << '\n';
        } catch (const cordkit::error &refused) {
            std::cout << refused.code() << '\n';
        }
    }
}
