// cord_session.hpp: ropes and sessions for C++17, over cord_session.h, which says what each call answers. A session or a store ends what it holds; it
// can be moved and not copied, serves one call at a time, and stays on the thread that began it. A call that is refused throws its code.
#ifndef CORDKIT_CORD_SESSION_HPP
#define CORDKIT_CORD_SESSION_HPP

#include "cord_session.h"
#include <cstddef>
#include <cstdint>
#include <optional>
#include <stdexcept>
#include <string>
#include <string_view>
#include <utility>
#include <vector>

namespace cordkit {

// The name that cord_session.h gives a code.
inline const char *code_name(uint32_t code) {
    switch (code) {
    case CORD_DONE: return "CORD_DONE";
    case CORD_MEMORY: return "CORD_MEMORY";
    case CORD_CLOSED: return "CORD_CLOSED";
    case CORD_NO_COMMAND: return "CORD_NO_COMMAND";
    case CORD_NO_REVISION: return "CORD_NO_REVISION";
    case CORD_NO_SOURCE: return "CORD_NO_SOURCE";
    case CORD_RANGE: return "CORD_RANGE";
    case CORD_EMPTY_TEXT: return "CORD_EMPTY_TEXT";
    case CORD_MANY_REVISIONS: return "CORD_MANY_REVISIONS";
    case CORD_MANY_ROWS: return "CORD_MANY_ROWS";
    case CORD_MANY_PIECES: return "CORD_MANY_PIECES";
    case CORD_SPLICE_COUNT: return "CORD_SPLICE_COUNT";
    case CORD_MANY_SPLICES: return "CORD_MANY_SPLICES";
    case CORD_TOO_LONG: return "CORD_TOO_LONG";
    case CORD_TABLE_FULL: return "CORD_TABLE_FULL";
    case CORD_POOL_FULL: return "CORD_POOL_FULL";
    case CORD_BAD_SPAN: return "CORD_BAD_SPAN";
    case CORD_MANY_SOURCES: return "CORD_MANY_SOURCES";
    case CORD_NO_ROPE: return "CORD_NO_ROPE";
    case CORD_LONG_PATTERN: return "CORD_LONG_PATTERN";
    case CORD_UNHELD: return "CORD_UNHELD";
    case CORD_BAD_SOURCES: return "CORD_BAD_SOURCES";
    case CORD_OVER_SOURCE: return "CORD_OVER_SOURCE";
    case CORD_REFUSED: return "CORD_REFUSED";
    default: return "no code of cord_session.h";
    }
}

// A call is refused, and has changed no text: its code, such as CORD_RANGE.
class error : public std::runtime_error {
  public:
    explicit error(uint32_t code) : std::runtime_error(std::string(code_name(code)) + " (" + std::to_string(code) + ")"), number(code) {}
    uint32_t code() const noexcept { return number; }

  private:
    uint32_t number;
};

// An image is not taken up: the verdict on it, which names its first fault where the code is CORD_REFUSED.
class refused : public error {
  public:
    refused(uint32_t code, const cord_verdict &told) : error(code), verdict(told) {}
    cord_verdict verdict;
};

inline const uint8_t *bytes_of(std::string_view text) { return text.empty() ? cord_nothing : reinterpret_cast<const uint8_t *>(text.data()); }

// A source all of whose bytes are held, and one of which none is. Held bytes are borrowed: they stay where and as they are for as long as the
// session or the store is used.
inline cord_source held(std::string_view text) { return {bytes_of(text), text.size(), text.size()}; }
inline cord_source unheld(uint64_t size) { return {cord_nothing, 0, size}; }

namespace detail {

inline void want(uint32_t code) {
    if (code != CORD_DONE) throw error(code);
}

struct session_calls {
    using handle = cord_session;
    using number = uint32_t;
    static constexpr auto begin = cord_session_begin;
    static constexpr auto end = cord_session_end;
    static constexpr auto add_source = cord_session_add_source;
    static constexpr auto len = cord_session_len;
    static constexpr auto read = cord_session_read;
    static constexpr auto locate = cord_session_locate;
    static constexpr auto find = cord_session_find;
    static constexpr auto chr = cord_session_chr;
    static constexpr auto rchr = cord_session_rchr;
    static constexpr auto compare = cord_session_compare;
};

struct store_calls {
    using handle = cord_store;
    using number = cord_rope;
    static constexpr auto begin = cord_store_begin;
    static constexpr auto end = cord_store_end;
    static constexpr auto add_source = cord_store_add_source;
    static constexpr auto len = cord_store_len;
    static constexpr auto read = cord_store_read;
    static constexpr auto locate = cord_store_locate;
    static constexpr auto find = cord_store_find;
    static constexpr auto chr = cord_store_chr;
    static constexpr auto rchr = cord_store_rchr;
    static constexpr auto compare = cord_store_compare;
};

// What a session and a store have in common: a handle, sources, and texts that are asked by their numbers.
template <class calls> class owner {
  public:
    using number = typename calls::number;

    owner(const owner &) = delete;
    owner(owner &&other) noexcept : handle(std::exchange(other.handle, {nullptr, false})), sources(std::move(other.sources)) {}
    owner &operator=(owner &&other) noexcept {
        if (this == &other) return *this;
        calls::end(&handle);
        handle = std::exchange(other.handle, {nullptr, false});
        sources = std::move(other.sources);
        return *this;
    }
    ~owner() { calls::end(&handle); }

    // Frees all that it holds. Each later call is refused by CORD_CLOSED.
    void close() noexcept { calls::end(&handle); }

    // Adds a source, and answers its number.
    uint32_t add_source(const cord_source &source) {
        uint32_t made = 0;
        sources.reserve(sources.size() + 1);
        want(calls::add_source(&handle, source.size, &made));
        sources.push_back(source);
        return made;
    }

    uint64_t len(number x) {
        uint64_t length = 0;
        want(calls::len(&handle, x, &length));
        return length;
    }

    // Writes bytes of a text from a place on into out, to the end of the run there, and answers how many.
    size_t read(number x, uint64_t place, uint8_t *out, size_t room) {
        size_t count = 0;
        want(calls::read(&handle, given(), sources.size(), x, place, out, room, &count));
        return count;
    }

    // A text from a place on, or at most so many bytes of it.
    std::string text(number x, uint64_t place = 0, uint64_t count = UINT64_MAX) {
        const uint64_t length = len(x), left = place < length ? length - place : 0;
        std::string all(static_cast<size_t>(count < left ? count : left), '\0');
        for (size_t done = 0, got = 1; done < all.size() && got > 0; done += got)
            got = read(x, place + done, reinterpret_cast<uint8_t *>(&all[done]), all.size() - done);
        return all;
    }

    // Where the byte at a place stands, and how many follow it there.
    cord_run locate(number x, uint64_t place) {
        cord_run run{};
        want(calls::locate(&handle, x, place, &run));
        return run;
    }

    // The first place from `from` on of a pattern or of a byte, and the last of a byte at `from` or earlier; nothing where there is none.
    std::optional<uint64_t> find(number x, std::string_view pattern, uint64_t from = 0) {
        uint64_t place = 0;
        want(calls::find(&handle, given(), sources.size(), x, from, bytes_of(pattern), pattern.size(), &place));
        return found(place);
    }
    std::optional<uint64_t> find_byte(number x, uint8_t byte, uint64_t from = 0) {
        uint64_t place = 0;
        want(calls::chr(&handle, given(), sources.size(), x, from, byte, &place));
        return found(place);
    }
    std::optional<uint64_t> find_last_byte(number x, uint8_t byte, uint64_t from = UINT64_MAX) {
        uint64_t place = 0;
        want(calls::rchr(&handle, given(), sources.size(), x, from, byte, &place));
        return found(place);
    }

    // -1, 0 or 1, as at most n bytes of x from i on are less than those of y from j on, equal, or greater.
    int compare(number x, uint64_t i, number y, uint64_t j, uint64_t n = UINT64_MAX) {
        uint32_t order = 0;
        want(calls::compare(&handle, given(), sources.size(), x, i, y, j, n, &order));
        return static_cast<int>(order) - 1;
    }

  protected:
    owner() { want(calls::begin(&handle)); }
    explicit owner(std::vector<cord_source> all) : sources(std::move(all)) {}

    const cord_source *given() const { return sources.empty() ? cord_no_sources : sources.data(); }
    static std::optional<uint64_t> found(uint64_t place) { return place == UINT64_MAX ? std::nullopt : std::optional<uint64_t>(place); }

    typename calls::handle handle{nullptr, false};
    std::vector<cord_source> sources;
};

} // namespace detail

// A session, which keeps every revision of its texts. Each command makes the next revision, and answers its number; cord_session.h says what its text is.
class session : public detail::owner<detail::session_calls> {
  public:
    session() = default;

    // Goes on from an image, which is checked with these sources first.
    explicit session(std::string_view image, std::vector<cord_source> held_sources = {}) : owner(std::move(held_sources)) {
        cord_verdict verdict{};
        const uint32_t code = cord_session_resume(&handle, bytes_of(image), image.size(), given(), sources.size(), &verdict);
        if (code != CORD_DONE) throw refused(code, verdict);
    }

    uint32_t apply(const cord_command &command) {
        uint32_t revision = 0;
        detail::want(cord_session_apply(&handle, &command, &revision));
        return revision;
    }

    uint32_t make_new() { return apply(named(CORD_COMMAND_NEW)); }
    uint32_t open(uint32_t source) { return apply(named(CORD_COMMAND_OPEN, 0, source)); }
    uint32_t insert(uint32_t r, uint64_t p, std::string_view bytes) { return apply(named(CORD_COMMAND_INSERT, r, 0, p, 0, 0, bytes)); }
    uint32_t erase(uint32_t r, uint64_t p, uint64_t n) { return apply(named(CORD_COMMAND_DELETE, r, 0, p, 0, n)); }
    uint32_t replace(uint32_t r, uint64_t p, uint64_t n, std::string_view bytes) {
        return apply(named(CORD_COMMAND_REPLACE, r, 0, p, 0, n, bytes));
    }
    uint32_t paste(uint32_t r, uint64_t p, uint32_t q, uint64_t i, uint64_t n) { return apply(named(CORD_COMMAND_PASTE, r, q, p, i, n)); }
    uint32_t join(uint32_t r, uint32_t q) { return apply(named(CORD_COMMAND_JOIN, r, q)); }
    uint32_t cut(uint32_t r, uint64_t i, uint64_t n) { return apply(named(CORD_COMMAND_CUT, r, 0, 0, i, n)); }
    uint32_t fill(uint32_t r, uint64_t p, uint8_t byte, uint64_t n) {
        cord_command command = named(CORD_COMMAND_FILL, r, 0, p, 0, n);
        command.byte = byte;
        return apply(command);
    }
    uint32_t back(uint32_t r) { return apply(named(CORD_COMMAND_BACK, r)); }
    uint32_t balance(uint32_t r) { return apply(named(CORD_COMMAND_BALANCE, r)); }

    // r with all changes at once, which take the bytes in order, and leave none.
    uint32_t many(uint32_t r, const std::vector<cord_change> &changes, std::string_view bytes) {
        cord_command command = named(CORD_COMMAND_MANY, r, 0, 0, 0, 0, bytes);
        command.changes = changes.empty() ? cord_no_changes : changes.data();
        command.change_count = changes.size();
        return apply(command);
    }

    cord_sizes sizes() {
        cord_sizes told{};
        detail::want(cord_session_sizes(&handle, &told));
        return told;
    }

    // The image, which `cordkit check` and a later session take.
    std::string image() {
        uint64_t length = 0;
        size_t count = 0;
        detail::want(cord_session_save(&handle, &length));
        std::string all(static_cast<size_t>(length), '\0');
        detail::want(cord_session_saved(&handle, 0, reinterpret_cast<uint8_t *>(&all[0]), all.size(), &count));
        detail::want(cord_session_forget(&handle));
        return all;
    }

  private:
    static cord_command named(uint8_t code, uint32_t r = 0, uint32_t q = 0, uint64_t p = 0, uint64_t i = 0, uint64_t n = 0, std::string_view bytes = {}) {
        return {code, 0, r, q, p, i, n, bytes_of(bytes), bytes.size(), cord_no_changes, 0};
    }
};

// Ropes without a history, by their numbers: 0 is the empty one. A number means nothing to another store.
class store : public detail::owner<detail::store_calls> {
  public:
    store() = default;

    cord_rope bytes(std::string_view text) {
        return made([&](cord_rope *rope) { return cord_store_bytes(&handle, bytes_of(text), text.size(), rope); });
    }
    cord_rope source(uint32_t source, uint64_t i, uint64_t n) {
        return made([&](cord_rope *rope) { return cord_store_source(&handle, source, i, n, rope); });
    }
    cord_rope function(uint32_t function, std::string_view pattern, uint64_t n) {
        return made([&](cord_rope *rope) { return cord_store_function(&handle, function, bytes_of(pattern), pattern.size(), n, rope); });
    }
    cord_rope cat(cord_rope x, cord_rope y) {
        return made([&](cord_rope *rope) { return cord_store_cat(&handle, x, y, rope); });
    }
    cord_rope append(cord_rope x, std::string_view text) {
        return made([&](cord_rope *rope) { return cord_store_append(&handle, x, bytes_of(text), text.size(), rope); });
    }
    cord_rope substr(cord_rope x, uint64_t i, uint64_t n) {
        return made([&](cord_rope *rope) { return cord_store_substr(&handle, x, i, n, rope); });
    }
    cord_rope balance(cord_rope x) {
        return made([&](cord_rope *rope) { return cord_store_balance(&handle, x, rope); });
    }

    uint32_t depth(cord_rope x) {
        uint32_t told = 0;
        detail::want(cord_store_depth(&handle, x, &told));
        return told;
    }
    uint8_t fetch(cord_rope x, uint64_t place) {
        uint8_t byte = 0;
        detail::want(cord_store_fetch(&handle, given(), sources.size(), x, place, &byte));
        return byte;
    }

  private:
    template <class call> static cord_rope made(call &&ask) {
        cord_rope rope = 0;
        detail::want(ask(&rope));
        return rope;
    }
};

} // namespace cordkit

#endif
