// owning: that a session and a store are moved and not copied, that what was moved from is closed, and that each refusal has its code.
#include "../cord_session.hpp"
#include <cstdio>
#include <type_traits>

static int failed = 0;

#define CHECK(x)                                                \
    do {                                                        \
        if (!(x)) failed++, std::printf("%d: %s\n", __LINE__, #x); \
    } while (0)

template <class call> uint32_t code_of(call &&ask) {
    try {
        ask();
    } catch (const cordkit::error &error) {
        return error.code();
    }
    return CORD_DONE;
}

static_assert(!std::is_copy_constructible_v<cordkit::session> && !std::is_copy_assignable_v<cordkit::session>);
static_assert(!std::is_copy_constructible_v<cordkit::store> && !std::is_copy_assignable_v<cordkit::store>);
static_assert(std::is_nothrow_move_constructible_v<cordkit::session> && std::is_nothrow_move_assignable_v<cordkit::store>);

static void moves() {
    cordkit::session first;
    const uint32_t k = first.insert(first.make_new(), 0, "the fox");
    cordkit::session second(std::move(first));
    CHECK(second.text(k) == "the fox");
    CHECK(code_of([&] { first.len(k); }) == CORD_CLOSED);
    CHECK(code_of([&] { first.make_new(); }) == CORD_CLOSED);
    cordkit::session third;
    third.make_new();
    third = std::move(second);
    CHECK(third.text(k) == "the fox" && third.sizes().revisions == 2);
    CHECK(code_of([&] { second.image(); }) == CORD_CLOSED);
    third.close();
    CHECK(code_of([&] { third.back(0); }) == CORD_CLOSED);
    std::vector<cordkit::store> stores(3);
    stores.emplace_back();
    const cord_rope rope = stores[3].append(stores[3].bytes("fox"), "es");
    CHECK(stores[3].text(rope) == "foxes" && stores[3].text(rope, 1, 2) == "ox" && stores[3].text(rope, 9).empty());
    CHECK(code_of([&] { stores[0].len(rope); }) == CORD_NO_ROPE);
}

static void refusals() {
    cordkit::session session;
    session.add_source(cordkit::unheld(9));
    const uint32_t k = session.open(0);
    CHECK(code_of([&] { session.text(k); }) == CORD_UNHELD);
    CHECK(code_of([&] { session.text(k + 1); }) == CORD_NO_REVISION);
    CHECK(code_of([&] { session.open(1); }) == CORD_NO_SOURCE);
    CHECK(code_of([&] { session.erase(k, 8, 2); }) == CORD_RANGE);
    CHECK(code_of([&] { session.insert(k, 0, ""); }) == CORD_EMPTY_TEXT);
    CHECK(code_of([&] { session.add_source(cordkit::unheld(UINT64_MAX)); }) == CORD_TOO_LONG);
    CHECK(session.sizes().revisions == 1 && session.sizes().sources == 1 && !session.find(k + 0, "", 10));
    const std::string image = session.image();
    CHECK(cordkit::session(image, {cordkit::unheld(9)}).len(0) == 9);
    try {
        cordkit::session refused(image);
        CHECK(false);
    } catch (const cordkit::refused &refused) {
        CHECK(refused.code() == CORD_REFUSED && refused.verdict.code == 2);
        CHECK(std::string(refused.what()) == "CORD_REFUSED (62)");
    }
}

int main() {
    moves();
    refusals();
    return failed != 0;
}
