// The search of search.c in C++17, which says how it goes and what it counts: the same book, the same plan, the same nodes.
#include "nested_gcc.h"
#include <cstddef>
#include <cstdint>
#include <array>
#include <cstdlib>
#include <iostream>
#include <memory>
#include <optional>
#include <vector>

namespace {

struct Row {
    unsigned type, end, lower, upper;
};

constexpr unsigned types = 4;
constexpr std::array<unsigned, 16> book_masks = { 7, 7, 7, 7, 13, 13, 13, 13, 14, 14, 14, 14, 15, 15, 15, 15 };
constexpr std::array<Row, 5> rows = { {
    { 0, 6, 0, 2 },
    { 1, 12, 6, NESTED_GCC_NO_UPPER },
    { 1, 16, 8, NESTED_GCC_NO_UPPER },
    { 2, 14, 2, NESTED_GCC_NO_UPPER },
    { 3, 16, 3, NESTED_GCC_NO_UPPER },
} };

std::vector<std::uint8_t> make_book() {
    std::vector<std::uint8_t> book;
    const auto put16 = [&book](std::size_t value) {
        book.push_back(static_cast<std::uint8_t>(value & 255));
        book.push_back(static_cast<std::uint8_t>(value >> 8));
    };
    const std::size_t rows_at = 12 + 4 * book_masks.size(), length = rows_at + 8 * rows.size();
    for (std::size_t field : { book_masks.size(), std::size_t{types}, rows.size(), std::size_t{12}, rows_at, length })
        put16(field);
    for (unsigned mask : book_masks) put16(mask), put16(0);
    for (const Row &row : rows) put16(row.type), put16(row.end), put16(row.lower), put16(row.upper);
    return book;
}

// A kept session on the heap. Its copy would be a second session that stands where this one does.
class Session {
public:
    explicit Session(const std::vector<std::uint8_t> &book) : state(std::make_unique<nested_gcc_state>()) {
        check(nested_gcc_open(book.data(), book.size(), state.get()));
    }

    bool live() const { return nested_gcc_standing(state.get()) == NESTED_GCC_STANDING_LIVE; }
    unsigned slots() const { return nested_gcc_slots(state.get()); }
    std::uint32_t mask(unsigned slot) const { return state->masks[slot]; }

    void mark() { call(NESTED_GCC_MARK, 0, 0); }
    void back() { call(NESTED_GCC_BACK, 0, 0); }
    void assign(unsigned slot, unsigned type) { call(NESTED_GCC_ASSIGN, type, slot); }
    void remove(unsigned slot, unsigned type) { call(NESTED_GCC_REMOVE, type, slot); }

private:
    std::unique_ptr<nested_gcc_state> state;

    static void check(std::uint32_t answer) {
        if (answer < NESTED_GCC_REFUSED) return;
        std::cout << "refused " << answer - NESTED_GCC_REFUSED << '\n';
        std::exit(1);
    }

    void call(std::uint32_t kind, unsigned type, unsigned slot) {
        std::uint32_t answer[2];
        check(nested_gcc_call(state.get(), kind, type, slot, answer));
    }
};

unsigned first_type(std::uint32_t mask) {
    unsigned v = 0;
    while ((mask >> v & 1) == 0) v++;
    return v;
}

struct Search {
    Session session;
    int nodes = 0, dead = 0;

    std::optional<unsigned> first_open_slot() const {
        for (unsigned slot = 0; slot < session.slots(); slot++) {
            const std::uint32_t mask = session.mask(slot);
            if ((mask & (mask - 1)) != 0) return slot;
        }
        return std::nullopt;
    }

    // Whether there is a plan from where the session stands; the masks then have one type each.
    bool run() {
        nodes++;
        if (!session.live()) {
            dead++;
            return false;
        }
        const auto slot = first_open_slot();
        if (!slot) return true;
        const unsigned type = first_type(session.mask(*slot));
        session.mark();
        session.assign(*slot, type);
        if (run()) return true;
        session.back();
        session.remove(*slot, type);
        return run();
    }
};

// Looked at without the library.
bool keeps_masks_and_rows(const std::vector<unsigned> &plan) {
    for (std::size_t slot = 0; slot < plan.size(); slot++) {
        if ((book_masks[slot] >> plan[slot] & 1) == 0) return false;
    }
    for (const Row &row : rows) {
        unsigned count = 0;
        for (unsigned slot = 0; slot < row.end; slot++) count += plan[slot] == row.type;
        if (count < row.lower || count > row.upper) return false;
    }
    return true;
}

} // namespace

int main() {
    Search search{ Session(make_book()) };
    if (!search.run()) {
        std::cout << "no plan\n";
        return 1;
    }
    std::vector<unsigned> plan;
    for (unsigned slot = 0; slot < search.session.slots(); slot++) plan.push_back(first_type(search.session.mask(slot)));
    if (!keeps_masks_and_rows(plan)) {
        std::cout << "the masks or the rows are broken\n";
        return 1;
    }
    std::cout << "plan";
    for (unsigned type : plan) std::cout << ' ' << type;
    std::cout << "\nnodes " << search.nodes << ", of which " << search.dead << " dead\n";
}
