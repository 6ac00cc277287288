/*
 * Times the sessions of several trees' archives against the engine `walls` of a comparison bench; tools/trees builds
 * and runs it: trees scripts FOLDER ROUNDS NAME.., or trees search FOLDER ROUNDS NAME.. Of a script, a run of the
 * whole less one of no calls, over its decisions, is all-in. Of the search of tools/search.hpp, 10,000 nodes by
 * single calls on a kept session are taken, over their number. Each figure is the least of the rounds, in which the
 * contenders take turns. A session that answers otherwise than expected, or otherwise than `walls` in the search, ends
 * the program with status 1.
 */
#include "search.hpp"
#include <cmath>

using Session = u32(const u8 *, size_t, const u8 *, size_t, u8 *, size_t, u8 *, size_t);
using Open = u32(const u8 *, size_t, u32 *, size_t, u16 *, size_t, u8 *, size_t, u16 *, size_t, size_t *, size_t);
using Make = Ans(u32, u32, u32, u32 *, size_t, u16 *, size_t, u8 *, size_t, u16 *, size_t, size_t *, size_t);

#define TREE(number, name) extern "C" Session session_##number; extern "C" Open open_in_##number; extern "C" Make call_in_##number;
#include "trees.inc"
#undef TREE

struct Tree {
    const char *name;
    Session *session;
    Open *open;
    Make *call;
};

static const Tree trees[] = {
#define TREE(number, name) { name, session_##number, open_in_##number, call_in_##number },
#include "trees.inc"
#undef TREE
};

const size_t TREES = sizeof trees / sizeof *trees;

struct Instance {
    std::vector<u8> book, calls, expected;
    std::vector<Call> script;
    size_t slots, decisions;
};

static Instance read_instance(const std::string &path) {
    Instance in{ slurp(path + ".book"), slurp(path + ".calls"), slurp(path + ".exp"), {}, 0, 0 };
    in.script = read_calls(in.calls);
    in.slots = g16(in.book.data());
    for (auto &call : in.script) in.decisions += call.kind <= REMOVE;
    return in;
}

/* Opens the book and makes the first `calls` calls, on a tree's session, or on `walls`. */
struct Runner {
    const Instance &in;
    std::vector<u8> answers, masks;
    std::unique_ptr<Walls> walls = std::make_unique<Walls>();
    std::vector<Ans> out;
    explicit Runner(const Instance &instance)
        : in(instance), answers(2 * in.calls.size()), masks(4 * in.slots), out(in.script.size()) {}
    void run(size_t contender, size_t calls) {
        if (contender == TREES) {
            Book book;
            read_book(in.book.data(), in.book.size(), book);
            walls->open(book);
            run_calls(*walls, in.script.data(), calls, out.data());
            return;
        }
        trees[contender].session(in.book.data(), in.book.size(), in.calls.data(), 4 * calls, answers.data(), answers.size(),
                                 masks.data(), masks.size());
    }
    bool right(size_t contender) {
        if (contender == TREES) return true;
        run(contender, in.script.size());
        return std::equal(answers.begin(), answers.end(), in.expected.begin()) &&
               std::equal(masks.begin(), masks.end(), in.expected.begin() + answers.size());
    }
    double time(size_t contender, size_t calls, size_t runs) {
        double begin = cpu_ns();
        for (size_t i = 0; i < runs; i++) run(contender, calls);
        return (cpu_ns() - begin) / runs;
    }
};

/* A session kept in lent memory. */
struct Kept {
    u32 masks[256];
    u16 cells[16528], heights[256];
    u8 trail[25088];
    size_t record[7];
    Make *make;
    Kept(const Tree &tree, const std::vector<u8> &book) : make(tree.call) {
        tree.open(book.data(), book.size(), masks, 256, cells, 16528, trail, 25088, heights, 256, record, 7);
    }
    Ans call(u8 kind, u8 type, u16 slot) {
        return make(kind, type, slot, masks, 256, cells, 16528, trail, 25088, heights, 256, record, 7);
    }
    u32 mask(size_t slot) const { return masks[slot]; }
};

struct KeptWalls {
    Walls walls;
    explicit KeptWalls(const std::vector<u8> &book) {
        Book read;
        read_book(book.data(), book.size(), read);
        walls.open(read);
    }
    Ans call(u8 kind, u8 type, u16 slot) { return one_call(walls, Call{ kind, type, slot }); }
    u32 mask(size_t slot) const { return walls.mask[slot]; }
};

struct Searched {
    static const size_t NODES = 10000;
    const Instance &in;
    std::unique_ptr<KeptWalls> walls;
    std::vector<std::unique_ptr<Kept>> kept;
    explicit Searched(const Instance &instance) : in(instance), walls(std::make_unique<KeptWalls>(in.book)) {
        for (auto &tree : trees) kept.push_back(std::make_unique<Kept>(tree, in.book));
    }
    template <bool LOOK> Seen run(size_t contender) {
        if (contender == TREES) return search<LOOK>(*walls, in.slots, NODES);
        return search<LOOK>(*kept[contender], in.slots, NODES);
    }
    bool right(size_t contender) {
        Seen ours = run<true>(contender), theirs = run<true>(TREES);
        return !ours.refused && ours.words == theirs.words && ours.masks == theirs.masks;
    }
    double time(size_t contender) {
        double begin = cpu_ns();
        run<false>(contender);
        return (cpu_ns() - begin) / NODES;
    }
};

/* For each contender, `walls` last, what a decision and an opening take; the least of the rounds. */
struct Least {
    std::vector<double> decision = std::vector<double>(TREES + 1, 1e18), opening = decision;
};

static Least scripts(const Instance &in, size_t rounds) {
    Runner runner(in);
    Least least;
    for (size_t i = 0; i < TREES; i++) {
        if (runner.right(i)) continue;
        fprintf(stderr, "%s does not answer as expected\n", trees[i].name);
        exit(1);
    }
    std::vector<double> whole(TREES + 1, 1e18);
    for (size_t round = 0; round < rounds; round++) {
        for (size_t turn = 0; turn <= TREES; turn++) {
            size_t i = (round + turn) % (TREES + 1);
            least.opening[i] = std::min(least.opening[i], runner.time(i, 0, 16));
            whole[i] = std::min(whole[i], runner.time(i, in.script.size(), in.slots < 150 ? 8 : 4));
        }
    }
    for (size_t i = 0; i <= TREES; i++) least.decision[i] = (whole[i] - least.opening[i]) / in.decisions;
    return least;
}

static Least searches(const Instance &in, size_t rounds) {
    Searched searched(in);
    Least least;
    for (size_t i = 0; i < TREES; i++) {
        if (searched.right(i)) continue;
        fprintf(stderr, "%s does not search as walls does\n", trees[i].name);
        exit(1);
    }
    for (size_t round = 0; round < rounds; round++) {
        for (size_t turn = 0; turn <= TREES; turn++) {
            size_t i = (round + turn) % (TREES + 1);
            least.decision[i] = std::min(least.decision[i], searched.time(i));
        }
    }
    return least;
}

int main(int count, char **words) {
    if (count < 5) return 2;
    bool search = words[1] == std::string("search");
    size_t rounds = atoi(words[3]);
    std::vector<double> logs(TREES), worst(TREES);
    printf("%-14s %10s", words[1], "walls");
    for (auto &tree : trees) printf(" %13.13s", tree.name);
    puts("");
    for (int at = 4; at < count; at++) {
        Instance in = read_instance(std::string(words[2]) + "/" + words[at]);
        Least least = search ? searches(in, rounds) : scripts(in, rounds);
        double walls = least.decision[TREES];
        printf(search ? "%-14s %10.0f" : "%-14s %5.0f/%4.0f", words[at], walls, least.opening[TREES] / 1e3);
        for (size_t i = 0; i < TREES; i++) {
            double ratio = least.decision[i] / walls;
            printf(search ? " %13.2f" : "   %5.2f/%5.2f", ratio, least.opening[i] / least.opening[TREES]);
            logs[i] += std::log(ratio);
            worst[i] = std::max(worst[i], ratio);
        }
        puts("");
        fflush(stdout);
    }
    printf("%-14s %10s", "mean/worst", "");
    for (size_t i = 0; i < TREES; i++) printf("   %5.3f/%5.2f", std::exp(logs[i] / (count - 4)), worst[i]);
    puts("");
}
