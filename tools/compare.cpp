/*
 * Times sessions against contenders of a comparison bench, on the bench's books and call scripts, and prints a table in
 * markdown; tools/compare builds and runs it. The bench's sources are no part of this repository.
 *
 *     compare all-in FOLDER NAME..    against the hand-written engines walls and budget
 *     compare kinds FOLDER NAME..     against walls: what the kinds of calls take
 *     compare search FOLDER NAME..    against walls, and replayed: a search on a kept session
 *     compare probes FOLDER NAME..    against walls, and sessions of one call: every assignment on a book, tried
 *     compare gecode FOLDER NAME..    against models in Gecode, in the program built with -DGECODE
 *     compare wrong FOLDER NAME..     no table: status 0 if every contender is found to answer other than expected
 *     compare wrong-search FOLDER NAME..    no table: status 0 if each searcher is found out by one damaged answer
 *     compare wrong-probes FOLDER NAME..    no table: status 0 if each prober is found out by one damaged byte
 *
 * An instance is three files: NAME.book, NAME.calls, and NAME.exp with what is expected: two words a call, then the
 * last masks. A contender that writes anything else ends the program with status 1, and no table is printed. A model
 * in Gecode has no answers to write: of each decision it is compared whether it is live and how many types it
 * strikes, and then the last masks.
 *
 * - The contenders take turns, another one first in each round. A figure of a round is the processor time of this
 *   thread for as many runs as take a millisecond or more, over their number; so caches and branch predictors know the
 *   script. There are 15 rounds or more, as many as fit into two seconds. A figure of a table is a median over the
 *   rounds, a ratio one of medians.
 * - An opening is a run with no calls. For the engines and models it has the reading of the book in it.
 * - All-in is the time of a run of the whole script less that of an opening, over the script's decisions (assign and
 *   remove): all that is called between decisions is in it. The engines and models are handed the calls as structs,
 *   the session as bytes.
 * - By kind: each descent of the script (from no open mark to the back of the last) is run as a script of its own. A
 *   back is one of the row of backs that ends a descent: the time of the descent less that of the descent cut before
 *   the row, over the row's backs. A decision is the time of the cut descent less that of an opening, over its
 *   decisions: its mark is in it, and the backs out of dead ends. Both are summed over the descents. A mark and a
 *   back: those of a list of 256 marks and 256 backs in turn. No clock is read within a session. These figures add up
 *   to less than all-in, since a short script that is run again and again takes less for each call than a long one.
 * - Search: that of tools/search.hpp, 10,000 nodes from the root, by single calls on a session that was opened before
 *   the clock runs; the figure is the time of a run over its nodes. `walls` is kept in memory likewise, and reached by one
 *   function that is not inlined. Replayed is the same search where each node is a session of its own, of the decisions in
 *   force; it runs 200 nodes. Before and after the rounds each contender searches once more, and all words of its answers
 *   and all masks after each node are compared with those of `walls`; in the rounds the words are.
 * - Probes: each type in each slot, slot by slot. The entry takes lists of at most 4096 calls, as bytes, and each list
 *   opens the book; `walls` opens it once for all, is handed structs, and makes a mark, the assignment and a back for
 *   each. Sessions: every 17th of the calls, a session for each; 17 shares no factor with the numbers of types, so
 *   every type has its turns. A figure is the time of a run, its openings included, over the probes that were made.
 *   What is expected of a probe is what `budget` answers, opened anew for it. Before and after the rounds every byte
 *   that a contender writes is compared with that.
 *   Each book is probed fresh, where its masks are full and hardly a probe dies, and half planned: with the masks of a
 *   state of its script. Of the live states after a decision, with at most half of the slots fixed, it is the first
 *   where the most probes die though the slot has the type.
 */
#ifdef GECODE
#define main gecode_replay_main
#include "gecode_replay.cpp"
#undef main
#else
#include "engines.hpp"
#endif
#include "nested_gcc.h"
#ifndef GECODE
#include "search.hpp"
#endif
#include <cmath>
#include <cstdarg>

namespace compare {

using Bytes = std::vector<u8>;
using Times = std::vector<double>;

const size_t ROUNDS = 15;
const double ROUNDS_NS = 2e9;
const double FIGURE_NS = 1e6;

[[noreturn]] void fail(const char *format, ...) {
    va_list arguments;
    va_start(arguments, format);
    fputs("compare: ", stderr);
    vfprintf(stderr, format, arguments);
    fputc('\n', stderr);
    va_end(arguments);
    exit(1);
}

/* ---- instances ---- */

struct Instance {
    std::string name;
    Bytes book, calls, expected;
    std::vector<Call> script;
    size_t slots;

    Instance(const std::string &folder, const std::string &called) : name(called) {
        book = slurp(folder + "/" + name + ".book");
        calls = slurp(folder + "/" + name + ".calls");
        expected = slurp(folder + "/" + name + ".exp");
        script = read_calls(calls);
        slots = book.size() < 12 ? 0 : g16(book.data());
        bool whole = calls.size() == 4 * script.size() && expected.size() == 8 * script.size() + 4 * slots;
        if (slots == 0 || !whole || decisions() == 0) fail("%s: no instance", name.c_str());
    }

    size_t decisions() const {
        return std::count_if(script.begin(), script.end(), [](Call call) { return call.kind <= REMOVE; });
    }
    Ans answer(size_t call) const { return { g32(&expected[8 * call]), g32(&expected[8 * call + 4]) }; }
    u32 last_mask(size_t slot) const { return g32(&expected[8 * script.size() + 4 * slot]); }
};

/* ---- contenders ---- */

struct Contender {
    const Instance &in;
    explicit Contender(const Instance &instance) : in(instance) {}
    virtual ~Contender() {}
    virtual const char *name() const = 0;
    /* Opens the book and makes the first `calls` calls. */
    virtual void run(size_t calls) = 0;
    /* Whether a run of the whole script is as expected. */
    virtual bool right() = 0;
    /* Gives up what the last run holds. No clock runs meanwhile. */
    virtual void rest() {}
};

using Contenders = std::vector<std::unique_ptr<Contender>>;

struct Proved : Contender {
    Bytes answers, masks;
    explicit Proved(const Instance &instance)
        : Contender(instance), answers(2 * in.calls.size()), masks(4 * in.slots) {}
    const char *name() const override { return "proved"; }
    void run(size_t calls) override {
        u32 opened = nested_gcc_session(in.book.data(), in.book.size(), in.calls.data(), 4 * calls, answers.data(),
                                        answers.size(), masks.data(), masks.size());
        if (opened != NESTED_GCC_LIVE) fail("%s: the session answers %u", in.name.c_str(), opened);
    }
    bool right() override {
        std::fill(answers.begin(), answers.end(), 0xa5);
        std::fill(masks.begin(), masks.end(), 0xa5);
        run(in.script.size());
        return std::equal(answers.begin(), answers.end(), in.expected.begin()) &&
               std::equal(masks.begin(), masks.end(), in.expected.begin() + answers.size());
    }
};

template <class Engine> void open_engine(Engine &engine, const Instance &in) {
    Book book;
    if (read_book(in.book.data(), in.book.size(), book) || !engine.open(book))
        fail("%s: %s does not open", in.name.c_str(), Engine::name);
}

template <class Engine> struct Plain : Contender {
    std::unique_ptr<Engine> engine = std::make_unique<Engine>();
    std::vector<Ans> answers;
    explicit Plain(const Instance &instance) : Contender(instance), answers(in.script.size()) {}
    const char *name() const override { return Engine::name; }
    void run(size_t calls) override {
        open_engine(*engine, in);
        run_calls(*engine, in.script.data(), calls, answers.data());
    }
    bool right() override {
        std::fill(answers.begin(), answers.end(), Ans{ ~0u, ~0u });
        run(in.script.size());
        for (size_t call = 0; call < answers.size(); call++) {
            if (!(answers[call] == in.answer(call))) return false;
        }
        for (size_t slot = 0; slot < in.slots; slot++) {
            if (engine->show(slot) != in.last_mask(slot)) return false;
        }
        return true;
    }
};

#ifdef GECODE

struct Model : Contender {
    const char *called;
    Opt options;
    Player player;
    Model(const Instance &instance, const char *model, int clone_distance) : Contender(instance), called(model) {
        options.model = model;
        options.cd = clone_distance;
    }
    const char *name() const override { return called; }
    void open() {
        Book book;
        opt = options;
        if (read_book(in.book.data(), in.book.size(), book) || !player.open(book))
            fail("%s: %s does not open", in.name.c_str(), called);
    }
    void run(size_t calls) override {
        open();
        for (size_t call = 0; call < calls; call++) player.call(in.script[call]);
    }
    void rest() override { player.clear(); }
    u32 ones() {
        u32 sum = 0;
        for (size_t slot = 0; slot < in.slots; slot++) sum += player.cur->x[slot].size();
        return sum;
    }
    void settle() {
        player.fresh();
        player.cur->status();
    }
    /* Makes one call; whether a decision is answered as expected. */
    bool decided(size_t call) {
        if (in.script[call].kind > REMOVE) return player.call(in.script[call]) == 0;
        if (player.dead) return false;
        settle();
        u32 before = ones();
        if (player.call(in.script[call]) != 0) return in.answer(call) == Ans{ NESTED_GCC_CALL_DEAD, 0 };
        return in.answer(call) == Ans{ NESTED_GCC_CALL_LIVE, before - ones() };
    }
    bool right() override {
        open();
        for (size_t call = 0; call < in.script.size(); call++) {
            if (!decided(call)) return false;
        }
        if (player.dead) return false;
        settle();
        for (size_t slot = 0; slot < in.slots; slot++) {
            if (player.cur->dom(slot) != in.last_mask(slot)) return false;
        }
        return true;
    }
};

#endif

/* The session, and what it is timed against. */
Contenders contenders_of(const Instance &instance) {
    Contenders contenders;
    contenders.push_back(std::make_unique<Proved>(instance));
#ifdef GECODE
    contenders.push_back(std::make_unique<Model>(instance, "nested", 8));
    contenders.push_back(std::make_unique<Model>(instance, "count", 1));
    contenders.push_back(std::make_unique<Model>(instance, "count", 8));
#else
    contenders.push_back(std::make_unique<Plain<Walls>>(instance));
    contenders.push_back(std::make_unique<Plain<Budget>>(instance));
#endif
    return contenders;
}

void check(Contender &contender) {
    if (!contender.right()) fail("%s: %s does not answer as expected", contender.in.name.c_str(), contender.name());
}

/* For instances that expect what is wrong. */
void find_out(const std::vector<Instance> &instances) {
    for (auto &instance : instances) {
        for (auto &contender : contenders_of(instance)) {
            if (contender->right())
                fail("%s: %s passes, though it is not as expected", instance.name.c_str(), contender->name());
        }
    }
}

/* ---- times ---- */

double time_of(Contender &contender, size_t calls, size_t runs) {
    contender.rest();
    double begin = cpu_ns();
    for (size_t i = 0; i < runs; i++) contender.run(calls);
    return (cpu_ns() - begin) / runs;
}

/* How many runs take as long as a figure must. */
size_t runs_of(Contender &contender, size_t calls) {
    size_t runs = 1;
    while (time_of(contender, calls, runs) * runs < FIGURE_NS) runs *= 2;
    return runs;
}

/* A quarter of the times lies below the first quartile, half of them below the second, the median. */
double quartile(Times times, int which) {
    std::sort(times.begin(), times.end());
    return times[(times.size() - 1) * which / 4];
}

double middle(const Times &times) { return quartile(times, 2); }

/* How far apart the first and the third quartile are, over the median. */
double spread(const Times &times) { return (quartile(times, 3) - quartile(times, 1)) / middle(times); }

/* The figures of a contender's rounds, in nanoseconds. */
struct Figures {
    size_t opening_runs, whole_runs;
    Times opening, all_in;
    explicit Figures(Contender &contender)
        : opening_runs(runs_of(contender, 0)), whole_runs(runs_of(contender, contender.in.script.size())) {}
    void round(Contender &contender) {
        opening.push_back(time_of(contender, 0, opening_runs));
        double whole = time_of(contender, contender.in.script.size(), whole_runs);
        all_in.push_back((whole - opening.back()) / contender.in.decisions());
    }
};

std::vector<Figures> take_turns(Contenders &contenders) {
    std::vector<Figures> figures;
    for (auto &contender : contenders) {
        check(*contender);
        figures.emplace_back(*contender);
    }
    double begin = cpu_ns();
    for (size_t round = 0; round < ROUNDS || cpu_ns() - begin < ROUNDS_NS; round++) {
        for (size_t turn = 0; turn < contenders.size(); turn++) {
            size_t at = (round + turn) % contenders.size();
            figures[at].round(*contenders[at]);
        }
    }
    for (auto &contender : contenders) check(*contender);
    return figures;
}

/* ---- tables ---- */

/* The ratios of a column: their geometric mean, the greatest and the least. */
struct Column {
    double logs = 0, greatest = 0, least = 1e18;
    size_t count = 0;
    double add(double ratio) {
        logs += std::log(ratio);
        greatest = std::max(greatest, ratio);
        least = std::min(least, ratio);
        count++;
        return ratio;
    }
    double mean() const { return std::exp(logs / count); }
};

/* A table is printed when its last row is there; below it stands how far the rounds were apart. */
struct Rows {
    std::string text;
    double widest = 0;
    void add(const char *format, ...) __attribute__((format(printf, 2, 3))) {
        char line[512];
        va_list arguments;
        va_start(arguments, format);
        vsnprintf(line, sizeof line, format, arguments);
        va_end(arguments);
        text += line;
    }
    void taken_from(const Times &times) { widest = std::max(widest, spread(times)); }
    void print() const {
        const char *below = "First and third quartile of the rounds are apart by at most";
        printf("%s\n%s %.0f%% of the median, over all figures of the table.\n", text.c_str(), below, 100 * widest);
    }
};

#ifdef GECODE

void gecode_table(const std::vector<Instance> &instances) {
    Rows rows;
    Column nested, count, count_by_8;
    rows.add("| Instance | nested, clone each 8th mark | count, clone each mark | count, clone each 8th mark | proved "
             "all-in, ns |\n|---|---|---|---|---|\n");
    for (auto &instance : instances) {
        fprintf(stderr, "compare: %s, Gecode\n", instance.name.c_str());
        Contenders contenders = contenders_of(instance);
        auto figures = take_turns(contenders);
        double proved = middle(figures[0].all_in);
        double ratios[3];
        for (int model = 0; model < 3; model++) ratios[model] = middle(figures[model + 1].all_in) / proved;
        rows.add("| %s | %.1f | %.1f | %.1f | %.0f |\n", instance.name.c_str(), nested.add(ratios[0]),
                 count.add(ratios[1]), count_by_8.add(ratios[2]), proved);
        for (auto &figure : figures) rows.taken_from(figure.all_in);
    }
    rows.add("| geometric mean | %.1f | %.1f | %.1f | |\n", nested.mean(), count.mean(), count_by_8.mean());
    rows.print();
}

#else

void all_in_table(const std::vector<Instance> &instances) {
    Rows rows;
    Column walls, budget, opening;
    rows.add("| Instance | all-in / walls | all-in / budget | opening / walls | proved all-in, ns | proved opening, us "
             "| rounds |\n|---|---|---|---|---|---|---|\n");
    for (auto &instance : instances) {
        fprintf(stderr, "compare: %s\n", instance.name.c_str());
        Contenders contenders = contenders_of(instance);
        auto figures = take_turns(contenders);
        double proved = middle(figures[0].all_in), opened = middle(figures[0].opening);
        rows.add("| %s | %.2f | %.2f | %.2f | %.0f | %.1f | %zu |\n", instance.name.c_str(),
                 walls.add(proved / middle(figures[1].all_in)), budget.add(proved / middle(figures[2].all_in)),
                 opening.add(opened / middle(figures[1].opening)), proved, opened / 1e3, figures[0].all_in.size());
        for (auto &figure : figures) {
            rows.taken_from(figure.all_in);
            rows.taken_from(figure.opening);
        }
    }
    rows.add("| geometric mean | %.2f | %.2f | %.2f | | | |\n", walls.mean(), budget.mean(), opening.mean());
    rows.add("| worst | %.2f | %.2f | %.2f | | | |\n", walls.greatest, budget.greatest, opening.greatest);
    rows.print();
}

/* The masks that a book opens with. */
Bytes opening_masks(const Instance &instance) {
    Bytes masks(4 * instance.slots);
    nested_gcc_settle(instance.book.data(), instance.book.size(), masks.data(), masks.size());
    return masks;
}

/* The calls from `begin` to `end` of a script, as a script of their own; no mark is open before or after them. */
Instance part_of(const Instance &instance, size_t begin, size_t end) {
    Instance part = instance;
    part.script = read_calls(part.calls = Bytes(&instance.calls[4 * begin], instance.calls.data() + 4 * end));
    part.expected = Bytes(&instance.expected[8 * begin], &instance.expected[8 * end]);
    Bytes masks = opening_masks(instance);
    part.expected.insert(part.expected.end(), masks.begin(), masks.end());
    return part;
}

/* The script's descents: from where no mark is open to the back of the last mark that is. */
std::vector<Instance> descents_of(const Instance &instance) {
    std::vector<Instance> descents;
    size_t begin = 0, open = 0;
    for (size_t call = 0; call < instance.script.size(); call++) {
        u8 kind = instance.script[call].kind;
        if (open == 0 && (kind <= REMOVE || kind == BACK))
            fail("%s: call %zu with no open mark", instance.name.c_str(), call);
        if (kind == MARK) open++;
        if (kind != BACK || --open > 0) continue;
        descents.push_back(part_of(instance, begin, call + 1));
        begin = call + 1;
    }
    if (descents.empty()) fail("%s: no descent", instance.name.c_str());
    return descents;
}

/* The same book with 256 marks and 256 backs in turn, till the list is full. */
Instance marks_alone(const Instance &instance) {
    Instance marks = instance;
    marks.calls.clear();
    marks.expected.clear();
    for (size_t call = 0; call < NESTED_GCC_CALLS_BYTES / 4; call++) {
        p32(marks.calls, call / MAXMARK % 2 ? NESTED_GCC_BACK : NESTED_GCC_MARK);
        p32(marks.expected, NESTED_GCC_CALL_DONE);
        p32(marks.expected, 0);
    }
    marks.script = read_calls(marks.calls);
    Bytes masks = opening_masks(instance);
    marks.expected.insert(marks.expected.end(), masks.begin(), masks.end());
    return marks;
}

/* A script cut after its first calls. */
struct Cut {
    Contender &contender;
    size_t calls, runs;
    Cut(Contender &cut, size_t first) : contender(cut), calls(first), runs(runs_of(cut, first)) {}
    double time() const { return time_of(contender, calls, runs); }
};

/* How many calls a script has before the row of backs that ends it. */
size_t bottom_of(const std::vector<Call> &script) {
    auto other = std::find_if(script.rbegin(), script.rend(), [](Call call) { return call.kind != BACK; });
    return script.rend() - other;
}

struct Descent {
    Cut opening, down, whole;
    explicit Descent(Contender &contender)
        : opening(contender, 0), down(contender, bottom_of(contender.in.script)),
          whole(contender, contender.in.script.size()) {}
};

/* What the kinds of calls take a contender; the figures of the rounds, in nanoseconds. */
struct Kinds {
    Contenders contenders;
    std::vector<Descent> descents;
    Cut marks_opening, marks;
    size_t decisions = 0, backs = 0;
    Times decision, back, mark_and_back;

    /* The last contender has the marks alone. */
    explicit Kinds(Contenders descents_and_marks)
        : contenders(std::move(descents_and_marks)), marks_opening(*contenders.back(), 0),
          marks(*contenders.back(), contenders.back()->in.script.size()) {
        for (auto &contender : contenders) check(*contender);
        for (size_t i = 0; i + 1 < contenders.size(); i++) {
            descents.emplace_back(*contenders[i]);
            decisions += contenders[i]->in.decisions();
            backs += descents[i].whole.calls - descents[i].down.calls;
        }
    }
    void round() {
        double down = 0, up = 0;
        for (auto &descent : descents) {
            double bottom = descent.down.time();
            down += bottom - descent.opening.time();
            up += descent.whole.time() - bottom;
        }
        decision.push_back(down / decisions);
        back.push_back(up / backs);
        mark_and_back.push_back((marks.time() - marks_opening.time()) / (marks.calls / 2));
    }
};

template <class C> Kinds kinds_of(const std::vector<Instance> &descents, const Instance &marks) {
    Contenders contenders;
    for (auto &descent : descents) contenders.push_back(std::make_unique<C>(descent));
    contenders.push_back(std::make_unique<C>(marks));
    return Kinds(std::move(contenders));
}

void kinds_table(const std::vector<Instance> &instances) {
    Rows rows;
    Column decision, back, mark_and_back;
    rows.add("| Instance | decision / walls | back / walls | mark and back / walls | decision, ns | back, ns | "
             "mark and back, ns |\n|---|---|---|---|---|---|---|\n");
    for (auto &instance : instances) {
        fprintf(stderr, "compare: %s, by kind of call\n", instance.name.c_str());
        std::vector<Instance> descents = descents_of(instance);
        Instance marks = marks_alone(instance);
        Kinds ours = kinds_of<Proved>(descents, marks), theirs = kinds_of<Plain<Walls>>(descents, marks);
        double begin = cpu_ns();
        for (size_t round = 0; round < ROUNDS || cpu_ns() - begin < ROUNDS_NS; round++) {
            (round % 2 ? ours : theirs).round();
            (round % 2 ? theirs : ours).round();
        }
        double times[3] = { middle(ours.decision), middle(ours.back), middle(ours.mark_and_back) };
        rows.add("| %s | %.2f | %.2f | %.2f | %.0f | %.0f | %.0f |\n", instance.name.c_str(),
                 decision.add(times[0] / middle(theirs.decision)), back.add(times[1] / middle(theirs.back)),
                 mark_and_back.add(times[2] / middle(theirs.mark_and_back)), times[0], times[1], times[2]);
        for (auto kinds : { &ours, &theirs }) {
            for (auto times_of_kind : { &kinds->decision, &kinds->back, &kinds->mark_and_back })
                rows.taken_from(*times_of_kind);
        }
    }
    rows.add("| geometric mean | %.2f | %.2f | %.2f | | | |\n", decision.mean(), back.mean(), mark_and_back.mean());
    rows.print();
}

/* ---- search ---- */

const size_t NODES = 10000;
const size_t NODES_REPLAYED = 200;

struct Kept {
    nested_gcc_state state;
    explicit Kept(const Instance &in) {
        if (nested_gcc_open(in.book.data(), in.book.size(), &state) != NESTED_GCC_LIVE)
            fail("%s: the session does not open live", in.name.c_str());
    }
    Ans call(u8 kind, u8 type, u16 slot) {
        u32 words[2];
        nested_gcc_call(&state, kind, type, slot, words);
        return { words[0], words[1] };
    }
    u32 mask(size_t slot) const { return state.masks[slot]; }
};

struct KeptWalls {
    Walls walls;
    explicit KeptWalls(const Instance &in) { open_engine(walls, in); }
    __attribute__((noinline)) Ans call(u8 kind, u8 type, u16 slot) {
        return one_call(walls, Call{ kind, type, slot });
    }
    u32 mask(size_t slot) const { return walls.mask[slot]; }
};

/* Runs the decisions in force anew at each node. */
struct Replayed {
    const Instance &in;
    Bytes calls, answers, masks, root;
    std::vector<size_t> marks;
    explicit Replayed(const Instance &instance) : in(instance), masks(4 * in.slots), root(opening_masks(in)) {}
    Ans mark() {
        if (marks.empty()) masks = root;
        marks.push_back(calls.size());
        return { NESTED_GCC_CALL_DONE, 0 };
    }
    Ans back() {
        calls.resize(marks.back());
        marks.pop_back();
        return { NESTED_GCC_CALL_DONE, 0 };
    }
    Ans decide(u8 kind, u8 type, u16 slot) {
        size_t before = calls.size();
        for (u8 byte : { kind, type, (u8)(slot % 256), (u8)(slot / 256) }) calls.push_back(byte);
        answers.resize(2 * calls.size());
        u32 opened = nested_gcc_session(in.book.data(), in.book.size(), calls.data(), calls.size(), answers.data(),
                                        answers.size(), masks.data(), masks.size());
        if (opened != NESTED_GCC_LIVE) fail("%s: a replayed session answers %u", in.name.c_str(), opened);
        Ans answer{ g32(&answers[2 * before]), g32(&answers[2 * before + 4]) };
        if (answer.a != NESTED_GCC_CALL_LIVE) calls.resize(before);
        return answer;
    }
    Ans call(u8 kind, u8 type, u16 slot) { return kind == MARK ? mark() : kind == BACK ? back() : decide(kind, type, slot); }
    u32 mask(size_t slot) const { return g32(&masks[4 * slot]); }
};

/* Another searcher, one of whose answers is damaged. */
template <class Searcher> struct Damaged : Searcher {
    size_t made = 0;
    using Searcher::Searcher;
    Ans call(u8 kind, u8 type, u16 slot) {
        Ans answer = Searcher::call(kind, type, slot);
        if (++made == 101) answer.b ^= 1;
        return answer;
    }
};

bool same(const Seen &one, const Seen &other) {
    return !one.refused && !other.refused && one.words == other.words && one.masks == other.masks;
}

/* A searcher on an instance, what `walls` meets in as many nodes, and the figures of the rounds, in nanoseconds. */
template <class Searcher> struct Searches {
    const Instance &in;
    size_t nodes;
    std::unique_ptr<Searcher> searcher;
    Seen expected;
    Times times;
    Searches(const Instance &instance, size_t count)
        : in(instance), nodes(count), searcher(std::make_unique<Searcher>(in)),
          expected(search<true>(*std::make_unique<KeptWalls>(in), in.slots, nodes)) {}
    bool right() { return same(search<true>(*searcher, in.slots, nodes), expected); }
    void check(const char *name) {
        if (!right()) fail("%s: %s does not search as walls does", in.name.c_str(), name);
    }
    void round() {
        double begin = cpu_ns();
        Seen seen = search<false>(*searcher, in.slots, nodes);
        times.push_back((cpu_ns() - begin) / nodes);
        if (seen.refused || seen.words != expected.words) fail("%s: a timed search differs", in.name.c_str());
    }
};

struct SearchFigures {
    Searches<Kept> kept, kept_first;
    Searches<KeptWalls> walls;
    Searches<Replayed> replayed;
    explicit SearchFigures(const Instance &in) : kept(in, NODES), kept_first(in, NODES_REPLAYED), walls(in, NODES), replayed(in, NODES_REPLAYED) {}
    void check() {
        kept.check("the kept session");
        kept_first.check("the kept session");
        walls.check("walls");
        replayed.check("the replayed session");
    }
    void take_turns() {
        double begin = cpu_ns();
        for (size_t round = 0; round < ROUNDS || cpu_ns() - begin < ROUNDS_NS; round++) {
            for (size_t turn = 0; turn < 4; turn++) {
                size_t at = (round + turn) % 4;
                if (at == 0) kept.round();
                if (at == 1) walls.round();
                if (at == 2) replayed.round();
                if (at == 3) kept_first.round();
            }
        }
    }
};

void search_table(const std::vector<Instance> &instances) {
    Rows rows;
    Column walls, replayed;
    rows.add("| Instance | kept / walls | replayed / kept | kept, ns a node | rounds |\n|---|---|---|---|---|\n");
    for (auto &instance : instances) {
        fprintf(stderr, "compare: %s, search\n", instance.name.c_str());
        SearchFigures figures(instance);
        figures.check();
        figures.take_turns();
        figures.check();
        double kept = middle(figures.kept.times);
        rows.add("| %s | %.2f | %.0f | %.0f | %zu |\n", instance.name.c_str(), walls.add(kept / middle(figures.walls.times)),
                 replayed.add(middle(figures.replayed.times) / middle(figures.kept_first.times)), kept, figures.kept.times.size());
        for (auto times : { &figures.kept.times, &figures.walls.times, &figures.replayed.times }) rows.taken_from(*times);
    }
    rows.add("| geometric mean | %.2f | %.0f | | |\n", walls.mean(), replayed.mean());
    rows.add("| worst | %.2f | %.0f | | |\n", walls.greatest, replayed.least);
    rows.print();
}

/* Each searcher passes, and is found out when one of its answers is damaged. */
template <class Searcher> void find_out_search(const Instance &in, size_t nodes, const char *name) {
    Searches<Searcher>(in, nodes).check(name);
    if (Searches<Damaged<Searcher>>(in, nodes).right()) fail("%s: %s passes with a damaged answer", in.name.c_str(), name);
}

void find_out_searches(const std::vector<Instance> &instances) {
    for (auto &instance : instances) {
        find_out_search<Kept>(instance, NODES, "the kept session");
        find_out_search<KeptWalls>(instance, NODES, "walls");
        find_out_search<Replayed>(instance, NODES_REPLAYED, "the replayed session");
    }
}

/* ---- probes ---- */

const size_t PROBES_OF_A_LIST = NESTED_GCC_CALLS_BYTES / 4;
const size_t PROBES_OF_A_SESSION = 17;

/* How many probes die though the slot has the type. */
size_t deaths_within_masks(Walls &walls) {
    size_t deaths = 0;
    for (int slot = 0; slot < walls.n; slot++) {
        for (u32 types = walls.mask[slot]; types; types &= types - 1) {
            walls.mark();
            deaths += walls.assign(slot, ctz32(types)) < 0;
            walls.back();
        }
    }
    return deaths;
}

size_t slots_fixed(const Walls &walls) {
    return std::count_if(walls.mask, walls.mask + walls.n, [](u32 mask) { return single(mask); });
}

/* The same book with the masks of a state of its script: see the head of this file. */
Instance half_planned(const Instance &instance) {
    Instance planned = instance;
    auto walls = std::make_unique<Walls>();
    size_t most = 0;
    open_engine(*walls, instance);
    for (Call call : instance.script) {
        one_call(*walls, call);
        if (call.kind > REMOVE || walls->dead || walls->open_marks == MAXMARK) continue;
        if (2 * slots_fixed(*walls) > instance.slots) continue;
        size_t deaths = deaths_within_masks(*walls);
        if (deaths <= most) continue;
        most = deaths;
        memcpy(&planned.book[12], walls->mask, 4 * instance.slots);
    }
    if (most == 0) fail("%s: no state of the script has a probe that dies", instance.name.c_str());
    return planned;
}

/* Every assignment on the instance's book, and the byte that is expected of each. */
Instance probes_of(const Instance &instance) {
    Instance probes = instance;
    auto budget = std::make_unique<Budget>();
    probes.calls.clear();
    probes.expected.clear();
    for (size_t slot = 0; slot < probes.slots; slot++) {
        for (u32 type = 0; type < probes.book[2]; type++)
            p32(probes.calls, NESTED_GCC_ASSIGN | type << 8 | (u32)slot << 16);
    }
    probes.script = read_calls(probes.calls);
    for (Call call : probes.script) {
        open_engine(*budget, probes);
        probes.expected.push_back(one_call(*budget, call).a == NESTED_GCC_CALL_DEAD);
    }
    return probes;
}

/* Makes one of so many probes, and writes a byte for each. */
struct Prober : Contender {
    size_t one_of;
    Bytes dead;
    Prober(const Instance &probes, size_t some) : Contender(probes), one_of(some), dead(in.script.size()) {}
    size_t made() const { return (in.script.size() + one_of - 1) / one_of; }
    bool right() override {
        std::fill(dead.begin(), dead.end(), 0xa5);
        run(in.script.size());
        for (size_t call = 0; call < dead.size(); call += one_of) {
            if (dead[call] != in.expected[call]) return false;
        }
        return true;
    }
};

struct ProvedProbes : Prober {
    explicit ProvedProbes(const Instance &probes) : Prober(probes, 1) {}
    const char *name() const override { return "probe"; }
    void run(size_t calls) override {
        for (size_t at = 0; at < calls; at += PROBES_OF_A_LIST) {
            size_t count = std::min(PROBES_OF_A_LIST, calls - at);
            u32 opened = nested_gcc_probe(in.book.data(), in.book.size(), &in.calls[4 * at], 4 * count, &dead[at],
                                          count);
            if (opened != NESTED_GCC_LIVE) fail("%s: probe answers %u", in.name.c_str(), opened);
        }
    }
};

struct WallsProbes : Prober {
    std::unique_ptr<Walls> walls = std::make_unique<Walls>();
    explicit WallsProbes(const Instance &probes) : Prober(probes, 1) {}
    const char *name() const override { return Walls::name; }
    void run(size_t calls) override {
        Walls &engine = *walls;
        const Call *script = in.script.data();
        u8 *to = dead.data();
        open_engine(engine, in);
        for (size_t call = 0; call < calls; call++) {
            engine.mark();
            to[call] = engine.assign(script[call].slot, script[call].type) < 0;
            engine.back();
        }
    }
};

struct SessionProbes : Prober {
    Bytes masks;
    explicit SessionProbes(const Instance &probes) : Prober(probes, PROBES_OF_A_SESSION), masks(4 * in.slots) {}
    const char *name() const override { return "a session for each"; }
    void run(size_t calls) override {
        u8 words[8];
        for (size_t call = 0; call < calls; call += one_of) {
            u32 opened = nested_gcc_session(in.book.data(), in.book.size(), &in.calls[4 * call], 4, words, sizeof words,
                                            masks.data(), masks.size());
            if (opened != NESTED_GCC_LIVE) fail("%s: the session answers %u", in.name.c_str(), opened);
            dead[call] = g32(words) == NESTED_GCC_CALL_DEAD;
        }
    }
};

using Probers = std::vector<std::unique_ptr<Prober>>;

Probers probers_of(const Instance &probes) {
    Probers probers;
    probers.push_back(std::make_unique<ProvedProbes>(probes));
    probers.push_back(std::make_unique<WallsProbes>(probes));
    probers.push_back(std::make_unique<SessionProbes>(probes));
    for (auto &prober : probers) check(*prober);
    return probers;
}

/* The figures of each prober's rounds, in nanoseconds a probe. */
std::vector<Times> probe_times(const Instance &probes) {
    Probers probers = probers_of(probes);
    std::vector<Times> times(probers.size());
    std::vector<size_t> runs;
    size_t calls = probes.script.size();
    for (auto &prober : probers) runs.push_back(runs_of(*prober, calls));
    double begin = cpu_ns();
    for (size_t round = 0; round < ROUNDS || cpu_ns() - begin < ROUNDS_NS; round++) {
        for (size_t turn = 0; turn < probers.size(); turn++) {
            size_t at = (round + turn) % probers.size();
            times[at].push_back(time_of(*probers[at], calls, runs[at]) / probers[at]->made());
        }
    }
    for (auto &prober : probers) check(*prober);
    return times;
}

/* The rows of one kind of books, and their ratios. */
struct ProbeRows {
    const char *kind;
    Column walls, sessions;
    explicit ProbeRows(const char *books) : kind(books) {}
    void add(Rows &rows, const Instance &instance) {
        fprintf(stderr, "compare: %s, %s, probes\n", instance.name.c_str(), kind);
        Instance probes = probes_of(instance);
        size_t dead = std::count(probes.expected.begin(), probes.expected.end(), 1), within = 0;
        for (size_t call = 0; call < probes.script.size(); call++) {
            u32 mask = g32(&probes.book[12 + 4 * probes.script[call].slot]);
            within += probes.expected[call] && mask >> probes.script[call].type & 1;
        }
        std::vector<Times> times = probe_times(probes);
        double ours = middle(times[0]), percent = 100.0 / probes.script.size();
        rows.add("| %s | %s | %zu | %.1f%% | %.1f%% | %.2f | %.0f | %.0f | %zu |\n", probes.name.c_str(), kind,
                 probes.script.size(), percent * dead, percent * within, walls.add(ours / middle(times[1])),
                 sessions.add(middle(times[2]) / ours), ours, times[0].size());
        for (auto &times_of_prober : times) rows.taken_from(times_of_prober);
    }
    void add_mean(Rows &rows) const {
        rows.add("| geometric mean | %s | | | | %.2f | %.0f | | |\n", kind, walls.mean(), sessions.mean());
    }
    void add_worst(Rows &rows) const {
        rows.add("| worst | %s | | | | %.2f | %.0f | | |\n", kind, walls.greatest, sessions.least);
    }
};

void probes_table(const std::vector<Instance> &instances) {
    Rows rows;
    ProbeRows fresh("fresh"), planned("half planned");
    rows.add("| Instance | book | probes | dead | dead, the slot has the type | probe / walls | sessions / probe "
             "| probe, ns | rounds |\n|---|---|---|---|---|---|---|---|---|\n");
    for (auto &instance : instances) fresh.add(rows, instance);
    for (auto &instance : instances) planned.add(rows, half_planned(instance));
    for (auto kind : { &fresh, &planned }) kind->add_mean(rows);
    for (auto kind : { &fresh, &planned }) kind->add_worst(rows);
    rows.print();
}

/* Each prober passes, and is found out when the first expected byte is damaged, or the last that all of them write. */
void find_out_prober(const Instance &instance) {
    Instance probes = probes_of(instance);
    Probers probers = probers_of(probes);
    size_t last = (probes.script.size() - 1) / PROBES_OF_A_SESSION * PROBES_OF_A_SESSION;
    for (size_t damaged : { (size_t)0, last }) {
        probes.expected[damaged] ^= 1;
        for (auto &prober : probers) {
            if (prober->right()) fail("%s: %s passes with a damaged byte", probes.name.c_str(), prober->name());
        }
        probes.expected[damaged] ^= 1;
    }
}

void find_out_probers(const std::vector<Instance> &instances) {
    for (auto &instance : instances) {
        find_out_prober(instance);
        find_out_prober(half_planned(instance));
    }
}

#endif

int run(int count, char **words) {
    std::string table = count > 1 ? words[1] : "";
    std::vector<Instance> instances;
    for (int i = 3; i < count; i++) instances.emplace_back(words[2], words[i]);
    if (instances.empty()) fail("usage: compare TABLE FOLDER NAME..");
    if (table == "wrong") return find_out(instances), 0;
#ifdef GECODE
    if (table == "gecode") return gecode_table(instances), 0;
#else
    if (table == "all-in") return all_in_table(instances), 0;
    if (table == "kinds") return kinds_table(instances), 0;
    if (table == "search") return search_table(instances), 0;
    if (table == "probes") return probes_table(instances), 0;
    if (table == "wrong-search") return find_out_searches(instances), 0;
    if (table == "wrong-probes") return find_out_probers(instances), 0;
#endif
    fail("no table %s", table.c_str());
}

} // namespace compare

int main(int count, char **words) { return compare::run(count, words); }
