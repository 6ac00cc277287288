/*
 * The search that tools/compare and tools/trees time: depth first, the first open slot, its lowest type. At a live node it marks and assigns; at a
 * dead one, or at a solution, it goes back and removes what it had assigned, so it goes on from one solution to the next; when all is searched it starts
 * again from the root. A node is one decision. The root has a mark of its own, so a search ends with the masks that it began with.
 *
 * A Searcher answers a call by its two words, and tells the mask of a slot: Ans call(u8 kind, u8 type, u16 slot); u32 mask(size_t slot).
 */
#pragma once
#include "engines.hpp"

/* What a search met: all words of the answers, and all masks after each node where it is told to look at them. */
struct Seen {
    u64 words = 0, masks = 0;
    bool refused = false;
};

template <bool LOOK, class Searcher> struct Search {
    Searcher &searcher;
    size_t slots, nodes = 0, depth = 0, slot = 0;
    Call path[MAXMARK];
    Seen seen;

    Search(Searcher &by, size_t count) : searcher(by), slots(count) {}
    void done(u8 kind) { seen.refused |= searcher.call(kind, 0, 0).a != 3; }
    bool decide(Call call) {
        Ans answer = searcher.call(call.kind, call.type, call.slot);
        seen.words = 31 * (31 * seen.words + answer.a) + answer.b;
        seen.refused |= answer.a > 1;
        if (LOOK) {
            for (size_t s = 0; s < slots; s++) seen.masks = (seen.masks ^ searcher.mask(s)) * 1099511628211ull;
        }
        nodes++;
        return answer.a == 0;
    }
    /* Whether a slot is open; the first one. Those before the one that was decided last are not. */
    bool open() {
        while (slot < slots && single(searcher.mask(slot))) slot++;
        return slot < slots;
    }
    bool forth() {
        done(MARK);
        path[depth] = { ASSIGN, (u8)ctz32(searcher.mask(slot)), (u16)slot };
        return decide(path[depth++]);
    }
    bool back() {
        done(BACK);
        if (depth == 0) {
            done(MARK);
            slot = 0;
            return true;
        }
        Call last = path[--depth];
        slot = last.slot;
        return decide({ REMOVE, last.type, last.slot });
    }
    Seen run(size_t most) {
        bool live = true;
        done(MARK);
        while (nodes < most && !seen.refused) live = live && open() ? forth() : back();
        for (done(BACK); depth > 0; depth--) done(BACK);
        return seen;
    }
};

template <bool LOOK, class Searcher> Seen search(Searcher &searcher, size_t slots, size_t nodes) {
    return Search<LOOK, Searcher>(searcher, slots).run(nodes);
}
