/* reference.c: the search as docs/rules.md and docs/search.md define it, by trying all sets.
 *
 * Slow and plain: a set of jobs is a number whose bit i tells whether job i is in it, and each
 * rule goes through all of them as its definition does. */
#include "reference.h"

#include <string.h>

enum { DECISION_ROOM = 768 };

struct window {
    int32_t lo;
    int32_t hi;
};

struct windows {
    struct window of[REFERENCE_JOBS];
};

/* A rule works out new windows from the old; it answers 1 where it is dead. */
typedef int rule_fn(const struct sheet *sheet, const struct windows *old, struct windows *new);

static int32_t duration(const struct sheet *sheet, size_t job)
{
    return (int32_t)sheet->jobs[job].duration;
}

static void raise_lo(struct windows *windows, size_t job, int32_t lo)
{
    if (windows->of[job].lo < lo) {
        windows->of[job].lo = lo;
    }
}

static void lower_hi(struct windows *windows, size_t job, int32_t hi)
{
    if (windows->of[job].hi > hi) {
        windows->of[job].hi = hi;
    }
}

/* Sets of jobs. */

static int has(uint32_t set, size_t job)
{
    return (int)(set >> job & 1u);
}

static uint32_t with(uint32_t set, size_t job)
{
    return set | 1u << job;
}

static uint32_t all_sets(const struct sheet *sheet)
{
    return 1u << sheet->job_count;
}

static int at_station(const struct sheet *sheet, uint32_t set, uint32_t station)
{
    for (size_t j = 0; j < sheet->job_count; j++) {
        if (has(set, j) && sheet->jobs[j].station != station) {
            return 0;
        }
    }
    return 1;
}

static int32_t est(const struct sheet *sheet, const struct windows *w, uint32_t set)
{
    int32_t least = INT32_MAX;

    for (size_t j = 0; j < sheet->job_count; j++) {
        if (has(set, j) && w->of[j].lo < least) {
            least = w->of[j].lo;
        }
    }
    return least;
}

static int32_t lct(const struct sheet *sheet, const struct windows *w, uint32_t set)
{
    int32_t greatest = INT32_MIN;

    for (size_t j = 0; j < sheet->job_count; j++) {
        if (has(set, j) && w->of[j].hi + duration(sheet, j) > greatest) {
            greatest = w->of[j].hi + duration(sheet, j);
        }
    }
    return greatest;
}

static int32_t total(const struct sheet *sheet, uint32_t set)
{
    int32_t sum = 0;

    for (size_t j = 0; j < sheet->job_count; j++) {
        sum += has(set, j) ? duration(sheet, j) : 0;
    }
    return sum;
}

/* The house rules. */

static int route(const struct sheet *sheet, const struct windows *old, struct windows *new)
{
    for (size_t i = 0; i < sheet->link_count; i++) {
        const struct link *link = &sheet->links[i];
        int32_t step = duration(sheet, link->from) + (int32_t)link->wait;
        raise_lo(new, link->to, old->of[link->from].lo + step);
        lower_hi(new, link->from, old->of[link->to].hi - step);
    }
    return 0;
}

static void pair(const struct sheet *sheet, const struct windows *old, struct windows *new,
                 size_t i, size_t j)
{
    if (old->of[i].lo + duration(sheet, i) > old->of[j].hi) {
        raise_lo(new, i, old->of[j].lo + duration(sheet, j));
        lower_hi(new, j, old->of[i].hi - duration(sheet, j));
    }
}

static int pairs(const struct sheet *sheet, const struct windows *old, struct windows *new)
{
    for (size_t i = 0; i < sheet->job_count; i++) {
        for (size_t j = 0; j < sheet->job_count; j++) {
            if (i != j && sheet->jobs[i].station == sheet->jobs[j].station) {
                pair(sheet, old, new, i, j);
            }
        }
    }
    return 0;
}

static int overloaded(const struct sheet *sheet, const struct windows *old)
{
    for (uint32_t set = 1; set < all_sets(sheet); set++) {
        for (uint32_t station = 0; station < 8; station++) {
            if (at_station(sheet, set, station) &&
                total(sheet, set) > lct(sheet, old, set) - est(sheet, old, set)) {
                return 1;
            }
        }
    }
    return 0;
}

/* Job i goes last of the set and itself: it starts when every part of the set can have ended. */
static void go_last(const struct sheet *sheet, const struct windows *old, struct windows *new,
                    size_t i, uint32_t set)
{
    for (uint32_t part = set; part != 0; part = (part - 1) & set) {
        raise_lo(new, i, est(sheet, old, part) + total(sheet, part));
    }
}

/* Job i goes first of the set and itself: it ends before every part of the set has to start. */
static void go_first(const struct sheet *sheet, const struct windows *old, struct windows *new,
                     size_t i, uint32_t set)
{
    for (uint32_t part = set; part != 0; part = (part - 1) & set) {
        lower_hi(new, i, lct(sheet, old, part) - total(sheet, part) - duration(sheet, i));
    }
}

static void edge(const struct sheet *sheet, const struct windows *old, struct windows *new,
                 size_t i, uint32_t set)
{
    uint32_t joined = with(set, i);

    if (est(sheet, old, joined) + total(sheet, joined) > lct(sheet, old, set)) {
        go_last(sheet, old, new, i, set);
    }
    if (lct(sheet, old, joined) - total(sheet, joined) < est(sheet, old, set)) {
        go_first(sheet, old, new, i, set);
    }
}

static void not_first_or_last(const struct sheet *sheet, const struct windows *old,
                              struct windows *new, size_t i, uint32_t set)
{
    const struct window *own = &old->of[i];
    int32_t needed = total(sheet, with(set, i));
    int32_t first_end = INT32_MAX;
    int32_t last_start = INT32_MIN;

    for (size_t j = 0; j < sheet->job_count; j++) {
        if (has(set, j)) {
            int32_t end = old->of[j].lo + duration(sheet, j);
            first_end = end < first_end ? end : first_end;
            last_start = old->of[j].hi > last_start ? old->of[j].hi : last_start;
        }
    }
    if (lct(sheet, old, set) - own->lo < needed) {
        raise_lo(new, i, first_end);
    }
    if (own->hi + duration(sheet, i) - est(sheet, old, set) < needed) {
        lower_hi(new, i, last_start - duration(sheet, i));
    }
}

typedef void set_rule_fn(const struct sheet *sheet, const struct windows *old,
                         struct windows *new, size_t i, uint32_t set);

/* Applies a rule to each job i and each non-empty set of other jobs at its station. */
static void each_set(const struct sheet *sheet, const struct windows *old, struct windows *new,
                     set_rule_fn *apply)
{
    for (size_t i = 0; i < sheet->job_count; i++) {
        for (uint32_t set = 1; set < all_sets(sheet); set++) {
            if (!has(set, i) && at_station(sheet, set, sheet->jobs[i].station)) {
                apply(sheet, old, new, i, set);
            }
        }
    }
}

static int edges(const struct sheet *sheet, const struct windows *old, struct windows *new)
{
    if (overloaded(sheet, old)) {
        return 1;
    }
    each_set(sheet, old, new, edge);
    return 0;
}

static int not_first(const struct sheet *sheet, const struct windows *old, struct windows *new)
{
    each_set(sheet, old, new, not_first_or_last);
    return 0;
}

/* Piles. */

/* Narrows by one rule; answers 1 where it is dead. */
static int narrow(const struct sheet *sheet, struct windows *windows, rule_fn *rule)
{
    struct windows new = *windows;

    if (rule(sheet, windows, &new)) {
        return 1;
    }
    for (size_t j = 0; j < sheet->job_count; j++) {
        if (new.of[j].lo > new.of[j].hi) {
            return 1;
        }
    }
    *windows = new;
    return 0;
}

static int station_rules(const struct sheet *sheet, struct windows *windows)
{
    return narrow(sheet, windows, pairs) || narrow(sheet, windows, edges) ||
           narrow(sheet, windows, not_first);
}

typedef int pile_fn(const struct sheet *sheet, struct windows *windows);

/* Repeats a pile until it is dead or changes nothing. */
static int standstill(const struct sheet *sheet, struct windows *windows, pile_fn *pile)
{
    struct windows before;

    do {
        before = *windows;
        if (pile(sheet, windows)) {
            return 1;
        }
    } while (memcmp(&before, windows, sizeof before) != 0);
    return 0;
}

static int house_pile(const struct sheet *sheet, struct windows *windows)
{
    return narrow(sheet, windows, route) || standstill(sheet, windows, station_rules);
}

/* The search. */

struct decision {
    size_t job;
    struct window window;
    int32_t middle;
    int on_second;
};

struct search {
    const struct sheet *sheet;
    uint32_t outcome;
    size_t depth;
    struct decision path[DECISION_ROOM];
    struct windows narrowed;
};

/* The entered windows, cut down to the parts chosen on the path. */
static struct windows chosen_windows(const struct search *search)
{
    struct windows windows;

    memset(&windows, 0, sizeof windows);
    for (size_t j = 0; j < search->sheet->job_count; j++) {
        const struct job *job = &search->sheet->jobs[j];
        windows.of[j].lo = (int32_t)job->release;
        windows.of[j].hi = (int32_t)(job->due - job->duration);
    }
    for (size_t i = 0; i < search->depth; i++) {
        const struct decision *decision = &search->path[i];
        struct window *window = &windows.of[decision->job];
        window->lo = decision->on_second ? decision->middle + 1 : decision->window.lo;
        window->hi = decision->on_second ? decision->window.hi : decision->middle;
    }
    return windows;
}

static void step_back(struct search *search)
{
    while (search->depth > 0 && search->path[search->depth - 1].on_second) {
        search->depth--;
    }
    if (search->depth == 0) {
        search->outcome = 2;
    } else {
        search->path[search->depth - 1].on_second = 1;
    }
}

/* The job with the least hi - lo above 0, the lowest number among equals, or the job count. */
static size_t job_to_split(const struct search *search)
{
    size_t chosen = search->sheet->job_count;
    int32_t least = INT32_MAX;

    for (size_t j = 0; j < search->sheet->job_count; j++) {
        int32_t spread = search->narrowed.of[j].hi - search->narrowed.of[j].lo;
        if (spread > 0 && spread < least) {
            least = spread;
            chosen = j;
        }
    }
    return chosen;
}

static void decide(struct search *search, size_t job)
{
    struct window window = search->narrowed.of[job];
    int32_t middle = window.lo + (window.hi - window.lo) / 2;

    search->path[search->depth++] = (struct decision){job, window, middle, 0};
}

static void look(struct search *search)
{
    search->narrowed = chosen_windows(search);
    if (standstill(search->sheet, &search->narrowed, house_pile)) {
        step_back(search);
        return;
    }
    size_t job = job_to_split(search);
    if (job == search->sheet->job_count) {
        search->outcome = 1;
    } else {
        decide(search, job);
    }
}

uint32_t reference_search(const struct sheet *sheet, uint32_t looks, uint32_t *starts)
{
    struct search search = {.sheet = sheet};

    for (uint32_t made = 0; made < looks && search.outcome == 0; made++) {
        look(&search);
    }
    for (size_t j = 0; search.outcome == 1 && j < sheet->job_count; j++) {
        starts[j] = (uint32_t)search.narrowed.of[j].lo;
    }
    return search.outcome;
}
