/*
 * Tables of goals that come and change by chance, what of them rests on what, and their rows, laid out by chance.
 */
#ifndef RANDOM_TABLES_H
#define RANDOM_TABLES_H
#include "callers.h"

#define MOST_GOALS 40
#define MOST_CANDIDATES 4
#define MOST_QUESTIONS 3

struct candidate {
    uint32_t is_marked, count;
    mirfodwel_question questions[MOST_QUESTIONS];
};

struct goal {
    bool is_unknown;
    uint32_t count;
    struct candidate candidates[MOST_CANDIDATES];
};

/* What its steps are: inductive alone, coinductive alone, of one of these kinds in each layer of eight goals and any that lead to later
   layers, both of these, or all four kinds. */
enum steps { ALL_INDUCTIVE, ALL_COINDUCTIVE, LAYERS, BOTH, FOUR_KINDS, STEPS };

struct table {
    enum steps steps;
    bool has_unknown; /* whether goals may be unknown */
    uint32_t most;    /* so many goals at most */
    uint32_t count;
    struct goal goals[MOST_GOALS];
};

/* A set of goals. */
typedef uint64_t goals;
#define ONLY(goal) ((goals)1 << (goal))

static mirfodwel_question random_question(const struct table *table, uint32_t goal) {
    uint32_t first = table->steps == LAYERS ? goal / 8 * 8 : 0;
    uint32_t asked = goal + chance(5);
    if (asked-- == 0 || asked < first || asked >= table->count || !chance(6))
        asked = first + chance(table->count - first);
    uint32_t kind = MIRFODWEL_INDUCTIVE;
    switch (table->steps) {
    case ALL_COINDUCTIVE: kind = MIRFODWEL_COINDUCTIVE; break;
    case LAYERS: kind = asked / 8 > goal / 8 ? chance(4) : goal / 8 % 2 ? MIRFODWEL_COINDUCTIVE : MIRFODWEL_INDUCTIVE; break;
    case BOTH: kind = 2 * chance(2); break;
    case FOUR_KINDS: kind = chance(3) ? 2 * chance(2) : chance(4); break;
    default: break;
    }
    return (mirfodwel_question){kind, asked};
}

static struct candidate random_candidate(const struct table *table, uint32_t goal) {
    struct candidate made = {!chance(5), chance(MOST_QUESTIONS + 1), {{0, 0}}};
    for (uint32_t place = 0; place < made.count; place++)
        made.questions[place] = random_question(table, goal);
    return made;
}

static void replace_goal(struct table *table, uint32_t goal) {
    struct goal *it = &table->goals[goal];
    it->is_unknown = table->has_unknown && !chance(8);
    it->count = it->is_unknown ? 0 : chance(8) ? 1 + chance(3) : chance(MOST_CANDIDATES + 1);
    for (uint32_t place = 0; place < it->count; place++)
        it->candidates[place] = random_candidate(table, goal);
}

static void random_table(struct table *table) {
    table->steps = chance(STEPS);
    table->has_unknown = chance(2);
    /* Where kinds meet in cycles, a search of many goals may take very long. */
    table->most = table->steps < BOTH ? MOST_GOALS : 8;
    table->count = 1 + chance(table->most);
    for (uint32_t goal = 0; goal < table->count; goal++)
        replace_goal(table, goal);
}

/* The last goal is taken away: what asked it asks another one. */
static void drop_last(struct table *table) {
    uint32_t gone = --table->count;
    for (uint32_t goal = 0; goal < table->count; goal++)
        for (uint32_t place = 0; place < table->goals[goal].count; place++)
            for (uint32_t at = 0; at < table->goals[goal].candidates[place].count; at++)
                while (table->goals[goal].candidates[place].questions[at].goal == gone)
                    table->goals[goal].candidates[place].questions[at] = random_question(table, goal);
}

/* Changes one of the goal's candidates, if it has any. */
static void change_candidate(const struct table *table, uint32_t goal, struct goal *it) {
    struct candidate *candidate = &it->candidates[chance(it->count)], first = it->candidates[0];
    switch (it->count ? chance(5) : 5) {
    case 0: *candidate = it->candidates[--it->count]; break;
    case 1: candidate->is_marked = !candidate->is_marked; break;
    case 2: *candidate = random_candidate(table, goal); break;
    case 3: it->candidates[0] = *candidate, *candidate = first; break;
    case 4:
        if (candidate->count)
            candidate->questions[chance(candidate->count)] = random_question(table, goal);
        break;
    }
}

/* Changes something, or nothing. */
static void change_table(struct table *table) {
    uint32_t goal = chance(table->count);
    struct goal *it = &table->goals[goal];
    size_t way = chance(10);
    if (way < 6)
        change_candidate(table, goal, it);
    else if (way == 6)
        replace_goal(table, goal);
    else if (way == 7 && it->count < MOST_CANDIDATES)
        it->is_unknown = false, it->candidates[it->count++] = random_candidate(table, goal);
    else if (way == 8 && table->count < table->most)
        replace_goal(table, table->count++);
    else if (way == 9 && table->count > 1)
        drop_last(table);
}

/* Of each goal those that it can reach by questions. */
SOME void reach_all(const struct table *table, goals reached[MOST_GOALS]) {
    memset(reached, 0, MOST_GOALS * sizeof *reached);
    for (uint32_t goal = 0; goal < table->count; goal++)
        for (uint32_t place = 0; place < table->goals[goal].count; place++)
            for (uint32_t at = 0; at < table->goals[goal].candidates[place].count; at++)
                reached[goal] |= ONLY(table->goals[goal].candidates[place].questions[at].goal);
    for (uint32_t over = 0; over < table->count; over++)
        for (uint32_t goal = 0; goal < table->count; goal++)
            if (reached[goal] & ONLY(over))
                reached[goal] |= reached[over];
}

SOME bool has_same_candidates(const struct goal *left, const struct goal *right) {
    if (left->is_unknown != right->is_unknown || left->count != right->count)
        return false;
    for (uint32_t place = 0; place < left->count; place++) {
        const struct candidate *it = &left->candidates[place], *other = &right->candidates[place];
        if (it->is_marked != other->is_marked || it->count != other->count)
            return false;
        for (uint32_t at = 0; at < it->count; at++)
            if (it->questions[at].kind != other->questions[at].kind || it->questions[at].goal != other->questions[at].goal)
                return false;
    }
    return true;
}

/* The goals that the change from one table to the other concerns. */
SOME goals concerned_by(const struct table *before, const struct table *after) {
    static const struct goal none;
    goals changed = 0, reached[MOST_GOALS];
    for (uint32_t goal = 0; goal < MOST_GOALS; goal++)
        if (!has_same_candidates(goal < before->count ? &before->goals[goal] : &none, goal < after->count ? &after->goals[goal] : &none))
            changed |= ONLY(goal);
    goals found = changed;
    reach_all(after, reached);
    for (uint32_t goal = 0; goal < after->count; goal++)
        if (reached[goal] & changed)
            found |= ONLY(goal);
    return found;
}

/* Whether all that the goal can reach, and itself, is known, with steps of one kind in each cycle, inductive or coinductive ones. */
SOME bool is_decisive(const struct table *table, goals reached[MOST_GOALS], uint32_t asked) {
    uint32_t kinds[MOST_GOALS];
    memset(kinds, 0xFF, sizeof kinds);
    for (uint32_t goal = 0; goal < table->count; goal++) {
        if (!((reached[asked] | ONLY(asked)) & ONLY(goal)))
            continue;
        if (table->goals[goal].is_unknown)
            return false;
        for (uint32_t place = 0; place < table->goals[goal].count; place++)
            for (uint32_t at = 0; at < table->goals[goal].candidates[place].count; at++) {
                mirfodwel_question it = table->goals[goal].candidates[place].questions[at];
                if (!(reached[it.goal] & ONLY(goal)))
                    continue;
                /* The first goal of the cycle's stands for all of them. */
                uint32_t first = 0;
                while (!(reached[goal] & ONLY(first)) || !(reached[first] & ONLY(goal)))
                    first++;
                if (it.kind % 2 || (kinds[first] != UINT32_MAX && kinds[first] != it.kind))
                    return false;
                kinds[first] = it.kind;
            }
    }
    return true;
}

static void shuffle(uint32_t *list, uint32_t count) {
    for (uint32_t place = 0; place < count; place++) {
        uint32_t other = place + chance(count - place), it = list[place];
        list[place] = list[other];
        list[other] = it;
    }
}

/* Rows of the table, in memory that nobody may write to: goals' candidates stand in an order by chance, as do their questions, with other
   rows between them. */
static struct rows lay_out(const struct table *table) {
    static mirfodwel_goal goals[MOST_GOALS];
    static mirfodwel_candidate candidates[2 * MOST_GOALS * MOST_CANDIDATES];
    static mirfodwel_question questions[4 * MOST_GOALS * MOST_CANDIDATES * MOST_QUESTIONS];
    uint32_t order[MOST_GOALS], count = 0, asked = 0;
    for (uint32_t goal = 0; goal < table->count; goal++)
        order[goal] = goal;
    shuffle(order, table->count);
    for (uint32_t turn = 0; turn < table->count; turn++) {
        const struct goal *it = &table->goals[order[turn]];
        while (!chance(6) && count < MOST_GOALS * MOST_CANDIDATES)
            candidates[count++] = (mirfodwel_candidate){chance(asked + 1), 0, chance(2)};
        goals[order[turn]] = (mirfodwel_goal){it->is_unknown ? 4294967295u - chance(9) : count, it->is_unknown ? MIRFODWEL_NOT_KNOWN : it->count};
        for (uint32_t place = 0; place < it->count; place++) {
            const struct candidate *candidate = &it->candidates[place];
            while (!chance(6) && asked < MOST_GOALS * MOST_CANDIDATES * MOST_QUESTIONS)
                questions[asked++] = (mirfodwel_question){chance(4), chance(table->count)};
            candidates[count++] = (mirfodwel_candidate){asked, candidate->count, candidate->is_marked};
            for (uint32_t at = 0; at < candidate->count; at++)
                questions[asked++] = candidate->questions[at];
        }
    }
    return (struct rows){
        fenced_copy(goals, table->count * sizeof *goals),
        fenced_copy(candidates, count * sizeof *candidates),
        fenced_copy(questions, asked * sizeof *questions),
        NULL,
        {table->count, count, asked, 0},
    };
}

#endif
