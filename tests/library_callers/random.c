/*
 * Calls by chance: ROUNDS of them, 2,000 if the environment says nothing, from SEED on. In each round rows are made by chance, in order or not, and a session
 * is opened, asked, looked at, given other rows and closed, with numbers, rooms and graphs as they may come from anywhere; and a table is made as a text and answered
 * as a text, over its rows, and over the same rows in another order with other numbers, all of which have to say the same.
 */
#include "callers.h"
#include "random_texts.h"

static long round_number;

/* Numbers at which something may go wrong. */
static uint64_t strange(void) {
    static const uint64_t numbers[] = {0, 1, 2, 3, 4, 5, 7, 8, 255, 256, 65535, 2147483647, 2147483648u, 4294967294u, 4294967295u, 4294967296u,
        INT64_MAX, (uint64_t)INT64_MAX + 1, UINT64_MAX - 1, UINT64_MAX};
    return chance(3) ? chance(9) : numbers[chance(sizeof numbers / sizeof *numbers)];
}

/* A range in a list of this length. */
static void range(size_t length, size_t most, uint32_t *first, uint32_t *count) {
    *first = chance(length + 1);
    size_t left = length - *first;
    *count = chance((left < most ? left : most) + 1);
}

static struct rows random_rows(void) {
    struct rows rows = fenced_rows((mirfodwel_sizes){chance(7), chance(10), chance(16), 0});
    for (size_t place = 0; place < rows.sizes.goals; place++) {
        mirfodwel_goal *it = &rows.goals[place];
        range(rows.sizes.candidates, 3, &it->first, &it->count);
        if (!chance(9))
            *it = (mirfodwel_goal){(uint32_t)strange(), MIRFODWEL_NOT_KNOWN};
    }
    for (size_t place = 0; place < rows.sizes.candidates; place++) {
        range(rows.sizes.questions, 3, &rows.candidates[place].first, &rows.candidates[place].count);
        rows.candidates[place].is_marked = !chance(4);
    }
    for (size_t place = 0; place < rows.sizes.questions; place++)
        rows.questions[place] = (mirfodwel_question){chance(4), chance(rows.sizes.goals)};
    return rows;
}

/* Changes one number of the rows. */
static void spoil(struct rows *rows) {
    const size_t numbers[] = {2 * rows->sizes.goals, 3 * rows->sizes.candidates, 2 * rows->sizes.questions};
    uint32_t *const lists[] = {&rows->goals->first, &rows->candidates->first, &rows->questions->kind};
    size_t list = chance(3);
    if (numbers[list])
        lists[list][chance(numbers[list])] = (uint32_t)strange();
}

/* The first row that is not in order, as the header says it. */
static bool is_in_order(const struct rows *rows, mirfodwel_row_fault *fault) {
    const mirfodwel_sizes *sizes = &rows->sizes;
    *fault = (mirfodwel_row_fault){0, 0};
    for (; fault->place < sizes->goals; fault->place++) {
        mirfodwel_goal it = rows->goals[fault->place];
        if (it.count != MIRFODWEL_NOT_KNOWN && (size_t)it.first + it.count > sizes->candidates)
            return false;
    }
    *fault = (mirfodwel_row_fault){1, 0};
    for (; fault->place < sizes->candidates; fault->place++) {
        mirfodwel_candidate it = rows->candidates[fault->place];
        if ((size_t)it.first + it.count > sizes->questions || it.is_marked > 1)
            return false;
    }
    *fault = (mirfodwel_row_fault){2, 0};
    for (; fault->place < sizes->questions; fault->place++)
        if (rows->questions[fault->place].kind > 3 || rows->questions[fault->place].goal >= sizes->goals)
            return false;
    return true;
}

/* What is known of a session: the goals that came to yes or no so far, by graphs, and a graph that is kept. */
struct world {
    mirfodwel_session session;
    struct rows rows;
    int verdicts[8]; /* below 0 where none is known */
    struct graph graph;
    uint32_t graph_goal;
    size_t node;
    size_t held;
};

static void learn(struct world *world, uint32_t goal, int verdict) {
    expect(world->verdicts[goal] < 0 || world->verdicts[goal] == verdict, "round %ld: goal %u is a yes and a no", round_number, goal);
    world->verdicts[goal] = verdict;
}

static void ask(struct world *world) {
    size_t depth = chance(3) ? chance(8) : strange(), goals = world->rows.sizes.goals, held = 0;
    uint32_t goal = chance(5) ? (uint32_t)chance(goals) : (uint32_t)strange();
    mirfodwel_answer answer;
    memset(&answer, 0xA5, sizeof answer);
    mirfodwel_status status = mirfodwel_ask(&world->session, depth, goal, &answer);
    expect(status == (goal < goals ? MIRFODWEL_DONE : MIRFODWEL_UNKNOWN), "round %ld: goal %u of %zu is asked with status %d", round_number, goal, goals,
        status);
    if (status != MIRFODWEL_DONE) {
        expect(is_untouched(&answer, sizeof answer), "round %ld: an answer about nothing", round_number);
        return;
    }
    expect(answer.outcome < 4 && !answer.fault, "round %ld: outcome %d, fault %d", round_number, answer.outcome, answer.fault);
    if (world->rows.goals[goal].count == MIRFODWEL_NOT_KNOWN)
        expect(answer.outcome == MIRFODWEL_MAYBE, "round %ld: a goal that is not known comes to %s", round_number, outcome_words[answer.outcome & 3]);
    mirfodwel_held(&world->session, &held);
    world->held = held;
    if (answer.outcome > 1 || !expect(answer.has_graph, "round %ld: an answer has no graph", round_number))
        return;
    learn(world, goal, answer.outcome);
    drop_graph(&world->graph);
    world->node = answer.node;
    world->graph_goal = goal;
    expect(graph_of(&world->session, answer.node, &world->graph) == MIRFODWEL_DONE, "round %ld: the graph of a verdict is not there", round_number);
}

static void look_at_graph(struct world *world) {
    size_t node = chance(2) ? world->node : strange(), room = chance(40), used = 77;
    uint64_t *out = fenced(room * sizeof *out);
    mirfodwel_status status = mirfodwel_graph(&world->session, node, out, room, &used);
    if (status == MIRFODWEL_DONE)
        expect(used <= room && is_untouched(out + used, (room - used) * sizeof *out), "round %ld: a graph of %zu words in room for %zu", round_number, used,
            room);
    else
        expect((status == MIRFODWEL_NO_ROOM ? used > room : status == MIRFODWEL_UNKNOWN && used == 77) && is_untouched(out, room * sizeof *out),
            "round %ld: a graph with status %d, %zu used", round_number, status, used);
    expect(status != MIRFODWEL_UNKNOWN || node != world->node || !world->graph.words, "round %ld: the graph of a verdict is lost", round_number);
    drop_fenced(out, room * sizeof *out);
}

/* Checks the graph that is kept, changed or not, or words that are no graph. What is accepted is never against what is known. */
static void check(struct world *world) {
    size_t length = chance(2) ? world->graph.length : chance(30), goals = world->rows.sizes.goals, changes = chance(3);
    uint64_t *words = fenced(length * sizeof *words);
    bool is_whole = length == world->graph.length && length > 0, is_valid = false;
    for (size_t place = 0; place < length; place++)
        words[place] = is_whole ? world->graph.words[place] : strange();
    for (size_t change = 0; change < changes && length; change++)
        words[chance(length)] = strange();
    if (is_whole && !chance(6))
        for (size_t place = length - chance(length); place < length; place++)
            words[place] = strange();
    uint32_t goal = chance(4) ? world->graph_goal : (uint32_t)strange();
    uint8_t verdict = chance(9) ? chance(2) : (uint8_t)strange();
    uint64_t *sealed = fenced_copy(words, length * sizeof *words);
    mirfodwel_status status = mirfodwel_check_graph(&world->session, goal, verdict, sealed, length, &is_valid);
    expect(status == (goal < goals && verdict < 2 ? MIRFODWEL_DONE : MIRFODWEL_UNKNOWN), "round %ld: a graph is checked with status %d", round_number, status);
    if (status == MIRFODWEL_DONE && is_valid) {
        expect(words[0] == goal && words[1] == verdict, "round %ld: a graph of something else is accepted", round_number);
        learn(world, goal, verdict);
    }
    drop_fenced(sealed, length * sizeof *words);
    drop_fenced(words, length * sizeof *words);
}

static void look_at_wanted(struct world *world) {
    size_t room = chance(8), used = 77;
    uint32_t *out = fenced(room * sizeof *out), last = 0;
    mirfodwel_status status = mirfodwel_wanted(&world->session, out, room, &used);
    if (status == MIRFODWEL_DONE)
        for (size_t place = 0; place < used; place++) {
            expect(out[place] < world->rows.sizes.goals && world->rows.goals[out[place]].count == MIRFODWEL_NOT_KNOWN && (!place || out[place] > last),
                "round %ld: goal %u is wanted", round_number, out[place]);
            last = out[place];
        }
    else
        expect(status == MIRFODWEL_NO_ROOM && used > room && is_untouched(out, room * sizeof *out), "round %ld: what is wanted has status %d", round_number,
            status);
    drop_fenced(out, room * sizeof *out);
}

/* Shows a goal, by names as they may come from anywhere. */
static void show(struct world *world) {
    size_t length = chance(12), room = chance(2) ? chance(80) : 4000, used = 77;
    uint8_t names[12], form = chance(9) ? chance(3) : (uint8_t)strange(), *out = fenced(room);
    for (size_t place = 0; place < length; place++)
        names[place] = chance(3) ? "A\nB\n\nC_9 \"\\"[chance(11)] : (uint8_t)chance(256);
    uint8_t *sealed = fenced_copy(names, length);
    uint32_t goal = chance(4) ? (uint32_t)chance(world->rows.sizes.goals) : (uint32_t)strange();
    mirfodwel_status status = mirfodwel_explain_goal(&world->session, form, chance(9), goal, sealed, length, out, room, &used);
    if (status == MIRFODWEL_DONE)
        expect(used <= room && is_untouched(out + used, room - used) && form < 3 && goal < world->rows.sizes.goals, "round %ld: a goal is shown", round_number);
    else if (status == MIRFODWEL_NO_ROOM)
        expect(used > room && is_untouched(out, room), "round %ld: in room for %zu bytes %zu are shown", round_number, room, used);
    else
        expect(status == MIRFODWEL_UNKNOWN && used == 77 && is_untouched(out, room) && (form > 2 || goal >= world->rows.sizes.goals),
            "round %ld: a goal is shown with status %d", round_number, status);
    drop_fenced(out, room);
    drop_fenced(sealed, length);
}

/* Why a goal is neither yes nor no, which is never against what is known. */
static void look_at_cause(struct world *world) {
    size_t depth = chance(3) ? chance(8) : strange(), goals = world->rows.sizes.goals;
    uint32_t goal = chance(5) ? (uint32_t)chance(goals) : (uint32_t)strange();
    mirfodwel_reason reason;
    memset(&reason, 0xA5, sizeof reason);
    mirfodwel_status status = mirfodwel_cause(&world->session, depth, goal, &reason);
    expect(status == (goal < goals ? MIRFODWEL_DONE : MIRFODWEL_UNKNOWN), "round %ld: the cause of goal %u of %zu has status %d", round_number, goal, goals,
        status);
    if (status != MIRFODWEL_DONE) {
        expect(is_untouched(&reason, sizeof reason), "round %ld: a cause of nothing", round_number);
        return;
    }
    expect(has_reason(&world->rows, &reason), "round %ld: a reason of kind %d does not fit", round_number, reason.kind);
    if (reason.outcome < 2)
        learn(world, goal, reason.outcome);
}

static void look_at_rest(struct world *world) {
    size_t used = 77, nodes = 0;
    uint8_t out;
    expect(mirfodwel_last_fault(&world->session, &out, 0, &used) == MIRFODWEL_DONE && used == 0, "round %ld: there was a fault", round_number);
    expect(mirfodwel_held(&world->session, &nodes) == MIRFODWEL_DONE && nodes == world->held, "round %ld: %zu nodes are held", round_number, nodes);
    expect(mirfodwel_held_bytes(&world->session, &used) == MIRFODWEL_DONE && used > nodes, "round %ld: %zu bytes are held", round_number, used);
    mirfodwel_row_fault fault;
    expect(open_over(&world->session, &world->rows, &fault) == MIRFODWEL_WRONG_STATE, "round %ld: it is opened twice", round_number);
}

static void forget(struct world *world) {
    for (size_t goal = 0; goal < 8; goal++)
        world->verdicts[goal] = -1;
    drop_graph(&world->graph);
    world->held = 0;
}

/* Opens the session again over rows by chance, or has it go over to them. In the former case nothing is looked at of those so far but where it is
   refused. */
static void give_rows(struct world *world) {
    struct rows rows = random_rows();
    mirfodwel_row_fault found = {9, 99}, fault;
    if (!chance(3))
        spoil(&rows);
    seal_rows(&rows);
    bool keeps = chance(2), is_right = is_in_order(&rows, &fault), is_early = is_right && !keeps && chance(2);
    if (is_early)
        drop_rows(&world->rows);
    mirfodwel_status status = (keeps ? change_over : reopen_over)(&world->session, &rows, &found);
    expect(status == (is_right ? MIRFODWEL_DONE : MIRFODWEL_BAD_INPUT), "round %ld: it is given other rows with status %d", round_number, status);
    if (is_right) {
        if (!is_early)
            drop_rows(&world->rows);
        world->rows = rows;
        forget(world);
        mirfodwel_held(&world->session, &world->held);
        expect(keeps || world->held == 0, "round %ld: %zu nodes are held", round_number, world->held);
    } else {
        expect(found.list == fault.list && found.place == fault.place, "round %ld: row %zu of list %d is bad", round_number, found.place, found.list);
        drop_rows(&rows);
    }
}

/* A session that is closed refuses each call. */
static void call_closed(mirfodwel_session *session) {
    static uint8_t out[16];
    static uint64_t words[2];
    size_t used;
    bool is_valid;
    mirfodwel_answer answer;
    mirfodwel_reason reason;
    mirfodwel_status status = MIRFODWEL_WRONG_STATE;
    mirfodwel_row_fault fault;
    struct rows none = {(void *)words, (void *)words, (void *)words, out, {0, 0, 0, 0}};
    switch (chance(12)) {
    case 0: status = mirfodwel_ask(session, strange(), (uint32_t)strange(), &answer); break;
    case 1: status = mirfodwel_graph(session, strange(), words, chance(3), &used); break;
    case 2: status = mirfodwel_check_graph(session, (uint32_t)strange(), chance(2), words, chance(3), &is_valid); break;
    case 3: status = mirfodwel_wanted(session, (uint32_t *)words, chance(3), &used); break;
    case 4: status = mirfodwel_explain_goal(session, chance(3), strange(), (uint32_t)strange(), out, chance(4), out + 8, chance(8), &used); break;
    case 5: status = mirfodwel_last_fault(session, out, chance(16), &used); break;
    case 6: status = mirfodwel_held(session, &used); break;
    case 7: status = mirfodwel_close(session); break;
    case 8: status = reopen_over(session, &none, &fault); break;
    case 9: status = mirfodwel_cause(session, strange(), (uint32_t)strange(), &reason); break;
    case 10: status = mirfodwel_held_bytes(session, &used); break;
    case 11: status = change_over(session, &none, &fault); break;
    }
    expect(status == MIRFODWEL_WRONG_STATE && is_all_zero(session), "round %ld: a closed session has status %d", round_number, status);
}

static void use_rows(void) {
    void (*const uses[])(struct world *) = {ask, ask, ask, look_at_graph, check, check, look_at_wanted, look_at_cause, show, look_at_rest, give_rows};
    struct world world = {.rows = random_rows(), .verdicts = {-1, -1, -1, -1, -1, -1, -1, -1}};
    mirfodwel_row_fault found = {9, 99}, fault;
    if (!chance(3))
        spoil(&world.rows);
    seal_rows(&world.rows);
    call_closed(&world.session);
    mirfodwel_status status = open_over(&world.session, &world.rows, &found);
    if (is_in_order(&world.rows, &fault)) {
        expect(status == MIRFODWEL_DONE, "round %ld: rows in order have status %d", round_number, status);
        for (size_t use = chance(14); use > 0; use--)
            uses[chance(sizeof uses / sizeof *uses)](&world);
        expect(mirfodwel_close(&world.session) == MIRFODWEL_DONE, "round %ld: it is not closed", round_number);
    } else {
        expect(status == MIRFODWEL_BAD_INPUT && found.list == fault.list && found.place == fault.place,
            "round %ld: row %zu of list %d is bad, and not %zu of %d, status %d", round_number, fault.place, fault.list, found.place, found.list, status);
    }
    call_closed(&world.session);
    drop_graph(&world.graph);
    drop_rows(&world.rows);
}

int main(void) {
    long rounds = setting("ROUNDS", 2000), begun = setting("SEED", 1);
    for (round_number = begun; round_number < begun + rounds && failed < 20; round_number++) {
        seed = round_number * 2654435761u + 17;
        use_rows();
        use_texts(round_number);
    }
    printf("seeds %ld to %ld\n", begun, round_number - 1);
    return finish();
}
