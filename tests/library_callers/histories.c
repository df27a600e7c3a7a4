/*
 * histories STEPS SEED: so many questions and changes by chance, in sessions that live on while their rows change, each beside one that is opened anew over the rows
 * as they stand. Which goals a change concerns is worked out here, plainly. Of each goal that it does not concern the answer is as stored as before, under
 * the same node, with the same graph, and of each that it does nothing stays. Each yes and no has a graph that the other session accepts, and is never against what
 * that says; where the rows decide, and depths suffice, both say the same. While a session goes over, each request for memory is refused in turn at times: then it
 * is as it was.
 */
#include "random_tables.h"
#include "refusals.h"

#define MOST_ASKED 8
#define ROOM (1 << 15)

/* What is known of a question, and whether its answer was stored when it was last asked. */
struct question {
    uint32_t goal;
    size_t depth, used;
    bool is_stored;
    mirfodwel_answer answer;
    uint64_t words[ROOM];
};

static struct history {
    mirfodwel_session session;
    struct table table;
    struct rows rows;
    bool is_deep; /* whether each question has as much depth as there are goals at least */
    size_t count;
    struct question questions[MOST_ASKED];
    size_t wanted_count, nodes;
    uint32_t wanted[MOST_GOALS];
} history;

/* How often each happened, so that it is seen if something no longer does. */
static long begun, steps, stays, leaves, decided, refusals;

#define HERE "history %ld, step %ld: "
#define is_so(is, what, ...) expect(is, HERE what, begun, steps, __VA_ARGS__)

static mirfodwel_answer ask(mirfodwel_session *session, size_t depth, uint32_t goal) {
    mirfodwel_answer answer = {0};
    mirfodwel_status status = mirfodwel_ask(session, depth, goal, &answer);
    is_so(status == MIRFODWEL_DONE, "goal %u is asked at depth %zu with status %d, fault %d", goal, depth, status, answer.fault);
    return answer;
}

/* Asks in the session that lives on, and notes what came. */
static void ask_kept(struct question *it) {
    it->answer = ask(&history.session, it->depth, it->goal);
    it->used = 0;
    it->is_stored = it->answer.started == 0;
    if (it->answer.has_graph && it->answer.outcome < 2) {
        mirfodwel_status status = mirfodwel_graph(&history.session, it->answer.node, it->words, ROOM, &it->used);
        is_so(status == MIRFODWEL_DONE, "the graph of goal %u has status %d, and %zu words", it->goal, status, it->used);
    }
}

/* Asks in both sessions, whose answers fit. */
static void ask_both(struct question *it, mirfodwel_session *anew, goals reached[MOST_GOALS]) {
    bool is_valid = false;
    ask_kept(it);
    mirfodwel_answer fresh = ask(anew, it->depth, it->goal);
    uint8_t outcome = it->answer.outcome;
    if (outcome < 2) {
        mirfodwel_status status = mirfodwel_check_graph(anew, it->goal, outcome, it->words, it->used, &is_valid);
        is_so(status == MIRFODWEL_DONE && is_valid, "the graph of goal %u, %s, is not accepted", it->goal, outcome_words[outcome]);
        is_so(fresh.outcome > 1 || fresh.outcome == outcome, "goal %u is %s, and anew %s", it->goal, outcome_words[outcome], outcome_words[fresh.outcome]);
    }
    if (history.is_deep && is_decisive(&history.table, reached, it->goal)) {
        is_so(outcome < 2 && fresh.outcome == outcome, "goal %u is %s, and anew %s", it->goal, outcome_words[outcome], outcome_words[fresh.outcome]);
        decided++;
    }
}

static void ask_some(void) {
    mirfodwel_session anew = {0};
    mirfodwel_row_fault fault;
    goals reached[MOST_GOALS];
    reach_all(&history.table, reached);
    is_so(open_over(&anew, &history.rows, &fault) == MIRFODWEL_DONE, "%zu goals are not opened", history.rows.sizes.goals);
    for (size_t turn = 1 + chance(4); turn > 0; turn--) {
        size_t place = chance(MOST_ASKED), least = history.is_deep ? history.table.count : 0;
        place = place < history.count ? place : history.count < MOST_ASKED ? history.count++ : 0;
        struct question *it = &history.questions[place];
        /* At times the same question as before. */
        if (!chance(2) || it->goal >= history.table.count || it->depth < least) {
            it->goal = chance(history.table.count);
            it->depth = least + (chance(3) ? chance(MOST_GOALS) : chance(4));
        }
        ask_both(it, &anew, reached);
        steps++;
    }
    mirfodwel_close(&anew);
}

/* Asks all that was asked again, and notes which answers are stored. A question that starts runs may change what is stored of those before it. */
static void look_around(void) {
    for (size_t place = 0; place < history.count; place++) {
        struct question *it = &history.questions[place];
        it->goal = it->goal < history.table.count ? it->goal : 0;
        it->depth = history.is_deep && it->depth < history.table.count ? history.table.count : it->depth;
        ask_kept(it);
        for (size_t before = 0; before < place && !it->is_stored; before++)
            history.questions[before].is_stored = false;
    }
    mirfodwel_wanted(&history.session, history.wanted, MOST_GOALS, &history.wanted_count);
    mirfodwel_held(&history.session, &history.nodes);
}

/* Whether the answer is as it was, from what is stored. */
static void is_as_before(struct question *was) {
    static struct question it;
    it.goal = was->goal, it.depth = was->depth;
    ask_kept(&it);
    is_so(it.is_stored, "goal %u at depth %zu is worked out again", it.goal, it.depth);
    is_so(it.answer.outcome == was->answer.outcome && it.answer.has_graph == was->answer.has_graph, "goal %u was %s, and is %s", it.goal,
        outcome_words[was->answer.outcome], outcome_words[it.answer.outcome]);
    is_so(!it.answer.has_graph || it.answer.node == was->answer.node, "goal %u had node %zu, and has %zu", it.goal, was->answer.node, it.answer.node);
    is_so(it.used == was->used && !memcmp(it.words, was->words, it.used * sizeof *it.words), "goal %u has another graph than before", it.goal);
}

/* Whether the session knows just what it knew, but of these goals. */
static void knows_all_but(goals gone) {
    uint32_t wanted[MOST_GOALS];
    size_t used = 0, at = 0, left = 0, nodes = 0;
    mirfodwel_held(&history.session, &nodes);
    is_so(gone ? nodes <= history.nodes : nodes == history.nodes, "of %zu nodes there are %zu", history.nodes, nodes);
    mirfodwel_wanted(&history.session, wanted, MOST_GOALS, &used);
    for (size_t place = 0; place < history.wanted_count; place++)
        if (!(gone & ONLY(history.wanted[place]))) {
            at += at < used && wanted[at] == history.wanted[place];
            left++;
        }
    is_so(at == used && left == used, "%zu goals are wanted, of which %zu were, and %zu should be", used, at, left);
    for (size_t place = 0; place < history.count; place++) {
        struct question *it = &history.questions[place];
        if (gone & ONLY(it->goal)) {
            mirfodwel_status status = mirfodwel_graph(&history.session, it->answer.node, it->words, ROOM, &it->used);
            is_so(!it->answer.has_graph || status == MIRFODWEL_UNKNOWN, "the graph of goal %u is still there, with status %d", it->goal, status);
            leaves++;
        } else if (it->is_stored && it->goal < history.table.count) {
            is_as_before(it);
            stays++;
        }
    }
}

/* Refuses each request for memory of the change in turn. At the end the session went over, or, with enough memory, may. */
static bool is_refused_in_turn(const struct rows *rows) {
    mirfodwel_row_fault fault;
    bool after = chance(2);
    for (long place = 1; place < 1000; place++) {
        begin(place, after);
        mirfodwel_status status = change_over(&history.session, rows, &fault);
        bool is_over = requests < place;
        begin(0, false);
        if (status == MIRFODWEL_DONE)
            return false;
        is_so(status == MIRFODWEL_NO_MEMORY && !is_over, "with request %ld refused it is changed with status %d", place, status);
        refusals++;
        knows_all_but(0);
        if (!chance(8))
            return true;
    }
    return true;
}

static void change(void) {
    mirfodwel_row_fault fault;
    struct table before = history.table;
    for (size_t turn = chance(8) ? 1 + chance(2) : chance(6); turn > 0; turn--)
        change_table(&history.table);
    goals gone = concerned_by(&before, &history.table);
    struct rows rows = lay_out(&history.table);
    struct table after = history.table;
    history.table = before;
    bool is_left = chance(20) || is_refused_in_turn(&rows);
    history.table = after;
    if (is_left)
        is_so(change_over(&history.session, &rows, &fault) == MIRFODWEL_DONE, "%zu goals are not gone over to", rows.sizes.goals);
    /* What it read so far is gone. */
    drop_rows(&history.rows);
    history.rows = rows;
    steps++;
    knows_all_but(gone);
}

static void live(void) {
    mirfodwel_row_fault fault;
    history.count = 0;
    history.is_deep = chance(2);
    random_table(&history.table);
    history.rows = lay_out(&history.table);
    held = 0;
    begin(0, false);
    is_so(open_over(&history.session, &history.rows, &fault) == MIRFODWEL_DONE, "%zu goals are not opened", history.rows.sizes.goals);
    for (size_t turns = chance(10) ? 1 + chance(30) : chance(600); turns > 0 && failed < 20; turns--) {
        ask_some();
        look_around();
        change();
    }
    is_so(mirfodwel_close(&history.session) == MIRFODWEL_DONE && held == 0, "%ld blocks are not given back", held);
    works = false;
    drop_rows(&history.rows);
}

int main(int count, char **words) {
    if (count < 3)
        return 2;
    long most = atol(words[1]), first = atol(words[2]);
    setvbuf(stdout, NULL, _IONBF, 0);
    for (begun = first; steps < most && failed < 20; begun++) {
        seed = begun * 2654435761u + 17;
        live();
    }
    printf("histories %ld to %ld, %ld steps: %ld answers stay, %ld leave, %ld are decided, %ld changes are refused\n", first, begun - 1, steps, stays, leaves,
        decided, refusals);
    expect(most < 1000 || (stays && leaves && decided && refusals), "something never happened");
    return finish();
}
