/*
 * What calls do that are refused: sessions in the wrong state, rows and numbers that are not in order, rooms that are too small; what they
 * leave; goals that are made known in rounds; and the words in which goals are shown.
 */
#include "callers.h"

#define COUNT(array) (sizeof(array) / sizeof *(array))

static struct bytes text_of(const char *text) {
    return (struct bytes){(uint8_t *)text, strlen(text)};
}

/* A ring of two goals, one that does not hold, and one that nothing says anything of. */
static const char *const table = "rule A = i:B\nrule B = c:A\nrule C = i:C\nask 4 D\n";

/* All calls but mirfodwel_open refuse a session that is closed, and write nothing. */
static void closed(mirfodwel_session *session, const char *when) {
    uint8_t out[64];
    uint64_t words[4] = {0};
    uint32_t goals[4];
    size_t used = 77;
    bool is_valid = true;
    mirfodwel_answer answer;
    mirfodwel_reason reason;
    memset(&answer, 0xA5, sizeof answer);
    memset(&reason, 0xA5, sizeof reason);
    memset(out, 0xA5, sizeof out);
    expect(mirfodwel_ask(session, 9, 0, &answer) == MIRFODWEL_WRONG_STATE, "ask %s", when);
    expect(mirfodwel_cause(session, 9, 0, &reason) == MIRFODWEL_WRONG_STATE && is_untouched(&reason, sizeof reason), "cause %s", when);
    expect(mirfodwel_graph(session, 0, words, 4, &used) == MIRFODWEL_WRONG_STATE, "graph %s", when);
    expect(mirfodwel_check_graph(session, 0, 0, words, 4, &is_valid) == MIRFODWEL_WRONG_STATE, "check_graph %s", when);
    expect(mirfodwel_wanted(session, goals, 4, &used) == MIRFODWEL_WRONG_STATE, "wanted %s", when);
    expect(mirfodwel_explain_goal(session, 0, 9, 0, out, 0, out, 64, &used) == MIRFODWEL_WRONG_STATE, "explain_goal %s", when);
    expect(mirfodwel_last_fault(session, out, 64, &used) == MIRFODWEL_WRONG_STATE, "last_fault %s", when);
    expect(mirfodwel_held(session, &used) == MIRFODWEL_WRONG_STATE, "held %s", when);
    expect(mirfodwel_held_bytes(session, &used) == MIRFODWEL_WRONG_STATE, "held_bytes %s", when);
    expect(mirfodwel_close(session) == MIRFODWEL_WRONG_STATE, "close %s", when);
    mirfodwel_row_fault fault = {9, 99};
    mirfodwel_goal past_the_end = {5, 5};
    expect(mirfodwel_reopen(session, &past_the_end, 1, (void *)goals, 0, (void *)goals, 0, &fault) == MIRFODWEL_WRONG_STATE, "reopen %s", when);
    expect(mirfodwel_change(session, &past_the_end, 1, (void *)goals, 0, (void *)goals, 0, &fault) == MIRFODWEL_WRONG_STATE, "change %s", when);
    expect(fault.list == 9 && fault.place == 99, "reopen or change %s tells of a row", when);
    expect(is_untouched(&answer, sizeof answer) && is_untouched(out, sizeof out) && is_valid && used == 77, "a call %s writes something", when);
    expect(is_all_zero(session), "a call %s opens the session", when);
}

static void states(const struct rows *rows) {
    mirfodwel_session session = {0};
    mirfodwel_row_fault fault = {9, 99};
    mirfodwel_answer first, second;
    closed(&session, "before it is opened");
    for (int turn = 0; turn < 3; turn++) {
        expect(open_over(&session, rows, &fault) == MIRFODWEL_DONE && session.is_open, "it is not opened in turn %d", turn);
        expect(mirfodwel_ask(&session, 9, 0, &first) == MIRFODWEL_DONE && first.outcome == MIRFODWEL_YES && first.started == 2, "A does not hold");
        mirfodwel_session before = session;
        expect(open_over(&session, rows, &fault) == MIRFODWEL_WRONG_STATE && session.is_open && session.inside == before.inside, "it is opened twice");
        expect(fault.list == 9 && fault.place == 99, "a row is called bad");
        expect(mirfodwel_ask(&session, 9, 0, &second) == MIRFODWEL_DONE && second.outcome == MIRFODWEL_YES && second.started == 0,
            "what was worked out is lost where it is opened twice");
        expect(mirfodwel_close(&session) == MIRFODWEL_DONE, "it is not closed in turn %d", turn);
        closed(&session, "after it is closed");
    }
}

/* Numbers that mean nothing in an open session, which goes on. */
static void unknown(const struct rows *rows) {
    mirfodwel_session session = {0};
    mirfodwel_row_fault fault;
    mirfodwel_answer answer;
    mirfodwel_reason reason;
    struct graph graph;
    uint8_t out[64];
    size_t used = 77, nodes = 0;
    bool is_valid = true;
    memset(out, 0xA5, sizeof out);
    open_over(&session, rows, &fault);
    memset(&answer, 0xA5, sizeof answer);
    memset(&reason, 0xA5, sizeof reason);
    const uint32_t strange[] = {4, 5, 2147483648u, 4294967295u};
    for (size_t place = 0; place < COUNT(strange); place++) {
        expect(mirfodwel_ask(&session, 9, strange[place], &answer) == MIRFODWEL_UNKNOWN, "goal %u is asked", strange[place]);
        expect(mirfodwel_cause(&session, 9, strange[place], &reason) == MIRFODWEL_UNKNOWN && is_untouched(&reason, sizeof reason),
            "goal %u has a cause", strange[place]);
        expect(mirfodwel_check_graph(&session, strange[place], 0, (uint64_t *)out, 0, &is_valid) == MIRFODWEL_UNKNOWN, "goal %u is checked",
            strange[place]);
        expect(mirfodwel_explain_goal(&session, 0, 9, strange[place], out, 0, out + 1, 63, &used) == MIRFODWEL_UNKNOWN, "goal %u is shown",
            strange[place]);
    }
    for (int number = 2; number < 256; number++) {
        expect(mirfodwel_check_graph(&session, 0, number, (uint64_t *)out, 0, &is_valid) == MIRFODWEL_UNKNOWN, "verdict %d is checked", number);
        if (number > 2) {
            expect(mirfodwel_explain_goal(&session, number, 9, 0, out, 0, out + 1, 63, &used) == MIRFODWEL_UNKNOWN, "form %d is shown", number);
            expect(mirfodwel_explain(number, out, 0, out + 1, 63, &used) == MIRFODWEL_UNKNOWN, "form %d of a text is shown", number);
        }
    }
    expect(is_untouched(&answer, sizeof answer) && is_untouched(out, sizeof out) && is_valid && used == 77, "what is unknown writes something");
    expect(mirfodwel_graph(&session, 0, (uint64_t *)out, 8, &used) == MIRFODWEL_UNKNOWN, "a graph before any question");
    expect(mirfodwel_ask(&session, 9, 0, &answer) == MIRFODWEL_DONE && answer.has_graph, "A has no graph");
    expect(mirfodwel_held(&session, &nodes) == MIRFODWEL_DONE && nodes > 0, "%zu nodes are held", nodes);
    const size_t far[] = {nodes + 5, 1u << 31, SIZE_MAX / 2, SIZE_MAX};
    for (size_t place = 0; place < COUNT(far); place++)
        expect(mirfodwel_graph(&session, far[place], (uint64_t *)out, 8, &used) == MIRFODWEL_UNKNOWN, "node %zu has a graph", far[place]);
    expect(used == 77 && is_untouched(out, sizeof out), "a graph that there is not is written");
    expect(graph_of(&session, answer.node, &graph) == MIRFODWEL_DONE, "A has no graph any more");
    for (size_t room = 0; room < graph.length; room++) {
        uint64_t *words = fenced(room * sizeof *words);
        expect(mirfodwel_graph(&session, answer.node, words, room, &used) == MIRFODWEL_NO_ROOM && used == graph.length &&
                is_untouched(words, room * sizeof *words), "a graph of %zu words in room for %zu", graph.length, room);
        drop_fenced(words, room * sizeof *words);
    }
    drop_graph(&graph);
    mirfodwel_close(&session);
}

struct bad_rows {
    mirfodwel_goal goals[3];
    mirfodwel_candidate candidates[2];
    mirfodwel_question questions[2];
    int list; /* none is bad where it is below 0 */
    size_t place;
};

#define MANY 4294967295u
static const struct bad_rows bad[] = {
    {{{0, 1}, {1, 1}, {0, 2}}, {{0, 2, 0}, {1, 1, 1}}, {{0, 2}, {3, 0}}, -1, 0},
    {{{0, 0}, {2, 0}, {MANY, MANY}}, {{2, 0, 0}, {0, 0, 1}}, {{1, 1}, {2, 1}}, -1, 0},
    {{{0, 1}, {1, 2}, {0, 9}}, {{0, 2, 0}, {1, 1, 1}}, {{0, 2}, {3, 0}}, 0, 1},
    {{{0, 1}, {1, 1}, {MANY, MANY - 1}}, {{0, 2, 0}, {1, 1, 1}}, {{0, 2}, {3, 0}}, 0, 2},
    {{{MANY, 1}, {1, 1}, {0, 0}}, {{0, 2, 0}, {1, 1, 1}}, {{0, 2}, {3, 0}}, 0, 0},
    {{{0, 1}, {1, 1}, {0, 0}}, {{0, 3, 0}, {1, 9, 9}}, {{0, 2}, {3, 0}}, 1, 0},
    {{{0, 1}, {1, 1}, {0, 0}}, {{0, 2, 0}, {1, 1, 2}}, {{9, 2}, {3, 0}}, 1, 1},
    {{{0, 1}, {1, 1}, {0, 0}}, {{0, MANY, 0}, {1, 1, 0}}, {{0, 2}, {3, 0}}, 1, 0},
    {{{0, 1}, {1, 1}, {0, 0}}, {{MANY, MANY, 0}, {1, 1, 0}}, {{0, 2}, {3, 0}}, 1, 0},
    {{{0, 1}, {1, 1}, {0, 0}}, {{0, 2, 0}, {1, 1, 1}}, {{0, 2}, {4, 0}}, 2, 1},
    {{{0, 1}, {1, 1}, {0, 0}}, {{0, 2, 0}, {1, 1, 1}}, {{0, 3}, {4, 0}}, 2, 0},
    {{{0, 1}, {1, 1}, {0, 0}}, {{0, 2, 0}, {1, 1, 1}}, {{MANY, 0}, {0, MANY}}, 2, 0},
    {{{0, 1}, {1, 1}, {0, 0}}, {{0, 2, 0}, {1, 1, 1}}, {{1, 0}, {0, MANY}}, 2, 1},
};

static void row_faults(void) {
    for (size_t place = 0; place < COUNT(bad); place++) {
        const struct bad_rows *it = &bad[place];
        mirfodwel_session session = {0};
        mirfodwel_row_fault fault = {9, 99};
        mirfodwel_status status = mirfodwel_open(&session, it->goals, 3, it->candidates, 2, it->questions, 2, &fault);
        if (it->list < 0) {
            expect(status == MIRFODWEL_DONE, "rows %zu are refused at row %zu of list %d", place, fault.place, fault.list);
            expect(mirfodwel_close(&session) == MIRFODWEL_DONE, "rows %zu are not closed", place);
        } else {
            expect(status == MIRFODWEL_BAD_INPUT && fault.list == it->list && fault.place == it->place,
                "rows %zu are bad at row %zu of list %d, and they say %zu of %d, status %d", place, it->place, it->list, fault.place, fault.list, status);
            closed(&session, "after bad rows");
        }
    }
}

/* A session that is opened again is as a new one; where the rows are bad it goes on over those so far. */
static void reopened(const struct rows *rows) {
    static const mirfodwel_goal lone[] = {{0, 1}, {9, MIRFODWEL_NOT_KNOWN}};
    static const mirfodwel_candidate one[] = {{0, 1, 0}};
    static const mirfodwel_question itself[] = {{MIRFODWEL_COINDUCTIVE, 0}, {MIRFODWEL_INDUCTIVE, 1}};
    mirfodwel_session session = {0};
    mirfodwel_row_fault fault = {9, 99};
    mirfodwel_answer answer;
    size_t count = 77;
    expect(open_over(&session, rows, &fault) == MIRFODWEL_DONE, "it is not opened");
    for (size_t turn = 0; turn < 3; turn++) {
        expect(mirfodwel_ask(&session, 9, 0, &answer) == MIRFODWEL_DONE && answer.started == 2, "A has %zu runs in turn %zu", (size_t)answer.started, turn);
        size_t node = answer.node;
        for (size_t place = 0; place < COUNT(bad); place++) {
            const struct bad_rows *it = &bad[place];
            if (it->list < 0)
                continue;
            mirfodwel_status status = mirfodwel_reopen(&session, it->goals, 3, it->candidates, 2, it->questions, 2, &fault);
            expect(status == MIRFODWEL_BAD_INPUT && fault.list == it->list && fault.place == it->place && session.is_open, "rows %zu are opened again", place);
        }
        expect(mirfodwel_ask(&session, 9, 0, &answer) == MIRFODWEL_DONE && answer.started == 0 && answer.node == node, "bad rows make it forget A");
        fault = (mirfodwel_row_fault){9, 99};
        expect(mirfodwel_reopen(&session, lone, 2, one, 1, itself, 1, &fault) == MIRFODWEL_DONE && fault.list == 9 && session.is_open, "it is not opened again");
        expect(mirfodwel_held(&session, &count) == MIRFODWEL_DONE && count == 0, "%zu nodes are left", count);
        expect(mirfodwel_graph(&session, node, (uint64_t *)&answer, 0, &count) == MIRFODWEL_UNKNOWN, "a node is left");
        expect(mirfodwel_wanted(&session, (uint32_t *)&answer, 0, &count) == MIRFODWEL_DONE && count == 0, "%zu goals are wanted", count);
        expect(mirfodwel_ask(&session, 9, 2, &answer) == MIRFODWEL_UNKNOWN, "C is still there");
        expect(mirfodwel_ask(&session, 9, 0, &answer) == MIRFODWEL_DONE && answer.outcome == MIRFODWEL_YES && answer.started == 1, "the new goal is not asked");
        expect(mirfodwel_ask(&session, 9, 1, &answer) == MIRFODWEL_DONE && answer.outcome == MIRFODWEL_MAYBE, "the goal that is not known is known");
        expect(mirfodwel_last_fault(&session, (uint8_t *)&answer, 0, &count) == MIRFODWEL_DONE && count == 0, "there was a fault");
        expect(reopen_over(&session, rows, &fault) == MIRFODWEL_DONE, "it is not opened again over the first rows");
    }
    expect(mirfodwel_close(&session) == MIRFODWEL_DONE, "it is not closed");
    closed(&session, "after it was opened again and closed");
}

/* Whether the goal has this outcome after so many runs. */
static bool comes_to(mirfodwel_session *session, uint32_t goal, uint8_t outcome, uint64_t started, size_t *node) {
    mirfodwel_answer answer = {0};
    mirfodwel_status status = mirfodwel_ask(session, 9, goal, &answer);
    *node = answer.node;
    return expect(status == MIRFODWEL_DONE && answer.outcome == outcome && answer.started == started, "goal %u is %s after %zu runs, and not %s after %zu", goal,
        outcome_words[answer.outcome & 3], (size_t)answer.started, outcome_words[outcome], (size_t)started);
}

/* Bad rows are not gone over to, and the session goes on over those so far. */
static void not_changed(mirfodwel_session *session) {
    mirfodwel_row_fault fault;
    for (size_t place = 0; place < COUNT(bad); place++) {
        const struct bad_rows *it = &bad[place];
        if (it->list < 0)
            continue;
        mirfodwel_status status = mirfodwel_change(session, it->goals, 3, it->candidates, 2, it->questions, 2, &fault);
        expect(status == MIRFODWEL_BAD_INPUT && fault.list == it->list && fault.place == it->place && session->is_open, "rows %zu are gone over to", place);
    }
}

/* A session that goes over to rows that changed knows what that does not concern. */
static void changed(const struct rows *rows) {
    /* B and A in another order; then B without candidates; then A alone, which asks C, and that is not known. They share the other arrays. */
    static const mirfodwel_goal moved[] = {{1, 1}, {0, 1}, {2, 1}, {0, 0}}, other[] = {{1, 1}, {3, 0}, {2, 1}}, fewer[] = {{2, 1}, {0, 0}, {7, MIRFODWEL_NOT_KNOWN}};
    static const mirfodwel_candidate candidates[] = {{2, 1, 0}, {0, 1, 0}, {1, 1, 0}};
    static const mirfodwel_question questions[] = {{MIRFODWEL_INDUCTIVE, 1}, {MIRFODWEL_INDUCTIVE, 2}, {MIRFODWEL_COINDUCTIVE, 0}};
    mirfodwel_session session = {0};
    mirfodwel_row_fault fault = {9, 99};
    size_t of_a, of_c, node, used = 77;
    uint64_t words[64];
    expect(open_over(&session, rows, &fault) == MIRFODWEL_DONE, "it is not opened");
    for (size_t turn = 0; turn < 3; turn++) {
        comes_to(&session, 0, MIRFODWEL_YES, 2, &of_a);
        comes_to(&session, 2, MIRFODWEL_NO, turn ? 0 : 1, &of_c);
        not_changed(&session);
        expect(mirfodwel_change(&session, moved, 4, candidates, 3, questions, 3, &fault) == MIRFODWEL_DONE && fault.list == 9, "the same rules are refused");
        expect(comes_to(&session, 0, MIRFODWEL_YES, 0, &node) && node == of_a, "A is forgotten over the same rules");
        expect(mirfodwel_change(&session, other, 3, candidates, 3, questions, 3, &fault) == MIRFODWEL_DONE, "other rules are refused");
        expect(mirfodwel_graph(&session, of_a, words, 64, &used) == MIRFODWEL_UNKNOWN && used == 77, "the node of A is left");
        expect(comes_to(&session, 2, MIRFODWEL_NO, 0, &node) && node == of_c, "C is forgotten");
        expect(mirfodwel_graph(&session, of_c, words, 64, &used) == MIRFODWEL_DONE, "the node of C is gone");
        comes_to(&session, 0, MIRFODWEL_NO, 2, &node);
        expect(mirfodwel_ask(&session, 9, 3, &(mirfodwel_answer){0}) == MIRFODWEL_UNKNOWN, "D is still there");
        expect(mirfodwel_change(&session, fewer, 3, candidates, 3, questions, 3, &fault) == MIRFODWEL_DONE, "fewer rules are refused");
        expect(mirfodwel_graph(&session, of_c, words, 64, &used) == MIRFODWEL_UNKNOWN, "the node of C is left");
        comes_to(&session, 0, MIRFODWEL_MAYBE, 2, &node);
        expect(mirfodwel_wanted(&session, (uint32_t *)words, 64, &used) == MIRFODWEL_DONE && used == 1 && *(uint32_t *)words == 2, "C is not wanted");
        expect(change_over(&session, rows, &fault) == MIRFODWEL_DONE, "the first rows are refused");
        expect(mirfodwel_wanted(&session, (uint32_t *)words, 64, &used) == MIRFODWEL_DONE && used == 0, "C is wanted");
        comes_to(&session, 2, MIRFODWEL_NO, 1, &of_c);
        used = 77, fault.list = 9;
    }
    expect(mirfodwel_close(&session) == MIRFODWEL_DONE, "it is not closed");
    closed(&session, "after it was changed and closed");
}

/* Arrays with no row at all are rules, too. */
static void nothing_at_all(void) {
    mirfodwel_session session = {0};
    mirfodwel_row_fault fault;
    mirfodwel_answer answer;
    struct rows rows = fenced_rows((mirfodwel_sizes){0, 0, 0, 0});
    size_t used = 77;
    expect(open_over(&session, &rows, &fault) == MIRFODWEL_DONE, "no rows are refused");
    expect(mirfodwel_ask(&session, 9, 0, &answer) == MIRFODWEL_UNKNOWN, "a goal that there is not is asked");
    expect(mirfodwel_held(&session, &used) == MIRFODWEL_DONE && used == 0, "nodes of nothing");
    expect(mirfodwel_close(&session) == MIRFODWEL_DONE, "no rows are not closed");
    for (size_t place = 0; place < TEXT_CALLS; place++) {
        struct bytes out;
        mirfodwel_status status = call_text(text_calls[place].call, (struct bytes){rows.names, 0}, &out);
        bool is_data = text_calls[place].call == mirfodwel_check;
        expect(status == (is_data ? MIRFODWEL_BAD_INPUT : MIRFODWEL_DONE), "of an empty text %s has status %d", text_calls[place].name, status);
        drop_fenced(out.at, out.length);
    }
    drop_rows(&rows);
}

/* Where one of the four arrays is too short by one, nothing is read into any. */
static void short_arrays(const char *text) {
    struct rows whole;
    size_t line = 77;
    expect(read_rows(text_of(text), &whole) == MIRFODWEL_DONE, "'%s' is not read", text);
    for (int which = 0; which < 4; which++) {
        mirfodwel_sizes sizes = whole.sizes;
        size_t *part = which == 0 ? &sizes.goals : which == 1 ? &sizes.candidates : which == 2 ? &sizes.questions : &sizes.names;
        if (!*part)
            continue;
        --*part;
        struct rows rows = fenced_rows(sizes);
        mirfodwel_status status = read_into(text_of(text), &rows, &line);
        expect(status == MIRFODWEL_NO_ROOM && has_sizes(rows.sizes, whole.sizes) && line == 77, "with array %d too short the status is %d", which, status);
        expect(is_untouched(rows.goals, sizes.goals * sizeof(mirfodwel_goal)) &&
                is_untouched(rows.candidates, sizes.candidates * sizeof(mirfodwel_candidate)) &&
                is_untouched(rows.questions, sizes.questions * sizeof(mirfodwel_question)) && is_untouched(rows.names, sizes.names),
            "with array %d too short something is written", which);
        rows.sizes = sizes;
        drop_rows(&rows);
    }
    drop_rows(&whole);
}

static void names(const struct rows *rows) {
    const struct bytes all = {rows->names, rows->sizes.names};
    expect(all.length == 8 && !memcmp(all.at, "A\nB\nC\nD\n", 8), "the names are '%.*s'", (int)all.length, (char *)all.at);
    for (uint32_t place = 0; place < 4; place++) {
        uint32_t goal = 77;
        uint8_t name = 'A' + place;
        expect(mirfodwel_find(all.at, all.length, &name, 1, &goal) == MIRFODWEL_DONE && goal == place, "%c is goal %u", name, goal);
    }
    const char *const strange[] = {"", "E", "AB", "A\n", "A\nB", "\n", "a"};
    for (size_t place = 0; place < COUNT(strange); place++) {
        uint32_t goal = 77;
        struct bytes name = text_of(strange[place]);
        expect(mirfodwel_find(all.at, all.length, name.at, name.length, &goal) == MIRFODWEL_UNKNOWN && goal == 77, "'%s' is goal %u", strange[place], goal);
    }
}

static void bad_lines(void) {
    const char *const texts[] = {"rul\n", "rule A =\nrule\n", "rule A =\n\n# x\nask 1 A\nrule A = x:A", "ask 12345678 A\n"};
    const size_t lines[] = {1, 2, 5, 1};
    for (size_t place = 0; place < COUNT(texts); place++) {
        struct rows rows = fenced_rows((mirfodwel_sizes){0, 0, 0, 0});
        size_t line = 77;
        mirfodwel_status status = read_into(text_of(texts[place]), &rows, &line);
        expect(status == MIRFODWEL_BAD_INPUT && line == lines[place], "'%s': status %d, line %zu", texts[place], status, line);
        drop_rows(&rows);
    }
}

/* Asks in rounds: what was wanted is made known in the next one, until nothing is. Goal n asks n + 1, the last one holds. All but the goals
   stay where they are, and these too, but for a session that keeps what it knows. */
static void rounds(bool keeps) {
    mirfodwel_goal both[2][8];
    mirfodwel_candidate candidates[8];
    mirfodwel_question questions[8];
    size_t used = 1, turns = 0;
    uint32_t wanted[8] = {0}, next = 0;
    mirfodwel_answer answer;
    for (uint32_t place = 0; place < 8; place++) {
        both[0][place] = (mirfodwel_goal){MANY - place, MIRFODWEL_NOT_KNOWN};
        candidates[place] = (mirfodwel_candidate){place, place < 7, 0};
        questions[place] = (mirfodwel_question){MIRFODWEL_INDUCTIVE, place < 7 ? place + 1 : 0};
    }
    mirfodwel_session session = {0};
    while (used) {
        mirfodwel_row_fault fault;
        mirfodwel_goal *goals = both[keeps ? turns % 2 : 0], *others = both[keeps ? 1 - turns % 2 : 0];
        mirfodwel_status status = (turns ? keeps ? mirfodwel_change : mirfodwel_reopen : mirfodwel_open)(
            &session, goals, 8, candidates, 8, questions, 8, &fault);
        expect(status == MIRFODWEL_DONE, "round %zu is not opened", turns);
        expect(mirfodwel_ask(&session, 8, 0, &answer) == MIRFODWEL_DONE, "round %zu is not answered", turns);
        expect(answer.outcome == (next == 8 ? MIRFODWEL_YES : MIRFODWEL_MAYBE), "round %zu answers %s", turns, outcome_words[answer.outcome]);
        expect(mirfodwel_wanted(&session, wanted, 0, &used) == (next == 8 ? MIRFODWEL_DONE : MIRFODWEL_NO_ROOM), "round %zu wants %zu", turns, used);
        expect(mirfodwel_wanted(&session, wanted, 8, &used) == MIRFODWEL_DONE && used == (next < 8), "round %zu wants %zu goals", turns, used);
        if (used && expect(wanted[0] == next, "round %zu wants goal %u", turns, wanted[0])) {
            memmove(others, goals, sizeof both[0]);
            others[next] = (mirfodwel_goal){next, 1};
            next++;
        }
        if (++turns > 9)
            break;
    }
    mirfodwel_close(&session);
    expect(turns == 9, "there are %zu rounds", turns);
}

/* A goal is shown as a text with this one question shows it. */
static void shown(const struct rows *rows) {
    text_call *const forms[] = {explain_text, explain_graphviz};
    mirfodwel_session session = {0};
    mirfodwel_row_fault fault;
    open_over(&session, rows, &fault);
    for (uint32_t goal = 0; goal < 4; goal++) {
        char text[200];
        snprintf(text, sizeof text, "rule A = i:B\nrule B = c:A\nrule C = i:C\nask 4 %c\n", 'A' + goal);
        for (uint8_t form = 0; form < 2; form++) {
            struct bytes wanted, out;
            call_text(forms[form], text_of(text), &wanted);
            out = (struct bytes){fenced(wanted.length), 0};
            mirfodwel_status status = mirfodwel_explain_goal(&session, form, 4, goal, rows->names, rows->sizes.names, out.at, wanted.length, &out.length);
            expect(status == MIRFODWEL_DONE && is_same(out, wanted), "goal %u in form %u is shown, status %d, as '%.*s' and not '%.*s'", goal, form, status,
                (int)out.length, (char *)out.at, (int)wanted.length, (char *)wanted.at);
            drop_fenced(out.at, wanted.length);
            drop_fenced(wanted.at, wanted.length);
        }
    }
    size_t nodes = 77;
    expect(mirfodwel_held(&session, &nodes) == MIRFODWEL_DONE && nodes == 0, "the session holds %zu nodes of what was shown", nodes);
    mirfodwel_close(&session);
}

/* A goal that has no name is called by its number; data that is shown is accepted, and calls goals by their numbers, whatever their names. */
static void shown_by_number(const struct rows *rows) {
    mirfodwel_session session = {0};
    mirfodwel_row_fault fault;
    uint8_t out[1000], told[1000];
    size_t used = 0, length = 0;
    open_over(&session, rows, &fault);
    mirfodwel_status status = mirfodwel_explain_goal(&session, MIRFODWEL_TEXT, 4, 1, out, 0, out + 1, 999, &used);
    expect(status == MIRFODWEL_DONE && used > 8 && !memcmp(out + 1, "1 holds", 7), "goal 1 without a name is shown, status %d, as '%.*s'", status, (int)used,
        (char *)out + 1);
    for (size_t named = 0; named <= rows->sizes.names; named++) {
        status = mirfodwel_explain_goal(&session, MIRFODWEL_DATA, 4, 2, rows->names, named, out, sizeof out, &used);
        mirfodwel_status checked = mirfodwel_check(out, used, told, sizeof told, &length);
        bool is_called = length == 14 && !memcmp(told, "2 no accepted\n", 14);
        expect(status == MIRFODWEL_DONE && checked == MIRFODWEL_DONE && is_called, "goal 2 is shown with status %d and told with status %d: '%.*s'", status, checked,
            (int)length, (char *)told);
    }
    mirfodwel_close(&session);
}

struct wanted_cause {
    size_t depth;
    char goal;
    uint8_t outcome, kind;
    char by; /* where a question is named */
    uint8_t step;
    char asked;
};

/* Why goals of `caused` are neither yes nor no. */
static const char *const caused = "rule A = i:B\nrule B = u:A\nrule C = c:A\nrule D = f:D\nrule E = i:F\nrule F = i:G\nrule G =\nrule H = i:I\nrule J = i:K\nask 4 K\n";
static const struct wanted_cause causes_wanted[] = {
    {9, 'G', MIRFODWEL_YES, MIRFODWEL_NO_CAUSE, 0, 0, 0},
    {9, 'E', MIRFODWEL_YES, MIRFODWEL_NO_CAUSE, 0, 0, 0},
    {9, 'H', MIRFODWEL_NO, MIRFODWEL_NO_CAUSE, 0, 0, 0},
    {9, 'A', MIRFODWEL_MAYBE, MIRFODWEL_UNKNOWN_CYCLE, 'B', MIRFODWEL_UNKNOWN_KIND, 'A'},
    {9, 'C', MIRFODWEL_MAYBE, MIRFODWEL_UNKNOWN_CYCLE, 'B', MIRFODWEL_UNKNOWN_KIND, 'A'},
    {9, 'D', MIRFODWEL_MAYBE, MIRFODWEL_FORCED_CYCLE, 'D', MIRFODWEL_FORCED_AMBIGUITY, 'D'},
    {1, 'E', MIRFODWEL_MAYBE, MIRFODWEL_NO_DEPTH, 'F', MIRFODWEL_INDUCTIVE, 'G'},
    {0, 'E', MIRFODWEL_MAYBE, MIRFODWEL_NO_DEPTH, 'E', MIRFODWEL_INDUCTIVE, 'F'},
    {9, 'K', MIRFODWEL_MAYBE, MIRFODWEL_BY_NOT_KNOWN, 'K', MIRFODWEL_FORCED_AMBIGUITY, 'K'},
    {0, 'K', MIRFODWEL_MAYBE, MIRFODWEL_BY_NOT_KNOWN, 'K', MIRFODWEL_FORCED_AMBIGUITY, 'K'},
    {9, 'J', MIRFODWEL_MAYBE, MIRFODWEL_BY_NOT_KNOWN, 'K', MIRFODWEL_FORCED_AMBIGUITY, 'K'},
    {0, 'J', MIRFODWEL_MAYBE, MIRFODWEL_NO_DEPTH, 'J', MIRFODWEL_INDUCTIVE, 'K'},
};

/* Each cause is told, before and after the goal is asked, and nothing is stored of that. */
static void causes(void) {
    struct rows read, rows;
    mirfodwel_session session = {0};
    mirfodwel_row_fault fault;
    mirfodwel_answer answer;
    size_t before = 0, nodes = 77;
    expect(read_rows(text_of(caused), &read) == MIRFODWEL_DONE && read.sizes.goals == 11, "'%s' is read otherwise", caused);
    rows = read;
    rows.goals = given(malloc(rows.sizes.goals * sizeof(mirfodwel_goal)));
    memcpy(rows.goals, read.goals, rows.sizes.goals * sizeof(mirfodwel_goal));
    rows.goals[10].count = MIRFODWEL_NOT_KNOWN;
    open_over(&session, &rows, &fault);
    for (size_t turn = 0; turn < 2 * COUNT(causes_wanted); turn++) {
        const struct wanted_cause *it = &causes_wanted[turn / 2];
        mirfodwel_reason reason;
        memset(&reason, 0xA5, sizeof reason);
        mirfodwel_status status = mirfodwel_cause(&session, it->depth, it->goal - 'A', &reason);
        expect(status == MIRFODWEL_DONE && has_reason(&rows, &reason), "of %c no reason is told that fits, status %d", it->goal, status);
        expect(reason.outcome == it->outcome && reason.kind == it->kind && reason.started > 0, "%c is %s, for a reason of kind %d", it->goal,
            outcome_words[reason.outcome & 3], reason.kind);
        expect(reason.has_question == (it->by != 0) && (!it->by || (reason.by == (uint32_t)(it->by - 'A') && reason.step == it->step &&
                reason.asked == (uint32_t)(it->asked - 'A'))), "%c was cut off where %u asks %u", it->goal, reason.by, reason.asked);
        mirfodwel_held(&session, &nodes);
        expect(nodes == before, "%zu nodes are held of a cause, and before %zu", nodes, before);
        expect(mirfodwel_ask(&session, it->depth, it->goal - 'A', &answer) == MIRFODWEL_DONE, "%c is not asked", it->goal);
        mirfodwel_held(&session, &before);
    }
    mirfodwel_close(&session);
    free(rows.goals);
    drop_rows(&read);
}

int main(void) {
    struct rows rows;
    expect(read_rows(text_of(table), &rows) == MIRFODWEL_DONE && rows.sizes.goals == 4 && rows.sizes.candidates == 3 && rows.sizes.questions == 3,
        "the table has other rows");
    states(&rows);
    unknown(&rows);
    row_faults();
    reopened(&rows);
    changed(&rows);
    nothing_at_all();
    short_arrays(table);
    short_arrays("rule A =\n");
    names(&rows);
    bad_lines();
    rounds(false);
    rounds(true);
    shown(&rows);
    shown_by_number(&rows);
    causes();
    drop_rows(&rows);
    return finish();
}
