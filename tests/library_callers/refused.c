/*
 * refused MODE FILE..: of each file every request for memory is refused in turn, and then all from each one on, where MODE is `tables` in the calls
 * on tables, on their rows and in sessions over them, and where it is `data` or `types` in the call that reads these. An answer, a fault
 * or a status has to come of it, nothing may be lost of what was known, and no memory may be held at the end.
 */
#include "callers.h"
#include "refusals.h"

/* The PLACES that the environment names are the most requests of one call that are refused. */
static long most;

static size_t count_lines(struct bytes text) {
    size_t count = 0;
    for (size_t place = 0; place < text.length; place++)
        count += text.at[place] == '\n';
    return count;
}

/* Whether lines tell what others do, but for faults of memory; behind one, the counts of runs may be others. */
static bool tells_less(struct bytes some, struct bytes whole) {
    char left[200], right[200], name[40], other[40], word[40], another[40];
    bool was_fault = false;
    size_t at = 0, from = 0;
    if (count_lines(some) != count_lines(whole))
        return false;
    while (at < some.length) {
        const uint8_t *end = memchr(some.at + at, '\n', some.length - at), *right_end = memchr(whole.at + from, '\n', whole.length - from);
        size_t length = end - some.at - at, right_length = right_end - whole.at - from;
        snprintf(left, sizeof left, "%.*s", (int)length, (char *)some.at + at);
        snprintf(right, sizeof right, "%.*s", (int)right_length, (char *)whole.at + from);
        at += length + 1, from += right_length + 1;
        if (!strcmp(left, right) && !was_fault)
            continue;
        if (sscanf(left, "%39s %39s", name, word) != 2 || sscanf(right, "%39s %39s", other, another) != 2 || strcmp(name, other))
            return false;
        was_fault = was_fault || !strcmp(word, "fault");
        if (!was_fault || (strcmp(word, "fault") && strcmp(word, another)))
            return false;
    }
    return true;
}

static void judge_text(const char *path, const struct named_call *it, long place, mirfodwel_status status, struct bytes out, mirfodwel_status as_ever,
    struct bytes whole) {
    bool is_told = it->call == mirfodwel_goals || it->call == mirfodwel_answers;
    bool is_right = status == as_ever && is_same(out, whole);
    if (status == MIRFODWEL_NO_MEMORY)
        is_right = out.length == 0 || out.at[out.length - 1] == '\n';
    if (status == MIRFODWEL_BAD_INPUT && as_ever == MIRFODWEL_BAD_INPUT) /* the reason may be cut short */
        is_right = out.length <= whole.length && !memcmp(out.at, whole.at, out.length);
    if (status == MIRFODWEL_FAULT && as_ever != MIRFODWEL_FAULT)
        is_right = !is_told || tells_less(out, whole);
    expect(is_right, "%s of %s, request %ld%s refused: status %d, '%.*s'", it->name, path, place, all_after ? " and all after" : "", status, (int)out.length,
        (char *)out.at);
    expect(held == 0, "%s of %s, request %ld refused: %ld blocks are not given back", it->name, path, place, held);
    held = 0;
}

/* Which of so many requests comes next: each, or as many as may be, evenly. */
static long next_place(long place, long all) {
    return all <= most ? place + 1 : place + 1 + (long)chance(2 * all / most);
}

static void refuse_text(const char *path, struct bytes text, const struct named_call *it) {
    struct bytes whole, out;
    mirfodwel_status as_ever = call_text(it->call, text, &whole);
    size_t length = 4 * whole.length + 400; /* a fault takes more room than an answer */
    uint8_t *room = given(malloc(length));
    out.at = room;
    begin(0, false);
    mirfodwel_status status = it->call(text.at, text.length, room, length, &out.length);
    works = false;
    long all = requests;
    judge_text(path, it, 0, status, out, as_ever, whole);
    for (int after = 0; after < 2; after++)
        for (long place = 1; place <= all; place = next_place(place, all)) {
            begin(place, after);
            status = it->call(text.at, text.length, room, length, &out.length);
            works = false;
            judge_text(path, it, place, status, out, as_ever, whole);
        }
    free(room);
    drop_fenced(whole.at, whole.length);
}

/* What came of a session over a text's rows: of each goal in turn what it came to. */
struct came {
    uint8_t outcomes[64];
    size_t goals, nodes;
    long refusals;
};

static mirfodwel_status note(struct came *came, mirfodwel_status status) {
    came->refusals += status == MIRFODWEL_NO_MEMORY;
    return status;
}

/* Calls again where memory was refused: by then there is some, but where all requests are refused for a while. */
#define AGAIN(status, call)                                                                                                                                    \
    do {                                                                                                                                                       \
        status = note(came, call);                                                                                                                             \
        if (status == MIRFODWEL_NO_MEMORY || status == MIRFODWEL_FAULT)                                                                                        \
            spares = true, status = (call), spares = false;                                                                                                     \
    } while (0)

static void ask_goal(mirfodwel_session *session, uint32_t goal, size_t goals, struct came *came) {
    static uint64_t words[1 << 16];
    size_t used = 0, nodes = 0, before = 0;
    bool is_valid = false;
    mirfodwel_answer answer = {0};
    mirfodwel_held(session, &before);
    mirfodwel_status status = mirfodwel_ask(session, goals, goal, &answer);
    if (status == MIRFODWEL_FAULT) {
        came->refusals++;
        expect(answer.fault == MIRFODWEL_MEMORY, "the fault is %d", answer.fault);
        mirfodwel_held(session, &nodes);
        expect(nodes >= before, "after a fault %zu nodes are held, and before %zu", nodes, before);
        spares = true;
        status = mirfodwel_ask(session, goals, goal, &answer);
        spares = false;
    }
    if (!expect(status == MIRFODWEL_DONE, "goal %u is asked with status %d", goal, status))
        return;
    came->outcomes[goal % 64] = answer.outcome;
    if (!answer.has_graph || answer.outcome > 1)
        return;
    AGAIN(status, mirfodwel_graph(session, answer.node, words, 1 << 16, &used));
    expect(status == MIRFODWEL_DONE, "the graph of goal %u has status %d", goal, status);
    AGAIN(status, mirfodwel_check_graph(session, goal, answer.outcome, words, used, &is_valid));
    expect(status == MIRFODWEL_DONE && is_valid, "the graph of goal %u is checked with status %d", goal, status);
}

/* The session is opened again, which takes no memory, and frees what was known. */
static void open_again(mirfodwel_session *session, const struct rows *rows) {
    mirfodwel_row_fault fault;
    size_t nodes = 77;
    long before = requests;
    expect(reopen_over(session, rows, &fault) == MIRFODWEL_DONE && requests == before, "to open it again takes %ld blocks", requests - before);
    expect(mirfodwel_held(session, &nodes) == MIRFODWEL_DONE && nodes == 0, "%zu nodes are held once it is opened again", nodes);
}

/* All calls of a session, from the reading of the rows to the end. The rows and the session are this function's own. */
static void run_session(struct bytes text, const struct rows *rows, struct came *came) {
    static uint8_t out[1 << 16];
    uint32_t wanted[4];
    size_t used = 0, line = 0;
    struct rows again = *rows;
    mirfodwel_session session = {0};
    mirfodwel_row_fault fault;
    mirfodwel_status status;
    mirfodwel_sizes none = {0, 0, 0, 0};
    again.sizes = none;
    AGAIN(status, (again.sizes = none, read_into(text, &again, &line)));
    expect(status == (rows->sizes.names ? MIRFODWEL_NO_ROOM : MIRFODWEL_DONE) && has_sizes(again.sizes, rows->sizes), "its sizes are read with status %d", status);
    AGAIN(status, open_over(&session, rows, &fault));
    expect(status == MIRFODWEL_DONE, "it is opened with status %d", status);
    came->goals = rows->sizes.goals < 64 ? rows->sizes.goals : 64;
    for (uint32_t goal = 0; goal < came->goals; goal++)
        ask_goal(&session, goal, rows->sizes.goals, came);
    AGAIN(status, mirfodwel_wanted(&session, wanted, 4, &used));
    expect(status == MIRFODWEL_DONE && used == 0, "what is wanted has status %d", status);
    AGAIN(status, mirfodwel_last_fault(&session, out, sizeof out, &used));
    expect(status == MIRFODWEL_DONE && (used == 0 || came->refusals), "the last fault has status %d and %zu bytes", status, used);
    for (uint32_t goal = 0; goal < came->goals && goal < 4; goal++) {
        mirfodwel_reason reason = {0};
        status = mirfodwel_cause(&session, rows->sizes.goals, goal, &reason);
        if (status == MIRFODWEL_FAULT) {
            came->refusals++;
            expect(reason.fault == MIRFODWEL_MEMORY, "the fault of a cause is %d", reason.fault);
            spares = true;
            status = mirfodwel_cause(&session, rows->sizes.goals, goal, &reason);
            spares = false;
        }
        expect(status == MIRFODWEL_DONE && has_reason(rows, &reason), "the cause of goal %u has status %d", goal, status);
    }
    for (uint8_t form = 0; form < 3 && rows->sizes.goals; form++) {
        AGAIN(status, mirfodwel_explain_goal(&session, form, rows->sizes.goals, 0, rows->names, rows->sizes.names, out, sizeof out, &used));
        expect(status == MIRFODWEL_DONE || status == MIRFODWEL_NO_ROOM, "form %d is shown with status %d", form, status);
    }
    mirfodwel_held(&session, &came->nodes);
    open_again(&session, rows);
    expect(mirfodwel_close(&session) == MIRFODWEL_DONE && is_all_zero(&session), "it is not closed");
}

static void refuse_session(const char *path, struct bytes text) {
    struct rows rows;
    if (read_rows(text, &rows) != MIRFODWEL_DONE) {
        drop_rows(&rows);
        return;
    }
    struct came whole = {0};
    begin(0, false);
    run_session(text, &rows, &whole);
    works = false;
    long all = requests;
    expect(whole.refusals == 0 && held == 0, "%s: with nothing refused %ld calls say so, and %ld blocks are held", path, whole.refusals, held);
    for (int after = 0; after < 2; after++)
        for (long place = 1; place <= all; place = next_place(place, all)) {
            struct came came = {0};
            held = 0;
            begin(place, after);
            run_session(text, &rows, &came);
            works = false;
            expect(!memcmp(came.outcomes, whole.outcomes, sizeof came.outcomes), "%s: with request %ld refused a goal comes to something else", path, place);
            expect(came.refusals > 0 || after == 0, "%s: with request %ld and all after refused nothing is said", path, place);
            expect(held == 0, "%s: with request %ld refused %ld blocks are held", path, place, held);
        }
    drop_rows(&rows);
}

int main(int count, char **words) {
    most = setting("PLACES", 60);
    setvbuf(stdout, NULL, _IONBF, 0);
    for (int place = 2; place < count; place++) {
        struct bytes text = read_file(words[place]);
        for (size_t it = 0; it < TEXT_CALLS; it++) {
            text_call *call = text_calls[it].call;
            bool is_table = call != mirfodwel_check && call != mirfodwel_subtypes;
            if (!strcmp(words[1], call == mirfodwel_check ? "data" : is_table ? "tables" : "types"))
                refuse_text(words[place], text, &text_calls[it]);
        }
        if (!strcmp(words[1], "tables"))
            refuse_session(words[place], text);
        free(text.at);
    }
    return finish();
}
