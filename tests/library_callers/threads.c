/*
 * threads FILE..: of each text THREADS threads, 8 if the environment says nothing, with 64 KiB of stack put it to all calls on texts, and if it is a
 * table its data, too, and ask all its goals in sessions of their own over the same rows, TURNS times, 3 if the environment says nothing. What comes
 * of it has to be what comes of it in one thread. At last a session goes from thread to thread.
 */
#include "callers.h"
#include <pthread.h>

#define STACK 65536

/* What each call on texts says to a text. */
struct told {
    struct bytes text, out[TEXT_CALLS];
    mirfodwel_status status[TEXT_CALLS];
};

struct work {
    const struct told *text, *data;
    const struct rows *rows;
    const uint8_t *outcomes;
    long turns, wrong;
    size_t first;
};

static struct told tell(struct bytes text) {
    struct told told = {.text = text};
    for (size_t place = 0; place < TEXT_CALLS; place++)
        told.status[place] = call_text(text_calls[place].call, text, &told.out[place]);
    return told;
}

static void drop_told(struct told *told) {
    for (size_t place = 0; place < TEXT_CALLS; place++)
        drop_fenced(told->out[place].at, told->out[place].length);
}

/* How many calls on the text say something else. */
static long tell_again(const struct told *told) {
    long wrong = 0;
    for (size_t place = 0; place < TEXT_CALLS; place++) {
        struct bytes wanted = told->out[place], out = {malloc(wanted.length + 1), 77};
        mirfodwel_status status = text_calls[place].call(told->text.at, told->text.length, out.at, wanted.length, &out.length);
        wrong += status != told->status[place] || !is_same(out, wanted);
        free(out.at);
    }
    return wrong;
}

/* Asks all goals from this one on, or of many the first few, at a depth that cuts nothing off, and compares; or notes what they come to. */
static long ask_all(mirfodwel_session *session, size_t goals, size_t first, const uint8_t *outcomes, uint8_t *noted) {
    size_t most = goals < 100 ? goals : 4;
    long wrong = 0;
    for (size_t place = 0; place < most; place++) {
        uint32_t goal = (first + place) % most;
        uint64_t words[64];
        size_t used;
        mirfodwel_answer answer;
        wrong += mirfodwel_ask(session, goals, goal, &answer) != MIRFODWEL_DONE;
        if (noted)
            noted[goal] = answer.outcome;
        /* What limits or a maybe stood in the way of may depend on what was asked before. */
        else if (answer.outcome < 2 && outcomes[goal] < 2)
            wrong += answer.outcome != outcomes[goal];
        if (answer.has_graph && answer.outcome < 2 && mirfodwel_graph(session, answer.node, words, 64, &used) == MIRFODWEL_DONE) {
            bool is_valid = false;
            wrong += mirfodwel_check_graph(session, goal, answer.outcome, words, used, &is_valid) != MIRFODWEL_DONE || !is_valid;
        }
    }
    return wrong;
}

/* Shows the first goal, in a form of the turn's own. */
static long show(mirfodwel_session *session, const struct rows *rows, long turn) {
    size_t used = 0;
    uint8_t nothing, form = turn % 3;
    mirfodwel_status status = mirfodwel_explain_goal(session, form, rows->sizes.goals, 0, rows->names, rows->sizes.names, &nothing, 0, &used);
    uint8_t *out = malloc(used + 1);
    long wrong = status != MIRFODWEL_NO_ROOM;
    wrong += mirfodwel_explain_goal(session, form, rows->sizes.goals, 0, rows->names, rows->sizes.names, out, used, &used) != MIRFODWEL_DONE;
    free(out);
    return wrong;
}

static void *work_on(void *given_work) {
    struct work *work = given_work;
    for (long turn = 0; turn < work->turns; turn++) {
        mirfodwel_session session = {0};
        mirfodwel_row_fault fault;
        work->wrong += tell_again(work->text);
        if (!work->rows)
            continue;
        work->wrong += tell_again(work->data);
        work->wrong += open_over(&session, work->rows, &fault) != MIRFODWEL_DONE;
        work->wrong += ask_all(&session, work->rows->sizes.goals, work->first + turn, work->outcomes, NULL);
        work->wrong += show(&session, work->rows, turn);
        work->wrong += mirfodwel_close(&session) != MIRFODWEL_DONE;
    }
    return NULL;
}

static pthread_t start(void *(*run)(void *), void *with) {
    pthread_t thread;
    pthread_attr_t how;
    pthread_attr_init(&how);
    if (pthread_attr_setstacksize(&how, STACK) || pthread_create(&thread, &how, run, with))
        given(NULL);
    pthread_attr_destroy(&how);
    return thread;
}

static void run_threads(const char *path, struct work like, long threads) {
    struct work works[64];
    pthread_t started[64];
    for (long place = 0; place < threads; place++) {
        works[place] = like;
        works[place].first = place * 3;
        started[place] = start(work_on, &works[place]);
    }
    for (long place = 0; place < threads; place++) {
        pthread_join(started[place], NULL);
        expect(works[place].wrong == 0, "%s: %ld answers of thread %ld are others", path, works[place].wrong, place);
    }
}

/* A session that threads have in turn, and what the goals come to. */
struct passed_on {
    mirfodwel_session session;
    const struct rows *rows;
    const uint8_t *outcomes;
    long wrong;
};

static void *open_it(void *with) {
    struct passed_on *it = with;
    mirfodwel_row_fault fault;
    it->wrong += open_over(&it->session, it->rows, &fault) != MIRFODWEL_DONE;
    return NULL;
}

static void *ask_it(void *with) {
    struct passed_on *it = with;
    it->wrong += ask_all(&it->session, it->rows->sizes.goals, 1, it->outcomes, NULL);
    return NULL;
}

static void *close_it(void *with) {
    struct passed_on *it = with;
    it->wrong += mirfodwel_close(&it->session) != MIRFODWEL_DONE;
    return NULL;
}

static void pass_on(const char *path, const struct work *work) {
    struct passed_on it = {{0}, work->rows, work->outcomes, 0};
    void *(*const turns[])(void *) = {open_it, ask_it, ask_it, close_it};
    for (int turn = 0; turn < 4; turn++)
        pthread_join(start(turns[turn], &it), NULL);
    expect(it.wrong == 0 && is_all_zero(&it.session), "%s: %ld answers of a session that goes from thread to thread are others", path, it.wrong);
}

/* The rest of a text that is a table: its rows, what its goals come to in one thread, and its data. */
static void run_table(const char *path, struct work work, long threads) {
    struct rows rows;
    expect(read_rows(work.text->text, &rows) == MIRFODWEL_DONE && rows.sizes.goals > 0, "the rows of %s are not read", path);
    uint8_t *outcomes = given(malloc(rows.sizes.goals + 1));
    mirfodwel_session session = {0};
    mirfodwel_row_fault fault;
    open_over(&session, &rows, &fault);
    expect(ask_all(&session, rows.sizes.goals, 0, NULL, outcomes) == 0, "%s is not answered in one thread", path);
    mirfodwel_close(&session);
    size_t data_call = 0;
    while (text_calls[data_call].call != explain_data)
        data_call++;
    struct told data = tell(work.text->out[data_call]);
    work.rows = &rows;
    work.outcomes = outcomes;
    work.data = &data;
    run_threads(path, work, threads);
    pass_on(path, &work);
    drop_told(&data);
    drop_rows(&rows);
    free(outcomes);
}

int main(int count, char **words) {
    long threads = setting("THREADS", 8), turns = setting("TURNS", 3);
    threads = threads < 64 ? threads : 64;
    for (int place = 1; place < count; place++) {
        struct bytes text = read_file(words[place]);
        struct told told = tell(text);
        struct work work = {&told, NULL, NULL, NULL, turns, 0, 0};
        if (told.status[0] < 2)
            run_table(words[place], work, threads);
        else
            run_threads(words[place], work, threads);
        drop_told(&told);
        free(text.at);
    }
    return finish();
}
