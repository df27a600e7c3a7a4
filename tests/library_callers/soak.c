/*
 * soak SECONDS FILE..: opens a session over the rows of each table in turn, asks all its goals, hands out and checks graphs, shows a goal and closes it,
 * does the same in one session that is opened again and again, and answers the text, for so long. Another session lives on from the first to the last, over a table
 * that changes by chance. Each second it tells how often, and how much of malloc's memory is in use, which may not grow by more than a
 * tenth: what the session that lives on holds goes up and down.
 */
#include "random_tables.h"
#include <malloc.h>
#include <sys/resource.h>
#include <time.h>

static mirfodwel_session kept;

/* The session that lives on, its table and its rows. */
static mirfodwel_session lived;
static struct table table;
static struct rows table_rows;
static long changes;

/* Changes the table a little, or for another one, and asks some of its goals, each of which has its graph. */
static void change(void) {
    static uint64_t words[1 << 16];
    mirfodwel_row_fault fault;
    if (!lived.is_open || !chance(500))
        random_table(&table);
    else
        change_table(&table);
    struct rows rows = lay_out(&table);
    expect((lived.is_open ? change_over : open_over)(&lived, &rows, &fault) == MIRFODWEL_DONE, "after %ld changes there is no other one", changes);
    drop_rows(&table_rows);
    table_rows = rows;
    for (size_t turn = chance(5); turn > 0; turn--) {
        mirfodwel_answer answer;
        uint32_t goal = chance(table.count);
        size_t used;
        bool is_valid = false;
        expect(mirfodwel_ask(&lived, chance(2) ? chance(8) : table.count, goal, &answer) == MIRFODWEL_DONE, "goal %u is not answered", goal);
        if (answer.outcome < 2 && mirfodwel_graph(&lived, answer.node, words, 1 << 16, &used) == MIRFODWEL_DONE)
            expect(mirfodwel_check_graph(&lived, goal, answer.outcome, words, used, &is_valid) == MIRFODWEL_DONE && is_valid, "a graph is not valid");
    }
    changes++;
}

/* Asks all goals, each of which has its graph. */
static void ask_all(mirfodwel_session *session, const struct rows *rows) {
    static uint64_t words[1 << 13];
    size_t used;
    for (uint32_t goal = 0; goal < rows->sizes.goals; goal++) {
        mirfodwel_answer answer;
        bool is_valid = false;
        expect(mirfodwel_ask(session, rows->sizes.goals, goal, &answer) == MIRFODWEL_DONE, "goal %u is not answered", goal);
        if (answer.outcome < 2 && mirfodwel_graph(session, answer.node, words, 1 << 13, &used) == MIRFODWEL_DONE)
            expect(mirfodwel_check_graph(session, goal, answer.outcome, words, used, &is_valid) == MIRFODWEL_DONE && is_valid, "a graph is not valid");
    }
}

static void use(struct bytes text, const struct rows *rows) {
    static uint8_t out[1 << 16];
    size_t used;
    mirfodwel_session session = {0};
    mirfodwel_row_fault fault;
    mirfodwel_goals(text.at, text.length, out, sizeof out, &used);
    expect(open_over(&session, rows, &fault) == MIRFODWEL_DONE, "it is not opened");
    ask_all(&session, rows);
    mirfodwel_explain_goal(&session, chance(3), 9, chance(rows->sizes.goals), rows->names, rows->sizes.names, out, sizeof out, &used);
    mirfodwel_reason reason;
    uint32_t goal = chance(rows->sizes.goals);
    expect(mirfodwel_cause(&session, chance(9), goal, &reason) == MIRFODWEL_DONE && has_reason(rows, &reason), "goal %u has no cause", goal);
    expect(mirfodwel_close(&session) == MIRFODWEL_DONE, "it is not closed");
    expect((kept.is_open ? reopen_over : open_over)(&kept, rows, &fault) == MIRFODWEL_DONE, "it is not opened again");
    ask_all(&kept, rows);
}

int main(int count, char **words) {
    /* They stay to the end. */
    static struct bytes texts[64];
    static struct rows rows[64];
    int tables = 0;
    if (count < 3)
        return 2;
    for (int place = 2; place < count && tables < 64; place++, tables++) {
        texts[tables] = read_file(words[place]);
        if (read_rows(texts[tables], &rows[tables]) != MIRFODWEL_DONE) {
            free(texts[tables].at);
            tables--;
        }
    }
    while (changes < 5000)
        change();
    long seconds = atol(words[1]);
    time_t begun = time(NULL), end = begun + seconds, settled = begun + seconds / 10 + 2, told = 0;
    size_t first = 0, last = 0;
    for (long turns = 0; time(NULL) < end && failed == 0; turns++) {
        for (int place = 0; place < tables; place++)
            use(texts[place], &rows[place]), change();
        if (time(NULL) != told) {
            told = time(NULL);
            last = mallinfo2().uordblks;
            /* malloc comes to keep some blocks at hand, so the most that was in use in the first tenth of the time is what counts. */
            first = told <= settled && last > first ? last : first;
            printf("%ld turns, %ld changes, %zu bytes in use\n", turns + 1, changes, last);
            fflush(stdout);
        }
    }
    expect(mirfodwel_close(&kept) == MIRFODWEL_DONE, "the session that is opened again is not closed");
    expect(mirfodwel_close(&lived) == MIRFODWEL_DONE, "the session that lives on is not closed");
    expect(last <= first + first / 10, "%zu bytes are in use at the end, and %zu at most at first", last, first);
    struct rusage most;
    getrusage(RUSAGE_SELF, &most);
    printf("%ld KiB at most\n", most.ru_maxrss);
    return finish();
}
