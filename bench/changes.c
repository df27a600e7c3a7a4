/*
 * Times rows that change: changes LIBRARY TEXT CHANGES SECONDS NEAR. TEXT has a table of rules and its questions. As often as CHANGES says, or as SECONDS
 * allow, one rule of a goal by chance is taken away, or given back; NEAR bounds how far that goal stands from the first one, where it is not
 * 0. Then all questions are asked again in a session that goes over to the changed rows, beside one that is opened again over them. Two more sessions tell where
 * the time goes: one that was never asked, and has nothing to forget, goes over as well, once to the changed rows, and once to the same. Printed is the
 * processor time of each part for a change, and how many runs of goals it started. Where one says yes and the other no, the status is 1.
 */
#define _GNU_SOURCE
#include "mirfodwel.h"
#include <dlfcn.h>
#include <stdio.h>
#include <stdlib.h>
#include <string.h>
#include <time.h>

struct question {
    size_t depth;
    uint32_t goal;
    uint8_t outcome;
};

/* The rows that are read, of which the goals are there twice: before a change and after it. */
static mirfodwel_goal *before, *after;
static mirfodwel_candidate *candidates;
static mirfodwel_question *questions;
static uint8_t *names;
static mirfodwel_sizes sizes;
static uint32_t *counts; /* how many candidates each goal has at first */

static struct question *asked;
static size_t asked_count;

static __typeof__(&mirfodwel_read) read_rows;
static __typeof__(&mirfodwel_find) find;
static __typeof__(&mirfodwel_open) open_session, reopen, change;
static __typeof__(&mirfodwel_ask) ask;
static __typeof__(&mirfodwel_close) close_session;

static void must(bool holds, const char *what) {
    if (!holds) {
        fprintf(stderr, "changes: %s\n", what);
        exit(2);
    }
}

static void *given(void *memory) {
    must(memory != NULL, "no memory, or no such file");
    return memory;
}

static double now(void) {
    struct timespec at;
    clock_gettime(CLOCK_PROCESS_CPUTIME_ID, &at);
    return at.tv_sec * 1e6 + at.tv_nsec / 1e3;
}

/* A number below this one, by chance. */
static uint64_t seed = 1;
static size_t chance(size_t below) {
    seed = seed * 6364136223846793005u + 1442695040888963407u;
    return (seed >> 33) % below;
}

static void load(const char *path) {
    void *library = given(dlopen(path, RTLD_NOW | RTLD_LOCAL));
    read_rows = given(dlsym(library, "mirfodwel_read"));
    find = given(dlsym(library, "mirfodwel_find"));
    open_session = given(dlsym(library, "mirfodwel_open"));
    reopen = given(dlsym(library, "mirfodwel_reopen"));
    change = given(dlsym(library, "mirfodwel_change"));
    ask = given(dlsym(library, "mirfodwel_ask"));
    close_session = given(dlsym(library, "mirfodwel_close"));
}

static char *read_file(const char *path, size_t *length) {
    FILE *file = given(fopen(path, "rb"));
    fseek(file, 0, SEEK_END);
    *length = ftell(file);
    rewind(file);
    char *text = given(malloc(*length + 1));
    must(fread(text, 1, *length, file) == *length, "the text is not read");
    text[*length] = 0;
    fclose(file);
    return text;
}

static void read_table(const char *path) {
    size_t length, line;
    char *text = read_file(path, &length);
    before = given(malloc(length * sizeof *before));
    candidates = given(malloc(length * sizeof *candidates));
    questions = given(malloc(length * sizeof *questions));
    names = given(malloc(length));
    must(read_rows((uint8_t *)text, length, before, length, candidates, length, questions, length, names, length, &sizes, &line) == MIRFODWEL_DONE,
        "the text is malformed");
    for (const char *at = text; (at = strstr(at, "ask ")) != NULL; at++) {
        char *name;
        struct question question = {strtoul(at + 4, &name, 10), 0, 0};
        size_t of_name = strcspn(++name, "\n");
        must(find(names, sizes.names, (uint8_t *)name, of_name, &question.goal) == MIRFODWEL_DONE, "a goal has no name");
        asked = given(realloc(asked, (asked_count + 1) * sizeof question));
        asked[asked_count++] = question;
    }
    free(text);
    after = given(malloc(sizes.goals * sizeof *after));
    memcpy(after, before, sizes.goals * sizeof *after);
    counts = given(malloc(sizes.goals * sizeof *counts));
    for (size_t goal = 0; goal < sizes.goals; goal++) counts[goal] = before[goal].count;
}

/* The parts of which the time is told. */
enum part { CHECKED, COMPARED, FOUND, FORGOTTEN, ASKED, TOGETHER, ANEW, PARTS };
static const char *const words[] = {"all rows are checked", "and compared", "who asks a changed goal is found", "what is known of these is forgotten", "all is asked again",
    "together", "opened again, and all asked"};
static double took[PARTS];
static uint64_t runs[PARTS];

static double give_rows(__typeof__(&mirfodwel_open) call, mirfodwel_session *session, const mirfodwel_goal *goals) {
    mirfodwel_row_fault fault;
    double start = now();
    uint8_t status = call(session, goals, sizes.goals, candidates, sizes.candidates, questions, sizes.questions, &fault);
    must(status == MIRFODWEL_DONE, "rows are not taken");
    return now() - start;
}

/* Asks all, and notes what came, or compares with what is noted. */
static bool ask_all(mirfodwel_session *session, bool compares, enum part part) {
    bool is_same = true;
    for (struct question *it = asked; it < asked + asked_count; it++) {
        mirfodwel_answer answer;
        must(ask(session, it->depth, it->goal, &answer) == MIRFODWEL_DONE, "a question met a fault");
        runs[part] += answer.started;
        is_same = is_same && (!compares || it->outcome == answer.outcome || it->outcome > 1 || answer.outcome > 1);
        it->outcome = answer.outcome;
    }
    return is_same;
}

static bool change_once(size_t near, mirfodwel_session *kept, mirfodwel_session *never_asked, mirfodwel_session *empty, mirfodwel_session *anew) {
    size_t goal;
    do goal = chance(near ? near : sizes.goals);
    while (counts[goal] == 0);
    after[goal].count = after[goal].count == counts[goal] ? counts[goal] - 1 : counts[goal];
    double opened = give_rows(reopen, empty, after), compared = give_rows(change, never_asked, before);
    double found = give_rows(change, never_asked, after), changed = give_rows(change, kept, after);
    took[CHECKED] += opened;
    took[COMPARED] += compared - opened;
    took[FOUND] += found - compared;
    took[FORGOTTEN] += changed - found;
    took[TOGETHER] += changed;
    double start = now();
    ask_all(kept, false, ASKED);
    took[ASKED] += now() - start;
    took[TOGETHER] += now() - start;
    took[ANEW] += give_rows(reopen, anew, after);
    start = now();
    bool is_same = ask_all(anew, true, ANEW);
    took[ANEW] += now() - start;
    /* From here on the sessions read the rows as they are after the change. */
    mirfodwel_goal *spare = before;
    before = after, after = spare;
    after[goal] = before[goal];
    return is_same;
}

int main(int given_words, char **given_as) {
    must(given_words == 6, "usage: changes LIBRARY TEXT CHANGES SECONDS NEAR");
    load(given_as[1]);
    read_table(given_as[2]);
    long most = atol(given_as[3]), done = 0, differ = 0;
    double seconds = atof(given_as[4]), start = now();
    size_t near = strtoul(given_as[5], NULL, 10);
    mirfodwel_session sessions[4] = {{0}};
    for (size_t place = 0; place < 4; place++) give_rows(open_session, &sessions[place], before);
    ask_all(&sessions[0], false, ASKED);
    runs[ASKED] = 0;
    for (; done < most && now() - start < seconds * 1e6; done++) differ += !change_once(near, &sessions[0], &sessions[1], &sessions[2], &sessions[3]);
    for (size_t place = 0; place < 4; place++) close_session(&sessions[place]);
    printf("%zu goals, %zu questions are asked after each of %ld changes:\n", sizes.goals, asked_count, done);
    for (size_t part = 0; part < PARTS; part++) {
        printf("  %-40s %12.1f us", words[part], took[part] / (double)done);
        if (runs[part]) printf(", %.1f runs", (double)runs[part] / (double)done);
        printf("\n");
    }
    printf("  %.2f times as fast as anew\n", took[ANEW] / took[TOGETHER]);
    if (differ) printf("after %ld changes a yes is a no\n", differ);
    return differ ? 1 : 0;
}
