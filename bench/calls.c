/*
 * Times the library in process: calls LIBRARY TEXTS REPEATS [OTHER]. TEXTS has each text behind a line with its length in bytes. Each
 * part is timed in turns with the others, and of each is printed the least processor time of so many rounds, for each question.
 * OTHER is a library with `uint64_t other_answers(const uint8_t *text, size_t length)`, which answers a text's questions, and
 * returns how many runs of goals that took: where these are not as many, the status is 1.
 */
#define _GNU_SOURCE
#include "mirfodwel.h"
#include <dlfcn.h>
#include <stdio.h>
#include <stdlib.h>
#include <string.h>
#include <time.h>

struct question {
    size_t depth;
    uint32_t goal;
};

struct text {
    const uint8_t *at;
    size_t length;
    struct question *questions;
    size_t asked;
};

/* The rows of one text at a time. */
static mirfodwel_goal *goals;
static mirfodwel_candidate *candidates;
static mirfodwel_question *questions;
static uint8_t *names, *lines;
static size_t room;
static mirfodwel_sizes sizes;

static __typeof__(&mirfodwel_answers) answers;
static __typeof__(&mirfodwel_read) read_rows;
static __typeof__(&mirfodwel_find) find;
static __typeof__(&mirfodwel_open) open_session;
static __typeof__(&mirfodwel_open) reopen;
static __typeof__(&mirfodwel_ask) ask;
static __typeof__(&mirfodwel_close) close_session;
static uint64_t (*other_answers)(const uint8_t *text, size_t length);

static void stop(const char *why) {
    fprintf(stderr, "calls: %s\n", why);
    exit(2);
}

static void must(bool holds, const char *what) {
    if (!holds) stop(what);
}

static void *given(void *memory) {
    must(memory != NULL, "no memory, or no such file");
    return memory;
}

static void *named(void *library, const char *name) {
    return given(dlsym(library, name));
}

static double now(void) {
    struct timespec at;
    clock_gettime(CLOCK_PROCESS_CPUTIME_ID, &at);
    return at.tv_sec * 1e6 + at.tv_nsec / 1e3;
}

static size_t read_text(struct text text) {
    size_t line;
    return read_rows(text.at, text.length, goals, room, candidates, room, questions, room, names, room, &sizes, &line);
}

static uint8_t begin(__typeof__(&mirfodwel_open) call, mirfodwel_session *session) {
    mirfodwel_row_fault fault;
    return call(session, goals, sizes.goals, candidates, sizes.candidates, questions, sizes.questions, &fault);
}

static uint64_t ask_each(mirfodwel_session *session, struct text text) {
    uint64_t runs = 0;
    for (size_t i = 0; i < text.asked; i++) {
        mirfodwel_answer answer;
        uint8_t status = ask(session, text.questions[i].depth, text.questions[i].goal, &answer);
        must(status == MIRFODWEL_DONE, "a question met a fault");
        runs += answer.started;
    }
    return runs;
}

/* The questions of a text, with the numbers of their goals. */
static void find_questions(struct text *text) {
    must(read_text(*text) == MIRFODWEL_DONE, "a text is malformed");
    const char *line = (const char *)text->at;
    for (; (line = strstr(line, "ask ")) != NULL; line++) {
        char *name;
        struct question question = {strtoul(line + 4, &name, 10), 0};
        size_t length = strcspn(++name, "\n");
        must(find(names, sizes.names, (uint8_t *)name, length, &question.goal) == MIRFODWEL_DONE, "a goal has no name");
        text->questions = given(realloc(text->questions, (text->asked + 1) * sizeof question));
        text->questions[text->asked++] = question;
    }
}

/* Those of all texts as one: its goals are those of one text behind those of another, since each is first named in its own. */
static void join_questions(const struct text *texts, size_t count, struct text *whole) {
    uint32_t first = 0;
    for (size_t i = 0; i < count; i++) {
        const struct text *text = &texts[i];
        whole->questions = given(realloc(whole->questions, (whole->asked + text->asked + 1) * sizeof *whole->questions));
        for (size_t j = 0; j < text->asked; j++) {
            struct question question = text->questions[j];
            question.goal += first;
            whole->questions[whole->asked++] = question;
        }
        must(read_text(*text) == MIRFODWEL_DONE, "a text is malformed");
        first += (uint32_t)sizes.goals;
    }
}

/* The parts: each answers all questions of these texts, and tells how many runs that took. */

static uint64_t by_texts(const struct text *texts, size_t count) {
    for (size_t i = 0; i < count; i++) {
        size_t used;
        must(answers(texts[i].at, texts[i].length, lines, room, &used) == MIRFODWEL_DONE, "a text is not answered");
    }
    return 0;
}

static uint64_t by_rows(const struct text *texts, size_t count) {
    uint64_t runs = 0;
    for (size_t i = 0; i < count; i++) {
        mirfodwel_session session = {0};
        must(read_text(texts[i]) == MIRFODWEL_DONE && begin(open_session, &session) == MIRFODWEL_DONE, "a session does not open");
        runs += ask_each(&session, texts[i]);
        close_session(&session);
    }
    return runs;
}

static uint64_t by_one_session(const struct text *texts, size_t count) {
    uint64_t runs = 0;
    mirfodwel_session session = {0};
    for (size_t i = 0; i < count; i++) {
        must(read_text(texts[i]) == MIRFODWEL_DONE, "a text is malformed");
        must(begin(i ? reopen : open_session, &session) == MIRFODWEL_DONE, "a session does not open again");
        runs += ask_each(&session, texts[i]);
    }
    close_session(&session);
    return runs;
}

static uint64_t by_reading(const struct text *texts, size_t count) {
    for (size_t i = 0; i < count; i++) must(read_text(texts[i]) == MIRFODWEL_DONE, "a text is malformed");
    return 0;
}

static uint64_t by_other(const struct text *texts, size_t count) {
    uint64_t runs = 0;
    for (size_t i = 0; i < count; i++) runs += other_answers(texts[i].at, texts[i].length);
    return runs;
}

struct part {
    const char *what;
    uint64_t (*run)(const struct text *texts, size_t count);
    bool is_of_all; /* over all tables as one text */
    bool counts;
    double least;
    uint64_t runs;
};

static struct part parts[] = {
    {"each text by mirfodwel_answers", by_texts, false, false, 0, 0},
    {"each by rows, in a session of its own", by_rows, false, true, 0, 0},
    {"each by rows, in one session that is opened again", by_one_session, false, true, 0, 0},
    {"of that, reading the rows", by_reading, false, false, 0, 0},
    {"each by the other library", by_other, false, true, 0, 0},
    {"all as rows of one session", by_rows, true, true, 0, 0},
    {"all as one text by the other library", by_other, true, true, 0, 0},
};

static bool is_there(const struct part *part) {
    return part->run == by_one_session ? reopen != NULL : part->run == by_other ? other_answers != NULL : true;
}

static void time_part(struct part *part, const struct text *texts, size_t count) {
    double start = now();
    part->runs = part->run(texts, count);
    double took = now() - start;
    if (part->least == 0 || took < part->least) part->least = took;
}

static bool tell(size_t asked) {
    uint64_t runs = 0, runs_of_all = 0;
    bool is_same = true;
    for (struct part *part = parts; part < parts + sizeof parts / sizeof *parts; part++) {
        if (!is_there(part)) continue;
        printf("%-52s %7.3f us\n", part->what, part->least / (double)asked);
        uint64_t *first = part->is_of_all ? &runs_of_all : &runs;
        if (!part->counts) continue;
        if (*first == 0) *first = part->runs;
        is_same = is_same && *first == part->runs;
    }
    printf("%zu questions, %llu runs\n", asked, (unsigned long long)runs);
    if (!is_same) printf("the runs differ\n");
    return is_same;
}

/* The texts of the file, and behind them one that is all of them. */
static struct text *read_texts(const char *path, size_t *count) {
    FILE *file = given(fopen(path, "rb"));
    struct text *texts = NULL;
    size_t length, all = 0;
    for (*count = 0; fscanf(file, "%zu", &length) == 1; ++*count) {
        must(fgetc(file) == '\n', "the file of texts is malformed");
        texts = given(realloc(texts, (*count + 2) * sizeof *texts));
        uint8_t *at = given(malloc(length + 1));
        must(fread(at, 1, length, file) == length, "the file of texts is malformed");
        at[length] = 0;
        texts[*count] = (struct text){at, length, NULL, 0};
        all += length;
    }
    fclose(file);
    uint8_t *whole = given(malloc(all + 1)), *end = whole;
    for (size_t i = 0; i < *count; i++) end = (uint8_t *)mempcpy(end, texts[i].at, texts[i].length);
    *end = 0;
    texts[*count] = (struct text){whole, all, NULL, 0};
    return texts;
}

static void load(const char *path, const char *other) {
    void *library = given(dlopen(path, RTLD_NOW | RTLD_LOCAL));
    answers = named(library, "mirfodwel_answers");
    read_rows = named(library, "mirfodwel_read");
    find = named(library, "mirfodwel_find");
    open_session = named(library, "mirfodwel_open");
    reopen = dlsym(library, "mirfodwel_reopen");
    ask = named(library, "mirfodwel_ask");
    close_session = named(library, "mirfodwel_close");
    if (other) other_answers = named(given(dlopen(other, RTLD_NOW | RTLD_LOCAL)), "other_answers");
}

int main(int given_words, char **words) {
    must(given_words == 4 || given_words == 5, "usage: calls LIBRARY TEXTS REPEATS [OTHER]");
    load(words[1], words[4]);
    size_t count;
    struct text *texts = read_texts(words[2], &count);
    must(count > 0, "there is no text");
    room = texts[count].length + 1;
    goals = given(malloc(room * sizeof *goals));
    candidates = given(malloc(room * sizeof *candidates));
    questions = given(malloc(room * sizeof *questions));
    names = given(malloc(room));
    lines = given(malloc(room));
    for (size_t i = 0; i < count; i++) find_questions(&texts[i]);
    join_questions(texts, count, &texts[count]);
    for (long round = atol(words[3]); round > 0; round--) {
        for (struct part *part = parts; part < parts + sizeof parts / sizeof *parts; part++) {
            if (!is_there(part)) continue;
            time_part(part, part->is_of_all ? texts + count : texts, part->is_of_all ? 1 : count);
        }
    }
    return tell(texts[count].asked) ? 0 : 1;
}
