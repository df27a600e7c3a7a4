/*
 * What the callers share: counting, files, memory with an end that nothing may pass, chance, and calls that ask for the room that
 * they want.
 */
#ifndef CALLERS_H
#define CALLERS_H
#define _GNU_SOURCE
#include "mirfodwel.h"
#include <stdarg.h>
#include <stdio.h>
#include <stdlib.h>
#include <string.h>
#include <sys/mman.h>
#include <unistd.h>

#define SOME __attribute__((unused)) static

static long passed, failed;

/* Says of the first things that are wrong what they are. */
__attribute__((format(printf, 1, 2))) SOME bool tell_failed(const char *what, ...) {
    if (failed++ < 20) {
        va_list words;
        va_start(words, what);
        printf("failed: ");
        vprintf(what, words);
        printf("\n");
        va_end(words);
    }
    return false;
}

SOME bool count_passed(void) {
    passed++;
    return true;
}

/* Counts what has to be so. The words that say what is wrong are looked at after that, and only where they are wanted. */
#define expect(is_so, ...) ((is_so) ? count_passed() : tell_failed(__VA_ARGS__))

SOME int finish(void) {
    printf("%ld passed, %ld failed\n", passed, failed);
    return failed || !passed ? 1 : 0;
}

/* Ends the program where the machine gives no memory, or no file. */
SOME void *given(void *memory) {
    if (!memory || memory == MAP_FAILED) {
        perror("the test has no memory or no file");
        exit(2);
    }
    return memory;
}

struct bytes {
    uint8_t *at;
    size_t length;
};

SOME struct bytes read_file(const char *path) {
    FILE *file = given(fopen(path, "rb"));
    struct bytes found = {NULL, 0};
    size_t room = 0;
    do {
        room = 2 * room + 4096;
        found.at = given(realloc(found.at, room));
        found.length += fread(found.at + found.length, 1, room - found.length, file);
    } while (found.length == room);
    fclose(file);
    return found;
}

/* A number below this one, by chance. */
static uint64_t seed = 1;
SOME size_t chance(size_t below) {
    seed = seed * 6364136223846793005u + 1442695040888963407u;
    return below ? (seed >> 33) % below : 0;
}

/* The number that a variable of the environment has, or this one. */
SOME long setting(const char *name, long otherwise) {
    const char *text = getenv(name);
    return text && *text ? atol(text) : otherwise;
}

/* Memory of so many bytes, behind the last of which is a page that nobody may touch; all bytes are 0xA5. */
#define PAGE 4096
SOME size_t pages_for(size_t bytes) {
    return (bytes + PAGE - 1) / PAGE * PAGE;
}

SOME void *fenced(size_t bytes) {
    size_t whole = pages_for(bytes);
    uint8_t *pages = given(mmap(NULL, whole + PAGE, PROT_READ | PROT_WRITE, MAP_PRIVATE | MAP_ANONYMOUS, -1, 0));
    if (mprotect(pages + whole, PAGE, PROT_NONE))
        given(NULL);
    memset(pages, 0xA5, whole);
    return pages + whole - bytes;
}

/* The same memory with these bytes, which nobody may write to any more. */
SOME void *fenced_copy(const void *from, size_t bytes) {
    uint8_t *at = fenced(bytes);
    if (bytes)
        memcpy(at, from, bytes);
    size_t whole = pages_for(bytes);
    if (whole && mprotect(at + bytes - whole, whole, PROT_READ))
        given(NULL);
    return at;
}

SOME void drop_fenced(void *at, size_t bytes) {
    size_t whole = pages_for(bytes);
    if (at)
        munmap((uint8_t *)at + bytes - whole, whole + PAGE);
}

/* Whether no byte was written to since the memory was made. */
SOME bool is_untouched(const void *at, size_t bytes) {
    const uint8_t *it = at;
    for (size_t place = 0; place < bytes; place++)
        if (it[place] != 0xA5)
            return false;
    return true;
}

/* The calls on texts, all of one form. */
typedef mirfodwel_status text_call(const uint8_t *text, size_t text_length, uint8_t *out, size_t room, size_t *used);

SOME mirfodwel_status explain_text(const uint8_t *text, size_t length, uint8_t *out, size_t room, size_t *used) {
    return mirfodwel_explain(MIRFODWEL_TEXT, text, length, out, room, used);
}

SOME mirfodwel_status explain_graphviz(const uint8_t *text, size_t length, uint8_t *out, size_t room, size_t *used) {
    return mirfodwel_explain(MIRFODWEL_GRAPHVIZ, text, length, out, room, used);
}

SOME mirfodwel_status explain_data(const uint8_t *text, size_t length, uint8_t *out, size_t room, size_t *used) {
    return mirfodwel_explain(MIRFODWEL_DATA, text, length, out, room, used);
}

struct named_call {
    const char *name;
    text_call *call;
};

SOME const struct named_call text_calls[] = {
    {"goals", mirfodwel_goals},
    {"answers", mirfodwel_answers},
    {"explain", explain_text},
    {"graphviz", explain_graphviz},
    {"data", explain_data},
    {"check", mirfodwel_check},
    {"subtypes", mirfodwel_subtypes},
};
#define TEXT_CALLS (sizeof text_calls / sizeof *text_calls)

/* Calls with no room first, and then with just what is wanted. `out` is memory behind which nothing may be written. */
SOME mirfodwel_status call_text(text_call *call, struct bytes text, struct bytes *out) {
    size_t used = 77;
    uint8_t nothing = 0xA5;
    mirfodwel_status status = call(text.at, text.length, &nothing, 0, &used);
    *out = (struct bytes){NULL, used};
    if (status != MIRFODWEL_NO_ROOM) {
        expect(used == 0, "without room the status is %d and %zu bytes are used", status, used);
        out->length = 0;
        return status;
    }
    expect(used > 0 && nothing == 0xA5, "no room for %zu bytes, and something is written", used);
    out->at = fenced(used);
    status = call(text.at, text.length, out->at, out->length, &used);
    expect(status != MIRFODWEL_NO_ROOM && used == out->length, "%zu bytes are wanted, and then %zu are used, status %d", out->length, used, status);
    return status;
}

SOME bool is_same(struct bytes left, struct bytes right) {
    return left.length == right.length && (!left.length || !memcmp(left.at, right.at, left.length));
}

/* The rows of a text, in memory that nobody may write to. */
struct rows {
    mirfodwel_goal *goals;
    mirfodwel_candidate *candidates;
    mirfodwel_question *questions;
    uint8_t *names;
    mirfodwel_sizes sizes;
};

SOME mirfodwel_status read_into(struct bytes text, struct rows *rows, size_t *line) {
    mirfodwel_sizes room = rows->sizes;
    return mirfodwel_read(text.at, text.length, rows->goals, room.goals, rows->candidates, room.candidates, rows->questions,
        room.questions, rows->names, room.names, &rows->sizes, line);
}

SOME struct rows fenced_rows(mirfodwel_sizes sizes) {
    return (struct rows){
        fenced(sizes.goals * sizeof(mirfodwel_goal)),
        fenced(sizes.candidates * sizeof(mirfodwel_candidate)),
        fenced(sizes.questions * sizeof(mirfodwel_question)),
        fenced(sizes.names),
        sizes,
    };
}

SOME void drop_rows(struct rows *rows) {
    drop_fenced(rows->goals, rows->sizes.goals * sizeof(mirfodwel_goal));
    drop_fenced(rows->candidates, rows->sizes.candidates * sizeof(mirfodwel_candidate));
    drop_fenced(rows->questions, rows->sizes.questions * sizeof(mirfodwel_question));
    drop_fenced(rows->names, rows->sizes.names);
    memset(rows, 0, sizeof *rows);
}

/* Has the rows be read alone from now on. */
SOME void seal_rows(struct rows *rows) {
    struct rows made = *rows;
    rows->goals = fenced_copy(made.goals, made.sizes.goals * sizeof(mirfodwel_goal));
    rows->candidates = fenced_copy(made.candidates, made.sizes.candidates * sizeof(mirfodwel_candidate));
    rows->questions = fenced_copy(made.questions, made.sizes.questions * sizeof(mirfodwel_question));
    rows->names = fenced_copy(made.names, made.sizes.names);
    drop_rows(&made);
}

SOME bool has_sizes(mirfodwel_sizes left, mirfodwel_sizes right) {
    return left.goals == right.goals && left.candidates == right.candidates && left.questions == right.questions && left.names == right.names;
}

/* Reads the rows of a text that is in order, with no room first. */
SOME mirfodwel_status read_rows(struct bytes text, struct rows *rows) {
    uint32_t nothing[3] = {7, 7, 7};
    uint8_t no_names = 7;
    size_t line = 77;
    *rows = (struct rows){(void *)nothing, (void *)nothing, (void *)nothing, &no_names, {0, 0, 0, 0}};
    mirfodwel_status status = read_into(text, rows, &line);
    mirfodwel_sizes wanted = rows->sizes;
    if (status == MIRFODWEL_NO_ROOM) {
        expect(wanted.goals + wanted.names > 0, "no room for nothing");
        *rows = fenced_rows(wanted);
        status = read_into(text, rows, &line);
        expect(status != MIRFODWEL_NO_ROOM && has_sizes(rows->sizes, wanted), "rows of other sizes than are wanted, status %d", status);
        rows->sizes = wanted;
    } else {
        *rows = fenced_rows((mirfodwel_sizes){0, 0, 0, 0});
    }
    if (status == MIRFODWEL_DONE)
        seal_rows(rows);
    return status;
}

SOME mirfodwel_status open_over(mirfodwel_session *session, const struct rows *rows, mirfodwel_row_fault *fault) {
    return mirfodwel_open(session, rows->goals, rows->sizes.goals, rows->candidates, rows->sizes.candidates, rows->questions,
        rows->sizes.questions, fault);
}

SOME mirfodwel_status reopen_over(mirfodwel_session *session, const struct rows *rows, mirfodwel_row_fault *fault) {
    return mirfodwel_reopen(session, rows->goals, rows->sizes.goals, rows->candidates, rows->sizes.candidates, rows->questions,
        rows->sizes.questions, fault);
}

SOME mirfodwel_status change_over(mirfodwel_session *session, const struct rows *rows, mirfodwel_row_fault *fault) {
    return mirfodwel_change(session, rows->goals, rows->sizes.goals, rows->candidates, rows->sizes.candidates, rows->questions,
        rows->sizes.questions, fault);
}

SOME bool is_all_zero(const mirfodwel_session *session) {
    return !session->is_open && !session->inside;
}

SOME const char *const outcome_words[] = {"yes", "no", "maybe", "overflow"};

/* Whether a reason fits what its goal came to, and the rows: the question that is named is one of a candidate of the goal beside it. */
SOME bool has_reason(const struct rows *rows, const mirfodwel_reason *it) {
    if (it->fault || it->outcome > 3 || (it->outcome < 2) != (it->kind == MIRFODWEL_NO_CAUSE) || it->kind > MIRFODWEL_WAS_MAYBE)
        return false;
    if (!it->has_question)
        return it->kind == MIRFODWEL_NO_CAUSE || (it->kind == MIRFODWEL_MOST_RUNS && it->outcome == MIRFODWEL_OVERFLOW);
    if (it->outcome != MIRFODWEL_MAYBE || it->by >= rows->sizes.goals)
        return false;
    mirfodwel_goal goal = rows->goals[it->by];
    if (goal.count == MIRFODWEL_NOT_KNOWN)
        return it->kind == MIRFODWEL_BY_NOT_KNOWN && it->asked == it->by && it->step == MIRFODWEL_FORCED_AMBIGUITY;
    for (size_t place = 0; place < goal.count; place++) {
        mirfodwel_candidate candidate = rows->candidates[goal.first + place];
        for (size_t at = 0; at < candidate.count; at++) {
            mirfodwel_question question = rows->questions[candidate.first + at];
            if (question.kind == it->step && question.goal == it->asked)
                return it->kind != MIRFODWEL_BY_NOT_KNOWN;
        }
    }
    return false;
}

/* The graph of a node, with no room first; nothing where there is none. */
struct graph {
    uint64_t *words;
    size_t length;
};

SOME mirfodwel_status graph_of(mirfodwel_session *session, size_t node, struct graph *graph) {
    uint64_t nothing = 0;
    size_t used = 0;
    *graph = (struct graph){NULL, 0};
    mirfodwel_status status = mirfodwel_graph(session, node, &nothing, 0, &used);
    if (status != MIRFODWEL_NO_ROOM)
        return status;
    *graph = (struct graph){fenced(used * sizeof(uint64_t)), used};
    status = mirfodwel_graph(session, node, graph->words, graph->length, &used);
    expect(status != MIRFODWEL_NO_ROOM && used == graph->length, "a graph of %zu words has %zu, status %d", graph->length, used, status);
    return status;
}

SOME void drop_graph(struct graph *graph) {
    drop_fenced(graph->words, graph->length * sizeof(uint64_t));
    *graph = (struct graph){NULL, 0};
}

#endif
