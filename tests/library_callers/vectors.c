/*
 * vectors FILE..: each case of these files, as vectors/README.md describes them, is put to the calls on texts, to a session that is
 * opened over its rows, and to one that goes over from case to case: they have to say what the case expects. Each graph of a yes or a no is handed out and checked, as it is and
 * with one word changed. Where a case is small, each room below what is wanted is refused.
 */
#include "callers.h"

struct one_case {
    const char *file;
    char name[32];
    struct bytes text, out, checked, errors;
    int status;
};

/* What is left of a file, line by line. */
struct lines {
    const uint8_t *at, *end;
};

static struct bytes next_line(struct lines *left) {
    const uint8_t *end = memchr(left->at, '\n', left->end - left->at);
    struct bytes line = {(uint8_t *)left->at, (end ? end : left->end) - left->at};
    left->at = end ? end + 1 : left->end;
    return line;
}

static bool begins(struct bytes line, const char *with) {
    return line.length >= strlen(with) && !memcmp(line.at, with, strlen(with));
}

static void append(struct bytes *to, const void *from, size_t length) {
    to->at = given(realloc(to->at, to->length + length + 1));
    if (length)
        memcpy(to->at + to->length, from, length);
    to->length += length;
    to->at[to->length] = 0;
}

static void append_line(struct bytes *to, struct bytes line) {
    append(to, line.at, line.length);
    append(to, "\n", 1);
}

/* Whether the line of an answer has a yes or a no as its second word. */
static bool is_definite(struct bytes line) {
    const char *space = memchr(line.at, ' ', line.length);
    return space && (!strncmp(space, " yes ", 5) || !strncmp(space, " no ", 4));
}

static void read_answers(struct lines *left, struct one_case *it) {
    for (struct bytes line; left->at < left->end && (line = next_line(left)).length;) {
        if (begins(line, "! ")) {
            append_line(&it->errors, (struct bytes){line.at + 2, line.length - 2});
            continue;
        }
        append_line(&it->out, line);
        append(&it->checked, line.at, line.length);
        append(&it->checked, " checked\n" + (is_definite(line) ? 0 : 8), is_definite(line) ? 9 : 1);
    }
}

/* Reads the next case, if there is one. */
static bool next_case(struct lines *left, struct one_case *it) {
    bool is_unended = false, is_found = false;
    struct bytes line;
    while (left->at < left->end && !is_found) {
        line = next_line(left);
        is_found = begins(line, "case ");
    }
    if (!is_found)
        return false;
    sscanf((const char *)line.at, "case %31s", it->name);
    is_unended = line.length > 8 && !memcmp(line.at + line.length - 8, " unended", 8);
    while (!begins(line = next_line(left), "expect "))
        append_line(&it->text, line);
    if (is_unended && it->text.length)
        it->text.length--;
    it->status = line.at[7] - '0';
    read_answers(left, it);
    return true;
}

static void drop_case(struct one_case *it) {
    free(it->text.at);
    free(it->out.at);
    free(it->checked.at);
    free(it->errors.at);
}

/* Each room below what is wanted is refused, and nothing is written; of a large one some are tried. */
static void refuse_rooms(const struct one_case *it, text_call *call, size_t wanted) {
    size_t step = wanted > 64 ? wanted / 7 : 1;
    for (size_t room = 0; room < wanted; room += step) {
        uint8_t *out = fenced(room);
        size_t used = 0;
        mirfodwel_status status = call(it->text.at, it->text.length, out, room, &used);
        expect(status == MIRFODWEL_NO_ROOM && used == wanted && is_untouched(out, room),
            "case %s of %s: room for %zu of %zu bytes: status %d, %zu used", it->name, it->file, room, wanted, status, used);
        drop_fenced(out, room);
    }
    uint8_t *out = fenced(wanted + 9);
    size_t used = 0;
    mirfodwel_status status = call(it->text.at, it->text.length, out, wanted + 9, &used);
    expect(status == it->status && used == wanted && is_untouched(out + wanted, 9),
        "case %s of %s: with more room than is wanted: status %d, %zu used", it->name, it->file, status, used);
    drop_fenced(out, wanted + 9);
}

static void compare_lines(const struct one_case *it, const char *name, text_call *call, struct bytes lines) {
    struct bytes out, wanted = it->status < 2 ? lines : it->errors;
    mirfodwel_status status = call_text(call, it->text, &out);
    expect(status == it->status && is_same(out, wanted), "case %s of %s: mirfodwel_%s has status %d and writes '%.*s'", it->name, it->file, name,
        status, (int)out.length, (char *)out.at);
    refuse_rooms(it, call, wanted.length);
    drop_fenced(out.at, out.length);
}

/* The data of a text's answers has to be accepted, line by line as the answers are. */
static void compare_data(const struct one_case *it) {
    struct bytes wanted = {NULL, 0}, data, out;
    struct lines left = {it->out.at, it->out.at + it->out.length};
    while (left.at < left.end) {
        struct bytes line = next_line(&left);
        size_t length = line.length;
        while (line.at[length - 1] != ' ')
            length--;
        append(&wanted, line.at, length);
        append_line(&wanted, is_definite(line) ? (struct bytes){(uint8_t *)"accepted", 8} : (struct bytes){(uint8_t *)"without a graph", 15});
    }
    mirfodwel_status status = call_text(explain_data, it->text, &data);
    expect(status == it->status, "case %s of %s: data has status %d", it->name, it->file, status);
    if (status < 2) {
        mirfodwel_status checked = call_text(mirfodwel_check, data, &out);
        expect(checked == MIRFODWEL_DONE && is_same(out, wanted), "case %s of %s: its data is told, status %d, as '%.*s'", it->name, it->file,
            checked, (int)out.length, (char *)out.at);
        drop_fenced(out.at, out.length);
    }
    drop_fenced(data.at, data.length);
    free(wanted.at);
}

/* The graph has to be a graph of this goal and this verdict alone, and no longer one for the other verdict with a word changed. */
static void check_graph(const struct one_case *it, mirfodwel_session *session, uint32_t goal, const mirfodwel_answer *answer) {
    struct graph graph;
    bool is_valid = false, is_other = true;
    mirfodwel_status status = graph_of(session, answer->node, &graph);
    expect(status == MIRFODWEL_DONE, "case %s of %s: the graph of goal %u has status %d", it->name, it->file, goal, status);
    mirfodwel_check_graph(session, goal, answer->outcome, graph.words, graph.length, &is_valid);
    mirfodwel_check_graph(session, goal, !answer->outcome, graph.words, graph.length, &is_other);
    expect(is_valid && !is_other, "case %s of %s: the graph of goal %u is valid: %d; for the other verdict: %d", it->name, it->file, goal, is_valid,
        is_other);
    for (size_t place = 0; place < graph.length; place += 1 + chance(graph.length / 4)) {
        uint64_t old = graph.words[place];
        graph.words[place] = chance(4) ? chance(8) : ~(uint64_t)chance(3) >> chance(40);
        is_other = true;
        status = mirfodwel_check_graph(session, goal, !answer->outcome, graph.words, graph.length, &is_other);
        expect(status == MIRFODWEL_DONE && !is_other, "case %s of %s: a changed graph of goal %u is valid for the other verdict", it->name, it->file, goal);
        status = mirfodwel_check_graph(session, goal, answer->outcome, graph.words, graph.length - chance(2), &is_valid);
        expect(status == MIRFODWEL_DONE, "case %s of %s: a changed graph has status %d", it->name, it->file, status);
        graph.words[place] = old;
    }
    drop_graph(&graph);
}

/* The reason has to fit the goal. It is asked anew, which may come to less or to more, but never to a yes in place of a no. */
static void check_cause(const struct one_case *it, const struct rows *rows, mirfodwel_session *session, size_t depth, uint32_t goal,
    const mirfodwel_answer *answer) {
    mirfodwel_reason reason;
    mirfodwel_status status = mirfodwel_cause(session, depth, goal, &reason);
    expect(status == MIRFODWEL_DONE && has_reason(rows, &reason) && (answer->outcome > 1 || reason.outcome > 1 || answer->outcome == reason.outcome),
        "case %s of %s: goal %u is %s, and anew %s, for a reason of kind %d, status %d", it->name, it->file, goal, outcome_words[answer->outcome],
        outcome_words[reason.outcome & 3], reason.kind, status);
}

/* Asks one question of the text in the session, and compares the answer with its line. */
static void ask_one(const struct one_case *it, const struct rows *rows, mirfodwel_session *session, struct bytes asked, struct bytes wanted) {
    char name[32], line[64];
    size_t depth;
    uint32_t goal = 77;
    mirfodwel_answer answer;
    if (sscanf((const char *)asked.at, " ask %zu %17s", &depth, name) != 2)
        return;
    mirfodwel_status found = mirfodwel_find(rows->names, rows->sizes.names, (uint8_t *)name, strlen(name), &goal);
    mirfodwel_status status = mirfodwel_ask(session, depth, goal, &answer);
    if (!expect(found == MIRFODWEL_DONE && status == MIRFODWEL_DONE && answer.outcome < 4 && !answer.fault, "case %s of %s: %s: find %d, ask %d",
            it->name, it->file, name, found, status))
        return;
    int length = snprintf(line, sizeof line, "%s %s %llu", name, outcome_words[answer.outcome], (unsigned long long)answer.started);
    expect((size_t)length == wanted.length && !memcmp(line, wanted.at, length), "case %s of %s: the session says '%s' and not '%.*s'", it->name, it->file,
        line, (int)wanted.length, (char *)wanted.at);
    if (answer.outcome < 2 && expect(answer.has_graph, "case %s of %s: %s has no graph", it->name, it->file, line))
        check_graph(it, session, goal, &answer);
    check_cause(it, rows, session, depth, goal, &answer);
}

/* Of a session in which nothing went wrong, all goals of which are known. */
static void look_at(const struct one_case *it, mirfodwel_session *session) {
    size_t used = 77, nodes = 0;
    uint32_t wanted = 7;
    uint8_t words = 7;
    expect(mirfodwel_wanted(session, &wanted, 0, &used) == MIRFODWEL_DONE && used == 0, "case %s of %s: %zu goals are wanted", it->name, it->file, used);
    used = 77;
    expect(mirfodwel_last_fault(session, &words, 0, &used) == MIRFODWEL_DONE && used == 0, "case %s of %s: there was a fault", it->name, it->file);
    bool is_some = strstr((char *)it->checked.at, " checked\n");
    expect(mirfodwel_held(session, &nodes) == MIRFODWEL_DONE && nodes >= is_some, "case %s of %s: %zu nodes are held", it->name, it->file, nodes);
}

/* Asks the questions of the text in a session that was opened over its rows with this status. */
static void ask_in(const struct one_case *it, const struct rows *rows, mirfodwel_session *session, mirfodwel_status status) {
    expect(status == MIRFODWEL_DONE && session->is_open, "case %s of %s: it is opened with status %d", it->name, it->file, status);
    struct lines left = {it->text.at, it->text.at + it->text.length}, answers = {it->out.at, it->out.at + it->out.length};
    while (left.at < left.end) {
        struct bytes line = next_line(&left);
        if (line.length > strspn((const char *)line.at, " ") && line.at[strspn((const char *)line.at, " ")] == 'a')
            ask_one(it, rows, session, line, next_line(&answers));
    }
    expect(answers.at == answers.end, "case %s of %s: fewer questions than answers", it->name, it->file);
    look_at(it, session);
}

/* The session that goes over from case to case. */
static mirfodwel_session kept;

static void ask_all(const struct one_case *it) {
    struct rows rows;
    mirfodwel_session session = {0};
    mirfodwel_row_fault fault;
    mirfodwel_status status = read_rows(it->text, &rows);
    expect(status == (it->status == 2 ? MIRFODWEL_BAD_INPUT : MIRFODWEL_DONE), "case %s of %s: its rows have status %d", it->name, it->file, status);
    if (status == MIRFODWEL_DONE) {
        ask_in(it, &rows, &session, open_over(&session, &rows, &fault));
        status = mirfodwel_close(&session);
        expect(status == MIRFODWEL_DONE && is_all_zero(&session), "case %s of %s: it is closed with status %d", it->name, it->file, status);
        ask_in(it, &rows, &kept, (kept.is_open ? reopen_over : open_over)(&kept, &rows, &fault));
    }
    drop_rows(&rows);
}

int main(int count, char **words) {
    for (int place = 1; place < count; place++) {
        struct bytes file = read_file(words[place]);
        struct lines left = {file.at, file.at + file.length};
        for (;;) {
            struct one_case it = {.file = words[place]};
            append(&it.checked, "", 0);
            if (!next_case(&left, &it))
                break;
            uint8_t *text = it.text.at;
            it.text.at = fenced_copy(text, it.text.length);
            compare_lines(&it, "answers", mirfodwel_answers, it.out);
            compare_lines(&it, "goals", mirfodwel_goals, it.checked);
            compare_data(&it);
            drop_fenced(it.text.at, it.text.length);
            it.text.at = text;
            ask_all(&it);
            drop_case(&it);
        }
        free(file.at);
    }
    expect(!kept.is_open || mirfodwel_close(&kept) == MIRFODWEL_DONE, "the session that goes over from case to case is not closed");
    return finish();
}
