/* What `random.c` does with texts. */
#ifndef RANDOM_TEXTS_H
#define RANDOM_TEXTS_H
#include "callers.h"

static long in_round;

/* A table by chance, with what it asks. */
struct table {
    char text[4000];
    size_t length, goals, asks;
    struct {
        size_t depth, name;
    } asked[8];
    bool is_spoiled;
};

__attribute__((format(printf, 2, 3))) static void write_words(struct table *table, const char *words, ...) {
    va_list given_words;
    va_start(given_words, words);
    table->length += vsnprintf(table->text + table->length, sizeof table->text - table->length, words, given_words);
    va_end(given_words);
}

static const char *blank(void) {
    return chance(5) ? "" : chance(2) ? " " : "   ";
}

static struct table random_table(void) {
    struct table table = {.goals = 1 + chance(7)};
    for (size_t rules = chance(2 * table.goals + 1), asks = chance(8); rules + asks;) {
        if (chance(rules + asks) < rules) {
            rules--;
            write_words(&table, "%srule %s%sN%zu =", blank(), blank(), chance(5) ? "" : "~", chance(table.goals));
            for (size_t questions = chance(4); questions; questions--)
                write_words(&table, " %s%c:N%zu", blank(), "iiiucccf"[chance(8)], chance(table.goals));
        } else {
            asks--;
            size_t depth = chance(table.goals + 2), name = chance(table.goals);
            table.asked[table.asks].depth = depth;
            table.asked[table.asks++].name = name;
            write_words(&table, "ask %s%zu %sN%zu", blank(), depth, blank(), name);
        }
        write_words(&table, "%s%s", blank(), rules + asks || chance(3) ? "\n" : "");
        if (!chance(12) && table.text[table.length - 1] == '\n')
            write_words(&table, "%s\n", chance(2) ? "# a = comment" : "");
    }
    if (!chance(8) && table.length) {
        table.is_spoiled = true;
        table.text[chance(table.length)] = chance(3) ? " :=~kA\n#"[chance(8)] : (char)chance(256);
    }
    return table;
}

/* What the session says to the table's questions, where goal n has this number. */
static struct bytes lines_of(const struct table *table, const struct rows *rows, const uint32_t *numbers, char *lines, size_t room) {
    mirfodwel_session session = {0};
    mirfodwel_row_fault fault;
    size_t length = 0;
    mirfodwel_status status = open_over(&session, rows, &fault);
    expect(status == MIRFODWEL_DONE, "round %ld: rows of a text have status %d", in_round, status);
    for (size_t place = 0; place < table->asks && status == MIRFODWEL_DONE; place++) {
        mirfodwel_answer answer = {0};
        size_t name = table->asked[place].name;
        status = mirfodwel_ask(&session, table->asked[place].depth, numbers[name], &answer);
        length += snprintf(lines + length, room - length, "N%zu %s %llu\n", name, outcome_words[answer.outcome & 3], (unsigned long long)answer.started);
    }
    mirfodwel_close(&session);
    return (struct bytes){(uint8_t *)lines, length};
}

/* The same rules with other numbers, other places and gaps between what belongs together. */
static struct rows shuffled(const struct rows *rows, const uint32_t *numbers, size_t goals) {
    struct rows made = fenced_rows((mirfodwel_sizes){goals, 2 * rows->sizes.candidates + 2, 3 * rows->sizes.questions + 2, 0});
    size_t candidates = 0, questions = 0;
    for (size_t place = 0; place < made.sizes.candidates; place++)
        made.candidates[place] = (mirfodwel_candidate){0, 1, chance(2)};
    for (size_t place = 0; place < made.sizes.questions; place++)
        made.questions[place] = (mirfodwel_question){chance(4), chance(goals)};
    for (size_t place = 0; place < goals; place++)
        made.goals[place] = (mirfodwel_goal){0, chance(2)};
    for (size_t goal = 0; goal < rows->sizes.goals; goal++) {
        mirfodwel_goal old = rows->goals[goal];
        candidates += chance(2) && candidates < rows->sizes.candidates;
        made.goals[numbers[goal]] = (mirfodwel_goal){candidates, old.count};
        for (size_t place = 0; place < old.count; place++) {
            mirfodwel_candidate candidate = rows->candidates[old.first + place];
            questions += questions < rows->sizes.questions ? chance(2) : 0;
            made.candidates[candidates++] = (mirfodwel_candidate){questions, candidate.count, candidate.is_marked};
            for (size_t asked = 0; asked < candidate.count; asked++) {
                mirfodwel_question question = rows->questions[candidate.first + asked];
                made.questions[questions++] = (mirfodwel_question){question.kind, numbers[question.goal]};
            }
        }
    }
    seal_rows(&made);
    return made;
}

/* Different numbers below this one for so many goals. */
static void renumber(uint32_t *numbers, size_t goals, size_t below) {
    for (size_t place = 0; place < goals; place++) {
        bool is_new = false;
        while (!is_new) {
            numbers[place] = chance(below);
            is_new = true;
            for (size_t before = 0; before < place; before++)
                is_new = is_new && numbers[before] != numbers[place];
        }
    }
}

static void use_as_rows(const struct table *table, const struct rows *rows, struct bytes wanted) {
    char lines[1000];
    uint32_t found[8] = {0}, numbers[8], moved[8];
    for (size_t name = 0; name < table->goals; name++) {
        const uint8_t text[2] = {'N', '0' + name};
        mirfodwel_find(rows->names, rows->sizes.names, text, 2, &found[name]);
    }
    struct bytes came = lines_of(table, rows, found, lines, sizeof lines);
    expect(is_same(came, wanted), "round %ld: the rows say '%.*s' and not '%.*s'", in_round, (int)came.length, lines, (int)wanted.length, (char *)wanted.at);
    size_t below = rows->sizes.goals + chance(3);
    renumber(numbers, rows->sizes.goals, below);
    for (size_t name = 0; name < table->goals; name++)
        moved[name] = numbers[found[name]];
    if (!rows->sizes.goals)
        return;
    struct rows others = shuffled(rows, numbers, below);
    came = lines_of(table, &others, moved, lines, sizeof lines);
    expect(is_same(came, wanted), "round %ld: rows in another order say '%.*s' and not '%.*s'", in_round, (int)came.length, lines, (int)wanted.length,
        (char *)wanted.at);
    drop_rows(&others);
}

/* Takes ` checked` from each line. */
static struct bytes without_checked(struct bytes lines, char *out) {
    size_t length = 0;
    for (size_t place = 0; place < lines.length; place++) {
        if (lines.length - place > 8 && !memcmp(lines.at + place, " checked\n", 9))
            place += 8;
        out[length++] = lines.at[place];
    }
    return (struct bytes){(uint8_t *)out, length};
}

static void use_table(const struct table *table) {
    struct bytes text = {fenced_copy(table->text, table->length), table->length}, answers, goals, shown;
    struct rows rows;
    char plain[1000];
    size_t line = 0, told = 0;
    mirfodwel_status status = call_text(mirfodwel_answers, text, &answers);
    expect(call_text(mirfodwel_goals, text, &goals) == status, "round %ld: goals has another status than %d", in_round, status);
    expect(status == MIRFODWEL_DONE || (table->is_spoiled && status == MIRFODWEL_BAD_INPUT), "round %ld: a table has status %d", in_round, status);
    struct bytes same = without_checked(goals, plain);
    expect(is_same(same, answers), "round %ld: goals says '%.*s'", in_round, (int)same.length, plain);
    for (size_t form = 2; form < 5; form++) {
        expect(call_text(text_calls[form].call, text, &shown) == status, "round %ld: %s has another status than %d", in_round, text_calls[form].name, status);
        drop_fenced(shown.at, shown.length);
    }
    mirfodwel_status read = read_rows(text, &rows);
    expect(read == status, "round %ld: the rows have status %d", in_round, read);
    if (status == MIRFODWEL_BAD_INPUT) {
        struct rows none = fenced_rows((mirfodwel_sizes){0, 0, 0, 0});
        read_into(text, &none, &line);
        char words[100];
        snprintf(words, sizeof words, "%.*s", (int)answers.length, (char *)answers.at);
        expect(sscanf(words, "line %zu", &told) == 1 && told == line, "round %ld: line %zu is bad, and '%s'", in_round, line, words);
        drop_rows(&none);
    } else if (!table->is_spoiled) {
        use_as_rows(table, &rows, answers);
    }
    drop_rows(&rows);
    drop_fenced(answers.at, answers.length);
    drop_fenced(goals.at, goals.length);
    drop_fenced(text.at, text.length);
}

/* Reads rows into arrays that may be too short or too long. */
static void use_rooms(const struct table *table) {
    struct bytes text = {(uint8_t *)table->text, table->length};
    size_t line = 77;
    struct rows whole;
    if (read_rows(text, &whole) == MIRFODWEL_DONE) {
        mirfodwel_sizes wanted = whole.sizes;
        mirfodwel_sizes sizes = {wanted.goals + 1 - chance(3) % (wanted.goals + 2), wanted.candidates + chance(3), wanted.questions + chance(3),
            wanted.names + chance(3)};
        sizes.candidates -= sizes.candidates ? chance(2) : 0;
        sizes.names -= sizes.names ? chance(2) : 0;
        bool fits = sizes.goals >= wanted.goals && sizes.candidates >= wanted.candidates && sizes.names >= wanted.names;
        struct rows rows = fenced_rows(sizes);
        mirfodwel_status status = read_into(text, &rows, &line);
        expect(status == (fits ? MIRFODWEL_DONE : MIRFODWEL_NO_ROOM) && has_sizes(rows.sizes, wanted) && line == 77, "round %ld: rows are read with status %d",
            in_round, status);
        size_t goals = fits ? wanted.goals : 0, candidates = fits ? wanted.candidates : 0, questions = fits ? wanted.questions : 0, names = fits ? wanted.names : 0;
        expect(is_untouched(rows.goals + goals, (sizes.goals - goals) * sizeof(mirfodwel_goal)) &&
                is_untouched(rows.candidates + candidates, (sizes.candidates - candidates) * sizeof(mirfodwel_candidate)) &&
                is_untouched(rows.questions + questions, (sizes.questions - questions) * sizeof(mirfodwel_question)) &&
                is_untouched(rows.names + names, sizes.names - names), "round %ld: more is written than was read", in_round);
        rows.sizes = sizes;
        drop_rows(&rows);
    }
    drop_rows(&whole);
}

/* Finds a name in any bytes: the first line that is equal to it, where the last one need not end. An empty name is never found. */
static void use_names(void) {
    uint8_t bytes[24], sought[3];
    size_t length = chance(24), count = chance(4), wanted = 0, place = 0;
    bool is_there = false;
    for (size_t at = 0; at < length; at++)
        bytes[at] = "AB\n\n9_"[chance(6)];
    for (size_t at = 0; at < count; at++)
        sought[at] = "AB\n9"[chance(4)];
    while (place < length && !is_there) {
        const uint8_t *end = memchr(bytes + place, '\n', length - place);
        size_t line = end ? (size_t)(end - bytes) - place : length - place;
        is_there = count && line == count && !memcmp(bytes + place, sought, count);
        wanted += !is_there;
        place += line + 1;
    }
    uint8_t *names = fenced_copy(bytes, length), *name = fenced_copy(sought, count);
    uint32_t goal = 77;
    mirfodwel_status status = mirfodwel_find(names, length, name, count, &goal);
    expect(status == (is_there ? MIRFODWEL_DONE : MIRFODWEL_UNKNOWN) && goal == (is_there ? wanted : 77), "round %ld: '%.*s' in '%.*s': status %d, %u", in_round,
        (int)count, (char *)sought, (int)length, (char *)bytes, status, goal);
    drop_fenced(names, length);
    drop_fenced(name, count);
}

/* Data of the table is changed, and read: no verdict is promised, but an end with a status. */
static void use_data(const struct table *table) {
    struct bytes text = {(uint8_t *)table->text, table->length}, data, out;
    mirfodwel_status status = call_text(explain_data, text, &data);
    if (status == MIRFODWEL_DONE && data.length) {
        expect(call_text(mirfodwel_check, data, &out) == MIRFODWEL_DONE, "round %ld: data is refused: '%.*s'", in_round, (int)out.length, (char *)out.at);
        drop_fenced(out.at, out.length);
        for (size_t change = 1 + chance(3); change; change--) {
            const char some[] = "0123456789\"{}[]:,NAiufc \\eyes";
            data.at[chance(data.length)] = chance(6) ? some[chance(sizeof some - 1)] : (char)chance(256);
        }
        size_t shorter = chance(3) ? 0 : chance(data.length);
        struct bytes changed = {fenced_copy(data.at, data.length - shorter), data.length - shorter};
        status = call_text(mirfodwel_check, changed, &out);
        expect(status <= MIRFODWEL_BAD_INPUT, "round %ld: changed data has status %d", in_round, status);
        drop_fenced(out.at, out.length);
        drop_fenced(changed.at, changed.length);
    }
    drop_fenced(data.at, data.length);
}

/* Bytes that are no text of any kind, or nearly one, are put to each call. */
static void use_noise(void) {
    const char *const words[] = {"rule ", "ask ", "type ", " = ", "i:", "N1", "A", "\n", "{ ", "}", " | ", " -> ", "base ", "top", "~", "# ", "ask A < A\n",
        "type A = { a: A }\n", "type N1 = base x\n", "9", "\"rules\":[", "{\"goal\":", "\0", "\xff"};
    char text[200];
    size_t length = 0;
    for (size_t count = chance(20); count && length < 160; count--) {
        const char *word = words[chance(sizeof words / sizeof *words)];
        size_t more = *word ? strlen(word) : 1;
        memcpy(text + length, word, more);
        length += more;
    }
    struct bytes noise = {fenced_copy(text, length), length}, out;
    for (size_t place = 0; place < TEXT_CALLS; place++) {
        mirfodwel_status status = call_text(text_calls[place].call, noise, &out);
        expect(status <= MIRFODWEL_BAD_INPUT, "round %ld: %s has status %d", in_round, text_calls[place].name, status);
        drop_fenced(out.at, out.length);
    }
    drop_fenced(noise.at, noise.length);
}

static void use_texts(long round) {
    in_round = round;
    struct table table = random_table();
    use_table(&table);
    use_names();
    if (!chance(4))
        use_rooms(&table);
    if (!chance(4))
        use_data(&table);
    if (!chance(3))
        use_noise();
}

#endif
