/*
 * bytes FILE..: of each table the bytes that sessions say they hold, beside those that the library has asked for and not given back: once a session
 * is opened, after each question, and once one session over all tables is opened again. Nothing may be told that is not held, and
 * of a hundred bytes that are held 95 have to be told. Linked so that malloc, realloc and free are those of this file.
 */
#include "callers.h"

/* While the library works, each block has its length in front. */
#define FRONT 16
static bool works;
static size_t held;

void *__real_malloc(size_t bytes);
void *__real_realloc(void *block, size_t bytes);
void __real_free(void *block);
void *__wrap_malloc(size_t bytes);
void *__wrap_realloc(void *block, size_t bytes);
void __wrap_free(void *block);

static void *note(size_t *front, size_t bytes) {
    if (!front)
        return NULL;
    *front = bytes;
    held += bytes;
    return (uint8_t *)front + FRONT;
}

static size_t *front_of(void *block) {
    return (size_t *)((uint8_t *)block - FRONT);
}

void *__wrap_malloc(size_t bytes) {
    return works ? note(__real_malloc(bytes + FRONT), bytes) : __real_malloc(bytes);
}

void *__wrap_realloc(void *block, size_t bytes) {
    if (!works)
        return __real_realloc(block, bytes);
    if (block)
        held -= *front_of(block);
    return note(__real_realloc(block ? front_of(block) : NULL, bytes + FRONT), bytes);
}

void __wrap_free(void *block) {
    if (!works || !block) {
        __real_free(block);
        return;
    }
    held -= *front_of(block);
    __real_free(front_of(block));
}

/* So many goals of a table are asked: with as much depth as there are goals, with little, and once more. */
#define MOST 300

/* The least share that was told, in thousandths. */
static size_t least = 1000;

/* Whether the session tells what it holds, which is all but what other sessions hold. */
static void compare(mirfodwel_session *session, size_t others, const char *path, const char *when, size_t place) {
    size_t told = 0, own = held - others;
    expect(mirfodwel_held_bytes(session, &told) == MIRFODWEL_DONE, "%s: no bytes are told %s", path, when);
    expect(told <= own && 100 * told >= 95 * own, "%s: %zu bytes are told, and %zu are held %s %zu", path, told, own, when, place);
    if (own && 1000 * told / own < least)
        least = 1000 * told / own;
}

static void ask_all(mirfodwel_session *session, const struct rows *rows, size_t others, const char *path) {
    mirfodwel_answer answer;
    for (size_t turn = 0; turn < 3; turn++)
        for (uint32_t goal = 0; goal < rows->sizes.goals && goal < MOST; goal++) {
            size_t depth = turn == 1 ? goal % 4 : rows->sizes.goals;
            expect(mirfodwel_ask(session, depth, goal, &answer) == MIRFODWEL_DONE, "%s: goal %u is not answered", path, goal);
            compare(session, others, path, "after goal", goal);
        }
}

int main(int count, char **words) {
    mirfodwel_session kept = {0};
    mirfodwel_row_fault fault;
    struct rows first, rows;
    for (int place = 1; place < count; place++) {
        struct bytes text = read_file(words[place]);
        mirfodwel_status status = read_rows(text, &rows);
        free(text.at);
        if (status == MIRFODWEL_DONE) {
            works = true;
            mirfodwel_session session = {0};
            size_t others = held;
            expect(open_over(&session, &rows, &fault) == MIRFODWEL_DONE, "%s: it is not opened", words[place]);
            compare(&session, others, words[place], "once it is opened", 0);
            ask_all(&session, &rows, others, words[place]);
            expect(mirfodwel_close(&session) == MIRFODWEL_DONE && held == others, "%s: %zu bytes are held once it is closed", words[place], held - others);
            expect((kept.is_open ? reopen_over : open_over)(&kept, &rows, &fault) == MIRFODWEL_DONE, "%s: it is not opened again", words[place]);
            compare(&kept, 0, words[place], "once it is opened again", 0);
            ask_all(&kept, &rows, 0, words[place]);
            works = false;
        }
        if (place > 1)
            drop_rows(&first);
        first = rows;
    }
    works = true;
    mirfodwel_close(&kept);
    works = false;
    if (count > 1)
        drop_rows(&first);
    expect(held == 0, "%zu bytes are held in the end", held);
    printf("at least %zu thousandths of what is held are told\n", least);
    return finish();
}
