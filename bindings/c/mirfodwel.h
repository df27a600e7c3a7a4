/*
 * Mirfodwel, as a library for C and C++.
 *
 * Mirfodwel answers questions about goals: which of them hold by the rules that you give, also where rules lead back to
 * themselves. You give the rules as a text, or as rows in arrays of your own, and ask in one call, or in a session, which keeps
 * what it has worked out and answers one goal after another. A yes comes with a graph that shows why the goal holds and a no with
 * one that shows why it does not, and a small checker says whether a graph, also one of your own, shows what it is said to.
 *
 * Link libmirfodwel.a or libmirfodwel.so, which need malloc, realloc, free and the memory functions of the C library and
 * nothing else. A call opens no file, prints nothing, starts no thread, keeps nothing in variables of the library and ends the
 * process in no case. It takes less than 64 KiB of stack, however deep goals are nested, and returns, though a hard question may take
 * long. This is for 64-bit Linux on x86-64.
 *
 * RULES. A goal has candidates, and each candidate has questions, each of which is another goal, or the same, and the kind of the
 * step to it. A goal holds where all questions of one candidate hold; so it does where a candidate has no questions, and not
 * where it has no candidates. The kind of a step matters where questions lead back to a goal that asked: by inductive steps
 * alone a goal does not hold because it rests on itself, and with a coinductive one on the way it may.
 *
 * POINTERS. No pointer may be null, also where the length beside it is 0: then any address will do that is aligned for the type, such
 * as that of a variable. A length counts elements: bytes of a text, rows, or words of a graph. What a call writes to must overlap
 * nothing else that the call is given; what it only reads may.
 *
 * BUFFERS. Where a call writes to a buffer `out` with `room` for so many elements, it writes to the front, and `used` says how
 * many. Where they are more than `room`, nothing is written to `out`, the status is MIRFODWEL_NO_ROOM, and `used` says how many
 * are wanted; a room of 0 asks for that alone. The work is done again by the next call. Behind what is used, `out` stays as it was.
 *
 * OWNERSHIP. All arrays and buffers are yours before, in and after a call. A session owns what it has allocated, and
 * mirfodwel_close gives all of it back. Nothing else is held from one call to the next. Texts and names are read in the
 * call alone. But a session reads the rows that it was opened over in each call: from mirfodwel_open to mirfodwel_close they have to
 * stay where and as they are. To change rules or to add some, give the session other rows: by mirfodwel_change, which reads those so
 * far for the last time and keeps what still holds, or by mirfodwel_reopen, which does not read them: they may be changed, or be
 * gone, before that call, if no other one comes between.
 *
 * THREADS. A session is one thread's at a time; another thread may go on with it behind a lock, a start or a join. All else may run
 * side by side: calls on texts, and sessions that are not the same, also over the same rows, which they only read. Call nothing
 * from a handler of signals, nor in the child after a fork of a process that has several threads.
 *
 * REFUSED CALLS. Each call says how it ended by a status. Where no call's own comment says otherwise, a status other than
 * MIRFODWEL_DONE leaves all that the call was given as it was, and so the session: open or closed as before, with all that it
 * had worked out.
 */
#ifndef MIRFODWEL_H
#define MIRFODWEL_H

#include <stdbool.h>
#include <stddef.h>
#include <stdint.h>

#ifdef __cplusplus
extern "C" {
#endif

/* How a call ended; 3 is no status. */
typedef uint8_t mirfodwel_status;

#define MIRFODWEL_DONE 0        /* all is done */
#define MIRFODWEL_FAULT 1       /* a question met a fault, or a graph was not accepted */
#define MIRFODWEL_BAD_INPUT 2   /* the text or the rows are not in order; nothing was asked */
#define MIRFODWEL_NO_MEMORY 4   /* memory was out: free some, and call again */
#define MIRFODWEL_NO_ROOM 5     /* the buffer is too small: nothing was written to it; `used` says what is wanted */
#define MIRFODWEL_WRONG_STATE 6 /* the session is open where it must not be, or is not open */
#define MIRFODWEL_UNKNOWN 7     /* no such goal, node, name, form or verdict */

/*
 * TEXTS: a text goes in, and the lines come out that the program of this name writes. The text has any bytes, and need not end with
 * a zero. A table of rules has lines as these:
 *
 *     rule NAME = K:NAME K:NAME ..    a candidate of the first name, with its questions
 *     rule ~NAME = ..                 the same, marked: it no longer counts where an unmarked one holds
 *     ask DEPTH NAME                  a question of the text, with so many goals nested below it at most
 *     # ..                            passed over, as are lines without words
 *
 * A name is 1 to 16 ASCII letters, digits and `_`, DEPTH is 1 to 7 digits, and K is i, u, c or f for inductive, unknown, coinductive
 * and forced ambiguity.
 *
 * With MIRFODWEL_DONE and MIRFODWEL_FAULT `out` has the lines. With MIRFODWEL_BAD_INPUT, where the text is malformed, and with
 * MIRFODWEL_NO_MEMORY, where memory was out for the text or for all the lines, it has the reason in words and a newline, and
 * `used` its length; if memory is out for the reason of bad input, too, it is cut short. Where that or the lines have no room, the status
 * is MIRFODWEL_NO_ROOM.
 */

/* Answers a table's questions in turn, each on a line: `A yes 2 checked`, after 2 runs of goals, and the checker accepted the graph.
   Only a yes and a no are checked. FAULT: a line tells of a fault, as `A fault memory`, or of a graph as `unchecked`. */
mirfodwel_status mirfodwel_goals(const uint8_t *text, size_t text_length, uint8_t *out, size_t room, size_t *used);

/* The same lines without `checked`, and no graph is checked. */
mirfodwel_status mirfodwel_answers(const uint8_t *text, size_t text_length, uint8_t *out, size_t room, size_t *used);

/* The forms in which graphs are shown. */
#define MIRFODWEL_TEXT 0     /* indented text, each goal with what it rests on below; what is nested more than 100 steps deep is left out */
#define MIRFODWEL_GRAPHVIZ 1 /* Graphviz's language, a cluster for each question */
#define MIRFODWEL_DATA 2     /* one line of JSON with the rules and each answer's graph, which mirfodwel_check reads */

/* Answers a table's questions, and shows of each why it holds or not, if the checker accepts its graph. FAULT: as for mirfodwel_goals.
   UNKNOWN: no such form. */
mirfodwel_status mirfodwel_explain(
    uint8_t form, const uint8_t *text, size_t text_length, uint8_t *out, size_t room, size_t *used);

/* Reads data as mirfodwel_explain writes it, also what others wrote or changed, and says of each answer on a line whether
   its graph shows it by the rules in the data: `A yes accepted`, `A no refused` or `A maybe without a graph`. FAULT: a graph was refused.
   BAD_INPUT: the reason names the byte, counted from 0, near which the data is malformed. */
mirfodwel_status mirfodwel_check(const uint8_t *data, size_t data_length, uint8_t *out, size_t room, size_t *used);

/* Reads declarations of types, which may be recursive, and says of each question whether one type is below another, and if not, why:
   of `type N = base Int`, `type S = { head: N tail: S }` and `ask S < N` that `S < N no` with the reason. Each line is
   `type NAME = SIDE`, `ask NAME < NAME`, a comment after # or empty, where SIDE is `base WORD`, `top`, `bottom`, `A -> B`, `{ x: A y: B }`
   or `A | B`. FAULT: a line tells of a fault. */
mirfodwel_status mirfodwel_subtypes(const uint8_t *text, size_t text_length, uint8_t *out, size_t room, size_t *used);

/*
 * ROWS: rules as data. A goal is called by its place in the array of goals, from 0. The rows of the three arrays may stand in any
 * order and share ranges, so that rules are added at the ends.
 */

#define MIRFODWEL_NOT_KNOWN 4294967295u /* in the place of a goal's `count`: its candidates are not known, or not yet */

/* A goal: its candidates are `count` many from the place `first` on in the array of candidates. What is not known has any
   `first`, and says maybe. There are fewer than 4294967295 goals. */
typedef struct {
    uint32_t first;
    uint32_t count;
} mirfodwel_goal;

/* A candidate: its questions are `count` many from the place `first` on in the array of questions, asked in this order. Where
   `is_marked` is 1 it no longer counts once a candidate of the goal with a 0 holds. */
typedef struct {
    uint32_t first;
    uint32_t count;
    uint32_t is_marked;
} mirfodwel_candidate;

/* The kinds of steps, in rising order: a way that leads back to its goal is of the greatest kind on it. */
#define MIRFODWEL_INDUCTIVE 0        /* the goal does not hold because it rests on itself so */
#define MIRFODWEL_UNKNOWN_KIND 1     /* not known which: the goal says maybe */
#define MIRFODWEL_COINDUCTIVE 2      /* nothing stands against the goal on this way */
#define MIRFODWEL_FORCED_AMBIGUITY 3 /* the goal says maybe, whatever the other steps are */

/* A question: the goal at this place, by a step of this kind. */
typedef struct {
    uint32_t kind;
    uint32_t goal;
} mirfodwel_question;

/* How many rows, and bytes of names. */
typedef struct {
    size_t goals;
    size_t candidates;
    size_t questions;
    size_t names;
} mirfodwel_sizes;

/* Writes the rules of a table's text as rows; its questions, the lines `ask`, are read and left out. Goals stand in the order in which
   the text first names them, and `names` gets each goal's name in this order, with a newline behind each. Each array has room for so many
   elements as the number behind it says.
   DONE: `sizes` says how many were written. NO_ROOM: `sizes` says how many are wanted, and no array is written to, also if
   only one is too short. BAD_INPUT: `line` is the number, from 1, of the first line that is malformed. NO_MEMORY. */
mirfodwel_status mirfodwel_read(const uint8_t *text, size_t text_length,
    mirfodwel_goal *goals, size_t goals_room,
    mirfodwel_candidate *candidates, size_t candidates_room,
    mirfodwel_question *questions, size_t questions_room,
    uint8_t *names, size_t names_room,
    mirfodwel_sizes *sizes, size_t *line);

/* The goal of this name: the number, from 0, of the first line of `names` that is equal to it. UNKNOWN: there is none, or the name
   is empty. */
mirfodwel_status mirfodwel_find(
    const uint8_t *names, size_t names_length, const uint8_t *name, size_t name_length, uint32_t *goal);

/*
 * SESSIONS. Set one to zeros, `mirfodwel_session session = {0};` or in C++ `= {}`, open it, ask, and close it; then it is all zeros,
 * and may be opened again. Only these functions read and write it. It may be moved as plain data, but of two copies only one may be used
 * from then on. One that is not closed keeps its memory.
 */
typedef struct {
    bool is_open;
    void *inside;
} mirfodwel_session;

/* The first row that is not in order: goals are looked through first, then candidates, then questions. */
typedef struct {
    uint8_t list; /* 0 goals, 1 candidates, 2 questions */
    size_t place; /* in that array, from 0 */
} mirfodwel_row_fault;

/* What a goal comes to. */
#define MIRFODWEL_YES 0      /* it holds */
#define MIRFODWEL_NO 1       /* it does not hold */
#define MIRFODWEL_MAYBE 2    /* the rules do not say, or not yet */
#define MIRFODWEL_OVERFLOW 3 /* for want of depth, or since a goal in a cycle had its most runs, which are 8 */

/* Why a question has no answer. */
#define MIRFODWEL_NO_FAULT 0
#define MIRFODWEL_MEMORY 1     /* memory was out: what was worked out before is kept, so ask again when there is more */
#define MIRFODWEL_CONFLICT 2   /* a goal came to another result than is stored for it; the stored one stays, and the two are never a yes and a no */
#define MIRFODWEL_VALIDATION 3 /* the same of a goal that was worked out to compare */
#define MIRFODWEL_PROTOCOL 4   /* a goal asked out of order; that rows do so is ruled out */

/* The answer to a question. With the status FAULT only `fault` tells something. */
typedef struct {
    uint64_t started;  /* how many runs of goals were started; 0 where a stored result answers */
    size_t node;       /* where `has_graph`: by which mirfodwel_graph finds the graph, until the session forgets the goal */
    uint8_t outcome;   /* MIRFODWEL_YES, MIRFODWEL_NO, MIRFODWEL_MAYBE or MIRFODWEL_OVERFLOW */
    uint8_t fault;     /* MIRFODWEL_NO_FAULT, or with the status FAULT the fault */
    bool has_graph;    /* whether there is a node; each yes and each no has one */
    bool limits_met;   /* whether the depth or the number of runs was too small for some goal in this question */
} mirfodwel_answer;

/* Opens the session over these rows, which have to stay as they are until it is closed or has other rows. Nothing is copied.
   DONE. WRONG_STATE: it is open already. BAD_INPUT: `fault` is the first row that is not in order: a range that leads past the end of the
   next array, an `is_marked` above 1, a `kind` above 3, or a goal that there is not. NO_MEMORY. */
mirfodwel_status mirfodwel_open(mirfodwel_session *session,
    const mirfodwel_goal *goals, size_t goals_length,
    const mirfodwel_candidate *candidates, size_t candidates_length,
    const mirfodwel_question *questions, size_t questions_length,
    mirfodwel_row_fault *fault);

/* Opens a session that is open again, over these rows, as if it were closed and then opened: nothing is known of their goals, and
   nodes of earlier answers mean nothing any more. But it keeps its memory, and works out many small tables in less time than
   new sessions do. What a much larger table has left is given back on the way. No memory is taken.
   DONE. WRONG_STATE: it is not open. BAD_INPUT: `fault` is the first row that is not in order, and the session is still open over the
   rows so far, with all that it had worked out; where these were changed or are gone, only close it or open it again. */
mirfodwel_status mirfodwel_reopen(mirfodwel_session *session,
    const mirfodwel_goal *goals, size_t goals_length,
    const mirfodwel_candidate *candidates, size_t candidates_length,
    const mirfodwel_question *questions, size_t questions_length,
    mirfodwel_row_fault *fault);

/* Takes an open session over to these rows, and keeps what is known of goals that this does not concern: those whose candidates have
   the marks and the questions that they had, in order, wherever their rows stand, and so has each goal that they can reach. Their
   results are still stored, and the nodes of their answers stay, by the same numbers. All else is forgotten, and mirfodwel_graph no
   longer knows those nodes. A goal is told by its place; one that one of the tables has not has no candidates there.
   The call reads the rows so far for the last time. They have to be there still, unchanged, and may be changed or freed once it returned
   DONE; the new rows may share arrays with them. It takes memory only for its own time, and that time is linear in both.
   DONE. WRONG_STATE: it is not open. BAD_INPUT: `fault` is the first row that is not in order. NO_MEMORY. After the last two the
   session is still open over the rows so far, with all that it had worked out. */
mirfodwel_status mirfodwel_change(mirfodwel_session *session,
    const mirfodwel_goal *goals, size_t goals_length,
    const mirfodwel_candidate *candidates, size_t candidates_length,
    const mirfodwel_question *questions, size_t questions_length,
    mirfodwel_row_fault *fault);

/* Asks whether the goal holds, where so many goals may be nested below it at most; one with no depth left answers overflow. With a
   depth of at least the number of goals no question is cut off so, and overflow comes from the number of runs alone. Results are stored, and
   answer later questions, which then have no new runs.
   DONE: `answer` has the answer. FAULT: `answer` has the fault; the session keeps all that it had, and may be asked again.
   WRONG_STATE: it is not open. UNKNOWN: there is no such goal. */
mirfodwel_status mirfodwel_ask(mirfodwel_session *session, size_t depth, uint32_t goal, mirfodwel_answer *answer);

/* Writes the graph of an answer's node as numbers, which mirfodwel_check_graph reads. Its nodes stand one behind the other, the one
   of the asked goal first, and each is a run of a goal:
       the goal, its outcome,
       the number of its replies, and these, as the run was told them: 0 to 3 the outcome of a question, 4 noted, 5 begin,
       the number of its edges, and for each a kind and a target, the place of a node in this graph, from 0.
   The first reply is 5; then come for each candidate a 4, the outcomes of its questions, and a 4; and at last a 4 for each marked candidate,
   if an unmarked one holds. The edges are the questions on which the outcome rests, each answered by the node at its target.
   `used` and `room` count numbers. DONE. NO_ROOM. WRONG_STATE: it is not open. UNKNOWN: there is no such node, or it has no
   whole graph. NO_MEMORY. */
mirfodwel_status mirfodwel_graph(mirfodwel_session *session, size_t node, uint64_t *out, size_t room, size_t *used);

/* Whether these numbers are a graph which shows that the goal holds, for the verdict MIRFODWEL_YES, or that it does not, for
   MIRFODWEL_NO, by the rows of the session. They may come from anywhere, and nothing of them is trusted.
   DONE: `is_valid` says it. WRONG_STATE: it is not open. UNKNOWN: no such goal or verdict. NO_MEMORY. */
mirfodwel_status mirfodwel_check_graph(mirfodwel_session *session, uint32_t goal, uint8_t verdict,
    const uint64_t *words, size_t words_length, bool *is_valid);

/* Writes which goals that are not known were asked for: just those of which a result is stored, in rising order. Where rules are worked
   out on the way, make these known, in rows behind the others, go over to all of them by mirfodwel_change, and ask again, until none is
   wanted, which also counts goals that other questions asked for.
   `used` and `room` count goals. DONE. NO_ROOM. WRONG_STATE: it is not open. NO_MEMORY. */
mirfodwel_status mirfodwel_wanted(mirfodwel_session *session, uint32_t *out, size_t room, size_t *used);

/* Writes why the goal holds or not, as mirfodwel_explain does for a text with this one question. The goal is asked anew, and the session
   stores nothing of that. A goal is called by its line of `names`, as mirfodwel_read writes them, or by its number, where that is empty or
   there is none; but as data always by its number, and mirfodwel_check reads it.
   DONE. FAULT: `out` tells it. NO_ROOM. WRONG_STATE: it is not open. UNKNOWN: no such form or goal. NO_MEMORY. */
mirfodwel_status mirfodwel_explain_goal(mirfodwel_session *session, uint8_t form, size_t depth, uint32_t goal,
    const uint8_t *names, size_t names_length, uint8_t *out, size_t room, size_t *used);

/* Why a goal is neither yes nor no: where it was cut off first. */
#define MIRFODWEL_NO_CAUSE 0         /* it is yes or no */
#define MIRFODWEL_NO_DEPTH 1         /* `by` had no depth left for the question */
#define MIRFODWEL_NO_DEPTH_OR_RUNS 2 /* that, or `asked` had its most runs before */
#define MIRFODWEL_MOST_RUNS 3        /* `asked` had its most runs, or the goal itself, where no question is named */
#define MIRFODWEL_UNKNOWN_CYCLE 4    /* the question closed a cycle of unknown kind */
#define MIRFODWEL_FORCED_CYCLE 5     /* the question closed a cycle of forced ambiguity */
#define MIRFODWEL_BY_NOT_KNOWN 6     /* the candidates of `by` are not known, so that no depth would help */
#define MIRFODWEL_WAS_MAYBE 7        /* `asked` came to maybe before, and more was not noted */
#define MIRFODWEL_NOT_NOTED 8        /* nothing was noted */

/* What a goal came to, and why. With the status FAULT only `fault` tells something. */
typedef struct {
    uint64_t started;  /* how many runs of goals were started */
    uint32_t by;       /* where `has_question`: the goal that asked the question */
    uint32_t asked;    /* which goal that is about */
    uint8_t step;      /* and by a step of which kind; `by` has a candidate with this question */
    bool has_question; /* whether a question is named */
    uint8_t kind;      /* MIRFODWEL_NO_CAUSE, or why it is neither yes nor no */
    uint8_t outcome;   /* as of mirfodwel_answer */
    uint8_t fault;     /* as there */
    bool limits_met;   /* as there */
} mirfodwel_reason;

/* Says why the goal is neither yes nor no. It is asked anew, as by mirfodwel_explain_goal, and the session stores nothing of that; this
   takes up to a third more instructions than mirfodwel_ask in a new session. What mirfodwel_ask answers rests also on what is stored, and
   where that is of questions with less depth it may be less.
   DONE: `reason` has it. FAULT: `reason` has the fault. WRONG_STATE: it is not open. UNKNOWN: there is no such goal. */
mirfodwel_status mirfodwel_cause(mirfodwel_session *session, size_t depth, uint32_t goal, mirfodwel_reason *reason);

/* Writes in words which fault a question of this session met last, or no byte where none did.
   DONE. NO_ROOM. WRONG_STATE: it is not open. NO_MEMORY. */
mirfodwel_status mirfodwel_last_fault(mirfodwel_session *session, uint8_t *out, size_t room, size_t *used);

/* How many nodes of graphs the session holds. DONE. WRONG_STATE: it is not open. */
mirfodwel_status mirfodwel_held(mirfodwel_session *session, size_t *nodes);

/* How many bytes of the heap the session holds: what it has asked malloc and realloc for, and not freed. Where it keeps tables that
   were emptied, it may tell some less. The time grows with the nodes that are held and the results that are stored. DONE.
   WRONG_STATE: it is not open. */
mirfodwel_status mirfodwel_held_bytes(mirfodwel_session *session, size_t *bytes);

/* Gives back all memory of the session, which is all zeros then; its nodes' numbers mean nothing any more. DONE. WRONG_STATE: it is not
   open. */
mirfodwel_status mirfodwel_close(mirfodwel_session *session);

#ifdef __cplusplus
}
#endif

#if defined(__cplusplus) && __cplusplus >= 201103L
#define MIRFODWEL_HAS(condition) static_assert(condition, #condition)
#elif !defined(__cplusplus) && defined(__STDC_VERSION__) && __STDC_VERSION__ >= 201112L
#define MIRFODWEL_HAS(condition) _Static_assert(condition, #condition)
#endif
#ifdef MIRFODWEL_HAS
MIRFODWEL_HAS(sizeof(size_t) == 8 && sizeof(void *) == 8 && sizeof(bool) == 1);
MIRFODWEL_HAS(sizeof(mirfodwel_goal) == 8);
MIRFODWEL_HAS(sizeof(mirfodwel_candidate) == 12);
MIRFODWEL_HAS(sizeof(mirfodwel_question) == 8);
MIRFODWEL_HAS(sizeof(mirfodwel_sizes) == 32);
MIRFODWEL_HAS(sizeof(mirfodwel_session) == 16 && offsetof(mirfodwel_session, inside) == 8);
MIRFODWEL_HAS(sizeof(mirfodwel_row_fault) == 16 && offsetof(mirfodwel_row_fault, place) == 8);
MIRFODWEL_HAS(sizeof(mirfodwel_answer) == 24 && offsetof(mirfodwel_answer, outcome) == 16);
MIRFODWEL_HAS(sizeof(mirfodwel_reason) == 24 && offsetof(mirfodwel_reason, step) == 16);
#undef MIRFODWEL_HAS
#endif

#endif
