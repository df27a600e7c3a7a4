/* Which of two goals holds that ask each other? Prints `A holds, after 2 runs`. At the top, after ./library:
   cc -I out -o first bindings/c/first.c out/libmirfodwel.a && ./first */
#include "mirfodwel.h"
#include <stdio.h>

int main(void)
{
    /* A holds if B does, by an inductive step, and B if A does, by a coinductive one. */
    const mirfodwel_goal goals[] = {{0, 1}, {1, 1}};
    const mirfodwel_candidate candidates[] = {{0, 1, 0}, {1, 1, 0}};
    const mirfodwel_question questions[] = {{MIRFODWEL_INDUCTIVE, 1}, {MIRFODWEL_COINDUCTIVE, 0}};

    mirfodwel_session session = {0};
    mirfodwel_row_fault fault;
    mirfodwel_answer answer;
    if (mirfodwel_open(&session, goals, 2, candidates, 2, questions, 2, &fault) != MIRFODWEL_DONE) {
        return 1;
    }
    if (mirfodwel_ask(&session, 4, 0, &answer) == MIRFODWEL_DONE && answer.outcome == MIRFODWEL_YES) {
        printf("A holds, after %llu runs\n", (unsigned long long)answer.started);
    }
    mirfodwel_close(&session);
    return 0;
}
