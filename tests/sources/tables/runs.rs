//! The runs of the tests in `tables`, which says how they are written.

/// All runs. After each comes an empty line.
pub const RUNS: &str = r"
case cycles_are_run_until_they_are_stable.1 limit 8 provisional both
rule A = i:A
ask 4 A
expect 0
A no 1

case cycles_are_run_until_they_are_stable.2 limit 8 provisional both
rule A = c:A
ask 4 A
expect 0
A yes 1

case cycles_are_run_until_they_are_stable.3 limit 8 provisional both
rule A = u:A
ask 4 A
expect 0
A maybe 1

case cycles_are_run_until_they_are_stable.4 limit 8 provisional both
rule A = i:A
rule A = c:A
ask 4 A
expect 0
A yes 2

case cycles_are_run_until_they_are_stable.5 limit 8 provisional both
rule A = i:B
rule B = c:A
ask 4 A
expect 0
A yes 2

case cycles_are_run_until_they_are_stable.6 limit 8 provisional both
rule A = f:B
rule B = c:A
ask 4 A
expect 0
A maybe 2

case cycles_are_run_until_they_are_stable.7 limit 8 provisional both
rule A = c:P
rule P = c:A
rule P = f:P
ask 4 A
expect 0
A yes 3

case cycles_are_run_until_they_are_stable.8 limit 8 provisional both
rule A = i:B
rule A =
rule B = i:A
ask 4 A
ask 4 B
expect 0
A yes 4
B yes 4

case cycles_of_candidates_that_count_cause_runs.1 limit 8 provisional both
# Where an unmarked candidate holds, the goal rests on no cycle of its marked candidates, which causes no
# further run then.
rule ~A = i:A
rule A =
ask 4 A
expect 0
A yes 1

case cycles_of_candidates_that_count_cause_runs.2 limit 8 provisional both
rule ~A = i:A
rule ~A = c:A
rule A = i:Q
rule A =
ask 4 A
expect 0
A yes 2

case cycles_of_candidates_that_count_cause_runs.3 limit 8 provisional both
# Where none holds, the marked candidates count, and so do their cycles.
rule ~A = i:A
rule ~A = c:A
rule A = i:Q
ask 4 A
expect 0
A yes 3

case cycles_of_candidates_that_count_cause_runs.4 limit 8 provisional both
rule A = i:B
rule ~B = i:A
rule B =
ask 4 A
expect 0
A yes 2

case cycles_of_candidates_that_count_cause_runs.5 limit 8 provisional both
rule A = i:B
rule A =
rule ~B = i:A
rule B =
ask 4 A
expect 0
A yes 2

case cycles_of_candidates_that_count_cause_runs.6 limit 8 provisional both
rule A = i:B
rule A =
rule ~B = i:A
rule B = i:Q
ask 4 A
expect 0
A yes 5

case depth_runs_out_and_is_divided.1 limit 8
# A question without depth is not evaluated.
rule A = i:B
rule B = i:C
rule C =
ask 1 A
expect 0
A maybe 2 limit

case depth_runs_out_and_is_divided.2 limit 8
# Once a goal has met that, its next questions get a quarter of its depth.
rule A = i:P
rule A = i:E
rule P = i:Q
rule Q = i:S
rule E = i:S
rule S =
ask 2 A
expect 0
A maybe 4 limit

case depth_runs_out_and_is_divided.3 limit 8
rule A = i:P
rule A = i:E
rule P = i:Q
rule Q = i:S
rule E = i:S
rule S =
ask 3 A
expect 0
A yes 5

case the_most_runs_are_a_limit.1 limit 1
rule A = i:A
rule A = c:A
ask 4 A
expect 0
A overflow 1 limit

case the_most_runs_are_a_limit.2 limit 0
rule A = i:A
rule A = c:A
ask 4 A
expect 0
A overflow 1 limit

case the_most_runs_are_a_limit.3 limit 1
rule A = c:A
ask 4 A
expect 0
A yes 1

case the_most_runs_are_a_limit.4 limit 0
rule A = c:A
ask 4 A
expect 0
A yes 1

case a_goal_asked_again_over_the_same_kind_of_cycle_has_its_answer.1 limit 8 provisional both
rule A = c:B c:B
rule B = c:A
ask 4 A
expect 0
A yes 2
without
A yes 3

case a_goal_asked_again_over_the_same_kind_of_cycle_has_its_answer.2 limit 8 provisional both
# The second question would close a cycle of another kind.
rule A = c:B i:B
rule B = c:A
ask 4 A
expect 0
A yes 3

case an_answer_that_met_overflow_is_passed_over_by_a_goal_without_heads limit 8 provisional both
# The answer of B met overflow, and rests on A, which itself has no head.
rule A = c:B c:B
rule B = c:A c:C
rule C = c:S
rule S =
ask 2 A
expect 0
A maybe 4 limit

case an_answer_moves_to_the_next_head_where_its_cycles_keep_their_kind.1 limit 8 provisional both
# The answer of D rests on B, and on A alone once B is done.
rule A = c:B c:D
rule B = c:D
rule D = c:B c:A
ask 4 A
expect 0
A yes 3
without
A yes 5

case an_answer_moves_to_the_next_head_where_its_cycles_keep_their_kind.2 limit 8 provisional both
# A asks D over another kind of path, so that D is worked out again, with the answer of B.
rule A = c:B i:D
rule B = c:D
rule D = c:B c:A
ask 4 A
expect 0
A yes 4
without
A yes 5

case an_answer_moves_to_the_next_head_where_its_cycles_keep_their_kind.3 limit 8 provisional both
# The path to D is inductive from B and coinductive from A.
rule A = c:B c:D
rule B = i:D c:A
rule D = c:B
ask 4 A
expect 0
A yes 3
without
A yes 5

case an_answer_moves_to_the_next_head_where_its_cycles_keep_their_kind.4 limit 8 provisional both
# B is a no, by an inductive cycle with A, and D, which asks B, is a no with it. From A over D that cycle is
# coinductive, so the no of D is dropped once B is done. A search that left it there would say no of A, too.
rule A = i:B
rule A = c:D
rule B = c:D i:A
rule D = i:B
ask 4 A
expect 0
A yes 12

case an_answer_stays_after_a_stable_first_run_that_took_its_cycles_right.1 limit 8 provisional both
# The first run of B comes to yes, with which its coinductive cycles were answered, so that it is not run again.
# The answer of D used B by a marked candidate alone, by an inductive cycle that was answered no, so that the no
# of D is dropped.
rule A = c:B c:D
rule ~B = i:D
rule B = c:A
rule D = i:B
ask 4 A
expect 0
A yes 4
without
A yes 5

case an_answer_stays_after_a_stable_first_run_that_took_its_cycles_right.2 limit 8 provisional both
# The same with a coinductive cycle, so that the yes of D stays.
rule A = c:B c:D
rule ~B = c:D
rule B = c:A
rule D = c:B
ask 4 A
expect 0
A yes 3
without
A yes 5

case an_answer_that_used_an_ambiguous_goal_is_ambiguous limit 8 provisional both
# B is a maybe, and is not run again. The answer of D used B, and becomes a maybe, too.
rule A = c:B
rule A = c:D
rule B = c:A c:D u:B
rule D = c:B
ask 4 A
expect 0
A maybe 3
without
A maybe 5

case an_answer_that_used_no_result_outlives_a_rerun limit 8 provisional both
# The marked candidate of B is ignored, so the answer of B rests on A without having used its result, and is
# still there when A is run again.
rule A = i:B c:A
rule A = i:A
rule ~B = i:A
rule B =
ask 4 A
expect 0
A yes 3
without
A yes 4

case a_stored_result_is_passed_over_where_a_goal_below_it_has_an_answer.1 limit 8 provisional both
# The maybe that is stored of D met overflow at A. By the time that B asks D, A has a provisional entry which D
# would use, so that D is worked out again.
rule A = i:B
rule B = c:A i:D
rule D = c:A
ask 1 D
ask 2 B
expect 0
D maybe 2 limit
B yes 3
without
D maybe 2 limit
B maybe 2

case a_stored_result_is_passed_over_where_a_goal_below_it_has_an_answer.2 limit 8 provisional both
# D would not use the answer of A, since it asks over another kind of path. So the stored maybe is used.
rule A = i:B
rule B = c:A i:D
rule D = i:A
ask 1 D
ask 2 B
expect 0
D maybe 2 limit
B maybe 2

case a_stored_result_is_passed_over_where_a_goal_below_it_has_an_answer.3 limit 8 provisional both
# D would not use the answer of A, since that met overflow. So the stored maybe is used.
rule A = i:B i:E
rule B = c:A i:D
rule D = c:A
rule E = i:F
rule F = i:G
rule G = i:H
rule H =
ask 1 D
ask 4 B
expect 0
D maybe 2 limit
B maybe 5 limit

case a_goal_that_is_asked_again_starts_no_frame.1 limit 8
rule A = i:A
ask 4 A
ask 4 A
expect 0
A no 1
A no 0
stored
A no from 1

case a_goal_that_is_asked_again_starts_no_frame.2 limit 8
rule C =
ask 0 C
ask 0 Z
expect 0
C yes 1
Z no 1
stored
C yes from 0
Z no from 0

case a_maybe_has_no_node.1 limit 8
rule A = u:A
ask 4 A
expect 0
A maybe 1
nodes
none

case a_maybe_has_no_node.2 limit 8
rule A = f:A
ask 4 A
expect 0
A maybe 1
nodes
none

case a_maybe_has_no_node.3 limit 8
rule A = i:B
rule B = i:C
rule C =
ask 1 A
expect 0
A maybe 2 limit
nodes
none

case a_no_that_is_stored_names_its_node_again limit 8
rule A = i:A
ask 4 A
ask 4 A
expect 0
A no 1
A no 0
nodes
0
0

case results_that_rest_on_goals_above_are_not_stored.1 limit 8
rule A = i:B
rule B = c:A
ask 4 A
expect 0
A yes 2
stored
A yes from 2

case results_that_rest_on_goals_above_are_not_stored.2 limit 8
rule A = i:B
rule A =
rule B = i:A
ask 4 A
expect 0
A yes 4
stored
A yes from 2

case results_that_rest_on_goals_above_are_not_stored.3 limit 8
# A stored result is not used above a goal that was asked below it.
rule A = i:B
rule A =
rule B = i:A
ask 4 A
ask 4 B
expect 0
A yes 4
B yes 4
stored
A yes from 2
B yes from 2

case results_that_rest_on_goals_above_are_not_stored.4 limit 8
# A goal that asked itself alone in a candidate whose usages are ignored is stored.
rule ~A = i:A
rule A =
ask 4 A
expect 0
A yes 1
stored
A yes from 1

case results_that_rest_on_goals_above_are_not_stored.5 limit 8
# A goal that asked a goal above it in such a candidate still rests on that goal, and is not stored.
rule A = i:B
rule ~B = i:A
rule B =
ask 4 A
expect 0
A yes 2
stored
A yes from 2

case results_that_rest_on_goals_above_are_not_stored.6 limit 8
rule A = i:B
rule ~B = i:A
rule B =
ask 4 A
ask 4 B
expect 0
A yes 2
B yes 2
stored
A yes from 2
B yes from 2

case results_that_rest_on_goals_above_are_not_stored.7 limit 8
# Provisional entries are not stored.
rule A = c:B c:B
rule B = c:A
ask 4 A
expect 0
A yes 2
stored
A yes from 2

case results_that_rest_on_goals_above_are_not_stored.8 limit 8
# Where a provisional entry is used, it requires no depth.
rule A = c:B c:D
rule B = c:E c:A
rule D = c:F
rule E =
rule F = c:B
ask 4 A
expect 0
A yes 5
stored
A yes from 3
E yes from 0

case results_are_used_at_the_depths_that_they_fit.1 limit 8
# A result that met overflow is used again at the same depth alone, and another one needs its depth.
rule A = i:B
rule B = i:C
rule C =
ask 1 A
expect 0
A maybe 2 limit
stored
A maybe at 1
B maybe at 0

case results_are_used_at_the_depths_that_they_fit.2 limit 8
rule A = i:B
rule B = i:C
rule C =
ask 1 A
ask 2 A
expect 0
A maybe 2 limit
A yes 3
stored
A yes from 2
A maybe at 1
B yes from 1
B maybe at 0
C yes from 0

case results_are_used_at_the_depths_that_they_fit.3 limit 8
rule A = i:B
rule B = i:C
rule C =
ask 1 A
ask 2 A
ask 5 A
expect 0
A maybe 2 limit
A yes 3
A yes 0
stored
A yes from 2
A maybe at 1
B yes from 1
B maybe at 0
C yes from 0

case results_are_used_at_the_depths_that_they_fit.4 limit 8
rule A = i:B
rule B = i:C
rule C =
ask 1 A
ask 2 A
ask 0 B
expect 0
A maybe 2 limit
A yes 3
B maybe 0
stored
A yes from 2
A maybe at 1
B yes from 1
B maybe at 0
C yes from 0

case results_are_used_at_the_depths_that_they_fit.5 limit 8
rule A = i:B
rule B = i:C
rule C =
ask 0 A
ask 1 A
ask 2 A
ask 1 A
ask 0 A
ask 5 A
ask 1 B
ask 0 B
expect 0
A maybe 1 limit
A maybe 2 limit
A yes 3
A maybe 0
A maybe 0
A yes 0
B yes 0
B maybe 0
stored
A yes from 2
A maybe at 0
A maybe at 1
B yes from 1
B maybe at 0
C yes from 0

case results_are_used_at_the_depths_that_they_fit.6 limit 8
# Once a goal has met overflow, its next questions get a quarter of its depth.
rule A = i:P
rule A = i:E
rule P = i:Q
rule Q = i:S
rule E = i:S
rule S =
ask 2 A
expect 0
A maybe 4 limit
stored
A maybe at 2
E maybe at 0
P maybe at 1
Q maybe at 0

case results_are_used_at_the_depths_that_they_fit.7 limit 8
# A result that is stored while a question is answered is used for that same question.
rule A = i:P
rule A = i:E
rule P = i:Q
rule Q = i:S
rule E = i:S
rule S =
ask 2 A
ask 3 A
expect 0
A maybe 4 limit
A yes 5
stored
A yes from 3
A maybe at 2
E yes from 1
E maybe at 0
P yes from 2
P maybe at 1
Q yes from 1
Q maybe at 0
S yes from 0

case answers_name_their_graphs.1 limit 8
ask 0 Z
expect 0
Z no 1
graph
i:Z no: begin

case answers_name_their_graphs.2 limit 8
rule A =
ask 0 A
expect 0
A yes 1
graph
i:A yes: begin noted noted

case answers_name_their_graphs.3 limit 8
rule A = i:B
rule B =
ask 4 A
expect 0
A yes 2
graph
i:A yes: begin noted yes noted
 i:B yes: begin noted noted

case answers_name_their_graphs.4 limit 8
rule A = c:P
rule P = u:Q f:R
ask 4 A
expect 0
A no 4
graph
i:A no: begin noted no noted
 c:P no: begin noted no no noted
  u:Q no: begin
  f:R no: begin

case answers_name_their_graphs.5 limit 8
rule A = i:B c:Q
rule B =
ask 4 A
expect 0
A no 3
graph
i:A no: begin noted yes no noted
 c:Q no: begin

case answers_name_their_graphs.6 limit 8
rule A = i:Q
rule A = f:B
rule B =
ask 4 A
expect 0
A yes 3
graph
i:A yes: begin noted no noted noted yes noted
 f:B yes: begin noted noted

case answers_name_their_graphs.7 limit 8
rule ~A = i:B
rule A =
rule B =
ask 4 A
expect 0
A yes 2
graph
i:A yes: begin noted yes noted noted noted noted

case answers_name_their_graphs.8 limit 8
rule ~A = i:B
rule A = i:Q
rule B =
ask 4 A
expect 0
A yes 3
graph
i:A yes: begin noted yes noted noted no noted
 i:B yes: begin noted noted

case answers_name_their_graphs.9 limit 8
rule ~A = u:B
rule A = i:B
rule B =
ask 4 A
expect 0
A yes 2
graph
i:A yes: begin noted yes noted noted yes noted noted
 i:B yes: begin noted noted

case answers_name_their_graphs.10 limit 8
rule A = i:B
rule A = i:B
rule B =
ask 4 A
expect 0
A yes 2
graph
i:A yes: begin noted yes noted noted yes noted
 i:B yes: begin noted noted
 i:B yes: begin noted noted

case answers_name_their_graphs.11 limit 8
rule A = i:Q
rule A = c:Q i:Q
ask 4 A
expect 0
A no 2
graph
i:A no: begin noted no noted noted no no noted
 i:Q no: begin
 c:Q no: begin
 i:Q no: begin

case answers_name_their_graphs.12 limit 8
rule A = i:B c:C
rule B = u:D
rule C = f:D
rule D =
ask 2 A
expect 0
A yes 4
graph
i:A yes: begin noted yes yes noted
 i:B yes: begin noted yes noted
  u:D yes: begin noted noted
 c:C yes: begin noted yes noted
  f:D yes: begin noted noted

case answers_name_their_graphs.13 limit 8
rule A = i:B
rule B =
ask 0 A
expect 0
A maybe 1 limit
graph
i:A maybe

case answers_name_their_graphs.14 limit 8
rule A = i:B
rule A =
rule B =
ask 0 A
expect 0
A yes 1 limit
graph
i:A yes: begin noted overflow noted noted noted

case answers_name_their_graphs.15 limit 8
rule A = i:B i:Q
rule B = i:C
rule C =
ask 1 A
expect 0
A no 3 limit
graph
i:A no: begin noted maybe no noted
 i:Q no: begin

case answers_name_their_graphs.16 limit 8
rule A = c:A
ask 4 A
expect 0
A yes 1
graph
i:A yes: begin noted yes noted
 c:A yes: 1 up

case answers_name_their_graphs.17 limit 8
rule A = i:A
ask 4 A
expect 0
A no 1
graph
i:A no: begin noted no noted
 i:A no: 1 up

case answers_name_their_graphs.18 limit 8
rule A = i:B
rule B = c:A
ask 4 A
expect 0
A yes 2
graph
i:A yes: begin noted yes noted
 i:B yes: begin noted yes noted
  c:A yes: 2 up

case answers_name_their_graphs.19 limit 8
rule A = i:A
ask 4 A
ask 4 A
expect 0
A no 1
A no 0
graph
i:A no: begin noted no noted
 i:A no: 1 up

case answers_name_their_graphs.20 limit 8
rule A = i:A
rule A = c:A
ask 4 A
expect 0
A yes 2
graph
i:A yes: begin noted no noted noted yes noted
 c:A yes: 1 up

case answers_name_their_graphs.21 limit 8
rule A = f:B
rule B = c:A
ask 4 A
expect 0
A maybe 2
graph
i:A maybe

case answers_name_their_graphs.22 limit 8
rule A = c:B c:B
rule B = c:A
ask 4 A
expect 0
A yes 2
graph
i:A yes: begin noted yes yes noted
 c:B yes: begin noted yes noted
  c:A yes: 2 up
 c:B yes: begin noted yes noted
  c:A yes: 2 up

case answers_name_their_graphs.23 limit 8
rule A = c:B c:D
rule B = c:D
rule D = c:B c:A
ask 4 A
expect 0
A yes 3
graph
i:A yes: begin noted yes yes noted
 c:B yes: begin noted yes noted
  c:D yes: begin noted yes yes noted
   c:B yes: 2 up
   c:A yes: 3 up
 c:D yes: begin noted yes yes noted
  c:B yes: begin noted yes noted
   c:D yes: 2 up
  c:A yes: 2 up

case answers_name_their_graphs.24 limit 8
rule A = c:P
rule P = c:A
rule P = f:P
ask 4 A
expect 0
A yes 3
graph
i:A yes: begin noted yes noted
 c:P yes: begin noted yes noted noted maybe noted
  c:A yes: 2 up

case answers_name_their_graphs.25 limit 8
rule ~A = i:A
rule A =
ask 4 A
expect 0
A yes 1
graph
i:A yes: begin noted no noted noted noted noted

case answers_name_their_graphs.26 limit 8
rule A = i:B
rule ~B = i:A
rule B =
ask 4 A
expect 0
A yes 2
graph
i:A yes: begin noted yes noted
 i:B yes: begin noted no noted noted noted noted

case p0.1 limit 0
rule A = i:B
rule A = i:B i:A c:B
rule B = i:C i:C c:A
rule C = c:D i:D i:A
rule D = i:E
rule E = c:E i:B
rule E =
ask 7 C
expect 0
C overflow 9 limit

case p0.2 limit 0
rule C = c:F i:A f:F
rule B = i:F f:C i:F
rule E = i:A i:B i:E
rule A = c:D
rule C = c:F f:C
rule E = i:E c:A
rule C = u:E
rule B = i:B c:C i:E
rule A = i:F
rule D = u:F i:F c:B
rule E = i:F i:E c:E
rule F = i:E f:A c:A
ask 7 A
ask 6 E
expect 0
A maybe 19 limit
E overflow 39 limit

case p0.3 limit 0
rule B = c:A i:B c:A
rule A =
rule A = i:B i:B
rule ~B = i:A i:B
rule A =
rule B = c:A
rule C = i:B c:A
rule D = i:C
rule E = i:B
rule E = i:A
rule B = i:E
ask 2 A
ask 1 E
ask 2 D
ask 5 E
expect 0
A yes 4 limit
E yes 2 limit
D maybe 2
E maybe 4 limit

case p0.4 limit 0
rule A = c:A f:B i:A
rule ~B = i:B c:B i:B
rule A = i:B c:B c:B c:B
rule ~A = c:A i:B c:B
rule B = c:A c:B i:B
ask 4 A
ask 4 B
ask 4 A
ask 4 B
ask 3 A
ask 3 B
ask 2 A
ask 2 B
expect 0
A maybe 4 limit
B overflow 2 limit
A maybe 0
B overflow 0
A maybe 0
B overflow 0
A maybe 0
B overflow 0

case p0.5 limit 0
rule ~A = c:A f:C
rule ~A = u:A i:C u:B
rule B = c:A c:A i:A
rule ~A = f:C u:C u:A
rule C = f:A u:B
rule ~B = f:B c:C i:B
rule B = c:A
rule B = u:A u:B
rule A =
rule B =
rule C =
ask 6 C
ask 4 A
ask 3 A
ask 5 B
ask 3 A
expect 0
C yes 7 limit
A yes 6 limit
A yes 0
B overflow 14 limit
A yes 0

case p0.6 limit 0
rule ~D = c:B
rule ~D = c:A
rule C = i:A c:B
rule ~D =
rule ~A = c:C
rule ~A = i:B c:C
rule D =
rule A = c:B i:C
rule ~B = i:A
rule B =
rule ~B = c:B i:A i:B
rule A =
rule B =
rule D =
ask 7 A
ask 6 D
ask 4 C
ask 6 C
expect 0
A overflow 5 limit
D yes 5 limit
C overflow 4 limit
C overflow 0

case o0.1 limit 0 provisional off
rule A = i:A
rule A = c:C
rule A = u:B
rule B = c:A u:A i:B
rule C = u:C f:C f:B
ask 5 C
ask 5 A
ask 5 B
expect 0
C maybe 4 limit
A maybe 4 limit
B overflow 5 limit

case o0.2 limit 0 provisional off
rule A = c:A c:C
rule A = c:E
rule B = c:F c:A c:E
rule C = c:D c:B c:E
rule D = c:F i:F i:C
rule E = c:E
rule F = i:F
rule F = c:D c:F
rule F = c:A
ask 6 C
ask 6 C
expect 0
C maybe 12 limit
C maybe 0

case o0.3 limit 0 provisional off
rule A = u:A c:B c:B
rule A =
rule B = c:C i:C
rule C = i:D c:D
rule C = c:D i:D c:A
rule D = i:B c:D
rule D = i:D c:D
ask 5 C
ask 3 C
ask 5 A
ask 5 B
expect 0
C maybe 12 limit
C maybe 0
A overflow 23 limit
B maybe 13 limit

case o0.4 limit 0 provisional off
rule A = u:E
rule A = i:E i:A i:A
rule B = u:D i:E i:D
rule C = i:C i:E
rule C = i:B i:A i:B
rule D = i:C i:E
rule E = u:E c:B
rule E = i:B
ask 7 D
ask 5 C
ask 5 A
ask 7 E
expect 0
D maybe 19 limit
C maybe 35 limit
A maybe 23 limit
E maybe 15 limit

case o0.5 limit 0 provisional off
rule A = i:C c:B
rule C = i:B i:C
rule C = i:A f:A c:C c:C
rule B = i:B i:A u:C
rule B = f:C c:B f:C
rule B = u:B c:C f:B c:C
rule C = c:A i:C
ask 3 A
ask 3 C
ask 3 B
ask 0 A
ask 0 B
ask 0 C
expect 0
A maybe 9 limit
C maybe 9 limit
B maybe 23 limit
A maybe 1 limit
B maybe 1 limit
C maybe 1 limit

case o0.6 limit 0 provisional off
rule A = i:C i:E
rule A = c:A
rule ~B =
rule ~B = i:C i:B i:B
rule ~C =
rule C = c:B i:E c:B
rule C = i:D c:A c:D
rule ~C = i:A c:A c:B
rule ~D =
rule D = c:D c:B c:D
rule ~D = i:D
rule ~E =
rule E = i:C c:E c:B
rule ~E = c:D i:E c:E
rule A =
ask 3 E
ask 3 E
ask 8 A
expect 0
E overflow 8 limit
E overflow 0
A overflow 29 limit

case entries_may_take_a_head_to_a_third_run.1 limit 2
# In its first run P asks W twice. On the inductive path W is yes and rests on P. On the coinductive one it finds the
# entry that A has from below R, is no, and does not rest on P, so its entry stays. In its second run P finds that
# entry, and goes from yes to no although its provisional result was yes. Only the third run is stable.
rule R = c:M i:S
rule M = i:A
rule A = i:M
rule A = c:P
rule Z = c:S
rule S = i:P i:R
rule P = i:W
rule P = c:W i:P
rule W = c:W i:Z i:A
ask 7 R
expect 0
R no 130 limit

case entries_may_take_a_head_to_a_third_run.2 limit 3
rule R = c:M i:S
rule M = i:A
rule A = i:M
rule A = c:P
rule Z = c:S
rule S = i:P i:R
rule P = i:W
rule P = c:W i:P
rule W = c:W i:Z i:A
ask 7 R
expect 0
R no 134

case entries_may_take_a_head_to_a_third_run.3 limit 8
rule R = c:M i:S
rule M = i:A
rule A = i:M
rule A = c:P
rule Z = c:S
rule S = i:P i:R
rule P = i:W
rule P = c:W i:P
rule W = c:W i:Z i:A
ask 7 R
expect 0
R no 134

case entries_may_take_a_head_to_a_third_run.4 limit 8 provisional off
rule R = c:M i:S
rule M = i:A
rule A = i:M
rule A = c:P
rule Z = c:S
rule S = i:P i:R
rule P = i:W
rule P = c:W i:P
rule W = c:W i:Z i:A
ask 7 R
expect 0
R no 229

case p1.1 limit 1
rule B = c:A
rule ~A = i:A i:B
rule ~A =
rule B =
rule A = c:A c:B c:B
rule B = u:B
ask 5 B
ask 4 A
expect 0
B overflow 2 limit
A overflow 3 limit

case p1.2 limit 1
rule A = c:B i:B
rule B = f:C
rule C = u:D u:B c:D
rule C =
rule ~D = c:B c:E
rule D = c:E i:E
rule D =
rule E = c:D c:F
rule F = f:F i:F
rule F = c:F c:B i:F
ask 6 A
expect 0
A maybe 7 limit

case p1.3 limit 1
rule A = i:B c:A i:B
rule A = i:A c:A
rule ~A = c:B c:A i:B
rule ~B = c:A
rule ~B = i:A
ask 5 A
ask 5 B
ask 3 B
ask 3 A
expect 0
A overflow 3 limit
B maybe 3 limit
B maybe 0
A overflow 0

case p1.4 limit 1
rule C = c:E
rule A = i:E
rule B = c:C
rule D = c:B i:E
rule B = c:C c:B c:B
rule E = c:C c:B c:D
rule D = i:D i:D c:B
rule C =
rule A =
rule E = c:C c:A c:E
rule A = c:E
rule C = c:C c:A
rule D = c:D
ask 7 C
expect 0
C yes 5 limit

case p1.5 limit 1
rule A = c:B
rule B = c:A
rule B = c:A i:A c:B
rule B = f:B c:B
ask 3 A
ask 3 B
ask 4 A
ask 4 B
ask 4 A
ask 4 B
expect 0
A maybe 2 limit
B overflow 3 limit
A maybe 0
B overflow 0
A maybe 0
B overflow 0

case p1.6 limit 1
rule A = i:B i:B c:B
rule A = i:B u:B c:B
rule B = i:B c:C
rule B = c:C
rule ~C = i:D u:D u:D
rule C = i:D i:D
rule D = u:A i:B i:B
rule E =
rule E = i:F c:F i:F
rule E = c:F
rule F = i:F i:D
rule F = u:F
ask 3 A
ask 0 C
ask 4 F
ask 5 D
ask 2 A
ask 1 A
ask 6 A
expect 0
A maybe 6 limit
C maybe 0
F maybe 4
D maybe 6 limit
A maybe 0
A maybe 1
A maybe 6 limit

case o1.1 limit 1 provisional off
rule A = c:A i:A c:A i:B
rule B = c:A u:A
ask 5 A
ask 5 B
expect 0
A overflow 2 limit
B maybe 3 limit

case o1.2 limit 1 provisional off
rule A = u:B c:A
rule ~A = c:A i:B i:B
rule B = c:C c:A u:C
rule C = c:D
rule C = c:D
rule D = c:E i:E
rule D = u:E c:E
rule E = c:F
rule F = i:F c:F
rule F = c:F i:F c:F
rule F =
ask 4 B
ask 7 A
ask 6 B
expect 0
B maybe 9 limit
A maybe 8 limit
B maybe 2

case o1.3 limit 1 provisional off
rule A = i:A u:B f:E
rule A = c:D i:D
rule B = c:A
rule B = u:C f:F
rule B = c:F
rule C = i:E i:E f:C
rule C = c:C c:D
rule D = f:F f:E u:A
rule D = c:E
rule D = f:F f:D c:C
rule E = u:A c:C u:E
rule E = u:C f:C
rule F = u:E u:B
ask 6 F
ask 8 E
expect 0
F maybe 71 limit
E maybe 61 limit

case o1.4 limit 1 provisional off
rule A = f:B
rule ~A = i:B
rule A =
rule B = i:A f:C
rule C = c:D i:D
rule C = f:D f:D
rule D = f:E f:A
rule D =
rule E = i:F c:F
rule E = i:F i:A u:F
rule F = i:D u:G u:G
rule F = i:G f:G
rule F =
rule G = u:G
ask 9 A
ask 5 A
expect 0
A overflow 54 limit
A overflow 9 limit

case o1.5 limit 1 provisional off
rule A = c:B
rule A = i:B i:B
rule A = i:A c:A
rule B = u:A
rule B = u:A i:A i:B
rule B = i:A i:B
rule C = i:B u:B i:A
rule D = i:A c:B i:A
rule E = c:B i:B
rule E = i:B
rule F = i:B c:A i:A
rule G = i:E i:A
rule B = u:G
ask 8 G
ask 1 A
ask 5 D
ask 2 A
expect 0
G maybe 21 limit
A maybe 2 limit
D maybe 19 limit
A maybe 3 limit

case o1.6 limit 1 provisional off
rule A = i:B
rule B = i:C i:C
rule B = i:C i:C
rule B =
rule ~C = i:A i:D
rule C = i:D
rule D = c:D
rule D = c:A
ask 0 A
ask 1 A
ask 2 A
ask 3 A
ask 4 A
ask 5 C
ask 6 D
expect 0
A maybe 1 limit
A yes 2 limit
A yes 3 limit
A overflow 4 limit
A yes 14
C yes 9
D yes 7

case p2.1 limit 2
rule A = c:A i:B
rule B = i:C c:B
rule C = c:D i:D
rule C =
rule D = c:E i:A c:E
rule E = c:A i:F i:F
rule E = c:D c:F
rule F = i:G f:G
rule F = c:G f:A
rule G = i:F f:H
rule G = i:H i:H c:G
rule H = i:H c:G
rule H = i:H
ask 9 C
expect 0
C yes 92

case p2.2 limit 2
rule A = c:B f:B
rule A =
rule B = u:C u:A i:C
rule B = i:C i:C i:B
rule B =
rule C = c:D
rule D = c:E
rule D = i:A c:E c:E
rule ~E = c:E c:F i:F
rule E = i:F
rule F = c:G i:G
rule F = f:G f:G
rule G = c:H
rule H = i:H i:H i:E
ask 7 A
expect 0
A yes 22 limit

case p2.3 limit 2
rule E = c:E c:E
rule B = i:B
rule B = c:A c:C
rule D = f:E f:D i:D
rule C = i:E i:A i:E
rule C = f:D i:C
rule A = i:A
rule D = c:E c:E
rule E = i:E c:D f:C
rule C = c:A i:D f:E
rule E = i:A
ask 5 A
ask 6 E
ask 7 E
ask 7 E
expect 0
A no 1
E yes 11
E yes 0
E yes 0

case p2.4 limit 2
rule A = i:A
rule B = u:B c:B f:B
rule B = i:B
rule B =
rule C = u:A c:A u:A
rule D = u:C u:A u:E
rule E = f:B f:B
rule F = i:A
rule F = i:B
rule G = u:D i:C c:E
rule A = i:G
ask 9 A
ask 1 B
ask 7 D
ask 5 E
ask 9 A
expect 0
A maybe 8
B yes 0
D maybe 7
E yes 0
A maybe 0

case p2.5 limit 2
rule A = f:B
rule A = u:B i:B f:B
rule A = i:E
rule B = u:C
rule B = i:C
rule ~C = i:D i:B
rule D = u:E c:A i:E
rule E = u:E i:E i:D
ask 0 A
ask 1 A
ask 2 A
ask 3 A
ask 4 D
ask 5 D
ask 6 A
expect 0
A maybe 1 limit
A maybe 3 limit
A maybe 3 limit
A maybe 4 limit
D no 32
D no 0
A no 66

case p2.6 limit 2
rule F = f:B u:F u:A
rule A = f:A u:A
rule D =
rule E = c:A
rule E = f:E u:B f:F
rule E = u:D f:D
rule A = i:E i:F c:D
rule A = i:A
rule F = u:E f:D
rule F = c:C f:F u:A
rule C =
rule D = f:F c:F
rule B = u:D i:F c:D
ask 2 F
ask 0 D
ask 5 D
ask 0 F
ask 4 B
expect 0
F maybe 6 limit
D yes 0
D yes 60
F maybe 1 limit
B maybe 9

case o2.1 limit 2 provisional off
rule A = i:B c:F i:D
rule A = i:A
rule A = u:C
rule B = i:A i:F
rule C = c:E
rule D = c:C i:D i:F
rule D = u:C i:F
rule D = i:D
rule E = i:D i:B i:D
rule F = i:B i:B
rule F = c:E i:D
rule F = i:E i:B
ask 6 E
expect 0
E no 326

case o2.2 limit 2 provisional off
rule A = i:B
rule A = c:B c:B
rule A =
rule B = i:B u:C c:C
rule B = u:A c:C
rule C = i:D c:D
rule D = i:D c:D
rule D = c:D u:D
ask 6 C
ask 6 D
ask 6 B
ask 4 A
ask 3 D
expect 0
C maybe 2
D maybe 0
B maybe 2
A yes 8
D maybe 0

case o2.3 limit 2 provisional off
rule A = i:B i:A i:A
rule A = i:B
rule ~B = i:A
rule ~B = c:A
rule ~C = i:B i:B
rule A =
rule B =
rule C =
ask 6 A
ask 3 A
ask 5 A
ask 6 A
ask 4 B
ask 3 A
expect 0
A yes 6
A yes 0
A yes 0
A yes 0
B yes 5
A yes 0

case o2.4 limit 2 provisional off
rule A =
rule A = f:A u:C
rule B = c:B i:B u:B
rule B = u:A f:A u:B
rule C = c:B f:B
rule D = c:B u:C u:A
rule E = f:C i:B
rule F = c:B
rule F = i:D c:C
ask 6 C
ask 1 D
ask 2 A
ask 2 E
ask 6 D
ask 2 C
expect 0
C maybe 11
D maybe 4 limit
A yes 3
E maybe 1
D maybe 18
C maybe 2

case o2.5 limit 2 provisional off
rule A = i:B c:B
rule A =
rule A = i:B c:B
rule B = c:C
rule B = c:C c:C
rule B = c:C
rule ~C = c:D
rule D = i:E
rule ~E = i:F i:F
rule ~F = i:G f:G i:G
rule G = i:G c:B
ask 5 A
ask 6 B
ask 2 A
ask 1 D
ask 0 A
ask 4 E
ask 3 A
expect 0
A yes 10 limit
B no 90
A yes 2 limit
D maybe 2 limit
A yes 1 limit
E no 5 limit
A yes 2

case o2.6 limit 2 provisional off
rule A = i:F c:G
rule A =
rule A = i:C c:F
rule B = u:E
rule C =
rule C = i:D i:F
rule C = c:F
rule D = i:I c:H
rule E = c:G
rule E = i:K
rule F = u:G
rule G =
rule H = c:M
rule H =
rule I = u:L c:K
rule I =
rule J = i:M f:B c:M
rule K = c:M
rule K = u:M c:L
rule K = c:F
rule L =
rule M = c:J u:M f:M
rule M =
ask 18 A
ask 8 D
ask 8 A
expect 0
A yes 52
D yes 0
A yes 16 limit

case p3.1 limit 3
rule A = i:A c:C c:A
rule A = i:A c:C c:A
rule A = i:C
rule B = i:B c:A c:A
rule C = i:A
ask 3 B
ask 4 B
expect 0
B no 7
B no 0

case p3.2 limit 3
rule A = i:B
rule B = c:C c:C
rule C = c:D
rule C = c:D c:C i:D
rule D = c:E i:E
rule D = c:E c:E i:C
rule D =
rule E = i:F f:D c:F
rule E = c:C c:F
rule F = c:F f:F
rule F = c:F i:F
ask 5 E
ask 5 E
expect 0
E maybe 12
E maybe 0

case p3.3 limit 3
rule A = c:A
rule A = c:C
rule A = c:D u:C c:D
rule B = c:A c:C
rule B = c:C c:A
rule B = c:A
rule C = i:D c:A c:C
rule C = i:B c:B c:A
rule D = i:D c:C
rule D = c:A u:B
ask 5 A
ask 6 A
ask 4 C
expect 0
A yes 11
A yes 0
C yes 9

case p3.4 limit 3
rule A = i:B u:D i:A
rule ~A =
rule ~A =
rule A = c:A u:D
rule ~B = i:B
rule ~B = i:A i:C
rule B = f:A i:C
rule B = i:B f:C i:A
rule ~C = i:C c:C
rule C = i:B
rule ~C = i:B c:A c:D
rule C = i:B
rule D = i:B c:B
rule D = i:C i:B
rule A =
rule D =
ask 5 C
expect 0
C no 106

case p3.5 limit 3
rule A = c:B c:B
rule B = c:C
rule B =
rule C = i:A u:D
rule ~C = u:D c:A
rule C =
rule D = i:E
rule E = i:A c:F
rule F = i:G i:D i:G
rule G = u:D c:H f:H
rule G = i:H i:H
rule H = c:H i:H
rule H = c:H c:H
ask 7 B
ask 8 B
ask 8 F
expect 0
B yes 9
B yes 0
F yes 10

case p3.6 limit 3
rule A = i:B i:A
rule A =
rule B = i:A i:C
rule B = i:B i:C i:C
rule C = i:D i:D
rule C =
rule D = i:E i:E i:A
rule D =
rule E = i:F
rule F = i:F i:C
rule F = i:F i:A i:F
ask 5 F
ask 4 D
ask 8 F
ask 8 A
ask 8 A
expect 0
F no 15
D yes 13 limit
F no 0
A yes 21
A yes 0

case o3.1 limit 3 provisional off
rule A = c:B c:B c:B c:B
rule A = i:B c:B i:A
rule A = c:A c:B c:A c:B
rule B = c:A c:A c:A
rule B = i:A c:A
ask 0 B
ask 0 A
ask 5 B
ask 5 A
expect 0
B maybe 1 limit
A maybe 1 limit
B yes 22
A yes 18

case o3.2 limit 3 provisional off
rule ~A =
rule A = c:B u:A
rule ~A =
rule A = c:B
rule B = f:D c:B c:B
rule ~C = u:A i:B u:C
rule C = u:B u:D
rule ~C =
rule C = i:A i:C c:C
rule ~D = f:C i:B i:B
rule A =
ask 5 A
ask 4 B
expect 0
A yes 18
B maybe 12

case o3.3 limit 3 provisional off
rule A = c:A c:B
rule A = i:B i:B
rule B = i:C
rule B = c:C
rule C = c:A c:D c:D
rule C = c:D i:D
rule D = u:E c:E
rule D = u:E c:E u:A
rule E = c:F
rule F = u:G c:G
rule F =
rule G = i:D c:G c:G
ask 9 A
ask 9 E
expect 0
A yes 836
E yes 48

case o3.4 limit 3 provisional off
rule A = c:A c:B c:B
rule B = c:C
rule B = i:B c:C i:C
rule ~C = c:D i:D
rule D = i:E
rule D = i:C c:E
rule E = i:F i:F
rule E =
rule F = c:G i:G c:D
rule G = i:H c:D
rule G = i:H
rule H = i:H c:D
ask 6 C
ask 6 C
ask 8 G
expect 0
C yes 126
C yes 0
G no 102

case o3.5 limit 3 provisional off
rule A = c:A i:C c:C
rule A = c:C c:B i:B
rule A = i:C i:C i:B
rule B = c:A u:A i:A
rule B =
rule B = c:C
rule C = c:C c:B
rule D = i:C c:B
rule D = c:B i:A u:B
rule E = c:B c:A c:A
rule E = c:A u:F
rule F = c:E u:A u:C
rule ~G = c:E c:B
rule G = c:B c:F
rule H = i:B c:F c:G
ask 7 C
ask 9 C
ask 6 G
ask 7 C
expect 0
C yes 9
C yes 0
G yes 79
C yes 0

case o3.6 limit 3 provisional off
rule A = i:B c:B
rule B =
rule B = c:C
rule C = f:D
rule C =
rule C = i:D i:D
rule D = c:D f:D u:B
rule D = f:D
rule D = u:D i:D
ask 0 A
ask 3 B
ask 6 A
ask 4 A
ask 1 A
ask 2 C
ask 5 A
expect 0
A maybe 1 limit
B yes 10
A yes 1
A yes 0
A yes 2 limit
C yes 3 limit
A yes 0

case p8.1 limit 8
rule A = i:B u:A
rule ~A = c:B
rule A = i:B i:B
rule B = c:A u:B c:B
rule B =
ask 2 A
expect 0
A yes 10

case p8.2 limit 8
rule A = f:A c:B i:A
rule B = u:A i:A
rule B = i:A i:B
ask 2 B
ask 3 B
expect 0
B no 10
B no 0

case p8.3 limit 8
rule A = c:B c:B
rule A = f:B i:A c:A
rule B = i:B c:A
rule B = c:A c:B
ask 4 B
ask 2 A
expect 0
B yes 6
A yes 9

case p8.4 limit 8
rule A = c:B c:E
rule B = c:C c:D
rule C = c:D c:E
rule D = c:E c:B
rule E = c:A c:E
rule A = i:A
ask 8 C
expect 0
C yes 6

case p8.5 limit 8
rule A = c:B c:B
rule B = c:C c:B
rule C = c:D i:C
rule D = i:E c:A
rule ~D = i:A
rule E = i:A c:D
rule ~E = c:A
ask 7 B
expect 0
B no 12

case p8.6 limit 8
rule C = c:A i:C i:A
rule ~B = c:A c:A
rule B =
rule A = f:B
rule A = c:B c:B i:C
rule ~C =
rule B =
ask 3 C
expect 0
C yes 8

case o8.1 limit 8 provisional off
rule A = i:B i:B i:A
rule B = c:C i:C
rule C = i:C c:D
rule C = i:D
rule D = c:D i:C
ask 2 D
ask 3 B
expect 0
D no 4
B no 10

case o8.2 limit 8 provisional off
rule A =
rule A = c:A
rule B = i:B i:A i:A
rule A = c:A i:B
ask 2 A
ask 4 B
ask 3 B
expect 0
A yes 4
B no 3
B no 0

case o8.3 limit 8 provisional off
rule A = i:A i:B
rule A = i:B i:B
rule B = i:A i:C i:C
rule C = i:D i:D i:B
rule C = i:D i:B
rule D = i:D i:E
rule D = i:E i:C i:E
rule E = i:F i:F
rule E = i:F i:F
rule F = i:F i:A
rule F = i:F i:F
ask 8 B
expect 0
B no 172

case o8.4 limit 8 provisional off
rule A = c:C c:A
rule A = i:B c:C
rule A = c:B c:A
rule B = c:D
rule B = c:A
rule B = c:B
rule C = c:C
rule C = c:B c:D c:C
rule C = i:D i:C
rule D = c:A
rule D = c:A c:D
ask 5 C
ask 5 C
ask 5 C
ask 5 C
ask 5 C
ask 5 B
expect 0
C yes 40
C yes 0
C yes 0
C yes 0
C yes 0
B yes 25

case o8.5 limit 8 provisional off
rule A = i:B u:B c:B
rule B = i:A
rule B = c:A c:B c:A
rule C = c:A c:B c:B
rule C = c:A i:B
rule D = c:B c:A
rule E = i:D
ask 7 C
ask 6 C
ask 4 D
ask 5 D
ask 6 D
ask 7 C
ask 7 D
ask 6 A
ask 6 D
ask 5 D
ask 2 C
expect 0
C yes 17
C yes 0
D yes 1
D yes 0
D yes 0
C yes 0
D yes 0
A yes 0
D yes 0
D yes 0
C maybe 4 limit

case o8.6 limit 8 provisional off
rule ~A = c:A c:A
rule B = c:B i:B
rule ~B = c:A
rule ~B = c:B c:B c:C c:C
rule ~C = c:B c:B
rule ~C = i:B
ask 5 B
ask 5 C
ask 5 A
ask 0 B
ask 0 C
ask 0 A
ask 0 B
ask 0 A
ask 0 C
ask 3 A
ask 3 C
ask 3 B
expect 0
B yes 7
C yes 7
A yes 0
B maybe 1 limit
C maybe 1 limit
A maybe 1 limit
B maybe 0
A maybe 0
C maybe 0
A yes 0
C yes 0
B yes 0

scripts a_candidate_begins_while_one_is_open limit 8
enter enter
ask 4 A
expect 0
A fault 1 after 1 holding 0

scripts a_candidate_ends_that_is_not_open limit 8
enter finish finish
ask 4 A
expect 0
A fault 2 after 1 holding 0

scripts a_candidate_is_ignored_that_is_not_there limit 8
ignore
ask 4 A
expect 0
A fault 3 after 1 holding 0

scripts a_candidate_is_ignored_that_is_not_finished limit 8
enter ignore
ask 4 A
expect 0
A fault 3 after 1 holding 0

scripts a_candidate_is_ignored_twice limit 8
enter finish ignore ignore
ask 4 A
expect 0
A fault 4 after 1 holding 0

scripts a_goal_may_end_within_a_candidate limit 8
enter
ask 4 A
expect 0
A yes after 1 [A begin noted] stores A yes 0

scripts a_candidate_may_be_ignored_within_another limit 8
enter finish enter ignore finish
ask 4 A
expect 0
A yes after 1 [A begin noted noted noted noted noted] stores A yes 0

scripts a_goal_may_ask_itself_in_a_candidate_that_is_ignored.1 limit 8
enter c:A finish ignore
ask 4 A
expect 0
A yes after 1 [A begin noted yes noted noted] stores A yes 1

scripts a_goal_may_ask_itself_in_a_candidate_that_is_ignored.2 limit 8
enter i:A finish ignore
ask 4 A
expect 0
A yes after 1 [A begin noted no noted noted] stores A yes 1

scripts a_goal_may_ask_itself_in_a_candidate_that_counts.1 limit 8
enter c:A finish
ask 4 A
expect 0
A yes after 1 [A begin noted yes noted c:0] stores A yes 1

scripts a_goal_may_ask_itself_in_a_candidate_that_counts.2 limit 8
enter i:A finish
ask 4 A
expect 0
A yes after 2 [A begin noted no noted] stores A yes 1

scripts a_goal_that_is_done_before_a_fault_stays_stored limit 8
i:B i:C; ; finish
ask 4 A B
expect 0
A fault 2 after 3 holding 1 stores B yes 0
B yes after 0 [B begin] stores B yes 0

scripts another_goal_is_answered_after_a_fault limit 8
finish
ask 4 A B
expect 0
A fault 2 after 1 holding 0
B yes after 1 [B begin] stores B yes 0

scripts a_goal_that_asks_itself_is_a_yes_after_each_fault.1 limit 8
enter enter; c:B
ask 4 A B
expect 0
A fault 1 after 1 holding 0
B yes after 1 [B begin yes c:0] stores B yes 1

scripts a_goal_that_asks_itself_is_a_yes_after_each_fault.2 limit 8
finish; c:B
ask 4 A B
expect 0
A fault 2 after 1 holding 0
B yes after 1 [B begin yes c:0] stores B yes 1

scripts a_goal_that_asks_itself_is_a_yes_after_each_fault.3 limit 8
ignore; c:B
ask 4 A B
expect 0
A fault 3 after 1 holding 0
B yes after 1 [B begin yes c:0] stores B yes 1

scripts a_goal_that_asks_itself_is_a_yes_after_each_fault.4 limit 8
enter finish ignore ignore; c:B
ask 4 A B
expect 0
A fault 4 after 1 holding 0
B yes after 1 [B begin yes c:0] stores B yes 1

scripts a_goal_at_its_most_runs_and_a_refused_question_come_to_different_results limit 1
i:B i:C; i:B; i:B
ask 2 A
expect 0
A yes after 4 limit [A begin maybe yes i:1] [C begin yes i:2] [B begin overflow] stores B maybe 1

case a_chain_has_a_line_for_each_run_and_each_answer limit 8
rule A = i:B c:C
rule B =
rule C =
ask 4 A
expect 0
A yes 3
tree
A, run 1
  candidate 0
    i:B, run 1
      candidate 0
      = yes
    i:B = yes
    c:C, run 1
      candidate 0
      = yes
    c:C = yes
  = yes

case a_coinductive_cycle_is_answered_at_once limit 8
rule A = i:B
rule B = c:A
ask 4 A
expect 0
A yes 2
tree
A, run 1
  candidate 0
    i:B, run 1
      candidate 0
        c:A = yes
      = yes
    i:B = yes
  = yes

case an_inductive_cycle_fails limit 8
rule A = i:B
rule B = i:A
ask 4 A
expect 0
A no 2
tree
A, run 1
  candidate 0
    i:B, run 1
      candidate 0
        i:A = no
      = no
    i:B = no
  = no

case a_head_that_is_rerun_has_two_runs limit 8
rule A = i:B
rule A =
rule B = i:A
ask 4 A
expect 0
A yes 4
tree
A, run 1
  candidate 0
    i:B, run 1
      candidate 0
        i:A = no
      = no
    i:B = no
  candidate 1
  = yes
A, run 2
  candidate 0
    i:B, run 1
      candidate 0
        i:A = yes
      = yes
    i:B = yes
  candidate 1
  = yes

case an_ignored_candidate_is_told limit 8
rule ~A = c:A
rule A = i:B
rule B =
ask 4 A
expect 0
A yes 2
tree
A, run 1
  candidate 0
    c:A = yes
  candidate 1
    i:B, run 1
      candidate 0
      = yes
    i:B = yes
  candidate 0 is ignored
  = yes

case a_refused_question_has_no_run limit 8
rule A = i:B
rule B =
ask 0 A
expect 0
A maybe 1 limit
tree
A, run 1
  candidate 0
    i:B = overflow
  = maybe

case the_root_of_a_proof_tree_is_not_stored limit 8 asked tree
rule A = i:B
rule B = i:C
rule C =
ask 2 A
expect 0
A yes 3
stored
B yes from 1
C yes from 0

case a_builder_that_records_stores_nothing limit 8 asked recorded_tree recorded
rule A = i:B
rule B = i:C
rule C =
ask 2 A
ask 2 A
expect 0
A yes 3
A yes 3
stored

case a_builder_that_records_sees_what_is_stored limit 8 asked question question recorded recorded_tree tree
rule A = i:B
rule B = i:C
rule C =
ask 2 A
ask 2 A
ask 2 A
ask 2 A
ask 2 A
expect 0
A yes 3
A yes 0
A yes 3
A yes 3
A yes 1
stored
A yes from 2
B yes from 1
C yes from 0

case a_goal_that_is_asked_twice_starts_one_frame limit 1 provisional off
rule D = i:C i:C
rule C = i:B i:B
rule B = i:A i:A
rule A =
ask 3 D
expect 0
D yes 4

case a_builder_that_records_sees_each_goal_as_often_as_it_is_asked limit 1 provisional off asked recorded
rule D = i:C i:C
rule C = i:B i:B
rule B = i:A i:A
rule A =
ask 3 D
expect 0
D yes 15

case a_tree_has_each_goal_as_often_as_it_is_asked.1 limit 1 provisional off asked recorded_tree
rule D = i:C i:C
rule C = i:B i:B
rule B = i:A i:A
rule A =
ask 3 D
expect 0
D yes 15

case a_tree_has_each_goal_as_often_as_it_is_asked.2 limit 1 provisional off asked tree
rule D = i:C i:C
rule C = i:B i:B
rule B = i:A i:A
rule A =
ask 3 D
expect 0
D yes 4

case a_graph_without_goals_has_no_candidates limit 8
rule A = i:B
rule B = i:C
rule C =
ask 4 A
expect 0
A yes 3
idle
ignore nothing: done
ignore: request out of order: 5
enter: request out of order: 5
finish: request out of order: 5
ask: yes 3 with a node

case a_recorder_may_be_one_that_does_not_record limit 8
rule D = i:C
rule C = i:B
rule B = i:A
rule A =
ask 3 D
expect 0
D yes 4
unrecorded
4 frames 0 entries 0 lines

case a_level_past_the_last_is_told_by_its_number limit 8
rule A = i:B
rule B = i:C
rule C = i:D
rule D = i:E
rule E = i:F
rule F = i:G
rule G = i:H
rule H = i:I
rule I = i:J
rule J = i:K
rule K = u:L
ask 20 A
expect 0
A no 12
tree
A, run 1
  candidate 0
    i:B, run 1
      candidate 0
        i:C, run 1
          candidate 0
            i:D, run 1
              candidate 0
                i:E, run 1
                  candidate 0
                    i:F, run 1
                      candidate 0
                        i:G, run 1
                          candidate 0
                            i:H, run 1
                              candidate 0
                                i:I, run 1
                                  candidate 0
                                    i:J, run 1
                                      candidate 0
                                        i:K, run 1
                                        [21] candidate 0
                                        [22] u:L, run 1
                                        [23] = no
                                        [22] u:L = no
                                        [21] = no
                                        i:K = no
                                      = no
                                    i:J = no
                                  = no
                                i:I = no
                              = no
                            i:H = no
                          = no
                        i:G = no
                      = no
                    i:F = no
                  = no
                i:E = no
              = no
            i:D = no
          = no
        i:C = no
      = no
    i:B = no
  = no

chain a_long_chain_takes_no_native_stack limit 1 provisional off
1000 1000
expect 0
1000 yes 1001

chain a_long_chain_has_a_tree.1 limit 1 provisional off asked recorded_tree
1000 1000
expect 0
1000 yes 1001

chain a_long_chain_has_a_tree.2 limit 1 provisional off asked tree
1000 1000
expect 0
1000 yes 1001

chain a_long_chain_is_recorded_and_written limit 1 provisional off
1000 1000
expect 0
1000 yes 1001
recorded
1001 frames 5004 entries 4003 lines

chain a_chain_ends_where_its_depth_does limit 1 provisional off
100 99
expect 0
100 maybe 100 limit

switches up_to_four_switches_need_two_runs_more.1.1 1 limit 2
expect 0
R maybe 34 limit

switches up_to_four_switches_need_two_runs_more.1.2 1 limit 3
expect 0
R no 44

switches up_to_four_switches_need_two_runs_more.1.3 1 limit 32
expect 0
R no 44

switches up_to_four_switches_need_two_runs_more.1.4 1 limit 2 provisional off
expect 0
R no 56

switches up_to_four_switches_need_two_runs_more.2.1 2 limit 3
expect 0
R maybe 50 limit

switches up_to_four_switches_need_two_runs_more.2.2 2 limit 4
expect 0
R no 65

switches up_to_four_switches_need_two_runs_more.2.3 2 limit 32
expect 0
R no 65

switches up_to_four_switches_need_two_runs_more.2.4 2 limit 2 provisional off
expect 0
R no 70

switches up_to_four_switches_need_two_runs_more.3.1 3 limit 4
expect 0
R maybe 58 limit

switches up_to_four_switches_need_two_runs_more.3.2 3 limit 5
expect 0
R no 73

switches up_to_four_switches_need_two_runs_more.3.3 3 limit 32
expect 0
R no 73

switches up_to_four_switches_need_two_runs_more.3.4 3 limit 2 provisional off
expect 0
R no 70

switches up_to_four_switches_need_two_runs_more.4.1 4 limit 5
expect 0
R maybe 71 limit

switches up_to_four_switches_need_two_runs_more.4.2 4 limit 6
expect 0
R no 87

switches up_to_four_switches_need_two_runs_more.4.3 4 limit 32
expect 0
R no 87

switches up_to_four_switches_need_two_runs_more.4.4 4 limit 2 provisional off
expect 0
R no 86

switches up_to_eight_switches_need_two_runs_more.5.1 5 limit 6
expect 0
R maybe 80 limit

switches up_to_eight_switches_need_two_runs_more.5.2 5 limit 7
expect 0
R no 96

switches up_to_eight_switches_need_two_runs_more.5.3 5 limit 32
expect 0
R no 96

switches up_to_eight_switches_need_two_runs_more.5.4 5 limit 2 provisional off
expect 0
R no 86

switches up_to_eight_switches_need_two_runs_more.6.1 6 limit 7
expect 0
R maybe 94 limit

switches up_to_eight_switches_need_two_runs_more.6.2 6 limit 8
expect 0
R no 111

switches up_to_eight_switches_need_two_runs_more.6.3 6 limit 32
expect 0
R no 111

switches up_to_eight_switches_need_two_runs_more.6.4 6 limit 2 provisional off
expect 0
R no 102

switches up_to_eight_switches_need_two_runs_more.7.1 7 limit 8
expect 0
R maybe 104 limit

switches up_to_eight_switches_need_two_runs_more.7.2 7 limit 9
expect 0
R no 121

switches up_to_eight_switches_need_two_runs_more.7.3 7 limit 32
expect 0
R no 121

switches up_to_eight_switches_need_two_runs_more.7.4 7 limit 2 provisional off
expect 0
R no 102

switches up_to_eight_switches_need_two_runs_more.8.1 8 limit 9
expect 0
R maybe 119 limit

switches up_to_eight_switches_need_two_runs_more.8.2 8 limit 10
expect 0
R no 137

switches up_to_eight_switches_need_two_runs_more.8.3 8 limit 32
expect 0
R no 137

switches up_to_eight_switches_need_two_runs_more.8.4 8 limit 2 provisional off
expect 0
R no 118

switches sixteen_switches_need_eighteen_runs.16.1 16 limit 17
expect 0
R maybe 239 limit

switches sixteen_switches_need_eighteen_runs.16.2 16 limit 18
expect 0
R no 261

switches sixteen_switches_need_eighteen_runs.16.3 16 limit 32
expect 0
R no 261

switches sixteen_switches_need_eighteen_runs.16.4 16 limit 2 provisional off
expect 0
R no 182

pairs tables_of_alternatives_are_answered_with_graphs alternatives alternatives 41
expect 0
452 yes 20 no 328 neither 12 decided

pairs tables_whose_first_goal_has_alternatives_are_answered_with_graphs alternatives together 41
expect 0
192 yes 132 no 476 neither 12 decided

pairs tables_whose_second_goal_has_alternatives_are_answered_with_graphs together alternatives 41
expect 0
196 yes 168 no 436 neither 12 decided

pairs tables_of_pairs_are_answered_with_graphs together together 41
expect 0
40 yes 372 no 388 neither 12 decided

graph wrong_graphs_are_refused.1
rule A =
shown yes A
expect 0
nothing

graph wrong_graphs_are_refused.2
rule A =
shown no A
expect 0
a goal is not shown by its edges

graph wrong_graphs_are_refused.3
rule B =
rule A =
shown yes BA
expect 0
the root is of another goal

graph wrong_graphs_are_refused.4
rule A = c:A
shown yes A
expect 0
a goal is not shown by its edges

graph wrong_graphs_are_refused.5
rule A = c:A i:B
rule B =
shown yes A 0-c:A-0
expect 0
a goal is not shown by its edges

graph wrong_graphs_are_refused.6
rule A = i:A
rule A = c:B
shown no A 0-i:A-0
expect 0
a goal is not shown by its edges

graph wrong_graphs_are_refused.7
rule A = i:A
shown maybe A 0-i:A-0
expect 0
a goal is not shown by its edges

graph wrong_graphs_are_refused.8
rule A = i:B
rule B =
shown yes AB 0-i:B-1
expect 0
nothing

graph wrong_graphs_are_refused.9
rule A = i:B
rule B =
shown yes AA 0-i:B-1
expect 0
an edge leads to another goal

graph wrong_graphs_are_refused.10
rule A = i:B
rule B =
shown yes AB 0-i:B-2
expect 0
an edge leads to another goal

graph wrong_graphs_are_refused.11
rule A = i:A
shown yes A 0-i:A-0
expect 0
a closed walk is of the wrong kind

graph wrong_graphs_are_refused.12
rule A = i:A
shown no A 0-i:A-0
expect 0
nothing

graph wrong_graphs_are_refused.13
rule A = u:A
shown yes A 0-u:A-0
expect 0
a closed walk is of the wrong kind

graph wrong_graphs_are_refused.14
rule A = u:A
shown no A 0-u:A-0
expect 0
a closed walk is of the wrong kind

graph wrong_graphs_are_refused.15
rule A = c:A
shown yes A 0-c:A-0
expect 0
nothing

graph wrong_graphs_are_refused.16
rule A = c:A
shown no A 0-c:A-0
expect 0
a closed walk is of the wrong kind

graph wrong_graphs_are_refused.17
rule A = f:A
shown yes A 0-f:A-0
expect 0
a closed walk is of the wrong kind

graph wrong_graphs_are_refused.18
rule A = f:A
shown no A 0-f:A-0
expect 0
a closed walk is of the wrong kind

graph wrong_graphs_are_refused.19
rule A = i:B
rule B = c:A
shown yes AB 0-i:B-1 1-c:A-0
expect 0
nothing

graph wrong_graphs_are_refused.20
rule A = i:B
rule B = c:A
shown no AB 0-i:B-1 1-c:A-0
expect 0
a closed walk is of the wrong kind

graph wrong_graphs_are_refused.21
rule A = i:B
rule B = i:A
shown no AB 0-i:B-1 1-i:A-0
expect 0
nothing

graph wrong_graphs_are_refused.22
rule A = f:B
rule B = c:B
shown yes AB 0-f:B-1 1-c:B-1
expect 0
nothing

graph wrong_graphs_are_refused.23
rule A = c:B
rule B = f:A
shown yes AB 0-c:B-1 1-f:A-0
expect 0
a closed walk is of the wrong kind

graph wrong_graphs_are_refused.24
rule A = i:B
rule B = c:A u:A
shown yes AB 0-i:B-1 1-c:A-0 1-u:A-0
expect 0
a closed walk is of the wrong kind

drawn three_goals_with_cycles_of_one_kind_are_decided 400 3 one_kind all
expect 0
decided

drawn five_goals_with_cycles_of_one_kind_are_decided 300 5 one_kind all
expect 0
decided

drawn seven_goals_with_cycles_of_one_kind_are_decided 200 7 one_kind all
expect 0
decided

drawn ten_goals_with_cycles_of_one_kind_are_decided 100 10 one_kind all
expect 0
decided

drawn five_goals_as_lists_of_candidates_are_decided 100 5 one_kind lists
expect 0
decided

drawn four_goals_are_decided_without_provisional_entries 100 4 both_kinds all
expect 0
decided

drawn six_goals_are_decided_without_provisional_entries 50 6 both_kinds all
expect 0
decided

drawn four_goals_with_cycles_of_one_kind_are_decided_early 200 4 one_kind early
expect 0
decided

drawn eight_goals_with_cycles_of_one_kind_are_decided_early 100 8 one_kind early
expect 0
decided

drawn five_goals_are_decided_early_without_provisional_entries 50 5 both_kinds early
expect 0
decided

";
