//! Sessions: what they own and give back, what they refuse, and which thread has them.
mod cases;

use cases::Numbers;
use mirfodwel::{
    texts, Answer, Candidate, Cut, Error, Form, Goal, Graph, Outcome, PathKind, Question, Reply, Session, Table, Why,
};

const TEXT: &str = "rule A = i:B c:C\nrule B =\nrule C = c:A\nrule D = i:E\nrule E = i:D\nrule F = u:F\n";

fn session() -> Session {
    Session::open(Table::read(TEXT).unwrap()).unwrap()
}

fn outcome(session: &mut Session, name: &str) -> Outcome {
    let goal = session.table().goal(name).unwrap();
    session.ask(goal, 10).unwrap().outcome
}

#[test]
fn a_graph_says_why() {
    let mut session = session();
    let goal = session.table().goal("A").unwrap();
    let answer = session.ask(goal, 10).unwrap();
    let graph = session.graph(answer.node.unwrap()).unwrap();
    let root = graph.root().unwrap();
    let edges: Vec<_> = root.edges().map(|it| (it.kind, *it.target.goal(), it.target.outcome())).collect();
    let asked = |name| session.table().goal(name).unwrap();
    let wanted = [(PathKind::Inductive, asked("B"), Outcome::Yes), (PathKind::Coinductive, asked("C"), Outcome::Yes)];
    assert_eq!((answer.outcome, *root.goal(), edges.as_slice()), (Outcome::Yes, goal, &wanted[..]));
    let told: Vec<_> = root.replies().collect();
    assert_eq!(
        told,
        [Reply::Begin, Reply::Noted, Reply::Answer(Outcome::Yes), Reply::Answer(Outcome::Yes), Reply::Noted]
    );
    assert_eq!((graph.len(), graph.nodes().len(), graph.node(3).is_none()), (3, 3, true));
    assert_eq!(Graph::from_words(graph.words().to_vec()), Ok(graph));
    assert!(session.held_nodes().unwrap() >= 3);
}

#[test]
fn changed_graphs_are_refused() {
    let mut session = session();
    let goal = session.table().goal("A").unwrap();
    let answer = session.ask(goal, 10).unwrap();
    let graph = session.graph(answer.node.unwrap()).unwrap();
    let (mut none, mut refused) = (0, 0);
    for place in 0..graph.words().len() {
        for value in (0..7).chain([u64::from(u32::MAX), u64::MAX]) {
            let mut words = graph.words().to_vec();
            if std::mem::replace(&mut words[place], value) == value {
                continue;
            }
            match Graph::from_words(words) {
                Ok(changed) => {
                    assert!(!session.check(goal, Outcome::Yes, &changed).unwrap(), "{place} {value}");
                    refused += 1;
                }
                Err(error) => {
                    assert!(matches!(error, Error::BadGraph { .. }), "{error}");
                    none += 1;
                }
            }
        }
    }
    assert!(none > 0 && refused > 0);
    assert_eq!(session.check(goal, Outcome::Maybe, &graph), Ok(false));
    assert_eq!(session.check(goal, Outcome::Yes, &Graph::from_words(vec![]).unwrap()), Ok(false));
    assert_eq!(Graph::from_words(vec![0, 0, 5]), Err(Error::BadGraph { place: 2 }));
}

#[test]
fn what_is_not_there_is_an_error() {
    let mut session = session();
    let unknown = Goal(6);
    assert_eq!(session.ask(unknown, 3), Err(Error::UnknownGoal(unknown)));
    assert_eq!(session.explain(Form::Text, unknown, 3), Err(Error::UnknownGoal(unknown)));
    assert_eq!(session.cause(unknown, 3), Err(Error::UnknownGoal(unknown)));
    assert_eq!(session.table().goal("nobody"), None);
    assert_eq!((session.table().name(unknown), session.table().candidates(unknown)), (None, None));
    let node = session.ask(Goal(0), 3).unwrap().node.unwrap();
    let graph = session.graph(node).unwrap();
    assert_eq!(session.check(unknown, Outcome::Yes, &graph), Err(Error::UnknownGoal(unknown)));
    // A node of another session is none of this.
    assert_eq!(self::session().graph(node), Err(Error::UnknownNode));
    session.change(|_| ());
    assert_eq!(session.graph(node), Ok(graph));
    let table = session.reopen(Table::new());
    session.reopen(table);
    assert_eq!(session.graph(node), Err(Error::UnknownNode));
    let mut table = session.close();
    let asks = |goal| [Candidate::new([Question::inductive(goal)])];
    let before = table.clone();
    assert_eq!(table.set_candidates(Goal(0), &asks(unknown)), Err(Error::UnknownGoal(unknown)));
    assert_eq!(table.set_candidates(unknown, &asks(Goal(0))), Err(Error::UnknownGoal(unknown)));
    assert_eq!(table, before);
    assert_eq!(Table::read("rule A =\nrule\n").unwrap_err().to_string(), "line 2: bad line");
    // A goal that only questions name has no candidates.
    let asked = Table::read("ask 4 A\n").unwrap();
    assert!(asked.goal("A").is_none_or(|it| asked.candidates(it) == Some(vec![])));
    let error: Box<dyn std::error::Error> = Box::new(texts::check("{").unwrap_err());
    assert!(error.to_string().starts_with("byte "), "{error}");
}

#[test]
fn goals_become_known_in_rounds() {
    let mut table = Table::new();
    let goals: Vec<_> = (0..3).map(|_| table.add_goal().unwrap()).collect();
    table.set_candidates(goals[0], &[Candidate::new([Question::inductive(goals[2])])]).unwrap();
    let mut session = Session::open(table).unwrap();
    assert_eq!(session.wanted(), Ok(vec![]));
    assert_eq!(session.ask(goals[0], 3).unwrap().outcome, Outcome::Maybe);
    assert_eq!(session.wanted(), Ok(vec![goals[2]]));
    session.change(|table| table.set_candidates(goals[2], &[Candidate::new([])])).unwrap();
    assert_eq!(session.wanted(), Ok(vec![]));
    assert_eq!(session.ask(goals[0], 3).unwrap().outcome, Outcome::Yes);
    // Only an unmarked candidate takes away what is marked.
    let both = [Candidate::new([Question::coinductive(goals[0])]).marked(), Candidate::new([])];
    session.change(|table| table.set_candidates(goals[0], &both)).unwrap();
    let answer = session.ask(goals[0], 3).unwrap();
    assert_eq!(session.graph(answer.node.unwrap()).unwrap().root().unwrap().edges().count(), 0);
    assert_eq!(session.close().candidates(goals[0]), Some(both.to_vec()));
}

#[test]
fn a_session_tells_its_bytes() {
    let mut session = session();
    let begun = session.held_bytes().unwrap();
    assert_eq!(outcome(&mut session, "A"), Outcome::Yes);
    let small = session.held_bytes().unwrap();
    assert!(0 < begun && begun < small, "{begun} and {small} bytes");
    let rules: String = (0..2000).map(|it| format!("rule g{it} = c:g{}\n", it + 1)).collect();
    session.reopen(Table::read(&rules).unwrap());
    let emptied = session.held_bytes().unwrap();
    assert!(emptied <= small, "{emptied} bytes of nothing, and {small} before");
    let goal = session.table().goal("g0").unwrap();
    assert_eq!(session.ask(goal, 3000).unwrap().outcome, Outcome::No);
    // A node takes some hundred bytes.
    let (nodes, bytes) = (session.held_nodes().unwrap(), session.held_bytes().unwrap());
    assert!(64 * nodes < bytes && bytes < 1024 * nodes, "{bytes} bytes, {nodes} nodes");
}

#[test]
fn what_a_change_does_not_concern_stays() {
    let mut session = session();
    let goal = |session: &Session, name| session.table().goal(name).unwrap();
    let (a, b, d, e) = (goal(&session, "A"), goal(&session, "B"), goal(&session, "D"), goal(&session, "E"));
    let [of_a, of_d] = [a, d].map(|it| session.ask(it, 10).unwrap());
    let graphs = [of_a, of_d].map(|it| session.graph(it.node.unwrap()).unwrap());
    // Several changes are one: what comes in between does not count.
    session.change(|table| table.set_candidates(e, &[])).unwrap();
    session.change(|table| table.set_candidates(b, &[])).unwrap();
    session.change(|table| table.set_candidates(e, &[Candidate::new([Question::inductive(d)])])).unwrap();
    assert_eq!(session.graph(of_a.node.unwrap()), Err(Error::UnknownNode));
    assert_eq!(session.graph(of_d.node.unwrap()).as_ref(), Ok(&graphs[1]));
    assert_eq!(session.check(a, Outcome::Yes, &graphs[0]), Ok(false));
    assert_eq!(session.ask(d, 10).unwrap(), with_runs(of_d, 0));
    assert_eq!(session.ask(a, 10).unwrap().outcome, Outcome::No);
    // With the same rows, elsewhere, all stays.
    let held = session.held_nodes();
    session.change(|table| *table = table.clone());
    assert_eq!((session.held_nodes(), session.ask(a, 10).unwrap().runs), (held, 0));
    // Of another table nothing is known after all; nodes are no nodes of it.
    session.change(|table| table.set_candidates(b, &[Candidate::new([])])).unwrap();
    let changed = session.reopen(Table::read("rule X =").unwrap());
    assert_eq!(changed.candidates(b), Some(vec![Candidate::new([])]));
    assert_eq!(
        (session.graph(of_d.node.unwrap()), outcome(&mut session, "X")),
        (Err(Error::UnknownNode), Outcome::Yes)
    );
    session.change(|table| *table = changed);
    assert_eq!((outcome(&mut session, "A"), outcome(&mut session, "D")), (Outcome::Yes, Outcome::No));
}

/// The answer with so many runs.
fn with_runs(mut answer: Answer, runs: u64) -> Answer {
    answer.runs = runs;
    answer
}

#[test]
fn sessions_that_live_on_agree_with_new_ones() {
    let mut numbers = Numbers(7);
    let mut stayed = 0;
    for round in 0..60 {
        let goals = 1 + numbers.below(12);
        let mut table = Table::new();
        for _ in 0..goals {
            table.add_goal().unwrap();
        }
        let mut session = Session::open(table).unwrap();
        for _ in 0..30 {
            for _ in 0..numbers.below(4) {
                let goal = numbers.below(goals);
                let candidates: Vec<_> = (0..numbers.below(3)).map(|_| candidate(&mut numbers, goal, goals)).collect();
                session.change(|table| table.set_candidates(Goal(goal as u32), &candidates)).unwrap();
            }
            let mut anew = Session::open(session.table().clone()).unwrap();
            for _ in 0..4 {
                let (goal, depth) = (Goal(numbers.below(goals) as u32), numbers.below(14));
                let (came, other) = (session.ask(goal, depth).unwrap(), anew.ask(goal, depth).unwrap());
                stayed += u32::from(came.runs == 0);
                if let Some(node) = came.node {
                    let graph = session.graph(node).unwrap();
                    assert!(anew.check(goal, came.outcome, &graph).unwrap(), "{goal:?} in round {round}");
                    assert!(!other.outcome.is_definite() || other.outcome == came.outcome, "{goal:?} in round {round}");
                }
            }
        }
    }
    assert!(stayed > 500, "{stayed}");
}

/// A candidate by chance of such a goal, of so many, that asks it and later ones alone.
fn candidate(numbers: &mut Numbers, goal: usize, goals: usize) -> Candidate<Goal> {
    let questions = (0..numbers.below(3)).map(|_| Question {
        kind: [PathKind::Inductive, PathKind::Coinductive, PathKind::Unknown][numbers.below(3)],
        goal: Goal((goal + numbers.below(goals - goal)) as u32),
    });
    Candidate::new(questions.collect::<Vec<_>>())
}

#[test]
fn a_session_goes_over_to_another_table() {
    let mut session = session();
    let goal = session.table().goal("A").unwrap();
    let node = session.ask(goal, 10).unwrap().node.unwrap();
    for _ in 0..3 {
        let before = session.reopen(Table::read("rule X = i:X").unwrap());
        assert_eq!(before, Table::read(TEXT).unwrap());
        drop(before); // its rows are not read any more
        assert_eq!((session.graph(node), session.held_nodes()), (Err(Error::UnknownNode), Ok(0)));
        assert_eq!(outcome(&mut session, "X"), Outcome::No);
        assert_eq!(session.ask(Goal(1), 10), Err(Error::UnknownGoal(Goal(1))));
        session.reopen(Table::read(TEXT).unwrap());
        assert_eq!(session.ask(goal, 10).unwrap().runs, 3);
    }
    session.reopen(Table::new());
    assert!(session.close().is_empty());
}

#[test]
fn explanations_have_the_names_of_the_table() {
    let mut session = session();
    let texts_say = texts::explain(Form::Text, format!("{TEXT}ask 10 D\n")).unwrap();
    let goal = session.table().goal("D").unwrap();
    assert_eq!(session.explain(Form::Text, goal, 10).unwrap(), texts_say);
    let data = session.explain(Form::Data, goal, 10).unwrap();
    assert_eq!(texts::check(data.as_str()).unwrap().as_str(), format!("{} no accepted\n", goal.0));
    assert!(session.explain(Form::Graphviz, goal, 10).unwrap().as_str().starts_with("digraph"));
    // Without names goals are told by their numbers.
    let mut table = Table::new();
    let goal = table.add_goal().unwrap();
    table.set_candidates(goal, &[Candidate::new([])]).unwrap();
    let told = Session::open(table).unwrap().explain(Form::Text, goal, 1).unwrap();
    assert!(told.as_str().starts_with("0 holds"), "{told}");
}

#[test]
fn types_are_compared() {
    let lines = texts::subtypes("type A = base Int\ntype B = { x: A }\nask B < A\nask B < B\n").unwrap();
    assert_eq!(lines.iter().map(|it| &it[..9]).collect::<Vec<_>>(), ["B < A no:", "B < B yes"]);
    assert!(lines.are_all_well());
}

/// How many pages of memory the process has.
fn pages() -> Option<usize> {
    std::fs::read_to_string("/proc/self/statm").ok()?.split(' ').nth(1)?.parse().ok()
}

#[test]
fn dropping_gives_all_memory_back() {
    let text: String = (0..2000).map(|it| format!("rule g{it} = c:g{}\n", (it + 1) % 2000)).collect();
    let mut table = Table::read(&text).unwrap();
    let mut use_one = || {
        let mut session = Session::open(std::mem::take(&mut table)).unwrap();
        assert_eq!(session.ask(Goal(0), 2000).unwrap().outcome, Outcome::Yes);
        assert!(session.held_nodes().unwrap() >= 2000);
        let taken = session.table().clone();
        drop(session);
        table = taken;
    };
    (0..20).for_each(|_| use_one());
    let before = pages();
    (0..400).for_each(|_| use_one());
    // One that is not closed keeps half a megabyte at least.
    let grown = before.zip(pages()).map_or(0, |(before, after)| after.saturating_sub(before));
    assert!(grown < 8_000, "{grown} pages more");
}

#[test]
fn sessions_go_from_thread_to_thread() {
    let mut session = session();
    assert_eq!(outcome(&mut session, "A"), Outcome::Yes);
    let moved = std::thread::spawn(move || {
        assert_eq!(outcome(&mut session, "D"), Outcome::No);
        let stored = session.ask(Goal(0), 10).unwrap();
        (stored, session)
    });
    let (stored, mut session) = moved.join().unwrap();
    assert_eq!((stored.outcome, stored.runs), (Outcome::Yes, 0));
    assert!(session.graph(stored.node.unwrap()).is_ok());
    assert_eq!(outcome(&mut session, "F"), Outcome::Maybe);
}

#[test]
fn sessions_do_not_disturb_each_other() {
    let work = || {
        for _ in 0..200 {
            let mut session = session();
            let came = ["A", "D", "F"].map(|name| outcome(&mut session, name));
            assert_eq!(came, [Outcome::Yes, Outcome::No, Outcome::Maybe]);
            assert_eq!(texts::answers(format!("{TEXT}ask 9 A\n")).unwrap().as_str(), "A yes 3\n");
        }
    };
    std::thread::scope(|scope| (0..8).for_each(|_| drop(scope.spawn(work))));
}

#[test]
fn causes_are_told() {
    let mut session = session();
    let goal = |session: &Session, name| session.table().goal(name).unwrap();
    let (a, b, d, f) = (goal(&session, "A"), goal(&session, "B"), goal(&session, "D"), goal(&session, "F"));
    for (asked, outcome) in [(a, Outcome::Yes), (d, Outcome::No)] {
        let reason = session.cause(asked, 10).unwrap();
        assert_eq!((reason.outcome, reason.why, reason.cut), (outcome, None, None));
    }
    let cycle = session.cause(f, 10).unwrap();
    assert_eq!((cycle.outcome, cycle.why), (Outcome::Maybe, Some(Why::UnknownCycle)));
    assert_eq!(cycle.cut, Some(Cut { by: f, kind: PathKind::Unknown, asked: f }));
    let short = session.cause(a, 0).unwrap();
    assert!(short.limits_met);
    assert_eq!(short.why, Some(Why::NoDepth));
    assert_eq!(short.cut, Some(Cut { by: a, kind: PathKind::Inductive, asked: b }));
    assert_eq!(session.held_nodes(), Ok(0));

    // What is not known is a cause of its own, with or without depth.
    let open = session.change(|table| {
        let open = table.add_goal().unwrap();
        table.set_candidates(b, &[Candidate::new([Question::coinductive(open)])]).unwrap();
        open
    });
    for depth in [2, 10] {
        let reason = session.cause(a, depth).unwrap();
        assert_eq!((reason.why, reason.cut.map(|it| it.by)), (Some(Why::NotKnown), Some(open)));
    }
}
