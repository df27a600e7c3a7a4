//! What `src/ffi.rs` declares is what the header for C declares: nothing else would see that they differ.
use std::collections::BTreeMap;
use std::path::Path;

/// The types of the parameters of each function, and of the fields of each struct with their names; types as Rust has them.
type Declared = BTreeMap<String, Vec<String>>;

const TYPES: [(&str, &str); 13] = [
    ("mirfodwel_status", "Status"),
    ("mirfodwel_goal", "GoalRow"),
    ("mirfodwel_candidate", "CandidateRow"),
    ("mirfodwel_question", "QuestionRow"),
    ("mirfodwel_sizes", "Sizes"),
    ("mirfodwel_session", "RawSession"),
    ("mirfodwel_row_fault", "RowFault"),
    ("mirfodwel_answer", "RawAnswer"),
    ("mirfodwel_reason", "RawReason"),
    ("uint8_t", "u8"),
    ("uint32_t", "u32"),
    ("uint64_t", "u64"),
    ("size_t", "usize"),
];

fn file(path: &str) -> String {
    let path = Path::new(env!("CARGO_MANIFEST_DIR")).join(path);
    std::fs::read_to_string(&path).unwrap_or_else(|it| panic!("{}: {it}", path.display()))
}

fn in_rust(word: &str) -> String {
    let known = TYPES.iter().find(|it| it.0 == word).map_or(word, |it| it.1);
    known.replace("void", "c_void")
}

/// A parameter or a field of C, `const uint8_t *text`, as its name and its type in Rust.
fn of_c(declared: &str) -> (String, String) {
    let spaced = declared.replace('*', " * ");
    let words: Vec<_> = spaced.split_whitespace().collect();
    let (name, words) = words.split_last().unwrap();
    let of = match words {
        ["const", it, "*"] => format!("*const {}", in_rust(it)),
        [it, "*"] => format!("*mut {}", in_rust(it)),
        [it] => in_rust(it),
        _ => panic!("no type: {declared}"),
    };
    (name.to_string(), of)
}

fn without_comments(text: &str) -> String {
    let parts = text.split("/*").enumerate();
    parts.map(|(at, it)| if at == 0 { it } else { it.split_once("*/").unwrap().1 }).collect()
}

fn header() -> (Declared, Declared) {
    let (mut functions, mut structs) = (Declared::new(), Declared::new());
    let text = without_comments(&file("../c/mirfodwel.h"));
    for (at, _) in text.match_indices("mirfodwel_status mirfodwel_") {
        let (name, rest) = text[at..].split_once(' ').unwrap().1.split_once('(').unwrap();
        let parameters = rest.split_once(')').unwrap().0.split(',').map(|it| of_c(it).1);
        functions.insert(name.trim().to_string(), parameters.collect());
    }
    for body in text.split("typedef struct {").skip(1) {
        let (fields, rest) = body.split_once('}').unwrap();
        let fields = fields.split(';').filter(|it| !it.trim().is_empty());
        let fields = fields.flat_map(|it| {
            let (first, others) = it.split_once(',').unwrap_or((it, ""));
            let (name, of) = of_c(first);
            let names = others.split(',').map(|it| it.trim().to_string()).filter(|it| !it.is_empty());
            std::iter::once(name).chain(names).map(move |it| format!("{it}: {of}")).collect::<Vec<_>>()
        });
        structs.insert(in_rust(rest.split(';').next().unwrap().trim()), fields.collect());
    }
    (functions, structs)
}

fn declarations() -> (Declared, Declared) {
    let (mut functions, mut structs) = (Declared::new(), Declared::new());
    let text = file("src/ffi.rs").replace("pub(crate) ", "");
    let list = |it: &str| it.split(',').map(|it| it.trim().to_string()).filter(|it| !it.is_empty()).collect::<Vec<_>>();
    for it in text.split("    fn mirfodwel_").skip(1) {
        let (name, rest) = it.split_once('(').unwrap();
        let parameters = list(rest.split_once(") -> Status;").unwrap().0);
        let types = parameters.iter().map(|it| it.split_once(": ").unwrap().1.to_string());
        functions.insert(format!("mirfodwel_{name}"), types.collect());
    }
    for it in text.split("#[repr(C)]").skip(1) {
        let (name, rest) = it.split_once("struct ").unwrap().1.split_once(" {").unwrap();
        structs.insert(name.to_string(), list(rest.split_once('}').unwrap().0));
    }
    (functions, structs)
}

#[test]
fn declarations_are_those_of_the_header() {
    let (header, declared) = (header(), declarations());
    assert_eq!(header.0.keys().collect::<Vec<_>>(), declared.0.keys().collect::<Vec<_>>());
    assert_eq!(header, declared);
    assert!(header.0.len() > 12 && header.1.len() == 8);
}

#[test]
fn statuses_are_those_of_the_header() {
    let (header, text) = (file("../c/mirfodwel.h"), file("src/ffi.rs"));
    let names = ["DONE", "FAULT", "BAD_INPUT", "NO_MEMORY", "NO_ROOM", "UNKNOWN"];
    for name in names {
        let line = header.lines().find(|it| it.starts_with(&format!("#define MIRFODWEL_{name} "))).unwrap();
        let number = line.split_whitespace().nth(2).unwrap();
        assert!(text.contains(&format!("const {name}: Status = {number};")), "{line}");
    }
}
