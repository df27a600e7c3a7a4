//! Which types are `Send` and `Sync`, as rustc works it out, over a small syntax tree; and why, from the graphs.
//!
//! A type has an auto trait where an impl says so, or else where all of its parts have it. Types may be recursive, so a list of
//! numbers is `Send` by a cycle: the steps are coinductive, and what rests on itself holds. Types may also grow without end.
use mirfodwel::{Answer, Candidate, Error, Node, Outcome, Question, Rules, Solver};
use std::fmt::{self, Write};

#[derive(Clone, PartialEq, Eq, Hash)]
pub enum Type {
    Number,
    /// A parameter of the declaration in which it stands, by its place.
    Parameter(usize),
    Reference(Box<Type>),
    Unique(Box<Type>),
    Pointer(Box<Type>),
    /// A declared type, with what its parameters stand for.
    Declared(&'static str, Vec<Type>),
}

use Type::{Declared, Number, Parameter, Pointer, Reference, Unique};

impl Type {
    /// The type where these stand for the parameters.
    fn with(&self, arguments: &[Type]) -> Type {
        match self {
            Number => Number,
            Parameter(place) => arguments[*place].clone(),
            Reference(to) => Reference(Box::new(to.with(arguments))),
            Unique(to) => Unique(Box::new(to.with(arguments))),
            Pointer(to) => Pointer(Box::new(to.with(arguments))),
            Declared(name, of) => Declared(name, of.iter().map(|it| it.with(arguments)).collect()),
        }
    }
}

impl fmt::Display for Type {
    fn fmt(&self, f: &mut fmt::Formatter<'_>) -> fmt::Result {
        match self {
            Number => f.write_str("i32"),
            Parameter(place) => write!(f, "T{place}"),
            Reference(to) => write!(f, "&{to}"),
            Unique(to) => write!(f, "&mut {to}"),
            Pointer(to) => write!(f, "*const {to}"),
            Declared(name, of) if of.is_empty() => f.write_str(name),
            Declared(name, of) => {
                let of: Vec<_> = of.iter().map(Type::to_string).collect();
                write!(f, "{name}<{}>", of.join(", "))
            }
        }
    }
}

#[derive(Clone, Copy, Debug, PartialEq, Eq, Hash)]
pub enum Trait {
    Send,
    Sync,
}

use Trait::{Send, Sync};

/// Whether the type has the trait.
#[derive(Clone, PartialEq, Eq, Hash)]
pub struct Has(Type, Trait);

impl fmt::Display for Has {
    fn fmt(&self, f: &mut fmt::Formatter<'_>) -> fmt::Result {
        write!(f, "{}: {:?}", self.0, self.1)
    }
}

/// An impl of an auto trait for all instances of a type: where the first parameter has all of these traits, or for none.
enum Impl {
    Where(Trait, &'static [Trait]),
    Never(Trait),
}

struct Declaration {
    name: &'static str,
    parts: Vec<Type>,
    impls: Vec<Impl>,
}

/// The declared types.
pub struct Program(Vec<Declaration>);

impl Program {
    fn holds_where(&self, Has(of, asked): &Has) -> Option<Vec<Has>> {
        let has = |part: &Type, bound: &Trait| Has(part.clone(), *bound);
        match of {
            Number => Some(vec![]),
            Parameter(_) | Pointer(_) => None,
            Reference(to) => Some(vec![has(to, &Sync)]),
            Unique(to) => Some(vec![has(to, asked)]),
            Declared(name, arguments) => {
                let declared = self.0.iter().find(|it| it.name == *name)?;
                for found in &declared.impls {
                    match found {
                        Impl::Where(bound, needed) if bound == asked => {
                            return Some(needed.iter().map(|it| has(&arguments[0], it)).collect());
                        }
                        Impl::Never(bound) if bound == asked => return None,
                        _ => {}
                    }
                }
                Some(declared.parts.iter().map(|it| has(&it.with(arguments), asked)).collect())
            }
        }
    }
}

impl Rules for Program {
    type Goal = Has;

    fn candidates(&self, goal: &Has) -> Vec<Candidate<Has>> {
        let parts = self.holds_where(goal);
        parts.map(|it| it.into_iter().map(Question::coinductive).collect()).into_iter().collect()
    }
}

fn of(name: &'static str, arguments: impl Into<Vec<Type>>) -> Type {
    Declared(name, arguments.into())
}

fn program() -> Program {
    let declared = |name, parts| Declaration { name, parts, impls: vec![] };
    let (t, u) = (Parameter(0), Parameter(1));
    let rest = of("Option", [of("Box", [of("List", [t.clone()])])]);
    let grown = of("Option", [of("Box", [of("Grows", [of("Option", [t.clone()])])])]);
    Program(vec![
        declared("PhantomData", vec![t.clone()]),
        declared("Option", vec![t.clone()]),
        declared("Box", vec![t.clone()]),
        declared("Pair", vec![t.clone(), u]),
        declared("List", vec![t.clone(), rest]),
        declared("Grows", vec![t.clone(), grown]),
        // The pointer alone would have neither trait.
        Declaration {
            impls: vec![Impl::Where(Send, &[Send, Sync]), Impl::Where(Sync, &[Send, Sync])],
            ..declared("Arc", vec![Pointer(Box::new(t.clone()))])
        },
        declared("Rc", vec![Pointer(Box::new(t.clone())), of("PhantomData", [t.clone()])]),
        Declaration { impls: vec![Impl::Never(Sync)], ..declared("Cell", vec![t]) },
    ])
}

/// Tells why the node's goal has its outcome: by all that it rests on where it holds, each goal once, and else by the first part
/// that stands in the way, as a type has one candidate at most.
fn tell(out: &mut String, node: Node<'_, Has>, depth: usize, told: &mut Vec<usize>) -> fmt::Result {
    let holds = node.outcome() == Outcome::Yes;
    let verb = if holds { "holds" } else { "does not hold" };
    write!(out, "{:1$}{2} {verb}", "", 2 * depth, node.goal())?;
    if told.contains(&node.place()) {
        return writeln!(out, ", as above");
    }
    told.push(node.place());
    let reasons: Vec<_> = node.edges().take(if holds { usize::MAX } else { 1 }).collect();
    writeln!(out, "{}", if holds || !reasons.is_empty() { "" } else { ": nothing says that it does" })?;
    reasons.iter().try_for_each(|edge| tell(out, edge.target, depth + 1, told))
}

/// Asks of each type whether it has the trait, and tells why.
pub fn report() -> Result<String, Error> {
    let list = |it| of("List", [it]);
    let rc = of("Rc", [Number]);
    let asked = [
        Has(list(Number), Send),
        Has(list(rc.clone()), Send),
        Has(Unique(Box::new(of("Cell", [Number]))), Send),
        Has(Reference(Box::new(of("Cell", [Number]))), Send),
        Has(of("Arc", [of("Pair", [list(Number), of("Cell", [Number])])]), Send),
        Has(of("Grows", [rc]), Send),
        Has(of("Grows", [Number]), Send),
    ];
    let mut solver = Solver::new(program());
    let mut out = String::new();
    for goal in asked {
        let Answer { outcome, limits_met, node, .. } = solver.ask(&goal, 128)?;
        let told = match node {
            Some(node) => {
                let graph = solver.graph(node)?;
                assert!(solver.check(&goal, outcome, &graph)?, "the checker accepts it");
                graph.root().map_or(Ok(()), |root| tell(&mut out, root, 0, &mut Vec::new()))
            }
            None if limits_met => writeln!(out, "{goal} is {outcome}: 128 nested goals were not enough"),
            None => writeln!(out, "{goal} is {outcome}"),
        };
        told.and_then(|()| writeln!(out)).expect("a string takes all");
    }
    Ok(out)
}

fn main() -> Result<(), Error> {
    print!("{}", report()?);
    Ok(())
}
