//! A chain as steps that can be told or drawn.
use classreport::chain::{Chain, End, Line, LineEnd};

#[derive(Debug, Clone, Copy, PartialEq, Eq)]
pub enum What {
    Class,
    /// the native class
    Native,
    /// a script object whose path is not known
    Object,
    /// an object that it lies in
    Outer,
    /// where the chain breaks off
    Broken,
}

#[derive(Debug)]
pub struct Step {
    pub what: What,
    /// how one gets here: a reference, or nothing behind the native class
    pub reference: Option<String>,
    pub title: String,
    /// of a class: its package
    pub place: Option<String>,
}

/// The steps of a chain behind the row itself.
pub fn steps(chain: &Chain) -> Vec<Step> {
    let class = |class: &classreport::chain::Class| Step {
        what: What::Class,
        reference: Some(class.reference.clone()),
        title: class.path.clone(),
        place: Some(format!(
            "package {}, {}",
            class.package_number, class.package
        )),
    };
    let mut steps: Vec<Step> = chain.classes.iter().map(class).collect();
    let reference = Some(chain.last_reference.clone());
    match &chain.end {
        End::Script(line) => steps.extend(script(line, reference)),
        end => steps.push(broken(reference, reason(end, chain))),
    }
    steps
}

/// A number of things: a chain or a line that is cut off has as many as its limit.
fn counted(number: usize, one: &str, more: &str) -> String {
    let what = if number == 1 { one } else { more };
    format!("{number} {what}")
}

fn broken(reference: Option<String>, title: String) -> Step {
    Step {
        what: What::Broken,
        reference,
        title,
        place: None,
    }
}

/// A script object and the objects that it lies in.
fn script(line: &Line, reference: Option<String>) -> Vec<Step> {
    let end = match line.end {
        LineEnd::Null => None,
        LineEnd::Missing(index) => Some(format!("no script object has the index {index:#018x}")),
        LineEnd::Ring(place) => Some(format!(
            "the outers run in a ring: back to {}",
            line.names[place]
        )),
        LineEnd::TooDeep => {
            let most = counted(line.names.len(), "object", "objects");
            Some(format!("it lies more than {most} deep"))
        }
    };
    let mut steps = Vec::new();
    for (depth, name) in line.names.iter().enumerate() {
        let (what, title) = match (depth, line.path()) {
            (0, Some(path)) => (What::Native, path),
            (0, None) => (What::Object, name.clone()),
            _ => (What::Outer, name.clone()),
        };
        steps.push(Step {
            what,
            reference: reference.clone().filter(|_| depth == 0),
            title,
            place: None,
        });
    }
    let reference = reference.filter(|_| line.names.is_empty());
    steps.extend(end.map(|reason| broken(reference, reason)));
    steps
}

/// Why a chain that reaches no script object breaks off.
fn reason(end: &End, chain: &Chain) -> String {
    match end {
        End::NoClass {
            id, package: None, ..
        } => {
            format!("the package is missing: no package of the build has its id {id:#018x}")
        }
        End::NoClass {
            hash,
            package: Some(package),
            ..
        } => format!("package {package} has no class with the hash {hash:#018x}"),
        End::Ring(place) => {
            let class = &chain.classes[*place].path;
            format!("a ring: back to class {}, {class}", place + 1)
        }
        End::TooLong => {
            let most = counted(chain.classes.len(), "class", "classes");
            format!("the chain has more than {most}")
        }
        End::Null => "it has no class: the reference is null".to_owned(),
        End::Bad => "the reference is bad: it leads outside the package's lists".to_owned(),
        End::Script(_) => String::new(),
    }
}
