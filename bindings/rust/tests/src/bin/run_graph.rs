//! `run_graph TABLE < GRAPH`: the report of a recorded graph, made through the binding. See bindings/tests/README.md.

#![forbid(unsafe_code)]

use std::collections::HashMap;
use std::io::{Read, Write};
use std::process::ExitCode;
use std::rc::Rc;
use std::{env, error, fs, io};
use terncommode::{Bag, Budget, Context, Error, Form, Writes};
use terncommode_tests::{bytes_of, digits_of};

const INPUT_MAX: usize = 16_777_216;
const DIGITS_MAX: usize = 2_097_152;
const STEPS_MAX: usize = 100_000;
const PARENTS_MAX: usize = 4_096;
const BUDGET_MAX: u64 = 4_294_967_295;

/// Why a line is refused: for what it says, or for the bytes that were received in it.
enum Refused {
    Line(&'static str),
    Bytes { offset: usize, code: &'static str },
}

use Refused::Line;

struct Service {
    form: Form,
    view: Bag,
}

struct Step {
    list: Context,
    at: Rc<Service>,
}

/// A step as its line says it.
enum Act<'l> {
    Start { service: &'l str },
    Recv { service: &'l str, digits: &'l str },
    Set { parent: usize, path: &'l str, text: &'l str },
    Branch { parent: usize },
    Forward { parent: usize, service: &'l str },
    Trim { parent: usize, budget: u64 },
    Join { parents: Vec<usize> },
}

struct Graph {
    whole: Bag,
    services: HashMap<String, Rc<Service>>,
    steps: Vec<Step>,
    shown: Vec<usize>,
}

fn is_name(word: &str) -> bool {
    let is_letter = |byte: u8| byte.is_ascii_alphabetic() || byte == b'_';
    word.bytes().next().is_some_and(is_letter) && word.bytes().all(|byte| is_letter(byte) || byte.is_ascii_digit())
}

fn name(word: &str) -> Result<&str, Refused> {
    is_name(word).then_some(word).ok_or(Line("Form"))
}

fn is_path(word: &str) -> bool {
    word.split('.').all(is_name)
}

fn number(word: &str) -> Result<u64, Refused> {
    let is_number =
        !word.is_empty() && word.len() <= 10 && word.bytes().all(|byte| byte.is_ascii_digit()) && (word == "0" || !word.starts_with('0'));
    is_number.then(|| word.parse().ok()).flatten().ok_or(Line("Form"))
}

fn index(word: &str) -> Result<usize, Refused> {
    usize::try_from(number(word)?).map_err(|_| Line("Form"))
}

impl<'l> Act<'l> {
    /// The number that a line gives to its step, and the step.
    fn of(line: &'l str) -> Result<(usize, Act<'l>), Refused> {
        let words: Vec<&str> = line.split(' ').collect();
        let act = match words[..] {
            ["start", _, service] => Act::Start { service: name(service)? },
            ["recv", _, service, digits] if !digits.is_empty() => Act::Recv { service: name(service)?, digits },
            ["set", _, parent, path, ..] if is_path(path) => {
                let text = line.splitn(5, ' ').nth(4).filter(|text| !text.is_empty()).ok_or(Line("Form"))?;
                Act::Set { parent: index(parent)?, path, text }
            }
            ["branch", _, parent] => Act::Branch { parent: index(parent)? },
            ["forward", _, parent, service] => Act::Forward { parent: index(parent)?, service: name(service)? },
            ["trim", _, parent, budget] => Act::Trim { parent: index(parent)?, budget: number(budget)? },
            ["join", _, _, ..] => Act::Join { parents: words[2..].iter().map(|word| index(word)).collect::<Result<_, _>>()? },
            _ => return Err(Line("Form")),
        };
        Ok((index(words[1])?, act))
    }

    fn parents(&self) -> &[usize] {
        match self {
            Act::Start { .. } | Act::Recv { .. } => &[],
            Act::Set { parent, .. } | Act::Branch { parent } | Act::Forward { parent, .. } | Act::Trim { parent, .. } => {
                std::slice::from_ref(parent)
            }
            Act::Join { parents } => parents,
        }
    }
}

impl Graph {
    fn new(whole: Bag) -> Graph {
        Graph { whole, services: HashMap::new(), steps: Vec::new(), shown: Vec::new() }
    }

    fn add(&mut self, line: &[u8]) -> Result<(), Refused> {
        let line = std::str::from_utf8(line).map_err(|_| Line("Form"))?;
        let words: Vec<&str> = line.split(' ').collect();
        match words[..] {
            ["service", name, ref view @ ..] => self.add_service(Form::One, name, view),
            ["service2", name, ref view @ ..] => self.add_service(Form::Two, name, view),
            ["show", step] => self.add_show(index(step)?),
            _ => self.add_step(line),
        }
    }

    fn add_service(&mut self, form: Form, called: &str, view: &[&str]) -> Result<(), Refused> {
        name(called)?;
        let paths = match view {
            ["all"] => None,
            ["none"] => Some(&[][..]),
            ["only", paths @ ..] if !paths.is_empty() && paths.iter().all(|path| is_path(path)) => Some(paths),
            _ => return Err(Line("Form")),
        };
        if self.services.contains_key(called) {
            return Err(Line("DuplicateService"));
        }
        let view = paths.map_or_else(|| Ok(self.whole.clone()), |paths| self.whole.only(paths)).map_err(|_| Line("NoSuchPath"))?;
        self.services.insert(called.to_string(), Rc::new(Service { form, view: view.with_form(form) }));
        Ok(())
    }

    fn add_show(&mut self, step: usize) -> Result<(), Refused> {
        if step >= self.steps.len() {
            return Err(Line("NoSuchStep"));
        }
        self.shown.push(step);
        Ok(())
    }

    fn add_step(&mut self, line: &str) -> Result<(), Refused> {
        let (step, act) = Act::of(line)?;
        if step != self.steps.len() {
            return Err(Line("StepNumber"));
        }
        if act.parents().iter().any(|parent| *parent >= self.steps.len()) {
            return Err(Line("NoSuchStep"));
        }
        let at = self.service_of(&act)?;
        let made = self.before_limits(&act, &at)?;
        if self.steps.len() >= STEPS_MAX {
            return Err(Line("TooManySteps"));
        }
        if act.parents().len() > PARENTS_MAX {
            return Err(Line("TooManyParents"));
        }
        let list = match act {
            Act::Recv { digits, .. } => self.received(&at, digits)?,
            Act::Forward { .. } | Act::Join { .. } => {
                let inputs = act.parents().iter().map(|parent| &self.steps[*parent].list);
                at.view.update(inputs, &Writes::new()).expect("what was received is typed for each view")
            }
            _ => made,
        };
        self.steps.push(Step { list, at });
        Ok(())
    }

    /// Where a step stands: at a service that it names, or at that of its parents.
    fn service_of(&self, act: &Act) -> Result<Rc<Service>, Refused> {
        match act {
            Act::Start { service } | Act::Recv { service, .. } | Act::Forward { service, .. } => {
                self.services.get(*service).cloned().ok_or(Line("NoSuchService"))
            }
            _ => {
                let at = &self.steps[act.parents()[0]].at;
                let is_one = act.parents().iter().all(|parent| Rc::ptr_eq(&self.steps[*parent].at, at));
                is_one.then(|| at.clone()).ok_or(Line("WrongService"))
            }
        }
    }

    /// The list of a step whose faults come before those of limits.
    fn before_limits(&self, act: &Act, at: &Service) -> Result<Context, Refused> {
        match *act {
            Act::Set { parent, path, text } => self.written(at, parent, path, text),
            Act::Trim { parent, budget } => {
                let least = if at.form == Form::Two { 13 } else { 1 };
                if !(least..=BUDGET_MAX).contains(&budget) {
                    return Err(Line("BudgetRange"));
                }
                Ok(self.steps[parent].list.cut(Budget::new(at.form, budget)))
            }
            Act::Branch { parent } => Ok(self.steps[parent].list.clone()),
            _ => Ok(Context::default()),
        }
    }

    fn written(&self, at: &Service, parent: usize, path: &str, text: &str) -> Result<Context, Refused> {
        let write = Writes::new().set(path, text);
        at.view.update([&self.steps[parent].list], &write).map_err(|error| match error {
            Error::NoField { .. } => match self.whole.update([], &write) {
                Err(Error::NoField { .. }) => Line("NoSuchPath"),
                _ => Line("NotKnown"),
            },
            _ => Line("BadValue"),
        })
    }

    fn received(&self, at: &Service, digits: &str) -> Result<Context, Refused> {
        if digits.len() > DIGITS_MAX {
            return Err(Line("HexTooLong"));
        }
        let bytes = bytes_of(digits).ok_or(Line("BadHex"))?;
        match self.whole.receive(&bytes) {
            Err(Error::Fault { offset, code }) => Err(Refused::Bytes { offset, code: code.name() }),
            Err(Error::IllTyped { offset, .. }) => Err(Refused::Bytes { offset, code: "IllTyped" }),
            Err(error) => panic!("{error}"),
            Ok(_) => Ok(at.view.receive(&bytes).expect("what is typed for all fields is typed for each view")),
        }
    }

    fn report(&self) -> Result<String, Error> {
        let slots = self.whole.slots();
        let mut report = String::new();
        for step in &self.shown {
            let Step { list, at } = &self.steps[*step];
            let mut block = format!("bytes {}\n", digits_of(&list.to_bytes(at.form)));
            for slot in &slots {
                let field = self.whole.text(list, slot)?;
                let state = if field.exact { "exact" } else { "partial" };
                block.extend([slot, " ", state, " ", &field.value, "\n"]);
            }
            assert_eq!(block, self.whole.report(list, at.form)?, "the texts are those of the report");
            report.extend(["step ", &step.to_string(), "\n", &block]);
        }
        Ok(report)
    }
}

/// The graph of a text, or the line at which it is refused.
fn read(whole: Bag, source: &[u8]) -> Result<Graph, String> {
    if source.len() > INPUT_MAX {
        return Err("input line 0 TooLong".to_string());
    }
    let mut graph = Graph::new(whole);
    for (before, line) in source.split_inclusive(|byte| *byte == b'\n').enumerate() {
        let line = line.strip_suffix(b"\n").map_or(line, |line| line.strip_suffix(b"\r").unwrap_or(line));
        if line.is_empty() || line.starts_with(b"#") {
            continue;
        }
        graph.add(line).map_err(|refused| match refused {
            Line(code) => format!("input line {} {code}", before + 1),
            Refused::Bytes { offset, code } => format!("context line {} offset {offset} {code}", before + 1),
        })?;
    }
    Ok(graph)
}

fn main() -> Result<ExitCode, Box<dyn error::Error>> {
    let table = fs::read_to_string(env::args().nth(1).ok_or("usage: run_graph TABLE < GRAPH")?)?;
    let mut source = Vec::new();
    io::stdin().read_to_end(&mut source)?;
    match read(Bag::new(&table)?, &source) {
        Ok(graph) => {
            io::stdout().write_all(graph.report()?.as_bytes())?;
            Ok(ExitCode::SUCCESS)
        }
        Err(line) => {
            eprintln!("{line}");
            Ok(ExitCode::from(if line.starts_with("input") { 2 } else { 3 }))
        }
    }
}
