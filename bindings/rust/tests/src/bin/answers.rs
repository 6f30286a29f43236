//! `answers < QUESTIONS`: a line for each, made through the binding. See bindings/tests/README.md.

#![forbid(unsafe_code)]

use std::io::{self, BufRead, BufWriter, Write};
use terncommode::{extract, from_binary, from_header, quote, to_header, Bag, Budget, Context, Error, Form, Others, Writes};
use terncommode_tests::{bytes_of, digits_of};

fn bytes(digits: &str) -> Vec<u8> {
    bytes_of(digits).expect("a question has digits")
}

fn text(digits: &str) -> String {
    // A table that isn't UTF-8 can't be handed in here; none is asked for.
    String::from_utf8(bytes(digits)).expect("a question has UTF-8 where a text stands")
}

fn parsed(digits: &str) -> Result<Context, Error> {
    Context::from_bytes(&bytes(digits))
}

fn all_parsed(words: &[&str]) -> Result<Vec<Context>, Error> {
    words.iter().map(|word| parsed(word)).collect()
}

fn form(word: &str) -> Form {
    if word == "2" {
        Form::Two
    } else {
        Form::One
    }
}

fn budget(word: &str) -> u64 {
    if word == "-" {
        u64::MAX
    } else {
        word.parse().expect("a budget is a number")
    }
}

fn writes_of(lines: &str) -> Writes {
    lines.split_terminator('\n').fold(Writes::new(), |said, line| {
        let (path, text) = line.split_once(' ').unwrap_or((line, ""));
        said.set(path, text)
    })
}

fn of_table(words: &[&str]) -> Result<String, Error> {
    let bag = |table: &str| Bag::new(&text(table));
    let shown = |context: &Context| digits_of(context.as_bytes());
    match words {
        ["only", table, paths @ ..] => Ok(digits_of(bag(table)?.only(paths)?.table().as_bytes())),
        ["receive", table, received] => Ok(shown(&bag(table)?.receive(&bytes(received))?)),
        ["update", table, writes_form, within, writes, contexts @ ..] => {
            let bag = bag(table)?.with_form(form(writes_form));
            Ok(shown(&bag.update_within(&all_parsed(contexts)?, &writes_of(&text(writes)), budget(within))?))
        }
        ["set", table, path, write] => Ok(shown(&bag(table)?.update([], &Writes::new().set(&text(path), text(write)))?)),
        ["keep", table, bag_form, others, within, contexts @ ..] => {
            let bag = bag(table)?.with_form(form(bag_form));
            let others = if *others == "cut" { Others::Cut } else { Others::Unsaid };
            Ok(shown(&bag.keep(&Context::join(&all_parsed(contexts)?), others, budget(within))))
        }
        ["text", table, path, context] => {
            let bag = bag(table)?;
            let field = bag.text(&parsed(context)?, path)?;
            Ok(format!("{} {}", if field.exact { "exact" } else { "partial" }, field.value))
        }
        ["report", table, context] => {
            let bag = bag(table)?;
            Ok(digits_of(bag.report(&parsed(context)?, Form::One)?.as_bytes()))
        }
        _ => Ok("! Unknown".to_string()),
    }
}

fn answer(words: &[&str]) -> Result<String, Error> {
    let context = match words {
        ["parse", one] => parsed(one)?,
        ["bytes", in_form, one] => return Ok(digits_of(&parsed(one)?.to_bytes(form(in_form)))),
        ["join", contexts @ ..] => Context::join(&all_parsed(contexts)?),
        ["cut", in_form, within, one] => parsed(one)?.cut(Budget::new(form(in_form), budget(within))),
        ["to_header", one] => return Ok(to_header(&parsed(one)?)),
        ["from_header", value] => from_header(&bytes(value)),
        ["from_binary", value] => from_binary(&bytes(value)),
        ["extract", absent, values @ ..] => {
            let values: Vec<Vec<u8>> = values.iter().map(|value| bytes(value)).collect();
            extract(values.iter().map(Vec::as_slice), if *absent == "lost" { Context::lost() } else { Context::default() })
        }
        ["quote", string] => return Ok(digits_of(quote(&text(string)).as_bytes())),
        _ => return of_table(words),
    };
    Ok(digits_of(context.as_bytes()))
}

fn refusal(error: &Error) -> String {
    match error {
        Error::Fault { offset, code } => format!("! Fault {offset} {code}"),
        Error::BadWrite { line, .. } => format!("! BadWrite {line}"),
        Error::NoField { line, .. } => format!("! NoField {line}"),
        Error::IllTyped { input, offset } => format!("! IllTyped {input} {offset}"),
        Error::BadTable { line, code } => format!("! BadTable {line} {code}"),
        error => panic!("{error}"),
    }
}

fn main() -> io::Result<()> {
    let mut out = BufWriter::new(io::stdout().lock());
    for line in io::stdin().lock().lines() {
        let line = line?;
        let words: Vec<&str> = line.split(' ').collect();
        writeln!(out, "{}", answer(&words).unwrap_or_else(|error| refusal(&error)))?;
    }
    Ok(())
}
