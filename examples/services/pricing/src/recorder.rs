//! The steps of a service, each recorded by a line of its log (docs/AUDITING.md).

use std::fmt;
use std::fs::{File, OpenOptions};
use std::io::{self, Read, Write};
use std::os::unix::fs::OpenOptionsExt;
use std::sync::atomic::{AtomicU64, Ordering};
use std::sync::Mutex;
use terncommode::{Bag, Context, Error, Writes};

/// The header that names the step whose context a message carries: `NAME:CHECK`, so that a name which was cut or changed names no step.
pub const STEP: &str = "Terncommode-Step";

/// A context, and the name of the step that made it, where it is recorded.
pub struct Step {
    pub name: Option<String>,
    pub context: Context,
}

impl Step {
    /// What a message says of the step whose context it carries.
    pub fn named(&self) -> Option<String> {
        self.name.as_ref().map(|name| with_check(name))
    }

    fn as_parent(&self) -> &str {
        self.name.as_deref().unwrap_or("-")
    }
}

/// What a service does with contexts, each step recorded by one write to a file that only grows.
pub struct Recorder {
    instance: String,
    bag: Bag,
    log: Mutex<Option<File>>,
    random: File,
    count: AtomicU64,
}

impl Recorder {
    /// Eight letters that nobody can foretell follow the service's name, so no stranger names a step to come. The log is for its owner alone: it
    /// has contexts whole.
    pub fn new(service: &str, bag: Bag) -> io::Result<Recorder> {
        let random = File::open("/dev/urandom")?;
        let instance = format!("{service}-{}", drawn(&random, 4)?);
        let open = |folder| OpenOptions::new().append(true).create(true).mode(0o600).open(format!("{folder}/{instance}.log"));
        let log = match std::env::var("RECORDING").ok().map(open).transpose() {
            Ok(log) => log,
            Err(error) => {
                tell(format_args!("{instance}: nothing is recorded: {error}"));
                None
            }
        };
        Ok(Recorder { instance, bag, log: Mutex::new(log), random, count: AtomicU64::new(0) })
    }

    /// A message came with this context. Where it names no step, or hasn't one context that can be read, it is recorded as one from outside.
    pub fn receive(&self, context: Context, is_single: bool, sender: Option<&str>) -> Result<Step, Error> {
        let act = if sender.is_none() || !is_single || context == Context::lost() { "recv" } else { "forward" };
        Ok(self.record(act, sender.unwrap_or("-"), &digits(&context), self.update(&context, &Writes::new())?))
    }

    /// Writes a text to a field.
    pub fn set(&self, step: &Step, path: &str, text: &str) -> Result<Step, Error> {
        let context = self.update(&step.context, &Writes::new().set(path, text))?;
        Ok(self.record("set", step.as_parent(), &format!("{path} {text}"), context))
    }

    /// The writer of one visit's counts, which no two visits share.
    pub fn new_writer(&self) -> io::Result<String> {
        Ok(format!("0x{}", drawn(&self.random, 8)?))
    }

    /// What is sent over a channel with a budget: the step itself where it fits.
    pub fn cut(&self, step: Step, budget: u64) -> Step {
        if step.context.as_bytes().len() as u64 <= budget {
            return step;
        }
        self.record("trim", step.as_parent(), &budget.to_string(), step.context.cut(budget))
    }

    /// A step of the bag. What isn't typed as the table says stays as it is, as at a service that doesn't know the field, beside what is written
    /// here.
    fn update(&self, context: &Context, writes: &Writes) -> Result<Context, Error> {
        match self.bag.update([context], writes) {
            Err(Error::IllTyped { .. }) => Ok(Context::join([context, &self.bag.update([], writes)?])),
            updated => updated,
        }
    }

    fn record(&self, act: &str, parents: &str, rest: &str, context: Context) -> Step {
        let name = format!("{}.{}", self.instance, self.count.fetch_add(1, Ordering::Relaxed) + 1);
        let is_recorded = self.append(format!("{name}\t{act}\t{parents}\t{rest}\t{}\n", digits(&context)).as_bytes());
        Step { name: is_recorded.then_some(name), context }
    }

    /// Appends a line, and says whether it is recorded. One that can't be written whole is the last one: the service goes on without its log.
    fn append(&self, line: &[u8]) -> bool {
        let mut log = self.log.lock().unwrap_or_else(|poisoned| poisoned.into_inner());
        match log.as_mut().map(|file| file.write_all(line)) {
            Some(Ok(())) => return true,
            Some(Err(error)) => tell(format_args!("{}: the log can't be written, and nothing more is recorded: {error}", self.instance)),
            None => {}
        }
        *log = None;
        false
    }
}

/// Says something on standard error, or nothing where that can't be written; `eprintln!` would panic then.
pub fn tell(what: fmt::Arguments) {
    let _ = writeln!(io::stderr(), "{what}");
}

/// So many random bytes, in digits.
fn drawn(mut random: &File, size: usize) -> io::Result<String> {
    let mut bytes = vec![0; size];
    random.read_exact(&mut bytes)?;
    Ok(bytes.iter().map(|byte| format!("{byte:02x}")).collect())
}

/// A name with its check, which is FNV-1a of 32 bits.
fn with_check(name: &str) -> String {
    let sum = name.bytes().fold(2_166_136_261_u32, |sum, byte| (sum ^ u32::from(byte)).wrapping_mul(16_777_619));
    format!("{name}:{sum:08x}")
}

/// The step that a message names. A name that came twice, or was cut or changed on the way, names none.
pub fn sender_of<'a>(mut values: impl Iterator<Item = &'a [u8]>) -> Option<&'a str> {
    let (value, other) = (std::str::from_utf8(values.next()?).ok()?, values.next());
    let (name, _) = value.split_once(':')?;
    let fits = (1..64).contains(&name.len()) && name.chars().all(|letter| letter.is_ascii_alphanumeric() || "_.-".contains(letter));
    (other.is_none() && fits && with_check(name) == value).then_some(name)
}

fn digits(context: &Context) -> String {
    if context.is_empty() {
        return "-".into();
    }
    context.as_bytes().iter().map(|byte| format!("{byte:02x}")).collect()
}
