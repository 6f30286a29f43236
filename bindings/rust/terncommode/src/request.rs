//! The holder of a request's context, for all threads and tasks that work on the request.

use crate::bag::Bag;
use crate::context::Context;
use crate::error::{Error, NoRequest};
use crate::table::counter_of;
use crate::writes::Writes;
use std::cell::RefCell;
use std::collections::hash_map::RandomState;
use std::collections::BTreeMap;
use std::fmt;
use std::future::Future;
use std::hash::{BuildHasher, Hasher};
use std::pin::Pin;
use std::sync::{Arc, Mutex, MutexGuard, PoisonError};
use std::task;
use std::time::SystemTime;

/// Whether the reply to a request could still say what was added.
#[derive(Clone, Copy, Debug, PartialEq, Eq, Hash)]
#[must_use]
pub enum Told {
    /// It could.
    InTime,
    /// The head of the reply was written before. Later calls still carry what was added.
    Late,
}

/// What a request holds.
#[derive(Debug, Default)]
struct Held {
    said: Context,
    /// How often `said` was changed.
    changes: u64,
    /// Replies that have begun and not come, or never will.
    coming: usize,
    late: u64,
    is_ended: bool,
    /// The name of the writer of the counts, which is drawn with the first.
    writer: Option<[u8; 8]>,
    /// What was counted, for each counter: by the numbers on the way to it, since its name may be another one in another table.
    counted: BTreeMap<String, u64>,
}

impl Held {
    fn add(&mut self, more: &Context) -> Told {
        self.said |= more;
        self.changed()
    }

    /// Counts for the counter that a bag has alone.
    fn count(&mut self, alone: &Bag, path: &str, more: u64) -> Result<Told, Error> {
        let bad = || Error::BadWrite { line: 1, path: path.to_string() };
        let numbers = counter_of(alone.table(), path);
        let before = numbers.as_ref().and_then(|numbers| self.counted.get(numbers)).copied().unwrap_or_default();
        let total = before.checked_add(more).ok_or_else(bad)?;
        let writes = Writes::new().count(path, *self.writer.get_or_insert_with(drawn_writer), total);
        let written = alone.update([], &writes)?;
        let numbers = numbers.ok_or_else(bad)?; // a map may take the text as that of an entry
        self.said = alone.update([&self.said], &writes).unwrap_or_else(|_| &self.said | &written);
        self.counted.insert(numbers, total);
        Ok(self.changed())
    }

    fn changed(&mut self) -> Told {
        self.changes += 1;
        self.late += u64::from(self.is_ended);
        if self.is_ended {
            Told::Late
        } else {
            Told::InTime
        }
    }

    /// What is sent on: as long as a reply has begun and hasn't come, anything may be missing.
    fn sent(&self) -> Context {
        if self.coming > 0 {
            &self.said | &Context::lost()
        } else {
            self.said.clone()
        }
    }
}

type Shared = Arc<Mutex<Held>>;

/// What is held. No step of a caller runs under the lock, and what is held is put in its place by the last step of a call, so what a panic leaves is whole.
fn lock(held: &Shared) -> MutexGuard<'_, Held> {
    held.lock().unwrap_or_else(PoisonError::into_inner)
}

thread_local! {
    static HERE: RefCell<Option<Request>> = const { RefCell::new(None) };
}

/// The context of one visit of a service, shared by all that work on it. It only grows, so the order in which they add to it doesn't matter. A clone is the same
/// request; a [`branch`](Request::branch) is another one.
///
/// ```
/// use terncommode::{count, Bag, Context, Request};
///
/// # fn main() -> Result<(), terncommode::Error> {
/// let bag = Bag::new("baggage table 1\n0 2 hops counter\n")?;
/// let request = Request::new(Context::default());
/// let work = request.bound(|| count(&bag, "hops", 1));
/// std::thread::scope(|scope| scope.spawn(work).join().expect("it ends"))?;
/// let mut reply = request.expect(); // a call: what is sent is request.current()
/// reply.began(); // a byte of its reply came,
/// let _ = reply.came(&Context::default()); // and its head; a reply that began and never came is lost
/// let back = request.end(); // the head of our own reply is written
/// let hops = bag.text(&back, "hops")?;
/// assert!(hops.value.starts_with("1{") && hops.exact);
/// # Ok(())
/// # }
/// ```
#[derive(Clone)]
pub struct Request(Shared);

impl Request {
    /// A request that begins with what came in.
    #[must_use]
    pub fn new(begun: Context) -> Request {
        Request(Arc::new(Mutex::new(Held { said: begun, ..Held::default() })))
    }

    /// The request that runs in this thread or task, if there is one.
    #[must_use]
    pub fn here() -> Option<Request> {
        HERE.with(|here| here.borrow().clone())
    }

    /// Runs a call in this request.
    pub fn scope<T>(&self, call: impl FnOnce() -> T) -> T {
        let _before = Before(HERE.with(|here| here.replace(Some(self.clone()))));
        call()
    }

    /// A call that runs in this request, in whatever thread it is made.
    pub fn bound<T>(&self, call: impl FnOnce() -> T) -> impl FnOnce() -> T {
        let runs = self.clone();
        move || runs.scope(call)
    }

    /// A future that runs in this request whenever it is polled, in whatever thread.
    #[must_use]
    pub fn scoped<F: Future>(&self, future: F) -> Scoped<F> {
        Scoped { runs: self.clone(), future: Box::pin(future) }
    }

    /// What is held now, and is sent with each call. It is lost as long as a reply has begun and hasn't come.
    #[must_use]
    pub fn current(&self) -> Context {
        lock(&self.0).sent()
    }

    /// Joins a context to what is held.
    pub fn add(&self, more: &Context) -> Told {
        lock(&self.0).add(more)
    }

    /// Puts what a step makes of the context in its place. The step runs without the lock, so it may come back to the request; where others added meanwhile,
    /// what it made is joined to theirs. While a reply has begun and hasn't come the step is given the lost context beside, and it stays.
    ///
    /// # Errors
    ///
    /// That of the step; then nothing is changed.
    pub fn change<E>(&self, step: impl FnOnce(&Context) -> Result<Context, E>) -> Result<Told, E> {
        let (before, changes) = {
            let held = lock(&self.0);
            (held.sent(), held.changes)
        };
        let made = step(&before)?;
        let mut held = lock(&self.0);
        if held.changes != changes {
            return Ok(held.add(&made));
        }
        held.said = made;
        Ok(held.changed())
    }

    /// Counts for a counter of a bag, under the writer of this visit, whose name is drawn with its first count.
    ///
    /// # Errors
    ///
    /// [`Error::NoField`] or [`Error::BadWrite`], where the bag has no such counter, or the count would pass 2^64.
    pub fn count(&self, bag: &Bag, path: &str, more: u64) -> Result<Told, Error> {
        // The field alone, so that what is ill typed elsewhere doesn't matter.
        let alone = bag.only(&[path])?;
        lock(&self.0).count(&alone, path, more)
    }

    /// Another request that begins with a copy. It comes back only where somebody adds its context, and counts under a writer of its own.
    #[must_use]
    pub fn branch(&self) -> Request {
        Request::new(self.current())
    }

    /// A reply that is awaited.
    pub fn expect(&self) -> Reply {
        Reply { held: Arc::clone(&self.0), is_begun: false }
    }

    /// The head of the reply, or in gRPC its trailer, is written: what goes back, which is lost where a reply has begun and not come. What is added later is
    /// late.
    #[must_use]
    pub fn end(&self) -> Context {
        let mut held = lock(&self.0);
        held.is_ended = true;
        held.sent()
    }

    /// How often something was added after the end.
    #[must_use]
    pub fn late(&self) -> u64 {
        lock(&self.0).late
    }
}

impl fmt::Debug for Request {
    fn fmt(&self, out: &mut fmt::Formatter<'_>) -> fmt::Result {
        out.debug_tuple("Request").field(&self.current()).finish()
    }
}

/// The request that ran before a scope, and runs again after it, also where the scope panics.
struct Before(Option<Request>);

impl Drop for Before {
    fn drop(&mut self) {
        HERE.with(|here| here.replace(self.0.take()));
    }
}

/// A reply that is awaited. Where nothing of it comes it adds nothing; where it began and never comes, the request's context is lost. To drop it says that it won't
/// come.
#[derive(Debug)]
#[must_use]
pub struct Reply {
    held: Shared,
    is_begun: bool,
}

impl Reply {
    /// A byte of it came, or a message. From now on until it comes the request's context is lost, in what is sent too. It may be called with each message.
    pub fn began(&mut self) {
        if !self.is_begun {
            self.is_begun = true;
            lock(&self.held).coming += 1;
        }
    }

    /// It came with this context: [`Context::lost`] where it has none, or one that can't be read.
    pub fn came(&mut self, context: &Context) -> Told {
        let mut held = lock(&self.held);
        held.coming -= usize::from(self.is_begun);
        self.is_begun = false;
        held.add(context)
    }

    /// It won't come. What began stays lost.
    pub fn failed(self) {}
}

/// See [`Request::scoped`].
pub struct Scoped<F> {
    runs: Request,
    future: Pin<Box<F>>,
}

impl<F: Future> Future for Scoped<F> {
    type Output = F::Output;

    fn poll(self: Pin<&mut Self>, context: &mut task::Context<'_>) -> task::Poll<F::Output> {
        let Scoped { runs, future } = self.get_mut();
        runs.scope(|| future.as_mut().poll(context))
    }
}

impl<F> fmt::Debug for Scoped<F> {
    fn fmt(&self, out: &mut fmt::Formatter<'_>) -> fmt::Result {
        out.debug_tuple("Scoped").field(&self.runs).finish()
    }
}

/// The name of a writer. The keys of a hash come from the system's randomness, once a thread; a forked process has another number.
fn drawn_writer() -> [u8; 8] {
    let mut hash = RandomState::new().build_hasher();
    hash.write_u32(std::process::id());
    hash.write_u128(SystemTime::now().duration_since(SystemTime::UNIX_EPOCH).map_or(0, |since| since.as_nanos()));
    hash.finish().to_be_bytes()
}

/// What the request that runs here holds; lost where none runs.
#[must_use]
pub fn current() -> Context {
    Request::here().map_or_else(Context::lost, |request| request.current())
}

/// [`Request::add`] of the request that runs here.
///
/// # Errors
///
/// [`NoRequest`].
pub fn add(more: &Context) -> Result<Told, NoRequest> {
    Request::here().map(|request| request.add(more)).ok_or(NoRequest)
}

/// [`Request::change`] of the request that runs here.
///
/// # Errors
///
/// That of the step, or [`NoRequest`].
pub fn change<E: From<NoRequest>>(step: impl FnOnce(&Context) -> Result<Context, E>) -> Result<Told, E> {
    Request::here().ok_or(NoRequest)?.change(step)
}

/// [`Request::count`] of the request that runs here.
///
/// # Errors
///
/// As there, or [`Error::NoRequest`].
pub fn count(bag: &Bag, path: &str, more: u64) -> Result<Told, Error> {
    Request::here().ok_or(NoRequest)?.count(bag, path, more)
}
