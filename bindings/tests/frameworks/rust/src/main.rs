//! The ways in which Rust runs what belongs to a request: whatever reads exact at the end is the join of all that was said in time, or it is partial.
//! `ways` runs them all; `ways ingress` reads lines of what strangers send, and writes what comes in.

#![forbid(unsafe_code)]

use std::collections::{BTreeSet, VecDeque};
use std::future::Future;
use std::io::{self, BufRead, BufWriter, Write};
use std::panic::{catch_unwind, AssertUnwindSafe};
use std::pin::Pin;
use std::sync::{Arc, Mutex};
use std::task::{Context as Waking, Poll, Wake, Waker};
use std::thread;
use terncommode::{
    add, change, check_of, count, current, extract, extract_reply, from_binary, quote, to_binary, to_header, visible, Bag, Context, Error,
    Form, Limits, NoRequest, Request, Told, Writes, REPLY_BUDGET, REQUEST_BUDGET,
};

fn known() -> Bag {
    Bag::new("baggage table 1\n0 0 id scalar fixed32\n0 1 tags set string\n0 2 hops counter\n0 3 debug taint\n").expect("it is a table")
}

/// What was told to be in time, by all that works on a visit.
#[derive(Default)]
struct Noted {
    tags: BTreeSet<String>,
    hops: u64,
}

type Notes = Arc<Mutex<Noted>>;

fn tag(notes: &Notes, name: &str, when: Told) {
    if when == Told::InTime {
        notes.lock().unwrap().tags.insert(name.to_string());
    }
}

fn tagged(name: &str) -> Context {
    known().update([], &Writes::new().set_string("tags", name)).unwrap()
}

/// The work of one thread or task: it adds a tag, changes the context, and counts.
fn work(notes: &Notes, name: &str) {
    let bag = known();
    tag(notes, name, add(&tagged(name)).unwrap());
    let mine = format!("{name}!");
    tag(notes, &mine, change(|before| bag.update([before], &Writes::new().set_string("tags", &mine))).unwrap());
    if count(&bag, "hops", 2).unwrap() == Told::InTime {
        notes.lock().unwrap().hops += 2;
    }
}

fn total_of(context: &Context) -> u64 {
    known().text(context, "hops").unwrap().value.split('{').next().unwrap().parse().unwrap()
}

/// Whether each field is the truth, and exact.
fn check(context: &Context, notes: &Notes) {
    let noted = notes.lock().unwrap();
    let tags = known().text(context, "tags").unwrap();
    let expected: Vec<String> = noted.tags.iter().map(|tag| quote(tag)).collect();
    assert_eq!((tags.value, tags.exact), (format!("{{{}}}", expected.join(",")), true));
    assert_eq!((total_of(context), known().text(context, "hops").unwrap().exact), (noted.hops, true));
}

// ---- an executor

/// Wakes a task by its number.
struct Woken {
    task: usize,
    queue: Arc<Mutex<VecDeque<usize>>>,
}

impl Wake for Woken {
    fn wake(self: Arc<Self>) {
        self.queue.lock().unwrap().push_back(self.task);
    }
}

/// Gives way to all others once.
struct Yields(bool);

impl Future for Yields {
    type Output = ();

    fn poll(mut self: Pin<&mut Self>, waking: &mut Waking<'_>) -> Poll<()> {
        if self.0 {
            return Poll::Ready(());
        }
        self.0 = true;
        waking.waker().wake_by_ref();
        Poll::Pending
    }
}

type Task = Pin<Box<dyn Future<Output = ()> + Send>>;

/// Runs tasks to their end, in a number of threads, so that a task goes from one to another.
fn execute(tasks: Vec<Task>, threads: usize) {
    let queue = Arc::new(Mutex::new((0..tasks.len()).collect::<VecDeque<_>>()));
    let left = Arc::new(Mutex::new(tasks.len()));
    let tasks: Arc<Vec<Mutex<Option<Task>>>> = Arc::new(tasks.into_iter().map(|task| Mutex::new(Some(task))).collect());
    let workers = (0..threads).map(|_| {
        let (queue, left, tasks) = (Arc::clone(&queue), Arc::clone(&left), Arc::clone(&tasks));
        thread::spawn(move || {
            while *left.lock().unwrap() > 0 {
                let Some(task) = queue.lock().unwrap().pop_front() else {
                    thread::yield_now();
                    continue;
                };
                let waker = Waker::from(Arc::new(Woken { task, queue: Arc::clone(&queue) }));
                let mut slot = tasks[task].lock().unwrap();
                let is_done = slot.as_mut().is_some_and(|future| future.as_mut().poll(&mut Waking::from_waker(&waker)).is_ready());
                if is_done {
                    *slot = None;
                    *left.lock().unwrap() -= 1;
                }
                assert!(Request::here().is_none(), "an executor's thread runs in no request");
            }
        })
    });
    workers.collect::<Vec<_>>().into_iter().for_each(|worker| worker.join().unwrap());
}

async fn works(notes: Notes, name: String) {
    for turn in 0..5 {
        work(&notes, &format!("{name}.{turn}"));
        Yields(false).await;
    }
}

// ---- ways to run things

fn in_sequence(_: &Request, notes: &Notes) {
    (0..5).for_each(|turn| work(notes, &turn.to_string()));
}

fn in_threads(request: &Request, notes: &Notes) {
    thread::scope(|scope| {
        for worker in 0..8 {
            scope.spawn(request.bound(move || (0..10).for_each(|turn| work(notes, &format!("{worker}.{turn}")))));
        }
    });
}

fn in_tasks(request: &Request, notes: &Notes) {
    let tasks = (0..6).map(|task| Box::pin(request.scoped(works(Arc::clone(notes), task.to_string()))) as Task);
    execute(tasks.collect(), 3);
}

fn in_tasks_of_two_requests(request: &Request, notes: &Notes) {
    let (other, others) = (Request::new(Context::default()), Notes::default());
    let mut tasks: Vec<Task> = Vec::new();
    for task in 0..4 {
        tasks.push(Box::pin(request.scoped(works(Arc::clone(notes), format!("own {task}")))));
        tasks.push(Box::pin(other.scoped(works(Arc::clone(&others), format!("other {task}")))));
    }
    execute(tasks, 3);
    check(&other.end(), &others);
}

fn in_a_task_in_a_task(request: &Request, notes: &Notes) {
    let (inner, outer) = (Arc::clone(notes), Arc::clone(notes));
    let branch = request.branch();
    let (kept, others) = (branch.clone(), Notes::default());
    let noted = Arc::clone(&others);
    let task = request.scoped(async move {
        work(&outer, "before");
        branch.scoped(works(noted, "branch".to_string())).await;
        work(&inner, "after");
    });
    execute(vec![Box::pin(task)], 2);
    check(&kept.end(), &others);
}

fn in_steps_that_come_back(request: &Request, notes: &Notes) {
    let told = request.change(|before| {
        work(notes, "inner");
        known().update([before], &Writes::new().set_string("tags", "outer"))
    });
    tag(notes, "outer", told.unwrap());
}

fn in_a_branch_that_comes_back(request: &Request, notes: &Notes) {
    let branch = request.branch();
    branch.scope(|| work(notes, "branch"));
    work(notes, "trunk");
    tag(notes, "branch", request.add(&branch.current()));
}

fn in_panics(request: &Request, notes: &Notes) {
    let ends = |step: &dyn Fn()| assert!(catch_unwind(AssertUnwindSafe(step)).is_err());
    ends(&|| drop(request.change::<Error>(|_| panic!("in a step"))));
    ends(&|| Request::new(Context::default()).scope(|| panic!("in a scope")));
    work(notes, "after");
}

fn in_refused_steps(request: &Request, notes: &Notes) {
    let bag = known();
    assert!(matches!(request.change(|before| bag.update([before], &Writes::new().set("id", "x"))), Err(Error::BadWrite { .. })));
    assert!(matches!(request.count(&bag, "nope", 1), Err(Error::NoField { .. })));
    assert!(matches!(request.count(&bag, "tags", 1), Err(Error::BadWrite { .. })));
    work(notes, "after");
}

fn the_ways() {
    let ways: [fn(&Request, &Notes); 9] = [
        in_sequence,
        in_threads,
        in_tasks,
        in_tasks_of_two_requests,
        in_a_task_in_a_task,
        in_steps_that_come_back,
        in_a_branch_that_comes_back,
        in_panics,
        in_refused_steps,
    ];
    for way in ways {
        let (request, notes) = (Request::new(Context::default()), Notes::default());
        request.scope(|| way(&request, &notes));
        assert!(Request::here().is_none());
        check(&request.end(), &notes);
    }
}

fn where_none_runs() {
    let bag = known();
    assert_eq!((current(), add(&Context::default())), (Context::lost(), Err(NoRequest)));
    assert_eq!((count(&bag, "hops", 1), change(|before| Ok::<_, Error>(before.clone()))), (Err(Error::NoRequest), Err(Error::NoRequest)));
    let request = Request::new(Context::default());
    request.scope(|| thread::spawn(|| assert!(Request::here().is_none())).join().unwrap());
}

fn among_the_ill_typed() {
    let request = Request::new(Context::from_bytes(b"\x02\xf8\0\x03\0xx").unwrap()); // id isn't spelled so
    let bag = known();
    let _ = request.count(&bag, "hops", 3).unwrap();
    let _ = request.count(&bag, "hops", 3).unwrap();
    assert!(matches!(bag.text(&request.current(), "hops"), Err(Error::IllTyped { .. })));
    let hops = bag.only(&["hops"]).unwrap().text(&request.end(), "hops").unwrap();
    assert!(hops.value.starts_with("6{") && hops.exact, "{hops:?}");
}

/// What is counted belongs to a slot, which two tables may name in two ways; one name may be that of two slots. What is refused isn't counted.
fn counts_of_two_tables() {
    let first = Bag::new("baggage table 1\n0 2 hops counter\n0 3 sub bag\n1 2 hops counter\n0 4 load map bytes greatest uint64\n").unwrap();
    let second = Bag::new("baggage table 1\n0 2 jumps counter\n0 3 below bag\n1 2 jumps counter\n0 5 hops counter\n0 6 other bag\n1 0 hop counter\n").unwrap();
    let visit = Request::new(Context::default());
    for (bag, path, more) in [
        (&first, "hops", 2), (&second, "jumps", 3), (&second, "hops", 5), (&first, "hops", 7), (&first, "sub.hops", 11), (&second, "below.jumps", 13), (&second, "other.hop", 17),
    ] {
        let _ = visit.count(bag, path, more).unwrap();
        assert!(matches!(visit.count(&second, "other", 1), Err(Error::NoField { .. })));
        assert!(matches!(visit.count(&first, "load", 1), Err(Error::BadWrite { .. })));
    }
    let _ = visit.count(&second, "other.hop", 0).unwrap();
    for (path, total) in [("jumps", "12{"), ("hops", "5{"), ("below.jumps", "24{"), ("other.hop", "17{")] {
        let found = second.text(&visit.current(), path).unwrap();
        assert!(found.exact && found.value.starts_with(total), "{path} {found:?}");
    }
}

fn late() {
    let (request, notes) = (Request::new(Context::default()), Notes::default());
    request.scope(|| work(&notes, "in time"));
    let back = request.end();
    request.scope(|| work(&notes, "late"));
    check(&back, &notes);
    assert_eq!((request.late(), total_of(&request.current())), (3, 4));
}

// ---- replies

/// A service: it takes a header, counts and tags, and gives a reply's value, and which request it answers.
fn serve(value: &str, name: &str) -> (String, String) {
    let request = Request::new(extract([value.as_bytes()], Context::lost()));
    request.scope(|| work(&Notes::default(), name));
    (to_header(&request.end().cut(REPLY_BUDGET)), check_of(value.as_bytes()).unwrap_or_default().to_string())
}

fn read(reply: &(String, String), sent: &str) -> Context {
    extract_reply([reply.0.as_bytes()], Some(reply.1.as_bytes()), sent)
}

fn ends(step: impl FnOnce(&Request)) -> Context {
    let request = Request::new(Context::default());
    step(&request);
    request.end()
}

fn is_lost(context: &Context) -> bool {
    *context == (context | &Context::lost())
}

fn replies() {
    let sent = to_header(&Context::default());
    let one = read(&serve(&sent, "one"), &sent);
    assert!(!is_lost(&one) && total_of(&one) == 2);
    assert!(ends(|request| drop(request.expect())).is_empty());
    assert!(ends(|request| request.expect().failed()).is_empty());
    assert_eq!(ends(|request| request.expect().began()), Context::lost());
    let comes = |request: &Request| {
        let _ = request.expect().came(&one);
    };
    assert_eq!(ends(comes), one);
    let twice = |request: &Request| {
        let mut reply = request.expect();
        reply.began();
        reply.began();
        let _ = reply.came(&one);
    };
    assert_eq!(ends(twice), one);
    let fails = |request: &Request| {
        let mut reply = request.expect();
        reply.began();
        reply.failed();
        let _ = request.add(&one);
    };
    assert!(is_lost(&ends(fails)));
    let panics = |request: &Request| {
        let mut reply = request.expect();
        assert!(catch_unwind(AssertUnwindSafe(move || {
            reply.began();
            panic!("while it is on the way");
        }))
        .is_err());
    };
    assert_eq!(ends(panics), Context::lost());
    // A reply to another request, and one that doesn't say to which.
    assert_eq!(read(&serve(&to_header(&tagged("x")), "other"), &sent), Context::lost());
    assert_eq!(extract_reply([serve(&sent, "one").0.as_bytes()], None, &sent), Context::lost());
    assert_eq!(extract_reply([], Some(check_of(sent.as_bytes()).unwrap().as_bytes()), &sent), Context::lost());
    // What is sent while a reply is on the way is lost too; afterwards it is whole again.
    let request = Request::new(Context::default());
    let (mut reply, mut slow) = (request.expect(), request.expect());
    reply.began();
    assert_eq!((request.current(), request.branch().current()), (Context::lost(), Context::lost()));
    assert_eq!((reply.came(&one), request.current()), (Told::InTime, one.clone()));
    // A count goes on meanwhile; what a step makes is lost, and stays so.
    let meanwhile = Request::new(Context::default());
    let (mut waits, mut again) = (meanwhile.expect(), meanwhile.expect());
    waits.began();
    let _ = meanwhile.count(&known(), "hops", 1).unwrap();
    assert_eq!(waits.came(&Context::default()), Told::InTime);
    assert!(known().text(&meanwhile.current(), "hops").unwrap().exact);
    again.began();
    let sees = |before: &Context| {
        assert!(is_lost(before));
        Ok::<_, Error>(before.clone())
    };
    let _ = meanwhile.change(sees).unwrap();
    assert_eq!((again.came(&Context::default()), is_lost(&meanwhile.end())), (Told::InTime, true));
    slow.began();
    assert!(is_lost(&request.end()));
    assert_eq!((slow.came(&one), request.late()), (Told::Late, 1));
}

// ---- counters

fn ask(request: &Request, name: &str, is_heard: bool) -> u64 {
    let mut reply = request.expect();
    let sent = to_header(&request.current().cut(REQUEST_BUDGET));
    let came = serve(&sent, name);
    if !is_heard {
        return 0; // it never came: it was done, and not heard
    }
    let _ = reply.came(&read(&came, &sent));
    2
}

fn counters() {
    let request = Request::new(Context::default());
    let asks = |turn: u64| {
        let request = request.clone();
        thread::spawn(move || ask(&request, "service", turn != 3))
    };
    let mut heard: u64 = (0..10).map(asks).collect::<Vec<_>>().into_iter().map(|worker| worker.join().unwrap()).sum();
    heard += (0..3).map(|_| ask(&request, "retry", true)).sum::<u64>();
    request.scope(|| {
        for _ in 0..50 {
            let _ = count(&known(), "hops", 1).unwrap();
        }
    });
    let hops = known().text(&request.end(), "hops").unwrap();
    assert!(hops.value.starts_with(&format!("{}{{", heard + 50)) && hops.exact && heard == 24, "{hops:?}");
    assert!(matches!(request.count(&known(), "hops", u64::MAX), Err(Error::BadWrite { .. })));
    // Of more visits than a budget has place for, the rest is cut, and that is told.
    for _ in 0..200 {
        let _ = ask(&request, "many", true);
    }
    assert!(!known().text(&request.end(), "hops").unwrap().exact);
}

/// Two calls of which one is to answer first: what both say adds up where both are heard in time, and a late one isn't in what went back.
fn hedges() {
    for both in [true, false] {
        let request = Request::new(Context::default());
        let sent = to_header(&request.current());
        let (mut first, mut second) = (request.expect(), request.expect());
        let (one, other) = (read(&serve(&sent, "a"), &sent), read(&serve(&sent, "b"), &sent));
        assert_eq!(first.came(&one), Told::InTime);
        let before = if both { None } else { Some(request.end()) };
        let when = second.came(&other);
        let back = before.unwrap_or_else(|| request.end());
        assert_eq!((when, request.late()), if both { (Told::InTime, 0) } else { (Told::Late, 1) });
        assert_eq!((total_of(&back), total_of(&request.current())), (if both { 4 } else { 2 }, 4));
        assert!(known().text(&back, "hops").unwrap().exact);
    }
}

/// A service that is started anew, and each of its visits, has a writer of its own.
fn writers() {
    let visit = |_| {
        let request = Request::new(Context::default());
        let _ = request.count(&known(), "hops", 1).unwrap();
        request.end()
    };
    let mut all: Vec<Context> = (0..200).map(visit).collect();
    all.extend(thread::spawn(move || (0..100).map(visit).collect::<Vec<_>>()).join().unwrap());
    assert_eq!(total_of(&Context::join(&all)), 300);
}

// ---- others

fn texts() {
    assert_eq!(visible("a\u{1b}[1m\u{7f}\u{9b}\u{2028}\u{202e}\u{2066}\u{e4}\n"), "a\\x1b[1m\\x7f\\u009b\\u2028\\u202e\\u2066\u{e4}\\x0a");
    let wide = Bag::new("baggage table 1\n0 0 m map uint32 bag\n1 0 aaaaaaaaaaaaaaaaaaaa taint\n1 1 b taint\n").unwrap();
    let writes = (0..300).fold(Writes::new(), |writes, key| writes.set("m", format!("{key}:.b=on")));
    let it = wide.update([], &writes).unwrap();
    assert!(matches!(wide.report_within(&it, Form::One, 1000), Err(Error::TooLong { size }) if size > 10_000));
    assert!(
        matches!(wide.text_within(&it, "m", 1000), Err(Error::TooLong { .. }))
            && wide.text(&it, "m").is_ok()
            && wide.report(&it, Form::One).is_ok()
    );
    let bytes = to_binary(&it);
    assert_eq!((from_binary(&bytes), from_binary(b"")), (it.clone(), Context::lost()));
    assert!((0..bytes.len()).all(|end| from_binary(&bytes[..end]) == Context::lost()));
    assert!(std::ptr::eq(it.as_bytes(), it.clone().as_bytes()) && std::ptr::eq(it.as_bytes(), Context::join([&it]).as_bytes()));
}

// ---- what comes in from strangers

fn bytes_of(digits: &str) -> Vec<u8> {
    if digits == "-" {
        return Vec::new();
    }
    (0..digits.len() / 2).map(|place| u8::from_str_radix(&digits[2 * place..2 * place + 2], 16).unwrap()).collect()
}

fn digits_of(bytes: &[u8]) -> String {
    if bytes.is_empty() {
        return "-".to_string();
    }
    bytes.iter().map(|byte| format!("{byte:02x}")).collect()
}

/// Of a line `TABLE LETTERS PARTS TEXT BUDGET DROPS VALUE..`, what comes in.
fn let_in(line: &str) -> String {
    let words: Vec<&str> = line.split(' ').collect();
    let number = |place: usize| words[place].parse::<usize>().unwrap();
    let limits = Limits { letters: number(1), parts: number(2), text: number(3), budget: number(4) as u64, drops_partial: number(5) != 0 };
    let values: Vec<Vec<u8>> = words[6..].iter().map(|digits| bytes_of(digits)).collect();
    let bag = Bag::new(std::str::from_utf8(&bytes_of(words[0])).unwrap()).unwrap();
    digits_of(bag.ingress(values.iter().map(Vec::as_slice), &limits).as_bytes())
}

fn main() -> io::Result<()> {
    if std::env::args().nth(1).as_deref() == Some("ingress") {
        let mut out = BufWriter::new(io::stdout().lock());
        return io::stdin().lock().lines().try_for_each(|line| writeln!(out, "{}", let_in(&line?)));
    }
    std::panic::set_hook(Box::new(|_| {})); // panics are meant
    let tests: [(&str, fn()); 11] = [
        ("the ways", the_ways),
        ("where none runs", where_none_runs),
        ("among the ill typed", among_the_ill_typed),
        ("counts of two tables", counts_of_two_tables),
        ("late", late),
        ("replies", replies),
        ("counters", counters),
        ("hedges", hedges),
        ("writers", writers),
        ("texts", texts),
        ("where none runs, again", where_none_runs),
    ];
    for (name, test) in tests {
        if let Err(why) = catch_unwind(test) {
            let said = why.downcast_ref::<String>().cloned().or_else(|| why.downcast_ref::<&str>().map(ToString::to_string));
            eprintln!("{name}: {}", said.unwrap_or_default());
            std::process::exit(1);
        }
    }
    Ok(())
}
