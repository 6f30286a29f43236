//! The pricing of the shop. It knows the hops and the load, and says what the order costs.
//!
//! `pricing` serves on a free port, which it prints. `TABLE` names the file of the table, and `RECORDING` the folder for the log; without it
//! nothing is recorded. `WAIT_SECONDS` says how long a client is waited for, 10 where it isn't set.

mod head;
mod recorder;

use head::{Arrival, Head};
use recorder::{sender_of, tell, Recorder, Step, STEP};
use std::io::{self, Read, Write};
use std::net::{Shutdown, TcpListener, TcpStream};
use std::sync::Arc;
use std::time::{Duration, Instant};
use terncommode::{check_of, extract, no_cache, to_header, Bag, Context, FOR_HEADER, HEADER, REPLY_BUDGET};

/// What this service does with a request.
fn price(shop: &Recorder, head: &Head) -> Result<Step, Box<dyn std::error::Error>> {
    let parts = head.values(HEADER).flat_map(|value| value.split(|byte| *byte == b',')).count();
    let step = shop.receive(extract(head.values(HEADER), Context::lost()), parts == 1, sender_of(head.values(STEP)))?;
    let step = shop.set(&step, "load", "\"eur\":1299")?;
    let step = shop.set(&step, "hops", &format!("{}:1", shop.new_writer()?))?;
    Ok(shop.cut(step, REPLY_BUDGET))
}

/// The reply. Of which request it is the answer stands beside the context, and no shared cache is to keep that unasked.
fn reply_to(head: &Head, step: &Step) -> String {
    let value = to_header(&step.context);
    let check = head.values(HEADER).next().and_then(check_of);
    let answers = check.map_or(String::new(), |check| format!("{FOR_HEADER}: {check}\r\n"));
    let name = step.named().map_or(String::new(), |name| format!("{STEP}: {name}\r\n"));
    format!("HTTP/1.1 200 OK\r\n{HEADER}: {value}\r\nCache-Control: {}\r\n{answers}{name}", no_cache(""))
}

fn serve(shop: &Recorder, mut connection: TcpStream) -> io::Result<()> {
    connection.set_write_timeout(Some(wait()))?;
    let head = match Head::read(&connection, Instant::now() + wait())? {
        Arrival::Came(head) => head,
        Arrival::Refused => return refuse(connection),
    };
    let reply = match price(shop, &head) {
        Ok(step) => reply_to(&head, &step),
        Err(error) => format!("HTTP/1.1 500 {error}\r\n"),
    };
    connection.write_all(format!("{reply}Content-Length: 0\r\nConnection: close\r\n\r\n").as_bytes())
}

/// Says that the head is too long. What still comes is read for a second, since a socket that is closed with unread bytes takes the answer along.
fn refuse(mut connection: TcpStream) -> io::Result<()> {
    let until = Instant::now() + Duration::from_secs(1);
    connection.write_all(b"HTTP/1.1 431 Request Header Fields Too Large\r\nContent-Length: 0\r\nConnection: close\r\n\r\n")?;
    connection.shutdown(Shutdown::Write)?;
    let mut rest = [0; 4096];
    while head::waits(&connection, until).is_ok() && connection.read(&mut rest)? > 0 {}
    Ok(())
}

/// For how long a client is waited for.
fn wait() -> Duration {
    let seconds = std::env::var("WAIT_SECONDS").ok().and_then(|text| text.parse().ok()).filter(|seconds| *seconds > 0);
    Duration::from_secs(seconds.unwrap_or(10))
}

/// A pause after which what there was too little of may be there again.
fn pause() {
    std::thread::sleep(Duration::from_millis(50));
}

/// Serves a connection on a thread of its own. Where there is none, the connection is closed.
fn begin(shop: &Arc<Recorder>, connection: TcpStream) -> io::Result<()> {
    let shop = Arc::clone(shop);
    std::thread::Builder::new().spawn(move || {
        if let Err(error) = serve(&shop, connection) {
            tell(format_args!("pricing: {error}"));
        }
    })?;
    Ok(())
}

fn main() -> Result<(), Box<dyn std::error::Error>> {
    let table = std::fs::read_to_string(std::env::var("TABLE")?)?;
    let shop = Arc::new(Recorder::new("pricing", Bag::new(&table)?.only(&["hops", "load"])?)?);
    let listener = TcpListener::bind(("127.0.0.1", 0))?;
    println!("{}", listener.local_addr()?.port());
    for connection in listener.incoming() {
        if connection.and_then(|connection| begin(&shop, connection)).is_err() {
            pause(); // no descriptor or no thread is left
        }
    }
    Ok(())
}
