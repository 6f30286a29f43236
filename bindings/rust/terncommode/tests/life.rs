//! A request's whole life: it begins at a gateway, is handed on to two services, is merged, cut for a partner, damaged on the way, and read.

use terncommode::{
    extract, from_binary, from_header, to_header, Bag, Budget, Code, Context, Error, Field, Form, Others, TableCode, Writes,
};

const TABLE: &str =
    "baggage table 1\n0 0 id scalar fixed32\n0 1 tags set string\n0 2 hops counter\n0 3 debug taint\n0 4 load map string scalar uint32\n";

fn bag() -> Bag {
    Bag::new(TABLE).expect("it is a table")
}

fn said(bag: &Bag, context: &Context, path: &str) -> (String, bool) {
    let Field { value, exact } = bag.text(context, path).expect("the context is typed, and the slot is there");
    (value, exact)
}

fn no_field<T>(line: usize, path: &str) -> Result<T, Error> {
    Err(Error::NoField { line, path: path.to_string() })
}

fn bad_write<T>(line: usize, path: &str) -> Result<T, Error> {
    Err(Error::BadWrite { line, path: path.to_string() })
}

#[test]
fn a_request_lives() {
    let all = bag();
    // The gateway begins.
    let start = extract(std::iter::empty::<&[u8]>(), Context::default());
    assert!(start.is_empty());
    let gateway = all.update([&start], &Writes::new().set("id", "4711").count("hops", "gateway", 1)).unwrap();
    // Two branches of it go to services that know a part each.
    let sent = to_header(&gateway);
    let cart = all.only(&["tags", "hops"]).unwrap();
    let in_cart =
        cart.update([&from_header(sent.as_bytes())], &Writes::new().set_string("tags", "a \"tag\"\n").count("hops", "cart", 3)).unwrap();
    let pricing = all.only(&["hops", "load"]).unwrap();
    let in_pricing = pricing.update([&from_header(sent.as_bytes())], &Writes::new().set("load", "\"eur\":1299")).unwrap();
    assert_eq!(pricing.update([&in_pricing], &Writes::new().set("id", "1")), no_field(1, "id"));
    // A proxy that knows nothing merges what comes back, as one header line or as two.
    let proxy = Context::join([&in_cart, &in_pricing]);
    let lines = [to_header(&in_cart), to_header(&in_pricing)];
    assert_eq!(extract(lines.iter().map(String::as_bytes), Context::lost()), proxy);
    assert_eq!(from_header(lines.join(", ").as_bytes()), proxy);
    // The gateway writes over its earlier count and reads all.
    let end = all.update([&gateway, &proxy], &Writes::new().count("hops", "gateway", 2).mark("debug")).unwrap();
    assert_eq!(said(&all, &end, "id"), ("4711".to_string(), true));
    assert_eq!(said(&all, &end, "tags"), (r#"{"a \"tag\"\x0a"}"#.to_string(), true));
    assert_eq!(said(&all, &end, "hops"), ("5{0x63617274:3,0x67617465776179:2}".to_string(), true));
    assert_eq!(said(&all, &end, "debug"), ("on".to_string(), true));
    assert_eq!(said(&all, &end, "load"), (r#"{"eur":1299}"#.to_string(), true));
    // A partner gets as much as fits, and knows what may be missing.
    let partner = proxy.cut(30);
    assert!(partner.as_bytes().len() <= 30);
    assert_eq!(said(&all, &partner, "id"), ("4711".to_string(), true));
    assert_eq!(said(&all, &partner, "load"), ("{}".to_string(), false));
    // Only some of it may leave.
    let outside = all.only(&["id", "debug"]).unwrap();
    let left = outside.keep(&end, Others::Cut, Budget::NONE);
    assert_eq!(said(&all, &left, "id"), ("4711".to_string(), true));
    assert_eq!(said(&all, &left, "tags"), ("{}".to_string(), false));
    assert_eq!(said(&all, &outside.keep(&end, Others::Unsaid, 1000), "debug"), ("on".to_string(), true));
    // A copy that is damaged on the way is lost, and adds nothing that isn't so.
    let damaged = from_header(&sent.as_bytes()[..sent.len() - 3]);
    assert_eq!(damaged, Context::lost());
    assert_eq!(said(&all, &(&end | &damaged), "id"), ("4711".to_string(), false));
}

#[test]
fn each_front_of_a_header_is_lost() {
    let context = bag().update([], &Writes::new().set("id", "7").set_string("tags", "x").mark("debug")).unwrap();
    let value = to_header(&context);
    assert_eq!(from_header(value.as_bytes()), context);
    for end in 0..value.len() {
        assert_eq!(from_header(&value.as_bytes()[..end]), Context::lost(), "{end}");
    }
}

#[test]
fn refusals_say_where() {
    let all = bag();
    assert_eq!(Bag::new("baggage table 1\n0 0 id scalar\n"), Err(Error::BadTable { line: 2, code: TableCode::Form }));
    assert_eq!(Bag::new(""), Err(Error::BadTable { line: 1, code: TableCode::Head }));
    assert_eq!(all.only(&["id", "idd", "ide"]), no_field(0, "idd"));
    assert_eq!(all.text(&Context::default(), "load.eur"), no_field(0, "load.eur"));
    assert_eq!(all.update([], &Writes::new().set("id", "5").set("idd", "4")), no_field(2, "idd"));
    assert_eq!(all.update([], &Writes::new().set("id", "5").set("id", "x")), bad_write(2, "id"));
    assert_eq!(Context::from_bytes(b"\x02\xf8\x00\x80"), Err(Error::Fault { offset: 3, code: Code::CutLength }));
    let ill = Context::from_bytes(b"\x02\xf8\x00\x02\x00\x00\x05\x00\x00\x00\x00\x07").unwrap();
    assert_eq!(all.update([&Context::default(), &ill], &Writes::new()), Err(Error::IllTyped { input: 1, offset: 3 }));
    assert!(Bag::default().update([&ill], &Writes::new()).is_ok());
    let errors = [
        (Error::Fault { offset: 3, code: Code::CutLength }, "CutLength at byte 3"),
        (Error::BadTable { line: 2, code: TableCode::Form }, "line 2 is not a table's: Form"),
    ];
    for (error, text) in errors {
        assert_eq!(error.to_string(), text);
    }
}

#[test]
fn a_refused_write_says_its_field() {
    let (all, start) = (bag(), Context::default());
    let id = || Writes::new().set("id", "5");
    let writes = [
        (Writes::new().set("nope", "1"), r#"write 1: no field "nope""#),
        (id().set("", "1"), r#"write 2: no field """#),
        (id().set("id ", "1").set("debug on\nid", "1"), r#"write 2: no field "id ""#),
        (id().mark("debug").set("debug on\nid", "1").set("id ", "1"), r#"write 3: no field "debug on\nid""#),
        (id().set("id", "x"), r#"write 2: not a write to the field "id""#),
        (id().set("id", "6\nid 7"), r#"write 2: not a write to the field "id""#),
        (id().set("id", ""), r#"write 2: not a write to the field "id""#),
    ];
    for (writes, text) in writes {
        assert_eq!(all.update([&start], &writes).unwrap_err().to_string(), text);
        assert_eq!(all.update_within([], &writes, 100).unwrap_err().to_string(), text);
    }
    assert_eq!(all.text(&start, "nope").unwrap_err().to_string(), r#"no field "nope""#);
    assert_eq!(all.only(&["id", "nope"]).unwrap_err().to_string(), r#"no field "nope""#);
}

#[test]
fn a_write_never_becomes_two() {
    let all = bag();
    assert_eq!(all.update([], &Writes::new().set("id", "7\ndebug on")), bad_write(1, "id"));
    assert_eq!(all.update([], &Writes::new().set("debug on\nid", "7")), no_field(1, "debug on\nid"));
    assert_eq!(all.update([], &Writes::new().set("tags \"a", "b\"")), no_field(1, "tags \"a"));
}

#[test]
fn contexts_are_values() {
    let all = bag();
    let one = all.update([], &Writes::new().set("id", "7")).unwrap();
    let two = all.update([], &Writes::new().set("id", "9")).unwrap();
    let branch = one.clone();
    let mut both = &one | &two;
    assert_eq!((branch, both.clone()), (one.clone(), &two | &one));
    both |= &one;
    assert_eq!(both, Context::join([&two, &one, &one]));
    assert_eq!(Context::join([]), Context::default());
    // Of two values of a scalar the least stays.
    assert_eq!(said(&all, &both, "id"), ("7".to_string(), true));
    assert_eq!(format!("{one:?}"), "Context(02f800050000000007)");
    assert!(std::collections::HashSet::from([one.clone()]).contains(&one));
    // Bytes of either form are the same context.
    let bytes = one.to_bytes(Form::Two);
    assert_eq!(bytes[..4], [0xff, 0xff, 0xff, 0x02]);
    assert_eq!((Context::from_bytes(&bytes), from_binary(&bytes)), (Ok(one.clone()), one.clone()));
    assert_eq!(from_binary(&bytes[1..]), Context::lost());
    assert_eq!(one.cut(Budget::new(Form::Two, 0)), Context::lost());
    assert_eq!(one.cut(0), Context::lost());
}

#[test]
fn long_data_need_form_two() {
    let bag = Bag::new("baggage table 1\n0 0 note scalar string\n").unwrap();
    let long = Writes::new().set_string("note", &"x".repeat(70_000));
    assert_eq!(bag.update([], &long), bad_write(1, "note"));
    let wide = bag.clone().with_form(Form::Two);
    let context = wide.update([], &long).unwrap();
    assert_eq!(context.as_bytes(), context.to_bytes(Form::Two));
    assert_eq!(bag.text(&context, "note").unwrap().value.len(), 70_002);
    assert_eq!(from_header(to_header(&context).as_bytes()), context);
    assert_eq!(wide.update_within([&context], &Writes::new(), 100).unwrap(), context.cut(Budget::new(Form::Two, 100)));
}

#[test]
fn budgets_count_in_the_form_of_the_bag() {
    let (all, wide) = (bag(), bag().with_form(Form::Two));
    let it = all.update([], &Writes::new().set("id", "7").set("debug", "on")).unwrap();
    assert_eq!((it.as_bytes().len(), it.to_bytes(Form::Two).len()), (14, 26));
    assert_eq!((all.keep(&it, Others::Cut, 14), all.keep(&it, Others::Cut, 13)), (it.clone(), it.cut(13)));
    assert_eq!((wide.keep(&it, Others::Cut, 26), wide.keep(&it, Others::Cut, 25)), (it.clone(), it.cut(Budget::new(Form::Two, 25))));
    assert_ne!(wide.keep(&it, Others::Cut, 25), it);
    assert_eq!((wide.keep(&it, Others::Cut, 0), wide.keep(&it, Others::Cut, Budget::NONE)), (Context::lost(), it.clone()));
    assert_eq!(
        (wide.keep(&it, Others::Cut, Budget::new(Form::One, 14)), all.keep(&it, Others::Cut, Budget::new(Form::Two, 26))),
        (it.clone(), it)
    );
}

#[test]
fn contexts_go_between_threads() {
    fn is_shared<T: Send + Sync + 'static>() {}
    is_shared::<(Context, Bag, Writes, Error)>();
    let (all, start) = (bag(), Context::default());
    let workers = (0..8_u64).map(|worker| {
        let (all, start) = (all.clone(), start.clone());
        std::thread::spawn(move || {
            (0..200).fold(start, |context, count| all.update([&context], &Writes::new().count("hops", worker.to_string(), count)).unwrap())
        })
    });
    let ends: Vec<Context> = workers.collect::<Vec<_>>().into_iter().map(|worker| worker.join().unwrap()).collect();
    let (value, exact) = said(&all, &Context::join(&ends), "hops");
    assert!(value.starts_with("1592{") && exact, "{value}");
}
