//! Contexts in a map of headers.

use http::header::{HeaderMap, HeaderValue};
use terncommode::{to_header, Context};
use terncommode_http::{extract, extract_reply, inject, inject_reply};

fn context(digit: u8) -> Context {
    Context::from_bytes(&[2, 0xf8, 1, 2, 0, digit]).expect("it is a context")
}

#[test]
fn a_context_comes_back() {
    let mut headers = HeaderMap::new();
    inject(&mut headers, &context(1));
    inject(&mut headers, &context(2));
    assert_eq!(headers.get_all("Terncommode").iter().count(), 1);
    assert_eq!(extract(&headers, Context::default()), context(2));
}

#[test]
fn a_reply_says_which_request_it_answers() {
    let (mut request, mut other, mut reply) = (HeaderMap::new(), HeaderMap::new(), HeaderMap::new());
    inject(&mut request, &context(1));
    inject(&mut other, &context(2));
    reply.insert("cache-control", HeaderValue::from_static("max-age=60"));
    inject_reply(&mut reply, &context(3), &request);
    assert_eq!(reply["cache-control"], r#"max-age=60, no-cache="terncommode""#);
    assert_eq!(extract_reply(&reply, &to_header(&context(1))), context(3));
    assert_eq!(extract_reply(&reply, &to_header(&context(2))), Context::lost());
    inject_reply(&mut reply, &context(3), &other);
    assert_eq!(reply.get_all("cache-control").iter().count(), 1);
    assert_eq!(extract_reply(&reply, &to_header(&context(1))), Context::lost());
    reply.append("terncommode-for", to_header(&context(1))[to_header(&context(1)).len() - 6..].parse().unwrap());
    assert_eq!(extract_reply(&reply, &to_header(&context(1))), Context::lost());
    inject_reply(&mut reply, &context(3), &HeaderMap::new());
    assert!(!reply.contains_key("terncommode-for"));
}

#[test]
fn all_lines_are_merged() {
    let mut headers = HeaderMap::new();
    assert_eq!(extract(&headers, Context::lost()), Context::lost());
    assert_eq!(extract(&headers, Context::default()), Context::default());
    headers.append("terncommode", to_header(&context(1)).parse().unwrap());
    headers.append("terncommode", to_header(&context(2)).parse().unwrap());
    assert_eq!(extract(&headers, Context::default()), &context(1) | &context(2));
    headers.append("terncommode", HeaderValue::from_bytes(b"\xff").unwrap());
    assert_eq!(extract(&headers, Context::default()), Context::join([&context(1), &context(2), &Context::lost()]));
}
