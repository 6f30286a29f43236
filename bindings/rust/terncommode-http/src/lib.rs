//! Baggage contexts in the headers of the crate `http`, which hyper, axum, tonic and reqwest share.
//!
//! It stands beside the crate `terncommode` and isn't a feature of it, since cargo asks for an optional dependency too when it resolves: the
//! crate `terncommode` builds where there is no registry.

#![forbid(unsafe_code)]
#![warn(missing_docs)]

use http::header::{HeaderMap, HeaderName, HeaderValue, CACHE_CONTROL};
use terncommode::{check_of, no_cache, Context, FOR_HEADER, HEADER};

/// Sets the header that carries the context, in place of any that is there.
///
/// # Panics
///
/// Never: a header's value has only letters that headers may have.
pub fn inject(headers: &mut HeaderMap, context: &Context) {
    let value = HeaderValue::try_from(terncommode::to_header(context)).expect("base64url and a dot are a header's value");
    headers.insert(HeaderName::from_static(HEADER), value);
}

/// Sets what a reply says: the context, the request that it answers, of which `request` has the headers, and in Cache-Control that no shared cache answers
/// another request with it. Cut the context before.
///
/// # Panics
///
/// Never: what is added has only letters that headers may have.
pub fn inject_reply(headers: &mut HeaderMap, context: &Context, request: &HeaderMap) {
    inject(headers, context);
    headers.remove(FOR_HEADER);
    if let Some(check) = request.get(HEADER).and_then(|value| check_of(value.as_bytes())) {
        headers.insert(HeaderName::from_static(FOR_HEADER), HeaderValue::from_str(check).expect("a check is a header's value"));
    }
    let said: Vec<&str> = headers.get_all(CACHE_CONTROL).iter().filter_map(|value| value.to_str().ok()).collect();
    let value = HeaderValue::try_from(no_cache(&said.join(", "))).expect("what was a value is one with a directive more");
    headers.insert(CACHE_CONTROL, value);
}

/// The context of a reply to the request that was sent with the value `sent`: lost where the reply doesn't say once that it answers this request.
#[must_use]
pub fn extract_reply(headers: &HeaderMap, sent: &str) -> Context {
    let answers: Vec<&[u8]> = headers.get_all(FOR_HEADER).iter().map(HeaderValue::as_bytes).collect();
    let answers = if let [one] = answers[..] { Some(one) } else { None };
    terncommode::extract_reply(headers.get_all(HEADER).iter().map(HeaderValue::as_bytes), answers, sent)
}

/// The context that all lines of the header carry, merged; what can't be read is lost. `absent` stands for no line at all:
/// `Context::default()` at an edge, where a request begins, and `Context::lost()` inside, where a context was promised.
#[must_use]
pub fn extract(headers: &HeaderMap, absent: Context) -> Context {
    terncommode::extract(headers.get_all(HEADER).iter().map(HeaderValue::as_bytes), absent)
}
