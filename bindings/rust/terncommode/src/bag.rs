//! What a service knows: a table, or a part of it.

use crate::carriers::REQUEST_BUDGET;
use crate::context::{Budget, Context, Form};
use crate::error::{refused, refused_field, Error};
use crate::ingress;
use crate::raw;
use crate::table;
use crate::writes::Writes;
use terncommode_sys::{self as sys, status};

/// What a context says of a field, and whether that is all that was said.
#[derive(Clone, Debug, PartialEq, Eq, Hash)]
pub struct Field<T> {
    /// What is said.
    pub value: T,
    /// Whether nothing of it can have been cut off.
    pub exact: bool,
}

/// How many bytes the text of a field or of a report has at most where the caller doesn't say: a stranger's context of 3,000 bytes can have one of many
/// megabytes.
pub const TEXT_LIMIT: usize = 1_048_576;

/// What is let in at most of what strangers send.
#[derive(Clone, Debug, PartialEq, Eq)]
pub struct Limits {
    /// The letters of all values of the header together; where they have more, nothing of them is read.
    pub letters: usize,
    /// The parts of all values, between commas.
    pub parts: usize,
    /// The letters of a literal: of a string, of bytes, of a key, of a struct; never more than `letters`.
    pub text: usize,
    /// The bytes of the context, in form one.
    pub budget: u64,
    /// The request begins here: what isn't whole is left out, and nothing is said of it.
    pub drops_partial: bool,
}

impl Default for Limits {
    /// 8,192 letters, 16 parts, 1,024 letters a literal, the budget of a request; what stays outside makes partial.
    fn default() -> Limits {
        Limits { letters: 8_192, parts: 16, text: 1_024, budget: REQUEST_BUDGET, drops_partial: false }
    }
}

/// What becomes of the fields that [`Bag::keep`] drops.
#[derive(Clone, Copy, Debug, PartialEq, Eq)]
pub enum Others {
    /// They are marked as cut off: no field is read as exact that isn't, under any table.
    Cut,
    /// Nothing is said of them: the fields that stay are exactly as exact as before, for readers with this table.
    Unsaid,
}

/// What a service knows: the table of a definition, or a part of it. The default knows no field.
#[derive(Clone, Debug, PartialEq, Eq, Hash)]
pub struct Bag {
    table: Box<str>,
    form: Form,
}

impl Default for Bag {
    fn default() -> Bag {
        Bag { table: table::HEAD.into(), form: Form::One }
    }
}

impl Bag {
    /// The bag of a table's text, as `baggage table FILE BAG` prints it.
    ///
    /// # Errors
    ///
    /// [`Error::BadTable`] with the first bad line.
    pub fn new(table: &str) -> Result<Bag, Error> {
        let answer = raw::check_table(table);
        if answer.status != status::OK {
            return Err(refused(answer));
        }
        Ok(Bag { table: table.into(), form: Form::One })
    }

    /// The bag that knows the fields at these paths alone. A path is that of a slot, or of a bag.
    ///
    /// # Errors
    ///
    /// [`Error::NoField`] where a path is neither.
    pub fn only(&self, paths: &[&str]) -> Result<Bag, Error> {
        let table = table::excerpt(&self.table, paths).map_err(|path| Error::NoField { line: 0, path: path.to_string() })?;
        Ok(Bag { table: table.into(), form: self.form })
    }

    /// The same bag in a form: a budget that is a number alone counts the bytes of that form, and a datum that is written may have 65,534 bytes in
    /// form one and 1,048,575 in form two.
    #[must_use]
    pub fn with_form(self, form: Form) -> Bag {
        Bag { form, ..self }
    }

    /// The table's text.
    #[must_use]
    pub fn table(&self) -> &str {
        &self.table
    }

    /// The name paths of the slots, in the table's order.
    #[must_use]
    pub fn slots(&self) -> Vec<String> {
        table::lines_of(&self.table).into_iter().filter(|line| !line.is_bag).filter_map(|line| line.path).collect()
    }

    /// One step of this service: the merge of the inputs and of what is written, in normal form for this bag. With one input and no write
    /// it is what receiving does, with one write a `set`, with several inputs a `join`.
    ///
    /// # Errors
    ///
    /// [`Error::NoField`] or [`Error::BadWrite`] with the first bad write and its path, else [`Error::IllTyped`] with the first input that
    /// isn't typed for this bag. A service that takes others' contexts goes on with [`Context::join`] then, as one that doesn't know would.
    pub fn update<'a>(&self, inputs: impl IntoIterator<Item = &'a Context>, writes: &Writes) -> Result<Context, Error> {
        self.update_within(inputs, writes, u64::MAX)
    }

    /// The same, cut to a number of bytes in the bag's form.
    ///
    /// # Errors
    ///
    /// As [`Bag::update`].
    pub fn update_within<'a>(&self, inputs: impl IntoIterator<Item = &'a Context>, writes: &Writes, budget: u64) -> Result<Context, Error> {
        let inputs: Vec<&[u8]> = inputs.into_iter().map(Context::as_bytes).collect();
        self.update_bytes(&inputs, writes, budget)
    }

    /// The context that bytes say, as this service takes it.
    ///
    /// # Errors
    ///
    /// [`Error::Fault`] or [`Error::IllTyped`], with the offset in these bytes.
    pub fn receive(&self, bytes: &[u8]) -> Result<Context, Error> {
        self.update_bytes(&[bytes], &Writes::new(), u64::MAX)
    }

    fn update_bytes(&self, inputs: &[&[u8]], writes: &Writes, budget: u64) -> Result<Context, Error> {
        let bytes = raw::update(&self.table, inputs, writes.lines(), Budget::new(self.form, budget))
            .map_err(|answer| refused_field(answer, |line| writes.path(line).to_string()))?;
        Ok(Context::made(self.form, bytes))
    }

    /// What may leave a trust boundary: only what stands below the fields of this bag, well typed or not, cut to the budget.
    #[must_use]
    pub fn keep(&self, context: &Context, others: Others, budget: impl Into<Budget>) -> Context {
        let others = match others {
            Others::Cut => sys::CUT,
            Others::Unsaid => sys::UNSAID,
        };
        let budget = budget.into().or_form(self.form);
        Context::made(budget.form(), raw::keep(&self.table, others, &[context.as_bytes()], budget))
    }

    /// The context that comes in from outside, in the values of a header: of what strangers say only the fields of this bag, each read and written anew.
    /// Where anything stays outside, every field is partial, unless [`Limits::drops_partial`] is set. Without a value it is the empty context, since a
    /// request begins here.
    pub fn ingress<'a>(&self, values: impl IntoIterator<Item = &'a [u8]>, limits: &Limits) -> Context {
        let values: Vec<&[u8]> = values.into_iter().collect();
        ingress::let_in(&self.table, &values, limits)
    }

    /// The text of a field's value, as `baggage decode` prints it, of at most [`TEXT_LIMIT`] bytes.
    ///
    /// # Errors
    ///
    /// [`Error::NoField`] where no slot has the path, [`Error::IllTyped`] where the context isn't typed for this bag, [`Error::TooLong`].
    pub fn text(&self, context: &Context, path: &str) -> Result<Field<String>, Error> {
        self.text_within(context, path, TEXT_LIMIT)
    }

    /// The same of at most so many bytes.
    ///
    /// # Errors
    ///
    /// As [`Bag::text`].
    pub fn text_within(&self, context: &Context, path: &str, limit: usize) -> Result<Field<String>, Error> {
        let (value, exact) =
            raw::read_field(&self.table, context.as_bytes(), path, limit).map_err(|answer| refused_field(answer, |_| path.to_string()))?;
        Ok(Field { value, exact })
    }

    /// The text that `baggage decode` prints of the context, with its bytes in a form, of at most [`TEXT_LIMIT`] bytes.
    ///
    /// # Errors
    ///
    /// [`Error::IllTyped`] where the context isn't typed for this bag, [`Error::TooLong`].
    pub fn report(&self, context: &Context, form: Form) -> Result<String, Error> {
        self.report_within(context, form, TEXT_LIMIT)
    }

    /// The same of at most so many bytes.
    ///
    /// # Errors
    ///
    /// As [`Bag::report`].
    pub fn report_within(&self, context: &Context, form: Form, limit: usize) -> Result<String, Error> {
        raw::report(&self.table, &context.to_bytes(form), limit).map_err(refused)
    }
}
