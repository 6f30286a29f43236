//! A context, its forms and its budgets.

use crate::error::{refused_bytes, Error};
use crate::raw;
use std::fmt;
use std::ops::{BitOr, BitOrAssign};
use std::sync::Arc;

/// The forms of bytes. Form two begins with the number of its bytes.
#[derive(Clone, Copy, Debug, Default, PartialEq, Eq, Hash)]
pub enum Form {
    /// Without a head; atoms of up to 65,535 bytes. A context with a longer one is written in form two all the same.
    #[default]
    One,
    /// With a head of twelve bytes; atoms of up to 1,048,576 bytes.
    Two,
}

/// How many bytes a context may have, in a form. A number alone, as in `cut(64)`, counts in form one, or in the form of the bag that takes it.
#[derive(Clone, Copy, Debug, PartialEq, Eq)]
pub struct Budget {
    form: Option<Form>,
    bytes: u64,
}

impl Budget {
    /// So many bytes in a form. A number that nothing fits into is raised to the least budget: 1, or 13 in form two.
    #[must_use]
    pub const fn new(form: Form, bytes: u64) -> Budget {
        let least = match form {
            Form::One => 1,
            Form::Two => 13,
        };
        Budget { form: Some(form), bytes: if bytes < least { least } else { bytes } }
    }

    /// No limit.
    pub const NONE: Budget = Budget { form: None, bytes: u64::MAX };

    pub(crate) const fn none(form: Form) -> Budget {
        Budget::new(form, u64::MAX)
    }

    /// The same budget where a number alone counts in this form.
    pub(crate) fn or_form(self, form: Form) -> Budget {
        Budget::new(self.form.unwrap_or(form), self.bytes)
    }

    pub(crate) fn form(self) -> Form {
        self.form.unwrap_or_default()
    }

    pub(crate) fn bytes(self) -> u64 {
        self.bytes
    }
}

impl From<u64> for Budget {
    /// So many bytes in form one, or in the form of the bag that takes them.
    fn from(bytes: u64) -> Budget {
        Budget { form: None, ..Budget::new(Form::One, bytes) }
    }
}

/// A context. It is always valid and never changes; a clone of it is a branch, and costs no copy. The default is the empty one: nothing is said, and
/// nothing is missing.
// The bytes are a context's, in form one, or in form two where an atom is too long; so equal contexts have equal bytes.
#[derive(Clone, PartialEq, Eq, Hash)]
pub struct Context(Arc<[u8]>);

impl Context {
    /// What stands for a context that was promised and can't be read: every field is partial.
    #[must_use]
    pub fn lost() -> Context {
        Context(terncommode_sys::LOST.as_slice().into())
    }

    /// The context with these bytes, which may be in either form.
    ///
    /// # Errors
    ///
    /// [`Error::Fault`] with the first fault, where the bytes aren't a context's.
    pub fn from_bytes(bytes: &[u8]) -> Result<Context, Error> {
        raw::try_join(&[bytes], Budget::NONE).map(|bytes| Context(bytes.into())).map_err(refused_bytes)
    }

    /// The bytes in form one, or in form two where an atom is too long for form one.
    #[must_use]
    pub fn as_bytes(&self) -> &[u8] {
        &self.0
    }

    /// The bytes in a form.
    #[must_use]
    pub fn to_bytes(&self, form: Form) -> Vec<u8> {
        match form {
            Form::One => self.0.to_vec(),
            Form::Two => raw::join(&[&self.0], Budget::none(form)),
        }
    }

    /// The merge of any number of contexts. That of none is the empty one, and that of one is a clone.
    pub fn join<'a>(contexts: impl IntoIterator<Item = &'a Context>) -> Context {
        let contexts: Vec<&Context> = contexts.into_iter().collect();
        if let [one] = contexts[..] {
            return one.clone();
        }
        let inputs: Vec<&[u8]> = contexts.into_iter().map(Context::as_bytes).collect();
        Context(raw::join(&inputs, Budget::NONE).into())
    }

    /// The context within a budget: `cut(64)`, or `cut(Budget::new(Form::Two, 64))`.
    #[must_use]
    pub fn cut(&self, budget: impl Into<Budget>) -> Context {
        let budget = budget.into();
        Context::made(budget.form(), raw::join(&[&self.0], budget))
    }

    /// Whether nothing is said and nothing is missing.
    #[must_use]
    pub fn is_empty(&self) -> bool {
        self.0.is_empty()
    }

    /// The context of what the library has written in a form.
    pub(crate) fn made(form: Form, bytes: Vec<u8>) -> Context {
        match form {
            Form::One => Context(bytes.into()),
            Form::Two => Context(raw::join(&[&bytes], Budget::NONE).into()),
        }
    }
}

impl Default for Context {
    fn default() -> Context {
        Context([].as_slice().into())
    }
}

impl From<Context> for Vec<u8> {
    fn from(context: Context) -> Vec<u8> {
        context.0.to_vec()
    }
}

impl<'a> FromIterator<&'a Context> for Context {
    /// The merge of all of them.
    fn from_iter<I: IntoIterator<Item = &'a Context>>(contexts: I) -> Context {
        Context::join(contexts)
    }
}

impl BitOr for &Context {
    type Output = Context;

    /// The merge of both.
    fn bitor(self, other: &Context) -> Context {
        Context::join([self, other])
    }
}

impl BitOrAssign<&Context> for Context {
    fn bitor_assign(&mut self, other: &Context) {
        *self = &*self | other;
    }
}

impl AsRef<[u8]> for Context {
    fn as_ref(&self) -> &[u8] {
        &self.0
    }
}

impl TryFrom<&[u8]> for Context {
    type Error = Error;

    fn try_from(bytes: &[u8]) -> Result<Context, Error> {
        Context::from_bytes(bytes)
    }
}

impl fmt::Debug for Context {
    fn fmt(&self, out: &mut fmt::Formatter<'_>) -> fmt::Result {
        out.write_str("Context(")?;
        self.0.iter().try_for_each(|byte| write!(out, "{byte:02x}"))?;
        out.write_str(")")
    }
}
