//! Invocations: what a message says, its parameters, and writing one step by step.

use crate::foreign::{self, State};
use crate::refusal::{found, Refusal};
use crate::value::{answered_type, text, Form, Value, WireType};
use crate::written;
use std::fmt;

/// What an invocation says before its parameters.
#[derive(Clone, Copy, Debug, PartialEq, Eq)]
pub struct Invocation<'m> {
    /// 0 or 1.
    pub version: u8,
    /// The name of the procedure that is called.
    pub procedure: &'m str,
    /// The client's own bytes, which the response brings back.
    pub client: [u8; 8],
    /// How many parameters there are.
    pub parameters: usize,
    /// Where the first one begins in the message.
    pub parameters_at: usize,
}

/// What an invocation says before its parameters.
pub fn invocation(message: &[u8]) -> Result<Invocation<'_>, Refusal> {
    let mut n = [0; 6];
    // SAFETY: the pointer and the length are those of a slice, which is only read; the numbers are lent for writing and are nobody else's.
    found(unsafe { foreign::chaloenpik_invocation(message.as_ptr(), message.len(), &mut n) })?;
    Ok(Invocation {
        version: n[0] as u8,
        procedure: text(message, n[1], n[2])?,
        client: n[3].to_be_bytes(),
        parameters: n[4] as usize,
        parameters_at: n[5] as usize,
    })
}

/// A parameter of an invocation.
#[derive(Clone, Copy, Debug, PartialEq)]
pub enum Parameter<'m> {
    /// A null without a type.
    Null,
    /// One value.
    One(Value<'m>),
    /// An array, whose elements [`element`] gives.
    Array {
        /// The type of its elements.
        wire_type: WireType,
        /// How many they are.
        count: usize,
    },
}

/// The form, in numbers, of an array.
const MANY: u64 = 3;

/// A parameter of an invocation, by its number from 0.
pub fn parameter(message: &[u8], number: usize) -> Result<Parameter<'_>, Refusal> {
    let mut numbers = [0; 4];
    // SAFETY: as above.
    found(unsafe { foreign::chaloenpik_parameter(message.as_ptr(), message.len(), number, &mut numbers) })?;
    match numbers {
        [_, MANY, wire_type, count] => Ok(Parameter::Array { wire_type: answered_type(wire_type)?, count: count as usize }),
        [wire_type, ..] if wire_type == u64::from(WireType::Null.byte()) => Ok(Parameter::Null),
        numbers => Value::from_numbers(message, numbers).map(Parameter::One),
    }
}

/// An element of an array among the parameters of an invocation, by both numbers from 0. Refused 6: the parameter is no array.
pub fn element(message: &[u8], number: usize, element: usize) -> Result<Value<'_>, Refusal> {
    let mut numbers = [0; 4];
    // SAFETY: as above.
    found(unsafe { foreign::chaloenpik_element(message.as_ptr(), message.len(), number, element, &mut numbers) })?;
    Value::from_numbers(message, numbers)
}

/// An invocation that is being written into a lent buffer.
///
/// Each step gives the writer back, so that steps can be chained. A refused step changes nothing, and another may be tried.
/// [`CallWriter::finish`] consumes the writer and gives the message.
///
/// ```
/// use chaloenpik::{parameter, CallWriter, Parameter, Value, WireType};
///
/// let mut out = [0; 200];
/// let mut call = CallWriter::begin(&mut out, 0, "EngineLimits", 42u64.to_be_bytes())?;
/// call.param("Bodil")?.array(WireType::Integer, [1, 2])?.bytes(&[1, 2])?.null()?;
/// let message = call.finish()?;
/// assert_eq!(message, include_bytes!("../../../samples/3-engine-limits.bin"));
/// assert_eq!(parameter(message, 0)?, Parameter::One(Value::from("Bodil")));
/// # Ok::<(), chaloenpik::Refusal>(())
/// ```
///
/// A writer that is finished can't be used again:
///
/// ```compile_fail,E0382
/// # let mut out = [0; 200];
/// # let mut call = chaloenpik::CallWriter::begin(&mut out, 0, "EngineLimits", [0; 8]).unwrap();
/// call.finish();
/// call.null();
/// ```
#[must_use = "before it is finished there is no message"]
pub struct CallWriter<'b> {
    out: &'b mut [u8],
    state: State,
    position: usize,
}

type Step = unsafe extern "C" fn(*mut u8, usize, *mut State) -> u64;
type FixedStep = unsafe extern "C" fn(*mut u8, usize, *mut State, u8, u64, u64) -> u64;
type BodyStep = unsafe extern "C" fn(*mut u8, usize, *mut State, u8, bool, *const u8, usize) -> u64;

/// Without the buffer, which may be long.
impl fmt::Debug for CallWriter<'_> {
    fn fmt(&self, f: &mut fmt::Formatter<'_>) -> fmt::Result {
        f.debug_struct("CallWriter").field("position", &self.position).finish_non_exhaustive()
    }
}

impl<'b> CallWriter<'b> {
    /// Begins an invocation of a procedure. The client's bytes come back in the response.
    pub fn begin(out: &'b mut [u8], version: u8, procedure: &str, client: [u8; 8]) -> Result<Self, Refusal> {
        let mut state = State::default();
        // SAFETY: pointers and lengths are those of slices; what is written, buffer and state, is lent alone.
        let position = found(unsafe {
            foreign::chaloenpik_begin_call(out.as_mut_ptr(), out.len(), &mut state, version, procedure.as_ptr(), procedure.len(), &client)
        })?;
        Ok(CallWriter { out, state, position })
    }

    /// How many bytes are written.
    pub fn position(&self) -> usize {
        self.position
    }

    /// A parameter of one value.
    pub fn param<'v>(&mut self, value: impl Into<Value<'v>>) -> Result<&mut Self, Refusal> {
        self.value(foreign::chaloenpik_fixed_param, foreign::chaloenpik_body_param, value.into())
    }

    /// A null parameter, without a type. That of a type is a value.
    pub fn null(&mut self) -> Result<&mut Self, Refusal> {
        self.step(foreign::chaloenpik_null_param)
    }

    /// A parameter that is an array of tinyints, from its bytes.
    pub fn bytes(&mut self, bytes: &[u8]) -> Result<&mut Self, Refusal> {
        // SAFETY: as above.
        let answer =
            unsafe { foreign::chaloenpik_bytes_param(self.out.as_mut_ptr(), self.out.len(), &mut self.state, bytes.as_ptr(), bytes.len()) };
        self.reached(answer)
    }

    /// A parameter that is an array of elements of a type: opened, filled and closed. If one of these steps is refused the writer is as
    /// it was before the first, though bytes past its position may not be. Tinyints are written by [`CallWriter::bytes`].
    pub fn array<'v, V: Into<Value<'v>>>(
        &mut self, wire_type: WireType, elements: impl IntoIterator<Item = V>,
    ) -> Result<&mut Self, Refusal> {
        let before = (self.state, self.position);
        let written = self.whole_array(wire_type, elements);
        if written.is_err() {
            (self.state, self.position) = before;
        }
        written.map(|()| self)
    }

    fn whole_array<'v, V: Into<Value<'v>>>(&mut self, wire_type: WireType, elements: impl IntoIterator<Item = V>) -> Result<(), Refusal> {
        self.open_array(wire_type)?;
        for element in elements {
            self.element(element)?;
        }
        self.close_array().map(|_| ())
    }

    /// Opens an array of elements of a type, any but tinyint.
    pub fn open_array(&mut self, wire_type: WireType) -> Result<&mut Self, Refusal> {
        // SAFETY: as above.
        let answer = unsafe { foreign::chaloenpik_open_array(self.out.as_mut_ptr(), self.out.len(), &mut self.state, wire_type.byte()) };
        self.reached(answer)
    }

    /// An element of the open array.
    pub fn element<'v>(&mut self, value: impl Into<Value<'v>>) -> Result<&mut Self, Refusal> {
        self.value(foreign::chaloenpik_fixed_element, foreign::chaloenpik_body_element, value.into())
    }

    /// Closes the open array.
    pub fn close_array(&mut self) -> Result<&mut Self, Refusal> {
        self.step(foreign::chaloenpik_close_array)
    }

    /// Finishes the invocation, and gives the message, which stands in front of the buffer.
    ///
    /// Refused 13: an array is open. The writer is consumed then too, and what it wrote is no message.
    pub fn finish(mut self) -> Result<&'b [u8], Refusal> {
        self.step(foreign::chaloenpik_finish_call)?;
        written(self.out, self.position)
    }

    fn reached(&mut self, answer: u64) -> Result<&mut Self, Refusal> {
        self.position = found(answer)?;
        Ok(self)
    }

    fn step(&mut self, step: Step) -> Result<&mut Self, Refusal> {
        // SAFETY: as above.
        let answer = unsafe { step(self.out.as_mut_ptr(), self.out.len(), &mut self.state) };
        self.reached(answer)
    }

    /// A value, by the step for its form.
    fn value(&mut self, fixed: FixedStep, body: BodyStep, value: Value<'_>) -> Result<&mut Self, Refusal> {
        let (out, size, state) = (self.out.as_mut_ptr(), self.out.len(), &mut self.state);
        let wire_type = value.wire_type().byte();
        let answer = match value.form() {
            // SAFETY: as above.
            Form::Fixed(bits) => unsafe { fixed(out, size, state, wire_type, (bits >> 64) as u64, bits as u64) },
            Form::Body(bytes) => {
                let body_bytes = bytes.unwrap_or_default();
                // SAFETY: as above.
                unsafe { body(out, size, state, wire_type, bytes.is_none(), body_bytes.as_ptr(), body_bytes.len()) }
            }
        };
        self.reached(answer)
    }
}
