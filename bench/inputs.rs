//! Inputs of one length, one after another, and a codec's call on each of them in turn.

use crate::codec::{Action, Call, Codec, EachCall, Flavor, MeasuredCall, Question, call_name};
use crate::expected::expected;
use crate::sets::at_page_start;
use crate::timing::Measured;
use std::slice::ChunksExact;

#[derive(Clone, Copy)]
pub struct Inputs {
    pub bytes: &'static [u8],
    /// The length of each input.
    pub length: usize,
}

impl Inputs {
    pub fn one(bytes: &'static [u8]) -> Inputs {
        Inputs {
            bytes,
            length: bytes.len(),
        }
    }

    pub fn iter(self) -> ChunksExact<'static, u8> {
        self.bytes.chunks_exact(self.length)
    }

    pub fn count(self) -> usize {
        self.iter().len()
    }
}

/// A call on inputs of a kind, and the result that it must return for each, or `None` if it must
/// reject the input.
pub struct Case<'a> {
    action: Action,
    flavor: Flavor,
    kind: &'a str,
    inputs: Inputs,
    answers: Vec<Option<Vec<u8>>>,
}

impl<'a> Case<'a> {
    pub fn new(action: Action, flavor: Flavor, kind: &'a str, inputs: Inputs) -> Case<'a> {
        let answers = inputs.iter().map(|input| expected(action, flavor, input));
        Case {
            action,
            flavor,
            kind,
            inputs,
            answers: answers.collect(),
        }
    }

    /// A call on one input that repeats a part. The part must end at the end of a character.
    pub fn repeated(
        action: Action,
        flavor: Flavor,
        kind: &'a str,
        part: &[u8],
        times: usize,
    ) -> Case<'a> {
        let answer = expected(action, flavor, part);
        Case {
            action,
            flavor,
            kind,
            inputs: Inputs::one(at_page_start(&part.repeat(times))),
            answers: vec![answer.map(|answer| answer.repeat(times))],
        }
    }

    /// Whether the call accepts at least one of the inputs.
    pub fn is_answered(&self) -> bool {
        self.answers.iter().any(Option::is_some)
    }

    /// Whether each result equals the input, so that it is borrowed.
    pub fn is_borrowed(&self) -> bool {
        let mut pairs = self.inputs.iter().zip(&self.answers);
        !self.action.tells_length() && pairs.all(|(input, answer)| answer.as_deref() == Some(input))
    }

    /// Tests that a call returns the right result for each input.
    fn check(&self, codec: &Codec, call: Call) -> Result<(), String> {
        for (input, answer) in self.inputs.iter().zip(&self.answers) {
            let question = Question {
                action: self.action,
                flavor: self.flavor,
                kind: self.kind,
                input,
                answer: answer.as_deref(),
            };
            question.check(codec, call)?;
        }
        Ok(())
    }

    /// Tests that a call on all inputs returns the sum of the lengths of the right results.
    fn check_sum(&self, codec: &Codec, call: EachCall) -> Result<(), String> {
        let answers = self.answers.iter().flatten();
        let sum: usize = answers.map(|answer| answer.len()).sum();
        let Inputs { bytes, length } = self.inputs;
        // SAFETY: the pointer and the length are those of `bytes`, which are never freed.
        let outcome = unsafe { call(bytes.as_ptr(), bytes.len(), length, 1) };
        if outcome.has_answer && outcome.length == sum {
            return Ok(());
        }
        Err(format!(
            "{}: {}_each adds up wrongly on texts of {length} bytes of {}",
            codec.name,
            call_name(self.action, self.flavor),
            self.kind
        ))
    }

    /// Prepares the measurement of a codec's call on bytes, or returns `None` if the codec has no such
    /// call. It is an error if the call returns a wrong result for one of the inputs.
    pub fn measured_bytes(&self, codec: &Codec) -> Result<Option<Measured>, String> {
        let Some(call) = codec.call(self.action, self.flavor) else {
            return Ok(None);
        };
        self.check(codec, call)?;
        Ok(Some(Measured::of_inputs(call, self.inputs)))
    }

    /// Like `measured_bytes`, but a call on a text is measured without a test for UTF-8.
    pub fn measured(&self, codec: &Codec) -> Result<Option<Measured>, String> {
        if !self.action.takes_text() {
            return self.measured_bytes(codec);
        }
        let Some(measured) = codec.text_call(self.action, self.flavor) else {
            return Ok(None);
        };
        Ok(Some(match measured {
            MeasuredCall::One(call) => {
                self.check(codec, call)?;
                Measured::of_inputs(call, self.inputs)
            }
            // This export returns no bytes, so the call on one text is checked instead.
            MeasuredCall::Each(each) => {
                let call = codec.call(self.action, self.flavor);
                call.map_or(Ok(()), |call| self.check(codec, call))?;
                self.check_sum(codec, each)?;
                Measured::of_texts(each, self.inputs)
            }
        }))
    }
}
