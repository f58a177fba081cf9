//! Change request 2026-03 on the calls of a run, seen from outside: what was fed to a reader since its opening, and what it must therefore
//! answer. Nothing here looks into the block.

use crate::random::{Call, Outcome};

/// A reader, and the table that arrives at it.
#[derive(Clone, Default)]
pub struct Reading {
    pub store_length: u64,
    /// The bytes that are still to arrive.
    pub coming: Vec<u8>,
    /// The bytes that count: none after a refusal, or after the told end.
    pub fed: Vec<u8>,
    /// What it says for good: 0, or the number of the refusal and its place.
    pub verdict: Option<(u32, u64)>,
    /// The block is the one that was opened, and nobody else wrote it.
    pub known: bool,
}

impl Reading {
    pub fn opened(store_length: u64, coming: Vec<u8>) -> Reading {
        Reading { store_length, coming, known: true, ..Reading::default() }
    }

    /// What a call at the reader did: the fragment and what edd_reader_write left in its buffer are those of this call.
    pub fn follow(&mut self, call: &Call, got: &Outcome, fragment: &[u8], out: &[u8]) -> Result<(), String> {
        if got.answer == 25 {
            return Err("25 at a reader that nobody else wrote".into());
        }
        let said = (got.answer, if got.answer == 0 { 0 } else { got.numbers[0] });
        match call {
            Call::ReaderFeed | Call::ReaderEnd => match self.verdict {
                Some(before) if said != before => return Err(format!("it said {before:?} before")),
                Some(_) => {}
                None => {
                    self.fed.extend(fragment);
                    self.verdict = (got.answer != 256).then_some(said);
                }
            },
            Call::ReaderWrite => {
                let fits = out.len() >= self.fed.len();
                let wanted = match self.verdict {
                    None => 256,
                    Some((0, _)) => {
                        if fits {
                            0
                        } else {
                            19
                        }
                    }
                    Some((number, _)) => number,
                };
                if got.answer != wanted {
                    return Err(format!("not the answer {wanted} of a reader that said {:?}", self.verdict));
                }
                if wanted == 0 && (got.numbers[0] != self.fed.len() as u64 || !out.starts_with(&self.fed)) {
                    return Err("the table written is not the one fed".into());
                }
            }
            _ => {}
        }
        Ok(())
    }

    /// Against the reading of all those bytes as a whole, edd_open's answer and place: "Missing bytes are reported only at the end of
    /// input, any other refusal by the feed whose bytes settle it."
    pub fn equals_whole(&self, told: bool, whole: (u32, u64)) -> Result<(), String> {
        let expected = match whole {
            (0 | 1, _) if !told => None,
            (0, _) => Some((0, 0)),
            refusal => Some(refusal),
        };
        if self.verdict == expected {
            Ok(())
        } else {
            Err(format!("after {} bytes it said {:?}; the whole reading {whole:?}", self.fed.len(), self.verdict))
        }
    }
}
