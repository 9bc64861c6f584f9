//! Arguments of a call changed after they were chosen, so that what nearly suits the tables is tried too.

use crate::choices::{edge, near, pick, Near, Pick};
use crate::step::{self, Argument, Step};
use proptest::collection::vec;
use proptest::prelude::*;
use proptest::sample::select;

/// Bytes that names are made of: good ones beside bad ones.
pub const BYTES: &[u8] = b"azAZ09_\0@[`{/: \x7f\x80\xff";

/// A change of one argument, for each sort that it may turn out to be.
#[derive(Clone, Debug)]
pub struct Change {
    argument: Pick,
    at: Pick,
    word: Near,
    list: ListChange,
    bytes: ByteChange,
}

#[derive(Clone, Copy, Debug)]
enum ListChange {
    Word,
    Cut,
    Longer(u64),
    Without,
    Swapped,
    Twice,
}

#[derive(Clone, Copy, Debug)]
enum ByteChange {
    Byte(u8),
    Cut,
    Longer(u8),
    /// The length of a place, or one more.
    Full(usize),
    /// As long as a place, and different in the last byte alone.
    LastByte(u8),
}

fn list_change() -> impl Strategy<Value = ListChange> {
    use ListChange::{Cut, Longer, Swapped, Twice, Without, Word};
    prop_oneof![Just(Word), Just(Cut), edge().prop_map(Longer), Just(Without), Just(Swapped), Just(Twice)]
}

fn byte_change() -> impl Strategy<Value = ByteChange> {
    use ByteChange::{Byte, Cut, Full, LastByte, Longer};
    prop_oneof![
        2 => select(BYTES).prop_map(Byte),
        1 => Just(Cut),
        1 => select(BYTES).prop_map(Longer),
        1 => (32..34_usize).prop_map(Full),
        1 => select(&b"abc"[..]).prop_map(LastByte),
    ]
}

fn change() -> impl Strategy<Value = Change> {
    (pick(), pick(), near(), list_change(), byte_change()).prop_map(|(argument, at, word, list, bytes)| Change { argument, at, word, list, bytes })
}

/// None mostly; one or two for a quarter of the calls.
pub fn changes() -> impl Strategy<Value = Vec<Change>> {
    prop_oneof![3 => Just(Vec::new()), 2 => vec(change(), 0..=2)]
}

/// The step with its arguments changed.
pub fn changed(changes: &[Change], step: Step) -> Step {
    if changes.is_empty() {
        return step;
    }
    let mut arguments = step::arguments(&step);
    for change in changes {
        let at = change.argument.below(arguments.len());
        change.to(&mut arguments[at]);
    }
    step::of(step::name(&step), arguments).expect("each argument is still of its sort")
}

impl Change {
    fn to(&self, argument: &mut Argument) {
        match argument {
            Argument::Word(word) => *word = self.word.to(*word),
            Argument::Words(words) => self.to_list(words),
            Argument::Name(bytes) | Argument::Places(bytes) => self.to_bytes(bytes),
        }
    }

    fn to_list(&self, words: &mut Vec<u64>) {
        let at = self.at.below(words.len());
        match self.list {
            ListChange::Cut => words.truncate(at),
            ListChange::Longer(word) => words.push(word),
            ListChange::Without if at < words.len() => {
                words.remove(at);
            }
            ListChange::Swapped if at + 1 < words.len() => words.swap(at, at + 1),
            ListChange::Twice if at < words.len() => words.insert(at, words[at]),
            _ => words.get_mut(at).into_iter().for_each(|word| *word = self.word.to(*word)),
        }
    }

    fn to_bytes(&self, bytes: &mut Vec<u8>) {
        let at = self.at.below(bytes.len());
        match self.bytes {
            ByteChange::Byte(byte) => bytes.get_mut(at).into_iter().for_each(|there| *there = byte),
            ByteChange::Cut => bytes.truncate(at),
            ByteChange::Longer(byte) => bytes.push(byte),
            ByteChange::Full(length) => bytes.resize(length, b'n'),
            ByteChange::LastByte(byte) => {
                bytes.resize(31, b'n');
                bytes.push(byte);
            }
        }
    }
}
