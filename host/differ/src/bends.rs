//! Ways in which a list that one call plays is lent otherwise than it was made, and how much of it is then played.

use crate::call_words::{push, step_at, takes, SPANS};
use crate::choices::Pick;
use crate::one_call::{Compared, Lent};
use crate::step::Step;
use gukoremo::outcome::SHORT_ANSWER_AREA;
use gukoremo::session::{CallRecord, MADE_FRESH, TOLD_SIZE};
use gukoremo::CallList;
use second::Call;

#[derive(Clone, Copy, Debug, PartialEq, Eq)]
pub enum Way {
    ShortTold,
    UnknownKind,
    FreshBehind,
    FreshInFront,
    /// A span that the step takes.
    Span(Past),
    /// One that it does not take.
    SpareSpan(Past),
    /// The same, still within its run.
    SpareSpanWithin,
    ShortArea,
    FullArea,
}

/// How a span leaves its run.
#[derive(Clone, Copy, Debug, PartialEq, Eq)]
pub enum Past {
    ByOne,
    Far,
    /// The sum of start and length is past 2^64, and would be within the run if it wrapped.
    Wrapping,
}

pub const WAYS: [(Way, &str); 13] = [
    (Way::ShortTold, "with too little room for what is told"),
    (Way::UnknownKind, "with a record of no kind"),
    (Way::FreshBehind, "with Fresh behind the first"),
    (Way::FreshInFront, "with Fresh in front"),
    (Way::Span(Past::ByOne), "with a span past its run by one"),
    (Way::Span(Past::Far), "by far"),
    (Way::Span(Past::Wrapping), "past 2^64"),
    (Way::SpareSpan(Past::ByOne), "with a span that is not taken past its run by one"),
    (Way::SpareSpan(Past::Far), "by far"),
    (Way::SpareSpan(Past::Wrapping), "past 2^64"),
    (Way::SpareSpanWithin, "with one within it"),
    (Way::ShortArea, "with an answer refused for its area and more behind it"),
    (Way::FullArea, "with no word of the area left"),
];

/// No call and no reading is of these kinds.
const UNKNOWN: [u64; 8] = [0, 5, 8, 99, 103, 199, 209, u64::MAX];

/// A way, by its place among them, and three choices of it: of the record, of what is changed there, of how.
#[derive(Clone, Copy, Debug)]
pub struct Bend {
    pub way: usize,
    pub record: Pick,
    pub which: Pick,
    pub how: Pick,
}

/// A list that was bent, and how many of its records are then to be played.
pub struct Bent {
    pub lent: Lent,
    played: usize,
}

impl Bend {
    /// A list, whose answers are so many words when it is played as it is, bent; none where it has nothing to bend in that way, or ends early by itself.
    pub fn on(&self, whole: &Lent, answered: usize) -> Option<Bent> {
        let mut lent = whole.clone();
        let list = &mut lent.list;
        let steps: Vec<Step> = (0..list.len()).map(|i| step_at(list, i)).collect::<Option<_>>()?;
        if steps.is_empty() {
            return None;
        }
        let record = self.record.below(steps.len());
        let played = match WAYS[self.way].0 {
            Way::ShortTold => {
                lent.told -= 1 + self.how.below(lent.told);
                lent.told / TOLD_SIZE
            }
            Way::UnknownKind => {
                list.calls[record * CallRecord::SIZE + CallRecord::KIND] = self.how.of(&UNKNOWN)?;
                record
            }
            Way::FreshBehind if steps.len() > 1 => {
                let behind = 1 + self.record.below(steps.len() - 1);
                list.calls[behind * CallRecord::SIZE + CallRecord::KIND] = MADE_FRESH;
                behind
            }
            Way::FreshInFront if !matches!(steps[..], [Step::Call(Call::Fresh { .. }), ..]) => {
                push(list, &Step::Call(Call::Fresh { time: self.how.of(&[100, 0, u64::MAX])? }));
                list.calls.rotate_right(CallRecord::SIZE);
                lent.told += TOLD_SIZE;
                steps.len() + 1
            }
            Way::Span(past) => self.move_span(list, &steps, true, |start, size| past.span(self.how, start, size))?,
            Way::SpareSpan(past) => self.move_span(list, &steps, false, |start, size| past.span(self.how, start, size))?,
            Way::SpareSpanWithin => {
                self.move_span(list, &steps, false, |_, size| within(self.how, size))?;
                steps.len()
            }
            Way::ShortArea if answered > 0 => {
                lent.area = self.how.below(answered);
                steps.len()
            }
            Way::FullArea if answered > 0 => {
                lent.area = answered;
                steps.len()
            }
            Way::FreshBehind | Way::FreshInFront | Way::ShortArea | Way::FullArea => return None,
        };
        Some(Bent { lent, played })
    }

    /// Another start and length in a span of some record that is taken, or that is not; gives the record.
    fn move_span(&self, list: &mut CallList, steps: &[Step], is_taken: bool, to: impl Fn(u64, u64) -> (u64, u64)) -> Option<usize> {
        let spans = |step: &Step| (0..SPANS.len()).filter(|span| takes(step)[*span] == is_taken).collect::<Vec<usize>>();
        let records: Vec<usize> = (0..steps.len()).filter(|i| !spans(&steps[*i]).is_empty()).collect();
        let record = self.record.of(&records)?;
        let (start, length, is_of_words) = SPANS[self.which.of(&spans(&steps[record]))?];
        let size = if is_of_words { list.lists.len() } else { list.names.len() };
        let words = &mut list.calls[record * CallRecord::SIZE..][..CallRecord::SIZE];
        (words[start], words[length]) = to(words[start], size as u64);
        Some(record)
    }
}

impl Past {
    /// A start and a length, by the span's own start and the length of its run.
    fn span(self, how: Pick, start: u64, size: u64) -> (u64, u64) {
        let spans = match self {
            Past::ByOne => [(start, size - start + 1), (size, 1), (size + 1, 0)],
            Past::Far => [(start, u64::MAX - start), (size + 1, 1 << 40), (u64::MAX, 0)],
            Past::Wrapping => [(1, u64::MAX), (size + 1, u64::MAX), (u64::MAX, size + 1)],
        };
        spans[how.below(spans.len())]
    }
}

/// A span that lies in a run of that length.
fn within(how: Pick, size: u64) -> (u64, u64) {
    let spans = [(0, 0), (size, 0), (0, size), (size / 2, size - size / 2)];
    spans[how.below(spans.len())]
}

impl Bent {
    /// Whether it showed in what came of it; an error where not as much was played as is to be.
    pub fn showed(&self, bend: &Bend, found: &Compared) -> Result<bool, String> {
        if found.steps.len() != self.played {
            return Err(format!("{}: {} records {}, and not {}", self.lent, found.steps.len(), WAYS[bend.way].1, self.played));
        }
        let mut outcomes = found.steps.iter().map(|(_, outcome)| outcome.number);
        Ok(match WAYS[bend.way].0 {
            Way::ShortArea => outcomes.any(|number| number == SHORT_ANSWER_AREA) && outcomes.next().is_some(),
            Way::FullArea => found.answered == self.lent.area,
            _ => true,
        })
    }
}
