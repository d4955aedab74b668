//! Wrong programs, made from ours by changing what it answers or leaves behind. The comparison must see each.

use arena::{Block, Position, Refusal, Shape};

use crate::calls::{Answer, Call, Setup};
use crate::choose::Caps;
use crate::drive;
use crate::model::write_list;
use crate::rules::{self, Counters, Segment, View};
use crate::sides::{Ours, Side};

/// A wrong program: its name, and what it does after each call that ours has made and answered.
pub struct Mutant {
    pub name: &'static str,
    edit: fn(&mut Wrong, &Before, &Call, Answer) -> Answer,
}

#[rustfmt::skip]
pub const MUTANTS: [Mutant; 25] = [
    Mutant { name: "refuses everything", edit: refuses_everything },
    Mutant { name: "grants one fixed block", edit: one_fixed_block },
    Mutant { name: "records no header", edit: no_header },
    Mutant { name: "writes no node", edit: no_node },
    Mutant { name: "keeps the list for the first give-back only", edit: first_give_back_only },
    Mutant { name: "invents the discard sum", edit: invented_sum },
    Mutant { name: "forgets discarded at a discard", edit: forgotten_discarded },
    Mutant { name: "invents the discarded count", edit: invented_discarded },
    Mutant { name: "adds the padding to discarded", edit: padding_discarded },
    Mutant { name: "starts the rest at p + need", edit: rest_at_need },
    Mutant { name: "puts a new node after its equals", edit: after_equals },
    Mutant { name: "reports cap - allocated for an optimistic miss", edit: miss_reports_room },
    Mutant { name: "lowers the top when a split rest ends there", edit: rest_lowers_top },
    Mutant { name: "takes Current that reaches 0 as the data offset", edit: current_zero },
    Mutant { name: "does not zero a block", edit: not_zeroed },
    Mutant { name: "zeroes aligned bytes at the top", edit: zeroes_aligned },
    Mutant { name: "zeroes the old node word of a typed block", edit: zeroes_node_word },
    Mutant { name: "reports want for every request under None", edit: reports_want },
    Mutant { name: "passes over a segment of exactly the need", edit: exact_need_refused },
    Mutant { name: "cuts a bytes block's usable part to its memory", edit: usable_cut },
    Mutant { name: "answers true for a range too small to keep", edit: always_true },
    Mutant { name: "refuses the request that exactly fills the top", edit: exact_fill_refused },
    Mutant { name: "refuses a range that only touches a free segment", edit: touching_refused },
    Mutant { name: "lets an overlap pass", edit: overlap_passed },
    Mutant { name: "changes the header on a refusal", edit: refusal_changes },
];

/// Calls after which a mutant that was not seen counts as missed.
const PATIENCE: u64 = 400_000;

/// Runs the comparison against a mutant: the calls compared until it was seen, and the length of the shortest list of
/// calls that was found to show it; none if it was missed.
pub fn seen(mutant: &Mutant, seed: u64) -> Option<(u64, usize)> {
    let make = |setup: &Setup| {
        let ours = Ours::create(setup)?;
        Ok(Box::new(Wrong { ours, edit: mutant.edit, first: None, inserted: false }) as Box<dyn Side>)
    };
    let caps = Caps { most: 4_096, large: 0 };
    let (tally, difference) = drive::compare(PATIENCE, seed, caps, &make);
    difference.map(|found| (tally.compared, found.calls.len()))
}

/// Our side with a mutant's edit, and what some mutants remember.
struct Wrong {
    ours: Ours,
    edit: fn(&mut Wrong, &Before, &Call, Answer) -> Answer,
    first: Option<Block>,
    inserted: bool,
}

/// The arena as the call found it.
struct Before {
    header: arena::Header,
    bytes: Vec<u8>,
    list: Vec<Segment>,
}

impl Side for Wrong {
    fn call(&mut self, call: &Call) -> Answer {
        let before = Before {
            header: self.ours.header,
            bytes: self.ours.buffer().to_vec(),
            list: self.list().unwrap_or_default(),
        };
        let answer = self.ours.call(call);
        if let Call::Fill { .. } = call {
            return answer;
        }
        (self.edit)(self, &before, call, answer)
    }

    fn counters(&self) -> Counters {
        self.ours.counters()
    }

    fn bytes(&self) -> &[u8] {
        self.ours.bytes()
    }

    fn intact(&self) -> bool {
        self.ours.intact()
    }
}

impl Wrong {
    fn shape(&self) -> Shape {
        self.ours.shape
    }

    fn list(&self) -> Option<Vec<Segment>> {
        rules::segments(&View { shape: self.ours.shape, counters: self.ours.counters(), bytes: self.ours.buffer() })
    }

    fn restore(&mut self, before: &Before) {
        self.ours.header = before.header;
        self.ours.buffer_mut().copy_from_slice(&before.bytes);
    }

    fn relink(&mut self, nodes: &[Segment]) {
        self.ours.header.sentinel_next = write_list(nodes, self.ours.buffer_mut());
    }

    /// The nodes after the call, and the place of the one that it added.
    fn added(&self, before: &Before) -> Option<(Vec<Segment>, usize)> {
        let nodes = self.list()?;
        let place = nodes.iter().position(|node| !before.list.contains(node))?;
        Some((nodes, place))
    }

    /// What a request that split a node left: the block, the nodes, and the place of the rest among them.
    fn split(&self, before: &Before, answer: &Answer) -> Option<(Block, Vec<Segment>, usize)> {
        let Answer::Granted(block) = *answer else {
            return None;
        };
        let (nodes, place) = self.added(before)?;
        Some((block, nodes, place))
    }
}

fn refuses_everything(wrong: &mut Wrong, before: &Before, _: &Call, _: Answer) -> Answer {
    wrong.restore(before);
    Answer::Refused(Refusal::Damaged)
}

fn one_fixed_block(wrong: &mut Wrong, before: &Before, _: &Call, answer: Answer) -> Answer {
    match (answer, wrong.first) {
        (Answer::Granted(_), Some(first)) => {
            wrong.restore(before);
            Answer::Granted(first)
        }
        (Answer::Granted(block), None) => {
            wrong.first = Some(block);
            answer
        }
        _ => answer,
    }
}

fn no_header(wrong: &mut Wrong, before: &Before, _: &Call, answer: Answer) -> Answer {
    wrong.ours.header = before.header;
    answer
}

fn no_node(wrong: &mut Wrong, before: &Before, call: &Call, answer: Answer) -> Answer {
    if let Call::Give { .. } = call {
        wrong.ours.buffer_mut().copy_from_slice(&before.bytes);
    }
    answer
}

fn first_give_back_only(wrong: &mut Wrong, before: &Before, call: &Call, answer: Answer) -> Answer {
    let (Call::Give { size, .. }, Some(_)) = (call, wrong.added(before)) else {
        return answer;
    };
    if wrong.inserted {
        wrong.restore(before);
        wrong.ours.header.discarded = wrong.ours.header.discarded.saturating_add(*size);
    }
    wrong.inserted = true;
    answer
}

fn invented_sum(_: &mut Wrong, _: &Before, _: &Call, answer: Answer) -> Answer {
    match answer {
        Answer::Sum(sum) if sum > 0 => Answer::Sum(sum + 1),
        other => other,
    }
}

fn forgotten_discarded(wrong: &mut Wrong, before: &Before, call: &Call, answer: Answer) -> Answer {
    if *call == Call::Discard {
        wrong.ours.header.discarded = before.header.discarded;
    }
    answer
}

fn invented_discarded(wrong: &mut Wrong, before: &Before, _: &Call, answer: Answer) -> Answer {
    if wrong.added(before).is_some() {
        wrong.ours.header.discarded = wrong.ours.header.discarded.wrapping_add(1);
    }
    answer
}

fn padding_discarded(wrong: &mut Wrong, before: &Before, call: &Call, answer: Answer) -> Answer {
    if let (Call::Give { offset, .. }, Some((nodes, place))) = (call, wrong.added(before)) {
        let padding = nodes[place].offset - offset;
        wrong.ours.header.discarded = wrong.ours.header.discarded.wrapping_add(padding);
    }
    answer
}

fn rest_at_need(wrong: &mut Wrong, before: &Before, _: &Call, answer: Answer) -> Answer {
    if let Some((block, mut nodes, place)) = wrong.split(before, &answer) {
        let start = rules::round_up(u64::from(block.memory_offset + block.memory_size), 8);
        nodes[place] = Segment { offset: start as u32, size: (nodes[place].end() - start - 8) as u32 };
        wrong.relink(&nodes);
    }
    answer
}

fn after_equals(wrong: &mut Wrong, before: &Before, _: &Call, answer: Answer) -> Answer {
    if let Some((mut nodes, place)) = wrong.added(before) {
        let node = nodes.remove(place);
        let equals = nodes[place..].iter().take_while(|next| next.size == node.size).count();
        nodes.insert(place + equals, node);
        wrong.relink(&nodes);
    }
    answer
}

fn miss_reports_room(wrong: &mut Wrong, before: &Before, _: &Call, answer: Answer) -> Answer {
    match answer {
        Answer::Refused(Refusal::InsufficientSpace { requested, .. }) if wrong.shape().policy == 1 => {
            let available = wrong.shape().cap - before.header.allocated;
            Answer::Refused(Refusal::InsufficientSpace { requested, available })
        }
        other => other,
    }
}

fn rest_lowers_top(wrong: &mut Wrong, before: &Before, _: &Call, answer: Answer) -> Answer {
    if let Some((block, mut nodes, place)) = wrong.split(before, &answer)
        && nodes.remove(place).end() == u64::from(wrong.ours.header.allocated)
    {
        wrong.relink(&nodes);
        wrong.ours.header.allocated = block.memory_offset + 8 + block.memory_size;
    }
    answer
}

fn current_zero(wrong: &mut Wrong, before: &Before, call: &Call, answer: Answer) -> Answer {
    if *call == Call::Rewind(Position::Current(-i64::from(before.header.allocated))) && before.list.is_empty() {
        wrong.ours.header.allocated = wrong.shape().data_offset;
    }
    answer
}

fn not_zeroed(wrong: &mut Wrong, before: &Before, _: &Call, answer: Answer) -> Answer {
    if let Answer::Granted(block) = answer {
        let usable = block.usable_offset as usize..(block.usable_offset + block.usable_size) as usize;
        wrong.ours.buffer_mut()[usable.clone()].copy_from_slice(&before.bytes[usable]);
    }
    answer
}

fn zeroes_aligned(wrong: &mut Wrong, before: &Before, call: &Call, answer: Answer) -> Answer {
    if let (Call::Aligned { .. }, Answer::Granted(block)) = (call, answer)
        && block.memory_offset == before.header.allocated
    {
        wrong.ours.buffer_mut()[block.usable_offset as usize..][..block.usable_size as usize].fill(0);
    }
    answer
}

fn zeroes_node_word(wrong: &mut Wrong, before: &Before, call: &Call, answer: Answer) -> Answer {
    if let (Call::Typed { .. }, Answer::Granted(block)) = (call, answer)
        && block.memory_offset != before.header.allocated
    {
        wrong.ours.buffer_mut()[block.memory_offset as usize..][..8].fill(0);
    }
    answer
}

fn reports_want(wrong: &mut Wrong, before: &Before, call: &Call, answer: Answer) -> Answer {
    let Call::Aligned { size, align, extra } = *call else {
        return answer;
    };
    match answer {
        Answer::Refused(Refusal::InsufficientSpace { available, .. }) if wrong.shape().policy == 0 && size > 0 => {
            let requested = before.header.allocated.next_multiple_of(align) + size + extra;
            Answer::Refused(Refusal::InsufficientSpace { requested, available })
        }
        other => other,
    }
}

fn exact_need_refused(wrong: &mut Wrong, before: &Before, call: &Call, answer: Answer) -> Answer {
    let (Call::Bytes { size }, Answer::Granted(block)) = (*call, answer) else {
        return answer;
    };
    if before.list.contains(&Segment { offset: block.memory_offset, size }) {
        let available = wrong.shape().cap - before.header.allocated;
        wrong.restore(before);
        return Answer::Refused(Refusal::InsufficientSpace { requested: size, available });
    }
    answer
}

fn usable_cut(_: &mut Wrong, _: &Before, _: &Call, answer: Answer) -> Answer {
    match answer {
        Answer::Granted(block) => {
            let end = block.memory_offset + block.memory_size;
            let usable_size = block.usable_size.min(end - block.usable_offset.min(end));
            Answer::Granted(Block { usable_size, ..block })
        }
        other => other,
    }
}

fn always_true(_: &mut Wrong, _: &Before, _: &Call, answer: Answer) -> Answer {
    match answer {
        Answer::GivenBack(_) => Answer::GivenBack(true),
        other => other,
    }
}

fn exact_fill_refused(wrong: &mut Wrong, before: &Before, call: &Call, answer: Answer) -> Answer {
    let (Call::Bytes { size }, Answer::Granted(block)) = (*call, answer) else {
        return answer;
    };
    if block.memory_offset == before.header.allocated && wrong.ours.header.allocated == wrong.shape().cap {
        wrong.restore(before);
        return Answer::Refused(Refusal::InsufficientSpace { requested: size, available: size });
    }
    answer
}

fn touching_refused(wrong: &mut Wrong, before: &Before, call: &Call, answer: Answer) -> Answer {
    let (Call::Give { offset, size }, Answer::GivenBack(_)) = (*call, answer) else {
        return answer;
    };
    let (start, end) = (u64::from(offset), u64::from(offset) + u64::from(size));
    if before.list.iter().any(|node| node.end() == start || u64::from(node.offset) == end) {
        wrong.restore(before);
        return Answer::Refused(Refusal::Overlap);
    }
    answer
}

fn overlap_passed(_: &mut Wrong, _: &Before, _: &Call, answer: Answer) -> Answer {
    match answer {
        Answer::Refused(Refusal::Overlap) => Answer::GivenBack(true),
        other => other,
    }
}

fn refusal_changes(wrong: &mut Wrong, _: &Before, _: &Call, answer: Answer) -> Answer {
    if let Answer::Refused(_) = answer {
        wrong.ours.header.discarded = wrong.ours.header.discarded.wrapping_add(1);
    }
    answer
}
