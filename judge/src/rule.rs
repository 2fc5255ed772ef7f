//! The rules of document 01, "Sound memory", one case each.
//!
//! Rules that the layout makes true of every memory have no case: `used` and `total_caps` are the live count, the
//! generation of an id is its revoked bit, and a child with one link stands in one list at most once.

#[derive(Clone, Copy, PartialEq, Eq, PartialOrd, Ord, Debug)]
pub enum Rule {
    /// Opening numbers lie in range.
    Numbers,
    /// The lent memory is as long as the formula says.
    Length,

    /// Quotas are at most M.
    Quota,
    /// Coded fields: the generation of a space has 8 bits.
    Generation,
    /// A table has 0 slots or a power of two from 8 to C.
    Slots,
    /// No live entries means 0 slots.
    NoLive,
    /// live <= M.
    Live,
    /// 4(live + removed) <= 3 x slots.
    Load,
    /// Coded fields: a slot is empty, removed or full.
    Kind,
    /// A table's counts agree with its slots.
    Counts,
    /// The ids of a table differ.
    EntriesDiffer,
    /// Every entry is met on its own walk before an empty slot.
    Met,

    /// next is 1..2^48.
    Next,
    /// At most R ids are registered.
    Registered,
    /// Registered ids lie in 1..next-1.
    RegisteredRange,
    /// Registered ids differ.
    RegisteredDiffer,
    /// An id's holders are at most the spaces with an entry of that id.
    Holders,
    /// A parent is registered and parent links end: a link names an earlier place.
    Link,
    /// A child stands in a list: the place that a link names has one.
    Listed,
    /// A revoked parent's children are revoked.
    Revoked,
    /// Lists hold at most 1,024.
    Children,
    /// At most R + 1 ids are recycled.
    Recycled,
    /// Recycled ids lie in 1..next-1.
    RecycledRange,
    /// Recycled ids ascend.
    RecycledAscend,
    /// Recycled ids are not registered.
    RecycledFree,

    /// At most V pairs are logged.
    Logged,
    /// Coded fields: a log pair is an id of 48 bits and a generation of 8.
    Pair,
    /// Log pairs differ.
    PairsDiffer,

    /// Queues are at most 256 long.
    QueueLength,
    /// Coded fields: a ring starts at one of its 256 notices.
    First,
    /// Coded fields: a notice's reason is one of the four.
    Reason,
    /// Queues have different pids.
    PidsDiffer,
}

impl Rule {
    pub const ALL: [Rule; 32] = [
        Rule::Numbers,
        Rule::Length,
        Rule::Quota,
        Rule::Generation,
        Rule::Slots,
        Rule::NoLive,
        Rule::Live,
        Rule::Load,
        Rule::Kind,
        Rule::Counts,
        Rule::EntriesDiffer,
        Rule::Met,
        Rule::Next,
        Rule::Registered,
        Rule::RegisteredRange,
        Rule::RegisteredDiffer,
        Rule::Holders,
        Rule::Link,
        Rule::Listed,
        Rule::Revoked,
        Rule::Children,
        Rule::Recycled,
        Rule::RecycledRange,
        Rule::RecycledAscend,
        Rule::RecycledFree,
        Rule::Logged,
        Rule::Pair,
        Rule::PairsDiffer,
        Rule::QueueLength,
        Rule::First,
        Rule::Reason,
        Rule::PidsDiffer,
    ];
}
