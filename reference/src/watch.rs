//! What happened: every rule of the documents by name, each way in which it acts or leaves things alone.
//!
//! The step tells a `Watch` which rule it took. The watch `()` costs nothing; a `Tally` counts. A new rule is added at
//! the end: the corpus's searches are seeded by a rule's place. What the outputs in the way are like is told beside the
//! step, where they are asked for.

use crate::network::{EDITION, EDITION_2, EDITION_3, SPLIT};

/// Sees each rule as it is taken.
pub trait Watch {
    fn saw(&mut self, rule: Rule);
}

impl Watch for () {
    #[inline(always)]
    fn saw(&mut self, _: Rule) {}
}

impl<W: Watch> Watch for &mut W {
    fn saw(&mut self, rule: Rule) {
        (**self).saw(rule);
    }
}

/// Keeps the rules in order.
impl Watch for Vec<Rule> {
    fn saw(&mut self, rule: Rule) {
        self.push(rule);
    }
}

macro_rules! rules {
    ($($name:ident $words:literal)*) => {
        #[derive(Clone, Copy, PartialEq, Eq, Debug)]
        pub enum Rule { $($name),* }
        /// Every rule with its words, in the order of the enum.
        pub const RULES: &[(Rule, &str)] = &[$((Rule::$name, $words)),*];
    };
}

rules! {
    SendTaken "SEND: accepted"
    InputIdle "net-input: free or abort, no rule"
    OpenStays "net-input: open stays, all ready"
    OpenToWait "net-input: open to wait"
    WaitStays "net-input: wait stays"
    WaitToOpen "net-input: wait to open"
    LastStays "net-input: last stays"
    LastToDone "net-input: last to done"
    DoneToLast "net-input: done to last"
    DoneAbort "net-input: done, received abort, not split"
    DoneAbortSplit "net-input: done, received abort at a split"
    DoneUnicast "net-input: done, end, unicast"
    DonePassthru "net-input: done, end, passthru"
    DoneHanded "net-input: done, end, handed"
    DoneAllRemote "net-input: done, end, all-remote"
    DoneSomeLocal "net-input: done, end, some-local"
    FinAbortStays "net-input: fin-abort stays, output 0 not ready"
    FinAbortEnd "net-input: fin-abort gives end"
    FinAbortAbort "net-input: fin-abort gives abort"
    UnicastLocal "router: own site, unicast to output 0"
    UnicastFirst "router: one other target, first choice"
    UnicastLater "router: one other target, later choice"
    SplitAllRemote "router: split, all-remote"
    SplitSomeLocal "router: split, some-local"
    SplitOneRemote "router: split, some-local with one remote output"
    SplitShared "router: an output already chosen serves again"
    PassthruSingle "router: single remote output, passthru"
    PassthruBusy "router: output 0 in use, passthru"
    PassthruPartial "router: output 0 empty, some target without output, passthru"
    OneMoreTry "router: failed below T, one more try"
    OneMoreTryRoom "router: failed below T with output 0 empty"
    Handed "router: failed at T, handed"
    FailedAtT "router: failed at T, output 0 in use"
    OutputEmpty "net-output: empty"
    HeadQueued "net-output: head into the in-queue"
    HeadQueueFull "net-output: head, in-queue full"
    HeadPassed "net-output: head to the channel's input"
    HeadPassedSelf "net-output: head to an input of its own site"
    HeadPassedAborted "net-output: head of an aborted branch passed"
    HeadInputBusy "net-output: head, input not free"
    OutputNoChannel "net-output: in use, no channel"
    TerminatorNone "net-output: head taken, no terminator yet"
    TerminatorNotReady "net-output: terminator, not ready"
    EndToOpen "net-output: end delivered, open to done"
    AbortToOpen "net-output: abort delivered, open to done"
    EndToAbort "net-output: end delivered, abort to fin-abort"
    AbortToAbort "net-output: abort delivered, abort to fin-abort"
    EndQueued "net-output: end to the in-queue"
    AbortQueued "net-output: abort to the in-queue"
    KeepLocalQueued "net-output: keep-local to the in-queue"
    TerminatorRefused "net-output: in-queue empty or its last entry has one"
    OutQueueEmpty "out-queue: empty"
    FrontTaken "out-queue: front into net-input 0"
    FrontWaits "out-queue: front waits, net-input 0 not free"
    FrontEndOpen "out-queue: end, net-input 0 open to done"
    FrontEndAbort "out-queue: end, net-input 0 abort to fin-abort"
    FrontEndWaits "out-queue: started front waits"
    InQueueEmpty "operator: in-queue empty"
    InQueueWaits "operator: front without terminator"
    OperatorAbort "operator: abort, discarded"
    KeepLocalServiced "operator: keep-local, serviced"
    KeepLocalDropped "operator: keep-local, own site not in the set"
    EndServiced "operator: end, serviced, no rest"
    EndServicedRest "operator: end, serviced, rest requeued"
    EndRest "operator: end, own site not in the set, requeued"
    EndBlocked "operator: end with a rest, out-queue full"
    TimeoutOpen "timeout: open to abort"
    TimeoutWait "timeout: wait to abort"
    TimeoutDone "timeout: done to fin-abort"
    TimeoutLast "timeout: last to fin-abort"
    TimeoutAllRemote "timeout: at an all-remote split"
    TimeoutSomeLocal "timeout: at a some-local split"
    TimeoutNoEntry "timeout: ignored, no last entry without terminator"
    TimeoutNoOutput "timeout: ignored, output 0 not in use, head not taken or with terminator"
    TimeoutPhase "timeout: ignored, the feeding input's state"
    TimeoutConnection "timeout: ignored, the feeding input's connection"
    Closing "net-output: terminator delivered, closing"
    ClosingHeld "net-output: closing, input not free"
    ClosingEmptied "net-output: closing, input free, emptied"
    ClosingNoChannel "net-output: closing, no channel"
    BranchTaken "router: own site to the split output, the rest onward"
    BranchLater "router: such a split with a later choice onward"
    BranchLocalBusy "router: such a split, output 0 in use"
    OnwardBranchBusy "router: split output in use, the whole set onward"
    OnwardElsewhere "router: own site no target, the whole set onward"
    BranchNoOnward "router: no way onward, the split output empty"
    LocalAloneBusy "router: own site alone, output 0 in use, the split output empty"
    DoneBranch "net-input: done, end, split through the split output"
    DoneAbortBranch "net-input: done, received abort, split through the split output"
    SplitOutputEmpty "split output: empty"
    SplitHeadQueued "split output: head into its in-queue"
    SplitHeadQueueFull "split output: head, its in-queue full"
    SplitTerminatorNone "split output: head taken, no terminator yet"
    SplitTerminatorRefused "split output: its in-queue empty or its last entry has one"
    SplitEndQueued "split output: end to its in-queue"
    SplitAbortQueued "split output: abort to its in-queue"
    SplitQueueEmpty "split operator: in-queue empty"
    SplitQueueWaits "split operator: front without terminator"
    SplitOperatorAbort "split operator: abort, discarded"
    SplitKeepLocalServiced "split operator: keep-local, serviced"
    SplitKeepLocalDropped "split operator: keep-local, own site not in the set"
    SplitEndServiced "split operator: end, serviced, no rest"
    SplitEndServicedRest "split operator: end, serviced, rest requeued"
    SplitEndRest "split operator: end, own site not in the set, requeued"
    SplitEndBlocked "split operator: end with a rest, out-queue full"
    TimeoutRestricted "timeout: none in edition 3"
    TimeoutBranch "timeout: none in edition 3, the head of a split waits for its terminator"
    WayBelowT "in the way: failed below T"
    WayAtT "in the way: failed at T"
    WayOwnSite "in the way: output 0, own site alone"
    WaySeveral "in the way: several outputs"
    WayLocalEmpty "in the way: several targets, output 0 empty"
    WayLocalUsed "in the way: several targets, output 0 in use and not named"
    WayOtherEmpty "in the way: an empty output in another target's list"
    WayOtherUsed "in the way: an output in use in another target's list, not named"
    WayClosing "in the way: a closing output"
    WaySplitUsed "in the way: the split output in use and not named"
    WayHanded "in the way: none, failed and handed on"
}

/// The rules that editions 2 and 3 have.
pub const OF_CLOSING: [Rule; 4] =
    [Rule::Closing, Rule::ClosingHeld, Rule::ClosingEmptied, Rule::ClosingNoChannel];

/// Whether the rule says what the outputs in the way are like; no step tells it.
pub fn is_of_the_way(rule: Rule) -> bool {
    rule as usize >= Rule::WayBelowT as usize
}

/// Whether the rule is the router's, or says what the outputs in the way are like.
pub fn is_of_an_ask(rule: Rule) -> bool {
    let between = |first: Rule, last: Rule| (first as usize..=last as usize).contains(&(rule as usize));
    between(Rule::UnicastLocal, Rule::FailedAtT)
        || between(Rule::BranchTaken, Rule::LocalAloneBusy)
        || is_of_the_way(rule)
}

/// Whether it is a step's, and edition 3 alone has the rule.
pub fn is_of_edition_3(rule: Rule) -> bool {
    rule as usize >= Rule::BranchTaken as usize && !is_of_the_way(rule)
}

/// Whether some state in range takes the rule in this edition.
pub fn is_of(edition: u8, rule: Rule) -> bool {
    match rule {
        Rule::WayClosing => return edition != EDITION,
        Rule::WaySplitUsed => return edition == EDITION_3,
        _ => (),
    }
    match edition {
        EDITION_3 => !NOT_IN_EDITION_3.contains(&rule),
        EDITION_2 => !is_of_edition_3(rule),
        _ => !is_of_edition_3(rule) && !OF_CLOSING.contains(&rule),
    }
}

/// The rules that no state in range takes in edition 3: splits by output 0, abort and fin-abort, timeouts that act.
pub const NOT_IN_EDITION_3: [Rule; 26] = [
    Rule::DoneAbortSplit,
    Rule::DoneAllRemote,
    Rule::DoneSomeLocal,
    Rule::FinAbortStays,
    Rule::FinAbortEnd,
    Rule::FinAbortAbort,
    Rule::SplitAllRemote,
    Rule::SplitSomeLocal,
    Rule::SplitOneRemote,
    Rule::SplitShared,
    Rule::PassthruSingle,
    Rule::PassthruBusy,
    Rule::PassthruPartial,
    Rule::EndToAbort,
    Rule::AbortToAbort,
    Rule::FrontEndAbort,
    Rule::TimeoutOpen,
    Rule::TimeoutWait,
    Rule::TimeoutDone,
    Rule::TimeoutLast,
    Rule::TimeoutAllRemote,
    Rule::TimeoutSomeLocal,
    Rule::TimeoutNoEntry,
    Rule::TimeoutNoOutput,
    Rule::TimeoutPhase,
    Rule::TimeoutConnection,
];

impl Rule {
    /// The rule's name at this output or its in-queue: the split output has names of its own.
    #[inline]
    pub fn at(self, port: usize) -> Rule {
        if port != SPLIT {
            return self;
        }
        match self {
            Rule::OutputEmpty => Rule::SplitOutputEmpty,
            Rule::HeadQueued => Rule::SplitHeadQueued,
            Rule::HeadQueueFull => Rule::SplitHeadQueueFull,
            Rule::TerminatorNone => Rule::SplitTerminatorNone,
            Rule::TerminatorRefused => Rule::SplitTerminatorRefused,
            Rule::EndQueued => Rule::SplitEndQueued,
            Rule::AbortQueued => Rule::SplitAbortQueued,
            Rule::InQueueEmpty => Rule::SplitQueueEmpty,
            Rule::InQueueWaits => Rule::SplitQueueWaits,
            Rule::OperatorAbort => Rule::SplitOperatorAbort,
            Rule::KeepLocalServiced => Rule::SplitKeepLocalServiced,
            Rule::KeepLocalDropped => Rule::SplitKeepLocalDropped,
            Rule::EndServiced => Rule::SplitEndServiced,
            Rule::EndServicedRest => Rule::SplitEndServicedRest,
            Rule::EndRest => Rule::SplitEndRest,
            Rule::EndBlocked => Rule::SplitEndBlocked,
            other => other,
        }
    }
}

/// Counts every rule.
#[derive(Clone)]
pub struct Tally {
    counts: Vec<u64>,
}

impl Default for Tally {
    fn default() -> Tally {
        Tally { counts: vec![0; RULES.len()] }
    }
}

impl Watch for Tally {
    fn saw(&mut self, rule: Rule) {
        self.counts[rule as usize] += 1;
    }
}

impl Tally {
    pub fn count(&self, rule: Rule) -> u64 {
        self.counts[rule as usize]
    }

    pub fn add(&mut self, other: &Tally) {
        for (sum, count) in self.counts.iter_mut().zip(&other.counts) {
            *sum += count;
        }
    }
}
