//! Loans handed back (document 02, order 11): an accepted add, and a remove of the same range and rights with no call for that compartment
//! in between but such as read it. The remove must be accepted and bring back the records and segments of the compartment, and so its stream. The port is
//! held to what it gave itself before the add: nothing of that is reckoned, and the original is not asked.
use super::{groups, Depth, Difference, Run, Tally};
use crate::line::{Call, Kind};
use crate::port::{self, After, List};

/// The lists that must be as they were.
const KEPT: [List; 3] = [List::Regions, List::Segments, List::Stream];

/// An accepted add, and its place among the lines. What stands before it stays the same as the run goes on.
#[derive(Clone, Copy)]
pub(super) struct Loan {
    add: Call,
    at: usize,
}

/// For each compartment its last call but reads, where that is an accepted add.
#[derive(Default)]
pub(super) struct Loans([Option<Loan>; 8]);

impl Loans {
    /// A bundle for a compartment, or a call that does not only read, ends what was lent there, whatever comes of it. Gives what that was.
    pub(super) fn end(&mut self, compartment: u64) -> Option<Loan> {
        self.0.get_mut(compartment as usize)?.take()
    }

    /// An accepted call lends if it is an add.
    pub(super) fn begin(&mut self, call: &Call, at: usize) {
        if call.kind == Kind::Add {
            self.0[call.compartment as usize] = Some(Loan { add: *call, at });
        }
    }
}

/// The loans whose end was compared: how many, and of these those for which the add had all records of the allowance in use at
/// its peak, those of an empty range, those with calls for other compartments in between, and those with reads of its own.
#[derive(Default)]
pub struct HandedBack {
    pub all: u64,
    pub full: u64,
    pub empty: u64,
    pub others: u64,
    pub read: u64,
}

impl Run<'_> {
    /// The call that the run is at, if it hands back what was lent: the port accepts it, and then has what it had before the add.
    pub(super) fn handed_back(
        &self,
        call: &Call,
        lent: Option<Loan>,
        depth: Depth,
        tally: &mut Tally,
    ) -> Result<(), Difference> {
        let Some(loan) = lent.filter(|loan| *call == Call { kind: Kind::Remove, ..loan.add }) else { return Ok(()) };
        match self.reader.coming() {
            Some((0, _)) => (),
            Some((answer, _)) => return self.differs(format!("a loan is handed back, and the port answers {answer}")),
            None => return self.differs("a loan is handed back, and the port has no answer line".to_string()),
        }
        if depth < Depth::Lists || self.at < self.script.known {
            return Ok(());
        }
        let ends = [self.end_of(loan.at), self.line_end()];
        let [before, behind] = ends.map(|end| After::script(&self.text[..end], call.compartment));
        let held = KEPT.map(|list| port::whole(list, before));
        for (list, held) in KEPT.into_iter().zip(&held) {
            self.no_trace(list, held, port::whole(list, behind))?;
        }
        self.seen_back(&loan, &held[0], tally);
        Ok(())
    }

    /// What the port has behind a loan, and what it had before it.
    fn no_trace(&self, list: List, held: &[u64], left: Vec<u64>) -> Result<(), Difference> {
        if left == held {
            return Ok(());
        }
        let [held, left] = [held.to_vec(), left].map(|all| groups(list, &self.script.exchange.list(list, all)));
        self.differs(format!("a loan leaves a trace, {list:?}:\n  before the add{held}\n  behind the remove{left}"))
    }

    /// Counts a loan, by the records that were held before the add.
    fn seen_back(&self, loan: &Loan, held: &[u64], tally: &mut Tally) {
        let [start, end, ..] = loan.add.numbers;
        let between = self.script.lines[loan.at + 1..self.at].iter().filter_map(|line| Call::parse(line));
        let (own, others): (Vec<Call>, Vec<Call>) = between.partition(|call| call.compartment == loan.add.compartment);
        let seen = &mut tally.loans;
        seen.all += 1;
        seen.full += u64::from(self.allowances.is_used_up(&loan.add, held));
        seen.empty += u64::from(start == end);
        seen.others += u64::from(!others.is_empty());
        seen.read += u64::from(!own.is_empty());
    }
}
