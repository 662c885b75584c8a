//! A bundle on both sides. The original has none: its calls are made one by one on a copy of the original's tables, which is kept if all are
//! accepted. Each is judged as a line is. Where a call is named, what must come of it and of those behind it is reckoned from the records
//! that the calls before it left, and after the comparison both sides go on without the bundle.
use super::{is_listed, lists, stream_over, Depth, Difference, Run, Tally};
use crate::bundle::{Bundle, MOST};
use crate::counts;
use crate::judge::{caught, Said, Tables};
use crate::line::Call;
use crate::port::{self, After, List};

/// The lists that the port reads behind a bundle.
const READ: [List; 2] = [List::Regions, List::Stream];

/// What must come of a bundle, as far as its calls have been made.
struct Meant {
    /// The number that it is refused with, or 0.
    answer: u64,
    change: u64,
    /// The records of its compartment behind the calls.
    regions: Vec<u64>,
    /// The original's copy behind the calls. None once one was named.
    copy: Option<Tables>,
    /// The calls that were accepted, with their changes.
    calls: Vec<(Call, u64)>,
}

impl Meant {
    /// What the port must answer.
    fn given(&self) -> u64 {
        if self.answer == 0 {
            self.change
        } else {
            port::refused(self.answer)
        }
    }
}

impl Run<'_> {
    /// One bundle: it is compared. Where it is accepted its calls become lines of the script, unless one is named; else it goes from it.
    pub(super) fn bundle(&mut self, bundle: &Bundle, depth: Depth, tally: &mut Tally) -> Result<(), Difference> {
        self.loans.end(bundle.compartment);
        let meant = self.meant(bundle)?;
        let given = self.script.exchange.bundle(bundle);
        let ours = port::bundle(&self.text[..self.end], &given);
        if ours != meant.given() {
            // a refusal is told as its number with a minus
            let [meant, ours] = [meant.given(), ours].map(|answer| answer as i64);
            return self.differs(format!("the bundle: meant is {meant}, the port answers {ours}"));
        }
        if depth >= Depth::Lists {
            self.behind(&given, &meant)?;
        }
        let seen = &mut tally.bundles;
        *seen.answers.entry((meant.answer, meant.change)).or_default() += 1;
        seen.groups += bundle.many() as u64;
        seen.named += u64::from(meant.answer == 0 && meant.copy.is_none());
        match meant.copy {
            Some(copy) if meant.answer == 0 => self.keep(copy, &meant.calls, depth),
            _ => self.drop_bundle(),
        }
    }

    /// A bundle from its first question to the first call that is refused.
    fn meant(&self, bundle: &Bundle) -> Result<Meant, Difference> {
        let before =
            || if bundle.compartment < 8 { self.tables.regions(bundle.compartment as usize) } else { Vec::new() };
        let copy = Some(Tables::after(&self.accepted));
        let mut meant = Meant { answer: 0, change: 0, regions: before(), copy, calls: Vec::new() };
        if bundle.compartment >= 8 {
            meant.answer = 1;
        } else if bundle.many() > MOST {
            meant.answer = 24;
        }
        for group in bundle.groups() {
            if meant.answer != 0 {
                break;
            }
            match bundle.call(group) {
                Some(call) => self.single(&call, &mut meant)?,
                None => meant.answer = 17,
            }
        }
        if meant.answer != 0 {
            (meant.change, meant.regions) = (0, before());
        }
        Ok(meant)
    }

    /// One call of a bundle, on what those before it left.
    fn single(&self, call: &Call, meant: &mut Meant) -> Result<(), Difference> {
        let lacks = self.allowances.lacks(call, &meant.regions);
        let ((answer, change), left) = counts::judged(call, &meant.regions, lacks);
        if counts::count(call, &meant.regions, lacks).is_some() {
            meant.copy = None;
        }
        if let Some(copy) = &mut meant.copy {
            let k = call.compartment as usize;
            let before = if answer == 0 { Ok(Default::default()) } else { lists(copy, k) };
            let before = before.or_else(|why| self.unread(&why))?;
            let said = copy.say(call);
            let same = match answer {
                0 => said == Said::Value(change) && copy.regions(k) == left,
                _ => is_listed(answer, call, &said, &before, lacks),
            };
            if !same {
                return self.differs(format!(
                    "{call:?} of a bundle: meant is {answer} with {change} and records {left:?}; the original {}",
                    said.describe()
                ));
            }
        }
        (meant.answer, meant.regions) = (answer, left);
        meant.change |= change;
        meant.calls.push((*call, change));
        Ok(())
    }

    /// The port's reads behind a bundle, as the port is given it: whole and by pages.
    fn behind(&self, given: &Bundle, meant: &Meant) -> Result<(), Difference> {
        let after = After::bundle(&self.text[..self.end], given);
        if given.compartment >= 8 {
            return READ.into_iter().try_for_each(|list| self.unreadable(list, after));
        }
        let k = given.compartment as usize;
        let stream = match &meant.copy {
            _ if meant.answer != 0 => Some(caught(|| self.tables.stream(k))),
            Some(copy) => Some(caught(|| copy.stream(k))),
            None => stream_over(Tables::after(&self.accepted), k, &meant.regions),
        };
        self.read(List::Regions, after, &meant.regions)?;
        match stream {
            Some(stream) => self.read(List::Stream, after, &stream.or_else(|why| self.unread(&why))?),
            None => Ok(()),
        }
    }

    fn read(&self, list: List, after: After, meant: &[u64]) -> Result<(), Difference> {
        self.list(list, after, meant)?;
        self.pages(list, after, meant)
    }

    /// Behind a bundle for no compartment every page is refused with 1.
    fn unreadable(&self, list: List, after: After) -> Result<(), Difference> {
        for room in [0, list.width(), 3 * list.width() + 1] {
            let page = port::page(list, after, 0, room);
            let (answer, _) = page.or_else(|why| self.differs(format!("{list:?} behind a bundle: {why}")))?;
            if answer != port::refused(1) {
                return self.differs(format!("{list:?} behind a bundle for no compartment answers {answer}"));
            }
        }
        Ok(())
    }

    /// An accepted bundle: the original's copy stays, and the calls become lines, to which the port must answer the same.
    fn keep(&mut self, copy: Tables, calls: &[(Call, u64)], depth: Depth) -> Result<(), Difference> {
        self.tables = copy;
        self.accepted.extend(calls.iter().map(|(call, _)| call));
        let lines = calls.iter().map(|(call, _)| call.line());
        self.script.to_mut().lines.splice(self.at..=self.at, lines);
        self.run_again(self.reader.read)?;
        for (call, change) in calls {
            let ours = self.answer()?;
            if ours != (0, *change) {
                return self.differs(format!("{call:?} of an accepted bundle as a line: the port answers {ours:?}"));
            }
        }
        let end = self.end_of(self.at + calls.len());
        if let Some((call, _)) = calls.first().filter(|_| depth >= Depth::Lists) {
            self.lists(call.compartment as usize, &self.text[..end])?;
        }
        self.at += calls.len();
        self.fewer -= calls.len() as isize - 1;
        self.end = end;
        Ok(())
    }

    /// A bundle that both sides go on without: the port's text has none of it.
    fn drop_bundle(&mut self) -> Result<(), Difference> {
        self.script.to_mut().lines.remove(self.at);
        self.fewer += 1;
        Ok(())
    }
}
