//! A sweep, written from request 2027-05: its polls one after another, each with as many of the nonces as its count says, and with
//! its rows behind those of the polls before it, in a slice as it is lent. And what wrong rules make of it.
use super::{row, Model, Poll};
use crate::store::answers::{Answer, Row, State};
use crate::store::calls::{Address, Form, Sweep};
use crate::store::refusals;
use crate::store::wrong::Wrong;

/// How many numbers a row has.
const WIDTH: usize = 19;

/// One poll of a sweep.
struct Turn<'a> {
    sender: Address,
    head: u64,
    known: &'a [u64],
}

/// The row at a place of a slice, and zeros past its end, where only wrong rules tell of rows.
fn row_at(slice: &[u64], place: usize) -> Row {
    let rest = slice.get(WIDTH * place..).unwrap_or(&[]);
    std::array::from_fn(|i| rest.get(i).copied().unwrap_or(0))
}

fn put_rows(slice: &mut [u64], place: usize, rows: &[Row]) {
    slice.iter_mut().skip(WIDTH * place).zip(rows.concat()).for_each(|(number, written)| *number = written);
}

impl Model {
    /// A sweep in a slice that is long enough.
    pub(super) fn sweep(&mut self, s: &Sweep) -> Answer {
        let mut slice = vec![0; WIDTH * self.listed(s)];
        self.sweep_in(s, &mut slice)
    }

    /// A sweep in a slice as it is lent.
    pub fn sweep_in(&mut self, s: &Sweep, slice: &mut [u64]) -> Answer {
        let turns = self.turns(s);
        if let Some(number) = refusals::of_sweep(self.wrong, s, self.room(s), slice.len()) {
            self.refuse_sweep(&turns, slice);
            return Answer::Refused(number);
        }
        let (start, listed) = (self.to_look_back_at(), self.listed(s));
        let mut first = None;
        let mut used = 0;
        let mut told = Vec::new();
        for turn in &turns {
            if let Some(number) = self.refusal_in_turn(turn, slice.len() - WIDTH * used) {
                return Answer::Refused(number);
            }
            let entries = self.entries_of(&turn.sender);
            let rows = self.turn(turn, &start);
            put_rows(slice, used, &rows);
            used += match self.wrong {
                Some(Wrong::SweepRowsOver) => 0,
                Some(Wrong::SweepRowsByEntries) => entries,
                _ => rows.len(),
            };
            told.push(rows.len());
            first.get_or_insert_with(|| self.to_look_back_at());
            if self.ends_sweep(entries, rows.len()) {
                break;
            }
        }
        let total = self.told(&told, turns.len(), listed);
        self.store_after_sweep(start, first);
        if self.plants(Wrong::SweepPastCleared) {
            slice.iter_mut().skip(WIDTH * total).for_each(|number| *number = 0);
        }
        Answer::Rows((0..total).map(|place| row_at(slice, place)).collect())
    }

    // ---- room

    fn entries_of(&self, sender: &[u8]) -> usize {
        self.entries.iter().filter(|e| e.frame.from == *sender).count()
    }

    /// The entries of the senders listed; a sender listed twice counts twice.
    fn listed(&self, s: &Sweep) -> usize {
        s.senders.chunks(20).map(|sender| self.entries_of(sender)).sum()
    }

    /// How many numbers a sweep needs.
    fn room(&self, s: &Sweep) -> usize {
        let senders: Vec<&[u8]> = s.senders.chunks(20).collect();
        let entries = match self.wrong {
            Some(Wrong::SweepFiveOnce) => self.entries.iter().filter(|e| senders.contains(&&e.frame.from[..])).count(),
            Some(Wrong::SweepFiveOfTracked) => {
                let tracked = |e: &&super::Entry| e.state == State::Tracked;
                let of = |sender: &&[u8]| self.entries.iter().filter(tracked).filter(|e| e.frame.from == **sender).count();
                senders.iter().map(of).sum()
            }
            Some(Wrong::SweepFiveOfRows) => match (Model { wrong: None, ..self.clone() }).sweep(s) {
                Answer::Rows(rows) => rows.len(),
                _ => 0,
            },
            Some(Wrong::SweepFiveInTurn) => 0,
            _ => self.listed(s),
        };
        WIDTH * entries
    }

    /// What wrong rules find only when the poll's turn comes, where so many numbers are left.
    fn refusal_in_turn(&self, turn: &Turn, left: usize) -> Option<u8> {
        match self.wrong {
            Some(Wrong::SweepThreeInTurn) if turn.known.len() > 256 => Some(3),
            Some(Wrong::SweepFiveInTurn) if left < WIDTH * self.entries_of(&turn.sender) => Some(5),
            _ => None,
        }
    }

    // ---- the polls

    /// Which poll comes when. Only wrong rules let in lists that do not agree: a sender that is cut is filled up by zeros.
    fn turns<'a>(&self, s: &'a Sweep) -> Vec<Turn<'a>> {
        let mut turns = Vec::new();
        let mut from: usize = 0;
        for (i, bytes) in s.senders.chunks(20).take(s.heads.len()).enumerate() {
            let place = if self.plants(Wrong::SweepFirstCount) { 0 } else { i };
            let count = s.counts.get(place).map_or(0, |count| usize::try_from(*count).unwrap_or(usize::MAX));
            let end = from.saturating_add(count).min(s.nonces.len());
            let mut sender = [0; 20];
            sender[..bytes.len()].copy_from_slice(bytes);
            turns.push(Turn { sender, head: self.head_of(s, i), known: self.known_of(&s.nonces, from, end) });
            from = end;
        }
        self.listed_as(&mut turns);
        turns
    }

    fn head_of(&self, s: &Sweep, place: usize) -> u64 {
        match self.wrong {
            Some(Wrong::SweepFirstHead) => s.heads[0],
            Some(Wrong::SweepHighestHead) => s.heads.iter().copied().max().unwrap_or(0),
            _ => s.heads[place],
        }
    }

    fn known_of<'a>(&self, nonces: &'a [u64], from: usize, end: usize) -> &'a [u64] {
        match self.wrong {
            Some(Wrong::SweepNoncesFromStart) => &nonces[..end - from],
            Some(Wrong::SweepNoncesFromEnd) => &nonces[nonces.len() - end..nonces.len() - from],
            Some(Wrong::SweepNoncesSoFar) => &nonces[..end],
            Some(Wrong::SweepNoncesToEnd) => &nonces[from..],
            Some(Wrong::SweepAllNonces) => nonces,
            Some(Wrong::SweepNoNonces) => &[],
            _ => &nonces[from..end],
        }
    }

    /// Wrong rules poll other senders, or in another order.
    fn listed_as(&self, turns: &mut Vec<Turn>) {
        let senders: Vec<Address> = turns.iter().map(|turn| turn.sender).collect();
        let mut place = 0;
        let mut keep = |wanted: &dyn Fn(usize) -> bool| {
            turns.retain(|_| {
                place += 1;
                wanted(place - 1)
            });
        };
        match self.wrong {
            Some(Wrong::SweepFirstOnly) => keep(&|i| i == 0),
            Some(Wrong::SweepLastLeftOut) => keep(&|i| i + 1 < senders.len()),
            Some(Wrong::SweepTwiceFirst) => keep(&|i| !senders[..i].contains(&senders[i])),
            Some(Wrong::SweepTwiceLast) => keep(&|i| !senders[i + 1..].contains(&senders[i])),
            Some(Wrong::SweepByAddress) => turns.sort_by_key(|turn| turn.sender),
            Some(Wrong::SweepReversed) => turns.reverse(),
            _ => {}
        }
    }

    /// Whether a wrong rule ends the sweep behind a poll of so many entries and rows.
    fn ends_sweep(&self, entries: usize, rows: usize) -> bool {
        entries == 0 && self.plants(Wrong::SweepNobodyEnds) || rows == 0 && self.plants(Wrong::SweepSilentEnds)
    }

    fn turn(&mut self, turn: &Turn, start: &Model) -> Vec<Row> {
        if self.plants(Wrong::SweepStoreOfLast) {
            *self = start.clone();
        }
        let rows = self.poll_in_turn(turn);
        match self.wrong {
            Some(Wrong::SweepRowsOfStart) => start.clone().poll_in_turn(turn),
            _ => rows,
        }
    }

    fn poll_in_turn(&mut self, turn: &Turn) -> Vec<Row> {
        let start = self.guards_to_look_back_at();
        let poll = Poll { form: Form::Long, swept: true, head: turn.head, known: turn.known, content: None, start };
        self.poll_sender(turn.sender, &poll).iter().map(row).collect()
    }

    // ---- what comes of it

    /// How many rows are answered, where the polls told of so many each.
    fn told(&self, told: &[usize], senders: usize, entries: usize) -> usize {
        match self.wrong {
            Some(Wrong::SweepAnswersFirst) => told.first().copied().unwrap_or(0),
            Some(Wrong::SweepAnswersLast) => told.last().copied().unwrap_or(0),
            Some(Wrong::SweepAnswersSenders) => senders,
            Some(Wrong::SweepAnswersEntries) => entries,
            _ => told.iter().sum(),
        }
    }

    fn store_after_sweep(&mut self, start: Model, first: Option<Model>) {
        match (self.wrong, first) {
            (Some(Wrong::SweepStoreStays), _) => *self = start,
            (Some(Wrong::SweepStoreOfFirst), Some(first)) => *self = first,
            _ => {}
        }
    }

    /// A refused sweep leaves store and slice as they were, but for wrong rules.
    fn refuse_sweep(&mut self, turns: &[Turn], slice: &mut [u64]) {
        match self.wrong {
            Some(Wrong::SweepRefusedPolls) => turns.iter().for_each(|turn| {
                self.poll_in_turn(turn);
            }),
            Some(Wrong::SweepRefusedClears) => slice.fill(0),
            _ => {}
        }
    }
}
