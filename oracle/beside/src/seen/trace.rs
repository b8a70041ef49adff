//! The kinds that one trace meets.
use super::{Kind, Seen};
use crate::store::reading::Bad;
use crate::store::trace::lines::{Placed, Ran, TRACE_LIMIT};
use crate::store::trace::totals::Totals;

/// Notes what stands in a trace, the numbers of its places, and the totals that are printed of it.
pub fn see_trace(seen: &mut Seen, bytes: &[u8], places: &[Placed], ran: &Ran) {
    if bytes.len() == TRACE_LIMIT {
        seen.see(Kind::TraceFull);
    }
    match places.last() {
        None => seen.see(Kind::TraceEmpty),
        Some(Ok(_)) => seen.see(Kind::TraceWhole),
        Some(Err(bad)) => {
            seen.see(no_call(*bad));
            seen.see(if places.len() == 1 { Kind::TraceFirst } else { Kind::TraceLater });
        }
    }
    ran.numbers.iter().filter_map(|number| refused(*number)).for_each(|kind| seen.see(kind));
    if places.iter().all(|placed| placed.is_ok()) {
        see_totals(seen, &ran.totals, places.is_empty());
    }
}

fn see_totals(seen: &mut Seen, totals: &Totals, empty: bool) {
    let numbers = totals.words().map(|(_, number)| number);
    let kinds = [
        (Kind::TotalsAccepted, totals.accepted > 0),
        (Kind::TotalsHeld, totals.held > 0),
        (Kind::TotalsRescued, totals.rescued > 0),
        (Kind::TotalsDead, totals.dead > 0),
        (Kind::TotalsEvicted, totals.evicted > 0),
        (Kind::TotalsAll, !numbers.contains(&0)),
        (Kind::TotalsLarge, numbers.iter().any(|number| *number > 255)),
        (Kind::TotalsOfEmpty, empty && numbers == [0; 5]),
    ];
    kinds.into_iter().filter(|(_, holds)| *holds).for_each(|(kind, _)| seen.see(kind));
}

fn no_call(bad: Bad) -> Kind {
    match bad {
        Bad::Mark => Kind::TraceMark,
        Bad::Optional => Kind::TraceOptional,
        Bad::GuardKind => Kind::TraceGuardKind,
        Bad::EnterKind => Kind::TraceEnterKind,
        Bad::Cut => Kind::TraceCut,
        Bad::Limit => Kind::TraceLimit,
    }
}

fn refused(number: u8) -> Option<Kind> {
    match number {
        0 | 19 => None,
        1 => Some(Kind::Trace1),
        2 => Some(Kind::Trace2),
        3 => Some(Kind::Trace3),
        4 => Some(Kind::Trace4),
        6 => Some(Kind::Trace6),
        7 => Some(Kind::Trace7),
        8 => Some(Kind::Trace8),
        _ => panic!("no call of a trace is refused {number}"),
    }
}
