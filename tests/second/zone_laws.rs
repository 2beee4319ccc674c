//! Laws that the library's own answers keep, whatever the reference says:
//! a list rises strictly and holds no more than four ticks, each of its ticks
//! shows the local tick it was asked for, and a tick's local tick leads back
//! to it.

use crate::library::{self, LocalAnswer, LocalTick, Rule, UtcAnswer, UtcTick};
use crate::record_calls::FirstRules;
use crate::report::{Enough, Outcome, Section};
use crate::seeded_rules::Source;
use crate::zone_calls::LISTS;
use crate::zone_reference::in_window;
use crate::zone_ticks::{local_ticks, utc_ticks};
use crate::Basis;

/// Seeded rows for each law.
const ROWS: u64 = 2_500;
const FEWEST: u64 = 200_000;

pub fn sections(basis: &Basis) -> Vec<Section> {
    vec![there_and_back(basis), lists(basis)]
}

/// Each UTC tick that has a local tick is in that local tick's list.
fn there_and_back(basis: &Basis) -> Section {
    let name = "local_to_utc of utc_to_local";
    let mut source = Source::new(basis, name);
    Section::run(name, &LISTS[1..], FEWEST, |section| {
        for _ in 0..ROWS {
            let count = source.zone_length();
            let row = source.zone(count);
            for utc in utc_ticks(&basis.calendar, &mut source.seeded, &row) {
                let shown = library::utc_to_local(&row, UtcTick { ticks: utc });
                if shown.refusal != 0 {
                    continue;
                }
                let list = library::local_to_utc(&row, shown.local);
                let holds = match list.list() {
                    Some(ticks) => list.refusal == 0 && ticks.contains(&utc),
                    None => false,
                };
                let input = (FirstRules(&row), utc, shown.local);
                section.check(input, list, "a list with that UTC tick in it", holds)?;
            }
        }
        Ok(())
    })
}

/// Each list is a list, and each of its ticks shows the local tick.
fn lists(basis: &Basis) -> Section {
    let name = "utc_to_local of local_to_utc";
    let mut source = Source::new(basis, name);
    let mut outcomes = LISTS.to_vec();
    outcomes.push(Outcome::Answered);
    Section::run(name, &outcomes, FEWEST, |section| {
        for _ in 0..ROWS {
            let count = source.zone_length();
            let row = source.zone(count);
            for local in local_ticks(&basis.calendar, &mut source.seeded, &row) {
                let list = library::local_to_utc(&row, LocalTick { ticks: local });
                if list.refusal == 0 {
                    one_list(section, &row, local, list)?;
                }
            }
        }
        Ok(())
    })
}

fn one_list(
    section: &mut Section,
    row: &[Rule],
    local: i64,
    list: UtcAnswer,
) -> Result<(), Enough> {
    let input = (FirstRules(row), local);
    let Some(ticks) = list.list() else {
        return section.check(input, list, "no more than four ticks", false);
    };
    // Those beyond the count are zero.
    let holds = list == UtcAnswer::of(&ticks)
        && ticks.windows(2).all(|pair| pair[0] < pair[1])
        && ticks.iter().all(|&utc| in_window(utc));
    section.check(input, list, "rising ticks of the window", holds)?;
    for utc in ticks {
        let shown = library::utc_to_local(row, UtcTick { ticks: utc });
        section.compare((FirstRules(row), utc), shown, LocalAnswer::of(local))?;
    }
    Ok(())
}
