//! A supervisor's edit is lost to edits of another line, and issued again until it settles.

#[path = "service/lost.rs"]
mod lost;

use joukerpan::{Office, Outcome, Refused};
use lost::hear;

/// Issues again what is lost, in its order. Each is a new entry, behind all that is settled by now, and settles once or
/// is lost in its turn. Where another office has coded the line since, a service asks its supervisor first.
fn issue_again(office: &mut Office, outcome: &Outcome) -> Result<(), Refused> {
    outcome.lost.iter().try_for_each(|edit| office.issue(edit.line.into(), edit.code.into()))
}

fn main() -> Result<(), Refused> {
    let found = |own| Office::found(own, &[40, 35, 25]);
    let (mut office0, mut office1, mut office2) = (found(0)?, found(1)?, found(2)?);
    office1.issue(6, 7)?;
    let next = office1.standing();
    println!(
        "weight {}; the votes of offices {:?} are missing, {}",
        next.candidates[0].weight, next.silent, next.unheard
    );

    for day in 1.. {
        if day < 3 {
            office0.issue(5, 120 + day)?; // a rival for the place, which office 2 hears of first
            hear(&mut office2, &office0.message())?;
        }
        hear(&mut office2, &office1.message())?;
        let outcome = hear(&mut office1, &office2.message())?;
        println!("day {day}: {} settled, {} lost", outcome.settled, outcome.lost.len());
        if outcome.settled > 0 {
            break;
        }
        issue_again(&mut office1, &outcome)?;
        hear(&mut office0, &office2.message())?;
    }
    assert_eq!(office1.settled_frame(6)?, Some(7));
    Ok(())
}
