//! A service of three offices: a thread each, a bad network between them, and every office killed and started
//! again from its file, more than once. The offices fold their logs as they go. At the end everybody hears everybody,
//! and all settled frames agree, and so do the weights, which the offices have moved between them.
//!
//!     cargo run --example service [SEED]

mod desk;
mod dice;
mod lost;
mod network;
mod storage;

use std::error::Error;
use std::path::{Path, PathBuf};
use std::sync::atomic::Ordering::Relaxed;
use std::{env, fs, process, thread};

use desk::Desk;
use dice::Dice;
use joukerpan::{Office, Refused, LINES};
use lost::hear;
use network::Network;
use storage::{store, stored};

const WEIGHTS: [u16; 3] = [40, 35, 25];
/// Turns of the offices together.
const TURNS: usize = 400;

type Answer<T> = Result<T, Box<dyn Error + Send + Sync>>;

/// The file of an office.
fn file_of(folder: &Path, own: usize) -> PathBuf {
    folder.join(format!("office-{own}"))
}

/// Plays supervisors and clocks: one turn in four is an edit, or now and then a move of weight.
fn live(network: &Network, dice: &mut Dice) {
    for _ in 0..TURNS {
        let office = dice.below(WEIGHTS.len());
        let edit = match dice.below(8) {
            0 => (LINES + dice.below(WEIGHTS.len()) as u32, 1 + dice.below(20) as u32),
            _ => (dice.below(64) as u32, dice.below(10_000) as u32),
        };
        network.turn(office, (dice.below(4) == 0).then_some(edit));
    }
    (0..WEIGHTS.len()).for_each(|office| network.stop(office));
}

/// Runs the desks to the end of the turns, each in a thread of its own.
fn run<'a>(desks: Vec<Desk<'a>>, network: &'a Network, dice: &mut Dice) -> Answer<Vec<Desk<'a>>> {
    thread::scope(|scope| {
        let threads: Vec<_> = desks.into_iter().map(|desk| scope.spawn(|| desk.run())).collect();
        live(network, dice);
        threads.into_iter().map(|thread| thread.join().expect("no thread panics")).collect()
    })
}

/// Everybody hears everybody until nothing changes. Answers the edits that were lost.
fn hear_all(offices: &mut [Office]) -> Result<usize, Refused> {
    let mut gone = 0;
    loop {
        let mut changed = false;
        for own in 0..offices.len() {
            for from in (0..offices.len()).filter(|&from| from != own) {
                let message = offices[from].message();
                let outcome = hear(&mut offices[own], &message)?;
                gone += outcome.lost.len();
                changed |= outcome.changed;
            }
        }
        if !changed {
            return Ok(gone);
        }
    }
}

/// Whether both offices show the same in all 64 lines of the settled frame, and have the same weights.
fn alike(a: &Office, b: &Office) -> bool {
    a.frame() == b.frame() && a.settled() == b.settled() && a.present() == b.present()
}

fn main() -> Answer<()> {
    let seed = env::args().nth(1).map_or(Ok(1), |seed| seed.parse())?;
    let folder = env::temp_dir().join(format!("joukerpan-service-{}", process::id()));
    fs::create_dir_all(&folder)?;
    for own in 0..WEIGHTS.len() {
        store(&Office::found(own, &WEIGHTS)?, &file_of(&folder, own))?; // once, and never again
    }

    let (network, inboxes) = Network::new(WEIGHTS.len());
    let desk = |(own, inbox)| {
        let (file, dice) = (file_of(&folder, own), Dice(seed + 1 + own as u64));
        Desk { own, file, inbox, network: &network, dice, sent: vec![], edits: 0, lost: 0, kills: 0 }
    };
    let desks = run(inboxes.into_iter().enumerate().map(desk).collect(), &network, &mut Dice(seed))?;

    let mut offices = desks.iter().map(|desk| stored(&desk.file)).collect::<Result<Vec<_>, _>>()?;
    let gone = hear_all(&mut offices)?;
    report(&desks, &network, &offices, gone);
    fs::remove_dir_all(&folder)?;
    Ok(())
}

/// Says what happened, and that nothing is missing: each edit was settled or noticed as lost.
fn report(desks: &[Desk], network: &Network, offices: &[Office], gone: usize) {
    let edits: usize = desks.iter().map(|desk| desk.edits).sum();
    let lost: usize = gone + desks.iter().map(|desk| desk.lost).sum::<usize>();
    let kills: usize = desks.iter().map(|desk| desk.kills).sum();
    let (settled, dropped) = (offices[0].settled_length() as usize, offices[0].dropped());
    println!(
        "{edits} edits: {settled} settled, {dropped} of them dropped, {lost} lost; weights {WEIGHTS:?}, now {:?}",
        offices[0].present()
    );
    let [delivered, missing, repeated] =
        [&network.delivered, &network.lost, &network.repeated].map(|n| n.load(Relaxed));
    println!("{delivered} messages came, {missing} were lost, {repeated} came with an older one; {kills} kills");
    assert!(offices.iter().all(|office| alike(office, &offices[0])), "two offices settled differently");
    assert!(offices.iter().all(|office| office.pending().is_empty()), "an edit is neither settled nor lost");
    assert_eq!(settled + lost, edits, "an edit was lost without a notice");
    assert_eq!(offices[0].present().iter().sum::<u16>(), WEIGHTS.iter().sum(), "weight is missing");
    assert!(kills > 0 && missing > 0 && repeated > 0 && settled > 0 && dropped > 0, "nothing was tried");
    println!("all settled frames agree");
}
