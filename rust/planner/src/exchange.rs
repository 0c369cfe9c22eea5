//! Who takes whose message in one round of exchanges.

use crate::dice::Dice;
use crate::settings::{Exchange, Settings};

/// The takes of a round among the offices that are there, in their order: receiver and sender.
pub fn round(settings: &Settings, there: &[usize], dice: &mut Dice) -> Vec<(usize, usize)> {
    let receivers = dice.shuffled(there);
    match settings.exchange {
        Exchange::Pairs => receivers.iter().filter_map(|&to| Some((to, dice.pick(&without(there, to))?))).collect(),
        Exchange::Hub if !there.contains(&settings.hub) => Vec::new(),
        Exchange::Hub => {
            let hub = settings.hub;
            without(&receivers, hub).into_iter().flat_map(|office| [(hub, office), (office, hub)]).collect()
        }
        Exchange::All => receivers
            .iter()
            .flat_map(|&to| dice.shuffled(&without(there, to)).into_iter().map(move |from| (to, from)))
            .collect(),
        Exchange::AtOnce => Vec::new(),
    }
}

fn without(offices: &[usize], left_out: usize) -> Vec<usize> {
    offices.iter().copied().filter(|&office| office != left_out).collect()
}

#[cfg(test)]
mod tests {
    use super::round;
    use crate::dice::Dice;
    use crate::settings::Settings;

    fn takes(exchange: &str, there: &[usize]) -> Vec<(usize, usize)> {
        let mut settings = Settings::default();
        settings.set(exchange).unwrap();
        let mut takes = round(&settings, there, &mut Dice::new(1, 0));
        takes.sort_unstable();
        takes
    }

    #[test]
    fn each_round_has_its_takes() {
        assert_eq!(takes("exchange=all", &[0, 1, 2]), [(0, 1), (0, 2), (1, 0), (1, 2), (2, 0), (2, 1)]);
        assert_eq!(takes("exchange=hub", &[0, 1, 2]), [(0, 1), (0, 2), (1, 0), (2, 0)]);
        assert_eq!(takes("exchange=hub", &[1, 2]), []);
        assert_eq!(takes("exchange=once", &[0, 1]), []);
        let pairs = takes("exchange=pairs", &[0, 3, 5, 6]);
        assert_eq!(pairs.iter().map(|(to, _)| *to).collect::<Vec<_>>(), [0, 3, 5, 6]);
        assert!(pairs.iter().all(|(to, from)| to != from));
        assert_eq!(takes("exchange=pairs", &[2]), []);
    }
}
