//! The comparison over and over, with ever new seeds, for as long as somebody likes.

use super::family::{Family, Plan};
use super::{run, Compared};
use std::time::{Duration, Instant};

/// Machines of one turn and family: few, so that a turn is over soon.
const MACHINES: usize = 90;
const BETWEEN_PROGRESS: Duration = Duration::from_secs(5);

/// What stands behind a soak when it tells how far it is, and at its end.
#[derive(Clone, Debug, Default)]
pub struct Soaked {
    pub turns: u64,
    pub seconds: u64,
    pub compared: Compared,
}

/// Runs turns, each with the seed after the last one's, until the time is over or a turn is wrong. There is one
/// turn at least, and it has the cases that no seed changes.
pub fn soak(
    seed: u64,
    seconds: u64,
    program: &[&str],
    tell: &mut dyn FnMut(&Soaked),
) -> Result<Soaked, String> {
    let start = Instant::now();
    let mut told = start;
    let mut soaked = Soaked::default();
    loop {
        let plan = Plan {
            families: Family::ALL.to_vec(),
            has_fixed: soaked.turns == 0,
            seed: seed.wrapping_add(soaked.turns),
            count: MACHINES,
        };
        soaked.compared.join(run(&plan, program)?);
        soaked.turns += 1;
        soaked.seconds = start.elapsed().as_secs();
        if soaked.seconds >= seconds || !soaked.compared.is_right() {
            soaked.compared.require_every_outcome(&Family::ALL);
            return Ok(soaked);
        }
        if told.elapsed() >= BETWEEN_PROGRESS {
            told = Instant::now();
            tell(&soaked);
        }
    }
}
