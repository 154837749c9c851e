//! Seeded machines of several kinds over the paper's whole range of sizes, and damages of byte sheets.
//! The same seed gives the same machines everywhere.

use crate::machine::{OwnedMachine, MAX_LETTERS, MAX_STATES};

/// The splitmix64 generator: small, seeded by any number, the same on every computer.
#[derive(Clone, Debug)]
pub struct Rng(u64);

impl Rng {
    pub fn new(seed: u64) -> Self {
        Rng(seed)
    }

    pub fn number(&mut self) -> u64 {
        self.0 = self.0.wrapping_add(0x9E37_79B9_7F4A_7C15);
        let mut mixed = self.0;
        mixed = (mixed ^ (mixed >> 30)).wrapping_mul(0xBF58_476D_1CE4_E5B9);
        mixed = (mixed ^ (mixed >> 27)).wrapping_mul(0x94D0_49BB_1331_11EB);
        mixed ^ (mixed >> 31)
    }

    /// A number from 0 to bound-1.
    pub fn below(&mut self, bound: usize) -> usize {
        (self.number() % bound as u64) as usize
    }

    pub fn byte(&mut self) -> u8 {
        self.number() as u8
    }

    /// True once in so many times.
    pub fn once_in(&mut self, times: usize) -> bool {
        self.below(times) == 0
    }

    pub fn choose<T: Clone>(&mut self, from: &[T]) -> T {
        from[self.below(from.len())].clone()
    }

    pub fn shuffle<T>(&mut self, list: &mut [T]) {
        for end in (1..list.len()).rev() {
            list.swap(end, self.below(end + 1));
        }
    }

    pub fn noise(&mut self, length: usize) -> Vec<u8> {
        (0..length).map(|_| self.byte()).collect()
    }

    pub fn noise_words(&mut self, length: usize) -> Vec<u16> {
        (0..length).map(|_| self.number() as u16).collect()
    }

    pub fn letters(&mut self, length: usize, k: usize) -> Vec<u8> {
        (0..length).map(|_| self.below(k) as u8).collect()
    }
}

/// The kinds of generated machines.
#[derive(Clone, Copy, Debug, PartialEq, Eq)]
pub enum Kind {
    Uniform,
    FewOutputs,
    Ring,
    ShiftRegister,
    Unreachable,
    EqualStates,
    Permutation,
    Winding,
    Tiny,
}

impl Kind {
    pub const ALL: [Kind; 9] = [
        Kind::Uniform,
        Kind::FewOutputs,
        Kind::Ring,
        Kind::ShiftRegister,
        Kind::Unreachable,
        Kind::EqualStates,
        Kind::Permutation,
        Kind::Winding,
        Kind::Tiny,
    ];

    pub fn name(self) -> &'static str {
        match self {
            Kind::Uniform => "uniform",
            Kind::FewOutputs => "few outputs",
            Kind::Ring => "counters and rings",
            Kind::ShiftRegister => "shift registers",
            Kind::Unreachable => "unreachable states",
            Kind::EqualStates => "many equal states",
            Kind::Permutation => "permutations",
            Kind::Winding => "winding paths",
            Kind::Tiny => "tiny",
        }
    }
}

/// A machine of the given kind.
pub fn machine(kind: Kind, rng: &mut Rng) -> OwnedMachine {
    match kind {
        Kind::Uniform => uniform(rng),
        Kind::FewOutputs => few_outputs(rng),
        Kind::Ring => ring(rng),
        Kind::ShiftRegister => shift_register(rng),
        Kind::Unreachable => unreachable_states(rng),
        Kind::EqualStates => equal_states(rng),
        Kind::Permutation => permutation(rng),
        Kind::Winding => winding(rng),
        Kind::Tiny => tiny(rng),
    }
}

/// The kinds take turns: the machine of a number.
pub fn in_turn(number: usize, rng: &mut Rng) -> OwnedMachine {
    machine(Kind::ALL[number % Kind::ALL.len()], rng)
}

/// A size from 1 to the greatest; the greatest and the small ones come more often than by chance.
fn size(rng: &mut Rng, greatest: usize) -> usize {
    match rng.below(6) {
        0 => greatest,
        1 => 1 + rng.below(greatest.min(4)),
        _ => 1 + rng.below(greatest),
    }
}

fn sizes(rng: &mut Rng) -> (usize, usize) {
    (size(rng, MAX_STATES), size(rng, MAX_LETTERS))
}

/// Two different bytes.
fn two_outputs(rng: &mut Rng) -> (u8, u8) {
    let plain = rng.byte();
    (plain, plain.wrapping_add(1 + rng.below(255) as u8))
}

fn uniform(rng: &mut Rng) -> OwnedMachine {
    let (n, k) = sizes(rng);
    OwnedMachine::build(n, k, |_, _| (rng.byte(), rng.below(n)))
}

/// One output only, or two of which the second is more or less rare.
fn few_outputs(rng: &mut Rng) -> OwnedMachine {
    let (n, k) = sizes(rng);
    let (plain, odd) = two_outputs(rng);
    let only_one = rng.once_in(5);
    let rarity = rng.choose(&[2, 4, 16, n * k]);
    OwnedMachine::build(n, k, |_, _| {
        let is_odd = !only_one && rng.once_in(rarity);
        (if is_odd { odd } else { plain }, rng.below(n))
    })
}

#[derive(Clone, Copy)]
enum Move {
    Forward,
    Back,
    Stay,
    Reset,
}

/// A counter that stays at its end or a ring that goes round; one transition has the odd output.
fn ring(rng: &mut Rng) -> OwnedMachine {
    let (n, k) = sizes(rng);
    let goes_round = rng.once_in(2);
    let (plain, odd) = two_outputs(rng);
    let odd_state = if rng.once_in(2) { n - 1 } else { rng.below(n) };
    let odd_letter = rng.below(k) as u8;
    let any = [Move::Forward, Move::Back, Move::Stay, Move::Reset];
    let mut moves: Vec<Move> = (0..k).map(|_| rng.choose(&any)).collect();
    // Without one letter going forward most states would be unreachable.
    moves[rng.below(k)] = Move::Forward;
    OwnedMachine::build(n, k, |state, letter| {
        let next = match moves[usize::from(letter)] {
            Move::Forward if goes_round => (state + 1) % n,
            Move::Forward => (state + 1).min(n - 1),
            Move::Back if goes_round => (state + n - 1) % n,
            Move::Back => state.saturating_sub(1),
            Move::Stay => state,
            Move::Reset => 0,
        };
        let is_odd = state == odd_state && letter == odd_letter;
        (if is_odd { odd } else { plain }, next)
    })
}

/// A ring of 48 states in which letter 0 goes forward and the others stay; on 0 one state has the odd output.
/// Such a ring takes the most rounds and the longest counterexamples, and with 12 letters fills the table.
pub fn great_ring(k: usize, odd_state: usize) -> OwnedMachine {
    OwnedMachine::build(MAX_STATES, k, |state, letter| {
        let is_odd = letter == 0 && state == odd_state;
        let next = if letter == 0 { state + 1 } else { state };
        (u8::from(is_odd), next % MAX_STATES)
    })
}

/// Digits of some base shifted in by the letters; the digit leaving is shown, by all letters or by one.
fn shift_register(rng: &mut Rng) -> OwnedMachine {
    let base = 2 + rng.below(6);
    let mut places = 1;
    while base.pow(places + 1) <= MAX_STATES && !rng.once_in(4) {
        places += 1;
    }
    let n = base.pow(places);
    let k = size(rng, MAX_LETTERS);
    let leaving_place = base.pow(places - 1);
    let shown_by = rng.once_in(2).then(|| rng.below(k));
    OwnedMachine::build(n, k, |state, letter| {
        let letter = usize::from(letter);
        let is_shown = shown_by.is_none() || shown_by == Some(letter);
        let output = if is_shown { state / leaving_place } else { 0 };
        (output as u8, (state * base + letter % base) % n)
    })
}

/// A part nothing leads to from the start; its states may lead into the reachable part.
fn unreachable_states(rng: &mut Rng) -> OwnedMachine {
    let (n, k) = sizes(rng);
    let reachable = 1 + rng.below(n);
    let outputs = rng.choose(&[2, 3, 256]);
    let ordered = OwnedMachine::build(n, k, |state, _| {
        let bound = if state < reachable { reachable } else { n };
        (rng.below(outputs) as u8, rng.below(bound))
    });
    shuffled(&ordered, rng)
}

/// A small machine blown up: each of its states stands several times, and next states pick any copy.
fn equal_states(rng: &mut Rng) -> OwnedMachine {
    let (n, k) = sizes(rng);
    let small_n = 1 + rng.below(n.min(8));
    let small = OwnedMachine::build(small_n, k, |_, _| (rng.below(2) as u8, rng.below(small_n)));
    let mut copy_of: Vec<usize> = (0..n).map(|state| state % small_n).collect();
    // The start stays a copy of the small start.
    rng.shuffle(&mut copy_of[1..]);
    OwnedMachine::build(n, k, |state, letter| {
        let small_state = copy_of[state];
        let target = small.lend().next(small_state, letter);
        let copies: Vec<usize> = (0..n).filter(|&copy| copy_of[copy] == target).collect();
        (
            small.lend().output(small_state, letter),
            rng.choose(&copies),
        )
    })
}

/// Each letter moves the states by a permutation; few transitions have the odd output.
fn permutation(rng: &mut Rng) -> OwnedMachine {
    let (n, k) = sizes(rng);
    let (plain, odd) = two_outputs(rng);
    let rarity = rng.choose(&[2, 8, n * k]);
    let moves: Vec<Vec<usize>> = (0..k)
        .map(|_| {
            let mut order: Vec<usize> = (0..n).collect();
            rng.shuffle(&mut order);
            order
        })
        .collect();
    OwnedMachine::build(n, k, |state, letter| {
        let output = if rng.once_in(rarity) { odd } else { plain };
        (output, moves[usize::from(letter)][state])
    })
}

/// A long way round with few jumps and hardly any odd output. Here S often holds words that are not the
/// least to their states, which is where the exact choices of the rules show.
fn winding(rng: &mut Rng) -> OwnedMachine {
    if rng.once_in(6) {
        return rng.choose(&[0, 1, 2].map(several_changes));
    }
    let n = MAX_STATES - rng.below(24);
    let k = 2 + rng.below(3);
    let mut machine = OwnedMachine::build(n, k, |state, _| {
        let jumps = rng.once_in(8);
        (0, if jumps { rng.below(n) } else { (state + 1) % n })
    });
    for odd in 1..=1 + rng.below(2) {
        let place = rng.below(n * k);
        machine.words[place] = machine.words[place] / 256 * 256 + odd as u16;
    }
    machine
}

/// Three small machines where more than one i of rule 6 shows a change in some round, so that it matters
/// to take the least. Found by trying millions of machines; none with fewer than 7 states was met.
pub fn several_changes(number: usize) -> OwnedMachine {
    let next_states: [&[u16]; 3] = [
        &[3, 1, 1, 2, 5, 3, 1, 4, 5, 4, 6, 6, 0, 4],
        &[
            1, 2, 1, 4, 2, 2, 1, 3, 2, 5, 4, 3, 5, 5, 5, 6, 6, 6, 3, 0, 0,
        ],
        &[1, 2, 0, 7, 0, 3, 4, 3, 5, 5, 5, 6, 1, 7, 8, 8, 7, 5],
    ];
    let odd_outputs: [&[(usize, u16)]; 3] = [&[(5, 1)], &[(6, 1), (9, 2)], &[(6, 1), (9, 2)]];
    let k = [2, 3, 2][number];
    let mut words: Vec<u16> = next_states[number].iter().map(|next| 256 * next).collect();
    for (place, output) in odd_outputs[number] {
        words[*place] += output;
    }
    OwnedMachine {
        n: words.len() / k,
        k,
        words,
    }
}

fn tiny(rng: &mut Rng) -> OwnedMachine {
    let n = 1 + rng.below(3);
    let k = 1 + rng.below(3);
    OwnedMachine::build(n, k, |_, _| (rng.below(2) as u8, rng.below(n)))
}

/// The same machine under other state numbers; the start keeps its number.
fn shuffled(machine: &OwnedMachine, rng: &mut Rng) -> OwnedMachine {
    let mut old_of: Vec<usize> = (0..machine.n).collect();
    rng.shuffle(&mut old_of[1..]);
    let mut new_of = vec![0; machine.n];
    for (new, &old) in old_of.iter().enumerate() {
        new_of[old] = new;
    }
    OwnedMachine::build(machine.n, machine.k, |state, letter| {
        let old = old_of[state];
        let next = machine.lend().next(old, letter);
        (machine.lend().output(old, letter), new_of[next])
    })
}

/// The ways a byte sheet is damaged.
#[derive(Clone, Copy, Debug, PartialEq, Eq)]
pub enum Damage {
    ChangeByte,
    Cut,
    Insert,
    Duplicate,
    Swap,
}

impl Damage {
    pub const ALL: [Damage; 5] = [
        Damage::ChangeByte,
        Damage::Cut,
        Damage::Insert,
        Damage::Duplicate,
        Damage::Swap,
    ];

    pub fn name(self) -> &'static str {
        match self {
            Damage::ChangeByte => "change a byte",
            Damage::Cut => "cut",
            Damage::Insert => "insert",
            Damage::Duplicate => "duplicate",
            Damage::Swap => "swap",
        }
    }
}

/// A damaged copy of a sheet. The empty sheet can only be inserted into.
pub fn damaged(damage: Damage, sheet: &[u8], rng: &mut Rng) -> Vec<u8> {
    if sheet.is_empty() && damage != Damage::Insert {
        return Vec::new();
    }
    match damage {
        Damage::ChangeByte => with_byte_changed(sheet, rng),
        Damage::Cut => cut(sheet, rng),
        Damage::Insert => inserted(sheet, rng),
        Damage::Duplicate => duplicated(sheet, rng),
        Damage::Swap => swapped(sheet, rng),
    }
}

/// Values next to the paper's limits, where a reader that is off by one would show.
const EDGES: [u8; 16] = [
    0, 1, 2, 11, 12, 13, 46, 47, 48, 49, 59, 60, 93, 94, 254, 255,
];

fn with_byte_changed(sheet: &[u8], rng: &mut Rng) -> Vec<u8> {
    let mut copy = sheet.to_vec();
    let place = rng.below(copy.len());
    copy[place] = match rng.below(4) {
        0 => copy[place].wrapping_add(1),
        1 => copy[place].wrapping_sub(1),
        2 => rng.choose(&EDGES),
        _ => rng.byte(),
    };
    copy
}

/// A part of the sheet, as its first byte and the byte after its last; mostly short.
fn part(sheet: &[u8], rng: &mut Rng) -> (usize, usize) {
    let from = rng.below(sheet.len());
    let longest = sheet.len() - from;
    let length = if rng.once_in(4) {
        1 + rng.below(longest)
    } else {
        1 + rng.below(longest.min(6))
    };
    (from, from + length)
}

fn cut(sheet: &[u8], rng: &mut Rng) -> Vec<u8> {
    let (from, to) = part(sheet, rng);
    if rng.once_in(2) {
        sheet[..from].to_vec()
    } else {
        [&sheet[..from], &sheet[to..]].concat()
    }
}

fn inserted(sheet: &[u8], rng: &mut Rng) -> Vec<u8> {
    let place = rng.below(sheet.len() + 1);
    let length = 1 + rng.below(3);
    let fresh = rng.noise(length);
    [&sheet[..place], &fresh, &sheet[place..]].concat()
}

fn duplicated(sheet: &[u8], rng: &mut Rng) -> Vec<u8> {
    let (from, to) = part(sheet, rng);
    [&sheet[..to], &sheet[from..]].concat()
}

/// Two bytes change places, or two neighbouring parts do.
fn swapped(sheet: &[u8], rng: &mut Rng) -> Vec<u8> {
    let mut copy = sheet.to_vec();
    if rng.once_in(2) {
        let (left, right) = (rng.below(copy.len()), rng.below(copy.len()));
        copy.swap(left, right);
    } else {
        let (from, to) = part(sheet, rng);
        let middle = rng.below(to - from);
        copy[from..to].rotate_left(middle);
    }
    copy
}

#[cfg(test)]
mod tests {
    use super::*;
    use crate::machine;

    #[test]
    fn generated_machines_are_in_range_and_reach_its_ends() {
        let mut rng = Rng::new(3);
        let mut smallest = (usize::MAX, usize::MAX);
        let mut greatest = (0, 0);
        for _ in 0..200 {
            for kind in Kind::ALL {
                let made = super::machine(kind, &mut rng);
                assert_eq!(machine::check(&made.words, made.n, made.k), Ok(()));
                smallest = (smallest.0.min(made.n), smallest.1.min(made.k));
                greatest = (greatest.0.max(made.n), greatest.1.max(made.k));
            }
        }
        assert_eq!(smallest, (1, 1));
        assert_eq!(greatest, (MAX_STATES, MAX_LETTERS));
    }

    #[test]
    fn one_seed_gives_one_machine() {
        let made = |seed| super::machine(Kind::Uniform, &mut Rng::new(seed));
        assert_eq!(made(5), made(5));
        assert_ne!(made(5), made(6));
    }
}
