//! A second, independent learner of complete, deterministic Mealy machines, with its sheets and checker.
//! Written from the paper alone, for clarity, to be compared with another program input by input.

pub mod apart;
pub mod cases;
pub mod checker;
pub mod compare;
pub mod generator;
pub mod learner;
pub mod machine;
pub mod minimise;
pub mod openfst;
pub mod program;
pub mod refusal;
pub mod self_check;
pub mod sheets;
pub mod words;
