//! Instructions, where Valgrind can be had: run under its tool callgrind, each operation is called once between the two requests below, and
//! the tool writes the count with the label. Run otherwise, the requests are no more than a few rotations that cancel out.

use crate::machines::{Kind, LETTERS, STATES};
use crate::subject::{Operation, Side, Subject};
use std::arch::asm;
use std::collections::HashMap;
use std::ffi::CString;

/// Callgrind's requests, as its header numbers them.
const BASE: u64 = (b'C' as u64) << 24 | (b'T' as u64) << 16;
const ZERO_COUNTS: u64 = BASE + 1;
const WRITE_COUNTS: u64 = BASE + 3;

/// Valgrind's way to be told something: it knows these instructions, which change no register else.
fn request(number: u64, argument: u64) {
    let request = [number, argument, 0, 0, 0, 0];
    // SAFETY: rdi is rotated by 128 bits in all, and rdx is given up.
    unsafe {
        asm!(
            "rol rdi, 3",
            "rol rdi, 13",
            "rol rdi, 61",
            "rol rdi, 51",
            "xchg rbx, rbx",
            in("rax") request.as_ptr(),
            inout("rdx") 0u64 => _,
            options(nostack),
        );
    }
}

pub fn label(subject: &Subject, operation: Operation, side: Side) -> String {
    let (kind, machine) = (subject.kind.name(), &subject.machine);
    let (operation, side) = (operation.name(), side.name());
    format!("{kind} {} {} {operation} {side}", machine.n, machine.k)
}

/// Calls everything once, each call with its label.
pub fn call_all() {
    for kind in Kind::ALL {
        for n in STATES {
            for k in LETTERS {
                let mut subject = Subject::new(kind, n, k);
                for operation in Operation::ALL {
                    for side in Side::ALL {
                        let label = CString::new(label(&subject, operation, side))
                            .expect("a label has no zero byte");
                        subject.clear();
                        request(ZERO_COUNTS, 0);
                        subject.run(operation, side);
                        request(WRITE_COUNTS, label.as_ptr() as u64);
                    }
                }
            }
        }
    }
}

/// Counts by label, from lines of a label and a number.
pub fn read(text: &str) -> HashMap<String, f64> {
    text.lines()
        .filter_map(|line| line.rsplit_once(' '))
        .filter_map(|(label, count)| Some((label.to_string(), count.parse().ok()?)))
        .collect()
}
