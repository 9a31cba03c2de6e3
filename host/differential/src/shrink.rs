//! Makes a case in which port and model differ as small as it gets in some seconds. Every call takes any bytes, so any shorter input will do.

use crate::case::Case;
use std::time::{Duration, Instant};

const PATIENCE: Duration = Duration::from_secs(10);

struct Shrinking {
    case: Case,
    until: Instant,
}

/// The smallest case found, and what the two say of it.
pub fn smallest(case: Case) -> String {
    let mut work = Shrinking { case, until: Instant::now() + PATIENCE };
    while work.numbers() | work.runs() | work.bytes() {}
    let port = work.case.port();
    format!("{}\n{}", work.case, work.case.model().against(&port))
}

impl Shrinking {
    /// Takes the case, if port and model still differ on it.
    fn takes(&mut self, case: Case) -> bool {
        let differs = Instant::now() < self.until && !case.agrees(&case.model());
        if differs {
            self.case = case;
        }
        differs
    }

    /// A smaller number, and the least buffers.
    fn numbers(&mut self) -> bool {
        let (number, lent) = (self.case.number, self.case.call.rooms());
        let least = lent != self.case.lent && self.takes(Case { lent, ..self.case.clone() });
        let fewer = number > 0
            && (self.takes(Case { number: 0, ..self.case.clone() }) || self.takes(Case { number: number / 2, ..self.case.clone() }));
        least | fewer
    }

    /// Without runs of bytes, long runs first.
    fn runs(&mut self) -> bool {
        let mut shorter = false;
        for i in 0..self.case.inputs.len() {
            let mut run = self.case.inputs[i].len();
            while run > 0 {
                let mut at = 0;
                while at + run <= self.case.inputs[i].len() {
                    let mut less = self.case.clone();
                    less.inputs[i].drain(at..at + run);
                    if self.takes(less) {
                        shorter = true;
                    } else {
                        at += run.div_ceil(4);
                    }
                }
                run /= 2;
            }
        }
        shorter
    }

    /// With smaller bytes.
    fn bytes(&mut self) -> bool {
        let mut simpler = false;
        for i in 0..self.case.inputs.len() {
            for at in 0..self.case.inputs[i].len() {
                for byte in [0, 1, 2, 5, b'x'] {
                    let mut less = self.case.clone();
                    less.inputs[i][at] = byte;
                    if byte < self.case.inputs[i][at] && self.takes(less) {
                        simpler = true;
                        break;
                    }
                }
            }
        }
        simpler
    }
}
