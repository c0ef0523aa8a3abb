//! The same questions for a solver, in SMT-LIB over the integers: do run k of one hold and run j of another have an instant in common,
//! and is a packet k late. Each question is asked by itself; `unsat` is the good answer.

use crate::Asked;
use crate::holds::Hold;
use crate::judge::{self, Flow};

fn ask(claim: &str) {
    println!("(push)(assert {claim})(check-sat)(pop)");
}

/// The start of the run of this number.
fn start(h: Hold, run: &str) -> String {
    format!("(+ {} (* {} {run}))", h.start, h.period)
}

fn ask_meeting(one: Hold, other: Hold) {
    let (a, b) = (start(one, "k"), start(other, "j"));
    ask(&format!("(and (< {a} (+ {b} {})) (< {b} (+ {a} {})))", other.width, one.width));
}

/// Some run of the reader starts when packet k is due, or later, and before the packet is there.
fn ask_late(flow: &Flow) {
    let packet = format!("(* {} k)", flow.period);
    let read = start(flow.reader, "j");
    ask(&format!("(and (<= (+ {} {packet}) {read}) (< {read} (+ {} {packet})))", flow.due, flow.arrival));
}

pub fn put(asked: &Asked) {
    println!("(declare-const k Int)(declare-const j Int)(assert (<= 0 k))(assert (<= 0 j))");
    match asked {
        Asked::Pairs { pairs, .. } => pairs.iter().take(100).for_each(|(one, other)| ask_meeting(*one, *other)),
        Asked::Judge(file) => {
            let (places, flows) = judge::laid_out(file);
            flows.iter().for_each(ask_late);
            for holds in places.values() {
                for (i, one) in holds.iter().enumerate() {
                    holds[..i].iter().for_each(|other| ask_meeting(*one, *other));
                }
            }
        }
        Asked::Call { .. } => {}
    }
}
