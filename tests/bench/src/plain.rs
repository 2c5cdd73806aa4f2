//! The opponents in plain C, called in the way that the proved functions are.

use agreement::calls::{self, RawAnswer, RawGreatest, RawStepped};
use reference::random::Record;
use reference::{Answer, GreatestAnswer, StepAnswer};

agreement::on_record!(plain_transport: const, mut => RawAnswer);
agreement::on_record!(plain_greatest_step: const, const => RawGreatest);
agreement::on_record!(plain_step: mut, mut, u64, u64 => RawStepped);

pub fn transport(r: &mut Record) -> Answer {
    calls::transport_by(plain_transport, r)
}

pub fn greatest_step(r: &Record) -> GreatestAnswer {
    calls::greatest_step_by(plain_greatest_step, r)
}

pub fn step(r: &mut Record, t: u64, strickler: u64) -> StepAnswer {
    calls::step_by(plain_step, r, t, strickler)
}
