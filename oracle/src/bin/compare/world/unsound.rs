//! Memory that is not sound: every call answers 26 there and changes nothing, and the port's look says what the judge
//! says.

use judge::damage::Target;
use judge::layout::*;
use judge::rng::Rng;
use oracle::calls::{lent, refused, Reply};
use oracle::Test;

use super::call::Call;
use super::{port, some_numbers, Run};

/// Makes any call with any arguments.
pub type AnyCall = fn(&Rng) -> Box<dyn Call>;

/// A call answers 26 there, and changes nothing.
fn refuses(run: &mut Run, test: &mut Test, call: &dyn Call, mem: &[u64]) {
    let mut after = mem.to_vec();
    let reply = call.port(&mut after);
    run.note_answer(call, reply.answer);
    let refusal = Reply { area: lent(reply.area.len()), ..refused(26) };
    test.same(call, (refusal, true), (reply, after == mem));
}

/// Worlds that are cut short.
pub fn short(run: &mut Run, test: &mut Test, rng: &Rng, any: AnyCall) {
    for n in 0..400 {
        let numbers = some_numbers(rng, rng.between(1, 12));
        let mem = judge::worlds::random(rng, numbers).mem;
        let length = [0, 1, 4, HEAD - 1, HEAD, numbers.length() - 1][n % 6];
        for length in [length, rng.below(numbers.length())] {
            test.same(length, false, port::is_sound(&mem[..length]));
            refuses(run, test, &*any(rng), &mem[..length]);
        }
    }
}

/// The memories that calls left, sound and damaged.
pub fn damaged(run: &mut Run, test: &mut Test, rng: &Rng, any: AnyCall) {
    for mut mem in std::mem::take(&mut run.reached) {
        test.same(&mem[..HEAD], (true, true), (judge::sound(&mem), port::is_sound(&mem)));
        let mut target = Target::new(&mut mem);
        for _ in 0..200 {
            target.strike(rng, |mem, blow| {
                let sound = judge::sound(mem);
                test.same((blow.kind, &blow.changed), sound, port::is_sound(mem));
                if !sound {
                    refuses(run, test, &*any(rng), mem);
                }
            });
        }
    }
}
