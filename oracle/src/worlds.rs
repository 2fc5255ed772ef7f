//! The worlds that the port and the original are measured in, in use to a fraction. Those of the judge have entries of any
//! token; these have what each operation can be granted on.
//!
//! Every eighth registered id was created, and the seven after it were delegated from it, all with the same rights. Of
//! the entries of a space one in eight was made by the space, and the others are of registered ids. The logged pairs
//! are of recycled ids. Every queue has notices.

use judge::layout::{id_of, Numbers, HOLDER, NEXT, NOTICES};
use judge::rng::Rng;
use judge::table;
use judge::worlds::{opened, World};

/// The sizes: the request stream program's, and the largest.
pub const SIZES: [(&str, Numbers); 2] = [("small", Numbers::PROGRAM), ("large", Numbers::LARGEST)];

/// READ, WRITE, EXECUTE, GRANT and REVOKE.
pub const RIGHTS: u32 = 31;
pub const CAP_TYPE: u8 = 2;
pub const OBJECT: u64 = 77;
const GROUP: u64 = 8;

pub struct Filled {
    pub world: World,
    pub registered: u64,
    /// The tokens of registered ids that each space holds.
    pub held: Vec<Vec<u64>>,
    /// The ids that each space made.
    pub made: Vec<Vec<u64>>,
}

/// The token of a registered id.
pub fn token(id: u64) -> u64 {
    0xF << 60 | u64::from(CAP_TYPE) << 56 | id
}

/// The id that a registered id was delegated from, or itself.
fn root(id: u64) -> u64 {
    id - (id - 1) % GROUP
}

pub fn filled(rng: &Rng, numbers: Numbers, fraction: f64) -> Filled {
    let part = |capacity: usize| (capacity as f64 * fraction) as usize;
    let quotas = vec![numbers.m as u64; numbers.s];
    let mut world = opened(vec![0; numbers.length()], numbers, &quotas);
    let registered = part(numbers.r) as u64;
    let recycled: Vec<u64> = (registered + 1..).take(part(numbers.r + 1)).collect();
    world.mem[NEXT] = registered + 1 + recycled.len() as u64;
    world.set_recycled(&recycled);
    let pairs: Vec<u64> = (0..2).flat_map(|generation| recycled.iter().map(move |id| generation << 48 | id)).collect();
    world.set_log(&pairs[..part(numbers.v)]);
    for queue in 0..if fraction > 0.0 { numbers.p } else { 0 } {
        world.set_queue(queue, queue as u64 + 1, rng.below(NOTICES), part(NOTICES));
    }
    let mut filled = Filled { world, registered, held: Vec::new(), made: Vec::new() };
    for s in 0..numbers.s {
        filled.fill_space(rng, s, part(numbers.m));
    }
    filled.register();
    assert!(judge::sound(&filled.world.mem));
    filled
}

impl Filled {
    /// Whether the token's id was created and the seven after it were delegated from it.
    pub fn is_parent(&self, token: u64) -> bool {
        let id = id_of(token);
        root(id) == id && id + GROUP - 1 <= self.registered
    }

    /// Whether the token's id was delegated, and none from it.
    pub fn is_leaf(&self, token: u64) -> bool {
        root(id_of(token)) != id_of(token)
    }

    fn fill_space(&mut self, rng: &Rng, s: usize, live: usize) {
        let [mut held, mut made] = [(); 2].map(|()| Vec::new());
        while held.len() + made.len() < live {
            let by_space = (held.len() + made.len()) as u64 % GROUP == 0;
            let token =
                if by_space { self.world.mem[NEXT] } else { token(1 + rng.below(self.registered as usize) as u64) };
            if held.contains(&token) {
                continue;
            }
            if by_space {
                self.world.mem[NEXT] += 1;
                made.push(token);
            } else {
                held.push(token);
            }
            table::insert(self.world.space(s), [token, OBJECT, 0, RIGHTS.into()]);
        }
        self.held.push(held);
        self.made.push(made);
    }

    fn register(&mut self) {
        let mut holders = vec![0; self.registered as usize + 1];
        for &token in self.held.iter().flatten() {
            holders[id_of(token) as usize] += 1;
        }
        for id in 1..=self.registered {
            // Ids are registered in their order, so an id's place is the number before it.
            let parent = (root(id) != id).then_some(root(id) as usize - 1);
            self.world.register(id, parent, HOLDER * holders[id as usize]);
        }
    }
}
