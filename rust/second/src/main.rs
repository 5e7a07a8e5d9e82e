//! A second reading: what the parsers and writers of x11rb 0.8.1 (Debian's librust-x11rb-dev) make of the same bytes.
//! They stand for what the published files of x11rb-protocol 0.14.0 leave out: error packets, XC-MISC, the setup and
//! its request. Bytes are seeded and random, of all lengths around those that matter; what is written is compared to the
//! byte, what is read field by field, and who reads at all is compared too, with the differences that
//! docs/DIFFERENCES.md has as the only ones allowed.
//!
//! ```text
//! second SEED COUNT
//! ```

#[path = "../../beside/src/chance.rs"]
#[allow(dead_code)]
mod chance;
mod setup;
mod wire;

use chance::Chance;

fn main() {
    let words: Vec<u64> = std::env::args()
        .skip(1)
        .flat_map(|word| word.parse())
        .collect();
    let [seed, count] = words[..] else {
        panic!("second SEED COUNT");
    };
    let mut chance = Chance::new(seed, "second", 0);
    let mut read = [0u64; 7];
    for _ in 0..count {
        read[0] += u64::from(wire::error(&mut chance));
        read[1] += u64::from(wire::version(&mut chance));
        read[2] += u64::from(wire::range(&mut chance));
        read[3] += u64::from(wire::list(&mut chance));
        wire::requests(&mut chance);
        setup::request(&mut chance);
        let status = setup::reply(&mut chance);
        if let Some(status) = status {
            read[4 + usize::from(status)] += 1;
        }
    }
    println!("second: {count} of each, no difference");
    println!("read by both: errors {}, versions {}, ranges {}, lists {}, setups failed {}, succeeded {}, to be continued {}", read[0], read[1], read[2], read[3], read[4], read[5], read[6]);
}
