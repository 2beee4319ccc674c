//! Seeded inputs.

/// Ticks of TIME, seeded and evenly spread over a span of years.
pub struct Span {
    pub name: &'static str,
    pub times: Vec<i64>,
}

const COUNT: usize = 4096;

/// The first of January, as TIME.
const START_1970: u64 = 116_444_736_000_000_000;
const START_2100: u64 = 157_469_184_000_000_000;
const START_30000: u64 = 8_961_858_144_000_000_000;

/// The tick after the last TIME.
const END: u64 = 1 << 63;

pub fn spans() -> Vec<Span> {
    vec![
        Span {
            name: "1970 to 2099",
            times: spread(START_1970, START_2100),
        },
        Span {
            name: "the whole range",
            times: spread(0, END),
        },
    ]
}

/// Late TIMEs: the most blocks of 400 years lie before them.
pub fn late() -> Span {
    Span {
        name: "30000 to 30828",
        times: spread(START_30000, END),
    }
}

fn spread(from: u64, to: u64) -> Vec<i64> {
    let mut state = 16_010_101;
    (0..COUNT)
        .map(|_| (from + next(&mut state) % (to - from)) as i64)
        .collect()
}

/// splitmix64.
pub fn next(state: &mut u64) -> u64 {
    *state = state.wrapping_add(0x9e37_79b9_7f4a_7c15);
    let mut x = *state;
    x = (x ^ (x >> 30)).wrapping_mul(0xbf58_476d_1ce4_e5b9);
    x = (x ^ (x >> 27)).wrapping_mul(0x94d0_49bb_1331_11eb);
    x ^ (x >> 31)
}
