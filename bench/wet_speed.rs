//! Nanoseconds a triangle of the means over its wet part, by the sides of its corners.
#![tactic(auto)]

ghost use Rattle.std.specs.Prelude.{◌≤ℤ◌, ◌<ℤ◌, pos, ◌^◌};
ghost use Rattle.outward_interval.specs.Ends.{EndsBelow};

use outward_interval::Span;
use plane_clip::{WetDepths, WetShare, wet, wet_depths};
use std::io;
use std::time::Instant;

const TURNS: u64 = 10_000_000;

fn number(seed: u64) -> i128
    ensures low { pos 0 ≤ℤ result }
    ensures high { result <ℤ pos (2 ^ 40) }
{
    i128::from((seed.wrapping_mul(6364136223846793005) >> 20) % 1099511627776)
}

fn above(seed: u64) -> Span<20>
    ensures { EndsBelow 41 result.lo result.hi }
{
    let n = number(seed);
    match Span::new(n + 1, n + 1025) {
        Some(span) => span,
        None => unreachable!(),
    }
}

fn below(seed: u64) -> Span<20>
    ensures { EndsBelow 41 result.lo result.hi }
{
    let n = number(seed);
    match Span::new(-n - 2048, -n - 1024) {
        Some(span) => span,
        None => unreachable!(),
    }
}

fn ends<const F: u32>(span: Span<F>) -> i128 {
    span.lo().wrapping_add(span.hi())
}

fn three(spans: [Span<20>; 3]) -> i128 {
    ends(spans[0])
        .wrapping_add(ends(spans[1]))
        .wrapping_add(ends(spans[2]))
}

fn three_shares(spans: [Span<40>; 3]) -> i128 {
    ends(spans[0])
        .wrapping_add(ends(spans[1]))
        .wrapping_add(ends(spans[2]))
}

fn six_shares(spans: [Span<40>; 6]) -> i128 {
    ends(spans[0])
        .wrapping_add(ends(spans[1]))
        .wrapping_add(ends(spans[2]))
        .wrapping_add(ends(spans[3]))
        .wrapping_add(ends(spans[4]))
        .wrapping_add(ends(spans[5]))
}

fn depths_total(means: WetDepths) -> i128 {
    ends(means.depth).wrapping_add(three(means.weighted))
}

fn total(means: WetShare) -> i128 {
    ends(means.share)
        .wrapping_add(ends(means.depth))
        .wrapping_add(three(means.weighted))
        .wrapping_add(three_shares(means.corner))
        .wrapping_add(six_shares(means.pair))
}

fn numbers_alone() -> i128 {
    let mut sum: i128 = 0;
    for turn in 0..TURNS {
        let (x, y, z) = (
            above(turn),
            below(turn.wrapping_add(7)),
            below(turn.wrapping_add(77)),
        );
        sum = sum
            .wrapping_add(ends(x))
            .wrapping_add(ends(y))
            .wrapping_add(ends(z));
    }
    sum
}

fn dry_depths() -> i128 {
    let mut sum: i128 = 0;
    for turn in 0..TURNS {
        let means = wet_depths([
            below(turn),
            below(turn.wrapping_add(7)),
            below(turn.wrapping_add(77)),
        ]);
        sum = sum.wrapping_add(depths_total(means));
    }
    sum
}

fn dry_all() -> i128 {
    let mut sum: i128 = 0;
    for turn in 0..TURNS {
        let means = wet([
            below(turn),
            below(turn.wrapping_add(7)),
            below(turn.wrapping_add(77)),
        ]);
        sum = sum.wrapping_add(total(means));
    }
    sum
}

fn over_depths() -> i128 {
    let mut sum: i128 = 0;
    for turn in 0..TURNS {
        let means = wet_depths([
            above(turn),
            above(turn.wrapping_add(7)),
            above(turn.wrapping_add(77)),
        ]);
        sum = sum.wrapping_add(depths_total(means));
    }
    sum
}

fn over_all() -> i128 {
    let mut sum: i128 = 0;
    for turn in 0..TURNS {
        let means = wet([
            above(turn),
            above(turn.wrapping_add(7)),
            above(turn.wrapping_add(77)),
        ]);
        sum = sum.wrapping_add(total(means));
    }
    sum
}

fn one_depths() -> i128 {
    let mut sum: i128 = 0;
    for turn in 0..TURNS {
        let means = wet_depths([
            above(turn),
            below(turn.wrapping_add(7)),
            below(turn.wrapping_add(77)),
        ]);
        sum = sum.wrapping_add(depths_total(means));
    }
    sum
}

fn one_all() -> i128 {
    let mut sum: i128 = 0;
    for turn in 0..TURNS {
        let means = wet([
            above(turn),
            below(turn.wrapping_add(7)),
            below(turn.wrapping_add(77)),
        ]);
        sum = sum.wrapping_add(total(means));
    }
    sum
}

fn two_depths() -> i128 {
    let mut sum: i128 = 0;
    for turn in 0..TURNS {
        let means = wet_depths([
            above(turn),
            below(turn.wrapping_add(7)),
            above(turn.wrapping_add(77)),
        ]);
        sum = sum.wrapping_add(depths_total(means));
    }
    sum
}

fn two_all() -> i128 {
    let mut sum: i128 = 0;
    for turn in 0..TURNS {
        let means = wet([
            above(turn),
            below(turn.wrapping_add(7)),
            above(turn.wrapping_add(77)),
        ]);
        sum = sum.wrapping_add(total(means));
    }
    sum
}

fn main(rt: HostRuntime) -> io::Result<()> {
    let start = Instant::now(&rt)?;
    let sum = numbers_alone();
    println!(rt;
        "numbers alone: {} ms for {TURNS} triangles ({sum})",
        start.elapsed(&rt)?.as_millis()
    )?;
    let start = Instant::now(&rt)?;
    let sum = dry_depths();
    println!(rt;
        "dry, depth means: {} ms ({sum})",
        start.elapsed(&rt)?.as_millis()
    )?;
    let start = Instant::now(&rt)?;
    let sum = dry_all();
    println!(rt;
        "dry, all means: {} ms ({sum})",
        start.elapsed(&rt)?.as_millis()
    )?;
    let start = Instant::now(&rt)?;
    let sum = over_depths();
    println!(rt;
        "wet, depth means: {} ms ({sum})",
        start.elapsed(&rt)?.as_millis()
    )?;
    let start = Instant::now(&rt)?;
    let sum = over_all();
    println!(rt;
        "wet, all means: {} ms ({sum})",
        start.elapsed(&rt)?.as_millis()
    )?;
    let start = Instant::now(&rt)?;
    let sum = one_depths();
    println!(rt;
        "one, depth means: {} ms ({sum})",
        start.elapsed(&rt)?.as_millis()
    )?;
    let start = Instant::now(&rt)?;
    let sum = one_all();
    println!(rt;
        "one, all means: {} ms ({sum})",
        start.elapsed(&rt)?.as_millis()
    )?;
    let start = Instant::now(&rt)?;
    let sum = two_depths();
    println!(rt;
        "two, depth means: {} ms ({sum})",
        start.elapsed(&rt)?.as_millis()
    )?;
    let start = Instant::now(&rt)?;
    let sum = two_all();
    println!(rt;
        "two, all means: {} ms ({sum})",
        start.elapsed(&rt)?.as_millis()
    )?;
    Ok(())
}
