//! The running total of a new rate keeper (02, P7): "nearest to t × p / q, exact halves going up".

use crate::both::{cases, Case};
use crate::given::{broken, small_settings, varied, WIDE};
use second::mapper::{nearest, Settings};

/// Whether T is nearest to t × p / q, exact halves going up, by the sentence that a partner cites.
fn is_nearest(t: u64, p: u32, q: u32, total: u64) -> bool {
    let (rate, divisor) = (2 * t * u64::from(p), u64::from(q));
    rate < 2 * divisor * total + divisor && 2 * divisor * total <= rate + divisor
}

/// The totals of a new keeper after 1, 2, 3 and so on to "times" counts, with refused calls among
/// the accepted ones. Each is the nearest, and neither the number below it nor that above it is.
fn totals(case: &mut Case, settings: Settings, p: u32, q: u32, times: u64) -> Vec<u64> {
    let mut keeper = case.keeper_new(q);
    let mut total = 0;
    let mut after = |t: u64| {
        if case.random.once_in(6) {
            let other = case.random.u32();
            assert_eq!(case.keeper(settings, &mut keeper, other, 0), Err(3));
            let wrong = settings.with_patterns(broken(&mut case.random));
            assert_eq!(case.keeper(wrong, &mut keeper, p, q), Err(14));
        }
        total += u64::from(case.keeper(settings, &mut keeper, p, q).unwrap());
        assert_eq!(total, nearest(t * u64::from(p), u64::from(q)), "{t} counts at {p} / {q}");
        for other in total.saturating_sub(1)..=total + 1 {
            assert_eq!(is_nearest(t, p, q, other), other == total, "{t} counts at {p} / {q}");
        }
        total
    };
    (1..=times).map(&mut after).collect()
}

/// Every rate on the grid K = 1 with a divisor up to 24, for more than two times q counts. An even
/// divisor meets exact halves, an odd one never.
#[test]
fn totals_at_every_small_rate() {
    cases("totals_at_every_small_rate", 1, |case| {
        let settings = Settings::new(1, 0, 4);
        for q in 1..=24 {
            let mut halves = 0;
            for p in 0..=4 * q {
                let times = 2 * u64::from(q) + 3;
                for (t, total) in (1..).zip(totals(case, settings, p, q, times)) {
                    halves +=
                        u32::from(2 * t * u64::from(p) + u64::from(q) == 2 * total * u64::from(q));
                }
            }
            assert_eq!(halves > 0, q % 2 == 0, "q = {q}");
        }
    });
}

#[test]
fn totals_of_new_keepers() {
    cases("totals_of_new_keepers", 20_000, |case| {
        let random = &mut case.random;
        let settings = match random.below(4) {
            0 => varied(random, Settings::OPU0),
            1 => varied(random, WIDE),
            _ => small_settings(random),
        };
        let any = random.from_to(1, 65535);
        let q = random.of(&[1, 2, 1296, 65534, 65535, any, any, any]);
        let (least, most) = (settings.lo * q, settings.hi * q);
        let between = random.from_to(least, most);
        let p = random.of(&[least, between, between, most]);
        let times = 1 + random.below(30);
        totals(case, settings, p, q, times);
    });
}

/// Of every divisor a keeper begins with half, rounded down, also of those that its calls refuse.
#[test]
fn first_remainders() {
    cases("first_remainders", 1, |case| {
        for q in (0..=70_000).chain([u32::MAX - 1, u32::MAX]) {
            let half = case.keeper_new(q).remainder;
            assert!(half + half == q || half + half + 1 == q, "q = {q}");
        }
    });
}
