//! Times of the numbers beside the hardware's root and `format!`, as ratios from one run: the best of many rounds each, taken in turn.
use common::best::best;
use common::gablemadder;
use common::random::Random;
use std::arch::asm;
use std::fmt::Write;
use std::hint::black_box;

/// The hardware's root of one number, as an instruction, so that the compiler does not take two at a time.
#[inline(always)]
fn hardware(x: f64) -> f64 {
    let mut r = x;
    unsafe { asm!("sqrtsd {0}, {0}", inout(xmm_reg) r, options(pure, nomem, nostack)) };
    r
}

fn roots(random: &mut Random) {
    let n = 4096;
    let values: Vec<f64> = (0..n).map(|_| random.float(20, 40)).collect();
    let (mut mine, mut theirs) = (values.clone(), values.clone());
    let (a, b) = best(
        4000,
        n,
        &mut || {
            mine.copy_from_slice(&values);
            gablemadder::sqrt_each(black_box(&mut mine));
        },
        &mut || {
            theirs.copy_from_slice(&values);
            for x in black_box(&mut theirs).iter_mut() {
                *x = hardware(*x);
            }
        },
    );
    println!("root, independent: {a:.2} ns, the hardware's {b:.2} ns: {:.2} times the hardware's", a / b);
    let (a, b) = best(
        400,
        n,
        &mut || {
            let mut x = 3.0;
            for _ in 0..n {
                x = gablemadder::sqrt(x) + 1.5;
            }
            black_box(x);
        },
        &mut || {
            let mut x = 3.0;
            for _ in 0..n {
                x = hardware(x) + 1.5;
            }
            black_box(x);
        },
    );
    println!("root, dependent: {a:.2} ns, the hardware's {b:.2} ns: {:.2} times the hardware's", a / b);
}

fn decimals(random: &mut Random) {
    let n = 4096;
    let lengths: Vec<f64> = (0..n).map(|_| random.float(7, 10)).collect();
    for places in 0..4usize {
        let mut out = [0; 24];
        let mut text = String::with_capacity(64);
        let (a, b) = best(
            200,
            n,
            &mut || {
                for x in &lengths {
                    let _ = black_box(gablemadder::decimal(*x, places as u32, black_box(&mut out)));
                }
            },
            &mut || {
                for x in &lengths {
                    text.clear();
                    write!(text, "{:.*}", places, x).unwrap();
                    black_box(&text);
                }
            },
        );
        println!("decimal, {places} places: {a:.1} ns, format! {b:.1} ns: {:.2} times as fast", b / a);
    }
}

fn main() {
    let mut random = Random(5);
    roots(&mut random);
    decimals(&mut random);
}
