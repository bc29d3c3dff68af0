//! Integer conversion.

use crate::both::{compare, start};
use crate::draw::PRECISIONS;
use crate::reference::{convert::convert, each};
use olsketina::Converted;

#[test]
fn extremes() {
    let (_, mut both) = start(61);
    let small = [-129, -128, -1, 0, 1, 2, 3, 127, 128, 255];
    let words = [&[i16::MIN, i16::MIN + 1], &small[..], &[i16::MAX]].concat();
    let [low, high, half] = [i32::MIN, i32::MAX, 1 << 30];
    let far = [low, low + 1, -half - 1, -half, -65537, -32769, -32768, -3, -2, 32767, 32768, 65536, half - 1, half, high - 1, high];
    let shifts = (0..=33).chain([63, 64, 65, 128, 1 << 31, u32::MAX]);
    let numbers = small.into_iter().map(i32::from).chain(far);
    each!(d in numbers, &offset in &words, &scale in &words, shift in shifts.clone(), precision in PRECISIONS => {
        compare!(both, "quantize_convert", olsketina::convert, convert, d, offset, scale, shift, precision);
    });
    both.expect("quantize_convert: 0 2 16");
}

/// Values at and beside halves, at zero and around the ends of both ranges, so that rounding and holding show. Counts those that are no half (0),
/// a half above zero (1) and below (2); those that are not held (0) and held (1).
#[test]
fn around_the_ranges() {
    let (mut g, mut both) = start(60);
    for _ in 0..1_000_000 {
        let [precision, shift] = [g.among(0, 1), g.among(0, 31)];
        let scale = if g.one_in(2) { g.pick(&[1, -1, 2, -2, 3, -3, 255]) } else { g.word() as i16 };
        let offset = g.word() as i16;
        // Twice the value, so that an odd one is a half.
        let twice = g.pick(&[0, 1, 3, 253, 254, 255, 256, 257, 258, 65533, 65534, 65535, 65536, 65537, 65538]) * g.pick(&[1, -1]);
        let divisor = if scale == 0 { 1 } else { i64::from(scale) };
        let wanted = (twice << shift) / (2 * divisor) + i64::from(offset);
        let near = (wanted + g.pick(&[0, 0, 0, 1, -1, 2, -2])).clamp(i32::MIN.into(), i32::MAX.into()) as i32;
        for d in [near, g.word() as i32] {
            let converted = compare!(both, "quantize_convert", olsketina::convert, convert, d, offset, scale, shift, precision);
            let product = (i64::from(d) - i64::from(offset)) * i64::from(scale);
            let half = shift > 0 && product.rem_euclid(1 << shift) == 1 << (shift - 1);
            both.note("a half", u32::from(half) + u32::from(half && product < 0), 1);
            both.note("held", converted.expect("accepted").held.into(), 1);
        }
    }
    both.expect("a half: 0 1 2; held: 0 1; quantize_convert: 0");
}

/// What nearest means, of small numbers: no whole number is nearer, and of two that are as near it is the one away from zero. To
/// int8 it is held exactly where the rounded value lies outside int8.
#[test]
fn nearest() {
    each!(d in -800..=800_i32, scale in [1, -1, 2, 3, -3, 7], shift in 0..=5 => {
        let exact = d * i32::from(scale);
        let Converted { value, held } = olsketina::convert(d, 0, scale, shift, 1).expect("accepted");
        let (given, step) = (i32::from(value) << shift, 1 << shift);
        let twice = 2 * (given - exact).abs();
        assert!(!held && (twice < step || twice == step && given.abs() > exact.abs()), "{exact} over {step} gives {value}");
        let held = !(-128..=127).contains(&value);
        assert_eq!(olsketina::convert(d, 0, scale, shift, 0), Ok(Converted { value: value.clamp(-128, 127), held }), "{exact} over {step}");
    });
}
