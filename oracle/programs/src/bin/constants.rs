//! Prints the constants that the Rust folds, as a table of bit patterns,
//! then the three half-band designs, the sine and arctangent numbers and the
//! modes' names by number.
//! Constants with a name in the source are taken from the published crate;
//! literals are written as the source writes them.

use std::f32::consts::{FRAC_1_PI, FRAC_PI_2, LN_2, LOG2_E, PI, SQRT_2, TAU};

use published::api::PER_CYCLE;
use published::api::halfband::design;
use published::api::lanes::{ATAN, SIN, TWO_32};
use published::api::wave::{VALVE_BIAS, VALVE_LN_COSH_BIAS, VALVE_TANH_BIAS};
use published::shaper::{
    CURVE_RESOLUTION, DRIVE_MAX_DB, FM_MAX_HZ, FOLD_DRIVE_MAX_DB, LEAN_MAX, MAX_CURVE_STRETCH,
    Mode, PD_MAX_CYCLES, PINCH_MAX, PULSE_MAX, QUANTISE_MAX_STEPS, QUANTISE_MIN_STEPS,
    SYNC_MAX_RATIO, TRANSITION,
};

/// A finite float as an odd whole number times a power of two.
fn exact(x: f32) -> String {
    let bits = x.to_bits();
    let (biased, fraction) = (bits >> 23 & 0xff, bits & 0x7f_ffff);
    let (m, e) = match biased {
        0 => (fraction, -149),
        _ => (fraction | 1 << 23, biased as i32 - 150),
    };
    let zeros = m.trailing_zeros();
    let sign = if x < 0.0 { "-" } else { "" };
    format!("{sign}{} × 2^{}", m >> zeros, e + zeros as i32)
}

fn main() {
    let folded = [
        ("TRANSITION * 0.5 * 1", TRANSITION * 0.5 * 1.0),
        ("TRANSITION * 0.5 * 2", TRANSITION * 0.5 * 2.0),
        ("TRANSITION * 0.5 * 4", TRANSITION * 0.5 * 4.0),
        ("TRANSITION * 0.5 * 8", TRANSITION * 0.5 * 8.0),
        ("SYNC_MAX_RATIO.log2()", SYNC_MAX_RATIO.log2()),
        (
            "(QUANTISE_MAX_STEPS / QUANTISE_MIN_STEPS).log2()",
            (QUANTISE_MAX_STEPS / QUANTISE_MIN_STEPS).log2(),
        ),
        ("QUANTISE_MIN_STEPS", QUANTISE_MIN_STEPS),
        ("PINCH_MAX", PINCH_MAX),
        ("LEAN_MAX", LEAN_MAX),
        ("PULSE_MAX", PULSE_MAX),
        ("DRIVE_MAX_DB / 6.0206", DRIVE_MAX_DB / 6.020_6),
        ("FOLD_DRIVE_MAX_DB / 6.0206", FOLD_DRIVE_MAX_DB / 6.020_6),
        ("6.0206", 6.020_6),
        ("FM_MAX_HZ", FM_MAX_HZ),
        ("PD_MAX_CYCLES", PD_MAX_CYCLES),
        ("PER_CYCLE = 1.0 / 2^32", PER_CYCLE),
        ("TWO_32", TWO_32),
        ("0.01 (amount)", 0.01),
        ("100.0 (prepare's divisor)", 100.0),
        ("FRAC_1_PI (lean)", FRAC_1_PI),
        ("0.5 * FRAC_1_PI (pinch)", 0.5 * FRAC_1_PI),
        ("1.0 / TAU", 1.0 / TAU),
        ("TAU", TAU),
        ("PI", PI),
        ("FRAC_PI_2", FRAC_PI_2),
        ("2.0 / PI (SineFold integral)", 2.0 / PI),
        ("LN_2", LN_2),
        ("2.0 * LN_2 (fm_exponential)", 2.0 * LN_2),
        ("LOG2_E", LOG2_E),
        ("2.0 * LOG2_E (tanh)", 2.0 * LOG2_E),
        ("SQRT_2 (damping)", SQRT_2),
        ("1.2 (damping)", 1.2),
        ("VALVE_TANH_BIAS", VALVE_TANH_BIAS),
        ("VALVE_BIAS", VALVE_BIAS),
        ("VALVE_LN_COSH_BIAS", VALVE_LN_COSH_BIAS),
        (
            "1.0 / (1.0 - VALVE_TANH_BIAS^2)",
            1.0 / (1.0 - VALVE_TANH_BIAS * VALVE_TANH_BIAS),
        ),
        ("4.0 / 27.0 (SoftClip)", 4.0 / 27.0),
        ("1.0 / 27.0 (SoftClip integral)", 1.0 / 27.0),
        ("1.0 / 3.0 (ZeroSquare integral)", 1.0 / 3.0),
        ("1e-2 (distort_smooth)", 1e-2),
        ("1e-4 (quantise)", 1e-4),
        ("0.499 (quantise)", 0.499),
        ("0.45 (filter)", 0.45),
        ("11.0 (low-pass)", 11.0),
        ("12.0 (high-pass)", 12.0),
        ("f32::MAX (quantise)", f32::MAX),
        ("ln: 1/13", 1.0 / 13.0),
        ("ln: 1/11", 1.0 / 11.0),
        ("ln: 1/9", 1.0 / 9.0),
        ("ln: 1/7", 1.0 / 7.0),
        ("ln: 1/5", 1.0 / 5.0),
        ("ln: 1/3", 1.0 / 3.0),
        ("ln: 1/1", 1.0),
        ("MAX_CURVE_STRETCH", MAX_CURVE_STRETCH),
        ("CURVE_RESOLUTION as f32", CURVE_RESOLUTION as f32),
        (
            "(CURVE_RESOLUTION - 1) as f32",
            (CURVE_RESOLUTION - 1) as f32,
        ),
        ("smoothstep 6", 6.0),
        ("smoothstep -15", -15.0),
        ("smoothstep 10", 10.0),
    ];
    println!("| Constant | bits | value | m × 2^e |");
    println!("|---|---|---|---|");
    for (name, x) in folded {
        println!(
            "| `{name}` | {:#010x} | {x:?} | {} |",
            x.to_bits(),
            exact(x)
        );
    }
    println!();
    for from_last in 0..3 {
        let d = design(from_last);
        println!(
            "design {from_last} (from_last {from_last}): count {}",
            d.count
        );
        for (i, x) in d.coefs[..d.count].iter().enumerate() {
            println!("   {i} {:#010x} {x:e}", x.to_bits());
        }
    }
    for (i, x) in SIN.iter().enumerate() {
        println!("SIN[{i}]  {:#010x} {x:e}", x.to_bits());
    }
    for (i, x) in ATAN.iter().enumerate() {
        println!("ATAN[{i}] {:#010x} {x:e}", x.to_bits());
    }
    for mode in Mode::ALL {
        println!("mode {} {mode:?}", mode as u32);
    }
}
