//! `fifth`: whether a tie of BB's step 2 near z = 1/5 can be one that step 3 does not accept. In real numbers 5·z - 1 - ln 5 lies above ln z by
//! about 12.5·(z - 1/5)² and touches it at 1/5. Near there s + 1 + ln 5 is exact, so that of each z one s ties; beyond REACH numbers on either side
//! the line is above by more than 1.5e-15, which is more than the roundings of 5·z, ln 5 and ln z come to (half a unit and twice two units
//! of the last place). Prints how many ties there are among those numbers, and how many have s below ln z; fails where one has.

use compare::kernels::ln;

const REACH: u64 = 400_000_000;

fn main() {
    let middle = 0.2_f64.to_bits();
    let ln5 = ln(5.0);
    let (mut ties, mut below) = (0_u64, 0_u64);
    for bits in middle - REACH..=middle + REACH {
        let z = f64::from_bits(bits);
        let s = 5.0 * z - ln5 - 1.0;
        if s + 1.0 + ln5 != 5.0 * z {
            continue;
        }
        ties += 1;
        if s < ln(z) {
            below += 1;
        }
    }
    println!("{} numbers around 1/5: {ties} ties of step 2, {below} of them with s below ln z", 2 * REACH + 1);
    assert_eq!(below, 0, "step 3 does not accept every tie of step 2");
}
