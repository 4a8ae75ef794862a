//! The example at the top of include/vcube.h, over the raw calls.

use vcube_sys::{
    VCUBE_ACCEPTED, VCUBE_HEAD, VCUBE_KIND_CRASH, VCUBE_NO_STATION, VCUBE_WIRING_CUBE, vcube_drive,
    vcube_fresh_table, vcube_run,
};

const N: usize = 8;

fn main() {
    let mut table = [0; N * (N + VCUBE_HEAD)];
    let (crash, mut sheet) = ([VCUBE_KIND_CRASH, 5], [0; 4]);
    let (mut rounds, mut tests) = (0, 0);
    let (mut last, mut taken, mut grants) = (VCUBE_NO_STATION, 0, 0);
    // Each pointer is valid for the length given behind it, and no buffer that is written overlaps with another.
    let errors = unsafe {
        [
            vcube_fresh_table(VCUBE_WIRING_CUBE, N, table.as_mut_ptr(), table.len()),
            vcube_run(
                VCUBE_WIRING_CUBE,
                N,
                table.as_mut_ptr(),
                table.len(),
                &mut rounds,
                &mut tests,
                crash.as_ptr(),
                crash.len(),
                sheet.as_mut_ptr(),
                sheet.len(),
                &mut taken,
            ),
            vcube_drive(
                VCUBE_WIRING_CUBE,
                N,
                table.as_mut_ptr(),
                table.len(),
                &mut rounds,
                &mut tests,
                &mut last,
                &mut grants,
            ),
        ]
    };
    assert_eq!((errors, table[VCUBE_HEAD + 5]), ([VCUBE_ACCEPTED; 3], 1));
    println!("after {tests} tests station 0 suspects station 5");
}
