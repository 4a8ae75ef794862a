//! Saved plants with each bit turned. Each plant of eight boards that the run of an input goes through is saved, and every file that differs from
//! it in one bit is loaded. The simulator says what comes of it, the program has to do the same; and what is loaded is all that the file says:
//! saved again it is that file.

use std::fs;
use std::path::{Path, PathBuf};

use shared::call::{number, Answer, Call};
use shared::random::Random;
use shared::record;
use shared::table::table_length;
use simulator::program::saved_after_run;

use crate::answer;
use crate::replayer::Replayer;

const BOARDS: usize = 8;

pub fn check(inputs: &[PathBuf], program: &Path) -> Result<String, String> {
    let mut replayer = Replayer::start(program)?;
    let (mut plants, mut files, mut refused) = (0, 0, 0);
    for input in inputs {
        let text =
            fs::read(input).map_err(|error| format!("compare: {}: {error}", input.display()))?;
        for end in (1..=text.len()).filter(|end| text[end - 1] == b'\n') {
            let saved = saved_after_run(&text[..end]).ok_or("compare: an input is not run")?;
            plants += 1;
            for bit in 0..8 * saved.len() {
                let mut file = saved.clone();
                file[bit / 8] ^= 1 << (bit % 8);
                let given = [file, vec![0xEE; table_length(BOARDS)]];
                let call = Call::new("load", given, &mut Random::numbered(1, bit as u64));
                let answer = answer::answer(&call);
                files += 1;
                refused += usize::from(answer.number != 0);
                if answer.number == 0 && saved_again(&answer) != call.arguments[0] {
                    return Err(format!("compare: bit {bit}: what is loaded is another plant"));
                }
                let mut text = Vec::new();
                record::write(&call, &answer, &mut text);
                replayer.feed(&text);
            }
        }
    }
    match replayer.finish()? {
        (Some(found), _) => Err(format!("compare: {}", found.text)),
        (None, text) => Ok(format!(
            "compare: {plants} saved plants with each bit turned: {files} files, {refused} refused, the others read as what they say\n{text}"
        )),
    }
}

/// The plant that a load gave, as a file.
fn saved_again(answer: &Answer) -> Vec<u8> {
    let [_, table, n, rounds, tests] = &answer.arguments[..] else {
        panic!("a load's arguments");
    };
    let n = number(n) as usize;
    let tally = (number(rounds) as u32, number(tests) as u32);
    let mut file = vec![0; 19 + n * (n + 10)];
    simulator::save(n, table, tally, &mut file);
    file
}
