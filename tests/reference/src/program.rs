// What the judging program prints for a file.

use crate::counts::expected;
use crate::judge::readable;

pub fn output(file: &[u8]) -> String {
    let file = match readable(file) {
        Ok(file) => file,
        Err(refusal) => return format!("refused {} {}\n", refusal.number, refusal.place),
    };
    let mut lines = String::new();
    for (i, test) in file.tests.iter().enumerate() {
        let judgement = expected(&file.rules, test);
        let verdict = if judgement.bad == 0 { "holds" } else { "fails" };
        let (number, valid, bad) = (i + 1, judgement.valid, judgement.bad);
        lines.push_str(&format!("{number} {valid} {bad} {verdict}\n"));
    }
    lines
}
