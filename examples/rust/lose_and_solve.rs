//! A word loses two rows and gets them back. Run: `cargo run --example lose_and_solve`, behind `tools/lib`.
use carbink::{Code, Refused};

fn main() -> Result<(), Refused> {
    let code = Code { k: 4, r: 2, len: 4 };
    let mut word = *b"far memory, lost........";
    let (data, parities) = word.split_at_mut(16);
    code.encode(data, parities)?;
    let kept = word;
    word[4..8].fill(0);
    word[20..].fill(0);
    code.solve(&mut word, &[0, 2, 3, 4])?;
    println!("rows 1 and 5 made again: {}", word == kept);
    word[9] ^= 1;
    let found = code.examine(&word)?;
    code.mend(&mut word, found.position)?;
    println!("kind {}, row {}, mended: {}", found.kind, found.position, word == kept);
    println!("other positions: {:?}", code.solve(&mut word, &[0, 0, 1, 2]));
    Ok(())
}
