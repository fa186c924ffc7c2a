//! Which lists of at most K cuts a plan survives, at any slots: `verdict [PLAN [K]]`, plan.bin and 1 if not given. A cut takes a cable, both ways. It
//! prints a line for each l, as the verdict program does, and the figure: how many messages arrive at least.

#[allow(dead_code)]
mod nuthatchet;

use nuthatchet::Refusal;

fn lines(file: &[u8], k: usize) -> Result<(), Refusal> {
    let mut row = [0; nuthatchet::ROW];
    let numbers = nuthatchet::read_file(file, &mut row)?;
    let messages = row[3] as usize + 1;
    for l in 0..=messages {
        let mut list = [0; nuthatchet::LIST];
        match nuthatchet::verdict(&row[..numbers], k, l, &mut list)? {
            0 => println!("{k} {l} resistant"),
            pairs => {
                let cuts: Vec<String> = list[..2 * pairs].iter().map(u16::to_string).collect();
                println!("{k} {l} {}", cuts.join(" "));
            }
        }
    }
    println!("figure {k} {}", nuthatchet::figure(&row[..numbers], k)?);
    Ok(())
}

fn main() {
    let words: Vec<String> = std::env::args().collect();
    let file = std::fs::read(words.get(1).map_or("plan.bin", String::as_str)).unwrap_or_default();
    let k = words.get(2).and_then(|k| k.parse().ok()).unwrap_or(1);
    if let Err(refusal) = lines(&file, k) {
        let mut text = [0; 98];
        let bytes = nuthatchet::refusal_text(refusal, &mut text).unwrap_or_default();
        print!("{}", String::from_utf8_lossy(&text[..bytes]));
    }
}
