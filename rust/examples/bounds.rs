//! The bounds of a plan file, by the proved library: `cargo run --release --example bounds ../examples/p2.plan`.

use livnakesh::{answers, Answer};

fn main() {
    let name = std::env::args().nth(1).expect("the name of a plan file");
    let file = std::fs::read(name).expect("a file that can be read");
    match answers(&file) {
        Err(refused) => println!("refused {} at {}", refused.number, refused.place),
        Ok(rows) => {
            for (row, searched) in rows.into_iter().enumerate() {
                match searched.answer {
                    Answer::Met { bound, instance } => {
                        println!("row {row}: at most {bound} ticks, in time (instance {instance})")
                    }
                    Answer::Missed { bound, instance } => {
                        println!("row {row}: up to {bound} ticks, too late (instance {instance})")
                    }
                    Answer::None => println!("row {row}: no bound"),
                }
            }
        }
    }
}
