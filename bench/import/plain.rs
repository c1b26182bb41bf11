//! Splits each line of a file into its fields, and prints how many lines and fields there are.
use std::{env, fs, process};

fn main() {
    let Some(name) = env::args().nth(1) else {
        process::exit(2);
    };
    let log = match fs::read(&name) {
        Ok(log) => log,
        Err(error) => {
            eprintln!("{name}: {error}");
            process::exit(3);
        }
    };
    let bars = log.contains(&b'|');
    let (mut lines, mut fields) = (0usize, 0usize);
    for line in log.split(|b| *b == b'\n') {
        let row: Vec<&[u8]> = if bars {
            line.split(|b| *b == b'|').collect()
        } else {
            line.split(|b| matches!(*b, b' ' | b'\t' | b'\r')).filter(|word| !word.is_empty()).collect()
        };
        lines += 1;
        fields += row.len();
    }
    println!("{lines} lines, {fields} fields");
}
