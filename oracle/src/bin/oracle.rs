//! The text of a run on standard input, one line for each call on standard output. See parser.rs.
use std::io::{BufRead, Write};
fn main() {
    let t = std::thread::Builder::new().stack_size(oracle_lib::STACK_SIZE).spawn(|| {
        let input = std::io::stdin();
        let o = std::io::stdout();
        let mut o = std::io::BufWriter::new(o.lock());
        oracle_lib::parser::main_loop(input.lock().lines().map(|l| l.unwrap()), |l| { writeln!(o, "{}", l).unwrap() });
    }).unwrap();
    if t.join().is_err() { std::process::exit(2) }
}
