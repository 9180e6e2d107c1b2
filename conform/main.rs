//! Plays schedule texts on the Rust crate, one atomic step at a time.
mod object;
mod play;
mod random;
mod text;

use std::io::{BufRead, Read, Write};
use words::words::{ROWS, depart_by};

/// As bits. Where one is none it says how it is called, with status 2.
fn rows(names: &str) -> u32 {
    let bit = |name: &str| {
        ROWS.iter().position(|row| *row == name).unwrap_or_else(|| {
            eprintln!("no row {name}\nout/rust < TEXT, out/amended ROW,ROW < TEXT: plays a text of one object, and prints its trace. The rows: {}", ROWS.join(" "));
            std::process::exit(2)
        })
    };
    names.split(',').filter(|name| !name.is_empty()).map(|name| 1 << bit(name)).sum()
}

/// Plays text after text: of each the rows in force and the length, in a line, and then the text. Tells of each three lengths, in a
/// line, and then its trace, its answers and its fault.
fn serve() {
    let (mut input, mut output) = (std::io::stdin().lock(), std::io::stdout().lock());
    let mut head = String::new();
    while input.read_line(&mut head).is_ok_and(|read| read > 0) {
        let (names, length) = head.trim_end().split_once(' ').expect("rows and a length");
        depart_by(rows(names));
        let mut text = vec![0; length.parse().expect("a length")];
        input.read_exact(&mut text).expect("a text");
        let told = play::play(&text);
        let [trace, answers, fault] = told.each_ref().map(String::len);
        writeln!(output, "{trace} {answers} {fault}").expect("writing failed");
        write!(output, "{}", told.concat()).expect("writing failed");
        output.flush().expect("writing failed");
        head.clear();
    }
}

fn main() {
    // What panics is a call of a barrier, and is its answer.
    std::panic::set_hook(Box::new(|panic| {
        if !panic.to_string().contains("contract violation") {
            eprintln!("{panic}");
        }
    }));
    let arguments: Vec<String> = std::env::args().skip(1).collect();
    match arguments.iter().map(String::as_str).collect::<Vec<_>>()[..] {
        ["serve"] => serve(),
        // So many random texts of an object, of at most so many random lines each, made with these rows in force.
        ["texts", name, seed, count, lines, names] => {
            depart_by(rows(names));
            let [seed, count, lines] = [seed, count, lines].map(|number| number.parse().expect("a number"));
            let kind = text::KINDS.iter().find(|kind| kind.name == name).expect("an object");
            for n in 0..count {
                println!("{}", random::text(kind, &mut random::Random::new(seed, name, n), lines).join(" / "));
            }
        }
        // One text, with these rows in force.
        ref names => {
            depart_by(rows(&names.join(",")));
            let mut text = Vec::new();
            std::io::stdin().read_to_end(&mut text).expect("reading failed");
            let [trace, _, fault] = play::play(&text);
            print!("{trace}");
            eprint!("{fault}");
            std::process::exit(if fault.is_empty() { 0 } else { 2 });
        }
    }
}
