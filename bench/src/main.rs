//! The proved functions beside the plain program, on the same inputs, in interleaved rounds: a table of books and calls, or
//! with `--scale` families of books that grow. Before a book is timed, both must give the same answers on it.

mod books;
mod programs;
mod same;
mod scale;
mod table;
mod timing;

fn main() {
    let (mut rounds, mut only, mut scaling) = (401, String::new(), false);
    let mut words = std::env::args().skip(1);
    while let Some(word) = words.next() {
        match word.as_str() {
            "--scale" => scaling = true,
            "--only" => only = words.next().unwrap_or_else(|| wrong_use()),
            "--rounds" => {
                rounds = words
                    .next()
                    .and_then(|text| text.parse().ok())
                    .filter(|rounds| *rounds > 0)
                    .unwrap_or_else(|| wrong_use())
            }
            _ => wrong_use(),
        }
    }
    if scaling {
        scale::print(rounds, &only);
    } else {
        table::print(rounds, &only);
    }
}

fn wrong_use() -> ! {
    eprintln!("use: bench [--rounds R] [--only TEXT] [--scale], R at least 1");
    std::process::exit(2);
}
