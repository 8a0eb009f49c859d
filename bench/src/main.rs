//! Benchmark of the proved matcher. `run.sh` compiles and runs it.
//!
//!     bench CASES [--limit MILLISECONDS] [--hard [--show COUNT]] [--shelf] [--case NAME] [--part NAME --from NUMBER]
//!
//! CASES is the folder of cases; the limit is what one search of (a), (b) or (c) may take (2000). With `--hard` only the tables of hard and of random cases
//! are printed, and with `--show` some of the random cases that were stopped; with `--shelf` only the table of the shelf. `--case`, `--part` and `--from`
//! are for the child processes.

mod book;
mod cases;
mod constants;
mod families;
mod full_size;
mod generate;
mod growth;
mod hard;
mod library;
mod limited;
mod listing;
mod measure;
mod operations;
mod plain;
mod random;
mod shelf;
mod shelves;
mod terms;
mod timing;
mod tuned;

use std::env;
use std::path::PathBuf;
use std::process::exit;
use std::time::Duration;

struct Arguments {
    folder: PathBuf,
    limit: Duration,
    case: Option<String>,
    is_hard: bool,
    is_shelf: bool,
    show: usize,
    part: Option<String>,
    from: usize,
}

fn main() {
    let arguments = read_arguments();
    if let Some(part) = arguments.part {
        run_part(&part, arguments.from);
        return;
    }
    if arguments.is_hard || arguments.is_shelf {
        timing::print_noise("before");
        let all_right = if arguments.is_hard { hard::print() & full_size::print(arguments.show) } else { shelf::print() };
        println!();
        timing::print_noise("after");
        end_with(all_right);
    }
    let cases = cases::load(&arguments.folder);
    if let Some(name) = arguments.case {
        let case = cases.iter().find(|case| case.name == name).expect("a case of that name");
        families::run_child(case, arguments.limit);
        return;
    }
    print_setting(cases.len(), arguments.limit);
    timing::print_noise("before");
    let mut all_right = constants::check(arguments.limit);
    all_right &= families::print(&cases, arguments.limit);
    all_right &= operations::print(&cases);
    all_right &= operations::print_by_sweeps();
    all_right &= book::print();
    all_right &= shelf::print();
    all_right &= growth::print_by_records(arguments.limit);
    all_right &= growth::print_by_lines(arguments.limit);
    all_right &= growth::print_long_listings(arguments.limit);
    println!();
    timing::print_noise("after");
    end_with(all_right);
}

fn end_with(all_right: bool) -> ! {
    println!("\n{}", if all_right { "no answer wrong or different" } else { "SOME ANSWERS WRONG OR DIFFERENT" });
    exit(if all_right { 0 } else { 1 });
}

/// What a child process of the hard or random cases does.
fn run_part(part: &str, from: usize) {
    match part {
        hard::PART => limited::run_child(hard::tasks(from), hard::LIMIT),
        full_size::PART => limited::run_child(full_size::tasks(from), full_size::LIMIT),
        _ => panic!("no part {part}"),
    }
}

fn read_arguments() -> Arguments {
    let mut words = env::args().skip(1);
    let folder = PathBuf::from(words.next().expect("the folder of cases"));
    let mut arguments = Arguments { folder, limit: Duration::from_millis(2000), case: None, is_hard: false, is_shelf: false, show: 0, part: None, from: 0 };
    while let Some(word) = words.next() {
        let mut value = || words.next().expect("something behind the option");
        match word.as_str() {
            "--limit" => arguments.limit = Duration::from_millis(value().parse().expect("milliseconds")),
            "--hard" => arguments.is_hard = true,
            "--shelf" => arguments.is_shelf = true,
            "--show" => arguments.show = value().parse().expect("a number of cases"),
            "--case" => arguments.case = Some(value()),
            "--part" => arguments.part = Some(value()),
            "--from" => arguments.from = value().parse().expect("a number"),
            _ => panic!("no option {word}"),
        }
    }
    arguments
}

fn print_setting(cases: usize, limit: Duration) {
    println!("# Benchmark of onestep\n");
    println!("{cases} cases, each measured in one process of its own, library and baselines turn by turn;");
    println!("times are medians of 15 turns (fewer for slow ones), of processor time.");
    println!(
        "Ratios: (a) is the paper's algorithm with its three prunings and (b) its bare `resolve`, both written plainly in Rust; (c) is the search of (a),"
    );
    println!(
        "tuned; each divided by the library's time, so above 1 the library is faster. Worst is the least ratio. `limit`: no answer within {} ms.",
        limit.as_millis()
    );
    println!("Buffers: full tables of 65,536 bytes, the same ones for each call, warm, not cleared between calls;");
    println!("the library, (a) and (b) clear their work area themselves.");
    println!("All read bytes and write sorted lines and values; the library, (a) and (b) check pattern and recipe, (c) takes them as good.\n");
}
