//! The second program: prints what the proved programs print, computed in another way, for the gate to compare; and writes
//! the cases that some of them are run on.
mod blake3;
mod chance;
mod code;
mod code_vectors;
mod container;
mod field;
mod field_vectors;
mod flood;
mod hand_out;
mod listing;
mod listing_cases;
mod note;
mod probe;
mod probe_cases;
mod recovery_blocks;
mod script;
mod session;
mod work;
mod writer;

const USAGE: &str =
    "usage: second PROGRAM, where PROGRAM is gf16_vectors, blake3_vectors, cauchy_vectors, sfc_probe or sfc_list;
       second cases PROGRAM, for the input that sfc_probe or sfc_list is run on;
       second listings, for the names of the other files that sfc_list is run on;
       second listing NAME, for one of these;
       second flood SEED COUNT, for frames of that many spoilt files, the same for the same seed;
       second recovery SEED, for recovery blocks of data that the seed gives, to compare with jerasure's;
       second hash LENGTH, for the BLAKE3 hash of so many bytes i mod 251";

fn main() {
    let words: Vec<String> = std::env::args().skip(1).collect();
    let words: Vec<&str> = words.iter().map(String::as_str).collect();
    match words[..] {
        ["gf16_vectors"] => field_vectors::print(),
        ["blake3_vectors"] => blake3::print_vectors(),
        ["cauchy_vectors"] => code_vectors::print(),
        ["sfc_probe"] => probe::print(),
        ["sfc_list"] => listing::print(),
        ["cases", "sfc_probe"] => probe_cases::write(flood::slice),
        ["cases", "sfc_list"] => listing::write_case(),
        ["listings"] => listing_cases::print_names(),
        ["listing", name] => listing_cases::write(name),
        ["flood", seed, count] => {
            flood::write(seed.parse().expect("SEED is a number"), count.parse().expect("COUNT is a number"));
        }
        ["recovery", seed] => recovery_blocks::print(seed.parse().expect("SEED is a number")),
        ["hash", length] => {
            let length = length.parse().expect("LENGTH is a number");
            println!("{}", blake3::hex(&blake3::hash(&blake3::pattern(length))));
        }
        _ => {
            eprintln!("{USAGE}");
            std::process::exit(2);
        }
    }
}
