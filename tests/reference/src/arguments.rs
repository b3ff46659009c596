//! Arguments of the programs.

/// The numbers of the command line; another form ends the program with status 2.
pub fn numbers<const COUNT: usize>(usage: &str) -> [u64; COUNT] {
    let words: Vec<String> = std::env::args().skip(1).collect();
    parse(&words).unwrap_or_else(|| leave(usage))
}

pub fn parse<const COUNT: usize>(words: &[String]) -> Option<[u64; COUNT]> {
    let numbers: Option<Vec<u64>> = words.iter().map(|word| word.parse().ok()).collect();
    numbers?.try_into().ok()
}

pub fn leave(usage: &str) -> ! {
    eprintln!("usage: {usage}");
    std::process::exit(2)
}
