// The same loops as those of crates/codes and crates/table, in plain Rust, to compare times with.
use std::time::Instant;

const RUNS: u32 = 200;

#[derive(Clone, Copy)]
struct Game {
    pegs: u8,
    colours: u8,
    codes: u16,
}

struct Feedback {
    right: u8,
    near: u8,
}

impl Game {
    fn pegs_of(self, code: u16) -> [u8; 8] {
        let colours = self.colours as u16;
        let mut row = [0; 8];
        let mut rest = code;
        for peg in &mut row[..self.pegs as usize] {
            *peg = (rest % colours) as u8;
            rest /= colours;
        }
        row
    }

    fn feedback(self, code: u16, guess: u16) -> Feedback {
        let pegs = self.pegs as usize;
        let code_row = self.pegs_of(code);
        let guess_row = self.pegs_of(guess);
        let right = at_place(&code_row[..pegs], &guess_row[..pegs]);
        let common = in_common(self.colours, &code_row[..pegs], &guess_row[..pegs]);
        Feedback {
            right,
            near: common - right,
        }
    }
}

fn at_place(code: &[u8], guess: &[u8]) -> u8 {
    let mut right = 0;
    for i in 0..code.len() {
        if code[i] == guess[i] {
            right += 1;
        }
    }
    right
}

fn tally(row: &[u8]) -> [u8; 16] {
    let mut counts = [0; 16];
    for peg in row {
        counts[*peg as usize] += 1;
    }
    counts
}

fn in_common(colours: u8, code: &[u8], guess: &[u8]) -> u8 {
    let code_tally = tally(code);
    let guess_tally = tally(guess);
    let mut common = 0;
    for colour in 0..colours as usize {
        common += code_tally[colour].min(guess_tally[colour]);
    }
    common
}

fn first_with(pegs: u8, right: u8) -> u8 {
    right * (2 * pegs + 3 - right) / 2
}

fn told(game: Game, guess: u16, code: u16) -> u8 {
    let feedback = game.feedback(code, guess);
    first_with(game.pegs, feedback.right) + feedback.near
}

fn write_row(game: Game, guess: u16, row: &mut [u8]) {
    for (code, entry) in row.iter_mut().enumerate() {
        *entry = told(game, guess, code as u16);
    }
}

fn tabulate(game: Game, table: &mut [u8]) {
    let codes = game.codes as usize;
    for guess in 0..game.codes {
        let start = guess as usize * codes;
        write_row(game, guess, &mut table[start..start + codes]);
    }
}

fn checksum(table: &[u8]) -> u32 {
    table.iter().fold(0u32, |sum, entry| {
        sum.wrapping_mul(31).wrapping_add(*entry as u32)
    })
}

fn measure(pegs: u8, colours: u8) {
    let codes = (colours as u16).pow(pegs as u32);
    let game = std::hint::black_box(Game {
        pegs,
        colours,
        codes,
    });
    let size = codes as usize * codes as usize;
    let mut table = vec![0u8; size];
    let mut least = f64::MAX;
    for _ in 0..RUNS {
        let start = Instant::now();
        tabulate(game, std::hint::black_box(&mut table));
        least = least.min(start.elapsed().as_secs_f64());
    }
    let sum = checksum(&table);
    println!("{pegs} pegs {colours} colours: {size} entries, checksum {sum}");
    eprintln!("{pegs} pegs {colours} colours: {least:.6} s");
}

fn main() {
    measure(8, 2);
    measure(4, 4);
}
