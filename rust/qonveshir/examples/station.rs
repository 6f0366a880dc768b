//! Makes the states of `samples/station`: four days of 500 minutes, a state for each, by a seed.
//!
//! ```text
//! cargo run --example station > ../samples/station/states.txt
//! ```

/// Prints the text.
#[allow(dead_code)]
fn main() {
    print!("{}", states());
}

const SEED: u64 = 26;
const DAYS: [&str; 4] = ["mon", "tue", "wed", "thu"];
const MINUTES: usize = 500;
/// The first minute of a day, nine o'clock.
const START: usize = 9 * 60;

/// The text of all states, a line for each.
pub fn states() -> String {
    let mut draw = Draw(SEED);
    let mut text = String::from("# Made by rust/qonveshir/examples/station.rs.\n");
    for day in DAYS {
        for minute in (0..MINUTES).map(|minute| START + minute) {
            let state = if minute == LONG { long_seats() } else { draw.state() };
            text += &format!("{day}-{:02}{:02}: {state}\n", minute / 60, minute % 60);
        }
    }
    text
}

/// The minute at which each day has a train of wet seats, on which a rule is spent.
const LONG: usize = 12 * 60;

/// Seats that are wet by turns, none of them out of use.
fn long_seats() -> String {
    format!("seats({})", ["wet", "belted"].repeat(30).join(", "))
}

/// Numbers by a seed (splitmix64), and states made of them.
struct Draw(u64);

impl Draw {
    fn below(&mut self, limit: usize) -> usize {
        self.0 = self.0.wrapping_add(0x9e37_79b9_7f4a_7c15);
        let mut mixed = self.0;
        mixed = (mixed ^ (mixed >> 30)).wrapping_mul(0xbf58_476d_1ce4_e5b9);
        mixed = (mixed ^ (mixed >> 27)).wrapping_mul(0x94d0_49bb_1331_11eb);
        ((mixed ^ (mixed >> 31)) % limit as u64) as usize
    }

    /// One of these words, apart by blanks.
    fn of(&mut self, words: &str) -> String {
        let words: Vec<&str> = words.split(' ').collect();
        words[self.below(words.len())].into()
    }

    /// A list of between so many elements.
    fn list(
        &mut self,
        symbol: &str,
        least: usize,
        most: usize,
        one: fn(&mut Self) -> String,
    ) -> String {
        let length = least + self.below(most - least + 1);
        let elements: Vec<String> = (0..length).map(|_| one(self)).collect();
        format!("{symbol}({})", elements.join(", "))
    }

    fn state(&mut self) -> String {
        match self.below(10) {
            0 | 1 => self.gates(1, 9),
            2 if self.below(8) == 0 => {
                self.list("seats", 4, 12, |draw| draw.of("wet wet belted out"))
            }
            2 => self.list("seats", 2, 12, Self::seat),
            3 => self.list("rows", 1, 4, Self::row),
            4 => self.train(),
            5 => self.list("trains", 1, 3, Self::short_train),
            6 => self.list("posts", 1, 4, Self::post),
            7 => format!("watch({}, {})", self.of("calm calm windy storm"), self.posts()),
            8 => self.platform(),
            _ => self.list("lamps", 1, 6, Self::lamp),
        }
    }

    fn gates(&mut self, least: usize, most: usize) -> String {
        self.list("gates", least, most, Self::gate)
    }

    fn gate(&mut self) -> String {
        match self.below(8) {
            0 => format!("gate({})", self.of("green amber red dark")),
            1 => self.of("held jammed held"),
            _ => self.of("open shut"),
        }
    }

    fn seat(&mut self) -> String {
        self.of("free free belted belted belted taken wet out")
    }

    fn row(&mut self) -> String {
        let seat = self.seat();
        let other = if self.below(4) == 0 { self.seat() } else { seat.clone() };
        format!("row({seat}, {other})")
    }

    fn train(&mut self) -> String {
        let place = self.of("boarding ready away parked");
        let seats = match (place.as_str(), self.below(2)) {
            ("parked", 0) => self.list("seats", 1, 4, |_| "free".into()),
            ("boarding", 0) => self.list("seats", 1, 4, |draw| draw.of("belted taken")),
            _ => self.list("seats", 1, 5, Self::seat),
        };
        format!("train({place}, {seats})")
    }

    fn short_train(&mut self) -> String {
        let place = self.of("boarding ready away away parked");
        format!("train({place}, {})", self.list("seats", 1, 2, |draw| draw.of("free belted")))
    }

    fn post(&mut self) -> String {
        let who = self.of("loader sender loader sender crew guest");
        format!("post({who}, {})", self.of("green green amber red dark"))
    }

    /// Posts that have a loader and a sender more often than not.
    fn posts(&mut self) -> String {
        match self.below(3) {
            0 => self.list("posts", 0, 2, Self::post),
            _ => format!("posts(post(loader, {}), post(sender, green))", self.of("green amber")),
        }
    }

    fn platform(&mut self) -> String {
        let gates = match self.below(4) {
            0 => self.list("gates", 1, 3, |_| "shut".into()),
            _ => self.gates(1, 3),
        };
        let train = if self.below(3) == 0 { self.train() } else { self.short_train() };
        format!("platform({}, {gates}, {train})", self.of("north south east west"))
    }

    fn lamp(&mut self) -> String {
        self.of("green green green green amber red dark")
    }
}
