// A program's own timer.
use super::sides;
use crate::port::feeder::at;
use hedrugal::{Age, Seen, Timer};
use std::time::Duration;

// What was seen of a limit, an age and words.
fn seen(limit: &str, by: &str, what: &str) -> Seen {
    let limit = (limit != "-1").then(|| limit.parse().expect("milliseconds"));
    let has = |word| what.split('+').any(|it| it == word);
    Seen {
        limit: limit.map(Duration::from_millis),
        by: [Age::Last, Age::Front][usize::from(by == "FRONT")],
        fed: has("FED"),
        taken: has("TAKEN"),
        empty: has("EMPTY"),
    }
}

// `NOTE | NOTE .. = LEFT | LEFT ..`, of a NOTE in five words.
pub fn check(line: &str) {
    let (notes, wanted) = sides(line);
    let mut timer = Timer::new();
    let tell = |note: &str| {
        let [noted, limit, by, what, asked] = note.split(' ').collect::<Vec<_>>()[..] else {
            panic!("{note} is no note");
        };
        let [noted, asked] = [noted, asked].map(|it| at(it.parse().expect("a time")));
        timer.note(noted, seen(limit, by, what));
        let left = timer.timeout(asked);
        assert_eq!(timer.is_due(asked), left == Some(Duration::ZERO));
        left.map_or("forever".to_string(), |it| it.as_millis().to_string())
    };
    let told: Vec<String> = notes.split(" | ").map(tell).collect();
    assert_eq!(told.join(" | "), wanted);
}
