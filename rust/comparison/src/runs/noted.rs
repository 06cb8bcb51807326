//! What was counted of the finish ticks in observations (document 02, wish 9).

use demand::finishes::Noted;

/// The kinds of finish ticks, each with how often it was there and its words.
pub fn kinds(noted: &Noted) -> [(u64, &'static str); 10] {
    let [done_ready, done_between, done_end] = noted.done;
    let [sent_ready, sent_between, sent_end] = noted.sent;
    [
        (noted.firsts, "none yet"),
        (done_ready, "done at ready"),
        (done_between, "done between"),
        (done_end, "done at the end"),
        (sent_ready, "sent at ready"),
        (sent_between, "sent between"),
        (sent_end, "sent at the end"),
        (noted.taken, "taken"),
        (noted.timed_out, "timed out"),
        (noted.spread, "of work spread over ticks"),
    ]
}

/// The kinds that should have been there often enough in these runs and were not.
pub fn gaps<'a>(runs: &'a str, noted: &Noted, least: u64) -> impl Iterator<Item = String> + 'a {
    let few = kinds(noted)
        .into_iter()
        .filter(move |(count, _)| *count < least);
    few.map(move |(count, what)| {
        format!("finish ticks of {runs}, {what}: {count}, fewer than {least}")
    })
}

#[cfg(test)]
mod tests {
    use super::*;

    #[test]
    fn what_is_rare_is_told() {
        let noted = Noted {
            firsts: 9,
            done: [9, 3, 9],
            sent: [9; 3],
            taken: 9,
            timed_out: 9,
            spread: 8,
        };
        assert_eq!(gaps("runs", &noted, 3).count(), 0);
        let told = [
            "finish ticks of runs, done between: 3, fewer than 9",
            "finish ticks of runs, of work spread over ticks: 8, fewer than 9",
        ];
        assert_eq!(gaps("runs", &noted, 9).collect::<Vec<_>>(), told);
        assert_eq!(gaps("runs", &noted, 10).count(), 10);
    }
}
