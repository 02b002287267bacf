//! The twin of a verified LLDP/HTIP reader, writer, table, replay and comparison: ordinary Rust, from
//! the rules alone.
//! It makes cases and the answers it expects, and another program's answers are compared with them.
//! Beside the plain program, which is made to be read, stands a tuned one with the same answers, which
//! is made for speed; another program's times are compared with its.

pub mod announcements;
pub mod capture;
pub mod captures;
pub mod changes;
mod digest;
pub mod events;
pub mod extension;
pub mod frames;
pub mod id;
pub mod looks;
mod numbers;
pub mod order;
pub mod reader;
pub mod rng;
pub mod site;
pub mod table;
pub mod tuned;
pub mod writer;

/// The case file of a kind and the text that is expected for it; none where there is no such kind.
pub fn files(kind: &str) -> Option<(Vec<u8>, String)> {
    match kind {
        "frames" => {
            let cases = frames::cases();
            Some((frames::case_file(&cases), frames::expected(&cases)))
        }
        "announcements" => {
            let cases = announcements::cases();
            Some((announcements::case_file(&cases), announcements::expected(&cases)))
        }
        "events" => {
            let events = events::events();
            Some((events::case_file(&events), events::expected(&events)))
        }
        "captures" => {
            let cases = captures::cases();
            Some((captures::case_file(&cases), captures::expected(&cases)))
        }
        "looks" => {
            let pairs = looks::pairs();
            Some((looks::case_file(&pairs), looks::expected(&pairs)))
        }
        _ => None,
    }
}

#[cfg(test)]
mod tests {
    use super::*;

    #[test]
    fn the_cases_are_the_same_each_time() {
        assert!(frames::cases() == frames::cases());
        assert!(announcements::cases() == announcements::cases());
        assert!(events::events() == events::tests::stored().0);
        assert!(captures::cases() == captures::tests::stored().0);
        assert!(looks::pairs() == looks::tests::stored().0);
    }

    #[test]
    fn the_files_have_the_promised_sizes() {
        let [frames, announcements] =
            ["frames", "announcements"].map(|kind| files(kind).expect("there is such a kind"));
        let (events, text_of_events) = events::tests::stored();
        let (captures, text_of_captures) = captures::tests::stored();
        let (looks, text_of_looks) = looks::tests::stored();
        let sizes = [
            (frames.0.len(), 1_190_000),
            (frames.1.len(), 1_990_000),
            (announcements.0.len(), 1_190_000),
            (announcements.1.len(), 1_990_000),
            (events::case_file(events).len(), 1_430_000),
            (text_of_events.len(), 960_000),
            (captures::case_file(captures).len(), 1_400_000),
            (text_of_captures.len(), 200_000),
            (looks::case_file(looks).len(), 1_990_000),
            (text_of_looks.len(), 1_000_000),
        ];
        println!("octets of cases and of text, and the most there may be: {sizes:?}");
        assert!(sizes.iter().all(|(octets, most)| octets <= most));
    }
}
