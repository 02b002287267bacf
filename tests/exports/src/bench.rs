//! The bench: it makes a call on lent slices, holds what is left against what is due, and counts.
//! The first difference is told with its seed and its case, and ends the program with status 1.

use std::process;

use twin::reader::Refusal;
use twin::rng::Rng;

use crate::due;
use crate::exports::Export;
use crate::lent::Lent;
use crate::octets::number;
use crate::sizes::ENTRY_OCTETS;

/// No refusal number is above this one.
const LAST_REFUSAL: usize = 14;

/// A refusal that hardly ever is due would hardly be compared.
const FEWEST: usize = 40;

/// How often an export was compared: by refusal number, 0 for none, and by what it answered.
#[derive(Clone, Default)]
struct Count {
    refusals: [usize; LAST_REFUSAL + 1],
    answers: [usize; 8],
}

#[derive(Default)]
pub struct Bench {
    counts: [Count; Export::ALL.len()],
    section: &'static str,
    seed: u64,
    case: usize,
}

impl Bench {
    /// A new kind of cases. The seed is told with a difference, and the cases are counted from 1.
    pub fn section(&mut self, section: &'static str, seed: u64) -> Rng {
        (self.section, self.seed, self.case) = (section, seed, 0);
        Rng::new(seed)
    }

    /// Makes the call, and leaves the slices as the export left them.
    pub fn compare(&mut self, export: Export, slices: &mut [Vec<u8>], number: usize) -> Refusal {
        self.case += 1;
        let due = due::answer(export, slices, number);
        let mut lent: Vec<Lent> = slices.iter().map(|octets| Lent::of(octets)).collect();
        let said = export.call(&mut lent, number);
        let refusal = due.as_ref().err().copied().unwrap_or(0);
        let changed = due.unwrap_or_default();
        let mut wrong = vec![];
        if said != refusal {
            wrong.push(format!("refusal number: due {refusal}, said {said}"));
        }
        for ((i, lent), (name, _)) in lent.iter().enumerate().zip(export.slices()) {
            let due = changed.iter().find(|(at, _)| *at == i).map_or(&slices[i], |(_, due)| due);
            if !lent.is_guarded() {
                wrong.push(format!("octets beside the slice {name} were written"));
            }
            if lent.left() != due {
                wrong.push(format!("slice {name}: {}", differences(due, lent.left())));
            }
        }
        if !wrong.is_empty() {
            let told = self.told(export, slices, number);
            self.differ(&format!("{told}{}", wrong.join("\n")));
        }
        self.count(export, refusal, &changed);
        for (octets, lent) in slices.iter_mut().zip(&lent) {
            octets.copy_from_slice(lent.left());
        }
        refusal
    }

    fn count(&mut self, export: Export, refusal: Refusal, changed: &[(usize, Vec<u8>)]) {
        let count = &mut self.counts[export as usize];
        count.refusals[usize::from(refusal)] += 1;
        // The verdict of a reader, the kind of each entry, or else the first octet of the answer,
        // which stands last.
        let answers = match (export, changed) {
            (Export::Judge | Export::Read | Export::ReadLldpdu, [(_, answer), ..]) => {
                vec![answer[2]]
            }
            (Export::Compare, [(_, list), (_, answer)]) => kinds(list, answer),
            (Export::FrameOnPort | Export::HowMany | Export::WhoSees, [.., (_, answer)]) => {
                vec![answer[0]]
            }
            _ => return,
        };
        for answer in answers {
            count.answers[usize::from(answer)] += 1;
        }
    }

    /// A line for each export. False where an answer or a refusal was compared too rarely.
    pub fn report(&self) -> bool {
        let mut all = 0;
        let mut rare = vec![];
        for (export, Count { refusals, answers }) in Export::ALL.into_iter().zip(&self.counts) {
            let (name, numbers) = export.name_and_refusals();
            let sum: usize = refusals.iter().sum();
            all += sum;
            let mut words = vec![format!("answered {}", refusals[0])];
            for (i, word) in answers_of(export).iter().enumerate() {
                if word.is_empty() {
                    continue;
                }
                words.push(format!("{word} {}", answers[i]));
                if answers[i] < FEWEST {
                    rare.push(format!("{name}: {word}"));
                }
            }
            for &number in numbers {
                let count = refusals[usize::from(number)];
                words.push(format!("refused with {number} {count}"));
                if count < FEWEST {
                    rare.push(format!("{name}: {number}"));
                }
            }
            println!("{name}: {sum} compared, {}", words.join(", "));
            // The twin gives no refusal that the rules do not name (X1).
            let named: usize = numbers.iter().map(|&number| refusals[usize::from(number)]).sum();
            assert_eq!(refusals[0] + named, sum, "a refusal of {name} is not in X1");
        }
        println!("{all} cases, each as due");
        if !rare.is_empty() {
            eprintln!("compared too rarely: {}", rare.join("; "));
        }
        rare.is_empty()
    }

    /// The call and what it was given, before what is different.
    fn told(&self, export: Export, slices: &[Vec<u8>], number: usize) -> String {
        let (name, _) = export.name_and_refusals();
        let mut text = format!("{name}, with {number} as port, start or seconds\n");
        for ((name, _), octets) in export.slices().into_iter().zip(slices) {
            text += &format!("given {name}, {} octets: {}\n", octets.len(), hex(octets));
        }
        text
    }

    /// Tells where a difference is, and ends the program.
    pub fn differ(&self, message: &str) -> ! {
        eprintln!("{}, seed {:#X}, case {}: {message}", self.section, self.seed, self.case);
        process::exit(1);
    }
}

/// What the answers of an export are called; the empty word is for none.
fn answers_of(export: Export) -> &'static [&'static str] {
    match export {
        Export::Judge | Export::Read | Export::ReadLldpdu => &["not HTIP", "HTIP"],
        Export::FrameOnPort => &["", "recorded", "refreshed", "gone", "unknown goodbye"],
        Export::HowMany => {
            &["holds 0:", "holds 1:", "holds 2:", "holds 3:", "holds 4:", "holds 5:", "holds 6:"]
        }
        Export::WhoSees => &["nobody", "a place"],
        Export::Compare => &["no entries", "entries: left", "joined", "seconds", "altered"],
        _ => &[],
    }
}

/// The kinds of the entries (D3), or 0 where there is none.
fn kinds(list: &[u8], answer: &[u8]) -> Vec<u8> {
    match number(answer) {
        0 => vec![0],
        count => list.chunks(ENTRY_OCTETS).take(count.into()).map(|entry| entry[0]).collect(),
    }
}

/// The first octets that differ, each with what is due and what was left.
fn differences(due: &[u8], left: &[u8]) -> String {
    let different: Vec<String> = (0..due.len())
        .filter(|&i| due[i] != left[i])
        .map(|i| format!("at {i} due {:02X}, left {:02X}", due[i], left[i]))
        .collect();
    let shown = different[..different.len().min(20)].join("; ");
    format!("{} octets differ: {shown}", different.len())
}

/// Whole up to 2,000 octets. Of a buffer only runs that are not 0 are shown, each with its place.
fn hex(octets: &[u8]) -> String {
    let plain =
        |octets: &[u8]| -> String { octets.iter().map(|octet| format!("{octet:02X}")).collect() };
    if octets.len() <= 2_000 {
        return plain(octets);
    }
    let runs = octets.chunks(50).enumerate().filter(|(_, run)| run.iter().any(|&octet| octet != 0));
    let runs: Vec<String> = runs.map(|(i, run)| format!("at {}: {}", 50 * i, plain(run))).collect();
    format!("0 but for {}", runs[..runs.len().min(200)].join(", "))
}
