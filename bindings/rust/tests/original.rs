//! Holds the linked library to the original on generated files, good and damaged, and to its own promises.

#[cfg(not(linked))]
#[test]
fn skipped() {
    println!("skipped: the static library is for Linux on x86-64");
}

#[cfg(linked)]
mod linked {
    use oracle::answers::{self, recorded};
    use oracle::gen::{self, damaged};
    use oracle::rng::Rng;
    use oracle::{original, text};
    use quargnil::{repeat, treat, treat_into, NotWritten, Pass, ROOM};

    const PASSES: [(Pass, answers::Pass); 3] =
        [(Pass::First, answers::Pass::First), (Pass::Second, answers::Pass::Second), (Pass::Both, answers::Pass::Both)];

    const DOOR: &[u8] =
        b"Copy\t-\tv-1:0:2\tc32767:2\t-\nIntAdd\t-\tv1:0:2\tv-1:0:2\tc1:2\nIntSignedLess\t-\tv2:0:1\tv1:0:2\tc0:2\n";

    fn line(answer: Result<Vec<u8>, quargnil::Refusal>) -> String {
        match answer {
            Ok(text) => String::from_utf8(text).expect("the text form is ASCII"),
            Err(refusal) => format!("refused\t{}\t{}\n", refusal.number, refusal.place),
        }
    }

    /// Compares on generated files; how many were compared.
    fn compare(seed: u64, count: u64, file: impl Fn(&mut Rng) -> Vec<u8>) -> usize {
        let mut compared = 0;
        for case in 0..count {
            let bytes = file(&mut Rng::for_case(seed, case));
            for (pass, its) in PASSES {
                let Some(answer) = recorded(&bytes, its) else { continue };
                let said = line(treat(pass, &bytes));
                assert_eq!(said, answer, "{pass:?} on\n{}", String::from_utf8_lossy(&bytes));
                compared += 1;
            }
        }
        compared
    }

    #[test]
    fn answers_as_the_original() {
        original::silence_panics();
        let good = compare(7, 10_000, |rng| text::print_block(&gen::good(rng)).into_bytes());
        let bad = compare(7, 2_000, damaged::any);
        assert!(good > 28_000 && bad > 5_900, "compared {good} good files and {bad} damaged ones");
    }

    #[test]
    fn the_door() {
        assert_eq!(line(treat(Pass::Both, DOOR)), "Copy\t-\tv1:0:2\tc32768:2\t-\nCopy\t-\tv2:0:1\tc1:1\t-\n");
        assert_eq!([1, 2].map(|times| repeat(Pass::Both, DOOR, times)), [2, 2]);
        assert_eq!(repeat(Pass::Both, DOOR, 0), 0);
    }

    #[test]
    fn what_is_not_written_leaves_the_buffer() {
        let mut out = vec![0xa5; ROOM];
        let refused = treat_into(Pass::Both, b"Copy\n", &mut out);
        assert_eq!(refused, Err(NotWritten::Refused(quargnil::Refusal { number: 1, place: 1 })));
        let small = treat_into(Pass::Both, DOOR, &mut out[..7]);
        assert_eq!(small, Err(NotWritten::NoRoom(ROOM)));
        assert!(out.iter().all(|byte| *byte == 0xa5));
    }

    #[test]
    fn what_follows_the_text_stays() {
        let mut out = vec![0xa5; ROOM];
        let written = treat_into(Pass::Both, DOOR, &mut out).expect("the door's block is treated");
        assert!(out[written..].iter().all(|byte| *byte == 0xa5));
        assert_eq!(treat(Pass::Both, b""), Ok(Vec::new()));
    }
}
