//! Sides that part: in every way that is wanted, and never unseen.

use generate::parted::{labels, wanted};
use generate::placing::two_sides;
use generate::random::Random;
use generate::sides::{Parting, PARTINGS};
use second::files::parse_both;
use second::judging::WORK_NUMBERS;
use second::spell::{pack_book, pack_certificate};
use second::{Refusal, Verdict};
use std::collections::BTreeMap;

#[test]
fn sides_part_in_every_way() {
    let mut random = Random::new(19);
    let mut met = BTreeMap::<String, usize>::new();
    let mut work = vec![0; WORK_NUMBERS];
    let mut count = 0;
    while count < 4_000 {
        let parting = *random.pick(&PARTINGS);
        let Some(case) = two_sides(parting, &mut random) else { continue };
        let (book, certificate) = (pack_book(&case.book), pack_certificate(&case.certificate));
        assert_eq!(parse_both(&book, &certificate), Ok((case.book, case.certificate)));
        let verdict = second::judge(&book, &certificate, &mut work);
        let number = match verdict {
            Verdict::Accepted { .. } => 0,
            Verdict::Refused(Refusal { number, .. }) => number,
        };
        match parting {
            Parting::Nowhere => assert!([0, 12, 13, 15, 16].contains(&number), "{verdict:?}"),
            _ => assert!([9, 10, 12, 15, 16].contains(&number), "{parting:?}: {verdict:?}"),
        }
        for label in labels(&book, &certificate, &verdict) {
            *met.entry(label).or_default() += 1;
        }
        *met.entry(format!("{parting:?}, number {number}")).or_default() += 1;
        count += 1;
    }
    let accepted = [format!("{:?}, number 0", Parting::Nowhere)];
    for label in wanted().iter().chain(&accepted) {
        assert!(met.get(label).is_some_and(|count| *count >= 3), "{label}: {met:#?}");
    }
}
