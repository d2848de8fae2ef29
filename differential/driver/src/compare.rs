//! Where our answer and what it left in the lent slices differ from what the crate says.
use std::fmt::Debug;

use crate::answer::{Answer, Catalogue, Lent, Room, Summary, flat};
use crate::case::Refusal;
use crate::lay;
use crate::theirs::{Place, Theirs, Verdict};

const SECTION: [&str; lay::SECTION_WIDTH] = ["name at", "name length", "index", "size"];
const PROGRAM: [&str; lay::PROGRAM_WIDTH] = [
    "name at",
    "name length",
    "variant",
    "first value",
    "second value",
    "section",
    "address",
];
const FUNCTION: [&str; 7] = [
    "section",
    "address",
    "offset",
    "name at",
    "name length",
    "code at",
    "code length",
];
const MAP: [&str; lay::MAP_WIDTH] = [
    "name at",
    "name length",
    "section",
    "section kind",
    "symbol",
    "own bytes at",
    "own bytes length",
    "type",
    "key size",
    "value size",
    "entries",
    "flags",
    "id",
    "pinning",
    "map extra",
    "key type",
    "value type",
    "inner map",
    "inner type",
    "inner key size",
    "inner value size",
    "inner entries",
    "inner flags",
    "inner map extra",
    "inner pinning",
    "inner key type",
    "inner value type",
];
const RELOCATION: [&str; lay::RELOCATION_WIDTH] = ["section", "offset", "size", "symbol"];

/// What document 01 says where the catalogue is larger than what is lent.
const TOO_SMALL: Refusal = Refusal {
    number: 24,
    section: 0,
    symbol: 0,
    entry: 0,
};

/// The first difference in words, or none if ours agrees. Rows are counted from 0.
pub fn difference(answer: &Answer, lent: &Lent, theirs: &Theirs) -> Option<String> {
    match (answer, theirs) {
        (_, Theirs::Accepted(catalogue)) if !lay::fits(catalogue, &room(lent)) => {
            too_small(answer, lent)
        }
        (Answer::Accepted(summary), Theirs::Accepted(catalogue)) => {
            summaries(summary, &lay::summary(catalogue)).or_else(|| tables(lent, catalogue))
        }
        (Answer::Refused(refusal), Theirs::Refused(verdict)) => {
            refusals(refusal, verdict).or_else(|| not_zero(lent))
        }
        (Answer::Accepted(_), Theirs::Refused(verdict)) => {
            Some(format!("ours accepts, the crate doesn't: {}", verdict.text))
        }
        (Answer::Refused(refusal), Theirs::Accepted(_)) => {
            Some(format!("ours is {}, the crate accepts", refused(refusal)))
        }
    }
}

pub fn all_zero(lent: &Lent) -> bool {
    not_zero(lent).is_none()
}

fn room(lent: &Lent) -> Room {
    Room {
        sections: lent.sections.len(),
        programs: lent.programs.len(),
        functions: lent.functions.len(),
        maps: lent.maps.len(),
        relocations: lent.relocations.len(),
        bytes: lent.bytes.len(),
    }
}

fn refused(r: &Refusal) -> String {
    format!(
        "refused {} {} {} {}",
        r.number, r.section, r.symbol, r.entry
    )
}

fn too_small(answer: &Answer, lent: &Lent) -> Option<String> {
    let ours = match answer {
        Answer::Refused(TOO_SMALL) => return not_zero(lent),
        Answer::Refused(refusal) => refused(refusal),
        Answer::Accepted(_) => "accepted".to_owned(),
    };
    Some(format!(
        "ours is {ours}, the crate's catalogue is larger than what is lent"
    ))
}

fn summaries(ours: &Summary, theirs: &Summary) -> Option<String> {
    let fields = [
        ("byte order", ours.order, theirs.order),
        ("licence length", ours.license, theirs.license),
        ("sections", ours.sections, theirs.sections),
        ("programs", ours.programs, theirs.programs),
        ("functions", ours.functions, theirs.functions),
        ("maps", ours.maps, theirs.maps),
        ("relocations", ours.relocations, theirs.relocations),
        ("bytes", ours.bytes, theirs.bytes),
    ];
    if ours.version != theirs.version {
        let [ours, theirs] = [ours.version, theirs.version].map(version);
        return Some(format!(
            "summary, version: ours {ours}, the crate's {theirs}"
        ));
    }
    let (field, ours, theirs) = fields
        .into_iter()
        .find(|(_, ours, theirs)| ours != theirs)?;
    Some(format!(
        "summary, {field}: ours {ours}, the crate's {theirs}"
    ))
}

fn version(version: Option<u32>) -> String {
    version.map_or("any".to_owned(), |v| v.to_string())
}

fn tables(ours: &Lent, catalogue: &Catalogue) -> Option<String> {
    let theirs = lay::lent(catalogue, &room(ours));
    if *ours == theirs {
        return None;
    }
    rows("sections", &SECTION, &ours.sections, &theirs.sections)
        .or_else(|| rows("programs", &PROGRAM, &ours.programs, &theirs.programs))
        .or_else(|| {
            rows(
                "functions",
                &FUNCTION,
                &flat(&ours.functions),
                &flat(&theirs.functions),
            )
        })
        .or_else(|| rows("maps", &MAP, &ours.maps, &theirs.maps))
        .or_else(|| {
            rows(
                "relocations",
                &RELOCATION,
                &ours.relocations,
                &theirs.relocations,
            )
        })
        .or_else(|| bytes(&ours.bytes, &theirs.bytes, catalogue))
}

fn rows(table: &str, fields: &[&str], ours: &[u64], theirs: &[u64]) -> Option<String> {
    let at = unequal(ours, theirs)?;
    let (row, field) = (at / fields.len(), fields[at % fields.len()]);
    Some(format!(
        "{table} row {row}, {field}: ours {}, the crate's {}",
        ours[at], theirs[at]
    ))
}

fn bytes(ours: &[u8], theirs: &[u8], catalogue: &Catalogue) -> Option<String> {
    let at = unequal(ours, theirs)?;
    let piece = piece(catalogue, at);
    Some(format!(
        "bytes at {at}, {piece}: ours {}, the crate's {}",
        ours[at], theirs[at]
    ))
}

fn unequal<T: PartialEq>(ours: &[T], theirs: &[T]) -> Option<usize> {
    ours.iter()
        .zip(theirs)
        .position(|(ours, theirs)| ours != theirs)
}

/// What the byte at `at` belongs to.
fn piece(catalogue: &Catalogue, at: usize) -> String {
    let mut begin = 0;
    for (what, lengths) in lay::pieces(catalogue) {
        for (row, length) in lengths.into_iter().enumerate() {
            if at < begin + length {
                return format!("{what} {row}");
            }
            begin += length;
        }
    }
    "behind the catalogue".to_owned()
}

fn refusals(ours: &Refusal, verdict: &Verdict) -> Option<String> {
    let text = &verdict.text;
    let said = refused(ours);
    let Some(number) = verdict.number else {
        return Some(format!(
            "ours is {said}, the crate's refusal stands for no number: {text}"
        ));
    };
    if ours.number != number {
        return Some(format!(
            "ours is {said}, the crate's refusal stands for {number}: {text}"
        ));
    }
    if !names_its_places(ours) {
        return Some(format!(
            "ours is {said}, and {number} doesn't name these places"
        ));
    }
    let place = verdict.place;
    (!means(place, ours))
        .then(|| format!("ours is {said}, the crate's refusal means {place:?}: {text}"))
}

/// Whether a refusal of 4 to 23 names the places that document 01 wants with its number, and no other.
fn names_its_places(r: &Refusal) -> bool {
    let section = matches!(r.number, 4..=17);
    let symbol = matches!(r.number, 10 | 11 | 13..=16);
    let entry = matches!(r.number, 18..=23);
    (r.section != 0, r.symbol != 0, r.entry != 0) == (section, symbol, entry)
}

fn means(place: Place, r: &Refusal) -> bool {
    match place {
        Place::Unstated => true,
        Place::Section(section) => section == r.section,
        Place::Symbol { section, symbol } => (section, symbol) == (r.section, r.symbol),
        Place::Entry(entry) => entry == r.entry,
    }
}

/// The first lent element that isn't zero, in words.
fn not_zero(lent: &Lent) -> Option<String> {
    first_set("sections", &lent.sections)
        .or_else(|| first_set("programs", &lent.programs))
        .or_else(|| first_set("functions", &lent.functions))
        .or_else(|| first_set("maps", &lent.maps))
        .or_else(|| first_set("relocations", &lent.relocations))
        .or_else(|| first_set("bytes", &lent.bytes))
}

fn first_set<T: Debug + Default + PartialEq>(table: &str, elements: &[T]) -> Option<String> {
    let at = elements.iter().position(|e| *e != T::default())?;
    Some(format!(
        "refused, and {table} at {at} isn't zero: {:?}",
        elements[at]
    ))
}

#[cfg(test)]
mod tests {
    use super::*;
    use crate::lay::tests::sample;

    const WIDE: Room = Room {
        sections: 9,
        programs: 15,
        functions: 3,
        maps: 55,
        relocations: 9,
        bytes: 50,
    };

    fn agreeing() -> (Answer, Lent, Theirs) {
        let c = sample();
        (
            Answer::Accepted(lay::summary(&c)),
            lay::lent(&c, &WIDE),
            Theirs::Accepted(c),
        )
    }

    fn changed(change: impl Fn(&mut Lent)) -> Option<String> {
        let (answer, mut lent, theirs) = agreeing();
        change(&mut lent);
        difference(&answer, &lent, &theirs)
    }

    fn summed(change: impl Fn(&mut Summary)) -> Option<String> {
        let mut summary = lay::summary(&sample());
        change(&mut summary);
        let (_, lent, theirs) = agreeing();
        difference(&Answer::Accepted(summary), &lent, &theirs)
    }

    fn zeros() -> Lent {
        lay::lent(&Catalogue::default(), &WIDE)
    }

    fn refusal([number, section, symbol, entry]: [u32; 4]) -> Answer {
        Answer::Refused(Refusal {
            number,
            section,
            symbol,
            entry: entry.into(),
        })
    }

    fn against(ours: [u32; 4], number: Option<u32>, place: Place) -> Option<String> {
        let verdict = Verdict {
            number,
            place,
            text: "error X".to_owned(),
        };
        difference(&refusal(ours), &zeros(), &Theirs::Refused(verdict))
    }

    fn text(expected: &str) -> Option<String> {
        Some(expected.to_owned())
    }

    #[test]
    fn the_same_catalogue_agrees() {
        let (answer, lent, theirs) = agreeing();
        assert_eq!(difference(&answer, &lent, &theirs), None);
    }

    #[test]
    fn each_count_of_the_summary_is_held() {
        let changes: [(&str, fn(&mut Summary)); 8] = [
            ("byte order", |s| s.order += 1),
            ("licence length", |s| s.license += 1),
            ("sections", |s| s.sections += 1),
            ("programs", |s| s.programs += 1),
            ("functions", |s| s.functions += 1),
            ("maps", |s| s.maps += 1),
            ("relocations", |s| s.relocations += 1),
            ("bytes", |s| s.bytes += 1),
        ];
        for (field, change) in changes {
            let said = summed(change).expect(field);
            assert!(
                said.starts_with(&format!("summary, {field}: ours ")),
                "{said}"
            );
        }
    }

    #[test]
    fn the_version_is_held() {
        assert_eq!(
            summed(|s| s.version = None),
            text("summary, version: ours any, the crate's 7")
        );
        let ours = summed(|s| s.version = Some(8));
        assert_eq!(ours, text("summary, version: ours 8, the crate's 7"));
    }

    #[test]
    fn a_number_of_a_row_is_named() {
        let sections = changed(|l| l.sections[7] = 9);
        assert_eq!(
            sections,
            text("sections row 1, size: ours 9, the crate's 8")
        );
        let programs = changed(|l| l.programs[4] = 0);
        assert_eq!(
            programs,
            text("programs row 0, second value: ours 0, the crate's 2")
        );
        let functions = changed(|l| l.functions[1].code_at = 1);
        assert_eq!(
            functions,
            text("functions row 1, code at: ours 1, the crate's 23")
        );
        let maps = changed(|l| l.maps[27 + 10] = 4);
        assert_eq!(maps, text("maps row 1, entries: ours 4, the crate's 24"));
        let relocations = changed(|l| l.relocations[2] = 32);
        assert_eq!(
            relocations,
            text("relocations row 0, size: ours 32, the crate's 64")
        );
    }

    #[test]
    fn each_lent_element_is_held() {
        let (_, lent, _) = agreeing();
        for at in 0..lent.sections.len() {
            assert!(
                changed(|l| l.sections[at] += 1)
                    .unwrap()
                    .starts_with("sections row ")
            );
        }
        for at in 0..lent.programs.len() {
            assert!(
                changed(|l| l.programs[at] += 1)
                    .unwrap()
                    .starts_with("programs row ")
            );
        }
        for at in 0..lent.functions.len() {
            assert!(
                changed(|l| l.functions[at].section += 1)
                    .unwrap()
                    .contains(", section: ")
            );
            assert!(
                changed(|l| l.functions[at].address += 1)
                    .unwrap()
                    .contains(", address: ")
            );
            assert!(
                changed(|l| l.functions[at].offset += 1)
                    .unwrap()
                    .contains(", offset: ")
            );
            assert!(
                changed(|l| l.functions[at].name_at += 1)
                    .unwrap()
                    .contains(", name at: ")
            );
            assert!(
                changed(|l| l.functions[at].name_length += 1)
                    .unwrap()
                    .contains(", name length: ")
            );
            assert!(
                changed(|l| l.functions[at].code_at += 1)
                    .unwrap()
                    .contains(", code at: ")
            );
            assert!(
                changed(|l| l.functions[at].code_length += 1)
                    .unwrap()
                    .contains(", code length: ")
            );
        }
        for at in 0..lent.maps.len() {
            assert!(
                changed(|l| l.maps[at] += 1)
                    .unwrap()
                    .starts_with("maps row ")
            );
        }
        for at in 0..lent.relocations.len() {
            assert!(
                changed(|l| l.relocations[at] += 1)
                    .unwrap()
                    .starts_with("relocations row ")
            );
        }
        for at in 0..lent.bytes.len() {
            assert!(
                changed(|l| l.bytes[at] += 1)
                    .unwrap()
                    .starts_with(&format!("bytes at {at}, "))
            );
        }
    }

    #[test]
    fn a_byte_is_named_by_its_piece() {
        let at = |at: usize| changed(|l| l.bytes[at] = 0xFF).unwrap();
        assert_eq!(at(0), "bytes at 0, licence 0: ours 255, the crate's 71");
        assert!(at(7).contains("section name 1"));
        assert!(at(12).contains("program name 1"));
        assert!(at(13).contains("function name 1"));
        assert!(at(22).contains("function code 0"));
        assert!(at(43).contains("map name 1"));
        assert!(at(45).contains("map bytes 0"));
        assert!(at(46).contains("behind the catalogue"));
    }

    #[test]
    fn accepted_against_refused_differs() {
        let (answer, lent, theirs) = agreeing();
        let said = difference(&refusal([12, 1, 0, 0]), &zeros(), &theirs);
        assert_eq!(said, text("ours is refused 12 1 0 0, the crate accepts"));
        let verdict = Verdict {
            number: Some(4),
            place: Place::Unstated,
            text: "error X".to_owned(),
        };
        let said = difference(&answer, &lent, &Theirs::Refused(verdict));
        assert_eq!(said, text("ours accepts, the crate doesn't: error X"));
    }

    #[test]
    fn a_smaller_room_is_24() {
        let (answer, _, theirs) = agreeing();
        let mut lent = zeros();
        lent.bytes.truncate(45);
        assert_eq!(difference(&refusal([24, 0, 0, 0]), &lent, &theirs), None);
        assert!(difference(&refusal([24, 1, 0, 0]), &lent, &theirs).is_some());
        assert!(difference(&refusal([23, 0, 0, 1]), &lent, &theirs).is_some());
        assert!(difference(&answer, &lent, &theirs).is_some());
        lent.sections[0] = 1;
        let said = difference(&refusal([24, 0, 0, 0]), &lent, &theirs);
        assert_eq!(said, text("refused, and sections at 0 isn't zero: 1"));
    }

    #[test]
    fn room_enough_is_not_24() {
        let (_, _, theirs) = agreeing();
        let lent = lay::lent(&Catalogue::default(), &lay::room(&sample()));
        let said = difference(&refusal([24, 0, 0, 0]), &lent, &theirs);
        assert_eq!(said, text("ours is refused 24 0 0 0, the crate accepts"));
    }

    #[test]
    fn the_number_is_held() {
        assert_eq!(against([12, 1, 0, 0], Some(12), Place::Unstated), None);
        let other = against([12, 1, 0, 0], Some(9), Place::Unstated);
        assert_eq!(
            other,
            text("ours is refused 12 1 0 0, the crate's refusal stands for 9: error X")
        );
        let none = against([12, 1, 0, 0], None, Place::Unstated);
        assert!(none.unwrap().contains("stands for no number: error X"));
    }

    #[test]
    fn stated_places_are_held() {
        assert_eq!(against([9, 5, 0, 0], Some(9), Place::Section(5)), None);
        assert!(against([9, 3, 0, 0], Some(9), Place::Section(5)).is_some());
        let symbol = Place::Symbol {
            section: 2,
            symbol: 7,
        };
        assert_eq!(against([16, 2, 7, 0], Some(16), symbol), None);
        assert!(against([16, 1, 7, 0], Some(16), symbol).is_some());
        assert!(against([16, 2, 6, 0], Some(16), symbol).is_some());
        assert_eq!(against([21, 0, 0, 3], Some(21), Place::Entry(3)), None);
        assert!(against([21, 0, 0, 2], Some(21), Place::Entry(3)).is_some());
    }

    #[test]
    fn a_number_names_its_places_and_no_other() {
        for number in 4..=23 {
            let wanted = match number {
                10 | 11 | 13..=16 => [number, 1, 1, 0],
                4..=17 => [number, 1, 0, 0],
                _ => [number, 0, 0, 1],
            };
            assert_eq!(against(wanted, Some(number), Place::Unstated), None);
            for place in 1..4 {
                let mut other = wanted;
                other[place] = 1 - other[place];
                assert!(
                    against(other, Some(number), Place::Unstated).is_some(),
                    "{other:?}"
                );
            }
        }
    }

    #[test]
    fn what_a_refusal_left_is_held() {
        let changes: [(&str, fn(&mut Lent)); 6] = [
            ("sections at 8", |l| l.sections[8] = 1),
            ("programs at 14", |l| l.programs[14] = 1),
            ("functions at 2", |l| l.functions[2].offset = 1),
            ("maps at 54", |l| l.maps[54] = 1),
            ("relocations at 8", |l| l.relocations[8] = 1),
            ("bytes at 49", |l| l.bytes[49] = 1),
        ];
        let theirs = Theirs::Refused(Verdict {
            number: Some(4),
            place: Place::Unstated,
            text: "error X".to_owned(),
        });
        assert!(all_zero(&zeros()));
        for (place, change) in changes {
            let mut lent = zeros();
            change(&mut lent);
            assert!(!all_zero(&lent));
            let said = difference(&refusal([4, 1, 0, 0]), &lent, &theirs).expect(place);
            assert!(
                said.starts_with(&format!("refused, and {place} isn't zero")),
                "{said}"
            );
        }
    }
}
