//! Files at each limit of document 01 and one past it.
use crate::case::Case;
use crate::generate::Lent;
use crate::rules::{MOST_BYTES, MOST_NAME, MOST_RECORDS, MOST_SECTIONS};

use super::layout::{Body, Plan, Relocation, Symbol};
use super::of_file;
use super::read::{NOBITS, PROGBITS, REL, RELA, TEXT_FLAGS};

/// First the files at a limit, then those past it.
pub fn limits() -> Vec<Case> {
    [0, 1].into_iter().flat_map(at_or_past).collect()
}

fn at_or_past(past: usize) -> Vec<Case> {
    let name = vec![b'n'; MOST_NAME as usize + past];
    let plans = [
        ("limit: sections", sections(MOST_SECTIONS + past)),
        ("limit: symbols", symbols(MOST_RECORDS + past)),
        ("limit: relocations", relocations(&[MOST_RECORDS + past])),
        ("limit: relocations", {
            let half = MOST_RECORDS / 2;
            relocations(&[half, 7, half - 7 + past])
        }),
        ("limit: section size", sized(".bss", MOST_BYTES + past)),
        ("limit: section size", sized("other", MOST_BYTES + past)),
        ("limit: section name", named(&name, 1, b"s")),
        ("limit: symbol name", named(b".data", 1, &name)),
        ("limit: one name", named(b"other", 300, &name)),
    ];
    let mut out = Vec::new();
    for (k, (aim, plan)) in plans.into_iter().enumerate() {
        let big = (k + past) % 2 == 1;
        let file = Plan { big, ..plan }.plain();
        out.push(of_file(aim, file, Lent::default(), true));
    }
    if past == 0 {
        out.extend(sizes());
    }
    let file = long(MOST_BYTES + past);
    out.push(of_file("limit: file", file, Lent::default(), false));
    out
}

/// Files round the sizes at which the load takes another array for its index, which has three numbers a section and one a symbol and a relocation, or
/// for its functions.
fn sizes() -> Vec<Case> {
    let mut out = Vec::new();
    for numbers in [512, 16_384] {
        for more in [0, 1, 2] {
            let rest = numbers - 1 + more - 3 * 4;
            let by_symbols = relocated(rest - 5, 5);
            let by_relocations = relocated(5, rest - 5);
            out.extend([by_symbols, by_relocations]);
        }
    }
    out.extend([64, 65, 2048, 2049].map(|symbols| relocated(symbols, 3)));
    let case = |plan: Plan| of_file("size of an array", plan.plain(), Lent::default(), true);
    out.into_iter().map(case).collect()
}

/// Four sections: those of the tables, a text of so many functions, and its relocations.
fn relocated(functions: usize, count: usize) -> Plan {
    let mut plan = symbols(functions);
    plan.big = functions % 2 == 1;
    let entry = |k: usize| Relocation {
        offset: 8 * k as u64,
        symbol: 1 + k as u32 % 5,
        kind: 10,
        addend: 0,
    };
    plan.relocations(RELA, 3, (0..count).map(entry).collect());
    plan
}

/// Sections in all, the string table and the symbol table among them.
fn sections(count: usize) -> Plan {
    let mut plan = Plan::with_symbols(Vec::new());
    for k in plan.sections.len()..count {
        let name = format!(".data.{}", k % 1000);
        plan.section(name, PROGBITS, Body::Bytes(vec![k as u8]));
    }
    plan
}

fn symbols(count: usize) -> Plan {
    let symbol = |k: usize| Symbol {
        name: format!("f{}", k % 1000).into_bytes(),
        info: 2,
        section: 3,
        address: 8 * k as u64,
        size: 8,
        ..Default::default()
    };
    let mut plan = Plan::with_symbols((0..count).map(symbol).collect());
    let code = Body::Bytes(vec![0x95; 8 * count]);
    plan.section(".text", PROGBITS, code).flags = TEXT_FLAGS;
    plan
}

/// Tables of so many entries, each of a section of its own.
fn relocations(counts: &[usize]) -> Plan {
    let mut plan = Plan::with_symbols(Vec::new());
    for (k, count) in counts.iter().enumerate() {
        plan.section(".text", PROGBITS, Body::default()).flags = TEXT_FLAGS;
        let of = plan.here();
        let entry = |k: usize| Relocation {
            offset: k as u64 * 8 % 4096,
            symbol: k as u32 % 9 + 1,
            kind: 1,
            addend: 0,
        };
        let kind = if k % 2 == 0 { REL } else { RELA };
        plan.relocations(kind, of, (0..*count).map(entry).collect());
    }
    plan
}

fn sized(name: &str, size: usize) -> Plan {
    let mut plan = Plan::with_symbols(Vec::new());
    let body = Body::Reach {
        offset: u64::MAX,
        size: size as u64,
    };
    plan.section(name, NOBITS, body);
    plan
}

/// One section, and so many symbols of one name in it.
fn named(section: &[u8], count: usize, symbol: &[u8]) -> Plan {
    let symbol = Symbol {
        name: symbol.to_vec(),
        info: 1,
        section: 3,
        size: 4,
        ..Default::default()
    };
    let mut plan = Plan::with_symbols(vec![symbol; count]);
    plan.section(section, PROGBITS, Body::Bytes(vec![7; 4]));
    plan
}

/// A file of so many bytes, nearly all of them data.
fn long(length: usize) -> Vec<u8> {
    let mut plan = Plan::with_symbols(Vec::new());
    plan.section(".data", PROGBITS, Body::Bytes(vec![7; MOST_BYTES - 1024]));
    let mut file = plan.plain();
    file.resize(length, 9);
    file
}

#[cfg(test)]
mod tests {
    use super::*;
    use crate::case::Judge;
    use crate::domain::known;
    use crate::files::direct::comparable;

    #[test]
    fn at_each_limit_the_crate_judges_and_past_it_the_file_is_26() {
        let cases = limits();
        let refused = |case: &Case| case.judge == known(26, 0);
        let (past, at): (Vec<Case>, _) = cases.into_iter().partition(refused);
        for case in &at {
            assert_eq!(case.judge, Judge::Crate, "{}", case.aim);
            assert_eq!(comparable(&case.input), Ok(()), "{}", case.aim);
        }
        for case in &past {
            assert!(at.iter().any(|other| other.aim == case.aim), "{}", case.aim);
        }
        assert_eq!((past.len(), at.len()), (10, 10 + sizes().len()));
        assert!(at.iter().any(|case| case.input.len() == MOST_BYTES));
        assert!(past.iter().any(|case| case.input.len() == MOST_BYTES + 1));
    }
}
