//! A patch list as it is lent: five numbers an entry over one buffer of bytes (docs/CATALOGUE.md).
use crate::case::Patch;

/// The numbers and the buffer, names and data one behind the other.
pub fn lend(list: &[Patch]) -> (Vec<u64>, Vec<u8>) {
    let (mut entries, mut patches) = (Vec::new(), Vec::new());
    for patch in list {
        for piece in [&patch.name, &patch.data] {
            entries.extend([patches.len() as u64, piece.len() as u64]);
            patches.extend(piece);
        }
        entries.push(u64::from(patch.must_exist));
    }
    (entries, patches)
}

/// The list, where each entry is whole, lies inside the buffer and has a mark of 0 or 1.
pub fn listed(entries: &[u64], patches: &[u8]) -> Option<Vec<Patch>> {
    entries
        .chunks(5)
        .map(|numbers| entry(numbers, patches))
        .collect()
}

/// One entry; none is number 18.
pub fn entry(numbers: &[u64], patches: &[u8]) -> Option<Patch> {
    let &[name_at, name_length, data_at, data_length, mark] = numbers else {
        return None;
    };
    let bytes = |at: u64, length: u64| {
        patches.get(usize::try_from(at).ok()?..usize::try_from(at.checked_add(length)?).ok()?)
    };
    let (name, data) = (bytes(name_at, name_length)?, bytes(data_at, data_length)?);
    (mark < 2).then(|| Patch {
        name: name.to_vec(),
        data: data.to_vec(),
        must_exist: mark == 1,
    })
}

#[cfg(test)]
mod tests {
    use super::*;

    fn patch(name: &[u8], data: &[u8], must_exist: bool) -> Patch {
        Patch {
            name: name.to_vec(),
            data: data.to_vec(),
            must_exist,
        }
    }

    #[test]
    fn what_is_lent_is_listed() {
        let list = [patch(b"rate", b"WXYZ", true), patch(b"", b"", false)];
        let (entries, patches) = lend(&list);
        assert_eq!(entries, [0, 4, 4, 4, 1, 8, 0, 8, 0, 0]);
        assert_eq!(patches, b"rateWXYZ");
        assert_eq!(listed(&entries, &patches), Some(list.to_vec()));
        assert_eq!(listed(&[], b"x"), Some(vec![]));
    }

    #[test]
    fn ranges_and_marks() {
        let fits = |entries: &[u64]| listed(entries, b"rateWXYZ").is_some();
        assert!(fits(&[8, 0, 8, 0, 0]) && fits(&[0, 8, 4, 4, 1]));
        assert!(!fits(&[9, 0, 0, 0, 0]) && !fits(&[0, 0, 5, 4, 0]) && !fits(&[0, 9, 0, 0, 0]));
        assert!(
            !fits(&[u64::MAX, 1, 0, 0, 0])
                && !fits(&[0, 0, 4, u64::MAX, 0])
                && !fits(&[u64::MAX, u64::MAX, 0, 0, 0])
        );
        assert!(!fits(&[0, 0, 0, 0, 2]) && !fits(&[0, 0, 0, 0]) && !fits(&[0; 6]));
    }
}
