//! What is printed of a slice.

/// The checksum of docs/CALLS.md.
pub fn checksum(entries: &[u32]) -> u64 {
    entries.iter().fold(0, |sum, entry| (sum * 65_599 + u64::from(*entry)) % 140_737_488_355_213)
}

/// The content of a slice as the fields of a line: its numbers if they are at most 16.
pub fn content(entries: &[u32]) -> String {
    if entries.len() <= 16 {
        entries.iter().map(|entry| format!("\t{entry}")).collect()
    } else if entries.iter().all(|entry| *entry == 0) {
        "\tzeros".to_owned()
    } else {
        format!("\tsum\t{}", checksum(entries))
    }
}

#[cfg(test)]
mod tests {
    use super::*;

    #[test]
    fn the_checksum_is_the_one_of_the_definition() {
        assert_eq!(checksum(&[]), 0);
        assert_eq!(checksum(&[7]), 7);
        assert_eq!(checksum(&[7, 5]), 7 * 65_599 + 5);
        // 459,198 × 65,599 + 4,294,967,295, which is below the modulus.
        assert_eq!(checksum(&[7, 5, u32::MAX]), 34_417_896_897);
        // 34,417,896,897 × 65,599 + 1, less the modulus 16 times.
        assert_eq!(checksum(&[7, 5, u32::MAX, 1]), 5_979_804_862_896);
        // No two entries of 32 bits count alike.
        assert_ne!(checksum(&[1, u32::MAX]), checksum(&[1, 4]));
    }

    #[test]
    fn sixteen_entries_are_listed_and_more_are_summed_up() {
        assert_eq!(content(&[0, 9, u32::MAX]), "\t0\t9\t4294967295");
        assert_eq!(content(&[0; 16]), "\t0".repeat(16));
        assert_eq!(content(&[0; 17]), "\tzeros");
        let mut entries = [0; 17];
        entries[16] = 3;
        assert_eq!(content(&entries), "\tsum\t3");
    }
}
