//! Numbers in words.

/// Digits in groups of three: 51,200.
pub fn grouped(number: usize) -> String {
    let digits = number.to_string();
    let first = digits.len() % 3;
    let mut groups: Vec<&str> = Vec::new();
    if first > 0 {
        groups.push(&digits[..first]);
    }
    let rest = digits.as_bytes()[first..].chunks(3);
    groups.extend(rest.map(|group| std::str::from_utf8(group).expect("digits")));
    groups.join(",")
}

pub const MIB: usize = 1 << 20;

#[cfg(test)]
mod tests {
    use super::grouped;

    #[test]
    fn groups_of_three() {
        let found = [0, 12, 999, 1000, 51_200, 209_715_200].map(grouped);
        assert_eq!(found, ["0", "12", "999", "1,000", "51,200", "209,715,200"]);
    }
}
