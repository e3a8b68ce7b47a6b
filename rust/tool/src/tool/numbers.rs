//! Numbers in words that a person reads.

/// The number with a comma after each thousand.
pub fn grouped(number: usize) -> String {
    let digits = number.to_string();
    let letter = |(at, digit): (usize, char)| match at > 0 && (digits.len() - at) % 3 == 0 {
        true => format!(",{digit}"),
        false => digit.to_string(),
    };
    digits.chars().enumerate().map(letter).collect()
}

/// The number and what is counted, with an s where it isn't one.
pub fn counted(number: usize, what: &str) -> String {
    let end = if number == 1 { "" } else { "s" };
    format!("{} {what}{end}", grouped(number))
}

/// Frames by their numbers, which rise, and the verb that goes with them: `frames 2, 5 to 9` are.
pub fn named(numbers: &[usize]) -> (String, &'static str) {
    let mut ranges: Vec<(usize, usize)> = Vec::new();
    for number in numbers {
        match ranges.last_mut() {
            Some((_, last)) if *last + 1 == *number => *last = *number,
            _ => ranges.push((*number, *number)),
        }
    }
    let range = |(first, last): &(usize, usize)| match last - first {
        0 => first.to_string(),
        1 => format!("{first} and {last}"),
        _ => format!("{first} to {last}"),
    };
    let ranges: Vec<String> = ranges.iter().map(range).collect();
    match numbers.len() {
        1 => (format!("frame {}", ranges[0]), "is"),
        _ => (format!("frames {}", ranges.join(", ")), "are"),
    }
}

#[cfg(test)]
mod tests {
    use super::*;

    #[test]
    fn frames_that_follow_each_other_are_a_range() {
        assert_eq!(named(&[7]), ("frame 7".to_string(), "is"));
        assert_eq!(named(&[2, 5, 6, 9, 10, 11]), ("frames 2, 5 and 6, 9 to 11".to_string(), "are"));
    }

    #[test]
    fn thousands_are_set_apart() {
        assert_eq!([0, 999, 1_000, 65_536, 1_234_567].map(grouped), ["0", "999", "1,000", "65,536", "1,234,567"]);
        assert_eq!((counted(1, "frame"), counted(2_000, "byte")), ("1 frame".to_string(), "2,000 bytes".to_string()));
    }
}
