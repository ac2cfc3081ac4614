//! The numbers that include/jullpinay.h defines.

const HEADER: &str = include_str!("../../../include/jullpinay.h");

/// Each with its name, without the prefix JULLPINAY_.
pub fn numbers() -> impl Iterator<Item = (&'static str, usize)> {
    let defined = |line: &'static str| line.strip_prefix("#define JULLPINAY_")?.split_once(' ');
    HEADER.lines().filter_map(defined).map(|(name, value)| (name, value.parse().unwrap()))
}

pub fn stated(name: &str) -> usize {
    let number = numbers().find(|(defined, _)| *defined == name);
    number.unwrap_or_else(|| panic!("the header defines no JULLPINAY_{name}")).1
}
