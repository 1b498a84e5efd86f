//! The flags of a code directory by Apple's names.

use crate::found::field;

/// CS_ALLOWED_MACHO: what a directory may hold.
const ALLOWED: u32 = 0x33F02;

const NAMES: [(u32, &str); 28] = [
    (0x1, "CS_VALID"),
    (0x2, "CS_ADHOC"),
    (0x4, "CS_GET_TASK_ALLOW"),
    (0x8, "CS_INSTALLER"),
    (0x10, "CS_FORCED_LV"),
    (0x20, "CS_INVALID_ALLOWED"),
    (0x100, "CS_HARD"),
    (0x200, "CS_KILL"),
    (0x400, "CS_CHECK_EXPIRATION"),
    (0x800, "CS_RESTRICT"),
    (0x1000, "CS_ENFORCEMENT"),
    (0x2000, "CS_REQUIRE_LV"),
    (0x4000, "CS_ENTITLEMENTS_VALIDATED"),
    (0x8000, "CS_NVRAM_UNRESTRICTED"),
    (0x10000, "CS_RUNTIME"),
    (0x20000, "CS_LINKER_SIGNED"),
    (0x100000, "CS_EXEC_SET_HARD"),
    (0x200000, "CS_EXEC_SET_KILL"),
    (0x400000, "CS_EXEC_SET_ENFORCEMENT"),
    (0x800000, "CS_EXEC_INHERIT_SIP"),
    (0x1000000, "CS_KILLED"),
    (0x2000000, "CS_NO_UNTRUSTED_HELPERS"),
    (0x4000000, "CS_PLATFORM_BINARY"),
    (0x8000000, "CS_PLATFORM_PATH"),
    (0x10000000, "CS_DEBUGGED"),
    (0x20000000, "CS_SIGNED"),
    (0x40000000, "CS_DEV_CODE"),
    (0x80000000, "CS_DATAVAULT_CONTROLLER"),
];

/// The name of one bit; the bit itself where Apple has no name for it.
fn name(bit: u32) -> String {
    let named = NAMES.iter().find(|(flag, _)| *flag == bit);
    named.map_or(format!("{bit:#x}"), |(_, name)| name.to_string())
}

/// The bits that are set, from the lowest.
pub fn names(flags: u32) -> Vec<String> {
    (0..32).map(|i| 1 << i).filter(|bit| flags & bit != 0).map(name).collect()
}

/// The number and the names.
pub fn text(flags: u32) -> String {
    let names = if flags == 0 { "none".to_string() } else { names(flags).join(", ") };
    format!("{flags:#x} ({names})")
}

/// The flags of the signature's directory, which may be refused.
fn of(signature: &[u8]) -> Option<u32> {
    field(signature, 12)
}

/// Those that are not allowed.
pub fn not_allowed(signature: &[u8]) -> Vec<String> {
    names(of(signature).unwrap_or(0) & !ALLOWED)
}

/// For somebody who asks which flags refusal 46 means.
pub fn note(signature: &[u8]) -> Option<String> {
    let (flags, wrong) = (of(signature)?, not_allowed(signature).join(", "));
    (!wrong.is_empty()).then(|| {
        format!("the directory's flags, {flags:#x}, hold what is not allowed (46): {wrong}")
    })
}

#[cfg(test)]
mod tests {
    use std::collections::BTreeSet;

    use super::*;

    #[test]
    fn names_are_of_single_bits_that_rise() {
        assert!(NAMES.iter().all(|(flag, _)| flag.is_power_of_two()));
        assert!(NAMES.is_sorted_by(|one, next| one.0 < next.0));
    }

    #[test]
    fn every_bit_has_a_name_of_its_own() {
        assert_eq!(names(u32::MAX).into_iter().collect::<BTreeSet<_>>().len(), 32);
        assert_eq!(text(0x2), "0x2 (CS_ADHOC)");
        assert_eq!(text(0), "0x0 (none)");
        assert_eq!(text(0x8008_0040), "0x80080040 (0x40, 0x80000, CS_DATAVAULT_CONTROLLER)");
    }
}
