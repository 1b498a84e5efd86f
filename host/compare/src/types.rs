//! What the two have in types of their own, so that it can be lent to both and compared.

use reference::launch;

/// The launch facts as the library takes them.
pub fn facts(launch: &launch::Launch) -> trewizlow::Launch {
    trewizlow::Launch {
        on_authorized_volume: launch.on_authorized_volume,
        on_system_volume: launch.on_system_volume,
        launch_type: launch.launch_type,
        validation_category: launch.validation_category,
        parent_is_init: launch.parent_is_init,
    }
}

/// The library's fields of a directory as the reference gives them: in the order of the C
/// interface.
pub fn fields(directory: &trewizlow::Directory) -> [u64; 15] {
    [
        directory.start as u64,
        directory.length as u64,
        directory.version.into(),
        directory.flags.into(),
        directory.hash_offset.into(),
        directory.ident_offset.into(),
        directory.special_slots.into(),
        directory.code_slots.into(),
        directory.hash_size.into(),
        directory.hash_type.into(),
        directory.platform.into(),
        directory.page_shift.into(),
        directory.code_limit as u64,
        directory.page_size as u64,
        directory.ident_length as u64,
    ]
}

#[cfg(test)]
mod tests {
    use super::*;

    /// Answers cannot tell the two volumes apart, nor the launch type from the validation
    /// category.
    #[test]
    fn every_fact_is_itself() {
        let none = launch::Launch::default();
        let of = |launch| format!("{:?}", facts(&launch));
        let same = |launch: launch::Launch| assert_eq!(of(launch), format!("{launch:?}"));
        same(launch::Launch { on_authorized_volume: true, ..none });
        same(launch::Launch { on_system_volume: true, ..none });
        same(launch::Launch { launch_type: 7, ..none });
        same(launch::Launch { validation_category: 9, ..none });
        same(launch::Launch { parent_is_init: true, ..none });
    }
}
