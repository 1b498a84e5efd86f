//! Launch constraints: tests 29 and 30 (document 003).

use crate::answer::{refuse, Answer};

/// The five launch facts.
#[derive(Clone, Copy, Debug, Default)]
pub struct Launch {
    pub on_authorized_volume: bool,
    pub on_system_volume: bool,
    pub launch_type: u8,
    pub validation_category: u8,
    pub parent_is_init: bool,
}

/// Category 1's constraint on the image itself.
fn self_holds(launch: &Launch) -> bool {
    (launch.on_authorized_volume || launch.on_system_volume)
        && launch.launch_type == 1
        && launch.validation_category == 1
}

/// Tests 29 and 30. Category 0 asks nothing.
pub fn test(category: u64, launch: &Launch) -> Result<(), Answer> {
    if category == 1 && !self_holds(launch) {
        return refuse(29);
    }
    if category == 1 && !launch.parent_is_init {
        return refuse(30);
    }
    Ok(())
}
