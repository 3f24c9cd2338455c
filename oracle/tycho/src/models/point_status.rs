//! The flags that a resolved point carries.

#[derive(Default)]
pub struct PointStatusValid {
    pub is_first_valid: bool,
    pub is_first_resolved: bool,
}

#[derive(Default)]
pub struct PointStatusTransInvalid {
    pub is_first_resolved: bool,
    pub is_restored: bool,
}

#[derive(Default)]
pub struct PointStatusInvalid {
    pub is_first_resolved: bool,
}

#[derive(Default)]
pub struct PointStatusIllFormed {
    pub is_first_resolved: bool,
}

#[derive(Default)]
pub struct PointStatusNotFound {
    pub is_first_resolved: bool,
}
