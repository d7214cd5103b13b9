//! The 64-bit step that an export of the session returns.

#[derive(Copy, Clone, PartialEq, Eq, Debug)]
pub struct Step(pub u64);

/// Where the bytes of a read go.
#[derive(Copy, Clone, PartialEq, Eq, Debug)]
pub enum Target {
    Reply,
    Out,
}

impl Step {
    /// A call's answer: document 01's number, rows programmed, a value.
    pub fn answer(number: u8, rows: u64, value: u64) -> Self {
        Step(u64::from(number) << 8 | rows << 16 | value << 32)
    }

    /// "31 to 34 .. report no rows."
    pub fn refused(number: u8) -> Self {
        Step::answer(number, 0, 0)
    }

    pub fn write(address: u8, sent: usize) -> Self {
        Step(1 | u64::from(address) << 8 | (sent as u64) << 16)
    }

    pub fn read(target: Target, address: u8, sent: usize, read: usize) -> Self {
        let kind = match target {
            Target::Reply => 2,
            Target::Out => 3,
        };
        Step(kind | u64::from(address) << 8 | (sent as u64) << 16 | (read as u64) << 32)
    }

    pub fn delay(ms: u32) -> Self {
        Step(4 | u64::from(ms) << 32)
    }
}

#[cfg(test)]
mod tests {
    use super::*;

    #[test]
    fn steps_by_hand() {
        assert_eq!(Step::answer(26, 512, 0).0, 0x0200_1A00);
        assert_eq!(Step::answer(0, 0, 8192).0, 0x2000_0000_0000);
        assert_eq!(Step::write(0x53, 18).0, 0x0012_5301);
        assert_eq!(Step::read(Target::Reply, 0x57, 2, 12).0, 0x000C_0002_5702);
        assert_eq!(Step::read(Target::Out, 0x53, 2, 8192).0, 0x2000_0002_5303);
        assert_eq!(Step::delay(25).0, 0x19_0000_0004);
    }
}
