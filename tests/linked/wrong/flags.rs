//! Wrong in the flags of a register block, "writing a 1 clears that bit", and in the leave to interrupt, "byte 3 bit 0".

use super::block::wrote;
use super::Wrong;
use crate::lent::Call;
use crate::library::{Function, BLOCK_ROWS};

pub const PARTS: &[&[Wrong]] = &[FLAGS, BESIDE_FLAGS, LEAVE];

const FLAGS: &[Wrong] = of_one!(BlockWrite, wrote:
    "stores what is written in byte 1" => |before, after| flags(before, after, |_, value| value),
    "stores the named bits that are written in byte 1" => |before, after| {
        flags(before, after, |_, value| value & 7);
    },
    "sets the flags that are written" => |before, after| {
        flags(before, after, |flags, value| flags | value & 7);
    },
    "clears the flags that are written as 0" => |before, after| {
        flags(before, after, |flags, value| flags & value);
    },
    "turns flags over" => |before, after| flags(before, after, |flags, value| flags ^ value & 7),
    "clears all flags by any write to byte 1" => |before, after| {
        flags(before, after, |flags, _| flags & !7);
    },
    "clears all flags by any 1" => |before, after| {
        flags(before, after, |flags, value| if value & 7 == 0 { flags } else { flags & !7 });
    },
    "clears all flags by an unnamed 1" => |before, after| {
        flags(before, after, |flags, value| {
            if value > 7 { flags & !7 } else { flags & !value }
        });
    },
    "clears no flag" => |before, after| flags(before, after, |flags, _| flags),
    "does not clear done" => |before, after| {
        flags(before, after, |flags, value| flags & !(value & 6));
    },
    "does not clear refused" => |before, after| {
        flags(before, after, |flags, value| flags & !(value & 5));
    },
    "does not clear the interrupt" => |before, after| {
        flags(before, after, |flags, value| flags & !(value & 3));
    },
    "clears one flag at a time" => |before, after| {
        flags(before, after, |flags, value| flags & !(value & 7 & value.wrapping_neg()));
    },
    "clears flags by the bits turned round" => |before, after| {
        flags(before, after, |flags, value| flags & !(value.reverse_bits() >> 5));
    },
    "clears unnamed bits with the flags" => |before, after| {
        flags(before, after, |flags, value| flags & 7 & !value);
    },
);

const BESIDE_FLAGS: &[Wrong] = of_one!(BlockWrite, wrote:
    "clears the number with the flags" => |before, after| if before.address == 1 {
        after.block.content_mut()[2] = 0;
    },
    "clears the number with refused" => |before, after| {
        if before.address == 1 && before.value & 2 != 0 {
            after.block.content_mut()[2] = 0;
        }
    },
    "clears the lateness with done" => |before, after| {
        if before.address == 1 && before.value & 1 != 0 {
            after.block.content_mut()[12..16].fill(0);
        }
    },
    "drops the rows with done" => |before, after| {
        if before.address == 1 && before.value & 1 != 0 {
            after.rows.content_mut()[..BLOCK_ROWS].fill(0);
        }
    },
    "takes the leave away with the interrupt that is cleared" => |before, after| {
        if before.address == 1 && before.value & 4 != 0 {
            after.block.content_mut()[3] &= !1;
        }
    },
);

const LEAVE: &[Wrong] = of_one!(BlockWrite, wrote:
    "keeps all bits of byte 3" => |before, after| leave(before, after, |_, value| value),
    "keeps two bits of byte 3" => |before, after| leave(before, after, |_, value| value & 3),
    "allows the interrupt by any bit" => |before, after| {
        leave(before, after, |byte, value| byte & !1 | u8::from(value != 0));
    },
    "allows the interrupt by bit 1" => |before, after| {
        leave(before, after, |byte, value| byte & !1 | value >> 1 & 1);
    },
    "allows the interrupt by the last bit" => |before, after| {
        leave(before, after, |byte, value| byte & !1 | value >> 7);
    },
    "allows the interrupt by 1 alone" => |before, after| {
        leave(before, after, |byte, value| byte & !1 | u8::from(value == 1));
    },
    "never takes the leave away" => |before, after| {
        leave(before, after, |byte, value| byte | value & 1);
    },
    "takes the leave away by a 1" => |before, after| {
        leave(before, after, |byte, value| byte & !(value & 1));
    },
    "never allows the interrupt" => |before, after| leave(before, after, |byte, _| byte & !1),
    "clears unnamed bits with the leave" => |before, after| {
        leave(before, after, |_, value| value & 1);
    },
    "raises the interrupt with the leave" => |before, after| {
        if before.address == 3 && before.value & 1 != 0 && before.block.content()[1] & 3 != 0 {
            after.block.content_mut()[1] |= 4;
        }
    },
    "drops the interrupt with the leave" => |before, after| {
        if before.address == 3 && before.value & 1 == 0 {
            after.block.content_mut()[1] &= !4;
        }
    },
);

/// Byte 1 from what it was and what was written there.
fn flags(before: &Call, after: &mut Call, kept: fn(u8, u8) -> u8) {
    if before.address == 1 {
        after.block.content_mut()[1] = kept(before.block.content()[1], before.value);
    }
}

/// Byte 3 likewise.
fn leave(before: &Call, after: &mut Call, kept: fn(u8, u8) -> u8) {
    if before.address == 3 {
        after.block.content_mut()[3] = kept(before.block.content()[3], before.value);
    }
}
