//! Wrong in the order that is written: "as hbr_write writes", all but the times as in the file lent; in the
//! room for it, which is asked for only where there is one; and in what lies beyond it.

use super::{accepted, answered, refused, Wrong};
use crate::draw::files::jobs_first;
use crate::draw::Random;
use crate::independent::{held, order_of, read, write, Order};
use crate::lent::Call;
use crate::library::Function;
use crate::model::MODEL;

pub const PARTS: &[&[Wrong]] = &[ROOMS, ORDER, WRITTEN, LEFT, REFUSES];

/// The bytes lent, and those of the order's file; none where no order is met.
struct Room {
    lent: usize,
    file: usize,
}

/// Another room.
const ROOMS: &[Wrong] = of_one!(BetweenOrder, asks:
    "takes any room" => |_| true,
    "takes room for one byte less" => |room| room.lent + 1 >= room.file,
    "asks for room for one byte more" => |room| room.lent > room.file || room.file == 0,
    "asks for room for just the order" => |room| room.lent == room.file || room.file == 0,
    "asks for 844 bytes" => |room| room.lent >= 844 || room.file == 0,
    "asks for a byte where no order is met" => |room| room.lent >= room.file.max(1),
    "asks for 12 bytes to a job" => |room| room.lent + room.file / 5 >= room.file,
    "counts the room in 8 bits" => |room| room.lent % 256 >= room.file,
    "counts the room in 16 bits" => |room| room.lent % 65_536 >= room.file,
);

/// A short room told before these refusals.
const ORDER: &[Wrong] = of_one!(BetweenOrder, tells_before:
    "tells a short room before a job that fits no processor" => &[7],
    "tells a short room before a low above its high" => &[19],
    "tells a short room before all jobs" => &[5, 6, 13, 19, 7],
);

/// Another order written, from the one met and from the file lent.
const WRITTEN: &[Wrong] = of_one!(BetweenOrder, writes:
    "puts the jobs first" => |met, _| jobs_first(met),
    "keeps the lists as they are lent" => |met, lent| match lent == jobs_first(&as_read(lent)) {
        true => jobs_first(met),
        false => write(met),
    },
    "writes the file lent" => |_, lent| lent.to_vec(),
    "writes the lows" => |_, lent| write(&as_read(lent)),
    "writes maker 1 for all" => |met, _| changed(met, |order| {
        order.jobs.iter_mut().for_each(|job| job.maker = 1);
    }),
    "writes the jobs by falling need" => |met, _| write(&order_of(met, &held(met))),
    "writes the needs of classes" => |met, _| changed(met, |order| {
        let needs = order.jobs.iter().map(|job| super::class_memory(order, job));
        let needs: Vec<u32> = needs.collect();
        let jobs = order.jobs.iter_mut().zip(needs);
        jobs.for_each(|(job, need)| job.need = need);
    }),
    "writes the ends for due times" => |met, _| changed(met, |order| {
        order.jobs.iter_mut().for_each(|job| job.due += 1);
    }),
    "writes the processors by falling memory" => |met, _| changed(met, |order| {
        order.memories.sort_by(|one, other| other.cmp(one));
    }),
);

/// Something else left where the call succeeds, from what was lent.
const LEFT: &[Wrong] = of_one!(BetweenOrder, leaves:
    "clears the bytes beyond its order" => |call, _| beyond(call).fill(0),
    "clears its order where none is met" => |call, _| if call.answer.content()[0] == 0 {
        call.order.content_mut().fill(0);
    },
    "writes the lows where no order is met" => |call, _| {
        let lows = write(&accepted(call).expect("the call was answered"));
        if call.answer.content()[0] == 0 && call.order.len() >= lows.len() {
            call.order.put(&lows);
        }
    },
    "answers -1 where no order is met" => |call, _| if call.answer.content()[0] == 0 {
        call.answer.put(&[-1]);
    },
    "leaves its answer where no order is met" => |call, before| if call.answer.content()[0] == 0 {
        call.answer = before.answer.clone();
    },
    "answers the room lent" => |call, _| if call.answer.content()[0] > 0 {
        call.answer.put(&[call.order.len() as i32]);
    },
    "answers the length without the trailer" => |call, _| if call.answer.content()[0] > 0 {
        call.answer.content_mut()[0] -= 12;
    },
    "answers the number asked for too" => |call, _| if call.answer.len() > 1 {
        call.answer.content_mut()[1] = call.number;
    },
    "writes its order over the file" => |call, _| if call.answer.content()[0] > 0 {
        let order = call.order.content()[..call.file.len()].to_vec();
        call.file.put(&order);
    },
    "writes the times met over the highs" => |call, _| if call.answer.content()[0] > 0 {
        let met = as_read(&call.order.content()[..call.file.len()]);
        let times = met.jobs.iter().map(|job| job.time);
        call.highs.put(&times.collect::<Vec<u32>>());
    },
    "touches the guard before its order" => |call, _| *call.order.before_mut() ^= 1,
    "touches the guard after its order" => |call, _| *call.order.after_mut() ^= 1,
);

/// Something written where the call is refused.
const REFUSES: &[Wrong] = of_one!(BetweenOrder, writes_refused:
    "clears its order where it refuses" => |call, _| call.order.content_mut().fill(0),
    "writes what fits of its order" => |call, whole| {
        let fits = call.order.len().min(whole.len());
        call.order.put(&whole[..fits]);
    },
    "answers the length of an order that does not fit" => |call, whole| if !whole.is_empty() {
        call.answer.put(&[whole.len() as i32]);
    },
);

/// The order of a file that is accepted.
fn as_read(file: &[u8]) -> Order {
    read(file).expect("the file is accepted")
}

fn changed(met: &Order, change: fn(&mut Order)) -> Vec<u8> {
    let mut order = met.clone();
    change(&mut order);
    write(&order)
}

/// What lies beyond the order that was written.
fn beyond(call: &mut Call) -> &mut [u8] {
    let written = call.answer.content()[0] as usize;
    &mut call.order.content_mut()[written..]
}

/// The result and the order's file, with room for it.
fn roomy(call: &Call) -> (u32, Vec<u8>) {
    let random = &mut Random::new(0);
    let mut roomy = call.clone().with_order_room(random, call.number, 844);
    let result = (MODEL.between_order)(&mut roomy);
    let length = match result {
        0 => roomy.answer.content()[0] as usize,
        _ => 0,
    };
    (result, roomy.order.content()[..length].to_vec())
}

/// 9 by another rule; of the order those bytes are written that fit.
fn asks(call: &mut Call, enough: fn(&Room) -> bool) -> u32 {
    let (result, file) = roomy(call);
    if result != 0 {
        return result;
    }
    let room = Room {
        lent: call.order.len(),
        file: file.len(),
    };
    if !enough(&room) {
        return 9;
    }
    let fits = room.lent.min(room.file);
    call.order.put(&file[..fits]);
    call.answer.put(&[file.len() as i32]);
    0
}

/// 9 in place of these refusals where there is no room for an order of the file's length.
fn tells_before(call: &mut Call, numbers: &[u32]) -> u32 {
    let result = (MODEL.between_order)(call);
    match numbers.contains(&(result % 256)) && call.order.len() < call.file.len() {
        true => 9,
        false => result,
    }
}

/// Another order, where one is written.
fn writes(call: &mut Call, other: fn(&Order, &[u8]) -> Vec<u8>) -> u32 {
    let before = call.order.clone();
    answered(MODEL.between_order, call, |call| {
        let length = call.answer.content()[0] as usize;
        if length > 0 {
            let met = as_read(&call.order.content()[..length]);
            let bytes = other(&met, call.file.content());
            call.order = before;
            call.order.put(&bytes);
            call.answer.put(&[bytes.len() as i32]);
        }
    })
}

/// A change where the call succeeds.
fn leaves(call: &mut Call, change: fn(&mut Call, &Call)) -> u32 {
    let before = call.clone();
    answered(MODEL.between_order, call, |call| change(call, &before))
}

/// A change where the call is refused, from the order for which there was no room, if it is that.
fn writes_refused(call: &mut Call, change: fn(&mut Call, &[u8])) -> u32 {
    let (_, whole) = roomy(call);
    refused(MODEL.between_order, call, |call| change(call, &whole))
}
