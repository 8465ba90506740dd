// A register block from Rust: what a maker does on a bus, byte by byte. Order C is written and planned at its least lateness, its rows
// are read and the interrupt is answered; then a bound that no plan can meet is refused, and the block is cleared.
#[allow(dead_code)]
mod highboyrobin;
use highboyrobin::Block;

// bytes to the addresses from this one on; numbers are little-endian
fn put(block: &mut Block, first: u8, bytes: &[u8]) {
    for (address, byte) in (first..).zip(bytes) {
        block.write(address, *byte);
    }
}

fn number(block: &Block, first: u8) -> u32 {
    u32::from_le_bytes([0, 1, 2, 3].map(|place| block.read(first + place)))
}

// what the last command left: rows from 1 on until the job is 0
fn show(block: &mut Block, command: &str) {
    let (flags, refusal) = (block.read(1), block.read(2));
    let lateness = number(block, 12) as i32;
    println!("{command}: flags {flags}, refusal {refusal}, lateness {lateness}");
    for row in 1u16.. {
        put(block, 10, &row.to_le_bytes());
        let [job, processor, from, to] = [16, 20, 24, 28].map(|first| number(block, first));
        if job == 0 {
            break;
        }
        println!("row {row}: job {job} on processor {processor} from {from} to {to}");
    }
}

// an interrupt: read the flags, and write back what was read; a flag that is set in between is not lost
fn answer(block: &mut Block) {
    let flags = block.read(1);
    block.write(1, flags);
    let (left, refusal) = (block.read(1), block.read(2));
    println!("flags {flags} answered: flags {left}, refusal {refusal}");
}

fn main() {
    // memory 4; time 3, due 10, need 4, maker 1; processors at 0, jobs at 4, one each
    let file = [
        4, 0, 0, 0, 3, 0, 0, 0, 10, 0, 0, 0, 4, 0, 0, 0, 1, 0, 0, 0, 0, 0, 0, 0, 4, 0, 0, 0, 1, 0,
        1, 0,
    ];
    let mut block = Block::cleared();
    put(&mut block, 32, &file);
    put(&mut block, 8, &(file.len() as u16).to_le_bytes());
    block.write(3, 1); // the interrupt is allowed
    block.write(0, 2); // the command comes last
    show(&mut block, "plan at the least lateness");
    answer(&mut block);
    put(&mut block, 4, &(-9i32).to_le_bytes());
    block.write(0, 1);
    show(&mut block, "plan at -9");
    answer(&mut block);
    block.write(0, 3);
    let zeros = (0..=255).filter(|&address| block.read(address) == 0);
    println!("cleared: {} bytes read 0", zeros.count());
}
