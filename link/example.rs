// Plans an order from Rust: two processors, three jobs of two makers, whose needs a table has by their times. Prints the needs, the
// least lateness, a plan that meets it, why -1 is too tight, in due times and as a sentence, the classes that it speaks of, and the
// minutes booked for each maker. Then, where job 1 may take up to 7 minutes, between which two numbers the least lateness lies, and
// the first order, minute by minute, at which it is 1. Last a screen asks for the first plan, and for a fifth processor.
#[allow(dead_code)]
mod highboyrobin;
use highboyrobin::{between, between_order, least};
use highboyrobin::{book_least, classes, judge, needs, reason, sentence, write};
use highboyrobin::{Between, Book, Caller, Job, NeedLine, Reason, Refused, Row};
use highboyrobin::{LONGEST_LENGTH, MOST_BYTES, MOST_LINE, SCREEN_ROWS};

fn main() -> Result<(), Refused> {
    let memories = [8, 4];
    let table = [(1, 2, 2), (3, 3, 4), (4, LONGEST_LENGTH, 8)];
    let table = table.map(|(from, to, need)| NeedLine { from, to, need });
    let jobs = [(4, 4, 1), (3, 3, 2), (2, 4, 2)];
    let mut jobs = jobs.map(|(time, due, maker)| Job {
        time,
        due,
        need: 0,
        maker,
    });
    let mut filled = [0; 3];
    needs(&table, &jobs.map(|job| job.time), &mut filled)?;
    for (number, (job, need)) in (1..).zip(jobs.iter_mut().zip(filled)) {
        job.need = need;
        println!("job {number} of time {} needs {need}", job.time);
    }
    let mut bytes = [0; MOST_BYTES];
    let length = write(&memories, &jobs, &mut bytes)?;
    let file = &bytes[..length];

    let mut rows = vec![Row::default(); judge(file)?.rows];
    let mut book = Book::open();
    let answer = book_least(file, &mut rows, &mut book)?;
    println!("least lateness {}", answer.lateness);
    for row in &rows[..answer.rows] {
        println!(
            "job {} on processor {} from {} to {}",
            row.job, row.processor, row.from, row.to
        );
    }
    if let Some(why @ Reason::Stairs { classes, dues }) = reason(file, -1)? {
        print!("lateness -1 is too tight: due times");
        dues[..classes].iter().for_each(|due| print!(" {due}"));
        println!("\n{}", sentence(file, -1, &why, &mut [0; MOST_LINE])?);
    }
    for (number, class) in (1..).zip(classes(file)?.listed()) {
        let (memory, processors) = (class.memory, class.processors);
        println!("class {number}: memory {memory}, processors {processors}");
    }
    let [first, second, ..] = book.counts;
    println!("booked: maker 1 {first} minutes, maker 2 {second} minutes");
    let (low, highs) = (jobs[0].time, [7, 3, 2]);
    let Between { at_lows, at_highs } = between(file, &highs)?;
    let high = highs[0];
    println!("job 1 of {low} to {high} minutes: least lateness {at_lows} to {at_highs}");
    let mut order = [0; MOST_BYTES];
    if let Some(length) = between_order(file, &highs, 1, &mut order)? {
        let lateness = least(&order[..length], &mut rows.clone())?.lateness;
        // job 1 comes after two processors of 4 bytes each; the low byte of its time is first
        let time = order[8];
        println!("job 1 of {time} minutes: least lateness {lateness}");
    }
    let mut screen_rows = [Row::default(); SCREEN_ROWS];
    let told = Caller::Screen.least(file, &mut screen_rows)?;
    let same = screen_rows[..told.rows] == rows[..answer.rows];
    let which = if same { "the same" } else { "other" };
    let lateness = told.lateness;
    println!("from a screen: least lateness {lateness}, {which} rows");
    let mut wide = [0; MOST_BYTES];
    let length = write(&[8, 4, 4, 4, 4], &jobs, &mut wide)?;
    let [at_dock, from_screen] = [Caller::Dock, Caller::Screen].map(|caller| {
        let told = caller.judge(&wide[..length]);
        told.map_or_else(|refused| refused.number, |_| 0)
    });
    println!("five processors: result {at_dock} at the dock, {from_screen} from a screen");
    Ok(())
}
