//! The jobs inside one process: the library's call and the plain one.

use crate::inputs::{Inputs, FAILED, NODE, STRIPES};
use crate::job::Job;
use bench::plain;
use corkpaddle::{answer_for_into, file_len, take_slip, Kind, HELP_LEN};
use std::hint::black_box;

const DONE: &str = "a call that is done";

pub fn all() -> Vec<Job> {
    let kinds = [Kind::Mbr, Kind::Msr].map(Inputs::of);
    let makers = [rebuild_file, cut, encode, collect, answer, slip];
    kinds.iter().flat_map(|inputs| makers.map(|job| job(inputs))).collect()
}

fn rebuild_file(inputs: &'static Inputs) -> Job {
    let Inputs { kind, code, batches, .. } = inputs;
    let total = STRIPES as u32;
    Job::new(
        format!("{kind}: rebuild a file of 1,024 stripes"),
        vec![0; file_len(STRIPES)],
        move |file| code.rebuild_file_into(FAILED, STRIPES as u16, batches, file).expect(DONE),
        move |file| plain::batch::rebuild_file(code.body(), FAILED, total, batches, file).expect(DONE),
    )
}

fn cut(inputs: &'static Inputs) -> Job {
    let Inputs { kind, code, book, .. } = inputs;
    let total = STRIPES as u32;
    Job::new(
        format!("{kind}: cut a book of 1,024 stripes"),
        vec![0; file_len(STRIPES)],
        move |file| code.cut_into(NODE, STRIPES as u16, book, file).map(|()| 0).expect(DONE),
        move |file| plain::file::cut(code.body(), NODE, total, book, file).expect(DONE),
    )
}

/// A call for each stripe; the answers are added up.
fn each(
    from: &[u8],
    long: usize,
    to: &mut [u8],
    short: usize,
    call: impl Fn(&[u8], &mut [u8]) -> u32,
) -> u32 {
    from.chunks_exact(long).zip(to.chunks_exact_mut(short)).map(|(input, output)| call(input, output)).sum()
}

fn encode(inputs: &'static Inputs) -> Job {
    let Inputs { kind, code, book, .. } = inputs;
    let (long, short) = (code.message_len(), code.share_len());
    let library = |m: &[u8], share: &mut [u8]| code.encode_into(NODE, m, share).map(|()| 0).expect(DONE);
    let plain = |m: &[u8], share: &mut [u8]| plain::stripe::encode(code.body(), NODE, m, share).expect(DONE);
    Job::new(
        format!("{kind}: encode a stripe, 1,024 calls"),
        vec![0; STRIPES * short],
        move |shares| each(book, long, shares, short, library),
        move |shares| each(book, long, shares, short, plain),
    )
}

fn collect(inputs: &'static Inputs) -> Job {
    let Inputs { kind, code, nodes, counts, shares, .. } = inputs;
    let (long, short) = (code.k() * code.share_len(), code.message_len());
    let library = |s: &[u8], m: &mut [u8]| code.collect_into(nodes, counts, s, m).expect(DONE);
    let plain =
        |s: &[u8], m: &mut [u8]| plain::collect::collect(code.body(), nodes, counts, s, m).expect(DONE);
    Job::new(
        format!("{kind}: collect a stripe, 1,024 calls"),
        vec![0; STRIPES * short],
        move |book| each(shares, long, book, short, library),
        move |book| each(shares, long, book, short, plain),
    )
}

fn answer(inputs: &'static Inputs) -> Job {
    let Inputs { kind, file, .. } = inputs;
    Job::new(
        format!("{kind}: answer for a failed node, 1,024 stripes"),
        vec![0; STRIPES * HELP_LEN],
        |records| answer_for_into(file, FAILED, records).map(|()| 0).expect(DONE),
        |records| plain::file::answer_for(file, FAILED, records).expect(DONE),
    )
}

fn slip(inputs: &'static Inputs) -> Job {
    let Inputs { kind, file, slip, .. } = inputs;
    Job::new(
        format!("{kind}: take a slip on a file of 1,024 stripes"),
        file.clone(),
        |file| take_slip(file, slip).expect(DONE),
        |file| plain::file::take_slip(file, slip).expect(DONE),
    )
}

/// Calls one side of one job so many times, for counting.
pub fn call(job: usize, side: usize, times: usize) {
    let mut jobs = all();
    let job = jobs.get_mut(job).expect("a job of that number");
    for _ in 0..times {
        let mut buffer = job.start.clone();
        black_box(job.sides[side](&mut buffer));
        black_box(&buffer);
    }
}
