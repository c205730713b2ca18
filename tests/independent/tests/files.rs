//! Share files, slips, batches and the program: edges and the order of refusals.

mod common;

use common::{code, code_a, code_b, file_a, numbers, refusal, slip_a};
use independent::batch::{rebuild_batch, rebuild_file};
use independent::file::{answer_for, cut, judge_file, take_slip};
use independent::program::slips;
use independent::records::{help_record, read};

fn judged(file: &[u8]) -> [u32; 4] {
    numbers(judge_file(file))
}

/// The file of code A with bytes changed at a place.
fn changed(place: usize, bytes: &[u8]) -> Vec<u8> {
    let mut file = file_a();
    file[place..place + bytes.len()].copy_from_slice(bytes);
    file
}

#[test]
fn reading_records() {
    let fields = |file: &[u8], place| {
        let record = read(file, place);
        [record.number, record.start, record.end, record.next]
    };
    assert_eq!(fields(&file_a(), 0), [0, 1, 37, 37]);
    assert_eq!(fields(&file_a(), 37), [0, 38, 45, 45]);
    assert_eq!(fields(&file_a(), 45), [0, 46, 79, 79]);
    for place in [1, 79, 80, u64::MAX, u64::MAX - 36] {
        assert_eq!(fields(&file_a(), place), [1, 0, 0, place]);
    }
    assert_eq!(fields(&file_a()[..78], 45), [1, 0, 0, 45]);
    assert_eq!(fields(b"E", 0), [1, 0, 0, 0]);
    assert_eq!(fields(b"Ex", 0), [0, 1, 2, 2]);
    assert_eq!(fields(&[], 0), [1, 0, 0, 0]);
}

#[test]
fn faulty_files() {
    assert_eq!(judged(&[]), refusal(1));
    assert_eq!(judged(&file_a()[..36]), refusal(1));
    assert_eq!(judged(&file_a()[..78]), refusal(1));
    assert_eq!(judged(&[file_a(), vec![0]].concat()), refusal(1));
    assert_eq!(judged(&changed(1, &[9])[..37]), refusal(2));
    assert_eq!(judged(&changed(2, &[33])[..37]), refusal(3));
    assert_eq!(judged(&changed(6, &[1])[..37]), [4, 1, 2, 0]);
    assert_eq!(judged(&changed(20, &[1])[..37]), [4, 16, 16, 0]);
    assert_eq!(judged(&changed(37, b"D")), refusal(1));
    assert_eq!(judged(&changed(38, &[9, 0, 0])), refusal(3));
    assert_eq!(judged(&changed(38, &[9, 4, 1])), refusal(3));
    assert_eq!(judged(&changed(38, &[9])[..45]), refusal(6));
    assert_eq!(judged(&changed(38, &[0])), refusal(6));
    assert_eq!(judged(&changed(40, &[2])), refusal(1));
    assert_eq!(judged(&changed(47, &[1])), refusal(1));
    assert_eq!(judged(&changed(51, &[1])), refusal(1));
    assert_eq!(judged(&changed(41, &[255; 4])), [0, 0, 0, u32::MAX]);
}

/// The answer to a slip; the file must be left alone where it is refused.
fn taken(mut file: Vec<u8>, slip: &[u8]) -> [u32; 4] {
    let before = file.clone();
    let answer = take_slip(&mut file, slip);
    assert!(answer.number == 0 || file == before);
    numbers(answer)
}

#[test]
fn refused_slips() {
    let slip = |order: u32, stripe: u8, index: u8| {
        [&[80][..], &order.to_be_bytes(), &[0, stripe, 0, index, 7]].concat()
    };
    assert_eq!(taken(file_a(), &slip(1, 0, 4)), [0, 0, 0, 1]);
    assert_eq!(taken(file_a(), &slip(1, 0, 5)), refusal(10));
    assert_eq!(taken(file_a(), &slip(1, 1, 0)), refusal(10));
    assert_eq!(taken(file_a(), &slip(2, 1, 9)), refusal(9));
    assert_eq!(taken(file_a(), &slip(0, 0, 0)), refusal(9));
    assert_eq!(taken(changed(41, &[255; 4]), &slip(0, 0, 0)), refusal(9));
    assert_eq!(taken(changed(41, &[255, 255, 255, 254]), &slip(u32::MAX, 0, 0)), [0, 0, 0, u32::MAX]);
    assert_eq!(taken(file_a(), &slip(9, 9, 9)[..9]), refusal(1));
    assert_eq!(taken(file_a(), &[slip(1, 0, 0), vec![0]].concat()), refusal(1));
    assert_eq!(taken(file_a(), &[&[72], &slip(1, 0, 0)[1..]].concat()), refusal(1));
    assert_eq!(taken(changed(38, &[9]), &[]), refusal(6));
}

#[test]
fn change_zero_is_taken() {
    let mut file = file_a();
    let mut slip = slip_a();
    slip[9] = 0;
    assert_eq!(numbers(take_slip(&mut file, &slip)), [0, 0, 0, 1]);
    assert_eq!(file, changed(44, &[1]));
}

#[test]
fn cutting_a_book() {
    let refused = |code: &[u8], node, total, book: usize, room: usize| {
        let mut output = vec![0xaa; room];
        let answer = cut(code, node, total, &vec![1; book], &mut output);
        assert!(output.iter().all(|byte| *byte == 0xaa));
        numbers(answer)
    };
    assert_eq!(refused(&code_a(), 9, 0, 0, 45), refusal(3));
    assert_eq!(refused(&code_a(), 9, 1025, 0, 45), refusal(3));
    assert_eq!(refused(&[], 9, 0, 0, 0), refusal(3));
    assert_eq!(refused(&[], 9, 1, 0, 0), refusal(5));
    assert_eq!(refused(&code(7, 4, 2, 3, &[]), 9, 0, 0, 0), refusal(2));
    assert_eq!(refused(&code(1, 4, 2, 3, &[]), 9, 0, 0, 0), refusal(3));
    assert_eq!(refused(&code_a(), 9, 2, 9, 113), refusal(5));
    assert_eq!(refused(&code_a(), 9, 2, 10, 112), refusal(5));
    assert_eq!(refused(&code_a(), 5, 2, 10, 113), refusal(6));
}

/// Batches of H for node 1 of code A, from the shares of message 1..5.
fn batch(stripe: usize, count: u32) -> Vec<u8> {
    let helpers = [(4, 7), (2, 11), (3, 14)];
    helpers.iter().flat_map(|(node, symbol)| help_record(1, *node, count, stripe, *symbol)).collect()
}

#[test]
fn answering_and_rebuilding() {
    let mut records = [0xaa; 10];
    assert_eq!(numbers(answer_for(&file_a(), 1, &mut records)), refusal(0));
    assert_eq!(records.to_vec(), help_record(1, 2, 0, 0, 11));
    for (failed, room, number) in [(9, 9, 5), (0, 10, 6), (5, 10, 6), (2, 10, 7)] {
        assert_eq!(numbers(answer_for(&file_a(), failed, &mut vec![0xaa; room])), refusal(number));
    }
    let mut record = [0xaa; 34];
    assert_eq!(numbers(rebuild_batch(&code_a(), 1, &batch(1023, 6), &mut record)), [0, 0, 0, 6]);
    assert_eq!(record[..7], [68, 3, 255, 7, 4, 1, 0]);
    let mut file = vec![0xaa; 113];
    let batches = [batch(0, 6), batch(1, 6)].concat();
    assert_eq!(numbers(rebuild_file(&code_a(), 1, 2, &batches, &mut file)), [0, 0, 0, 6]);
    let mut fresh = vec![0xaa; 113];
    cut(&code_a(), 1, 2, &[1, 2, 3, 4, 5, 1, 2, 3, 4, 5], &mut fresh);
    fresh[44] = 6;
    assert_eq!(file, fresh);
}

#[test]
fn refused_batches() {
    let refused = |asked, batch: &[u8], room: usize| {
        let mut output = vec![0xaa; room];
        let answer = rebuild_batch(&code_a(), asked, batch, &mut output);
        assert!(output.iter().all(|byte| *byte == 0xaa));
        numbers(answer)
    };
    let with = |changes: &[(usize, u8)]| {
        let mut bytes = batch(0, 6);
        changes.iter().for_each(|(place, byte)| bytes[*place] = *byte);
        bytes
    };
    assert_eq!(refused(1, &with(&[(0, 0)])[..29], 34), refusal(5));
    assert_eq!(refused(1, &with(&[(0, 0)]), 33), refusal(5));
    assert_eq!(refused(9, &with(&[(20, 0), (2, 9)]), 34), refusal(1));
    assert_eq!(refused(9, &batch(0, 6), 34), refusal(6));
    assert_eq!(refused(1, &with(&[(2, 2), (21, 5)]), 34), refusal(6));
    assert_eq!(refused(1, &with(&[(2, 2), (11, 3)]), 34), refusal(7));
    assert_eq!(refused(1, &with(&[(12, 1)]), 34), refusal(7));
    assert_eq!(refused(2, &batch(0, 6), 34), refusal(7));
    assert_eq!(refused(1, &with(&[(6, 7), (27, 4)]), 34), refusal(8));
    assert_eq!(refused(1, &with(&[(18, 1)]), 34), refusal(8));
    assert_eq!(refused(1, &with(&[(1, 2), (11, 2), (21, 2)]), 34), refusal(8));
    assert_eq!(refused(1, &batch(1024, 6), 34), refusal(10));
}

#[test]
fn refused_files() {
    let refused = |asked, total, batches: &[Vec<u8>], room: usize| {
        let mut output = vec![0xaa; room];
        let answer = rebuild_file(&code_a(), asked, total, &batches.concat(), &mut output);
        assert!(output.iter().all(|byte| *byte == 0xaa));
        numbers(answer)
    };
    let broken = vec![0; 30];
    assert_eq!(refused(1, 0, &[], 45), refusal(3));
    assert_eq!(refused(1, 1025, &[], 45), refusal(3));
    assert_eq!(refused(9, 2, &[broken.clone()], 113), refusal(5));
    assert_eq!(refused(9, 1, &[broken.clone()], 113), refusal(5));
    assert_eq!(refused(9, 2, &[broken.clone(), batch(1, 6)], 113), refusal(1));
    assert_eq!(refused(9, 2, &[batch(0, 6), broken.clone()], 113), refusal(6));
    assert_eq!(refused(1, 2, &[batch(1, 6), broken.clone()], 113), refusal(10));
    assert_eq!(refused(1, 2, &[batch(0, 6), broken], 113), refusal(1));
    assert_eq!(refused(1, 2, &[batch(0, 6), batch(0, 7)], 113), refusal(8));
    assert_eq!(refused(1, 2, &[batch(0, 6), batch(0, 6)], 113), refusal(10));
}

#[test]
fn whole_inputs() {
    let after = |tail: &[u8]| slips(&[&file_a()[..], tail].concat());
    assert_eq!(slips(&[]), [69, 1]);
    assert_eq!(slips(&file_a()[..78]), [69, 1]);
    assert_eq!(slips(&changed(1, &[9])), [69, 2]);
    assert_eq!(slips(&changed(39, &[255, 255])), [69, 3]);
    assert_eq!(after(&[]), file_a());
    assert_eq!(after(&[0]), [vec![69, 1], file_a()].concat());
    assert_eq!(after(b"E\0PPPPPPPPPP"), [vec![69, 1], file_a()].concat());
    let bad_place = [80, 0, 0, 0, 1, 0, 1, 0, 1, 1];
    let left = after(&[&bad_place[..], &slip_a(), &slip_a()[..9]].concat());
    assert_eq!(left[..6], [69, 10, 69, 0, 69, 1]);
    assert_eq!(left[6..], after(&slip_a())[2..]);
}

#[test]
fn point_zero_is_a_point() {
    let mut file = vec![0xaa; 79];
    assert_eq!(cut(&code_b(), 1, 1, &[1, 2, 3, 4, 5, 6], &mut file).number, 0);
    assert_eq!(file[48..51], [1, 2, 0]);
    // A slip in S2 changes nothing at point 0 but the count.
    let slip = [80, 0, 0, 0, 1, 0, 0, 0, 3, 1];
    let before = file.clone();
    assert_eq!(take_slip(&mut file, &slip).count, 1);
    assert_eq!((&file[..44], &file[45..], file[44]), (&before[..44], &before[45..], 1));
}
