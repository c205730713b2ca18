//! Document 01's worked cases through the wrapper.

use corkpaddle::{answer_for, file_len, judge_file, read, take_slip, Code, Helper, Kind, Refusal, Slip};

const MESSAGE: [u8; 5] = [1, 2, 3, 4, 5];

fn code_a() -> Code {
    Code::new(Kind::Mbr, 2, 3, &[1, 2, 3, 4]).expect("a good code")
}

fn code_b() -> Code {
    Code::new(Kind::Msr, 3, 4, &[0, 1, 2, 3, 4]).expect("a good code")
}

/// Code A, node 2, one stripe: 79 bytes.
fn file_of_node_2() -> Vec<u8> {
    code_a().cut(2, 1, &MESSAGE).expect("a cut book")
}

fn helper(node: u8, symbol: u8) -> Helper {
    Helper { node, symbol, count: 7 }
}

#[test]
fn codes_are_judged() {
    let code = code_b();
    assert_eq!((code.kind(), code.n(), code.k(), code.d()), (Kind::Msr, 5, 3, 4));
    assert_eq!((code.share_len(), code.message_len(), code.batch_len()), (2, 6, 40));
    assert_eq!(code.points(), [0, 1, 2, 3, 4]);
    assert_eq!(Code::judge(code.body()), Ok(code));
    assert_eq!(Code::new(Kind::Mbr, 2, 4, &[1, 2, 3, 4]), Err(Refusal::Size));
    assert_eq!(Code::new(Kind::Mbr, 2, 3, &[1; 33]), Err(Refusal::Size));
    let cubes = Code::new(Kind::Msr, 4, 6, &[1, 2, 3, 4, 5, 6, 214]);
    assert_eq!(cubes, Err(Refusal::Points { first: 1, second: 7 }));
    assert_eq!(Code::judge(&[]), Err(Refusal::Length));
    assert_eq!(Code::judge(&[0; 36]), Err(Refusal::Kind));
}

#[test]
fn shares_of_code_a() {
    let shares = [[7, 4, 1], [21, 16, 14], [19, 22, 11], [73, 94, 16]];
    for (node, share) in (1..).zip(shares) {
        assert_eq!(code_a().encode(node, &MESSAGE), Ok(share.to_vec()));
    }
    assert_eq!(code_a().encode(5, &MESSAGE), Err(Refusal::Node));
    assert_eq!(code_a().encode(1, &MESSAGE[1..]), Err(Refusal::Length));
}

#[test]
fn helpers_of_code_b_rebuild() {
    let code = code_b();
    let shares = [[1, 2], [2, 2], [61, 32], [32, 52], [20, 195]];
    let symbols = [3, 29, 20, 215];
    for (node, symbol) in [1, 3, 4, 5].into_iter().zip(symbols) {
        assert_eq!(code.help(node, 2, &shares[node as usize - 1]), Ok(symbol));
    }
    let helpers = [helper(4, 20), helper(1, 3), helper(5, 215), helper(3, 29)];
    assert_eq!(code.rebuild(2, &helpers), Ok((vec![2, 2], 7)));
    assert_eq!(code.rebuild(1, &helpers), Err(Refusal::Repeat));
    assert_eq!(code.rebuild(2, &helpers[1..]), Err(Refusal::Length));
}

#[test]
fn any_k_shares_give_the_message() {
    let shares = [73, 94, 16, 21, 16, 14];
    assert_eq!(code_a().collect(&[4, 2], &[5, 5], &shares), Ok((MESSAGE.to_vec(), 5)));
    assert_eq!(code_a().collect(&[4, 2], &[5, 6], &shares), Err(Refusal::Mixed));
}

#[test]
fn a_slip_is_taken_once() {
    let mut file = file_of_node_2();
    assert_eq!(file.len(), file_len(1));
    assert_eq!(&file[37..51], [78, 2, 0, 1, 0, 0, 0, 0, 68, 0, 0, 21, 16, 14]);
    let slip = Slip { number: 1, stripe: 0, index: 1, change: 1 };
    assert_eq!(slip.record(), [80, 0, 0, 0, 1, 0, 0, 0, 1, 1]);
    assert_eq!(take_slip(&mut file, &slip.record()), Ok(1));
    assert_eq!(&file[48..51], [23, 17, 14]);
    let held = file.clone();
    assert_eq!(take_slip(&mut file, &slip.record()), Err(Refusal::Order));
    let nowhere = Slip { number: 2, stripe: 1, ..slip };
    assert_eq!(take_slip(&mut file, &nowhere.record()), Err(Refusal::Place));
    assert_eq!(file, held);
    assert_eq!(judge_file(&file), Ok(1));
    assert_eq!(judge_file(&file[1..]), Err(Refusal::Record));
}

#[test]
fn a_lost_file_is_rebuilt() {
    let code = code_a();
    let answers = [1, 3, 4].map(|node| answer_for(&code.cut(node, 1, &MESSAGE).unwrap(), 2).unwrap());
    let batch = answers.concat();
    assert_eq!(code.rebuild_file(2, 1, &batch), Ok((file_of_node_2(), 0)));
    let (record, count) = code.rebuild_batch(2, &batch).expect("a rebuilt stripe");
    assert_eq!((&record[..], count), (&file_of_node_2()[45..], 0));
    assert_eq!(code.rebuild_file(2, 2, &batch), Err(Refusal::Length));
    assert_eq!(answer_for(&file_of_node_2(), 2), Err(Refusal::Repeat));
    assert_eq!(answer_for(&[], 2), Err(Refusal::Record));
}

#[test]
fn records_are_read_in_turn() {
    let file = file_of_node_2();
    let mut kinds = Vec::new();
    let mut place = 0;
    while let Ok(record) = read(&file, place) {
        kinds.push((record.kind, record.body.len()));
        place = record.next;
    }
    assert_eq!(kinds, [(b'C', 36), (b'N', 7), (b'D', 33)]);
    assert_eq!(place, file.len());
    assert_eq!(read(&file, usize::MAX), Err(Refusal::Record));
}

#[test]
fn a_refusal_tells_its_number_and_pair() {
    let refusal = Refusal::Points { first: 2, second: 6 };
    assert_eq!((refusal.number(), refusal.pair()), (4, (2, 6)));
    assert_eq!(refusal.to_string(), "refusal 4 POINTS at 2 and 6");
    assert_eq!(Refusal::Order.to_string(), "refusal 9 ORDER");
}
