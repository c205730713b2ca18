//! The plain program is held to the independent one: same answers, same bytes, on good and faulty inputs.

mod common;

use bench::plain;
use common::{known, same, Random};
use independent::file::file_length;
use independent::records::help_record;
use independent::stripe::share_of;

#[test]
fn encode() {
    let mut random = Random(1);
    for _ in 0..4_000 {
        let mut code = random.code();
        let good = known(&code);
        let mut message = random.bytes(good.message());
        let mut output = random.bytes(good.alpha());
        let past = usize::from(random.faulty());
        let node = 1 + random.below(good.n + past) as u8;
        if random.faulty() {
            let one = random.below(3);
            random.damage([&mut code, &mut message, &mut output][one]);
        }
        same(
            &output,
            |output| plain::stripe::encode(&code, node, &message, output),
            |output| independent::stripe::encode(&code, node, &message, output),
        );
    }
}

#[test]
fn collect() {
    let mut random = Random(2);
    for _ in 0..4_000 {
        let mut code = random.code();
        let good = known(&code);
        let mut nodes = random.nodes(&good)[..good.k].to_vec();
        let mut counts = vec![random.count(); good.k];
        let mut shares = random.bytes(good.k * good.alpha());
        if random.faulty() {
            match random.below(4) {
                0 => random.damage(&mut code),
                1 => random.damage(&mut nodes),
                2 => random.damage(&mut shares),
                _ => counts[random.below(good.k)] ^= 1,
            }
        }
        let output = random.bytes(good.message());
        same(
            &output,
            |output| plain::collect::collect(&code, &nodes, &counts, &shares, output),
            |output| independent::collect::collect(&code, &nodes, &counts, &shares, output),
        );
    }
}

#[test]
fn cut() {
    let mut random = Random(3);
    for _ in 0..2_000 {
        let mut code = random.code();
        let good = known(&code);
        let total = 1 + random.below(5);
        let mut book = random.bytes(total * good.message());
        let mut output = random.bytes(file_length(total));
        let (mut node, mut stripes) = (1 + random.below(good.n) as u8, total as u32);
        if random.faulty() {
            match random.below(5) {
                0 => random.damage(&mut code),
                1 => random.damage(&mut book),
                2 => random.damage(&mut output),
                3 => node = [0, 33, 255][random.below(3)],
                _ => stripes = [0, 1025, u32::MAX, 1][random.below(4)],
            }
        }
        same(
            &output,
            |output| plain::file::cut(&code, node, stripes, &book, output),
            |output| independent::file::cut(&code, node, stripes, &book, output),
        );
    }
}

/// A good file of any symbols, and slips of which a third is faulty.
fn file_and_slips(random: &mut Random, number: usize) -> (Vec<u8>, Vec<Vec<u8>>) {
    let code = random.code();
    let good = known(&code);
    let total = 1 + random.below(4);
    let message = vec![random.byte(); good.message()];
    let node = 1 + random.below(good.n) as u8;
    let shares: Vec<_> = (0..total).map(|_| share_of(&good, node, &message)).collect();
    let count = random.count();
    let file = independent::file::whole_file(&code, node, count, &shares);
    let mut slips = Vec::new();
    for order in 1..=number as u32 {
        let mut slip = vec![b'P'];
        slip.extend(count.wrapping_add(order).to_be_bytes());
        slip.extend((random.below(total) as u16).to_be_bytes());
        slip.extend((random.below(good.message()) as u16).to_be_bytes());
        slip.push(random.byte());
        if random.faulty() {
            random.damage(&mut slip);
        }
        slips.push(slip);
    }
    (file, slips)
}

#[test]
fn answer_for() {
    let mut random = Random(7);
    for _ in 0..4_000 {
        let (mut file, _) = file_and_slips(&mut random, 0);
        let mut output = random.bytes((file.len() - 45) / 34 * 10);
        let failed = random.below(file[2] as usize + 2) as u8;
        if random.faulty() {
            let one = random.below(2);
            random.damage([&mut file, &mut output][one]);
        }
        same(
            &output,
            |output| plain::file::answer_for(&file, failed, output),
            |output| independent::file::answer_for(&file, failed, output),
        );
    }
}

#[test]
fn take_slip() {
    let mut random = Random(4);
    for _ in 0..4_000 {
        let (mut file, slips) = file_and_slips(&mut random, 1);
        if random.faulty() {
            random.damage(&mut file);
        }
        same(
            &file,
            |file| plain::file::take_slip(file, &slips[0]),
            |file| independent::file::take_slip(file, &slips[0]),
        );
    }
}

#[test]
fn program() {
    let mut random = Random(5);
    for _ in 0..4_000 {
        let (mut input, slips) = file_and_slips(&mut random, 5);
        if random.faulty() {
            random.damage(&mut input);
        }
        slips.iter().for_each(|slip| input.extend(slip));
        let expected = independent::program::slips(&input);
        assert_eq!(plain::program::slips(&mut input), expected);
    }
}

#[test]
fn rebuild_file() {
    let mut random = Random(6);
    for _ in 0..4_000 {
        let mut code = random.code();
        let good = known(&code);
        let total = 1 + random.below(4);
        let nodes = random.nodes(&good);
        let mut asked = nodes[0];
        let count = random.count();
        let mut batches = Vec::new();
        let mut helpers = nodes[1..].to_vec();
        for stripe in 0..total {
            if random.below(2) == 0 {
                helpers.rotate_left(1);
            }
            for helper in &helpers[..good.d] {
                batches.extend(help_record(asked, *helper, count, stripe, random.byte()));
            }
        }
        if random.faulty() {
            match random.below(8) {
                0 => random.damage(&mut code),
                1 => asked = [0, 33, 64 + asked, helpers[0]][random.below(4)],
                2 => batches.truncate(random.below(batches.len())),
                _ => spoil(&mut random, &mut batches),
            }
        }
        let output = random.bytes(file_length(total));
        same(
            &output,
            |output| plain::batch::rebuild_file(&code, asked, total as u32, &batches, output),
            |output| independent::batch::rebuild_file(&code, asked, total as u32, &batches, output),
        );
    }
}

/// Changes one field of one record, or of all.
fn spoil(random: &mut Random, batches: &mut [u8]) {
    let (field, value) = (random.below(9), [0, 1, 2, 33, 66, 255][random.below(6)]);
    let (one, all) = (random.below(batches.len() / 10), random.faulty());
    for (i, record) in batches.chunks_exact_mut(10).enumerate() {
        if all || i == one {
            record[field] = value;
        }
    }
}
