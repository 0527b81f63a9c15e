//! Tag files at the limits of the program kitlist, and just beyond; with empty kits, and with repeats.

use crate::files::record;
use crate::oracle::Tag;

fn tag(k: usize) -> Tag {
    let mut tag = [0; 12];
    tag[10..].copy_from_slice(&(k as u16).to_be_bytes());
    tag
}

fn tags(start: usize, n: usize) -> Vec<Tag> {
    (start..start + n).map(tag).collect()
}

/// A file of one length: a record that is cut to it, or followed by empty ones.
fn of_length(length: usize) -> Vec<u8> {
    let mut file: Vec<u8> = (0..length / 5).flat_map(|k| record(k % 2 == 0, (k / 2) as u16, &[])).collect();
    file.resize(length, 0);
    file
}

/// The files, by name.
pub fn named() -> Vec<(&'static str, Vec<u8>)> {
    let empty = |n: u16| (0..n).flat_map(|k| record(false, k, &[])).collect::<Vec<u8>>();
    // kits and stacks of one tag, the same in all
    let kits = |n: u16| (0..n).flat_map(|k| record(false, 1000 + k, &tags(0, 1))).collect::<Vec<u8>>();
    let stacks = |n: u16| (0..n).flat_map(|k| record(true, 1000 + k, &tags(0, 1))).collect::<Vec<u8>>();
    // n = sets + entries + tags: a record of its own tags has 1 + 2 x count, a kit of one tag of another's 2, and an empty kit 1
    let sized = |n: usize| -> Vec<u8> {
        let whole: Vec<u8> = (0..4).flat_map(|k| record(true, k, &tags(120 * k as usize, 120))).collect();
        let rest = (0..n - 4 * 241 - 2).flat_map(|k| record(false, k as u16, &[])).collect::<Vec<u8>>();
        [whole, record(false, 999, &tags(130, 1)), rest].concat()
    };
    let document = [record(false, 7, &tags(1, 2)), record(true, 9, &[tag(2), tag(1), tag(1)])];
    vec![
        ("document 01", document.concat()),
        ("document 01 and empty kits", [record(false, 8, &[]), document.concat(), record(false, 9, &[])].concat()),
        ("an empty kit", record(false, 7, &[])),
        ("an empty kit and a stack", [record(false, 7, &[]), document[1].clone()].concat()),
        ("an empty kit and an empty stack", [record(false, 7, &[]), record(true, 7, &[])].concat()),
        ("empty kits between equal ones", [kits(1), empty(3), record(false, 5, &tags(0, 1)), stacks(2)].concat()),
        ("empty kits and stacks", [empty(128), stacks(64)].concat()),
        ("nothing", Vec::new()),
        ("a tag in a kit twice", [record(false, 7, &[tag(1), tag(2), tag(1)]), record(true, 9, &tags(1, 2))].concat()),
        ("a tag of two kits and two stacks", [kits(2), stacks(2)].concat()),
        ("repeats of two stacks", [kits(1), record(true, 7, &[tag(0); 2]), record(true, 8, &[tag(0); 3])].concat()),
        ("255 reads of one tag", [record(false, 7, &[tag(1); 255]), record(true, 9, &[tag(1); 255])].concat()),
        ("repeats before a fault", [document.concat(), vec![0x4B]].concat()),
        ("repeats and 8,256 pairs", [kits(129), stacks(63), record(true, 9, &[tag(0); 2])].concat()),
        ("the most repeats", {
            let many = |k: u16| if k < 21 { 255 } else { 97 };
            let file: Vec<u8> = (0..22).flat_map(|k| record(k % 3 == 0, k, &vec![tag(1); many(k)])).collect();
            assert!((65525..=65536).contains(&file.len()), "{} bytes leave no room for one more read", file.len());
            file
        }),
        ("8,192 pairs", [kits(128), stacks(64)].concat()),
        ("8,192 pairs and empty kits", [empty(9), kits(128), stacks(64)].concat()),
        ("8,193 pairs", [kits(128), stacks(63), record(true, 1, &tags(0, 2)), record(false, 999, &tags(1, 1))].concat()),
        ("8,256 pairs", [kits(129), stacks(64)].concat()),
        ("n of 1,020", sized(1020)),
        ("n of 1,021", sized(1021)),
        ("65,535 bytes", of_length(65535)),
        ("65,536 bytes", of_length(65536)),
        ("65,537 bytes", of_length(65537)),
        ("a long file with a fault at once", vec![0; 70000]),
        ("a very long file", vec![0x4B; 3_000_000]),
        ("65,536 bytes of full records", {
            let mut file: Vec<u8> = (0..21).flat_map(|k| record(k % 2 == 0, k, &tags(255 * k as usize % 3000, 255))).collect();
            file.extend(record(true, 500, &tags(0, (65536 - file.len() - 5) / 12)));
            file.extend(std::iter::repeat_n(0, 65536 - file.len()));
            file
        }),
        ("4,097 kits", empty(4097)),
        ("equal kits", [record(false, 3, &tags(0, 3)), record(false, 2, &tags(0, 3)), record(true, 1, &tags(0, 9))].concat()),
    ]
}
