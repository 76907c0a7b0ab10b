//! The fixed list, replayed: each record is taken apart by its layout alone and asked of the library.
#![cfg(oracle)]

use oracle::abi::{self, Lent, Tables};
use oracle::replay::{self, Record};

fn get32(record: &Record, at: usize) -> u32 {
    u32::from_le_bytes(record[at..at + 4].try_into().unwrap())
}

fn words_at(record: &Record, at: usize) -> abi::Words {
    std::array::from_fn(|i| get32(record, at + 4 * i))
}

fn replay_read(record: &Record, len: usize) {
    let mut words = [1; 117];
    let number = abi::read_header(&record[8..8 + len], record[1].into(), &mut words);
    assert_eq!((number, words), (record[4].into(), words_at(record, 552)));
    assert!(record[8 + len..552].iter().chain(&record[1020..]).all(|&byte| byte == 0));
}

fn replay_write(record: &Record, len: usize) {
    let mut buf: Vec<u8> = (0..len).map(|i| ((i * 7 + 3) % 256) as u8).collect();
    let number = abi::write_header(&words_at(record, 8), &mut buf);
    assert_eq!((number, &buf[..]), (record[4].into(), &record[476..476 + len]));
    assert!(record[476 + len..].iter().all(|&byte| byte == 0));
}

fn replay_list(record: &Record, len: usize) {
    let sectors: Vec<u32> = (0..len).map(|i| get32(record, 8 + 4 * i)).collect();
    let (mut text, mut item, mut out, mut items) = (Vec::new(), [0; 3], [0; 32], 0);
    loop {
        let kind = abi::prettify(&sectors, item[2] as usize, &mut item);
        if kind == abi::NONE {
            break;
        }
        let written = abi::sector_text(kind, item[0], item[1], &mut out);
        text.extend_from_slice(&out[..written]);
        text.push(b'\n');
        items += 1;
    }
    assert_eq!((items, &text[..]), (record[4], &record[248..248 + text.len()]));
    assert!(record[248 + text.len()..].iter().chain(&record[8 + 4 * len..248]).all(|&byte| byte == 0));
}

/// The image that an O or a C record describes.
fn image_in(record: &Record, n: usize) -> Vec<u8> {
    let mut image = vec![0; 512 * (n + 1)];
    image[..512].copy_from_slice(&record[8..520]);
    let start = 512 * (usize::from(record[5]) + 1);
    if let Some(sector) = image.get_mut(start..start + 512) {
        sector.fill(0xff);
        sector[..96].copy_from_slice(&record[520..616]);
    }
    image
}

/// The 24 words from a place on.
fn table(record: &Record, at: usize) -> Vec<u32> {
    (0..24).map(|i| get32(record, at + 4 * i)).collect()
}

/// Opens the image that a record describes: the number, and what stands in the tables and the state after it.
fn opened(record: &Record, image: &[u8]) -> (u32, Tables, abi::State) {
    let [fat, fats, difats, frees] = std::array::from_fn(|_| vec![0xaaaa_aaaa; 24]);
    let mut tables = Tables { fat, fats, difats, frees, marks: vec![0xaa; 24] };
    let mut state = [3; 121];
    let number = abi::open(image, image.len(), record[1].into(), &mut tables, &mut state);
    (number, tables, state)
}

fn replay_open(record: &Record, n: usize) {
    assert!(n <= 24 && record[5] < 24);
    let left = Tables {
        fat: table(record, 616),
        fats: table(record, 832),
        difats: table(record, 928),
        frees: table(record, 712),
        marks: record[808..832].to_vec(),
    };
    let (image, mode) = (image_in(record, n), record[1].into());
    let (number, tables, state) = opened(record, &image);
    assert_eq!((number, tables), (record[4].into(), left));
    // The counts stand in the record, and the header is what the reader gives.
    let mut words = [1; 117];
    let expected = match number {
        0 => {
            assert_eq!(abi::read_header(&image, mode, &mut words), 0);
            abi::state_of(mode.into(), image.len() as u64, record[7].into(), record[6].into(), &words)
        }
        _ => {
            assert_eq!(record[6..8], [0; 2]);
            abi::REFUSED_STATE
        }
    };
    assert_eq!(state, expected);
}

fn replay_chain(record: &Record, n: usize) {
    assert!(n <= 24 && record[5] < 24 && record[7] == 0);
    let image = image_in(record, n);
    let (number, tables, state) = opened(record, &image);
    assert_eq!(number, 0);
    let (mut ids, mut answer, start) = (vec![0xaaaa_aaaa; 24], [5; 3], get32(record, 616));
    let number = abi::open_chain(&Lent { state: &state, image: &image, tables: &tables }, &mut ids, start, &mut answer);
    assert_eq!((number, ids), (record[4].into(), table(record, 620)));
    let expected = match number {
        0 => [record[6].into(), start.into(), 0],
        _ => [0; 3],
    };
    assert_eq!(answer, expected);
    assert!(number == 0 || record[6] == 0);
    assert!(record[716..].iter().all(|&byte| byte == 0));
}

#[test]
fn every_record() {
    let records = replay::records();
    let mut kinds = [0; 5];
    let mut answers = [[0; 10]; 2];
    let mut opened = [[0; 19]; 2];
    let mut chained = [[0; 23]; 2];
    for record in &records {
        let len = usize::from(record[2]) + 256 * usize::from(record[3]);
        assert!(b"OC".contains(&record[0]) || record[5..8] == [0; 3]);
        match record[0] {
            b'R' => {
                replay_read(record, len);
                kinds[0] += 1;
                answers[usize::from(record[1])][usize::from(record[4])] += 1;
            }
            b'W' => {
                replay_write(record, len);
                kinds[1] += 1;
            }
            b'P' => {
                replay_list(record, len);
                kinds[2] += 1;
            }
            b'O' => {
                replay_open(record, len);
                kinds[3] += 1;
                opened[usize::from(record[1])][usize::from(record[4])] += 1;
            }
            other => {
                assert_eq!(other, b'C');
                replay_chain(record, len);
                kinds[4] += 1;
                chained[usize::from(record[1])][usize::from(record[4])] += 1;
            }
        }
    }
    assert_eq!(kinds, [150, 60, 40, 100, 80]);
    // Accepted, then refusals 1 to 9; permissive, then strict.
    assert_eq!(answers, [[30, 0, 7, 5, 6, 7, 5, 0, 6, 8], [23, 5, 5, 4, 7, 9, 7, 3, 5, 8]]);
    // The openings: opened, then refusals 1 to 18.
    let permissive = [25, 0, 1, 1, 1, 1, 1, 0, 1, 3, 0, 0, 3, 0, 0, 0, 6, 4, 0];
    let strict = [23, 0, 1, 1, 1, 1, 1, 1, 1, 3, 0, 0, 3, 0, 5, 4, 4, 4, 0];
    assert_eq!(opened, [permissive, strict]);
    // The chains: opened, then refusals 20 to 22, and no others.
    assert_eq!(chained.map(|of| [of[0], of[20], of[21], of[22]]), [[15, 10, 13, 3], [14, 7, 15, 3]]);
}

#[test]
fn the_same_again() {
    assert_eq!(replay::records(), replay::records());
}

/// The file that the program `replay` reads is the list that `scripts/make-replay-list` would write now.
#[test]
fn the_file_is_the_list() {
    let path = concat!(env!("CARGO_MANIFEST_DIR"), "/../crates/replay/stdin");
    let (file, list) = (std::fs::read(path).unwrap(), replay::file());
    assert_eq!(file.len(), list.len());
    assert_eq!(file.iter().zip(&list).position(|(one, other)| one != other), None, "the first byte that differs");
}
