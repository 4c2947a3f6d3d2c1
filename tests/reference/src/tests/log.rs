// The reading log: get against a scan of the puts, and the refusals of trace and get.

use crate::cache::DISK;
use crate::file::read;
use crate::log::{get, test_of, trace};
use crate::random::Random;
use crate::refusal::plain;
use crate::schedule::disk_of;
use crate::writes::{Block, Disk};

fn program(puts: &[Block]) -> Vec<u8> {
    puts.iter().flat_map(|put| put.to_bytes()).collect()
}

fn bytes_from(disk: &Disk) -> Vec<u8> {
    disk.iter().flat_map(|block| block.to_bytes()).collect()
}

#[test]
fn get_finds_the_last_put() {
    for seed in 0..300 {
        let mut random = Random::new(seed);
        let mut puts = |count: usize| -> Vec<Block> {
            (0..count)
                .map(|_| Block {
                    first: random.below(4) as u16,
                    second: random.between(1, 9) as u16,
                })
                .collect()
        };
        let (initial, main) = (puts(seed as usize % 33), puts(seed as usize % 11));
        let mut buffer = vec![0; 2000];
        let length = trace(&program(&initial), &program(&main), &mut buffer).unwrap();
        assert_eq!(length, 26 * (initial.len() + main.len()) + 7);
        let test = read(&buffer[..length]).unwrap().tests.remove(0);
        assert_eq!(test, test_of(&initial, &main));
        let disk = bytes_from(&disk_of(&test.initial_disk(), &test.main, u64::MAX));
        for key in 0..5 {
            let last = initial.iter().chain(&main).rev().find(|p| p.first == key);
            assert_eq!(get(&disk, key), Ok(last.map(|p| p.second)), "seed {seed}");
        }
    }
}

#[test]
fn refusals_of_trace() {
    let put = [0, 1, 0, 1];
    let mut buffer = vec![0; 2000];
    let mut call = |initial: &[u8], main: &[u8]| trace(initial, main, &mut buffer);
    assert_eq!(call(&[0; 131], &[]), Err(plain(19)));
    assert_eq!(call(&[0; 132], &[0; 5]), Err(plain(19)));
    assert_eq!(call(&[0; 132], &[]), Err(plain(6)));
    assert_eq!(call(&[], &[0; 44]), Err(plain(6)));
    assert_eq!(call(&put, &[0; 40]), Err(plain(20)));
    assert_eq!(call(&put.repeat(32), &put.repeat(10)), Ok(1_099));
    assert_eq!(call(&[], &[]), Ok(7));
    assert_eq!(trace(&[0; 4], &[], &mut []), Err(plain(20)));
    assert_eq!(trace(&[], &[], &mut [0; 6]), Err(plain(12)));
}

#[test]
fn refusals_of_get() {
    let with = |first: u16, second: u16| {
        let mut disk = vec![0; DISK];
        disk[..4].copy_from_slice(&Block { first, second }.to_bytes());
        disk[1020..].copy_from_slice(&[0, 7, 0, 9]);
        disk
    };
    assert_eq!(get(&[0; 1023], 7), Err(plain(14)));
    assert_eq!(get(&with(1, 257), 7), Err(plain(21)));
    assert_eq!(get(&with(256, 257), 7), Err(plain(21)));
    assert_eq!(get(&with(257, 257), 7), Ok(None));
    assert_eq!(get(&with(300, 300), 7), Ok(None));
    // 02, [6]: head above tail.
    assert_eq!(get(&with(300, 200), 7), Err(plain(21)));
    assert_eq!(get(&with(6, 3), 7), Err(plain(21)));
    assert_eq!(get(&with(256, 255), 7), Err(plain(21)));
    assert_eq!(get(&with(1, 0), 7), Err(plain(21)));
    assert_eq!(get(&with(65_535, 65_534), 7), Err(plain(21)));
    assert_eq!(get(&with(1, 256), 7), Ok(Some(9)));
    assert_eq!(get(&with(1, 255), 7), Ok(None));
    // An empty block has no key; the superblock counts where head is 0.
    assert_eq!(get(&with(1, 256), 0), Ok(None));
    assert_eq!(get(&with(0, 256), 0), Ok(Some(256)));
}
