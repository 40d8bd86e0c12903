//! Each stand-in against its definition.

use super::simd::{u8x16, u8x32};
use super::{ArrayVec, LittleEndian, encode_to_slice, memchr, write_digits};
use std::format;
use std::vec::Vec;

#[test]
fn masks_have_the_place_of_the_first_equal_byte() {
    let bytes: Vec<u8> = (0..64).map(|i| [0, 1, 0x80, 0xff, 0, 0, 7][i * i % 7]).collect();
    for start in 0..32 {
        for byte in [0, 1, 0x80, 0xff, 7, 9] {
            let first = |count: usize| bytes[start..start + count].iter().position(|other| *other == byte);
            let near = u8x16::from_slice(&bytes[start..]).simd_eq(u8x16::splat(byte)).to_bitmask();
            assert_eq!((near != 0).then(|| near.trailing_zeros() as usize), first(16));
            let far = u8x32::from_slice(&bytes[start..]).simd_eq(u8x32::splat(byte)).to_bitmask();
            assert_eq!((far != 0).then(|| far.trailing_zeros() as usize), first(32));
        }
    }
}

#[test]
fn digits_are_those_of_display() {
    for number in [0, 9, 10, 99, 100, 4_294_967_295, u64::MAX] {
        let mut out = [b'x'; 30];
        let start = write_digits(number, &mut out, 25);
        assert_eq!(&out[start..25], format!("{number}").as_bytes());
        assert!(out[..start].iter().chain(&out[25..]).all(|byte| *byte == b'x'));
    }
}

#[test]
fn words_have_the_lower_byte_first() {
    let bytes = [0xfe, 0xff, 0x01, 0x80];
    assert_eq!(LittleEndian::read_i16(&bytes), -2);
    assert_eq!(LittleEndian::read_u16(&bytes), 0xfffe);
    assert_eq!(LittleEndian::read_u32(&bytes), 0x8001_fffe);
    assert_eq!(LittleEndian::read_i32(&bytes), 0x8001_fffe_u32 as i32);
    let mut out = [0; 6];
    LittleEndian::write_i16(&mut out, -2);
    LittleEndian::write_i32(&mut out[2..], 0x0102_0304);
    assert_eq!(out, [0xfe, 0xff, 4, 3, 2, 1]);
}

#[test]
fn an_array_vector_keeps_to_its_room() {
    let mut list = ArrayVec::<u8, 3>::new();
    assert_eq!(list.try_extend_from_slice(b"ab"), Ok(()));
    assert_eq!(list.try_extend_from_slice(b"cd"), Err(()));
    list.push(b'c');
    assert!(list.is_full() && list.as_slice() == b"abc");
    assert_eq!(list.pop(), Some(b'c'));
    list.truncate(1);
    assert_eq!((list.len(), list.as_slice()), (1, &b"a"[..]));
    list.truncate(2);
    assert_eq!((list.pop(), list.pop()), (Some(b'a'), None));
}

#[test]
fn hex_has_two_digits_for_a_byte() {
    let mut out = [0; 6];
    assert_eq!(encode_to_slice(&[0x1b, 0, 0xff], &mut out), Ok(()));
    assert_eq!(&out, b"1b00ff");
    assert_eq!(encode_to_slice(&[1], &mut out), Err(()));
}

#[test]
fn a_byte_is_found_at_its_first_place() {
    assert_eq!((memchr(0, b"ab\0c\0"), memchr(0, b"abc")), (Some(2), None));
}
