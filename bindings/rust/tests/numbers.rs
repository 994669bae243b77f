//! Numbers of every width there and back, beside a plain reading of the format.
use izgarmulf::varint::{self, read, read_signed, write, write_signed, Cursor, Signed, WriteVar};
use izgarmulf::Refusal;

fn leb(mut v: u64) -> Vec<u8> {
    let mut out = vec![];
    while v >= 128 {
        out.push(v as u8 | 128);
        v >>= 7;
    }
    out.push(v as u8);
    out
}
/// Bit 6 of the first byte is the sign.
fn signed_leb(v: i64, minus: bool) -> Vec<u8> {
    let m = v.unsigned_abs();
    let first = (m & 63) as u8 | (minus as u8) << 6;
    if m < 64 { vec![first] } else { [vec![first | 128], leb(m >> 6)].concat() }
}
fn near() -> impl Iterator<Item = u64> {
    (0..64).flat_map(|b| [(1u64 << b) - 1, 1 << b, (1 << b) + 1]).chain([u64::MAX])
}

macro_rules! there_and_back {
    ($($t:ident)*) => { $( for x in near() {
        let v = x as $t;
        let bytes = leb(v as u64);
        let mut buf = [0xEE; 12];
        assert_eq!(write(v, &mut buf, 1), Ok(1 + bytes.len()));
        assert_eq!(&buf[1..1 + bytes.len()], &bytes[..]);
        assert!(buf[0] == 0xEE && buf[1 + bytes.len()..].iter().all(|b| *b == 0xEE));
        assert_eq!(read::<$t>(&buf, 1), Ok((v, 1 + bytes.len())));
        for cut in 0..bytes.len() {
            assert_eq!(read::<$t>(&bytes[..cut], 0), Err(Refusal::End));
            let mut small = vec![0xEE; cut];
            assert_eq!(write(v, &mut small, 0), Err(Refusal::Full));
            assert!(small.iter().all(|b| *b == 0xEE));
        }
    } )* };
}
macro_rules! signed_there_and_back {
    ($($t:ident)*) => { $( for x in near() { for v in [x as $t, (x as $t).wrapping_neg()] {
        let bytes = signed_leb(v as i64, v < 0);
        let mut buf = [0xEE; 12];
        assert_eq!(write(v, &mut buf, 0), Ok(bytes.len()));
        assert_eq!(&buf[..bytes.len()], &bytes[..]);
        assert_eq!(read::<$t>(&bytes, 0), Ok((v, bytes.len())));
        assert_eq!(read_signed::<$t>(&bytes, 0), Ok((Signed::new(v, v < 0), bytes.len())));
        let mut kept = [0xEE; 12];
        assert_eq!(write_signed(Signed::new(v, v >= 0), &mut kept, 0), if v == 0 { Ok(1) } else { Err(Refusal::Sign) });
        if v != 0 { assert_eq!(kept, [0xEE; 12]) }
    } } )* };
}

#[test]
fn every_width() {
    there_and_back!(u8 u32 u64 usize);
    signed_there_and_back!(i8 i16 i32 i64 isize);
    for x in near() {
        assert_eq!(varint::length(x), leb(x).len());
        assert_eq!(varint::signed_length(x as i64), signed_leb(x as i64, (x as i64) < 0).len());
    }
}

#[test]
fn long_and_overlong() {
    assert_eq!(read::<u32>(&[0x80, 0x80, 0x80, 0x80, 0x80, 0x01], 0), Ok((8, 6)));
    assert_eq!(read::<u64>(&[0x80, 0x80, 0x80, 0x80, 0x80, 0x01], 0), Ok((34_359_738_368, 6)));
    assert_eq!(read::<u64>(&[0x80; 11], 0), Err(Refusal::Long));
    assert_eq!(read::<u64>(&[0x80; 10], 0), Err(Refusal::End));
    assert_eq!(read::<u8>(&[0x80, 0x02], 0), Err(Refusal::Range));
    assert_eq!(read::<u64>(&[1], 2), Err(Refusal::End));
    assert_eq!(read::<u64>(&[1], usize::MAX), Err(Refusal::End));
    assert_eq!(write(1u8, &mut [], usize::MAX), Err(Refusal::Full));
}

#[test]
fn a_growing_buffer() {
    let mut bytes = vec![];
    for x in near() {
        bytes.write_var(x);
        bytes.write_var(x as i64);
    }
    assert_eq!(bytes.write_var_signed(Signed::new(-1i8, false)), Err(Refusal::Sign));
    bytes.write_var_signed(Signed::new(0i64, true)).unwrap();
    let mut from = Cursor::new(&bytes);
    for x in near() {
        assert_eq!(from.read_var::<u64>(), Ok(x));
        assert_eq!(from.read_var::<i64>(), Ok(x as i64));
    }
    assert_eq!(from.read_var_signed::<i64>(), Ok(Signed::new(0, true)));
    assert_eq!(from.read_var::<u8>(), Err(Refusal::End));
    assert_eq!(from.next, bytes.len());
}
