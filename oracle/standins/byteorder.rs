// Stands in for the crate byteorder: what strobe-rs names of it, and no more.
#![no_std]

pub trait ByteOrder {
    fn read_u64_into(bytes: &[u8], words: &mut [u64]);
    fn write_u64_into(words: &[u64], bytes: &mut [u8]);
}

pub struct LittleEndian;

impl ByteOrder for LittleEndian {
    #[inline]
    fn read_u64_into(bytes: &[u8], words: &mut [u64]) {
        assert_eq!(bytes.len(), 8 * words.len());
        for (word, eight) in words.iter_mut().zip(bytes.chunks_exact(8)) {
            *word = u64::from_le_bytes(eight.try_into().unwrap());
        }
    }

    #[inline]
    fn write_u64_into(words: &[u64], bytes: &mut [u8]) {
        assert_eq!(bytes.len(), 8 * words.len());
        for (word, eight) in words.iter().zip(bytes.chunks_exact_mut(8)) {
            eight.copy_from_slice(&word.to_le_bytes());
        }
    }
}
