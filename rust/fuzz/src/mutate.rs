//! libFuzzer's changes to an input: half of them with the lengths of a message made those of its parts, since else nearly
//! every entry more or fewer would be no message; and half of them near its end, where a long one has its ballots.

use std::ffi::c_uint;
use std::slice;

extern "C" {
    fn LLVMFuzzerMutate(data: *mut u8, size: usize, most: usize) -> usize;
}

/// Bytes that are near the end.
const NEAR: usize = 256;

/// Makes the settled length and each ballot's length those of the entries that follow, as far as the bytes go; nothing where
/// they end too early.
fn mend(message: &mut [u8]) -> Option<()> {
    let n = usize::from(*message.get(3)?);
    let (lengths, rest) = message.get_mut(4 + 2 * n..)?.split_first_chunk_mut::<16>()?;
    let entries = rest.chunks_exact(6).take_while(|part| part.starts_with(b"LG")).count();
    let (settled, dropped) = lengths.split_first_chunk_mut::<8>()?;
    *settled = u64::from_be_bytes(dropped.try_into().ok()?).wrapping_add(entries as u64).to_be_bytes();
    let mut rest = &mut rest[6 * entries..];
    while let [b'B', b'A', _, length, words @ ..] = rest {
        let count = words.chunks(4).take_while(|word| !word.starts_with(b"BA") && !word.starts_with(b"EN")).count();
        *length = count as u8;
        rest = words.get_mut(4 * count..)?;
    }
    Some(())
}

/// What libFuzzer calls for another input: changes the one in the buffer, and answers how long it is then.
///
/// # Safety
///
/// The pointer names the buffer, which has `most` bytes, at least the input's.
#[no_mangle]
#[allow(non_snake_case)]
pub unsafe extern "C" fn LLVMFuzzerCustomMutator(data: *mut u8, size: usize, most: usize, seed: c_uint) -> usize {
    let (mended, near) = (seed & 1 == 0, seed & 2 == 0);
    let start = if near { size.saturating_sub(NEAR) } else { 0 };
    let size = start + LLVMFuzzerMutate(data.add(start), size - start, most - start);
    if let ([call, _office, message @ ..], true) = (slice::from_raw_parts_mut(data, size), mended) {
        if *call % 3 == 0 {
            let _ = mend(message);
        }
    }
    size
}
