// CRC-16/X-25 by the crate `crc` 1.8 of Debian (librust-crc-dev): a table of 256 sixteen-bit remainders.
#[no_mangle]
pub unsafe extern "C" fn rust_crc_x25(octets: *const u8, length: usize) -> u16 {
    crc::crc16::checksum_x25(std::slice::from_raw_parts(octets, length))
}
