// CRC-16/X-25 by Debian's libcrcutil: its quickest form, several words a turn.
#include <stdint.h>
#include <crcutil/generic_crc.h>

typedef crcutil::GenericCrc<crcutil::uint64, crcutil::uint64, crcutil::uint64, 4> Crc;

static Crc *crc;

extern "C" void crcutil_make(void)
{
    crc = new Crc(0x8408, 16, true);
}

extern "C" uint16_t crcutil_x25(const uint8_t *octets, size_t length)
{
    return (uint16_t)crc->CrcDefault(octets, length, 0);
}
