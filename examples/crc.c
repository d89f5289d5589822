#include <stdio.h>
/* CRC-32 (IEEE 802.3) of the nine bytes "123456789", bit by bit */
int main(void) {
  unsigned crc = 4294967295u;
  int byte;
  int bit;
  for (byte = '1'; byte <= '9'; byte++) {
    crc ^= (unsigned)byte;
    for (bit = 0; bit < 8; bit++) {
      if (crc & 1u) {
        crc = crc >> 1 ^ 0xedb88320u;
      } else {
        crc >>= 1;
      }
    }
  }
  printf("%u\n", ~crc);
  return 0;
}
