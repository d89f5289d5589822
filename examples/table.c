#include <stdio.h>
/* CRC-32 (IEEE 802.3) by a table of 256 words, which is made first: of "123456789", and of the table's own words */
unsigned table[256];
unsigned char message[9] = {'1', '2', '3', '4', '5', '6', '7', '8', '9'};
unsigned crc;

void make_table(void) {
  int n;
  int bit;
  for (n = 0; n < 256; n++) {
    unsigned word = (unsigned)n;
    for (bit = 0; bit < 8; bit++) {
      if (word & 1u) {
        word = word >> 1 ^ 0xedb88320u;
      } else {
        word >>= 1;
      }
    }
    table[n] = word;
  }
}

void put(unsigned char byte) {
  crc = table[(crc ^ byte) & 255u] ^ crc >> 8;
}

int main(void) {
  int n;
  make_table();
  crc = 0xffffffffu;
  for (n = 0; n < 9; n++) {
    put(message[n]);
  }
  printf("%u\n", ~crc);
  crc = 0xffffffffu;
  for (n = 0; n < 256; n++) {
    put((unsigned char)table[n]);
  }
  printf("%u\n", ~crc);
  return 0;
}
