/* Words and bytes of frames, for the programs of this folder: numbers are big-endian. */
#include <stdint.h>
#include <stddef.h>
#include <unistd.h>

enum { HEADER = 16, PAYLOAD = 131072 };

static inline uint32_t word(const unsigned char *at) {
  return (uint32_t)at[0] << 24 | (uint32_t)at[1] << 16 | (uint32_t)at[2] << 8 | at[3];
}

static inline void put_word(unsigned char *at, uint32_t value) {
  at[0] = (unsigned char)(value >> 24), at[1] = (unsigned char)(value >> 16), at[2] = (unsigned char)(value >> 8), at[3] = (unsigned char)value;
}

static inline int write_all(int link, const unsigned char *at, size_t left) {
  while (left > 0) {
    ssize_t done = write(link, at, left);
    if (done <= 0) return -1;
    at += done, left -= (size_t)done;
  }
  return 0;
}
