/* Answers frames of the sizes that the file server answers, and does nothing else: a read with as many bytes as it asks for, any other
   request with as many as the last four bytes of its header say, or else with four. echo PORT LARGEST WORKERS serves links until it is killed, so many at once,
   each worker one after the other; a read of the link takes at most LARGEST bytes. With a fourth word it keeps the bytes of writes in a store of 1 MiB for
   each worker, and answers reads with those, which is the one copy that no file server can do without. Store and buffers are filled first, so that no page
   of zeros stands for them all. */
#include "frames.h"
#include <netinet/in.h>
#include <netinet/tcp.h>
#include <pthread.h>
#include <stdint.h>
#include <stdio.h>
#include <stdlib.h>
#include <string.h>
#include <sys/socket.h>
#include <unistd.h>

enum { FPREAD = 27, FPWRITE = 33, STORE = 1 << 20 };

struct worker {
  int door;
  size_t largest;
  unsigned char in[HEADER + PAYLOAD], out[HEADER + PAYLOAD], *store;
};

/* Where a piece of so many bytes stands in the store. */
static unsigned char *place_of(struct worker *w, uint32_t at, uint32_t size) { return w->store + (at <= STORE - size ? at : 0); }

/* The size of the reply to the frame in `in`; its bytes come from the store, where there is one, and those of a write go there. */
static uint32_t reply_size(struct worker *w, uint32_t length) {
  unsigned char *block = w->in + HEADER;
  uint32_t wanted = word(w->in + 12);
  if (length >= 12 && block[0] == FPREAD) {
    uint32_t count = word(block + 8), size = count > PAYLOAD ? PAYLOAD : count;
    if (w->store) memcpy(w->out + HEADER, place_of(w, word(block + 4), size), size);
    return size;
  }
  if (w->store && length > 12 && block[0] == FPWRITE) memcpy(place_of(w, word(block + 4), length - 12), block + 12, length - 12);
  return wanted == 0 ? 4 : wanted > PAYLOAD ? PAYLOAD : wanted;
}

static int serve(struct worker *w, int link) {
  unsigned char *in = w->in, *out = w->out;
  size_t have = 0, largest = w->largest;
  for (;;) {
    while (have >= HEADER) {
      uint32_t length = word(in + 8);
      if (length > PAYLOAD) return 1;
      if (have < HEADER + length) break;
      uint32_t size = reply_size(w, length);
      memcpy(out, in, 4);
      out[0] = 1;
      memset(out + 4, 0, 12);
      put_word(out + 8, size);
      if (write_all(link, out, HEADER + size) != 0) return 1;
      have -= HEADER + length;
      memmove(in, in + HEADER + length, have);
    }
    size_t room = sizeof w->in - have;
    ssize_t got = read(link, in + have, room < largest ? room : largest);
    if (got == 0) return 0;
    if (got < 0) return 1;
    have += (size_t)got;
  }
}

static int next_link(int door) {
  int one = 1, link = accept(door, NULL, NULL);
  if (link >= 0) setsockopt(link, IPPROTO_TCP, TCP_NODELAY, &one, sizeof one);
  return link;
}

static void *work(void *given) {
  struct worker *w = given;
  for (;;) {
    int link = next_link(w->door);
    if (link < 0) return NULL;
    serve(w, link);
    close(link);
  }
}

static struct worker *worker_at(int door, size_t largest, int stores) {
  struct worker *w = calloc(1, sizeof *w);
  w->door = door, w->largest = largest, w->store = stores ? malloc(STORE) : NULL;
  memset(w->out, 1, sizeof w->out);
  if (w->store) memset(w->store, 1, STORE);
  return w;
}

int main(int count, char **words) {
  if (count < 4) return 2;
  int one = 1, door = socket(AF_INET, SOCK_STREAM, 0), workers = atoi(words[3]);
  struct sockaddr_in place = {.sin_family = AF_INET, .sin_port = htons((uint16_t)atoi(words[1])), .sin_addr.s_addr = htonl(INADDR_LOOPBACK)};
  setsockopt(door, SOL_SOCKET, SO_REUSEADDR, &one, sizeof one);
  if (bind(door, (struct sockaddr *)&place, sizeof place) != 0 || listen(door, 128) != 0) return 4;
  size_t largest = (size_t)atoi(words[2]);
  pthread_t last;
  for (int i = 0; i < workers; i++) pthread_create(&last, NULL, work, worker_at(door, largest, count > 4));
  pthread_join(last, NULL);
  return 4;
}
