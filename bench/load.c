/* Loads a file server, or an echo of its frames. Each link is a session of its own, with the volume Share open and a file of its own of 1 MiB where the
   calls need one.

   load PORT LINKS CALLS KIND makes CALLS calls over each of so many links at once, one after the other, and closes. It prints the seconds from the first
   connection to the last reply.
   load PORT takes lines KIND CALLS NUMBER from its input, each of which it carries out over one link, and prints for each the seconds that these calls took,
   and the size of the last reply. NUMBER is the size of the reply that is wanted of an echo, or 0; of `list` it is the directory.

   status is DSIGetStatus, openvol FPOpenVol, parms FPGetVolParms, dirparms FPGetFileDirParms of a file, small FPRead of 512 bytes, read and write FPRead and
   FPWrite of 64 KiB of the file, at one place after another, where all bytes that are written differ from those that are there. create makes so many
   files in the root, and delete deletes them. list is FPEnumerateExt2 of the files of a directory by pages of 64, up to so many entries.
   It ends with status 1 at the first answer that is not the wanted one. */
#include "frames.h"
#include <netinet/in.h>
#include <netinet/tcp.h>
#include <pthread.h>
#include <stdint.h>
#include <stdio.h>
#include <stdlib.h>
#include <string.h>
#include <sys/socket.h>
#include <time.h>
#include <unistd.h>

enum { PIECE = 65536, PIECES = 16, ROOM = HEADER + PAYLOAD };
enum kind { STATUS, OPENVOL, PARMS, DIRPARMS, CREATE, DELETE, LIST, SMALL, READ, WRITE, KINDS };
static const char *const names[KINDS] = {"status", "openvol", "parms", "dirparms", "create", "delete", "list", "small", "read", "write"};

struct peer {
  int link, number, fails, turn;
  uint16_t id, fork;
  unsigned char *out, *in;
  uint32_t code, size, wanted;
};

static int port, calls;
static enum kind kind;

static void put16(unsigned char *at, uint32_t value) { at[0] = (unsigned char)(value >> 8), at[1] = (unsigned char)value; }

static int read_all(int link, unsigned char *at, size_t left) {
  while (left > 0) {
    ssize_t done = read(link, at, left);
    if (done <= 0) return -1;
    at += done, left -= (size_t)done;
  }
  return 0;
}

/* Asks what stands behind the header in `out`, of so many bytes, and takes the reply: 0 where it is one to this request. */
static int ask(struct peer *p, int command, uint32_t enclosed_at, uint32_t length) {
  memset(p->out, 0, HEADER);
  p->out[1] = (unsigned char)command;
  put16(p->out + 2, p->id), put_word(p->out + 4, enclosed_at), put_word(p->out + 8, length), put_word(p->out + 12, p->wanted);
  if (write_all(p->link, p->out, HEADER + length) != 0 || read_all(p->link, p->in, HEADER) != 0) return -1;
  p->code = word(p->in + 4), p->size = word(p->in + 8);
  if (p->in[0] != 1 || p->in[1] != command || p->in[2] != p->out[2] || p->in[3] != p->out[3] || p->size > ROOM - HEADER) return -1;
  p->id++;
  return read_all(p->link, p->in + HEADER, p->size);
}

static int ask_block(struct peer *p, const void *block, uint32_t length) {
  memcpy(p->out + HEADER, block, length);
  return ask(p, 2, 0, length) != 0 || p->code != 0 ? -1 : 0;
}

static uint32_t put_path(unsigned char *at, const char *name, int number) {
  int size = sprintf((char *)at + 2, name, number);
  at[0] = 2, at[1] = (unsigned char)size;
  return (uint32_t)size + 2;
}

/* A call whose block begins so and ends with a path in the root. */
static int ask_path(struct peer *p, const void *front, uint32_t size, const char *name, int number) {
  memcpy(p->out + HEADER, front, size);
  size += put_path(p->out + HEADER + size, name, number);
  return ask(p, 2, 0, size) != 0 || p->code != 0 ? -1 : 0;
}

static int write_piece(struct peer *p, int turn) {
  unsigned char *block = p->out + HEADER;
  block[0] = 33, block[1] = 0, put16(block + 2, p->fork);
  put_word(block + 4, (uint32_t)(turn % PIECES) * PIECE), put_word(block + 8, PIECE);
  memset(block + 12, 1 + (turn + turn / PIECES) % 255, PIECE);
  return ask(p, 6, 12, 12 + PIECE) != 0 || p->code != 0 || p->size != 4 ? -1 : 0;
}

static int read_bytes(struct peer *p, int turn, uint32_t count) {
  unsigned char block[14] = {27, 0};
  put16(block + 2, p->fork), put_word(block + 4, (uint32_t)turn * count % (PIECES * PIECE)), put_word(block + 8, count);
  return ask_block(p, block, sizeof block) != 0 || p->size != count ? -1 : 0;
}

/* The pages of a directory's files, up to so many entries. */
static int list_files(struct peer *p, uint32_t entries, uint32_t directory) {
  unsigned char block[30] = {68, 0, 0, 1, 0, 0, 0, 0, 0, 0x40, 0, 0, 0, 64, 0, 0, 0, 0, 0, 0, 0xea, 0x60, 3};
  p->wanted = 0, put_word(block + 4, directory);
  for (uint32_t next = 1; next <= entries;) {
    put_word(block + 14, next);
    if (ask_block(p, block, sizeof block - 1) != 0 || p->size < 6) return -1;
    next += word(p->in + HEADER + 2) & 0xffff;
  }
  return 0;
}

static int open_file(struct peer *p) {
  if (ask_path(p, "\7\x80\0\1\0\0\0\2", 8, "file %d", p->number) != 0) return -1;
  if (ask_path(p, "\x1a\0\0\1\0\0\0\2\0\0\0\3", 12, "file %d", p->number) != 0) return -1;
  p->fork = (uint16_t)(word(p->in + HEADER) & 0xffff);
  for (; p->turn < PIECES; p->turn++)
    if (write_piece(p, p->turn) != 0) return -1;
  return 0;
}

static int open_session(struct peer *p) {
  struct sockaddr_in place = {.sin_family = AF_INET, .sin_port = htons((uint16_t)port), .sin_addr.s_addr = htonl(INADDR_LOOPBACK)};
  int one = 1;
  p->link = socket(AF_INET, SOCK_STREAM, 0);
  setsockopt(p->link, IPPROTO_TCP, TCP_NODELAY, &one, sizeof one);
  if (connect(p->link, (struct sockaddr *)&place, sizeof place) != 0) return -1;
  memcpy(p->out + HEADER, "\1\4\0\0\4\0", 6);
  if (ask(p, 4, 0, 6) != 0) return -1;
  if (ask_block(p, "\x12\6AFP3.3\xfNo User Authent", 24) != 0) return -1;
  return ask_block(p, "\x18\0\0\x20\5Share", 10);
}

static int close_session(struct peer *p) {
  memset(p->out, 0, HEADER);
  p->out[1] = 1, put16(p->out + 2, p->id);
  return write_all(p->link, p->out, HEADER);
}

/* One call; `turn` is its number among those of the link that change, or ask for, one place after another. */
static int call(struct peer *p, enum kind of, int turn) {
  switch (of) {
  case STATUS: return ask(p, 3, 0, 0) != 0 || p->code != 0 ? -1 : 0;
  case OPENVOL: return ask_block(p, "\x18\0\0\x20\5Share", 10);
  case PARMS: return ask_block(p, "\x11\0\0\1\0\x20", 6);
  case DIRPARMS: return ask_path(p, "\x22\0\0\1\0\0\0\2\7\x7f\0\0", 12, "file %d", p->number);
  case CREATE: return ask_path(p, "\7\0\0\1\0\0\0\2", 8, "new %d", turn);
  case DELETE: return ask_path(p, "\x8\0\0\1\0\0\0\2", 8, "new %d", turn);
  case SMALL: return read_bytes(p, turn, 512);
  case READ: return read_bytes(p, turn, PIECE);
  case WRITE: return write_piece(p, turn);
  default: return -1;
  }
}

static int make_calls(struct peer *p, enum kind of, int count) {
  for (int turn = 0; turn < count; turn++)
    if (call(p, of, of == CREATE || of == DELETE ? turn : p->turn++) != 0) return -1;
  return 0;
}

static int talk(struct peer *p) {
  if (open_session(p) != 0 || (kind >= SMALL && open_file(p) != 0)) return -1;
  return make_calls(p, kind, calls) != 0 ? -1 : close_session(p);
}

static void *run(void *given) {
  struct peer *p = given;
  p->fails = talk(p) != 0;
  close(p->link);
  return NULL;
}

static double seconds(void) {
  struct timespec now;
  clock_gettime(CLOCK_MONOTONIC, &now);
  return (double)now.tv_sec + (double)now.tv_nsec / 1e9;
}

static enum kind kind_of(const char *name) {
  enum kind found = STATUS;
  while (found < KINDS && strcmp(names[found], name) != 0) found++;
  return found;
}

static struct peer peer_at(int number) { return (struct peer){.number = number, .out = malloc(ROOM), .in = malloc(ROOM)}; }

static void tell(const struct peer *p) { fprintf(stderr, "link %d: code %d, %u bytes\n", p->number, (int)p->code, p->size); }

/* One link, over which each line of the input is carried out. */
static int carry_out_lines(void) {
  struct peer p = peer_at(0);
  char name[16];
  uint32_t number;
  int fails = open_session(&p) != 0 || open_file(&p) != 0;
  while (!fails && scanf("%15s %d %u", name, &calls, &number) == 3) {
    enum kind of = kind_of(name);
    double since = seconds();
    p.wanted = number;
    fails = of == LIST ? list_files(&p, (uint32_t)calls, number) : make_calls(&p, of, calls);
    printf("%.9f %u\n", seconds() - since, p.size), fflush(stdout);
    p.wanted = 0;
  }
  if (fails) tell(&p);
  return fails || close_session(&p) != 0;
}

int main(int count, char **words) {
  if (count != 2 && count != 5) return 2;
  port = atoi(words[1]);
  if (count == 2) return carry_out_lines();
  int links = atoi(words[2]), fails = 0;
  calls = atoi(words[3]), kind = kind_of(words[4]);
  struct peer *peers = calloc((size_t)links, sizeof *peers);
  pthread_t *threads = calloc((size_t)links, sizeof *threads);
  double since = seconds();
  for (int i = 0; i < links; i++) {
    peers[i] = peer_at(i);
    pthread_create(&threads[i], NULL, run, &peers[i]);
  }
  for (int i = 0; i < links; i++) {
    pthread_join(threads[i], NULL);
    fails += peers[i].fails;
    if (peers[i].fails) tell(&peers[i]);
  }
  printf("%.6f\n", seconds() - since);
  return fails != 0;
}
