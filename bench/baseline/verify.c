/* The least work of `vickrey verify BOARD CHALLENGE REPLY` (boards of version 1), in plain C.
   It reads the three files, parses every line, makes the SHA-256 of the 68-byte message of each
   opened entry, reads each test pair, and checks each row sum modulo 2^61 - 1.
   It prints `accepted` (status 0) or `refused` (status 1); status 2 is a file that cannot be read.
   Build: cc -O3 verify.c             plain scalar SHA-256 (sha256.h)
          cc -O3 -DOPENSSL verify.c -lcrypto    OpenSSL's SHA-256 (SHA-NI or AVX2 where there is)
          -DNOHASH takes each digest as right: what is left is reading, parsing and the sums.  */
#include <stdint.h>
#include <stdio.h>
#include <stdlib.h>
#include <string.h>
#include <fcntl.h>
#include <sys/stat.h>
#include <unistd.h>
#ifdef OPENSSL
#define OPENSSL_SUPPRESS_DEPRECATED
#include <openssl/sha.h>
#else
#include "sha256.h"
#endif

typedef uint64_t u64;
#define M ((1ULL << 61) - 1)
static u64 add(u64 a, u64 b) { u64 s = a + b; return s >= M ? s - M : s; }
static u64 sub(u64 a, u64 b) { return a >= b ? a - b : a + M - b; }
static u64 neg(u64 a) { return a ? M - a : 0; }
static u64 times(u64 a, u64 b) {
  unsigned __int128 p = (unsigned __int128)a * b;
  return add((u64)(p & M), (u64)(p >> 61));
}

/* ---- files and tokens ---- */
typedef struct { const uint8_t *at, *end; } File;
static void refused(void) { puts("refused"); exit(1); }

static File load(const char *name) {
  int fd = open(name, O_RDONLY);
  struct stat st;
  if (fd < 0 || fstat(fd, &st)) { perror(name); exit(2); }
  uint8_t *bytes = malloc(st.st_size + 1);
  size_t got = 0;
  for (ssize_t n; (n = read(fd, bytes + got, st.st_size - got)) > 0;) got += n;
  close(fd);
  return (File){bytes, bytes + got};
}
static void word(File *f, const char *text) {
  size_t n = strlen(text);
  if ((size_t)(f->end - f->at) < n || memcmp(f->at, text, n)) refused();
  f->at += n;
}
static void byte(File *f, uint8_t b) {
  if (f->at == f->end || *f->at != b) refused();
  f->at++;
}
static u64 decimal(File *f, u64 most) {   /* canonical */
  const uint8_t *start = f->at;
  u64 x = 0;
  while (f->at < f->end && *f->at >= '0' && *f->at <= '9') {
    u64 d = *f->at++ - '0';
    if (x > (UINT64_MAX - d) / 10) refused();
    x = 10 * x + d;
  }
  if (f->at == start || (*start == '0' && f->at - start > 1) || x > most) refused();
  return x;
}
static int8_t digit[256];
static void hex(File *f, uint8_t *out, int n) {
  if (f->end - f->at < 2 * n) refused();
  int bad = 0;
  for (int i = 0; i < n; i++) {
    int a = digit[f->at[2 * i]], b = digit[f->at[2 * i + 1]];
    bad |= a | b;
    out[i] = (uint8_t)(a << 4 | (b & 15));
  }
  if (bad < 0) refused();
  f->at += 2 * n;
}
static u64 number_line(File *f, const char *text, u64 least, u64 most) {
  word(f, text);
  u64 x = decimal(f, most);
  if (x < least) refused();
  byte(f, '\n');
  return x;
}
static void done(File *f) { word(f, "end\n"); if (f->at != f->end) refused(); }

/* ---- commitments ---- */
typedef struct { uint8_t d[2][32]; } Com;
static uint8_t message[68];
static u64 digests;

static void big_endian(uint8_t *p, u64 x, int n) { while (n--) { p[n] = (uint8_t)x; x >>= 8; } }

static void opens(unsigned seat, unsigned lane, unsigned slot, const uint8_t *key, u64 value,
                  const uint8_t *digest) {
  uint8_t made[32];
  big_endian(message + 20, seat, 2);
  big_endian(message + 22, lane, 2);
  big_endian(message + 24, slot, 4);
  memcpy(message + 28, key, 32);
  big_endian(message + 60, value, 8);
  digests++;
#ifdef NOHASH
  (void)digest; (void)made;
#else
#ifdef OPENSSL
  SHA256_CTX c;
  SHA256_Init(&c);
  SHA256_Update(&c, message, 68);
  SHA256_Final(made, &c);
#else
  sha256_msg(message, 68, made);
#endif
  if (memcmp(made, digest, 32)) refused();
#endif
}

/* ---- the plan: a wire is -1 (Split) or the exponent of its pair; a row is a list of terms ---- */
typedef struct { int wire; u64 factor; } Term;
typedef struct { Term *terms; int count; u64 constant; } Row;
static int8_t *kind;
static Row *rows;
static int wires, row_count;

static Row *start_row(u64 constant, int room) {
  Row *r = &rows[row_count++];
  r->terms = malloc(sizeof(Term) * room);
  r->count = 0;
  r->constant = constant;
  return r;
}
static void term(Row *r, int wire, u64 factor) { r->terms[r->count++] = (Term){wire, factor}; }
static void range(Row *r, int t) {   /* appends the pairs of a test set, and takes them off */
  for (int i = 0; i < t; i++) { kind[wires] = (int8_t)i; term(r, wires++, M - 1); }
}

static void make_plan(int n, int t, int w, u64 price) {   /* w counts from 0 */
  int most = 2 * n + (n - 1) + t * (4 * n - 3);
  kind = malloc(most);
  rows = malloc(sizeof(Row) * (5 * n));
  u64 top = (1ULL << t) - 1;
  for (; wires < 2 * n; wires++) kind[wires] = -1;
  for (int j = 0; j < n; j++) { Row *r = start_row(0, 2); term(r, j, 1); term(r, n + j, M - 1); }
  for (int j = 0; j < n; j++) { Row *r = start_row(0, t + 1); term(r, n + j, 1); range(r, t); }
  for (int j = 0; j < n; j++) if (j != w) {
    Row *r = start_row(j < w ? M - 1 : 0, t + 2);
    term(r, n + w, 1); term(r, n + j, M - 1); range(r, t);
  }
  for (int j = 0; j < n; j++) if (j != w) {
    Row *r = start_row(price, t + 1); term(r, n + j, M - 1); range(r, t);
  }
  if (n < 2) return;
  int first = wires;
  Row *sum = start_row(M - 1, n - 1);
  for (int i = 0; i < n - 1; i++) { kind[wires] = 0; term(sum, wires++, 1); }
  for (int j = 0, i = 0; j < n; j++) if (j != w) {
    Row *r = start_row(sub(top, price), t + 2);
    term(r, first + i++, neg(top)); term(r, n + j, 1); range(r, t);
  }
}

/* ---- one wire of a reply ---- */
static u64 opened(File *f, unsigned seat, unsigned lane, unsigned slot, const uint8_t *digest) {
  uint8_t key[32];
  hex(f, key, 32);
  byte(f, ' ');
  u64 value = decimal(f, M - 1);
  opens(seat, lane, slot, key, value, digest);
  return value;
}
static u64 wire_half(File *f, int k, int bit, unsigned seat, unsigned lane, unsigned slot, Com *com) {
  u64 half;
  if (k < 0) {
    word(f, "h ");
    half = opened(f, seat, lane, slot + bit, com->d[bit]);
  } else if (bit) {
    word(f, "s ");
    int p = (int)decimal(f, 1);
    byte(f, ' ');
    half = opened(f, seat, lane, slot + p, com->d[p]);
  } else {
    word(f, "a ");
    u64 a = opened(f, seat, lane, slot, com->d[0]);
    byte(f, ' ');
    u64 b = opened(f, seat, lane, slot + 1, com->d[1]);
    u64 weight = 1ULL << k;
    if (sub(b, a) == weight) half = neg(a);
    else if (sub(a, b) == weight) half = neg(b);
    else refused(), half = 0;
  }
  byte(f, '\n');
  return half;
}

static int row_holds(const Row *r, int bit, const u64 *halves, u64 posted) {
  u64 sum = bit ? r->constant : 0;
  for (int i = 0; i < r->count; i++) {
    Term t = r->terms[i];
    u64 v = halves[t.wire];
    sum = add(sum, t.factor == 1 ? v : t.factor == M - 1 ? neg(v) : times(t.factor, v));
  }
  return sum == (bit ? neg(posted) : posted);
}

int main(int count, char **args) {
  if (count != 4) { fputs("usage: verify BOARD CHALLENGE REPLY\n", stderr); return 2; }
  memset(digit, -1, 256);
  for (int i = 0; i < 16; i++) digit[(uint8_t)"0123456789abcdef"[i]] = (int8_t)i;
  File board = load(args[1]), challenge = load(args[2]), reply = load(args[3]);

  memcpy(message, "VKC1", 4);
  word(&board, "vickrey-board 1\nauction ");
  hex(&board, message + 4, 16);
  byte(&board, '\n');
  int t = (int)number_line(&board, "width ", 1, 40);
  int lanes = (int)number_line(&board, "lanes ", 1, 64);
  int n = (int)number_line(&board, "seals ", 1, 64);
  unsigned winner = (unsigned)number_line(&board, "winner ", 1, 65535);
  u64 price = number_line(&board, "price ", 0, UINT64_MAX);
  unsigned seats[64];
  Com *seals = malloc(sizeof(Com) * n * lanes);
  int w = -1;
  for (int j = 0; j < n; j++) {
    seats[j] = (unsigned)number_line(&board, "seal ", 1, 65535);
    for (int i = 0; i < j; i++) if (seats[i] == seats[j]) refused();
    if (seats[j] == winner) w = j;
    for (int k = 0; k < lanes; k++) {
      word(&board, "x ");
      hex(&board, seals[j * lanes + k].d[0], 32);
      byte(&board, ' ');
      hex(&board, seals[j * lanes + k].d[1], 32);
      byte(&board, '\n');
    }
  }
  if (price >> t || (n == 1 && price) || w < 0) refused();

  int bits[64], bit_count = 0;
  word(&challenge, "vickrey-challenge 1\nbits ");
  while (challenge.at < challenge.end && (*challenge.at == '0' || *challenge.at == '1')) {
    if (bit_count == 64) refused();
    bits[bit_count++] = *challenge.at++ - '0';
  }
  byte(&challenge, '\n');
  done(&challenge);
  word(&reply, "vickrey-reply 1\n");
  int reply_lanes = (int)number_line(&reply, "lanes ", 1, 64);
  if (bit_count != lanes || reply_lanes != lanes) refused();

  make_plan(n, t, w, price);
  Com *coms = malloc(sizeof(Com) * wires);
  u64 *halves = malloc(sizeof(u64) * wires), *posted = malloc(sizeof(u64) * row_count);
  for (int k = 0; k < lanes; k++) {
    unsigned lane = (unsigned)k + 1;
    if (number_line(&board, "lane ", 1, 64) != lane) refused();
    for (int j = 0; j < n; j++) coms[j] = seals[j * lanes + k];
    for (int i = n; i < wires; i++) {
      word(&board, "w ");
      hex(&board, coms[i].d[0], 32);
      byte(&board, ' ');
      hex(&board, coms[i].d[1], 32);
      byte(&board, '\n');
    }
    for (int i = 0; i < row_count; i++) posted[i] = number_line(&board, "d ", 0, M - 1);
    if (number_line(&reply, "lane ", 1, 64) != lane) refused();
    for (int i = 0; i < wires; i++)
      halves[i] = wire_half(&reply, kind[i], bits[k], i < n ? seats[i] : 0, lane,
                            i < n ? 0 : 2 * (unsigned)i, &coms[i]);
    for (int i = 0; i < row_count; i++)
      if (!row_holds(&rows[i], bits[k], halves, posted[i])) refused();
  }
  done(&board);
  done(&reply);
  if (getenv("VERIFY_STATS")) fprintf(stderr, "wires %d rows %d lanes %d digests %llu\n", wires, row_count, lanes, (unsigned long long)digests);
  puts("accepted");
  return 0;
}
