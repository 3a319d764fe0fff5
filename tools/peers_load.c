// One thread that has many connections ask a server at once: mvd's frames, redis, PostgreSQL, etcd (gRPC), or mvd over
// HTTP (web).
// peers_load KIND PORT CLIENTS IN_FLIGHT put|get|turns|load KEYS BYTES SECONDS COUNTERS PID
// COUNTERS is a file with a number for each key, how often mvd was written there: a put carries it as its context.
// It prints requests a second, the median and the slowest hundredth in ms, and the microseconds of PID's processor a
// request. `turns` puts and gets in turns, `load` puts each key once. tools/peers.py and tools/beside.py compile and call it.
#define _GNU_SOURCE
#include <arpa/inet.h>
#include <dirent.h>
#include <errno.h>
#include <fcntl.h>
#include <netinet/tcp.h>
#include <stdint.h>
#include <stdio.h>
#include <stdlib.h>
#include <string.h>
#include <sys/epoll.h>
#include <sys/mman.h>
#include <time.h>
#include <unistd.h>

typedef uint8_t u8;
typedef uint32_t u32;
typedef uint64_t u64;
enum { MVD, REDIS, PG, ETCD, WEB };
enum { PUT, GET, TURNS, LOAD };
enum { MOST = 4096 };  // requests in flight of one connection, a power of two

typedef struct {
  int fd, armed;
  char *out, *in;
  size_t out_len, out_sent, out_room, in_len, in_room;
  u64 begun[MOST], head, tail, random;
  long first, end, next, window;
  u32 stream;
} Conn;

static int kind, op, depth, size, poll_fd, stopping;
static u32 *counters;
static char document[1 << 16];

static void die(const char *why) {
  fprintf(stderr, "peers_load: %s (%s)\n", why, strerror(errno));
  exit(1);
}

static u64 now(void) {
  struct timespec t;
  clock_gettime(CLOCK_MONOTONIC, &t);
  return t.tv_sec * 1000000000ull + t.tv_nsec;
}

static void add(Conn *c, const void *bytes, size_t count) {
  if (c->out_len + count > c->out_room) {
    c->out_room = (c->out_len + count) * 2;
    if (!(c->out = realloc(c->out, c->out_room))) die("memory");
  }
  memcpy(c->out + c->out_len, bytes, count);
  c->out_len += count;
}

static void big(Conn *c, u64 value, int bytes) {
  while (bytes--) {
    u8 b = value >> 8 * bytes;
    add(c, &b, 1);
  }
}

static u32 big_at(const void *p) {
  const u8 *b = p;
  return (u32)b[0] << 24 | b[1] << 16 | b[2] << 8 | b[3];
}

static u64 draw(Conn *c) {
  u64 x = c->random;
  x ^= x << 13, x ^= x >> 7, x ^= x << 17;
  return c->random = x;
}

// A document of three members and about `size` bytes, which differs each time.
static int write_document(Conn *c) {
  u64 x = draw(c);
  int n = sprintf(document, "{\"city\":\"c%04d\",\"days\":%d,\"note\":\"", (int)(x % 5000), (int)(x >> 40));
  for (int i = size - n - 2; i > 0; i--) document[n++] = 'a' + (x >> i % 57) % 26;
  document[n++] = '"', document[n++] = '}';
  return n;
}

static int varint(u8 *b, u64 v) {
  int n = 0;
  for (; v > 127; v >>= 7) b[n++] = v | 128;
  b[n++] = v;
  return n;
}

static void redis_item(Conn *c, const char *bytes, int count) {
  char head[32];
  add(c, head, sprintf(head, "$%d\r\n", count));
  add(c, bytes, count);
  add(c, "\r\n", 2);
}

static void pg_run(Conn *c, const char *name, int count, const char **items, const int *lengths) {
  int all = 0;
  for (int i = 0; i < count; i++) all += 4 + lengths[i];
  add(c, "B", 1), big(c, 4 + 1 + strlen(name) + 1 + 2 + 2 + all + 2, 4), add(c, "", 1);
  add(c, name, strlen(name) + 1), big(c, 0, 2), big(c, count, 2);
  for (int i = 0; i < count; i++) big(c, lengths[i], 4), add(c, items[i], lengths[i]);
  big(c, 0, 2), add(c, "E", 1), big(c, 9, 4), add(c, "", 1), big(c, 0, 4), add(c, "S", 1), big(c, 4, 4);
}

// One call: the fields in HTTP/2's compression, written out, and one frame of data.
static void etcd_call(Conn *c, const char *path, const u8 *message, int count) {
  u8 h[128];
  int n = 0, long_path = strlen(path);
  h[n++] = 0x83, h[n++] = 0x86, h[n++] = 0x04, h[n++] = long_path;
  memcpy(h + n, path, long_path), n += long_path;
  memcpy(h + n, "\x01\x09" "127.0.0.1\x0f\x10\x10" "application/grpc\x00\x02te\x08trailers", 43), n += 43;
  big(c, n, 3), big(c, 0x0104, 2), big(c, c->stream, 4), add(c, h, n);
  big(c, count + 5, 3), big(c, 0x0001, 2), big(c, c->stream, 4), big(c, 0, 1), big(c, count, 4), add(c, message, count);
  c->window -= count + 5;
  c->stream += 2;
}

static void ask_put(Conn *c, const char *key, int key_len, long number) {
  int n = write_document(c);
  if (kind == MVD) {
    int seen = counters[number] != 0;
    big(c, 1 + 1 + key_len + (seen ? 20 : 4) + 4 + n, 4), big(c, 0x22, 1), big(c, key_len, 1), add(c, key, key_len);
    big(c, seen, 4);
    if (seen) big(c, 1, 4), big(c, counters[number], 8), big(c, 0, 4);
    big(c, n, 4), add(c, document, n);
    counters[number]++;
  } else if (kind == REDIS) {
    add(c, "*3\r\n$3\r\nSET\r\n", 13), redis_item(c, key, key_len), redis_item(c, document, n);
  } else if (kind == WEB) {
    char head[256], seen[48] = "";
    if (counters[number]) sprintf(seen, "Mvd-Context: 1:%u\r\n", counters[number]);
    counters[number]++;
    add(c, head, sprintf(head, "PUT /keys/%s HTTP/1.1\r\nHost: localhost\r\n%sContent-Length: %d\r\n\r\n", key, seen, n));
    add(c, document, n);
  } else if (kind == PG) {
    pg_run(c, "p", 2, (const char *[]){key, document}, (int[]){key_len, n});
  } else {
    static u8 m[1 << 17];
    int k = 0;
    m[k++] = 0x0a, k += varint(m + k, key_len), memcpy(m + k, key, key_len), k += key_len;
    m[k++] = 0x12, k += varint(m + k, n), memcpy(m + k, document, n), k += n;
    etcd_call(c, "/etcdserverpb.KV/Put", m, k);
  }
}

static void ask_get(Conn *c, const char *key, int key_len) {
  if (kind == MVD) {
    big(c, 2 + key_len, 4), big(c, 0x21, 1), big(c, key_len, 1), add(c, key, key_len);
  } else if (kind == REDIS) {
    add(c, "*2\r\n$3\r\nGET\r\n", 13), redis_item(c, key, key_len);
  } else if (kind == WEB) {
    char head[128];
    add(c, head, sprintf(head, "GET /keys/%s HTTP/1.1\r\nHost: localhost\r\n\r\n", key));
  } else if (kind == PG) {
    pg_run(c, "g", 1, &key, &key_len);
  } else {
    u8 m[200] = {0x0a, key_len};
    memcpy(m + 2, key, key_len);
    etcd_call(c, "/etcdserverpb.KV/Range", m, 2 + key_len);
  }
}

static int ask(Conn *c) {
  if (stopping || c->tail - c->head >= (u64)depth || (kind == ETCD && c->window < 16384)) return 0;
  if (op == LOAD && c->next >= c->end) return 0;
  long number = op == LOAD ? c->next++ : c->first + (long)(draw(c) % (c->end - c->first));
  char key[40];
  int key_len = sprintf(key, "k%08ld", number);
  c->begun[c->tail++ & (MOST - 1)] = now();
  op == GET || (op == TURNS && c->tail % 2) ? ask_get(c, key, key_len) : ask_put(c, key, key_len, number);
  return 1;
}

// How long one value of redis is, or 0 where it is not whole.
static long redis_value(const char *p, long n) {
  char *e = memchr(p, '\n', n);
  if (!e) return 0;
  long head = e - p + 1, count = atol(p + 1);
  if (*p == '-') die(p);
  if (*p != '$' || count < 0) return head;
  return n >= head + count + 2 ? head + count + 2 : 0;
}

// How long a response over HTTP is, whose fields are in small letters, or 0 where it is not whole.
static long response(const char *p, long n) {
  char *end = n > 12 ? memmem(p, n, "\r\n\r\n", 4) : NULL;
  if (!end) return 0;
  if (p[9] != '2') die("mvd refused a request over HTTP");
  char *field = memmem(p, end - p, "\r\ncontent-length: ", 18);
  long all = end + 4 - p + (field ? atol(field + 18) : 0);
  return n < all ? 0 : all;
}

// How long the next part of the input is, or 0 where it is not whole. `done` is set where it ends a reply.
static long part(Conn *c, const char *p, long n, int *done) {
  *done = 0;
  if (kind == REDIS) return n && (n = redis_value(p, n)) ? *done = 1, n : 0;
  if (kind == WEB) return (n = response(p, n)) ? *done = 1, n : 0;
  if (n < (kind == ETCD ? 9 : 5)) return 0;
  long all = kind == MVD ? 4 + big_at(p) : kind == PG ? 1 + big_at(p + 1) : 9 + (big_at(p) >> 8);
  if (n < all) return 0;
  if (kind == MVD) {
    if ((u8)p[4] == 0xee) die("mvd refused a request");
    *done = 1;
  } else if (kind == PG) {
    if (*p == 'E') die(p + 5);
    *done = *p == 'Z';
  } else {
    int type = p[3], flags = p[4];
    if (type == 4 && !(flags & 1)) add(c, "\0\0\0\4\1\0\0\0\0", 9);
    if (type == 6 && !(flags & 1)) add(c, "\0\0\x08\6\1\0\0\0\0", 9), add(c, p + 9, 8);
    if (type == 3 || type == 7) die("etcd ended a stream");
    if (type == 8 && !(big_at(p + 5))) c->window += big_at(p + 9);
    *done = type == 1 && (flags & 1);
  }
  return all;
}

static void flush_out(Conn *c) {
  while (c->out_sent < c->out_len) {
    ssize_t n = send(c->fd, c->out + c->out_sent, c->out_len - c->out_sent, MSG_NOSIGNAL);
    if (n < 0 && errno == EAGAIN) break;
    if (n < 0) die("send");
    c->out_sent += n;
  }
  if (c->out_sent == c->out_len) c->out_sent = c->out_len = 0;
  int want = c->out_sent < c->out_len;
  if (want == c->armed) return;
  struct epoll_event e = {EPOLLIN | (want ? EPOLLOUT : 0), {.ptr = c}};
  epoll_ctl(poll_fd, EPOLL_CTL_MOD, c->fd, &e);
  c->armed = want;
}

// Nanoseconds of the processor, of a process with its threads, and of the other processes of PostgreSQL.
static double processor(int pid) {
  double all = 0;
  char name[300];
  snprintf(name, 300, "/proc/%d/task", pid);
  DIR *tasks = opendir(name);
  for (struct dirent *t; tasks && (t = readdir(tasks));) {
    snprintf(name, 300, "/proc/%d/task/%s/schedstat", pid, t->d_name);
    FILE *f = *t->d_name == '.' ? NULL : fopen(name, "r");
    double one = 0;
    if (f && fscanf(f, "%lf", &one) == 1) all += one;
    if (f) fclose(f);
  }
  if (tasks) closedir(tasks);
  return all;
}

static double processor_of_all(int pid) {
  double all = processor(pid);
  DIR *processes = kind == PG ? opendir("/proc") : NULL;
  for (struct dirent *d; processes && (d = readdir(processes));) {
    char name[300];
    int parent = 0, one = atoi(d->d_name);
    snprintf(name, 300, "/proc/%d/stat", one);
    FILE *f = one > 0 ? fopen(name, "r") : NULL;
    if (f && fscanf(f, "%*d (%*[^)]) %*c %d", &parent) == 1 && parent == pid) all += processor(one);
    if (f) fclose(f);
  }
  if (processes) closedir(processes);
  return all;
}

static void pg_wait(Conn *c) {
  u8 b[1 << 16];
  for (;;) {
    for (int n = 0; n < 5; n++)
      if (read(c->fd, b + n, 1) != 1) die("PostgreSQL");
    u8 type = b[0];
    for (u32 left = big_at(b + 1) - 4; left;) {
      ssize_t n = read(c->fd, b, left);
      if (n <= 0) die("PostgreSQL");
      left -= n;
    }
    if (type == 'E') die("PostgreSQL refused");
    if (type == 'Z') return;
  }
}

static void pg_parse(Conn *c, const char *name, const char *sql) {
  add(c, "P", 1), big(c, 4 + strlen(name) + 1 + strlen(sql) + 1 + 2, 4);
  add(c, name, strlen(name) + 1), add(c, sql, strlen(sql) + 1), big(c, 0, 2);
}

static void greet(Conn *c) {
  if (kind == PG) {
    big(c, 8 + 27, 4), big(c, 3 << 16, 4), add(c, "user\0peers\0database\0peers\0", 27);
    flush_out(c), pg_wait(c);
    pg_parse(c, "p", "INSERT INTO kv VALUES ($1, $2::jsonb) ON CONFLICT (key) DO UPDATE SET doc = EXCLUDED.doc");
    pg_parse(c, "g", "SELECT doc FROM kv WHERE key = $1");
    add(c, "S", 1), big(c, 4, 4), flush_out(c), pg_wait(c);
  }
  if (kind == ETCD) {
    add(c, "PRI * HTTP/2.0\r\n\r\nSM\r\n\r\n", 24), big(c, 6, 3), big(c, 0x0400, 2), big(c, 0, 4);
    big(c, 4, 2), big(c, 1 << 30, 4), big(c, 4, 3), big(c, 0x0800, 2), big(c, 0, 4), big(c, 1 << 30, 4);
  }
}

static void open_one(Conn *c, int port, long keys, int number, int count) {
  struct sockaddr_in to = {AF_INET, htons(port), {htonl(INADDR_LOOPBACK)}, {0}};
  int one = 1;
  c->fd = socket(AF_INET, SOCK_STREAM, 0);
  if (connect(c->fd, (void *)&to, sizeof to)) die("connect");
  setsockopt(c->fd, IPPROTO_TCP, TCP_NODELAY, &one, sizeof one);
  c->first = c->next = keys * number / count, c->end = keys * (number + 1) / count;
  c->random = 0x9e3779b97f4a7c15ull * (number + 1) ^ now();
  c->in_room = 1 << 20, c->in = malloc(c->in_room), c->stream = 1, c->window = 65535;
  greet(c);
  fcntl(c->fd, F_SETFL, O_NONBLOCK);
  struct epoll_event e = {EPOLLIN, {.ptr = c}};
  epoll_ctl(poll_fd, EPOLL_CTL_ADD, c->fd, &e);
}

static void take_in(Conn *c) {
  for (ssize_t n = 65536; n == 65536; c->in_len += n) {
    if (c->in_len + 65536 > c->in_room && !(c->in = realloc(c->in, c->in_room *= 2))) die("memory");
    n = recv(c->fd, c->in + c->in_len, 65536, 0);
    if (n < 0 && errno == EAGAIN) return;
    if (n <= 0) die("the server closed a connection");
  }
}

static int by_value(const void *a, const void *b) {
  u32 x = *(u32 *)a, y = *(u32 *)b;
  return (x > y) - (x < y);
}

int main(int count, char **words) {
  if (count < 11) die("usage: KIND PORT CLIENTS IN_FLIGHT put|get|turns|load KEYS BYTES SECONDS COUNTERS PID");
  const char *kinds[] = {"mvd", "redis", "pg", "etcd", "web"}, *ops[] = {"put", "get", "turns", "load"};
  for (kind = 0; kind < 4 && strcmp(words[1], kinds[kind]); kind++) {}
  for (op = 0; op < 3 && strcmp(words[5], ops[op]); op++) {}
  int port = atoi(words[2]), clients = atoi(words[3]), pid = atoi(words[10]);
  long keys = atol(words[6]), left;
  depth = atoi(words[4]), size = atoi(words[7]);
  int file = open(words[9], O_RDWR | O_CREAT, 0644);
  if (file < 0 || ftruncate(file, keys * 4)) die(words[9]);
  counters = mmap(0, keys * 4, PROT_READ | PROT_WRITE, MAP_SHARED, file, 0);
  poll_fd = epoll_create1(0);
  Conn *conns = calloc(clients, sizeof *conns);
  for (int i = 0; i < clients; i++) open_one(conns + i, port, keys, i, clients);
  u64 start = now(), from = start + (op == LOAD ? 0 : 300000000), until = from + (u64)(atof(words[8]) * 1e9), end = 0;
  size_t done_count = 0, room = 1 << 22;
  u32 *waits = malloc(room * 4);
  double before = processor_of_all(pid), after = 0;
  for (int i = 0; i < clients; i++) {
    while (ask(conns + i)) {}
    flush_out(conns + i);
  }
  do {
    struct epoll_event events[256];
    int ready = epoll_wait(poll_fd, events, 256, 30000);
    if (!ready) die("no reply for 30 s");
    for (int j = 0; j < ready; j++) {
      Conn *c = events[j].data.ptr;
      if (events[j].events & ~EPOLLOUT) take_in(c);
      long at = 0, n;
      int done;
      while ((n = part(c, c->in + at, c->in_len - at, &done))) {
        at += n;
        if (!done) continue;
        u64 t = now(), wait = (t - c->begun[c->head++ & (MOST - 1)]) / 100;
        if (t < from || end) continue;
        if (done_count == room && !(waits = realloc(waits, (room *= 2) * 4))) die("memory");
        waits[done_count++] = wait;
      }
      memmove(c->in, c->in + at, c->in_len -= at);
      while (ask(c)) {}
      flush_out(c);
    }
    u64 t = now();
    if (op != LOAD && t < from) before = processor_of_all(pid);
    left = 0;
    for (int i = 0; i < clients; i++) left += conns[i].tail - conns[i].head;
    if (!end && (op == LOAD ? !left : t >= until)) after = processor_of_all(pid), end = t, stopping = 1;
  } while (left || !end);
  if (!done_count) die("nothing was answered");
  qsort(waits, done_count, 4, by_value);
  printf("%.0f %.3f %.3f %.1f\n", done_count * 1e9 / (end - from), waits[done_count / 2] / 1e4,
         waits[done_count - 1 - done_count / 100] / 1e4, (after - before) / 1e3 / done_count);
  return 0;
}
