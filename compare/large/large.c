/* Makes the calls of a list on standard input by the static library large_calls, and answers a line for each.
   It is compiled by Rattle's own clang, which has no headers, so what is used of C is declared here. */
typedef unsigned char u8;
typedef unsigned int u32;
typedef unsigned long u64;

int printf(const char *, ...);
int sscanf(const char *, const char *, ...);
char *fgets(char *, int, void *);
void *malloc(u64);
void *memset(void *, int, u64);
extern void *stdin;

/* A slice is its first byte and its length. */
void large_encode(u32 size, u32 time, u32 forced, const u8 *payload, u64 length, u8 *output, u64 room, u64 *report);
void large_decode(u32 room, u32 size, const u8 *input, u64 length, u64 piece, u8 *payload, u64 buffer, u64 *report);

enum { MOST = 20000000, UNTOUCHED = 0xEE };

static u8 *payload, *packet, *lent;
static u64 packet_length;

/* FNV-1a, 64 bits. */
static u64 hash(const u8 *bytes, u64 count) {
  u64 sum = 14695981039346656037UL;
  for (u64 i = 0; i < count; i++)
    sum = (sum ^ bytes[i]) * 1099511628211UL;
  return sum;
}

/* Whether nothing was written from `from` on. */
static int is_untouched(const u8 *bytes, u64 from, u64 to) {
  for (u64 i = from; i < to; i++)
    if (bytes[i] != UNTOUCHED)
      return 0;
  return 1;
}

static void encode(u32 size, u32 time, u32 forced, u64 length, u64 room) {
  u64 report[2];
  memset(packet, UNTOUCHED, MOST);
  for (u64 i = 0; i < length; i++)
    payload[i] = i % 251;
  large_encode(size, time, forced, payload, length, packet, room, report);
  packet_length = report[1];
  if (report[0] != 0)
    printf("refused %lu", report[0]);
  else
    printf("wrote %lu %016lx", report[1], hash(packet, report[1]));
  printf("%s\n", is_untouched(packet, report[1], MOST) ? "" : ", and more is touched");
}

static void decode(u32 room, u64 buffer, u32 size, u64 piece) {
  u64 report[8];
  memset(lent, UNTOUCHED, MOST);
  large_decode(room, size, packet, packet_length, piece, lent, buffer, report);
  u64 length = report[0] == 1 ? report[5] : 0;
  if (report[0] == 1)
    printf("message %lu %lu %lu %lu used %lu %016lx", report[2], report[3], report[4], length, report[6], hash(lent, length));
  else if (report[0] == 2)
    printf("refused %lu used %lu", report[1], report[6]);
  else
    printf("more %lu", report[6]);
  printf(" calls %lu%s\n", report[7], is_untouched(lent, length, MOST) ? "" : ", and more is touched");
}

int main(void) {
  char line[256];
  u32 size, time, forced, room;
  u64 length, output, buffer, piece;
  payload = malloc(MOST), packet = malloc(MOST), lent = malloc(MOST);
  if (!payload || !packet || !lent)
    return 1;
  while (fgets(line, sizeof line, stdin)) {
    if (sscanf(line, "encode %u %u %u %lu %lu", &size, &time, &forced, &length, &output) == 5 && length <= MOST && output <= MOST)
      encode(size, time, forced, length, output);
    else if (sscanf(line, "decode %u %lu %u %lu", &room, &buffer, &size, &piece) == 4 && buffer <= MOST)
      decode(room, buffer, size, piece);
    else if (line[0] != '#')
      printf("bad line\n");
  }
  return 0;
}
