// What is measured, under the names that begin with proved_ (crates/measured) and with c_ (bench/baseline.c).
// An answer is one number: its kind times 2 to the power 32, and what it carries.
// Kinds: 0 closed, placed, a set, or so many events; 1 contradiction or none; 2 paused or gave up; 3 refused.
// A refused sheet has the number of its refusal as its kind, and carries the line.
typedef unsigned char u8;
typedef unsigned short u16;
typedef unsigned int u32;
typedef unsigned long u64;

enum { MOST = 32, CELLS = 1024, ALL = 8191, EQ = 4096, ENOUGH = 6448, ALLOWANCE = 5000, PRINTED = 2048, SHEET = 65536 };

typedef u64 compose_function(u16 a, u16 b);
typedef u64 quick_close_function(u16 *g, u64 cells, u64 n, u64 limit);
typedef u64 plain_close_function(u16 *g, u64 cells, u64 n);
typedef u64 find_placing_function(const u16 *g, u64 cells, u64 n, u32 allowance, int *room, u64 numbers);
typedef u64 read_sheet_function(const u8 *s, u64 bytes, u16 *room, u64 cells);
// The length of the whole text, which is put into the room as far as it reaches. A room for 2,048 bytes has it whole.
typedef u64 place_function(const u8 *s, u64 bytes, u8 *room, u64 most);
