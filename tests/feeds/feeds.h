/* The calls of crates/tried_c. */
typedef unsigned char u8;
typedef unsigned long u64;
typedef unsigned long usize;

extern long read(int, void *, usize);
extern long write(int, const void *, usize);

typedef struct {
    u64 mode, acc, due, ftype, phase, has, stated, sum;
} Cells;

typedef struct {
    u64 number, event;
    usize start;
    u64 len;
    usize used;
    u64 heads;
    Cells cells;
} Report;

typedef struct {
    u64 number;
    Cells cells;
} Given;

/* A slice crosses as its pointer and its length. */
extern Report eist_feed(Cells, const u8 *, usize, u64 allow);
extern Given eist_give(Cells, const u8 *, usize);
extern u64 eist_end(Cells);

typedef struct {
    u64 kind;
    Cells cells;
} OneWay;

typedef struct {
    u64 control, encoder, decoder;
} Seen;

typedef struct {
    u64 number, event;
    usize start;
    u64 len;
    usize used;
    u64 heads, payload;
    OneWay stream;
} WayReport;

extern WayReport eist_feed_way(OneWay, Seen, const u8 *, usize, u64 allow);

typedef struct {
    u64 set, limited, size, capacity, blocked, goaways, goaway, pushes, push;
} Kept;

typedef struct {
    u64 number, event, id;
    Kept kept;
} Verdict;

extern Verdict eist_judge(u64 which, Kept, const u8 *, usize);
