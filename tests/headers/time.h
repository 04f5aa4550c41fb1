// The processor time this program has used.
#define CLOCKS_PER_SEC 1000000

typedef long clock_t;
clock_t clock(void);
