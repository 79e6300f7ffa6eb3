/* Faults that tools/firmware/check has to see, one at a time. */
#if defined(VECTOR)
double halve(double of) { return of / 2; }
#elif defined(SYMBOL)
int other(int);
int call(int of) { return other(of) + 1; }
#elif defined(DATA)
int kept = 7;
int next(void) { return kept++; }
#elif defined(ZEROS)
static int kept;
int next(void) { return kept++; }
#elif defined(CALL)
int call(int (*by)(int)) { return by(1) + 1; }
#elif defined(LAST_CALL)
int call(int (*by)(int)) { return by(1); }
#elif defined(UNALIGNED)
struct __attribute__((packed)) odd { char at; long word; };
void clear(struct odd *of) { of->word = 0; }
#endif
