/* The questions of `crates/bench` in plain C, with the same algorithms as far as they are known, compiled for the same target: reading a
   plan file into a row with every rule, judging a row, one replay, the verdict for one l and all answers for one k by the same search, in
   place, the figures up to one k by the same game, and which cuts explain the capture on standard input, a byte a number.
   `bench QUESTION N [L]` prints a checksum of the answers, of the row and of the numbers that the last one wrote. `bench countK 1` tells
   instead, for each walk of the search, l, how many pairs its lists have, how many lists it plays, how many slots it plays, and the arrivals
   of the list it finds, or -. `bench slotsK 1` tells the pairs of the list that explains the capture, or -, and how many slots were played
   for it. `bench record 1` has a list of cuts on standard input instead, and tells the capture of its replay, a line a triple. No header is
   used, since the kit has none. */
typedef unsigned char u8;
typedef unsigned short u16;
typedef unsigned long usize;
extern int open(const char *, int, ...);
extern long read(int, void *, usize);
extern int printf(const char *, ...);
extern int atoi(const char *);

static u8 file[8192];
static int size, at, count, place, on, step; /* of a refusal the place; of one of a path the message, the place and the step */
static u16 row[10405];

static int refuse_on(int no, int m, int p, int s) { /* every refusal is made here */
    place = m;
    on = p;
    step = s;
    return no;
}

static int refuse(int no, int where) { return refuse_on(no, where, 0, 0); }

static int field(int w) { /* most significant bit first; -1 where the file ends */
    if (at + w > 8 * size) return -1;
    unsigned v = 0;
    int b = at / 8;
    v = file[b] << 16 | (b + 1 < size ? file[b + 1] << 8 : 0) | (b + 2 < size ? file[b + 2] : 0);
    v = v >> (24 - at % 8 - w) & ((1u << w) - 1);
    at += w;
    row[count++] = v;
    return v;
}

static int V, E, M, T, from[64], to[64], first[33];
static u8 table[64 * 64];

static int read_fields(void) { /* refusals 1, 2 and 4 of the file */
    at = count = 0;
    int e = field(4);
    if (e < 0) return refuse(2, at);
    if (e != 1) return refuse(1, 0);
    if ((V = field(6)) < 0 || (E = field(6)) < 0 || (M = field(5)) < 0 || (T = field(6)) < 0) return refuse(2, at);
    V++, E++, M++, T++;
    for (int i = 0; i < E; i++)
        if ((from[i] = field(6)) < 0 || (to[i] = field(6)) < 0) return refuse(2, at);
    for (int m = 0; m < M; m++) {
        first[m] = count;
        int n = field(4);
        if (n < 0) return refuse(2, at);
        for (int p = 0; p <= n; p++) {
            if (field(6) < 0 || field(6) < 0) return refuse(2, at);
            int f = field(1);
            if (f < 0) return refuse(2, at);
            if (!f) continue;
            int k = field(4);
            if (k < 0) return refuse(2, at);
            for (int i = 0; i <= k; i++)
                if (field(6) < 0) return refuse(2, at);
        }
    }
    first[M] = count;
    if ((at + 7) / 8 != size) return refuse(4, at);
    for (int b = at; b < 8 * size; b++)
        if (file[b / 8] >> (7 - b % 8) & 1) return refuse(4, at);
    return 0;
}

/* There is a number at i, and it is below a limit: else this is refusal 2 or 3 of the row. */
#define FITS(limit)                                                                                                                                \
    if (i == count) return refuse(2, i);                                                                                                           \
    if (row[i] >= limit) return refuse(3, i)

static int walk_row(void) { /* refusals 1 to 4 of the row */
    static const u16 limits[] = {64, 64, 32, 64};
    int i = 0;
    if (!count) return refuse(2, 0);
    if (row[0] != 1) return refuse(1, 0);
    for (i = 1; i < 5; i++) {
        FITS(limits[i - 1]);
    }
    V = row[1] + 1, E = row[2] + 1, M = row[3] + 1, T = row[4] + 1;
    for (int e = 0; e < E; e++) {
        FITS(64);
        from[e] = row[i++];
        FITS(64);
        to[e] = row[i++];
    }
    for (int m = 0; m < M; m++) {
        first[m] = i;
        FITS(16);
        for (int n = row[i++]; n >= 0; n--) {
            FITS(64);
            i++;
            FITS(64);
            i++;
            FITS(2);
            if (!row[i++]) continue;
            FITS(16);
            for (int k = row[i++]; k >= 0; k--, i++) {
                FITS(64);
            }
        }
    }
    first[M] = i;
    return i < count ? refuse(4, i) : 0;
}

static int place_size(int i) { return row[i + 2] ? 5 + row[i + 3] : 3; }

/* The earliest rule that links from a vertex break, and its first step: 0, a link not below E; 1, links that do not join; 2, a vertex met twice;
   3, none. */
static int broken(int v, const u16 *es, int n, int *s) {
    usize seen = 1ul << v;
    int rule = 3;
    for (int i = 0; i < n; i++) {
        int e = es[i];
        if (e >= E) return *s = i, 0;
        int here = from[e] != v ? 1 : seen >> to[e] & 1 ? 2 : 3;
        if (here < rule) rule = here, *s = i;
        v = to[e];
        seen |= 1ul << v;
    }
    return rule;
}

static int end[32]; /* where the first path of each message ends */

static int first_paths(void) { /* refusals 7, 14 and 15: each path is walked once */
    static const int numbers[] = {7, 14, 15};
    u16 links[16];
    int best = 3, no = 0;
    for (int m = 0; m < M; m++) {
        int n = row[first[m]] + 1, i = first[m] + 1, s = 0;
        for (int p = 0; p < n; p++, i += place_size(i)) links[p] = row[i];
        int rule = broken(from[links[0]], links, n, &s);
        end[m] = to[links[n - 1]];
        if (rule < best) best = rule, no = refuse_on(numbers[rule], m, s, s);
    }
    return no;
}

static int second_paths(void) { /* refusals 10 and 16 to 19, likewise */
    static const int numbers[] = {10, 16, 17, 18, 19};
    int best = 5, no = 0;
    for (int m = 0; m < M; m++) {
        int n = row[first[m]] + 1, i = first[m] + 1;
        for (int p = 0; p < n; p++, i += place_size(i)) {
            if (!row[i + 2]) continue;
            const u16 *es = row + i + 4;
            int k = row[i + 3] + 1, s = 0, rule = broken(from[row[i]], es, k, &s);
            if (rule > 1) rule = rule == 2 ? 3 : 5;
            if (rule > 2 && to[es[k - 1]] != end[m]) rule = 2, s = k - 1;
            if (rule > 4 && es[0] == row[i]) rule = 4, s = 0;
            if (rule < best) best = rule, no = refuse_on(numbers[rule], m, p, s);
        }
    }
    return no;
}

static int rules(void) { /* refusals 5 to 10 and 14 to 19: one loop a rule, and one over the first paths, and over the second paths */
    for (int i = 0; i < E; i++)
        if (from[i] >= V || to[i] >= V || from[i] == to[i]) return refuse(5, i);
    usize there[64] = {0}; /* for each vertex those that a link leads to from it */
    for (int i = 0; i < E; i++) {
        if (there[from[i]] >> to[i] & 1) return refuse(6, i);
        there[from[i]] |= 1ul << to[i];
    }
    int no = first_paths();
    if (no) return no;
    for (int m = 0; m < M; m++) {
        int n = row[first[m]] + 1, i = first[m] + 1, last = -1;
        for (int p = 0; p < n; p++, i += place_size(i)) {
            if (row[i + 1] <= last || row[i + 1] >= T) return refuse(8, m);
            last = row[i + 1];
        }
    }
    for (int i = 0; i < 64 * 64; i++) table[i] = 0;
    for (int m = 0; m < M; m++) {
        int n = row[first[m]] + 1, i = first[m] + 1;
        for (int p = 0; p < n; p++, i += place_size(i)) {
            if (table[row[i + 1] * 64 + row[i]]) return refuse(9, m);
            table[row[i + 1] * 64 + row[i]] = m + 1;
        }
    }
    return second_paths();
}

static int judge(void) { /* refusals 1 to 10 and 14 to 19 of the row */
    int r = walk_row();
    return r ? r : rules();
}

static int small(int no, int answer) { /* a refusal or an answer as a small number */
    return no ? ((no % 32 * 1024 + place % 1024) * 31 + on % 16 * 16 + step % 16) % 65536 : answer;
}

static int read_plan(void) {
    int r = read_fields();
    if (!r) r = rules();
    return small(r, count);
}

typedef struct {
    u16 at;
    u8 left, turned;
} position;

static u16 cut_from[64], out[4096]; /* what an answer writes */
static position start[32];

static void begin(void) {
    for (int m = 0; m < M; m++) {
        start[m].at = first[m] + 1;
        start[m].left = row[first[m]] + 1;
        start[m].turned = 0;
    }
}

/* A cable goes both ways: the other way of each link, or the link itself; and whether a pair may not name it, since it is the higher one or is named. */
static u8 other[64], closed[64];

static void clear_cuts(void) {
    static u8 lowest[64 * 64]; /* the lowest link with these ends, plus one */
    for (int i = 0; i < 64 * 64; i++) lowest[i] = 0;
    for (int e = E - 1; e >= 0; e--) lowest[row[5 + 2 * e] * 64 + row[6 + 2 * e]] = e + 1;
    for (int e = 0; e < E; e++) {
        int back = lowest[row[6 + 2 * e] * 64 + row[5 + 2 * e]];
        other[e] = back ? back - 1 : e;
        closed[e] = other[e] < e;
        cut_from[e] = 65535;
    }
}

static void cut(int e, int s) { /* both ways, from slot s on; or never */
    cut_from[e] = cut_from[other[e]] = s;
}

static void pick(int e, int s) {
    cut(e, s);
    closed[e] = s < 65535;
}

static void turn(position *p) {
    p->left = row[p->at + 3] + 1;
    p->at += 4;
    p->turned = 1;
}

static void tell(position *ps, int i, u16 *event) { /* one slot, with its events */
    u8 tries[64]; /* the first that tries each link, plus one */
    for (int e = 0; e < E; e++) tries[e] = 0;
    for (int m = 0; m < M; m++) {
        position *p = ps + m;
        int kind = 0, number = 0;
        if (p->left) {
            if (!p->turned && cut_from[row[p->at]] <= i && row[p->at + 2]) turn(p);
            int e = row[p->at], down = cut_from[e] <= i;
            number = e;
            if (!p->turned) {
                if (down) kind = 6;
                else if (row[p->at + 1] == i) kind = 2, p->at += place_size(p->at), p->left--;
                else kind = 1;
            } else if (down) kind = 7;
            else {
                int who = tries[e];
                if (!who) tries[e] = m + 1;
                if (table[i * 64 + e]) kind = 4, number = table[i * 64 + e] - 1;
                else if (who) kind = 5, number = who - 1;
                else kind = 3, p->at++, p->left--;
            }
        }
        event[2 * m] = kind, event[2 * m + 1] = number;
    }
}

static void slot(position *ps, int i) { /* one slot without events. Who is held by the table holds nobody: the others are held by it too */
    usize taken = 0;
    for (int m = 0; m < M; m++) {
        position *p = ps + m;
        if (!p->left) continue;
        int e = row[p->at];
        if (!p->turned) {
            if (cut_from[e] > i) {
                if (row[p->at + 1] == i) p->at += place_size(p->at), p->left--;
                continue;
            }
            if (!row[p->at + 2]) continue;
            turn(p);
            e = row[p->at];
        }
        if (cut_from[e] <= i || table[i * 64 + e] || taken >> e & 1) continue;
        taken |= 1ul << e;
        p->at++;
        p->left--;
    }
}

static int arrived(const position *ps) {
    int n = 0;
    for (int m = 0; m < M; m++) n += !ps[m].left;
    return n;
}

static void copy(position *to, const position *ps) {
    for (int m = 0; m < M; m++) to[m] = ps[m];
}

static int replay(void) {
    int r = judge();
    if (r) return small(r, 0);
    position ps[32];
    clear_cuts();
    cut(0, 0);
    begin();
    copy(ps, start);
    for (int i = 0; i < T; i++) tell(ps, i, out + i * 2 * M);
    return arrived(ps);
}

/* What a pair can do, by slot and link, with a row behind the last slot. It touches the messages that have a link of its cable before them in its slot
   or later. A place is robust if its second path is in time whatever holds it up, else fragile. A pair strips the messages of which it
   touches a fragile place, or whose robust places have one on their second path. A list loses only what it both touches and strips. */
static unsigned touches[65 * 64], strips[65 * 64];
enum { TOUCHED, STRIPPED, BOTH, BOUNDS };
static u8 weight[BOUNDS][65 * 64], top[BOUNDS][64]; /* BOTH: of touches and strips together */
static u8 front[64][33]; /* the most that a pair from a slot on strips which touches at least so many */
static u16 pairs[6];
static int need, least, best, counting;
static long lists, slots;

typedef struct {
    unsigned touched, stripped;
} harm;

static unsigned away(const position *ps) { /* the messages that are not home */
    unsigned set = 0;
    for (int m = 0; m < M; m++) set |= (unsigned)!!ps[m].left << m;
    return set;
}

static int finish(const position *ps, int s, harm by) { /* the list picked, played from its last pair on as long as it can fail */
    position play[32];
    copy(play, ps);
    for (int i = s; i < T; i++) {
        if (__builtin_popcount(by.touched & by.stripped & away(play)) < need) return 0;
        lists += i == s;
        slot(play, i);
        slots++;
    }
    best = arrived(play);
    return best < least;
}

/* Whether the heaviest n pairs from slot s on touch x messages more and strip y more. */
static int heavy(int n, int s, int x, int y) {
    return x <= n * top[TOUCHED][s] && y <= n * top[STRIPPED][s] && x + y <= n * top[BOTH][s];
}

/* Whether n pairs can, for all that the weights say: one last pair must both touch and strip what is wanting. */
static int reach(int n, int s, int x, int y) {
    if (n == 1) return x <= top[TOUCHED][s] && y <= front[s][x > 0 ? x : 0];
    return heavy(n, s, x, y);
}

/* Whether all is in vain once so many are hit, with n pairs more from slot s on. Of a list that is whole its play asks that. */
static int in_vain(int n, int s, harm all, unsigned left) {
    return n && !heavy(n, s, need - __builtin_popcount(all.touched & left), need - __builtin_popcount(all.stripped & left));
}

/* The first link from e on that may be named and with which n pairs from slot s on can touch x and strip y, or E. */
static int next_link(int n, int s, int e, int x, int y) {
    for (; e < E; e++) {
        int here = s * 64 + e;
        if (reach(n - 1, s, x - weight[TOUCHED][here], y - weight[STRIPPED][here]) && !closed[e]) break;
    }
    return e;
}

/* The first list of n more pairs, from slot s and link e on, that leaves fewer than `least`. Once no link of a slot weighs enough, none of a
   later one does: a pair weighs no more than the same link in an earlier slot. */
static int level(const position *ps, int n, int at, int s, int e, harm by) {
    position now[32];
    copy(now, ps);
    for (; s < T; s++, e = 0) {
        unsigned left = away(now);
        int x = need - __builtin_popcount(by.touched & left), y = need - __builtin_popcount(by.stripped & left);
        int f = next_link(n, s, 0, x, y);
        if (f == E) return 0;
        for (e = next_link(n, s, e > f ? e : f, x, y); e < E; e = next_link(n, s, e + 1, x, y)) {
            harm all = {by.touched | touches[s * 64 + e], by.stripped | strips[s * 64 + e]};
            if (in_vain(n - 1, s, all, left)) continue;
            pick(e, s);
            pairs[at] = s;
            pairs[at + 1] = e;
            int found = n == 1 ? finish(now, s, all) : level(now, n - 1, at + 2, s, e + 1, all);
            pick(e, 65535);
            if (found) return 1;
        }
        slot(now, s);
        slots++;
    }
    return 0;
}

static int hunt(int n) { /* one walk: the lists of n pairs */
    lists = slots = 0;
    harm none = {0, 0};
    need = M + 1 - least;
    int found = n ? level(start, n, 0, 0, 0, none) : finish(start, 0, none);
    if (counting) {
        printf("%d %d %ld %ld ", least, n, lists, slots);
        if (found) printf("%d\n", best);
        else printf("-\n");
    }
    return found;
}

static void put(int l, int to, int head) { /* the answers from l on, below to */
    for (; l < to; l++) {
        u16 *a = out + 7 * l;
        for (int i = 0; i < 6; i++) a[i + 1] = i + 2 < 2 * head ? pairs[i] : 0;
        a[0] = head;
    }
}

static void find_fragile(usize *fragile) { /* the fragile places by slot, a bit a link; and behind the last slot, what strips in any slot */
    u8 entries[64] = {0}, lower[64] = {0}; /* of the table on a link; lower messages with a second path through it */
    unsigned *through = strips + T * 64;
    for (int s = 0; s < T; s++) fragile[s] = 0;
    for (int e = 0; e < E; e++) through[e] = 0;
    for (int m = 0; m < M; m++)
        for (int i = first[m] + 1; i < first[m + 1]; i += place_size(i)) entries[row[i]]++;
    for (int m = 0; m < M; m++) {
        usize own = 0;
        for (int i = first[m] + 1; i < first[m + 1]; i += place_size(i)) {
            int in_time = row[i + 2], time = row[i + 1], n = row[i + 2] ? row[i + 3] + 1 : 0;
            const u16 *second = row + i + 4;
            for (int q = 0; q < n; q++) {
                time += 1 + entries[second[q]] + lower[second[q]];
                own |= 1ul << second[q];
            }
            if (in_time && time <= T)
                for (int q = 0; q < n; q++) through[second[q]] |= 1u << m;
            else fragile[row[i + 1]] |= 1ul << row[i];
        }
        for (int e = 0; e < E; e++) lower[e] += own >> e & 1;
    }
}

static int prepare(void) { /* what the search is lent; 0, or a refusal */
    int r = judge();
    if (r) return r;
    clear_cuts();
    begin();
    usize fragile[64];
    find_fragile(fragile);
    for (int e = 0, at = T * 64; e < E; e++, at++) {
        touches[at] = weight[TOUCHED][at] = 0;
        weight[STRIPPED][at] = weight[BOTH][at] = __builtin_popcount(strips[at]);
    }
    for (int s = T - 1; s >= 0; s--) {
        for (int b = 0; b < BOUNDS; b++) top[b][s] = 0;
        for (int e = 0, at = s * 64; e < E; e++, at++) {
            unsigned m = table[at] ? 1u << (table[at] - 1) : 0, bare = fragile[s] >> e & 1;
            touches[at] = touches[at + 64] | m;
            strips[at] = strips[at + 64] | (bare ? m : 0);
            weight[TOUCHED][at] = weight[TOUCHED][at + 64] + !!m;
            weight[STRIPPED][at] = weight[STRIPPED][at + 64] + bare;
        }
    }
    for (int e = 0; e < E; e++) { /* the name of a cable has what its other way has */
        int o = other[e];
        for (int at = e, to = o; e < o && at < T * 64; at += 64, to += 64) {
            touches[at] |= touches[to];
            strips[at] |= strips[to];
            weight[TOUCHED][at] += weight[TOUCHED][to];
            weight[STRIPPED][at] += weight[STRIPPED][to];
        }
    }
    for (int s = T - 1; s >= 0; s--) {
        for (int e = 0, at = s * 64; e < E; e++, at++) {
            weight[BOTH][at] = weight[TOUCHED][at] + weight[STRIPPED][at];
            for (int b = 0; b < BOUNDS; b++)
                if (weight[b][at] > top[b][s]) top[b][s] = weight[b][at];
        }
        for (int x = 0; x < 33; x++) front[s][x] = 0;
        for (int e = 0, at = s * 64; e < E; e++, at++)
            if (weight[STRIPPED][at] > front[s][weight[TOUCHED][at]]) front[s][weight[TOUCHED][at]] = weight[STRIPPED][at];
        for (int x = 31; x >= 0; x--)
            if (front[s][x + 1] > front[s][x]) front[s][x] = front[s][x + 1];
    }
    return 0;
}

static int only(int k, int l) { /* the verdict for one l: how many pairs plus one, or 0 */
    int r = prepare();
    if (r) return small(r, 0);
    if (k > 3 || l > M) return small(refuse(11, 0), 0);
    least = l;
    for (int n = 0; n <= k && l; n++)
        if (hunt(n)) {
            for (int i = 0; i < 2 * n; i++) out[i] = pairs[i];
            return n + 1;
        }
    return 0;
}

static int verdict(int k) { /* all answers: how many numbers they are */
    int r = prepare();
    if (r) return small(r, 0);
    least = M;
    for (int n = 0; n <= k && least;) { /* for l 0 nothing is to be asked */
        if (!hunt(n)) n++;
        else {
            put(best + 1, least + 1, n + 1);
            least = best;
        }
    }
    put(0, least + 1, 0);
    return 7 * (M + 1);
}

static void need_fewer(void) { /* no list leaves fewer than none */
    need = least ? M + 1 - least : 65536;
}

static void breaker(const position *, unsigned, int, int, int, harm);

static void network(const position *ps, int n, int s, harm by) { /* the network's turn in slot s: all messages move */
    position now[32];
    copy(now, ps);
    slot(now, s);
    if (s + 1 < T) {
        breaker(now, away(now), n, s + 1, 0, by);
        return;
    }
    int home = arrived(now);
    if (home < least) {
        least = home;
        need_fewer();
    }
}

/* The breaker's turn in slot s, with n pairs more, from link e on. Once no link of a slot weighs enough, none of a later one does: the pairs
   picked are all, and where they lose too few the game is over. */
static void breaker(const position *ps, unsigned left, int n, int s, int e, harm by) {
    int x = __builtin_popcount(by.touched & left), y = __builtin_popcount(by.stripped & left);
    int f = n ? next_link(n, s, 0, need - x, need - y) : E;
    if (f == E) {
        if (__builtin_popcount(by.touched & by.stripped & left) < need) return;
        n = 0;
    } else
        for (e = next_link(n, s, e > f ? e : f, need - x, need - y); e < E; e = next_link(n, s, e + 1, need - x, need - y)) {
            harm all = {by.touched | touches[s * 64 + e], by.stripped | strips[s * 64 + e]};
            if (in_vain(n - 1, s, all, left)) continue;
            pick(e, s);
            breaker(ps, left, n - 1, s, e + 1, all);
            pick(e, 65535);
        }
    network(ps, n, s, by);
}

/* The least number of arrivals for 0 to k pairs: how many numbers they are. Each game begins with the least of the one before. */
static int figures(int k) {
    int r = prepare();
    if (r) return small(r, 0);
    if (k > 3) return small(refuse(11, 0), 0);
    harm none = {0, 0};
    least = M;
    for (int n = 0; n <= k; n++) {
        need_fewer();
        breaker(start, away(start), n, 0, 0, none);
        out[n] = least;
    }
    return k + 1;
}

/* Which cuts explain a capture: by slot and message the link that it has crossed, plus one, or 0. */
static u8 crossed[64 * 32], input[6144];
static int given; /* how many numbers were read */
enum { NOTHING = -1, DEAD = -2 };

static int past[64]; /* of each link, the slot behind the last one in which the capture has it crossed: it is whole up to there */

static int keep(int *twice) { /* the capture into its table, and whether a message is on two links in one slot: refusal 23 */
    int last = -1;
    for (int i = 0; i < 64 * 32; i++) crossed[i] = 0;
    for (int e = 0; e < 64; e++) past[e] = 0;
    *twice = 0;
    for (int j = 0; j < given; j += 3) {
        int s = input[j], e = input[j + 1], m = input[j + 2], code = (s * 64 + e) * 32 + m;
        if (given - j < 3 || s >= T || e >= E || m >= M || code <= last) return refuse(23, j / 3);
        last = code;
        past[e] = s + 1;
        if (crossed[s * 32 + m]) *twice = 1;
        else crossed[s * 32 + m] = e + 1;
    }
    return 0;
}

/* One slot against the capture, from one place to another: nothing, or what the foremost message that differs says, which is a link that
   every list that explains the capture has cut, or that there is no such list. */
static int look(const position *ps, position *next, int i) {
    usize taken = 0;
    slots++;
    for (int m = 0; m < M; m++) {
        position p = ps[m];
        int over = 0, clue = DEAD; /* the link that it crosses, plus one, or 0 */
        if (p.left) {
            int e = row[p.at];
            if (!p.turned) {
                if (cut_from[e] > i) {
                    clue = e;
                    if (row[p.at + 1] == i) over = e + 1, p.at += place_size(p.at), p.left--;
                } else if (row[p.at + 2]) {
                    turn(&p);
                    e = row[p.at];
                }
            }
            if (p.turned && cut_from[e] > i && !table[i * 64 + e] && !(taken >> e & 1)) {
                taken |= 1ul << e;
                clue = e;
                over = e + 1;
                p.at++;
                p.left--;
            }
        }
        if (over != crossed[i * 32 + m]) return clue;
        next[m] = p;
    }
    return NOTHING;
}

/* How many links are named that every list has cut which goes on from the pairs picked with at most n more and explains the capture, and which; or -1
   where more are named than that, or nothing can mend it, so that there is no such list. */
static int suspect(const position *ps, int i, int n, usize *links) {
    position room[2][32];
    int names[3], named = 0, none = 0;
    *links = 0;
    while (i < T && !none) {
        int clue = look(ps, room[i & 1], i);
        if (clue == NOTHING) ps = room[i++ & 1];
        else if (clue == DEAD || named == n) none = 1;
        else {
            names[named++] = clue;
            cut(clue, i);
            *links |= 1ul << clue | 1ul << other[clue];
        }
    }
    for (int j = 0; j < named; j++) cut(names[j], 65535);
    return none ? -1 : named;
}

/* The first list of n more pairs, from slot s and link e on, that explains the capture. Where as many links are named, it cuts no other. */
static int seek(const position *ps, int n, int at, int s, int e, int named, usize links) {
    position room[2][32];
    usize only = named == n ? links : ~0ul;
    for (; s < T; s++, e = 0) {
        for (; e < E; e++) {
            if (closed[e] || !(only >> e & 1) || s < past[e] || s < past[other[e]]) continue;
            pick(e, s);
            pairs[at] = s;
            pairs[at + 1] = e;
            named = suspect(ps, s, n - 1, &links);
            int found = named >= 0 && (n == 1 || seek(ps, n - 1, at + 2, s, e + 1, named, links));
            pick(e, 65535);
            if (found) return 1;
        }
        if (look(ps, room[s & 1], s) != NOTHING) return 0;
        ps = room[s & 1];
    }
    return 0;
}

static int explain(int k) { /* the first list that explains the capture: how many pairs plus one, or 0 */
    int twice, r = judge();
    if (r) return small(r, 0);
    if (k > 3) return small(refuse(11, 0), 0);
    r = keep(&twice);
    if (r) return small(r, 0);
    clear_cuts();
    begin();
    slots = 0;
    if (twice) return 0;
    usize links;
    int named = suspect(start, 0, k, &links);
    if (named < 0) return 0;
    for (int n = named; n <= k; n++)
        if (!n || seek(start, n, 0, 0, 0, named, links)) {
            for (int i = 0; i < 2 * n; i++) out[i] = pairs[i];
            return n + 1;
        }
    return 0;
}

static int told(int k) { /* what `slotsK` tells */
    int r = explain(k);
    if (r) printf("%d %ld\n", r - 1, slots);
    else printf("- %ld\n", slots);
    return 0;
}

static int crossings(void) { /* the capture of the replay under the cuts that were read: links rise in a slot, and then messages */
    judge();
    clear_cuts();
    for (int i = 0; i + 1 < given; i += 2) cut(input[i + 1], input[i]);
    begin();
    for (int i = 0; i < T; i++) {
        tell(start, i, out);
        for (int e = 0; e < E; e++)
            for (int m = 0; m < M; m++)
                if ((out[2 * m] == 2 || out[2 * m] == 3) && out[2 * m + 1] == e) printf("%d %d %d\n", i, e, m);
    }
    return 0;
}

static int ask(char what, int k, int l) {
    if (what == 'a') return read_plan();
    if (what == 'd') return small(judge(), count);
    if (what == 'p') return replay();
    if (what == 'l') return only(k, l);
    if (what == 'g') return figures(k);
    if (what == 'f') return explain(k);
    if (what == 'o') return told(k);
    if (what == 'c') return crossings();
    return verdict(k);
}

static unsigned mixed(unsigned sum, const u16 *numbers, int n) {
    usize all = sum;
    for (int i = 0; i < n; i++) all = (all * 31 + numbers[i]) % 1000003;
    return all;
}

int main(int argc, char **argv) {
    int fd = open("plan.bin", 0), turns = argc > 2 ? atoi(argv[2]) : 0, l = argc > 3 ? atoi(argv[3]) : 0;
    if (fd >= 0) size = read(fd, file, sizeof file);
    if (argc < 2) return 1;
    const char *word = argv[1];
    int n = 0;
    while (word[n]) n++;
    counting = word[2] == 'u'; /* the third letter tells questions apart */
    int telling = counting || word[2] == 'o' || word[2] == 'c';
    if (word[2] == 'f' || word[2] == 'o' || word[2] == 'c')
        for (int got = 1; got > 0; given += got) got = read(0, input + given, sizeof input - given);
    unsigned sum = 0;
    for (read_plan(); turns-- > 0;) sum = (sum + ask(word[2], word[n - 1] % 16, l)) % 65536;
    if (!telling) printf("%u\n", mixed(mixed(sum, row, 10405), out, 4096));
    return 0;
}
