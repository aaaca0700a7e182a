// The operations on books in C, unverified and tuned by hand: the bar for speed, and a second opinion. All head patterns of a clause
// are scheduled at once: lane a of a 64-bit word says "under head pattern a". Not for use: `limit_plan` keeps its orders in static memory.
#include <shodhvirup.h>
#include <stddef.h>
#include <stdint.h>
#include <string.h>

#include "limit.h"

typedef uint8_t u8;
typedef uint64_t u64;
typedef uint32_t u32;
typedef shodh_reply reply;
typedef struct {
    u8 pred, n, negated;
    u8 args[6];
} sub;
typedef struct {
    u8 pred, n;
    u8 head[6];
    sub body[8];
} clause;
typedef struct {
    u8 n;
    u8 m[20];
} masks;
typedef struct {
    int np, nc, nq;
    u8 arity[64];
    u8 has[64];
    masks mo[64];
    clause cl[64];
    sub q[8];
    size_t pr_end, mo_end, cl_end;
    size_t cl_at[65];
} book;
// the lanes in which position i of the head is bound
static const u64 H[6] = {0xAAAAAAAAAAAAAAAAull, 0xCCCCCCCCCCCCCCCCull, 0xF0F0F0F0F0F0F0F0ull,
                         0xFF00FF00FF00FF00ull, 0xFFFF0000FFFF0000ull, 0xFFFFFFFF00000000ull};
// a refusal
static reply R(u32 n, u64 v)
{
    reply r = {n, v, 0};
    return r;
}

// the subgoal whose predicate is at p, behind SG (k = 4) or NG (5): the place after it, or 0 and the fault
static inline __attribute__((always_inline)) size_t read_sub(const u8 *s, size_t len, size_t p, int k, const book *b, sub *x, reply *fault)
{
    if (p >= len) {
        *fault = R(1, len);
        return 0;
    }
    u8 pr = s[p++];
    if (pr >= b->np) {
        *fault = R(4, p - 1);
        return 0;
    }
    for (int i = 0; i < b->arity[pr]; i++) {
        if (p >= len) {
            *fault = R(1, len);
            return 0;
        }
        u8 a = s[p++];
        if (a > 15 && a < (k == 4 ? 254 : 255)) {
            *fault = R(4, p - 1);
            return 0;
        }
        x->args[i] = a;
    }
    x->pred = pr;
    x->n = b->arity[pr];
    x->negated = k == 5;
    return p;
}

// the book that the bytes are, or its first fault and the byte at fault; phases: 0 PR, 1 MO, 2 CL, 3 QU
static reply read_book(const u8 *s, size_t len, book *b)
{
    b->np = b->nc = b->nq = 0;
    memset(b->has, 0, 64);
    int phase = 0, lastmo = -1, inbody = 0;
    size_t at = 0;
    int nsub = 0;
    while (at < len) {
        if (len - at < 2)
            return R(1, len);
        u8 c0 = s[at], c1 = s[at + 1];
        int k;
        if (c0 == 'P' && c1 == 'R')
            k = 0;
        else if (c0 == 'M' && c1 == 'O')
            k = 1;
        else if (c0 == 'C' && c1 == 'L')
            k = 2;
        else if (c0 == 'Q' && c1 == 'U')
            k = 3;
        else if (c0 == 'S' && c1 == 'G')
            k = 4;
        else if (c0 == 'N' && c1 == 'G')
            k = 5;
        else
            return R(2, at);
        size_t p = at + 2;
        if (k < 4) {
            if (phase == 3 || k < phase)
                return R(3, at);
        } else if (!inbody)
            return R(3, at);
        if (k == 0) {
            if (b->np == 64)
                return R(5, at);
            if (p >= len)
                return R(1, len);
            if (s[p] > 6)
                return R(4, p);
            b->arity[b->np++] = s[p];
            at = p + 1;
            continue;
        }
        if (k == 1) {
            phase = 1;
            if (p >= len)
                return R(1, len);
            u8 pr = s[p++];
            if (pr >= b->np)
                return R(4, p - 1);
            if (p >= len)
                return R(1, len);
            u8 n = s[p++];
            if (n > 20)
                return R(4, p - 1);
            for (int i = 0; i < n; i++) {
                if (p >= len)
                    return R(1, len);
                if (s[p] >> b->arity[pr])
                    return R(4, p);
                b->mo[pr].m[i] = s[p++];
            }
            if ((int)pr <= lastmo)
                return R(6, at + 2);
            lastmo = pr;
            b->has[pr] = 1;
            b->mo[pr].n = n;
            at = p;
            continue;
        }
        if (k == 2) {
            phase = 2;
            if (b->nc == 64)
                return R(5, at);
            if (p >= len)
                return R(1, len);
            u8 pr = s[p++];
            if (pr >= b->np)
                return R(4, p - 1);
            clause *c = &b->cl[b->nc];
            for (int i = 0; i < b->arity[pr]; i++) {
                if (p >= len)
                    return R(1, len);
                u8 a = s[p++];
                if (a > 15 && a != 255)
                    return R(4, p - 1);
                c->head[i] = a;
            }
            c->pred = pr;
            c->n = 0;
            b->cl_at[b->nc] = at;
            b->nc++;
            inbody = 1;
            nsub = 0;
            at = p;
            continue;
        }
        if (k == 3) {
            phase = 3;
            inbody = 1;
            nsub = 0;
            b->cl_end = at;
            at = p;
            continue;
        }
        if (nsub == 8)
            return R(5, at);
        reply fault;
        p = read_sub(s, len, p, k, b, phase == 3 ? &b->q[b->nq] : &b->cl[b->nc - 1].body[nsub], &fault);
        if (p == 0)
            return fault;
        nsub++;
        if (phase == 3)
            b->nq++;
        else
            b->cl[b->nc - 1].n++;
        at = p;
    }
    if (phase != 3)
        return R(3, len);
    return R(0, 0);
}
// the least patterns of a set that is closed upwards
static masks minimal(u64 adm)
{
    masks r;
    r.n = 0;
    while (adm) {
        int a = __builtin_ctzll(adm);
        adm &= adm - 1;
        r.m[r.n++] = a;
        u64 up = ~0ull;
        for (int i = 0; i < 6; i++)
            if (a >> i & 1)
                up &= H[i];
        adm &= ~up;
    }
    return r;
}
// the patterns that have all bits of some mask
static u64 upclose(const masks *c)
{
    u64 s = 0;
    for (int i = 0; i < c->n; i++) {
        u64 up = ~0ull;
        for (int j = 0; j < 6; j++)
            if (c->m[i] >> j & 1)
                up &= H[j];
        s |= up;
    }
    return s;
}
// the lanes in which a call can be made; a negated one asks for every argument
static inline u64 lanes_ready(const sub *x, const masks *c, const u64 *var)
{
    u64 arg[6];
    for (int i = 0; i < x->n; i++)
        arg[i] = x->args[i] < 16 ? var[x->args[i]] : x->args[i] == 255 ? ~0ull : 0;
    u64 r = 0;
    for (int i = 0; i < c->n; i++) {
        u64 w = ~0ull;
        for (int m = c->m[i]; m; m &= m - 1)
            w &= arg[__builtin_ctz(m)];
        r |= w;
    }
    if (x->negated)
        for (int i = 0; i < x->n; i++)
            r &= arg[i];
    return r;
}
// the head patterns under which a clause has a good order, and no head variable is left unbound by it
static u64 clause_good(const clause *c, int arity, const masks *t)
{
    u64 var[16] = {0}, placed[8] = {0};
    for (int i = 0; i < arity; i++)
        if (c->head[i] < 16)
            var[c->head[i]] |= H[i];
    int ch = 1;
    while (ch) {
        ch = 0;
        for (int j = 0; j < c->n; j++) {
            if (!~placed[j])
                continue;
            const sub *x = &c->body[j];
            u64 r = lanes_ready(x, &t[x->pred], var) & ~placed[j];
            if (r) {
                ch = 1;
                placed[j] |= r;
                for (int i = 0; i < x->n && !x->negated; i++)
                    if (x->args[i] < 16)
                        var[x->args[i]] |= r;
            }
        }
    }
    u64 g = ~0ull;
    for (int j = 0; j < c->n; j++)
        g &= placed[j];
    for (int i = 0; i < arity; i++)
        if (c->head[i] < 16)
            g &= var[c->head[i]];
    return g;
}
// all patterns of an arity
static u64 full(int arity)
{
    return arity == 6 ? ~0ull : (1ull << (1 << arity)) - 1;
}
// the final table, as masks and as patterns, and its rounds
static u64 needs(const book *b, masks *t, u64 *adm)
{
    u64 callers[64], cls[64];
    memset(callers, 0, sizeof callers);
    memset(cls, 0, sizeof cls);
    masks trivial = {1, {0}};
    for (int p = 0; p < b->np; p++) {
        if (b->has[p]) {
            adm[p] = upclose(&b->mo[p]) & full(b->arity[p]);
            t[p] = minimal(adm[p]);
        } else {
            t[p] = trivial;
            adm[p] = full(b->arity[p]);
        }
    }
    u64 todo = 0;
    for (int i = 0; i < b->nc; i++) {
        int p = b->cl[i].pred;
        cls[p] |= 1ull << i;
        if (b->cl[i].n || b->arity[p])
            todo |= 1ull << p;
        for (int j = 0; j < b->cl[i].n; j++)
            callers[b->cl[i].body[j].pred] |= 1ull << p;
    }
    for (u64 rounds = 0;; rounds++) {
        u64 next[64], changed = 0;
        for (u64 w = todo; w; w &= w - 1) {
            int p = __builtin_ctzll(w);
            u64 g = adm[p];
            for (u64 c = cls[p]; c && g; c &= c - 1) {
                int i = __builtin_ctzll(c);
                g &= clause_good(&b->cl[i], b->arity[p], t);
            }
            if (g != adm[p]) {
                changed |= 1ull << p;
                next[p] = g;
            }
        }
        if (!changed)
            return rounds;
        todo = 0;
        for (u64 w = changed; w; w &= w - 1) {
            int p = __builtin_ctzll(w);
            adm[p] = next[p];
            t[p] = minimal(next[p]);
            todo |= callers[p];
        }
    }
}
// the first good order of a body and the pattern of each call in it, or 0
static int order(const sub *body, int n, u32 bound, const u64 *adm, u8 *places, u8 *pats)
{
    u32 left = (1u << n) - 1;
    int k = 0;
    while (left) {
        int j;
        u32 l = left;
        int ok = 0;
        for (; l; l &= l - 1) {
            j = __builtin_ctz(l);
            const sub *x = &body[j];
            int pat = 0;
            for (int i = 0; i < x->n; i++)
                if (x->args[i] == 255 || (x->args[i] < 16 && (bound >> x->args[i] & 1)))
                    pat |= 1 << i;
            if ((adm[x->pred] >> pat & 1) && (!x->negated || pat + 1 == 1 << x->n)) {
                ok = 1;
                places[k] = j;
                pats[k] = pat;
                k++;
                for (int i = 0; i < x->n && !x->negated; i++)
                    if (x->args[i] < 16)
                        bound |= 1u << x->args[i];
                left &= ~(1u << j);
                break;
            }
        }
        if (!ok)
            return 0;
    }
    return 1;
}
reply limit_check(const u8 *s, size_t len)
{
    book b;
    return read_book(s, len, &b);
}
reply limit_analyse(const u8 *s, size_t len, u8 *out, size_t room)
{
    book b;
    reply r = read_book(s, len, &b);
    if (r.number)
        return r;
    masks t[64];
    u64 adm[64];
    u64 rounds = needs(&b, t, adm);
    size_t need = 0;
    for (int p = 0; p < b.np; p++)
        need += 5 + t[p].n;
    if (room < need)
        return R(9, need);
    u8 *o = out;
    for (int p = 0; p < b.np; p++) {
        *o++ = 'C';
        *o++ = 'N';
        *o++ = p;
        *o++ = t[p].n;
        memcpy(o, t[p].m, t[p].n);
        o += t[p].n;
        *o++ = __builtin_popcountll(adm[p]);
    }
    r.value = need;
    r.rounds = rounds;
    return r;
}
reply limit_plan(const u8 *s, size_t len, u8 *out, size_t room)
{
    book b;
    reply r = read_book(s, len, &b);
    if (r.number)
        return r;
    masks t[64];
    u64 adm[64];
    needs(&b, t, adm);
    u8 qp[8], pp[8];
    if (!order(b.q, b.nq, 0, adm, qp, pp))
        return R(7, 0);
    u64 reach[64] = {0}, done[64] = {0};
    u64 work = 0;
    int cnt[64] = {0};
    u8 own[64][64];
    for (int i = 0; i < b.nc; i++)
        own[b.cl[i].pred][cnt[b.cl[i].pred]++] = i;
    for (int k = 0; k < b.nq; k++) {
        int p = b.q[qp[k]].pred;
        reach[p] |= 1ull << pp[k];
        if (cnt[p])
            work |= 1ull << p;
    }
    static u8 ord[64][64][8];
    size_t need = 3 + b.nq;
    while (work) {
        int p = __builtin_ctzll(work);
        u64 a = reach[p] & ~done[p];
        if (!a) {
            work &= work - 1;
            continue;
        }
        int pat = __builtin_ctzll(a);
        done[p] |= 1ull << pat;
        for (int k = 0; k < cnt[p]; k++) {
            clause *c = &b.cl[own[p][k]];
            u32 bound = 0;
            for (int i = 0; i < b.arity[p]; i++)
                if ((pat >> i & 1) && c->head[i] < 16)
                    bound |= 1u << c->head[i];
            u8 pl[8], pt[8];
            order(c->body, c->n, bound, adm, pl, pt);
            memcpy(ord[own[p][k]][pat], pl, 8);
            need += 5 + c->n;
            for (int j = 0; j < c->n; j++) {
                int q = c->body[pl[j]].pred;
                reach[q] |= 1ull << pt[j];
                if (cnt[q] && (reach[q] & ~done[q]))
                    work |= 1ull << q;
            }
        }
    }
    if (room < need)
        return R(9, need);
    u8 *o = out;
    *o++ = 'Q';
    *o++ = 'O';
    *o++ = b.nq;
    memcpy(o, qp, b.nq);
    o += b.nq;
    for (int p = 0; p < b.np; p++)
        if (cnt[p])
            for (u64 a = reach[p]; a; a &= a - 1) {
                int pat = __builtin_ctzll(a);
                for (int k = 0; k < cnt[p]; k++) {
                    int i = own[p][k];
                    int n = b.cl[i].n;
                    *o++ = 'C';
                    *o++ = 'O';
                    *o++ = i;
                    *o++ = pat;
                    *o++ = n;
                    memcpy(o, ord[i][pat], n);
                    o += n;
                }
            }
    r.value = need;
    return r;
}
reply limit_close(const u8 *s, size_t len, u64 set, u8 *out, size_t room)
{
    book b;
    reply r = read_book(s, len, &b);
    if (r.number)
        return r;
    if (b.np < 64 && set >> b.np)
        return R(8, b.np + __builtin_ctzll(set >> b.np));
    masks t[64];
    u64 adm[64];
    needs(&b, t, adm);
    b.cl_at[b.nc] = b.cl_end;
    size_t need = 3 * b.np;
    for (int p = 0; p < b.np; p++) {
        if (set >> p & 1)
            need += 4 + t[p].n;
        else if (b.has[p])
            need += 4 + b.mo[p].n;
    }
    for (int i = 0; i < b.nc; i++)
        if (!(set >> b.cl[i].pred & 1))
            need += b.cl_at[i + 1] - b.cl_at[i];
    need += len - b.cl_end;
    if (room < need)
        return R(9, need);
    u8 *o = out;
    memcpy(o, s, 3 * b.np);
    o += 3 * b.np;
    for (int p = 0; p < b.np; p++) {
        masks *m = set >> p & 1 ? &t[p] : b.has[p] ? &b.mo[p] : 0;
        if (!m)
            continue;
        *o++ = 'M';
        *o++ = 'O';
        *o++ = p;
        *o++ = m->n;
        memcpy(o, m->m, m->n);
        o += m->n;
    }
    for (int i = 0; i < b.nc; i++)
        if (!(set >> b.cl[i].pred & 1)) {
            size_t n = b.cl_at[i + 1] - b.cl_at[i];
            memcpy(o, s + b.cl_at[i], n);
            o += n;
        }
    memcpy(o, s + b.cl_end, len - b.cl_end);
    r.value = need;
    return r;
}

// the choice or the joint of two lists of masks
// two bytes are this mark, or one of the six
static int is(const u8 *s, const char *mark)
{
    return s[0] == mark[0] && s[1] == mark[1];
}
static int known(const u8 *s)
{
    return is(s, "PR") || is(s, "MO") || is(s, "CL") || is(s, "SG") || is(s, "NG") || is(s, "QU");
}
reply limit_page(const u8 *s, size_t len, const u8 *run, size_t run_len, u8 *out, size_t room, shodh_tally *tally)
{
    book b;
    reply r = read_book(s, len, &b);
    if (r.number)
        return r;
    masks t[64];
    u64 adm[64];
    needs(&b, t, adm);
    u8 image[SHODH_PAGE_SIZE], *o = image, pats[8];
    u64 queries = 0, accepted = 0;
    sub q[8];
    for (size_t at = 0; at < run_len;) {
        if (run_len - at < 2)
            return R(1, run_len);
        if (!is(run + at, "QU"))
            return R(known(run + at) ? 3 : 2, at);
        if (queries++ == 256)
            return R(5, at);
        int n = 0;
        for (at += 2; run_len - at >= 2 && (is(run + at, "SG") || is(run + at, "NG")); n++) {
            if (n == 8)
                return R(5, at);
            at = read_sub(run, run_len, at + 2, run[at] == 'S' ? 4 : 5, &b, &q[n], &r);
            if (at == 0)
                return r;
        }
        if (order(q, n, 0, adm, o + 4, pats)) {
            o[0] = 0;
            o[1] = 'Q';
            o[2] = 'O';
            o[3] = n;
            o += 4 + n;
            accepted++;
        } else
            *o++ = 7;
    }
    size_t need = o - image;
    if (room < need)
        return R(9, need);
    memcpy(out, image, need);
    tally->accepted = accepted;
    tally->turned_away = queries - accepted;
    r.value = need;
    return r;
}
static reply combine(int joint, u8 arity, const u8 *x, size_t nx, const u8 *y, size_t ny, u8 *out, size_t room)
{
    const u8 *lists[2] = {x, y};
    const size_t sizes[2] = {nx, ny};
    u64 set[2] = {0, 0};
    if (arity > 6)
        return R(4, 0);
    for (int k = 0; k < 2; k++) {
        masks list;
        if (sizes[k] > 20)
            return R(5, 0);
        list.n = (u8)sizes[k];
        for (size_t i = 0; i < sizes[k]; i++) {
            if (lists[k][i] >> arity)
                return R(4, 0);
            list.m[i] = lists[k][i];
        }
        set[k] = upclose(&list);
    }
    masks result = minimal(joint ? set[0] & set[1] : set[0] | set[1]);
    if (room < result.n)
        return R(9, result.n);
    memcpy(out, result.m, result.n);
    return R(0, result.n);
}

reply limit_choice(u8 arity, const u8 *x, size_t nx, const u8 *y, size_t ny, u8 *out, size_t room)
{
    return combine(0, arity, x, nx, y, ny, out, room);
}

reply limit_joint(u8 arity, const u8 *x, size_t nx, const u8 *y, size_t ny, u8 *out, size_t room)
{
    return combine(1, arity, x, nx, y, ny, out, room);
}
