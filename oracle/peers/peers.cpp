// Other libraries behind plain names, for the measurements: CRoaring, Boost.ICL, protobuf.
#include <boost/icl/interval_set.hpp>
#include <cstdint>
#include <google/protobuf/io/coded_stream.h>
#include <google/protobuf/io/zero_copy_stream_impl_lite.h>
#include <roaring/roaring.h>
typedef uint32_t u32;
typedef uint64_t u64;
typedef size_t sz;
using S = boost::icl::interval_set<u32>;
using I = boost::icl::interval<u32>;
using In = google::protobuf::io::CodedInputStream;
using Out = google::protobuf::io::CodedOutputStream;
using Lent = google::protobuf::io::ArrayOutputStream;
extern "C" {
void *ro_make(const u32 *t, sz n) {
    auto r = roaring_bitmap_create();
    for (sz i = 0; i < n; i++) roaring_bitmap_add_range_closed(r, t[2 * i], t[2 * i + 1] - 1);
    roaring_bitmap_run_optimize(r);
    roaring_bitmap_shrink_to_fit(r);
    return r;
}
u64 ro_card(void *r) { return roaring_bitmap_get_cardinality((roaring_bitmap_t *)r); }
void *ro_op(int op, void *a, void *b) {
    auto x = (roaring_bitmap_t *)a, y = (roaring_bitmap_t *)b;
    return op == 0 ? roaring_bitmap_or(x, y) : op == 1 ? roaring_bitmap_andnot(x, y) : roaring_bitmap_and(x, y);
}
void ro_free(void *r) { roaring_bitmap_free((roaring_bitmap_t *)r); }
void *icl_make(const u32 *t, sz n) {
    auto s = new S;
    for (sz i = 0; i < n; i++) s->insert(s->end(), I::right_open(t[2 * i], t[2 * i + 1]));
    return s;
}
sz icl_op(int op, void *a, void *b) {
    S &x = *(S *)a, &y = *(S *)b;
    if (op == 0) { S c = x; c += y; return c.iterative_size(); }
    if (op == 1) { S c = x; c -= y; return c.iterative_size(); }
    S c = x & y;
    return c.iterative_size();
}
void icl_free(void *a) { delete (S *)a; }
u64 pb_dec64(const uint8_t *b, sz len, sz n) { In c(b, (int)len); u64 s = 0; for (sz i = 0; i < n; i++) { uint64_t v; if (!c.ReadVarint64(&v)) return 0; s ^= v; } return s; }
u32 pb_dec32(const uint8_t *b, sz len, sz n) { In c(b, (int)len); u32 s = 0; for (sz i = 0; i < n; i++) { uint32_t v; if (!c.ReadVarint32(&v)) return 0; s ^= v; } return s; }
sz pb_enc64(const u64 *v, sz n, uint8_t *o) { uint8_t *p = o; for (sz i = 0; i < n; i++) p = Out::WriteVarint64ToArray(v[i], p); return p - o; }
sz pb_enc32(const u64 *v, sz n, uint8_t *o) { uint8_t *p = o; for (sz i = 0; i < n; i++) p = Out::WriteVarint32ToArray((u32)v[i], p); return p - o; }
// the same with its own test of the room
sz pb_room64(const u64 *v, sz n, uint8_t *o, sz len) { Lent a(o, (int)len); Out c(&a); for (sz i = 0; i < n; i++) c.WriteVarint64(v[i]); return c.HadError() ? 0 : c.ByteCount(); }
sz pb_room32(const u64 *v, sz n, uint8_t *o, sz len) { Lent a(o, (int)len); Out c(&a); for (sz i = 0; i < n; i++) c.WriteVarint32((u32)v[i]); return c.HadError() ? 0 : c.ByteCount(); }
// no library: numbers of one byte and no others, in a plain loop, with a test of the room and without
sz put_room(const u64 *v, sz n, uint8_t *o, sz len) { sz at = 0; for (sz i = 0; i < n; i++) { if (v[i] >= 128 || at >= len) return 0; o[at++] = (uint8_t)v[i]; } return at; }
sz put_blind(const u64 *v, sz n, uint8_t *o) { sz at = 0; for (sz i = 0; i < n; i++) { if (v[i] >= 128) return 0; o[at++] = (uint8_t)v[i]; } return at; }
}
