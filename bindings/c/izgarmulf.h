/* Izgarmulf: clock tables, state vectors and their numbers. Made from crates/ffi/src/lib.rt by bindings/c/header.
 *
 * A slice crosses as a pointer and how many elements may be read or written there; with 0 elements the pointer is not followed.
 * The caller sees to this: each pointer has as many elements as its length says; an output overlaps neither an input nor another output;
 * a `bool` is 0 or 1. Nothing else is assumed: counts, places and elements may be anything, and every call returns.
 * A client is a uint64_t and a clock a uint32_t. C does not keep the two apart: a client passed where a clock is meant is cut to 32 bits.
 * Each answer has `no`: 0 done, 1 END, 2 LONG, 3 RANGE, 4 FULL, 5 MALFORMED, 6 SIGN.
 */
#ifndef IZGARMULF_H
#define IZGARMULF_H
#include <stdbool.h>
#include <stddef.h>
#include <stdint.h>
#ifdef __cplusplus
extern "C" {
#endif

enum { IZ_DONE, IZ_END, IZ_LONG, IZ_RANGE, IZ_FULL, IZ_MALFORMED, IZ_SIGN };

/* A number read: the number of the answer (docs/RULES.md, "Refusals"), 0 for done; the value; the place past it, or as given. */
typedef struct { uint32_t no; uint64_t value; size_t next; } iz_number;
/* The same of a signed number. The flag is false where none is kept. */
typedef struct { uint32_t no; int64_t value; bool is_negative; size_t next; } iz_integer;
/* A number written: the place past it, or as given. */
typedef struct { uint32_t no; size_t next; } iz_wrote;
/* A table written: how many rows, 0 if refused. */
typedef struct { uint32_t no; size_t count; } iz_made;
/* A yes or no: false if refused. */
typedef struct { uint32_t no; bool value; } iz_told;
/* How many: 0 if refused. */
typedef struct { uint32_t no; size_t value; } iz_counted;
/* An index, or none: then `some` is false and the value 0. */
typedef struct { uint32_t no; bool some; size_t value; } iz_place;
/* A clock, or none: then `some` is false and the value 0. */
typedef struct { uint32_t no; bool some; uint32_t value; } iz_edge;
/* A row of a range table, or none: then `some` is false, start and end 0. */
typedef struct { uint32_t no; bool some; uint32_t start; uint32_t end; } iz_found;
/* A clock: 0 if refused. */
typedef struct { uint32_t no; uint32_t value; } iz_got;
/* How two vectors compare: 1 less, 2 equal, 3 greater, 0 none of these or refused. */
typedef struct { uint32_t no; uint8_t value; } iz_order;
/* A vector read: how many rows, and the place past it; 0 and the place as given if refused. */
typedef struct { uint32_t no; size_t count; size_t next; } iz_decoded;

iz_number iz_read_u8(const uint8_t *bytes, size_t bytes_len, size_t at);
iz_number iz_read_u32(const uint8_t *bytes, size_t bytes_len, size_t at);
iz_number iz_read_u64(const uint8_t *bytes, size_t bytes_len, size_t at);
iz_number iz_read_usize(const uint8_t *bytes, size_t bytes_len, size_t at);
iz_integer iz_read_i8(const uint8_t *bytes, size_t bytes_len, size_t at);
iz_integer iz_read_i16(const uint8_t *bytes, size_t bytes_len, size_t at);
iz_integer iz_read_i32(const uint8_t *bytes, size_t bytes_len, size_t at);
iz_integer iz_read_i64(const uint8_t *bytes, size_t bytes_len, size_t at);
iz_integer iz_read_isize(const uint8_t *bytes, size_t bytes_len, size_t at);
iz_integer iz_read_signed_i8(const uint8_t *bytes, size_t bytes_len, size_t at);
iz_integer iz_read_signed_i16(const uint8_t *bytes, size_t bytes_len, size_t at);
iz_integer iz_read_signed_i32(const uint8_t *bytes, size_t bytes_len, size_t at);
iz_integer iz_read_signed_i64(const uint8_t *bytes, size_t bytes_len, size_t at);
iz_integer iz_read_signed_isize(const uint8_t *bytes, size_t bytes_len, size_t at);
iz_wrote iz_write_u8(uint8_t value, uint8_t *buf, size_t buf_len, size_t at);
iz_wrote iz_write_u32(uint32_t value, uint8_t *buf, size_t buf_len, size_t at);
iz_wrote iz_write_u64(uint64_t value, uint8_t *buf, size_t buf_len, size_t at);
iz_wrote iz_write_usize(size_t value, uint8_t *buf, size_t buf_len, size_t at);
iz_wrote iz_write_i8(int8_t value, uint8_t *buf, size_t buf_len, size_t at);
iz_wrote iz_write_i16(int16_t value, uint8_t *buf, size_t buf_len, size_t at);
iz_wrote iz_write_i32(int32_t value, uint8_t *buf, size_t buf_len, size_t at);
iz_wrote iz_write_i64(int64_t value, uint8_t *buf, size_t buf_len, size_t at);
iz_wrote iz_write_isize(ptrdiff_t value, uint8_t *buf, size_t buf_len, size_t at);
iz_wrote iz_write_signed_i8(int8_t value, bool is_negative, uint8_t *buf, size_t buf_len, size_t at);
iz_wrote iz_write_signed_i16(int16_t value, bool is_negative, uint8_t *buf, size_t buf_len, size_t at);
iz_wrote iz_write_signed_i32(int32_t value, bool is_negative, uint8_t *buf, size_t buf_len, size_t at);
iz_wrote iz_write_signed_i64(int64_t value, bool is_negative, uint8_t *buf, size_t buf_len, size_t at);
iz_wrote iz_write_signed_isize(ptrdiff_t value, bool is_negative, uint8_t *buf, size_t buf_len, size_t at);
/* How many bytes a number takes. */
size_t iz_length_u64(uint64_t value);
size_t iz_length_u32(uint32_t value);
size_t iz_length_i64(int64_t value);
iz_told iz_ranges_contains_clock(const uint32_t *t, size_t t_len, size_t n, uint32_t clock);
iz_place iz_ranges_find_start(const uint32_t *t, size_t t_len, size_t n, uint32_t clock);
iz_edge iz_ranges_clock_start(const uint32_t *t, size_t t_len, size_t n);
iz_edge iz_ranges_clock_end(const uint32_t *t, size_t t_len, size_t n);
iz_counted iz_ranges_len(const uint32_t *t, size_t t_len, size_t n);
iz_told iz_ranges_is_empty(const uint32_t *t, size_t t_len, size_t n);
iz_found iz_ranges_get(const uint32_t *t, size_t t_len, size_t n, size_t index);
iz_made iz_ranges_insert(const uint32_t *t, size_t t_len, size_t n, uint32_t start, uint32_t end, uint32_t *out, size_t out_len);
iz_made iz_ranges_remove(const uint32_t *t, size_t t_len, size_t n, uint32_t start, uint32_t end, uint32_t *out, size_t out_len);
iz_made iz_ranges_merge(const uint32_t *a, size_t a_len, size_t n, const uint32_t *b, size_t b_len, size_t m, uint32_t *out, size_t out_len);
iz_made iz_ranges_exclude(const uint32_t *a, size_t a_len, size_t n, const uint32_t *b, size_t b_len, size_t m, uint32_t *out, size_t out_len);
iz_made iz_ranges_intersect(const uint32_t *a, size_t a_len, size_t n, const uint32_t *b, size_t b_len, size_t m, uint32_t *out, size_t out_len);
iz_made iz_ranges_from_ranges(const uint32_t *l, size_t l_len, size_t n, uint32_t *out, size_t out_len);
iz_made iz_ids_capture(const uint64_t *clients, size_t clients_len, const uint32_t *starts, size_t starts_len, const uint32_t *ends, size_t ends_len, size_t count, uint64_t *to_clients, size_t to_clients_len, uint32_t *to_starts, size_t to_starts_len, uint32_t *to_ends, size_t to_ends_len);
iz_made iz_ids_insert_range(const uint64_t *clients, size_t clients_len, const uint32_t *starts, size_t starts_len, const uint32_t *ends, size_t ends_len, size_t count, uint64_t client, uint32_t start, uint32_t end, uint64_t *to_clients, size_t to_clients_len, uint32_t *to_starts, size_t to_starts_len, uint32_t *to_ends, size_t to_ends_len);
iz_made iz_ids_merge(const uint64_t *clients, size_t clients_len, const uint32_t *starts, size_t starts_len, const uint32_t *ends, size_t ends_len, size_t count, const uint64_t *b_clients, size_t b_clients_len, const uint32_t *b_starts, size_t b_starts_len, const uint32_t *b_ends, size_t b_ends_len, size_t b_count, uint64_t *to_clients, size_t to_clients_len, uint32_t *to_starts, size_t to_starts_len, uint32_t *to_ends, size_t to_ends_len);
iz_made iz_ids_diff(const uint64_t *clients, size_t clients_len, const uint32_t *starts, size_t starts_len, const uint32_t *ends, size_t ends_len, size_t count, const uint64_t *b_clients, size_t b_clients_len, const uint32_t *b_starts, size_t b_starts_len, const uint32_t *b_ends, size_t b_ends_len, size_t b_count, uint64_t *to_clients, size_t to_clients_len, uint32_t *to_starts, size_t to_starts_len, uint32_t *to_ends, size_t to_ends_len);
iz_made iz_ids_intersect(const uint64_t *clients, size_t clients_len, const uint32_t *starts, size_t starts_len, const uint32_t *ends, size_t ends_len, size_t count, const uint64_t *b_clients, size_t b_clients_len, const uint32_t *b_starts, size_t b_starts_len, const uint32_t *b_ends, size_t b_ends_len, size_t b_count, uint64_t *to_clients, size_t to_clients_len, uint32_t *to_starts, size_t to_starts_len, uint32_t *to_ends, size_t to_ends_len);
iz_told iz_ids_contains(const uint64_t *clients, size_t clients_len, const uint32_t *starts, size_t starts_len, const uint32_t *ends, size_t ends_len, size_t count, uint64_t client, uint32_t clock);
iz_told iz_ids_is_empty(const uint64_t *clients, size_t clients_len, const uint32_t *starts, size_t starts_len, const uint32_t *ends, size_t ends_len, size_t count);
iz_counted iz_ids_len(const uint64_t *clients, size_t clients_len, const uint32_t *starts, size_t starts_len, const uint32_t *ends, size_t ends_len, size_t count);
iz_got iz_vector_get(const uint64_t *clients, size_t clients_len, const uint32_t *clocks, size_t clocks_len, size_t count, uint64_t client);
iz_made iz_vector_set_min(const uint64_t *clients, size_t clients_len, const uint32_t *clocks, size_t clocks_len, size_t count, uint64_t client, uint32_t clock, uint64_t *to_clients, size_t to_clients_len, uint32_t *to_clocks, size_t to_clocks_len);
iz_made iz_vector_set_max(const uint64_t *clients, size_t clients_len, const uint32_t *clocks, size_t clocks_len, size_t count, uint64_t client, uint32_t clock, uint64_t *to_clients, size_t to_clients_len, uint32_t *to_clocks, size_t to_clocks_len);
iz_made iz_vector_merge(const uint64_t *clients, size_t clients_len, const uint32_t *clocks, size_t clocks_len, size_t count, const uint64_t *b_clients, size_t b_clients_len, const uint32_t *b_clocks, size_t b_clocks_len, size_t b_count, uint64_t *to_clients, size_t to_clients_len, uint32_t *to_clocks, size_t to_clocks_len);
iz_order iz_vector_partial_cmp(const uint64_t *clients, size_t clients_len, const uint32_t *clocks, size_t clocks_len, size_t count, const uint64_t *b_clients, size_t b_clients_len, const uint32_t *b_clocks, size_t b_clocks_len, size_t b_count);
iz_wrote iz_vector_encode(const uint64_t *clients, size_t clients_len, const uint32_t *clocks, size_t clocks_len, size_t count, uint8_t *buf, size_t buf_len, size_t at);
iz_decoded iz_vector_decode(const uint8_t *bytes, size_t bytes_len, size_t at, uint64_t *to_clients, size_t to_clients_len, uint32_t *to_clocks, size_t to_clocks_len);

#ifdef __cplusplus
}
#endif
#endif
