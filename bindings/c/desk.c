/* Range tables, a merge, a question and refusals; an old message at a desk; a number and a state vector there and back. */
#include "izgarmulf.h"
#include <stdio.h>

static void show(const char *what, const uint32_t *rows, size_t n) {
    printf("%s:", what);
    for (size_t i = 0; i < n; i++) printf(" %u..%u", rows[2 * i], rows[2 * i + 1]);
    printf("\n");
}

int main(void) {
    const uint32_t a[] = {0, 3, 8, 9}, b[] = {3, 8, 12, 15}, bad[] = {2, 5, 5, 7};
    uint32_t out[8];
    iz_made r = iz_ranges_merge(a, 4, 2, b, 4, 2, out, 8);
    if (r.no != IZ_DONE) return 1;
    show("[0..3, 8..9] and [3..8, 12..15]", out, r.count);
    iz_told in = iz_ranges_contains_clock(out, 8, r.count, 14);
    printf("clock 14 is %s\n", in.value ? "in" : "out");
    r = iz_ranges_insert(out, 8, r.count, 9, 12, (uint32_t[8]){0}, 8);
    printf("with 9..12 put in: %zu row\n", r.count);
    r = iz_ranges_merge(bad, 4, 2, b, 4, 2, out, 8);
    printf("rows that touch: refusal %u, %zu rows, first element %u\n", r.no, r.count, out[0]);
    r = iz_ranges_merge(a, 4, 2, b, 4, 2, out, 3);
    printf("two rows into room for one: refusal %u\n", r.no);

    /* A desk holds {1: 0..4, 2: 0..6}; the message is older, {1: 0..3}. Three slices and a count are an id table. */
    const uint64_t desk_clients[] = {1, 2}, old_clients[] = {1};
    const uint32_t desk_starts[] = {0, 0}, desk_ends[] = {4, 6}, old_starts[] = {0}, old_ends[] = {3};
    uint64_t to_clients[4];
    uint32_t to_starts[4], to_ends[4];
    r = iz_ids_merge(desk_clients, 2, desk_starts, 2, desk_ends, 2, 2, old_clients, 1, old_starts, 1, old_ends, 1, 1, to_clients, 4, to_starts, 4, to_ends, 4);
    printf("the desk with an old message:");
    for (size_t i = 0; i < r.count; i++) printf(" %llu: %u..%u", (unsigned long long)to_clients[i], to_starts[i], to_ends[i]);
    printf("\n");
    r = iz_ids_capture(desk_clients, 2, desk_starts, 2, desk_ends, 2, 2, to_clients, 4, to_starts, 1, to_ends, 4);
    printf("captured where one slice has one element: refusal %u\n", r.no);

    uint8_t bytes[10];
    iz_wrote w = iz_write_u64(300, bytes, sizeof bytes, 0);
    iz_number v = iz_read_u64(bytes, w.next, 0);
    printf("300 in %zu bytes, %02X %02X, reads %llu\n", w.next, bytes[0], bytes[1], (unsigned long long)v.value);
    if (v.value != 300 || v.next != w.next) return 1;

    /* {1: 4, 300: 0} as bytes, and back into room for two rows. */
    const uint64_t clients[] = {1, 300};
    const uint32_t clocks[] = {4, 0};
    uint32_t to_clocks[2];
    w = iz_vector_encode(clients, 2, clocks, 2, 2, bytes, sizeof bytes, 0);
    printf("a vector:");
    for (size_t i = 0; i < w.next; i++) printf(" %02X", bytes[i]);
    iz_decoded d = iz_vector_decode(bytes, w.next, 0, to_clients, 2, to_clocks, 2);
    printf(", %zu rows, the last %llu: %u\n", d.count, (unsigned long long)to_clients[1], to_clocks[1]);
    printf("the same cut short: refusal %u\n", iz_vector_decode(bytes, w.next - 1, 0, to_clients, 2, to_clocks, 2).no);
    return 0;
}
