/* Fills parts of blocks as tools/unproved has programs do it, with AddressSanitizer.
 *
 * Each size up to 70 bytes is filled at each place of a granule: a part of a block, which is filled and nothing
 * besides; and one that begins a byte too early, ends a byte too late, or has poisoned bytes in its middle, which
 * is reported once. The status is 0 if all of it is so. ASAN_OPTIONS=halt_on_error=0:suppress_equal_pcs=0 lets the
 * program go on after a report. */
#include <sanitizer/asan_interface.h>
#include <stdio.h>
#include <stdlib.h>

enum { SIZES = 70, PLACES = 8, ROOM = 32 };

void *__asan_memset(void *place, int value, unsigned long size);

static int reports;

static void count(const char *text) {
    (void)text;
    reports++;
}

static void expect(int is_so, const char *what, size_t size, size_t at) {
    if (!is_so) {
        printf("%s: %zu bytes at %zu\n", what, size, at);
        exit(1);
    }
}

/* Fills a part of a block. Returns whether nothing else was changed, and the place was returned. */
static int is_filled(unsigned char *block, size_t length, size_t at, size_t size) {
    for (size_t place = 0; place < length; place++) {
        block[place] = 1;
    }
    int is_right = __asan_memset(block + at, 0x1aa, size) == block + at;
    for (size_t place = 0; place < length; place++) {
        is_right &= block[place] == (place >= at && place - at < size ? 0xaa : 1);
    }
    return is_right;
}

/* Fills a place. Returns how many reports that made. */
static int reports_of(unsigned char *place, size_t size) {
    reports = 0;
    __asan_memset(place, 0xaa, size);
    return reports;
}

int main(void) {
    __asan_set_error_report_callback(count);
    for (size_t size = 0; size <= SIZES; size++) {
        for (size_t at = 0; at < PLACES; at++) {
            unsigned char *block = malloc(at + size + ROOM), *tight = malloc(at + size);
            expect(is_filled(block, at + size + ROOM, at, size), "filled", size, at);
            expect(is_filled(tight, at + size, at, size), "filled up to its end", size, at);
            expect(reports == 0, "no report", size, at);
            if (size > 0) {
                expect(reports_of(tight + at + 1, size) == 1, "a byte too late", size, at);
                expect(at > 0 || reports_of(tight - 1, size) == 1, "a byte too early", size, at);
                unsigned char *middle = block + (at + size / 2) / 8 * 8;
                ASAN_POISON_MEMORY_REGION(middle, 8);
                expect(reports_of(block + at, size) == 1, "poisoned bytes", size, at);
                ASAN_UNPOISON_MEMORY_REGION(middle, 8);
            }
            reports = 0;
            free(block);
            free(tight);
        }
    }
    return 0;
}
