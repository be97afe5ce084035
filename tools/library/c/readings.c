/*
 * Measures how long the library takes to read frames. FILE has a frame in hexadecimal on each line.
 *     readings bench FILE N     examines N frames in turn, and walks over all kept TLVs, reading
 *                               each capability and management address
 *     readings examine FILE N   the same without the walk
 */
#define _POSIX_C_SOURCE 200809L
#include "checks.h"
#include "lldpa.h"
#include <time.h>

static octets *frames;
static size_t frame_count;

static void read_frames(const char *path)
{
    char *line = NULL;
    size_t size = 0;
    FILE *file = fopen(path, "r");
    while (file != NULL && getline(&line, &size, file) > 0) {
        frames = realloc(frames, (frame_count + 1) * sizeof *frames);
        frames[frame_count++] = spelled(line, strcspn(line, "\n"));
    }
}

/* Returns a number that depends on all kept TLVs, so that the compiler cannot remove a call. */
static uint64_t read_kept(const uint8_t *extent, size_t length)
{
    uint64_t sum = 0;
    lldpa_kept walk = LLDPA_KEPT_INIT;
    while (lldpa_next_kept(extent, length, &walk)) {
        lldpa_capabilities caps;
        lldpa_management mgmt;
        sum += walk.body.length;
        if (walk.kind == 7 && lldpa_caps(extent + walk.body.start, walk.body.length, &caps)) {
            sum += caps.enabled;
        } else if (walk.kind == 8 && lldpa_mgmt(extent + walk.body.start, walk.body.length, &mgmt)) {
            sum += mgmt.interface;
        }
    }
    return sum;
}

static uint64_t read_frame(octets frame, int walks)
{
    lldpa_place place;
    lldpa_examined told;
    if (!lldpa_frame_pdu(frame.at, frame.length, &place) ||
        lldpa_examine(frame.at + place.start, place.length, &told) != LLDPA_OK || told.ttl == 0) {
        return 0;
    }
    return told.ttl + (walks ? read_kept(frame.at + place.start, told.extent) : 0);
}

static double seconds(void)
{
    struct timespec now;
    clock_gettime(CLOCK_PROCESS_CPUTIME_ID, &now);
    return (double)now.tv_sec + (double)now.tv_nsec / 1e9;
}

int main(int count, char **words)
{
    uint64_t sum = 0;
    if (count == 4) {
        read_frames(words[2]);
    }
    if (frame_count == 0) {
        fputs("usage: readings bench|examine FILE N\n", stderr);
        return 2;
    }
    unsigned long most = strtoul(words[3], NULL, 10);
    double start = seconds();
    for (unsigned long done = 0, at = 0; done < most; done++) {
        sum += read_frame(frames[at], words[1][0] == 'b');
        at = at + 1 == frame_count ? 0 : at + 1;
    }
    printf("ns_per_frame=%.1f sum=%llu\n", (seconds() - start) / (double)most * 1e9, (unsigned long long)sum);
    return 0;
}
