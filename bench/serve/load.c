/* load [-s] [-c] [-o] [-w] [-z] PORT WIDTH HEIGHT MODE SECONDS ENCODING SEED
 *
 * A VNC host at 127.0.0.1:PORT and viewers of what reflects it, in one process with one clock. MODE:
 *   small     64 by 64 pixels of noise at 16 places, 30 to 50 ms apart
 *   smallmax  the same as fast as the reflector asks
 *   noise     the whole screen, as fast as asked
 *   desktop   640 by 400 of letters, as fast as asked
 *   paced     the same, 30 to 50 ms apart
 *   scroll    that page, moved by a line of 16 rows with CopyRect, and a new line
 *   photo     640 by 480 of smooth gradients, as fast as asked
 *   idle      nothing, behind a screen of noise
 *   page      nothing, behind a screen of letters
 * ENCODING of the viewers: raw, rre or hextile; each lists CopyRect too. With -z they list ZRLE before it.
 *
 * Prints LISTEN; reads lines "PORT COUNT GROUP" (so many viewers there, whose times are printed by group) until "GO";
 * prints BEGIN and how many viewers have a picture, and END, around the measured time; waits for a line; prints a line
 * of JSON, whose times are the median, 95 of 100 and the longest, in milliseconds.
 * -s: halfway one viewer stops reading. -c: at the end the host rests, and pictures are compared. -o: all viewers paint
 * on one screen, so that many large ones fit into memory, and each comes once the one before has a picture, or half a
 * second after it.
 * -w: the viewers speak over WebSockets.
 * The script begins when every viewer has its first picture. It ends by itself 90 seconds after SECONDS at the latest.
 */
#include "load.h"
#include <arpa/inet.h>
#include <netinet/in.h>
#include <signal.h>
#include <stdio.h>
#include <stdlib.h>
#include <string.h>
#include <sys/prctl.h>
#include <sys/resource.h>
#include <sys/socket.h>
#include <unistd.h>

struct script script;
struct host host = {.link = -1, .shifts = {16, 8, 0}, .lock = PTHREAD_MUTEX_INITIALIZER};
double *due;
volatile uint32_t last_update;
volatile int measuring, stopping, begun, painting = 1;

static struct viewer viewers[MOST_VIEWERS];
static int viewer_count, group_count, with_stall, with_comparison, on_one, over_web, with_zrle;
static double seconds;

/* What was counted in the measured time. */
struct counts {
    double seconds, processor;
    uint64_t updates, bytes;
};

static void listen_at(int port)
{
    int one = 1;
    struct sockaddr_in at = {.sin_family = AF_INET, .sin_port = htons(port)};
    pthread_t thread;
    pthread_condattr_t monotonic;
    at.sin_addr.s_addr = htonl(INADDR_LOOPBACK);
    host.listener = socket(AF_INET, SOCK_STREAM, 0);
    setsockopt(host.listener, SOL_SOCKET, SO_REUSEADDR, &one, sizeof one);
    if (bind(host.listener, (void *)&at, sizeof at) || listen(host.listener, 4)) {
        perror("load: listen");
        exit(3);
    }
    pthread_condattr_init(&monotonic);
    pthread_condattr_setclock(&monotonic, CLOCK_MONOTONIC);
    pthread_cond_init(&host.asked, &monotonic);
    host.message = malloc((size_t)script.width * script.height * 4 + 65536);
    if (with_comparison) host.screen = calloc((size_t)script.width * script.height, 4);
    due = calloc(MOST_UPDATES, sizeof *due);
    pthread_create(&thread, 0, run_host, 0);
    printf("LISTEN\n");
    fflush(stdout);
}

static void add_viewer(int port, int group, int encoding)
{
    struct viewer *viewer = &viewers[viewer_count++];
    viewer->port = port;
    viewer->group = group;
    viewer->encoding = with_zrle ? ZRLE : encoding;
    viewer->second = encoding;
    viewer->is_web = over_web;
    viewer->screen = on_one && viewer != viewers ? viewers[0].screen : calloc((size_t)script.width * script.height, 4);
    viewer->input = malloc(INPUT_BYTES);
    viewer->times_room = 1 << 20;
    viewer->times = malloc(viewer->times_room * sizeof(float));
    pthread_create(&viewer->thread, 0, run_viewer, viewer);
}

static void add_groups(int encoding)
{
    char line[64];
    int port, count, group;
    while (fgets(line, sizeof line, stdin) && sscanf(line, "%d %d %d", &port, &count, &group) == 3) {
        if (group < 0 || group >= MOST_GROUPS || viewer_count + count > MOST_VIEWERS) exit(2);
        while (count--) {
            add_viewer(port, group, encoding);
            for (double end = now() + 0.5; on_one && now() < end && !viewers[viewer_count - 1].ready;) nap(0.01);
        }
        if (group >= group_count) group_count = group + 1;
    }
}

static int wait_until_ready(void)
{
    int ready = 0;
    for (double end = now() + 40; now() < end; nap(0.02)) {
        ready = 0;
        for (int k = 0; k < viewer_count; k++) ready += viewers[k].ready;
        if (ready == viewer_count) break;
    }
    return ready;
}

static double processor_time(void)
{
    struct rusage used;
    getrusage(RUSAGE_SELF, &used);
    return used.ru_utime.tv_sec + used.ru_utime.tv_usec / 1e6 + used.ru_stime.tv_sec + used.ru_stime.tv_usec / 1e6;
}

static void stall_one(void)
{
    for (int k = 0; k < viewer_count; k++) viewers[k].frames_before = viewers[k].frames;
    viewers[0].stalled = 1;
}

static struct counts measure(int ready)
{
    nap(1.0);
    struct counts counts = {0, processor_time(), host.updates, host.bytes};
    printf("BEGIN %d\n", ready);
    fflush(stdout);
    double start = now();
    measuring = 1;
    nap(with_stall ? seconds / 2 : seconds);
    if (with_stall) {
        measuring = 0;
        stall_one();
        nap(1.0);
        measuring = 1;
        nap(seconds / 2);
    }
    measuring = 0;
    counts.seconds = now() - start - (with_stall ? 1.0 : 0.0);
    counts.processor = processor_time() - counts.processor;
    counts.updates = host.updates - counts.updates;
    counts.bytes = host.bytes - counts.bytes;
    printf("END\n");
    fflush(stdout);
    return counts;
}

/* How many viewers hold the host's screen, within ten seconds from its last update. */
static int compare(void)
{
    int same = 0;
    painting = 0;
    nap(1.0);
    for (double end = now() + 10; now() < end; nap(0.2)) {
        same = 0;
        for (int k = 0; k < viewer_count; k++) same += shows_the_same(&viewers[k]);
        if (same == viewer_count) break;
    }
    return same;
}

static int by_size(const void *a, const void *b)
{
    float x = *(const float *)a, y = *(const float *)b;
    return x < y ? -1 : x > y;
}

/* The times of a group; of all groups where it is -1. */
static void print_times(int group)
{
    size_t count = 0, at = 0;
    for (int k = 0; k < viewer_count; k++)
        if (group < 0 || viewers[k].group == group) count += viewers[k].times_count;
    float *all = malloc((count + 1) * sizeof(float));
    for (int k = 0; k < viewer_count; k++)
        if (group < 0 || viewers[k].group == group) {
            memcpy(all + at, viewers[k].times, viewers[k].times_count * sizeof(float));
            at += viewers[k].times_count;
        }
    qsort(all, count, sizeof(float), by_size);
    double parts[] = {0.5, 0.95, 1.0};
    printf("[");
    for (int k = 0; k < 3; k++)
        printf("%s%.4f", k ? ", " : "", count ? 1e3 * all[(size_t)((count - 1) * parts[k])] : -1.0);
    printf("]");
    free(all);
}

static void print_counts(int ready, const struct counts *counts, int same)
{
    uint64_t frames = 0, bytes = 0, pixels = 0, fewest = ~0ull, before = 0, after = 0;
    int faults = 0;
    for (int k = 0; k < viewer_count; k++) {
        struct viewer *viewer = &viewers[k];
        frames += viewer->frames;
        bytes += viewer->bytes;
        pixels += viewer->pixels;
        if (viewer->frames < fewest) fewest = viewer->frames;
        before += viewer->stalled ? 0 : viewer->frames_before;
        after += viewer->stalled ? 0 : viewer->frames - viewer->frames_before;
        if (viewer->fault && !faults++) fprintf(stderr, "load: viewer %d: %s\n", k, viewer->fault);
    }
    printf("{\"seconds\": %.3f, \"ready\": %d, \"faults\": %d, \"same\": %d, \"host_updates\": %llu, "
           "\"frames\": %llu, \"fewest\": %llu, \"before\": %llu, \"after\": %llu, \"bytes\": %llu, \"pixels\": %llu, "
           "\"own_processor\": %.3f, \"times\": ",
           counts->seconds, ready, faults, same, (unsigned long long)counts->updates, (unsigned long long)frames,
           (unsigned long long)(viewer_count ? fewest : 0), (unsigned long long)before, (unsigned long long)after,
           (unsigned long long)bytes, (unsigned long long)pixels, counts->processor);
    print_times(-1);
    printf(", \"groups\": [");
    for (int group = 0; group < group_count; group++) {
        if (group) printf(", ");
        print_times(group);
    }
    printf("]}\n");
    fflush(stdout);
}

int main(int count, char **words)
{
    for (; count > 1 && words[1][0] == '-'; count--, words++) {
        with_stall |= words[1][1] == 's';
        with_comparison |= words[1][1] == 'c';
        on_one |= words[1][1] == 'o';
        over_web |= words[1][1] == 'w';
        with_zrle |= words[1][1] == 'z';
    }
    if (count != 8) return 2;
    prctl(PR_SET_PDEATHSIG, SIGKILL);
    seconds = atof(words[5]);
    seed_lots(strtoull(words[7], 0, 10));
    int encoding = !strcmp(words[6], "hextile") ? HEXTILE : !strcmp(words[6], "rre") ? RRE : RAW;
    if (seconds > 4000 || choose_script(words[4], atoi(words[2]), atoi(words[3]))) return 2;
    alarm((unsigned)seconds + 90);
    listen_at(atoi(words[1]));
    add_groups(encoding);
    int ready = wait_until_ready();
    begun = 1;
    struct counts counts = measure(ready);
    char line[64];
    if (!fgets(line, sizeof line, stdin)) line[0] = 0;
    int same = with_comparison ? compare() : -1;
    stopping = 1;
    print_counts(ready, &counts, same);
    _exit(0);
}
