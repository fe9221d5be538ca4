/* The library behind OpenIPMI's simulator of a management controller: a module that ipmi_sim loads and that answers the blob commands.
 *
 * The way in. A module may register a handler for an OEM number (ipmi_emu_register_iana_handler). That is not used here: the simulator hands such
 * a handler an answer buffer of 36 bytes and does not check it, while a blob response has up to 64; it takes the OEM number off each request and
 * puts it in front of each response, refusals too; and it answers a wrong OEM number itself. So this module stands in front of the simulator's own
 * handling of messages, on its LAN channels (smi_send). What arrives there has passed the simulator's checks of session and privilege. A
 * message of our network function and command goes to the library, byte for byte; everything else goes on to the simulator.
 *
 * Threads. The simulator has one thread: messages and timers are handled one after another. So the memory needs no lock.
 *
 * Options, in one string: the milliseconds that a job takes, and the file into which an update is installed. */
#include <inttypes.h>
#include <stdio.h>
#include <string.h>
#include <sys/time.h>

#include <OpenIPMI/mcserv.h>
#include <OpenIPMI/serv.h>

#include "kramsnep.h"
#include "sha256.h"

enum { MEDIUM_LAN = 4 };

static struct kramsnep_memory memory; /* zero: the fresh state */
static sys_data_t *simulator;
static int (*next_handler[IPMI_MAX_CHANNELS])(channel_t *, msg_t *); /* the simulator's own, by channel number */
static ipmi_timer_t *job_timer;
static int job_waits; /* the timer of the running job was started */
static unsigned job_milliseconds;
static char install_path[512];

/* A line on standard error: the simulator's own log goes to the system's. */
#define SAY(...) fprintf(stderr, "blobs: " __VA_ARGS__)

/* Seconds since some start, by a clock that nobody sets. */
static uint32_t clock_seconds(void)
{
    struct timeval now = {0, 0};
    simulator->get_monotonic_time(simulator, &now);
    return (uint32_t)now.tv_sec;
}

/* Verify: the hash is the SHA-256 of the image. (A real controller checks a signature.) */
static int image_verified(void)
{
    uint8_t digest[SHA256_SIZE];
    sha256(memory.image, memory.control[KRAMSNEP_CONTROL_IMAGE_LENGTH], digest);
    return memory.control[KRAMSNEP_CONTROL_HASH_LENGTH] == SHA256_SIZE && memcmp(memory.hash, digest, SHA256_SIZE) == 0;
}

/* Update: the image is in the file, all of it. */
static int image_installed(void)
{
    size_t n = memory.control[KRAMSNEP_CONTROL_IMAGE_LENGTH];
    FILE *flash = fopen(install_path, "wb");
    if (flash == NULL)
        return 0;
    size_t put = fwrite(memory.image, 1, n, flash);
    return fclose(flash) == 0 && put == n;
}

/* The time of the job is over: does its work and reports the outcome. The image cannot have changed since the Commit: while the session of
 * verify or update is open, and that is as long as its job runs, no other flash name is. */
static void job_ends(void *unused)
{
    (void)unused;
    job_waits = 0;
    int blob = kramsnep_running_job_in(&memory);
    if (blob < 0)
        return;
    int good = blob == KRAMSNEP_BLOB_VERIFY ? image_verified() : image_installed();
    uint32_t code = kramsnep_job_outcome_in(&memory, good ? KRAMSNEP_VERDICT_GOOD : KRAMSNEP_VERDICT_FAILED);
    SAY("the job of blob %d %s; its report was answered %02" PRIX32 "\n", blob, good ? "succeeded" : "failed", code);
}

/* After a request: starts the timer of a job that the request started. */
static void start_job(void)
{
    struct timeval time = {job_milliseconds / 1000, (long)(job_milliseconds % 1000) * 1000};
    if (job_waits || kramsnep_running_job_in(&memory) < 0)
        return;
    job_waits = simulator->start_timer(job_timer, &time) == 0;
    if (!job_waits) /* without a timer the job can never end: say so at once */
        kramsnep_job_outcome_in(&memory, KRAMSNEP_VERDICT_FAILED);
}

/* In the place of a channel's smi_send. The response of IPMI is the completion code, then the library's response. */
static int handle_message(channel_t *channel, msg_t *message)
{
    static const uint8_t nothing[1];
    uint8_t response[1 + KRAMSNEP_ANSWER_SIZE];
    if (message->netfn != KRAMSNEP_IPMI_NETFN || message->cmd != KRAMSNEP_IPMI_COMMAND)
        return next_handler[channel->channel_num](channel, message);
    const uint8_t *request = message->len > 0 ? message->data : nothing; /* the library takes no null pointer, not even to no bytes */
    uint32_t result = kramsnep_respond_in(&memory, request, message->len, clock_seconds(), response + 1);
    response[0] = KRAMSNEP_CODE(result);
    start_job();
    ipmi_handle_smi_rsp(channel, message, response, (int)(1 + KRAMSNEP_LENGTH(result)));
    return 0;
}

int ipmi_sim_module_print_version(sys_data_t *sys, char *options)
{
    (void)sys;
    (void)options;
    printf("blobs: the Kramsnep library behind ipmi_sim\n");
    return 0;
}

int ipmi_sim_module_init(sys_data_t *sys, const char *options)
{
    simulator = sys;
    if (options == NULL || sscanf(options, "%u %511[^\n]", &job_milliseconds, install_path) != 2) {
        SAY("the options must be 'MILLISECONDS FILE'\n");
        return -1;
    }
    return sys->alloc_timer(sys, job_ends, NULL, &job_timer);
}

/* Called when all channels are there. */
int ipmi_sim_module_post_init(sys_data_t *sys)
{
    int found = 0;
    for (unsigned i = 0; i < IPMI_MAX_CHANNELS; i++) {
        channel_t *channel = sys->chan_set[i];
        if (channel == NULL || channel->medium_type != MEDIUM_LAN || channel->channel_num >= IPMI_MAX_CHANNELS)
            continue;
        next_handler[channel->channel_num] = channel->smi_send;
        channel->smi_send = handle_message;
        found++;
    }
    SAY("ready, LAN channels: %d\n", found);
    return found > 0 ? 0 : -1;
}
