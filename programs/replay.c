/*
 * replay: plays a script of calls from standard input, and prints each answer to standard output.
 *
 * What a line means and which bytes answer it is proved (crates/script_replay), and that the loops around it are safe and end (crates/replay, replay_c). Here are
 * the usage, what the system says of an error, and the exit status. Whoever closes the other end of a pipe ends it by SIGPIPE, as every filter.
 */
#include <errno.h>
#include <stdint.h>
#include <stdio.h>
#include <string.h>

/*
 * From standard input to standard output. 0: read to the end, or the first line is bad; 1: the answers can't be written; 2: the script can't be read.
 * In Rattle it takes the handles of both, which have no bytes.
 */
uint32_t securestore_replay(void);

int main(int argc, char **argv)
{
    uint32_t status;

    (void)argv;
    if (argc != 1) {
        fputs("usage: replay <SCRIPT: the script is read from standard input, and there are no arguments\n", stderr);
        return 3;
    }
    status = securestore_replay();
    if (status != 0)
        fprintf(stderr, "replay: can't %s: %s\n", status == 1 ? "write the answers" : "read the script", strerror(errno));
    return (int)status;
}
