/*
 * An acceptor's host: acceptor NUMBER FOLDER. A line of its input is what the network brought, in hexadecimal; a line
 * of its output is the reply. FOLDER has its tables in one file: Q, then N. Left out: the peers, and a checksum.
 */
#define _POSIX_C_SOURCE 200809L
#include <paxos_commit.h>

#include <fcntl.h>
#include <stdbool.h>
#include <stdio.h>
#include <stdlib.h>
#include <unistd.h>

/* The order's plan, the same at all its hosts, and this host's tables. */
enum { RMS = 2, ACCEPTORS = 3, LEADERS = 1, ORDER = 0x0102 };

struct tables {
    uint8_t votes[PAXOS_COMMIT_VOTES_SIZE(RMS, ACCEPTORS)], network[PAXOS_COMMIT_NETWORK_MAX];
};

/* Both tables on disk, the new ones or the old ones. */
static bool keep(const struct tables *tables) {
    int file = open("tables.new", O_WRONLY | O_CREAT | O_TRUNC, 0600), folder = open(".", O_RDONLY);
    bool kept = write(file, tables, sizeof *tables) == (ssize_t)sizeof *tables && fsync(file) == 0 &&
                rename("tables.new", "tables") == 0 && fsync(folder) == 0;
    close(file);
    close(folder);
    return kept;
}

/* What the network brought: 0, and a reply was sent; or a refusal, and nothing has happened. */
static uint8_t take(struct tables *tables, uint8_t who, const uint8_t *bytes, size_t len) {
    struct tables next = *tables;
    uint32_t slot = paxos_commit_deliver(RMS, ACCEPTORS, LEADERS, ORDER, next.network, sizeof next.network, bytes, len);
    if (slot >= PAXOS_COMMIT_ANSWER_REFUSED)
        return paxos_commit_refusal_of(slot);

    uint8_t event[PAXOS_COMMIT_EVENT];
    paxos_commit_event_at_slot(PAXOS_COMMIT_KIND_VOTE, who, slot, event);
    uint32_t answer = paxos_commit_acceptor_step(RMS, ACCEPTORS, LEADERS, ORDER, next.votes, sizeof next.votes,
                                                 next.network, sizeof next.network, event, sizeof event);
    if (answer >= PAXOS_COMMIT_ANSWER_REFUSED)
        return paxos_commit_refusal_of(answer);

    if (!keep(&next))
        exit(1);
    *tables = next;
    uint8_t reply[PAXOS_COMMIT_SLOT];
    size_t reply_len = paxos_commit_sent(next.network, sizeof next.network, answer, reply);
    for (size_t i = 0; i < reply_len; i++)
        printf("%02X%c", reply[i], i + 1 < reply_len ? ' ' : '\n');
    return 0;
}

int main(int argc, char **argv) {
    static struct tables tables;
    int who = argc == 3 ? atoi(argv[1]) : -1;
    FILE *file = who >= 0 && who < ACCEPTORS && chdir(argv[2]) == 0 ? fopen("tables", "rb") : NULL;
    if (file == NULL || fread(&tables, sizeof tables, 1, file) != 1 || getc(file) != EOF) {
        fprintf(stderr, "acceptor NUMBER FOLDER: no such acceptor, or no tables of this plan there\n");
        return 2; /* never on with new tables: the old ones are lost */
    }
    fclose(file);
    for (char line[256]; fgets(line, sizeof line, stdin) != NULL; fflush(stdout)) {
        uint8_t bytes[128], refusal;
        size_t len = 0;
        for (int at = 0, n; len < sizeof bytes && sscanf(line + at, "%2hhx%n", &bytes[len], &n) == 1; at += n)
            len++;
        refusal = take(&tables, (uint8_t)who, bytes, len);
        if (refusal != 0)
            printf("refused: %s\n", paxos_commit_refusal_name(refusal));
        if (refusal != 0 && refusal < PAXOS_COMMIT_REFUSAL_WRONG_ROLE)
            return 1; /* damage, or a fault of this host */
    }
    return 0;
}
