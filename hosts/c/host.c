/*
 * All calls in one program: opens a record, runs document 01's example on it, feeds it junk, hands it a backlog as one
 * list, then runs an order with a host for each role, which share nothing but the messages that they send each other;
 * then the same order on tables that are too small, where most calls are refused; then an order in which a weight
 * declines; at last the writer, deliveries, and events and refusals by name. Messages of another order come in between,
 * and are refused. It prints what each call answered; hosts/test compares that with host.stdout. docs/HOSTS.md has the
 * command that builds it.
 */
#include "paxos_commit.h"

#include <stdio.h>
#include <stdlib.h>
#include <string.h>

enum { SLOTS = 16, ORDER = 0x0102 };

/* The numbers of the refusals, and 0. */
enum { REFUSALS = PAXOS_COMMIT_REFUSAL_BAD_SUMMARY + 1 };

/* The order number as the last two bytes of a message. */
#define ORDER_BYTES ORDER >> 8, ORDER & 0xFF

/* What a step answered. */
static void say(const char *what, uint32_t answer) {
    if (answer == PAXOS_COMMIT_ANSWER_QUIET)
        printf("%s: accepted\n", what);
    else if (answer < PAXOS_COMMIT_ANSWER_REFUSED)
        printf("%s: accepted, sent in slot %u\n", what, (unsigned)answer);
    else
        printf("%s: refused, %u\n", what, (unsigned)paxos_commit_refusal_of(answer));
}

/* How an order stands. */
static void say_ending(uint32_t ending) {
    static const char *const words[3] = {"open", "committed", "aborted"};
    if (ending < PAXOS_COMMIT_ANSWER_REFUSED)
        printf("the order is %s\n", words[ending]);
    else
        printf("the order: refused, %u\n", (unsigned)paxos_commit_refusal_of(ending));
}

static void show(const char *name, const uint8_t *bytes, size_t len) {
    printf("%s:", name);
    for (size_t i = 0; i < len; i++)
        printf(" %02X", bytes[i]);
    printf("\n");
}

/* Zeros, of exactly this length. No pointer that is lent is null, also with length 0. */
static uint8_t *zeros(size_t len) {
    uint8_t *bytes = calloc(len == 0 ? 1 : len, 1);
    if (bytes == NULL)
        exit(1);
    return bytes;
}

/* ---- the record, all roles on five tables ---- */

static uint8_t states[PAXOS_COMMIT_STATES_SIZE(1)];
static uint8_t votes[PAXOS_COMMIT_VOTES_SIZE(1, 1)];
static uint8_t network[PAXOS_COMMIT_NETWORK_SIZE(SLOTS)];
static uint8_t inboxes[PAXOS_COMMIT_INBOXES_SIZE(1, SLOTS)];
static uint8_t summary[PAXOS_COMMIT_SUMMARY_SIZE(1, 1)];

static uint8_t open_record(void) {
    return paxos_commit_open(1, 1, 1, ORDER, states, sizeof states, votes, sizeof votes, network, sizeof network,
                             inboxes, sizeof inboxes, summary, sizeof summary);
}

static uint32_t step(const uint8_t *event, size_t len) {
    return paxos_commit_step(1, 1, 1, ORDER, states, sizeof states, votes, sizeof votes, network, sizeof network,
                             inboxes, sizeof inboxes, summary, sizeof summary, event, len);
}

static void rehearsal(void) {
    static const uint8_t events[6][4] = {{0, 0, 0, 0}, {3, 0, 0, 0}, {4, 0, 0, 1},
                                         {7, 0, 0, 0}, {2, 0, 0, 2}, {1, 0, 0, 0}};
    static const char *const words[6] = {"weight 0 prepares",       "acceptor 0 votes",
                                         "leader 0 takes the vote", "leader 0 decides Commit",
                                         "weight 0 takes Commit",   "weight 0 chooses to abort"};
    memset(states, 0xAA, sizeof states);
    say("step before opening", step(events[0], 4));
    printf("open: %u\n", open_record());
    say_ending(paxos_commit_ending(1, 1, 1, ORDER, states, sizeof states));
    for (size_t i = 0; i < 6; i++)
        say(words[i], step(events[i], 4));
    say_ending(paxos_commit_ending(1, 1, 1, ORDER, states, sizeof states));
    show("W", states, sizeof states);
    show("Q", votes, sizeof votes);
    show("N", network, 24);
    show("I", inboxes, 8);
    show("summary", summary, sizeof summary);
}

/* ---- junk: any bytes of any length get an answer, and a refused call changes nothing ---- */

static uint32_t state = 1;

static uint8_t random_byte(void) {
    state = state * 1103515245u + 12345u;
    return (uint8_t)(state >> 16);
}

static void junk(void) {
    uint8_t w[sizeof states], q[sizeof votes], n[sizeof network], i[sizeof inboxes], s[sizeof summary], bytes[16];
    unsigned refused[REFUSALS] = {0}, read[REFUSALS] = {0}, accepted = 0, changed = 0;
    for (int round = 0; round < 10000; round++) {
        for (size_t k = 0; k < sizeof bytes; k++)
            bytes[k] = random_byte();
        /* Any bytes; or bytes near to an event. */
        size_t len = round % 4 == 0 ? random_byte() % sizeof bytes : 4;
        if (round % 2 == 0) {
            bytes[0] %= 10;
            bytes[1] %= 2;
            bytes[2] = 0;
            bytes[3] %= 24;
        }
        memcpy(w, states, sizeof states);
        memcpy(q, votes, sizeof votes);
        memcpy(n, network, sizeof network);
        memcpy(i, inboxes, sizeof inboxes);
        memcpy(s, summary, sizeof summary);
        uint8_t number = paxos_commit_refusal_of(step(bytes, len));
        if (number == 0) {
            accepted++;
        } else {
            refused[number % REFUSALS]++;
            changed += memcmp(w, states, sizeof w) || memcmp(q, votes, sizeof q) || memcmp(n, network, sizeof n) ||
                       memcmp(i, inboxes, sizeof i) || memcmp(s, summary, sizeof s);
        }
        /* Any bytes as a message, half of them with the order number. */
        len = random_byte() % 9;
        bytes[0] = random_byte() & 0x3F;
        if (random_byte() % 2 == 0 && len >= 2) {
            bytes[len - 2] = ORDER >> 8;
            bytes[len - 1] = ORDER & 0xFF;
        }
        read[paxos_commit_byte(paxos_commit_read(16, 7, 4, ORDER, bytes, len), 0) % REFUSALS]++;
    }
    printf("junk events: %u accepted", accepted);
    for (unsigned k = 1; k < REFUSALS; k++)
        if (refused[k])
            printf(", %u refused with %u", refused[k], k);
    printf("; %u refused ones changed a byte\n", changed);
    printf("junk messages: %u read", read[0]);
    for (unsigned k = 1; k < REFUSALS; k++)
        if (read[k])
            printf(", %u refused with %u", read[k], k);
    printf("\n");

    /* Damaged tables. */
    static const uint8_t prepare[4] = {0, 0, 0, 0};
    network[23] ^= 1;
    say("a byte after a message in N", step(prepare, 4));
    network[23] ^= 1;
    states[0] = 4;
    say("a state above 3", step(prepare, 4));
    say_ending(paxos_commit_ending(1, 1, 1, ORDER, states, sizeof states));
    states[0] = PAXOS_COMMIT_STATE_ABORTED;
    say_ending(paxos_commit_ending(1, 1, 1, ORDER, states, sizeof states));
    say_ending(paxos_commit_ending(1, 1, 1, ORDER, states, 0));
    states[0] = PAXOS_COMMIT_STATE_COMMITTED;
    say("no weights in the plan",
        paxos_commit_step(0, 1, 1, ORDER, states, sizeof states, votes, sizeof votes, network, sizeof network, inboxes,
                          sizeof inboxes, summary, sizeof summary, prepare, 4));
    say("a table of another length",
        paxos_commit_step(1, 1, 1, ORDER, states, sizeof states, votes, sizeof votes, network, 17, inboxes,
                          sizeof inboxes, summary, sizeof summary, prepare, 4));

    /* A summary that is none: 20, also with what is no event; opening asks for its length alone. */
    uint8_t kept = summary[0], two[2] = {0xEE, 0xEE};
    summary[0] = 4;
    say("a byte of the summary above 3", step(prepare, 4));
    say("the same without an event", step(prepare, 0));
    network[23] ^= 1;
    say("the same with a damaged N", step(prepare, 4));
    network[23] ^= 1;
    summary[0] = kept;
    say("a summary of another length",
        paxos_commit_step(1, 1, 1, ORDER, states, sizeof states, votes, sizeof votes, network, sizeof network, inboxes,
                          sizeof inboxes, two, sizeof two, prepare, 4));
    printf("opening with a summary of another length: %u\n",
           paxos_commit_open(1, 1, 1, ORDER, states, sizeof states, votes, sizeof votes, network, sizeof network,
                             inboxes, sizeof inboxes, two, sizeof two));
    show("summary", two, sizeof two);
    show("W", states, sizeof states);
}

/* ---- a backlog: events in one list, a byte for the answer of each ---- */

static uint8_t run(const uint8_t *events, size_t events_len, uint8_t *answers, size_t answers_len) {
    return paxos_commit_run(1, 1, 1, ORDER, states, sizeof states, votes, sizeof votes, network, sizeof network,
                            inboxes, sizeof inboxes, summary, sizeof summary, events, events_len, answers, answers_len);
}

static void say_run(const char *what, uint8_t number, const uint8_t *answers, size_t answers_len) {
    if (number == 0)
        printf("%s: accepted\n", what);
    else
        printf("%s: refused, %u\n", what, number);
    show("answers", answers, answers_len);
}

/* The five tables of the record, to compare them. */
struct record {
    uint8_t w[sizeof states], q[sizeof votes], n[sizeof network], i[sizeof inboxes], s[sizeof summary];
};

static struct record kept(void) {
    struct record record;
    memcpy(record.w, states, sizeof states);
    memcpy(record.q, votes, sizeof votes);
    memcpy(record.n, network, sizeof network);
    memcpy(record.i, inboxes, sizeof inboxes);
    memcpy(record.s, summary, sizeof summary);
    return record;
}

static void put_back(const struct record *record) {
    memcpy(states, record->w, sizeof states);
    memcpy(votes, record->q, sizeof votes);
    memcpy(network, record->n, sizeof network);
    memcpy(inboxes, record->i, sizeof inboxes);
    memcpy(summary, record->s, sizeof summary);
}

static void backlog(void) {
    /* Document 01's example; its third event comes too early here, and is refused with 8. */
    static const uint8_t events[7][PAXOS_COMMIT_EVENT] = {
        {PAXOS_COMMIT_KIND_PREPARE, 0, 0, 0},        {PAXOS_COMMIT_KIND_VOTE, 0, 0, 0},
        {PAXOS_COMMIT_KIND_TAKE_DECISION, 0, 0, 2},  {PAXOS_COMMIT_KIND_RECEIPT, 0, 0, 1},
        {PAXOS_COMMIT_KIND_COMMIT, 0, 0, 0},         {PAXOS_COMMIT_KIND_TAKE_DECISION, 0, 0, 2},
        {PAXOS_COMMIT_KIND_CHOOSE_TO_ABORT, 0, 0, 0}};
    const uint8_t *list = &events[0][0];
    uint8_t answers[8];
    struct record fresh, old, now;
    printf("-- a backlog as one list\n");
    open_record();
    fresh = kept();
    memset(answers, 0xEE, sizeof answers);
    say_run("seven events", run(list, sizeof events, answers, 7), answers, 8);
    say_ending(paxos_commit_ending(1, 1, 1, ORDER, states, sizeof states));
    show("N", network, 24);

    /* Refused, and no byte of tables or answers changes; and no events, which is accepted. */
    old = kept();
    say_run("the same with eight answers", run(list, sizeof events, answers, 8), answers, 8);
    say_run("a cut list", run(list, sizeof events - 1, answers, 6), answers, 8);
    network[23] ^= 1;
    say_run("a cut list, with a byte after a message in N", run(list, sizeof events - 1, answers, 6), answers, 8);
    network[23] ^= 1;
    summary[0] ^= 4;
    say_run("a cut list, with a byte of the summary above 3", run(list, sizeof events - 1, answers, 6), answers, 8);
    say_run("the list, with a byte of the summary above 3", run(list, sizeof events, answers, 7), answers, 8);
    summary[0] ^= 4;
    say_run("no events", run(list, 0, answers, 0), answers, 8);
    now = kept();
    printf("tables: %s\n", memcmp(&now, &old, sizeof now) ? "changed" : "unchanged");

    /* Bytes near to events, in buffers of their length: each list, and then its events one after the other. */
    unsigned refused = 0, accepted = 0, differ = 0, changed = 0;
    for (int round = 0; round < 2000; round++) {
        size_t count = random_byte() % 10, len = PAXOS_COMMIT_EVENT * count + (random_byte() % 8 == 0),
               told_len = count + (random_byte() % 8 == 0);
        uint8_t *bytes = zeros(len), *told = zeros(told_len);
        struct record once, each;
        for (size_t k = 0; k < len; k++)
            bytes[k] = k % 4 == 0 ? random_byte() % 9 : k % 4 == 3 ? random_byte() % 24 : 0;
        memset(told, 0xEE, told_len);
        if (round % 50 == 0)
            put_back(&fresh);
        old = kept();
        if (run(bytes, len, told, told_len) != 0) {
            refused++;
            once = kept();
            changed += memcmp(&once, &old, sizeof old) != 0;
            for (size_t k = 0; k < told_len; k++)
                changed += told[k] != 0xEE;
        } else {
            once = kept();
            put_back(&old);
            for (size_t k = 0; k < count; k++) {
                differ += told[k] != paxos_commit_refusal_of(step(bytes + PAXOS_COMMIT_EVENT * k, PAXOS_COMMIT_EVENT));
                accepted += told[k] == 0;
            }
            each = kept();
            differ += memcmp(&once, &each, sizeof each) != 0;
        }
        free(bytes);
        free(told);
    }
    printf("junk lists: %u refused with 19, in the others %u events accepted; %u answers or tables differ from single "
           "calls, %u refused lists changed a byte\n",
           refused, accepted, differ, changed);
}

/* ---- a host for each role: n = 2, A = 3, L = 1 ---- */

enum { RMS = 2, ACCEPTORS = 3, LEADERS = 1 };

typedef uint32_t role_step(uint8_t, uint8_t, uint8_t, uint16_t, uint8_t *, size_t, uint8_t *, size_t, const uint8_t *,
                           size_t);

/* A host: its number, its role's step and table, and an N of its own with what it sent and what came to it. A leader
 * has no step here, and its summary beside its inbox. */
struct host {
    const char *name;
    role_step *step;
    uint8_t *table, *network, *summary;
    size_t table_len, network_len, summary_len;
    uint8_t who;
};

/* A message on its way; len 0 for none. */
struct message {
    uint8_t bytes[PAXOS_COMMIT_SLOT];
    size_t len;
};

static struct host new_host(const char *name, uint8_t who, role_step *step, size_t table_len, size_t slots) {
    size_t network_len = PAXOS_COMMIT_NETWORK_SIZE(slots),
           summary_len = step == NULL ? PAXOS_COMMIT_LEADER_SUMMARY_SIZE(RMS) : 0;
    struct host host = {name,      step,        zeros(table_len), zeros(network_len), zeros(summary_len),
                        table_len, network_len, summary_len,      who};
    return host;
}

static void free_host(struct host *host) {
    free(host->table);
    free(host->network);
    free(host->summary);
}

/* An event of the host; what its step sent, which is none where it is quiet or refused. */
static struct message call(struct host *host, const char *what, const uint8_t event[PAXOS_COMMIT_EVENT]) {
    struct message sent = {{0}, 0};
    uint32_t answer =
        host->step != NULL
            ? host->step(RMS, ACCEPTORS, LEADERS, ORDER, host->table, host->table_len, host->network, host->network_len,
                         event, PAXOS_COMMIT_EVENT)
            : paxos_commit_leader_step(RMS, ACCEPTORS, LEADERS, ORDER, host->table, host->table_len, host->summary,
                                       host->summary_len, host->network, host->network_len, event, PAXOS_COMMIT_EVENT);
    printf("%s %u ", host->name, host->who);
    say(what, answer);
    /* Here the role's table, a leader's summary with it, and N go to disk, before what was sent leaves. */
    sent.len = paxos_commit_sent(host->network, host->network_len, answer, sent.bytes);
    return sent;
}

/* The host acts of its own accord. */
static struct message act(struct host *host, const char *what, uint8_t kind) {
    uint8_t event[PAXOS_COMMIT_EVENT];
    paxos_commit_event(kind, host->who, event);
    return call(host, what, event);
}

/* What came from the wire: into the host's N, and then an event with its slot. */
static struct message take(struct host *host, const char *what, uint8_t kind, const struct message *message) {
    static const struct message none = {{0}, 0};
    uint8_t event[PAXOS_COMMIT_EVENT];
    uint32_t slot;
    if (message->len == 0)
        return none;
    slot = paxos_commit_deliver(RMS, ACCEPTORS, LEADERS, ORDER, host->network, host->network_len, message->bytes,
                                message->len);
    if (slot >= PAXOS_COMMIT_ANSWER_REFUSED) {
        printf("%s %u ", host->name, host->who);
        say("gets a message", slot);
        return none;
    }
    paxos_commit_event_at_slot(kind, host->who, slot, event);
    return call(host, what, event);
}

static void hosts(size_t slots) {
    struct host weight[RMS], acceptor[ACCEPTORS],
        leader = new_host("leader", 0, NULL, PAXOS_COMMIT_INBOX_SIZE(slots), slots);
    for (uint8_t i = 0; i < RMS; i++)
        weight[i] = new_host("weight", i, paxos_commit_rm_step, PAXOS_COMMIT_STATES_SIZE(RMS), slots);
    for (uint8_t a = 0; a < ACCEPTORS; a++)
        acceptor[a] =
            new_host("acceptor", a, paxos_commit_acceptor_step, PAXOS_COMMIT_VOTES_SIZE(RMS, ACCEPTORS), slots);

    printf("-- a host for each role; slots in each N and in the inbox: %u\n", (unsigned)slots);
    for (uint8_t i = 0; i < RMS; i++) {
        struct message proposal = act(&weight[i], "prepares", PAXOS_COMMIT_KIND_PREPARE);
        if (proposal.len > 0)
            show("2a", proposal.bytes, proposal.len);
        for (uint8_t a = 0; a < ACCEPTORS; a++) {
            struct message vote, decision;
            if (i == 1 && a == 0)
                continue; /* lost on the way */
            vote = take(&acceptor[a], "votes", PAXOS_COMMIT_KIND_VOTE, &proposal);
            take(&leader, "takes the vote", PAXOS_COMMIT_KIND_RECEIPT, &vote);
            decision = act(&leader, "decides Commit", PAXOS_COMMIT_KIND_COMMIT);
            for (uint8_t k = 0; k < RMS; k++)
                take(&weight[k], "takes Commit", PAXOS_COMMIT_KIND_TAKE_DECISION, &decision);
        }
    }
    /* No message, a message that no acceptor takes, and a Commit of another order. */
    const struct message nonsense = {"junk", 4},
                         commit = {{PAXOS_COMMIT_MAP_DECISION, PAXOS_COMMIT_DECISION_COMMIT, ORDER_BYTES}, 4},
                         other = {{PAXOS_COMMIT_MAP_DECISION, PAXOS_COMMIT_DECISION_COMMIT, 0, 0}, 4};
    take(&acceptor[0], "votes", PAXOS_COMMIT_KIND_VOTE, &nonsense);
    take(&acceptor[0], "votes", PAXOS_COMMIT_KIND_VOTE, &commit);
    take(&weight[0], "takes Commit", PAXOS_COMMIT_KIND_TAKE_DECISION, &other);
    for (uint8_t i = 0; i < RMS; i++) {
        show("W", weight[i].table, weight[i].table_len);
        free_host(&weight[i]);
    }
    for (uint8_t a = 0; a < ACCEPTORS; a++)
        free_host(&acceptor[a]);
    show("summary", leader.summary, leader.summary_len);

    /* A summary of another length, and one with a byte above 3: 20, also with an event that is none. */
    uint8_t event[PAXOS_COMMIT_EVENT];
    paxos_commit_event(PAXOS_COMMIT_KIND_COMMIT, LEADERS, event);
    leader.summary_len--;
    call(&leader, "decides Commit as another leader, with a short summary", event);
    leader.summary_len++;
    leader.summary[1] |= 4;
    call(&leader, "decides Commit as another leader, with a damaged summary", event);
    leader.summary[1] &= 3;
    call(&leader, "decides Commit as another leader", event);
    free_host(&leader);
}

/* ---- a weight declines: the leader hears its 2a, and Abort comes to all before an acceptor votes ---- */

static void declined(void) {
    struct host weight[RMS], leader = new_host("leader", 0, NULL, PAXOS_COMMIT_INBOX_SIZE(SLOTS), SLOTS);
    for (uint8_t i = 0; i < RMS; i++)
        weight[i] = new_host("weight", i, paxos_commit_rm_step, PAXOS_COMMIT_STATES_SIZE(RMS), SLOTS);

    printf("-- a weight declines\n");
    struct message prepared = act(&weight[0], "prepares", PAXOS_COMMIT_KIND_PREPARE),
                   aborted = act(&weight[1], "chooses to abort", PAXOS_COMMIT_KIND_CHOOSE_TO_ABORT);
    show("2a", aborted.bytes, aborted.len);
    take(&leader, "takes the 2a of weight 0", PAXOS_COMMIT_KIND_RECEIPT, &prepared);
    act(&leader, "decides Abort", PAXOS_COMMIT_KIND_ABORT);
    take(&leader, "takes the 2a of weight 1", PAXOS_COMMIT_KIND_RECEIPT, &aborted);
    show("summary", leader.summary, leader.summary_len);
    struct message decision = act(&leader, "decides Abort", PAXOS_COMMIT_KIND_ABORT);
    /* A 2a of a later ballot is a leader's, and says nothing of the weight. */
    const struct message later = {{PAXOS_COMMIT_MAP_2A, 0, 1, PAXOS_COMMIT_VALUE_ABORTED, ORDER_BYTES}, 6};
    take(&leader, "takes a 2a of ballot 1", PAXOS_COMMIT_KIND_RECEIPT, &later);
    for (uint8_t i = 0; i < RMS; i++) {
        take(&weight[i], "takes Abort", PAXOS_COMMIT_KIND_TAKE_DECISION, &decision);
        show("W", weight[i].table, weight[i].table_len);
        free_host(&weight[i]);
    }
    free_host(&leader);
}

/* ---- the writer ---- */

static void writer(void) {
    uint8_t bytes[PAXOS_COMMIT_SLOT];
    uint64_t written = paxos_commit_write(RMS, ACCEPTORS, LEADERS, ORDER, PAXOS_COMMIT_MAP_2A, 1, 0, 0, 0,
                                          PAXOS_COMMIT_VALUE_PREPARED);
    for (unsigned k = 0; k < PAXOS_COMMIT_SLOT; k++)
        bytes[k] = paxos_commit_byte(written, k);
    show("2a(1, 0, prepared)", bytes, paxos_commit_length(bytes[0]));
    written = paxos_commit_write(RMS, ACCEPTORS, LEADERS, ORDER, PAXOS_COMMIT_MAP_1A, 0, 0, 0, 0, 0);
    printf("a 1a at ballot 0: %u bytes, refused, %u\n", (unsigned)paxos_commit_length(paxos_commit_byte(written, 0)),
           paxos_commit_byte(written, 1));
    written = paxos_commit_write(RMS, ACCEPTORS, LEADERS, ORDER, 0x3E, 0, 0, 0, 0, 0);
    printf("no message's map: %u bytes, refused, %u\n", (unsigned)paxos_commit_length(paxos_commit_byte(written, 0)),
           paxos_commit_byte(written, 1));
}

/* ---- deliveries: to an N of three slots, of any bytes, and to an N that is none ---- */

static void deliver(const char *what, uint8_t acceptors, uint8_t *n, size_t n_len, const uint8_t *bytes, size_t len) {
    uint32_t slot = paxos_commit_deliver(RMS, acceptors, LEADERS, ORDER, n, n_len, bytes, len);
    if (slot < PAXOS_COMMIT_ANSWER_REFUSED)
        printf("%s: delivered, in slot %u\n", what, (unsigned)slot);
    else
        printf("%s: refused, %u\n", what, (unsigned)paxos_commit_refusal_of(slot));
}

static void deliveries(void) {
    static const uint8_t prepared[6] = {PAXOS_COMMIT_MAP_2A, 1, 0, PAXOS_COMMIT_VALUE_PREPARED, ORDER_BYTES};
    static const uint8_t foreign[6] = {PAXOS_COMMIT_MAP_2A, RMS, 0, PAXOS_COMMIT_VALUE_PREPARED, ORDER_BYTES};
    static const uint8_t other[6] = {PAXOS_COMMIT_MAP_2A, 1, 0, PAXOS_COMMIT_VALUE_PREPARED, 2, 1};
    static const uint8_t maps[8] = {PAXOS_COMMIT_MAP_1A,
                                    PAXOS_COMMIT_MAP_1B,
                                    PAXOS_COMMIT_MAP_1B_VOTE,
                                    PAXOS_COMMIT_MAP_2A,
                                    PAXOS_COMMIT_MAP_2B,
                                    PAXOS_COMMIT_MAP_DECISION,
                                    0x3E,
                                    0x19};
    size_t n_len = PAXOS_COMMIT_NETWORK_SIZE(3);
    uint8_t *n = zeros(n_len), *old = zeros(n_len);
    unsigned delivered = 0, refused[REFUSALS] = {0}, changed = 0;
    deliver("a 2a", ACCEPTORS, n, n_len, prepared, sizeof prepared);
    deliver("the same 2a", ACCEPTORS, n, n_len, prepared, sizeof prepared);
    deliver("a cut 2a", ACCEPTORS, n, n_len, prepared, 5);
    deliver("no bytes", ACCEPTORS, n, n_len, prepared, 0);
    deliver("a 2a for no weight of the plan", ACCEPTORS, n, n_len, foreign, sizeof foreign);
    deliver("a 2a of another order", ACCEPTORS, n, n_len, other, sizeof other);
    deliver("a 2a to an N of 17 bytes", ACCEPTORS, n, 17, prepared, sizeof prepared);
    deliver("a 2a without acceptors in the plan", 0, n, n_len, prepared, sizeof prepared);
    show("N", n, n_len);
    for (int round = 0; round < 10000; round++) {
        /* Small numbers behind a map, mostly with the order number, in a buffer of their length. Every 64th N is
           damaged, and a new one comes after. */
        size_t len = 1 + random_byte() % 8, at = random_byte() % n_len;
        uint8_t *bytes = zeros(len), damage = round % 64 == 0 ? random_byte() : 0, number;
        bytes[0] = maps[random_byte() % 8];
        for (size_t k = 1; k < len; k++)
            bytes[k] = random_byte() % 3;
        if (len >= 3 && round % 4 != 0) {
            bytes[len - 2] = ORDER >> 8;
            bytes[len - 1] = ORDER & 0xFF;
        }
        n[at] ^= damage;
        memcpy(old, n, n_len);
        number = paxos_commit_refusal_of(paxos_commit_deliver(RMS, ACCEPTORS, LEADERS, ORDER, n, n_len, bytes, len));
        if (number == 0) {
            delivered++;
        } else {
            refused[number % REFUSALS]++;
            changed += memcmp(old, n, n_len) != 0;
        }
        if (damage != 0)
            memset(n, 0, n_len);
        free(bytes);
    }
    printf("junk deliveries: %u delivered", delivered);
    for (unsigned k = 1; k < REFUSALS; k++)
        if (refused[k])
            printf(", %u refused with %u", refused[k], k);
    printf("; %u refused ones changed a byte\n", changed);
    free(n);
    free(old);
}

/* ---- the ballots of each leader, also where the plan has no such leader; the linked call says which it owns ---- */

static int stepped_at(uint8_t leaders, uint8_t leader, uint8_t bal) {
    uint8_t event[PAXOS_COMMIT_EVENT], inbox[PAXOS_COMMIT_SLOT], own[1] = {0}, n[PAXOS_COMMIT_SLOT] = {0};
    paxos_commit_event_at_ballot(PAXOS_COMMIT_KIND_PHASE_1A, leader, 0, bal, event);
    return paxos_commit_leader_step(1, 1, leaders, ORDER, inbox, 0, own, sizeof own, n, sizeof n, event,
                                    sizeof event) == 0;
}

static void ballots(void) {
    unsigned asked = 0, agreed = 0;
    for (unsigned leaders = 0; leaders <= 5; leaders++)
        for (unsigned leader = 0; leader <= 255; leader++) {
            /* Downwards, so that the lowest above each ballot is known. */
            uint8_t next = 0;
            for (unsigned bal = 256; bal-- > 0;) {
                int owned = leaders <= 4 ? stepped_at((uint8_t)leaders, (uint8_t)leader, (uint8_t)bal)
                                         : bal > 0 && (bal - 1) % 5 == leader;
                asked++;
                agreed += paxos_commit_owns((uint8_t)leaders, (uint8_t)leader, (uint8_t)bal) == owned &&
                          paxos_commit_next_ballot((uint8_t)leaders, (uint8_t)leader, (uint8_t)bal) == next;
                if (owned)
                    next = (uint8_t)bal;
            }
            if (leader < leaders && leaders <= 4)
                printf("leader %u of %u: first ballot %u\n", leader, leaders, next);
        }
    printf("ballots: %u of %u right\n", agreed, asked);
}

/* ---- nine events and all refusals; hosts/rust/tests/header.rs compares them with the Rust crate's ---- */

static void names(void) {
    uint8_t event[PAXOS_COMMIT_EVENT];
    for (uint8_t kind = 0; kind <= PAXOS_COMMIT_KIND_ABORT; kind++) {
        if (kind >= PAXOS_COMMIT_KIND_TAKE_DECISION && kind <= PAXOS_COMMIT_KIND_RECEIPT)
            paxos_commit_event_at_slot(kind, 2, 259, event);
        else if (kind == PAXOS_COMMIT_KIND_PHASE_1A || kind == PAXOS_COMMIT_KIND_PHASE_2A)
            paxos_commit_event_at_ballot(kind, 2, 4, 9, event);
        else
            paxos_commit_event(kind, 2, event);
        show("event", event, sizeof event);
    }
    paxos_commit_event_at_slot(PAXOS_COMMIT_KIND_VOTE, 2, PAXOS_COMMIT_ANSWER_REFUSED + 15, event);
    show("event with a refused answer as its slot", event, sizeof event);
    for (uint8_t number = 0; number <= REFUSALS; number++)
        printf("refusal %u: %s\n", number, paxos_commit_refusal_name(number));
}

int main(void) {
    rehearsal();
    junk();
    backlog();
    hosts(64);
    hosts(1);
    hosts(0);
    declined();
    writer();
    deliveries();
    ballots();
    names();
    return 0;
}
