/*
 * Follows a group by the library for C, as the gate follows it for cost.sh: queries messages, and processes others.
 *
 *     cc -O2 -o queries bench/queries.c build/libmls_check.a
 *     ./queries INFO TREE members|full <RECORDS
 *
 * INFO is a GroupInfo, TREE its ratchet tree, and the last word names the profile. RECORDS are records of the gate
 * (docs/FORMATS.md): `b`, and then `q` or `m`, each with a message. What a query lists is not learnt, so that it is listed
 * each time, as a forged signature is. Before the start, and before a message is processed, all that is listed is learnt, as
 * with --trust. The line that is printed has the number of queries and of the signatures that they listed, and how many
 * messages were accepted and refused.
 *
 * The exit status is 0, or 2 if the arguments are wrong, or 3 at a fault, as if no follower starts.
 */
#include "../examples/c/support.h"
#include "../include/mls_check.h"

/* Memory that is used again and again, and how many bytes of it are filled. */
struct buffer {
    uint8_t *at;
    size_t len, room;
};

/* Makes room for `room` bytes, which are initialized, as the library asks. What the buffer had is lost. */
static void make_room(struct buffer *buffer, size_t room) {
    if (buffer->at && room <= buffer->room)
        return;
    free(buffer->at);
    buffer->at = calloc(room ? room : 1, 1);
    if (!buffer->at)
        die("out of memory");
    buffer->room = room;
}

static struct buffer record;  /* the body of the record that was read last */
static struct buffer listed;  /* the records of the signatures that were listed last */
static struct buffer learned; /* their receipts */
static long queries, signatures, accepted, refused;

static void fail(const char *what, uint32_t number) {
    printf("%s %u\n", what, number);
    exit(3);
}

/* ---- the records of the gate */

static size_t next_byte(void) {
    int next = getchar();
    if (next == EOF)
        die("cut short");
    return (size_t)next;
}

/* Reads the next record, a vector (RFC 9420, 2.1.2). Returns 0 if there is none. */
static int read_record(void) {
    int first = getchar();
    size_t len, more;
    if (first == EOF)
        return 0;
    if (first >> 6 == 3)
        die("no vector");
    len = (size_t)first & 0x3f;
    for (more = ((size_t)1 << (first >> 6)) - 1; more > 0; more--)
        len = len << 8 | next_byte();
    make_room(&record, len);
    record.len = fread(record.at, 1, len, stdin);
    if (record.len < len || len == 0)
        die("no whole record");
    return 1;
}

/* ---- what is listed */

/* Stores the receipts of the signatures that are listed. Returns their number. */
static long take_receipts(void) {
    struct bytes rest = {listed.at, listed.len};
    long count;
    make_room(&learned, listed.len);
    learned.len = 0;
    for (count = 0; rest.len > 0; count++) {
        struct bytes body = take_vector(&rest);
        memcpy(learned.at + learned.len, take(&body, MLS_RECEIPT_SIZE).at, MLS_RECEIPT_SIZE);
        learned.len += MLS_RECEIPT_SIZE;
    }
    return count;
}

static void start(mls_follower *group, struct bytes info, struct bytes tree, uint32_t profile) {
    mls_verdict verdict;
    do {
        make_room(&listed, listed.len);
        verdict = mls_start_query(info.at, info.len, tree.at, tree.len, MLS_EMPTY, listed.at, listed.room, &listed.len);
    } while (verdict.number == MLS_BUFFER_TOO_SMALL);
    if (verdict.number != MLS_OK)
        fail("start refused", verdict.number);
    take_receipts();
    verdict = mls_follower_start(info.at, info.len, tree.at, tree.len, learned.at, learned.len, profile, group);
    if (verdict.number != MLS_OK)
        fail("start refused", verdict.number);
}

/* Lists the signatures of a message. Returns their number, which is 0 if the message cannot be read. */
static long query(mls_follower *group, struct bytes message) {
    uint32_t number;
    do {
        make_room(&listed, listed.len);
        number = mls_follower_query(group, message.at, message.len, listed.at, listed.room, &listed.len);
    } while (number == MLS_BUFFER_TOO_SMALL);
    if (number >= MLS_OUT_OF_MEMORY)
        fail("fault", number);
    return take_receipts();
}

static void process(mls_follower *group, struct bytes message) {
    uint8_t reference[MLS_REFERENCE_SIZE] = {0};
    uint32_t number;
    query(group, message);
    number = mls_follower_learn(group, learned.at, learned.len);
    if (number != MLS_OK)
        fail("fault", number);
    number = mls_follower_judge(group, message.at, message.len, reference, sizeof reference).number;
    if (number >= MLS_OUT_OF_MEMORY)
        fail("fault", number);
    accepted += number == MLS_OK;
    refused += number != MLS_OK;
}

static int usage(void) {
    fprintf(stderr, "usage: queries INFO TREE members|full <RECORDS\n");
    return 2;
}

int main(int count, char **words) {
    mls_follower group = MLS_NO_FOLLOWER_YET;
    struct bytes info, tree;
    uint32_t profile;
    (void)read_receipts;
    if (count != 4 || (strcmp(words[3], "members") != 0 && strcmp(words[3], "full") != 0))
        return usage();
    profile = strcmp(words[3], "full") == 0 ? MLS_PROFILE_FULL : MLS_PROFILE_MEMBERS;
    info = read_file(words[1]);
    tree = read_file(words[2]);
    while (read_record()) {
        struct bytes message = {record.at + 1, record.len - 1};
        if (record.at[0] == 'b')
            start(&group, info, tree, profile);
        else if (record.at[0] == 'q') {
            queries++;
            signatures += query(&group, message);
        } else if (record.at[0] == 'm')
            process(&group, message);
        else
            die("another record than b, q or m");
    }
    printf("queries %ld signatures %ld accepted %ld refused %ld\n", queries, signatures, accepted, refused);
    mls_follower_free(&group);
    free(record.at);
    free(listed.at);
    free(learned.at);
    free(info.at);
    free(tree.at);
    return 0;
}
