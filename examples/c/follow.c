/*
 * Follows a group as a delivery service does, and prints a line for each message, as `mlscheck gate` does.
 *
 *     follow INFO LOG RECEIPTS     a signature is good if its receipt is in the file RECEIPTS
 *     follow INFO LOG              a signature is good if libcrypto verifies it; needs a build with -DMLS_WITH_CRYPTO
 *
 * The group is followed by all strict rules. INFO is a GroupInfo, LOG the messages of the group, each as a vector. With the
 * word `forge` at the end, each message is first checked with one bit of its signature changed, which has to be refused for
 * that.
 */
#include "../../include/mls_check.h"
#include "support.h"

static void print_hex(const uint8_t *at, size_t len) {
    for (size_t i = 0; i < len; i++)
        printf("%02x", at[i]);
}

/* A signature that has to be verified. */
struct signature {
    struct bytes receipt, suite, key, content, signature;
};

static struct bytes good_receipts;
static int has_receipts;

static int is_listed(const struct signature *wanted) {
    for (size_t i = 0; i < good_receipts.len; i += MLS_RECEIPT_SIZE)
        if (memcmp(good_receipts.at + i, wanted->receipt.at, MLS_RECEIPT_SIZE) == 0)
            return 1;
    return 0;
}

#ifdef MLS_WITH_CRYPTO
#include <openssl/evp.h>

/* Verifies a signature by Ed25519 or Ed448 (RFC 9420, 17.1: the cipher suites 1, 3, 4 and 6). */
static int is_verified(const struct signature *wanted) {
    unsigned suite = (unsigned)(wanted->suite.at[0] << 8 | wanted->suite.at[1]);
    int type = suite == 1 || suite == 3 ? EVP_PKEY_ED25519 : suite == 4 || suite == 6 ? EVP_PKEY_ED448 : 0;
    EVP_PKEY *key;
    EVP_MD_CTX *context = EVP_MD_CTX_new();
    int good;
    if (type == 0 || !context)
        die("a signature scheme that this example lacks");
    key = EVP_PKEY_new_raw_public_key(type, NULL, wanted->key.at, wanted->key.len);
    good = key && EVP_DigestVerifyInit(context, NULL, NULL, NULL, key) == 1 &&
           EVP_DigestVerify(context, wanted->signature.at, wanted->signature.len, wanted->content.at,
                            wanted->content.len) == 1;
    EVP_PKEY_free(key);
    EVP_MD_CTX_free(context);
    return good;
}
#else
static int is_verified(const struct signature *wanted) {
    (void)wanted;
    die("built without libcrypto: pass a file of receipts");
    return 0;
}
#endif

static struct signature take_signature(struct bytes *records) {
    struct bytes body = take_vector(records);
    struct signature wanted;
    wanted.receipt = take(&body, MLS_RECEIPT_SIZE);
    wanted.suite = take(&body, 2);
    wanted.key = take_vector(&body);
    wanted.content = take_vector(&body);
    wanted.signature = take_vector(&body);
    return wanted;
}

/* Returns the receipts of the good ones among these signatures, one after the other. Frees the records. */
static struct bytes verify(struct bytes records) {
    struct bytes rest = records, good = {allocate(records.len), 0};
    while (rest.len > 0) {
        struct signature wanted = take_signature(&rest);
        if (has_receipts ? is_listed(&wanted) : is_verified(&wanted)) {
            memcpy(good.at + good.len, wanted.receipt.at, MLS_RECEIPT_SIZE);
            good.len += MLS_RECEIPT_SIZE;
        }
    }
    free(records.at);
    return good;
}

/* Prints why the library did not do what it was to do, and ends. */
static void fail(const char *what, uint32_t number, uint32_t inner, uint64_t place) {
    printf("%s %u %u %llu\n", what, number, inner, (unsigned long long)place);
    exit(1);
}

static struct bytes start_signatures(struct bytes info) {
    struct bytes records = {allocate(1), 0};
    size_t needed;
    mls_verdict verdict = mls_start_query(info.at, info.len, MLS_EMPTY, MLS_EMPTY, records.at, 0, &needed);
    if (verdict.number == MLS_BUFFER_TOO_SMALL) {
        free(records.at);
        records.at = allocate(needed);
        records.len = needed;
        verdict = mls_start_query(info.at, info.len, MLS_EMPTY, MLS_EMPTY, records.at, records.len, &needed);
    }
    if (verdict.number != MLS_OK)
        fail("start refused", verdict.number, verdict.inner, verdict.place);
    return records;
}

static void start(mls_follower *group, struct bytes info) {
    uint8_t hash[64];
    uint64_t epoch;
    uint32_t members;
    uint16_t rules;
    size_t needed;
    struct bytes good = verify(start_signatures(info));
    mls_verdict verdict = mls_follower_start_by(info.at, info.len, MLS_EMPTY, good.at, good.len, MLS_PROFILE_MEMBERS,
                                                MLS_RULES_STRICT, group);
    free(good.at);
    if (verdict.number != MLS_OK)
        fail("start refused", verdict.number, verdict.inner, verdict.place);
    if (mls_follower_epoch(group, &epoch) || mls_follower_members(group, &members) ||
        mls_follower_rules(group, &rules) || mls_follower_tree_hash(group, hash, sizeof hash, &needed))
        die("no follower");
    if (rules != MLS_RULES_STRICT)
        die("a strict rule is missing");
    printf("ready epoch %llu members %u tree ", (unsigned long long)epoch, members);
    print_hex(hash, needed);
    printf("\n");
}

static struct bytes message_signatures(mls_follower *group, struct bytes message) {
    struct bytes records = {allocate(1), 0};
    size_t needed;
    uint32_t number = mls_follower_query(group, message.at, message.len, records.at, 0, &needed);
    if (number == MLS_BUFFER_TOO_SMALL) {
        free(records.at);
        records.at = allocate(needed);
        records.len = needed;
        number = mls_follower_query(group, message.at, message.len, records.at, records.len, &needed);
    }
    if (number >= MLS_OUT_OF_MEMORY)
        fail("fault", number, 0, 0);
    return records;
}

/* Queries a message, verifies its signatures, and has it checked. */
static mls_judgement judge(mls_follower *group, struct bytes message, uint8_t *reference) {
    struct bytes good = verify(message_signatures(group, message));
    uint32_t number = mls_follower_learn(group, good.at, good.len);
    free(good.at);
    if (number != MLS_OK)
        fail("fault", number, 0, 0);
    return mls_follower_judge(group, message.at, message.len, reference, MLS_REFERENCE_SIZE);
}

static void print_commit(mls_follower *group, uint64_t epoch) {
    uint8_t hash[64];
    size_t needed;
    printf("accepted commit %llu ", (unsigned long long)epoch);
    if (mls_follower_tree_hash(group, hash, sizeof hash, &needed))
        die("no follower");
    print_hex(hash, needed);
    printf(" ");
    if (mls_follower_confirmed_hash(group, hash, sizeof hash, &needed))
        die("no follower");
    print_hex(hash, needed);
    printf("\n");
}

static void print_judgement(mls_follower *group, mls_judgement judgement, const uint8_t *reference, size_t size) {
    if (judgement.number >= MLS_OUT_OF_MEMORY)
        fail("fault", judgement.number, 0, 0);
    if (judgement.number == MLS_REFUSED_MEMBER)
        printf("refused 25 Member %u %s %u\n", judgement.inner, mls_member_fault_name(judgement.inner), judgement.leaf);
    else if (judgement.number != MLS_OK)
        printf("refused %u %s\n", judgement.number, mls_refusal_name(judgement.number));
    else if (judgement.kind == MLS_COMMIT)
        print_commit(group, judgement.epoch);
    else {
        printf("accepted proposal ");
        print_hex(reference, size);
        printf("\n");
    }
}

/* The size of a hash of the group's cipher suite: that of its tree hash. */
static size_t hash_size(mls_follower *group) {
    size_t needed;
    uint8_t none[1];
    mls_follower_tree_hash(group, none, 0, &needed);
    return needed;
}

/* Changes a bit of the first signature that a message needs: its own. */
static void forge(mls_follower *group, struct bytes message) {
    struct bytes records = message_signatures(group, message), rest = records;
    struct signature own = take_signature(&rest);
    for (size_t i = 0; i + own.signature.len <= message.len; i++)
        if (memcmp(message.at + i, own.signature.at, own.signature.len) == 0) {
            message.at[i] ^= 1;
            break;
        }
    free(records.at);
}

/* Has a forged copy of the message checked. */
static void judge_forged(mls_follower *group, struct bytes message) {
    uint8_t reference[MLS_REFERENCE_SIZE];
    struct bytes copy = {allocate(message.len), message.len};
    memcpy(copy.at, message.at, message.len);
    forge(group, copy);
    if (judge(group, copy, reference).number != MLS_REFUSED_BAD_SIGNATURE)
        die("a forged message is not refused for its signature");
    free(copy.at);
}

int main(int count, char **words) {
    int forges = count > 3 && strcmp(words[count - 1], "forge") == 0;
    uint8_t reference[MLS_REFERENCE_SIZE];
    mls_follower group = MLS_NO_FOLLOWER_YET;
    struct bytes info, log, rest;
    count -= forges;
    if (count != 3 && count != 4)
        die("usage: follow INFO LOG [RECEIPTS] [forge]");
    info = read_file(words[1]);
    log = read_file(words[2]);
    has_receipts = count == 4;
    if (has_receipts)
        good_receipts = read_receipts(words[3]);
    start(&group, info);
    for (rest = log; rest.len > 0;) {
        struct bytes message = take_vector(&rest);
        if (forges)
            judge_forged(&group, message);
        print_judgement(&group, judge(&group, message, reference), reference, hash_size(&group));
    }
    mls_follower_free(&group);
    free(info.at);
    free(log.at);
    if (has_receipts)
        free(good_receipts.at);
    return 0;
}
