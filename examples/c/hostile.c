/*
 * Calls the library as a hostile or careless program may, within the conditions of mls_check.h: empty and huge inputs, short
 * buffers, handles without a follower, forged and damaged bytes, and memory that is refused. It does so without strict rules,
 * and then with all of them. It is linked with -Wl,--wrap=malloc,--wrap=realloc,--wrap=free, so it counts the library's
 * allocations.
 *
 *     hostile INFO LOG RECEIPTS CONTEXT TREE
 */
#define _DEFAULT_SOURCE
#include "../../include/mls_check.h"
#include "support.h"
#include <malloc.h>
#include <sys/mman.h>

/* ---- the allocator */

void *__real_malloc(size_t len);
void *__real_realloc(void *at, size_t len);
void __real_free(void *at);
void *__wrap_malloc(size_t len);
void *__wrap_realloc(void *at, size_t len);
void __wrap_free(void *at);

static long blocks;       /* that are allocated now */
static long until_refused; /* the allocation with this number from now on fails; 0: none */
static int refused;
static int keeps_blocks; /* whether no block can be made smaller */
static long kept_blocks; /* that could not be made smaller */

static int refuses(void) {
    if (until_refused > 0 && --until_refused == 0)
        return refused = 1;
    return 0;
}

void *__wrap_malloc(size_t len) {
    void *at = refuses() ? NULL : __real_malloc(len);
    blocks += at != NULL;
    return at;
}

/* A block is made smaller to save memory. If that can't be had, the library goes on with the block that it has. */
static int is_kept(void) {
    kept_blocks += keeps_blocks;
    return keeps_blocks;
}

void *__wrap_realloc(void *old, size_t len) {
    int is_smaller = old != NULL && len <= malloc_usable_size(old);
    void *at = (is_smaller ? is_kept() : refuses()) ? NULL : __real_realloc(old, len);
    blocks += old == NULL && at != NULL;
    return at;
}

void __wrap_free(void *at) {
    blocks -= at != NULL;
    __real_free(at);
}

/* ---- what is expected */

static long checks;

#define EXPECT(fact) expect((fact), #fact, __LINE__)

static void expect(int holds, const char *fact, int line) {
    checks++;
    if (!holds) {
        fprintf(stderr, "hostile.c:%d: %s\n", line, fact);
        exit(1);
    }
}

static struct bytes info, log_bytes, receipts, context, tree;

static uint16_t rules; /* of the followers that are started: none or all of them */

static int is_strict(void) {
    return rules != MLS_RULES_PLAIN;
}

/* Starts a follower from any bytes, in a profile. Without strict rules it is mls_follower_start that is tried. */
static mls_verdict start_from(mls_follower *group, struct bytes from, struct bytes good, uint32_t profile) {
    if (is_strict())
        return mls_follower_start_by(from.at, from.len, MLS_EMPTY, good.at, good.len, profile, rules, group);
    return mls_follower_start(from.at, from.len, MLS_EMPTY, good.at, good.len, profile, group);
}

static mls_verdict start(mls_follower *group, struct bytes good) {
    return start_from(group, info, good, MLS_PROFILE_MEMBERS);
}

/* Validates a tree. Without strict rules it is mls_validate_tree that is tried. */
static mls_verdict validate(struct bytes of, struct bytes by, struct bytes good, uint8_t *hash, size_t room,
                            size_t *needed) {
    if (is_strict())
        return mls_validate_tree_strict(of.at, of.len, by.at, by.len, good.at, good.len, rules, hash, room, needed);
    return mls_validate_tree(of.at, of.len, by.at, by.len, good.at, good.len, hash, room, needed);
}

static int is(mls_verdict verdict, uint32_t number, uint32_t inner, uint64_t place) {
    return verdict.number == number && verdict.inner == inner && verdict.place == place;
}

static int is_judged(mls_judgement judgement, uint32_t number) {
    return judgement.number == number && judgement.kind == 0 && judgement.epoch == 0;
}

static const struct bytes nothing = {(uint8_t *)mls_no_bytes, 0};

/* ---- a handle without a follower, also after a refused start */

static void expect_no_follower(mls_follower *group) {
    uint8_t out[64] = {7};
    uint64_t epoch = 7;
    uint32_t members = 7, ended = 7;
    uint16_t found = 7;
    size_t needed = 7, other = 7, pending = 7;
    EXPECT(mls_follower_rules(group, &found) == MLS_NO_FOLLOWER && found == 7);
    EXPECT(is(mls_follower_make_strict(group, MLS_RULES_STRICT), MLS_NO_FOLLOWER, 0, 0));
    EXPECT(is(mls_follower_make_strict(group, 0x2000), MLS_UNSUPPORTED_RULES, 0, 0));
    EXPECT(mls_follower_epoch(group, &epoch) == MLS_NO_FOLLOWER && epoch == 7);
    EXPECT(mls_follower_members(group, &members) == MLS_NO_FOLLOWER && members == 7);
    EXPECT(mls_follower_ended(group, &ended) == MLS_NO_FOLLOWER && ended == 7);
    EXPECT(mls_follower_tree_hash(group, out, sizeof out, &needed) == MLS_NO_FOLLOWER && needed == 0);
    needed = 7;
    EXPECT(mls_follower_confirmed_hash(group, out, sizeof out, &needed) == MLS_NO_FOLLOWER && needed == 0);
    needed = 7;
    EXPECT(mls_follower_group_id(group, out, sizeof out, &needed) == MLS_NO_FOLLOWER && needed == 0);
    needed = 7;
    EXPECT(mls_follower_context(group, out, sizeof out, &needed) == MLS_NO_FOLLOWER && needed == 0);
    needed = 7;
    EXPECT(mls_follower_tree(group, out, sizeof out, &needed) == MLS_NO_FOLLOWER && needed == 0);
    needed = 7;
    EXPECT(mls_follower_member(group, 0, out, 32, &needed, out + 32, 32, &other) == MLS_NO_FOLLOWER);
    EXPECT(needed == 0 && other == 0);
    EXPECT(mls_follower_pending(group, &pending) == MLS_NO_FOLLOWER && pending == 7);
    needed = 7;
    EXPECT(mls_follower_pending_at(group, 0, out, sizeof out, &needed) == MLS_NO_FOLLOWER && needed == 0);
    EXPECT(mls_follower_query(group, info.at, info.len, out, sizeof out, &needed) == MLS_NO_FOLLOWER);
    EXPECT(mls_follower_learn(group, receipts.at, receipts.len) == MLS_NO_FOLLOWER);
    EXPECT(is_judged(mls_follower_judge(group, info.at, info.len, out, sizeof out), MLS_NO_FOLLOWER));
    EXPECT(is_judged(mls_follower_judge_at(group, 0, info.at, info.len, out, sizeof out), MLS_NO_FOLLOWER));
    EXPECT(mls_follower_state(group, out, sizeof out, &needed) == MLS_NO_FOLLOWER && needed == 0);
    EXPECT(out[0] == 7);
    mls_follower_free(group);
    mls_follower_free(group);
    EXPECT(group->at == NULL);
}

static void refused_starts(void) {
    mls_follower group = MLS_NO_FOLLOWER_YET;
    long before = blocks;
    uint8_t message[] = {0, 1, 0, 1, 0}, out[1] = {7};
    struct bytes rest = log_bytes, handshake = take_vector(&rest);
    struct bytes odd = {receipts.at, 31}, unread = {message, sizeof message};
    size_t needed = 7;
    expect_no_follower(&group);
    EXPECT(is(start(&group, nothing), MLS_START_MEMBER, MLS_MEMBER_LEAF_SIGNATURE, 0));
    expect_no_follower(&group);
    EXPECT(is(start_from(&group, info, receipts, 3), MLS_UNSUPPORTED_PROFILE, 0, 0));
    EXPECT(is(start_from(&group, info, receipts, 0), MLS_UNSUPPORTED_PROFILE, 0, 0));
    EXPECT(is(start(&group, odd), MLS_BAD_RECEIPTS, 0, 0));
    EXPECT(is(start_from(&group, nothing, nothing, MLS_PROFILE_MEMBERS), MLS_INFO_UNREADABLE, MLS_DECODE_TRUNCATED, 0));
    EXPECT(start_from(&group, unread, nothing, MLS_PROFILE_MEMBERS).number == MLS_INFO_UNREADABLE);
    EXPECT(mls_follower_start(info.at, info.len, message, sizeof message, MLS_EMPTY, MLS_PROFILE_MEMBERS, &group)
               .number == MLS_TREE_UNREADABLE);
    EXPECT(mls_follower_start_by(info.at, info.len, message, sizeof message, MLS_EMPTY, MLS_PROFILE_MEMBERS, rules,
                                 &group)
               .number == MLS_TREE_UNREADABLE);
    EXPECT(is(start_from(&group, handshake, nothing, MLS_PROFILE_MEMBERS), MLS_NOT_GROUP_INFO, 0, 0));
    /* the profile is checked before the rules, and these before the receipts */
    for (uint16_t bit = 0x2000; bit != 0; bit = (uint16_t)(bit << 1)) {
        EXPECT(is(mls_follower_start_by(info.at, info.len, MLS_EMPTY, odd.at, odd.len, 3, rules | bit, &group),
                  MLS_UNSUPPORTED_PROFILE, 0, 0));
        EXPECT(is(mls_follower_start_by(info.at, info.len, MLS_EMPTY, odd.at, odd.len, MLS_PROFILE_FULL, rules | bit,
                                        &group),
                  MLS_UNSUPPORTED_RULES, 0, 0));
    }
    EXPECT(is(mls_follower_resume(MLS_EMPTY, MLS_EMPTY, MLS_PROFILE_MEMBERS, &group), MLS_RESUME_UNREADABLE,
              MLS_DECODE_TRUNCATED, 0));
    EXPECT(is(mls_follower_resume(info.at, info.len, MLS_EMPTY, 3, &group), MLS_UNSUPPORTED_PROFILE, 0, 0));
    /* the receipts are checked before the state, and then the version of its file, which a GroupInfo has not */
    EXPECT(is(mls_resume_query(MLS_EMPTY, odd.at, odd.len, out, sizeof out, &needed), MLS_BAD_RECEIPTS, 0, 0));
    EXPECT(needed == 0);
    needed = 7;
    EXPECT(is(mls_resume_query(MLS_EMPTY, MLS_EMPTY, out, sizeof out, &needed), MLS_RESUME_UNREADABLE,
              MLS_DECODE_TRUNCATED, 0));
    EXPECT(needed == 0);
    needed = 7;
    EXPECT(is(mls_resume_query(info.at, info.len, receipts.at, receipts.len, out, sizeof out, &needed),
              MLS_RESUME_UNREADABLE, MLS_DECODE_BAD_TAG, 0));
    EXPECT(needed == 0 && out[0] == 7);
    expect_no_follower(&group);
    EXPECT(blocks == before);
}

/* ---- buffers that are a byte too small */

static void short_buffers(void) {
    mls_follower group = MLS_NO_FOLLOWER_YET;
    struct bytes rest = log_bytes, message = take_vector(&rest);
    uint8_t *buffer = allocate(1 << 16), reference[MLS_REFERENCE_SIZE];
    size_t needed, size;
    memset(buffer, 0xaa, 1 << 16);
    EXPECT(is(mls_start_query(info.at, info.len, MLS_EMPTY, MLS_EMPTY, buffer, 0, &size), MLS_BUFFER_TOO_SMALL, 0, 0));
    EXPECT(is(mls_start_query(info.at, info.len, MLS_EMPTY, MLS_EMPTY, buffer, size - 1, &needed),
              MLS_BUFFER_TOO_SMALL, 0, 0));
    EXPECT(needed == size && buffer[0] == 0xaa && buffer[size - 2] == 0xaa);
    EXPECT(is(mls_start_query(info.at, info.len, MLS_EMPTY, MLS_EMPTY, buffer, size, &needed), MLS_OK, 0, 0));
    EXPECT(needed == size && buffer[size] == 0xaa);
    EXPECT(is(mls_start_query(info.at, info.len, MLS_EMPTY, receipts.at, receipts.len, buffer, 0, &size), MLS_OK, 0, 0));
    EXPECT(size == 0);
    EXPECT(is(start(&group, receipts), MLS_OK, 0, 0));

    memset(buffer, 0xaa, 1 << 16);
    EXPECT(mls_follower_tree_hash(&group, buffer, 31, &needed) == MLS_BUFFER_TOO_SMALL && needed == 32);
    EXPECT(mls_follower_confirmed_hash(&group, buffer, 31, &needed) == MLS_BUFFER_TOO_SMALL && needed == 32);
    EXPECT(mls_follower_state(&group, buffer, 0, &size) == MLS_BUFFER_TOO_SMALL && size > 0);
    EXPECT(mls_follower_state(&group, buffer, size - 1, &needed) == MLS_BUFFER_TOO_SMALL && needed == size);
    EXPECT(is_judged(mls_follower_judge(&group, message.at, message.len, buffer, MLS_REFERENCE_SIZE - 1),
                     MLS_BUFFER_TOO_SMALL));
    EXPECT(is_judged(mls_follower_judge_at(&group, 0, message.at, message.len, buffer, MLS_REFERENCE_SIZE - 1),
                     MLS_BUFFER_TOO_SMALL));
    for (size_t i = 0; i < 1 << 16; i++)
        if (buffer[i] != 0xaa)
            die("a buffer that is too small was written to");
    EXPECT(mls_follower_state(&group, buffer, size, &needed) == MLS_OK && needed == size && buffer[size] == 0xaa);
    EXPECT(mls_follower_judge(&group, message.at, message.len, reference, sizeof reference).number == MLS_OK);
    mls_follower_free(&group);
    free(buffer);
}

/* ---- the receipts of all signatures that are listed */

/* Returns the receipts of all records, and frees these. */
static struct bytes receipts_of(struct bytes records) {
    struct bytes good = {allocate(records.len), 0};
    for (struct bytes left = records; left.len > 0; good.len += MLS_RECEIPT_SIZE)
        memcpy(good.at + good.len, take_vector(&left).at, MLS_RECEIPT_SIZE);
    free(records.at);
    return good;
}

static struct bytes receipts_of_start(struct bytes from) {
    struct bytes records;
    uint8_t none[1];
    size_t needed;
    EXPECT(is(mls_start_query(from.at, from.len, MLS_EMPTY, MLS_EMPTY, none, 0, &records.len), MLS_BUFFER_TOO_SMALL, 0,
              0));
    records.at = allocate(records.len);
    EXPECT(is(mls_start_query(from.at, from.len, MLS_EMPTY, MLS_EMPTY, records.at, records.len, &needed), MLS_OK, 0, 0));
    return receipts_of(records);
}

/* Learns that each signature of the message is good, and has it checked. */
static uint32_t judge_trusting(mls_follower *group, struct bytes message) {
    struct bytes records = {allocate(1 << 16), 0}, good;
    uint8_t reference[MLS_REFERENCE_SIZE];
    EXPECT(mls_follower_query(group, message.at, message.len, records.at, 1 << 16, &records.len) == MLS_OK);
    good = receipts_of(records);
    EXPECT(mls_follower_learn(group, good.at, good.len) == MLS_OK);
    free(good.at);
    return mls_follower_judge(group, message.at, message.len, reference, sizeof reference).number;
}

/* ---- the query of a message whose signatures have no receipts, with a buffer that is a byte too small */

static void unknown_signatures(void) {
    mls_follower group = MLS_NO_FOLLOWER_YET;
    struct bytes rest = log_bytes, message = take_vector(&rest), records, good = receipts_of_start(info);
    size_t size, needed;
    uint8_t reference[MLS_REFERENCE_SIZE];
    EXPECT(is(start(&group, good), MLS_OK, 0, 0));
    free(good.at);

    EXPECT(mls_follower_judge(&group, message.at, message.len, reference, sizeof reference).number ==
           MLS_REFUSED_BAD_SIGNATURE);
    EXPECT(mls_follower_query(&group, message.at, message.len, reference, 0, &size) == MLS_BUFFER_TOO_SMALL);
    records.at = allocate(size);
    records.at[0] = 0xaa;
    EXPECT(mls_follower_query(&group, message.at, message.len, records.at, size - 1, &needed) == MLS_BUFFER_TOO_SMALL);
    EXPECT(needed == size && records.at[0] == 0xaa);
    EXPECT(mls_follower_query(&group, message.at, message.len, records.at, size, &needed) == MLS_OK && needed == size);
    free(records.at);
    EXPECT(mls_follower_learn(&group, receipts.at, 33) == MLS_BAD_RECEIPTS);
    EXPECT(mls_follower_learn(&group, MLS_EMPTY) == MLS_OK);
    EXPECT(mls_follower_query(&group, message.at, message.len, reference, 0, &needed) == MLS_BUFFER_TOO_SMALL &&
           needed == size);
    EXPECT(mls_follower_learn(&group, receipts.at, receipts.len) == MLS_OK);
    EXPECT(mls_follower_query(&group, message.at, message.len, reference, 0, &needed) == MLS_OK && needed == 0);
    EXPECT(mls_follower_judge(&group, message.at, message.len, reference, sizeof reference).number == MLS_OK);
    mls_follower_free(&group);
}

/* ---- empty, huge and damaged messages */

static void odd_messages(void) {
    mls_follower group = MLS_NO_FOLLOWER_YET;
    uint8_t reference[MLS_REFERENCE_SIZE];
    size_t needed, huge = (size_t)1 << 32;
    struct bytes rest = log_bytes, message = take_vector(&rest), copy = {allocate(message.len), message.len};
    uint8_t *zeros = mmap(NULL, huge, PROT_READ | PROT_WRITE, MAP_PRIVATE | MAP_ANONYMOUS | MAP_NORESERVE, -1, 0);
    EXPECT(zeros != MAP_FAILED);
    EXPECT(is(start(&group, receipts), MLS_OK, 0, 0));
    EXPECT(is_judged(mls_follower_judge(&group, MLS_EMPTY, reference, sizeof reference), MLS_REFUSED_MALFORMED));
    EXPECT(mls_follower_query(&group, MLS_EMPTY, reference, 0, &needed) == MLS_REFUSED_MALFORMED && needed == 0);
    EXPECT(is_judged(mls_follower_judge(&group, zeros, huge, reference, sizeof reference), MLS_REFUSED_MALFORMED));
    EXPECT(mls_follower_query(&group, zeros, huge, reference, 0, &needed) == MLS_REFUSED_MALFORMED);
    EXPECT(start_from(&group, (struct bytes){zeros, huge}, nothing, MLS_PROFILE_MEMBERS).number == MLS_INFO_UNREADABLE);
    EXPECT(mls_follower_resume(zeros, huge, MLS_EMPTY, MLS_PROFILE_MEMBERS, &group).number == MLS_RESUME_UNREADABLE);
    EXPECT(mls_resume_query(zeros, huge, MLS_EMPTY, reference, 0, &needed).number == MLS_RESUME_UNREADABLE && needed == 0);
    EXPECT(mls_follower_learn(&group, zeros, 32) == MLS_OK);
    munmap(zeros, huge);
    /* each front of the message, and each changed bit of it: it is refused, and the group goes on */
    for (size_t len = 0; len < message.len; len++)
        EXPECT(mls_follower_judge(&group, message.at, len, reference, sizeof reference).number ==
               MLS_REFUSED_MALFORMED);
    for (size_t bit = 0; bit < 8 * message.len; bit++) {
        mls_judgement judgement;
        memcpy(copy.at, message.at, message.len);
        copy.at[bit / 8] ^= (uint8_t)(1 << bit % 8);
        judgement = mls_follower_judge(&group, copy.at, copy.len, reference, sizeof reference);
        if (judgement.number == MLS_OK) {
            /* the membership tag is checked by no rule: begin again */
            EXPECT(is(start(&group, receipts), MLS_OK, 0, 0));
        } else {
            EXPECT(judgement.number < MLS_REFUSED_GROUP_OVER || judgement.number > MLS_REFUSED_RESYNC_INVALID);
            EXPECT(is_strict() || judgement.number < MLS_REFUSED_TAG_LENGTH);
        }
    }
    free(copy.at);
    EXPECT(mls_follower_judge(&group, message.at, message.len, reference, sizeof reference).number == MLS_OK);
    mls_follower_free(&group);
}

/* ---- the facts of a message */

static int are_facts(mls_facts found, uint32_t wire_format, uint64_t epoch, uint32_t content_type, uint32_t sender_index) {
    return found.wire_format == wire_format && found.epoch == epoch && found.content_type == content_type &&
           found.sender_index == sender_index;
}

/* Has the facts of bytes that are no message read: nothing is written. */
static void no_facts(struct bytes message) {
    mls_facts found, before;
    uint8_t id[64], key[64], others[64];
    size_t id_len = 7, key_len = 7;
    memset(&found, 0xaa, sizeof found);
    memset(&before, 0xaa, sizeof before);
    memset(id, 0xaa, sizeof id);
    memset(key, 0xaa, sizeof key);
    memset(others, 0xaa, sizeof others);
    EXPECT(mls_message_facts(message.at, message.len, &found, id, sizeof id, &id_len, key, sizeof key, &key_len) ==
           MLS_REFUSED_MALFORMED);
    EXPECT(id_len == 0 && key_len == 0 && memcmp(&found, &before, sizeof found) == 0);
    EXPECT(memcmp(id, others, sizeof id) == 0 && memcmp(key, others, sizeof key) == 0);
}

static void facts_of_messages(void) {
    static uint8_t package[] = {0, 1, 0, 5, 0, 1, 0, 1, 1, 0xf1, 1, 0xa1, 2, 0xb1, 0xb2, 0, 1, 1, 0x41, 2, 0, 1, 2, 0, 1,
                                0, 0, 2, 0, 1, 2, 0, 1, 0xc1, 0, 1, 0xc9};
    static uint8_t unread[] = {0, 1, 0, 2, 0};
    static const uint32_t types[] = {3, 3, 3, 2, 3, 2, 3, 2, 3, 3}, senders[] = {1, 2, 0, 1, 0, 2, 1, 0, 1, 1},
                          epochs[] = {1, 2, 3, 4, 4, 5, 5, 6, 6, 7};
    mls_facts found;
    uint8_t id[64], key[64];
    size_t id_len, key_len, huge = (size_t)1 << 32, i = 0;
    uint8_t *zeros = mmap(NULL, huge, PROT_READ | PROT_WRITE, MAP_PRIVATE | MAP_ANONYMOUS | MAP_NORESERVE, -1, 0);
    struct bytes rest = log_bytes, message, part;
    EXPECT(zeros != MAP_FAILED);
    no_facts(nothing);
    no_facts((struct bytes){zeros, huge});
    no_facts((struct bytes){zeros, 4});
    munmap(zeros, huge);
    while (rest.len > 0) {
        message = take_vector(&rest);
        /* each buffer alone is a byte too small: the facts are written, and neither buffer */
        memset(id, 0xaa, sizeof id);
        EXPECT(mls_message_facts(message.at, message.len, &found, id, 31, &id_len, key, 0, &key_len) ==
               MLS_BUFFER_TOO_SMALL);
        EXPECT(id_len == 32 && key_len == 0 && id[0] == 0xaa && are_facts(found, 1, epochs[i], types[i], senders[i]));
        EXPECT(mls_message_facts(message.at, message.len, &found, id, 32, &id_len, key, 0, &key_len) == MLS_OK);
        EXPECT(id_len == 32 && key_len == 0 && memcmp(id, context.at + 5, 32) == 0 && id[32] == 0xaa);
        EXPECT(are_facts(found, 1, epochs[i], types[i], senders[i]) && found.has_group == 1);
        EXPECT(found.sender_type == MLS_SENDER_MEMBER && found.has_signature_key == 0);
        for (part = message; part.len > 0;) {
            part.len--;
            no_facts(part);
        }
        i++;
    }
    EXPECT(i == 10);
    EXPECT(mls_message_facts(info.at, info.len, &found, id, sizeof id, &id_len, key, sizeof key, &key_len) == MLS_OK);
    EXPECT(are_facts(found, MLS_GROUP_INFO, 1, 0, 0) && found.has_group == 1 && id_len == 32 && key_len == 0);
    memset(key, 0xaa, sizeof key);
    EXPECT(mls_message_facts(package, sizeof package, &found, id, 0, &id_len, key, 1, &key_len) == MLS_BUFFER_TOO_SMALL);
    EXPECT(id_len == 0 && key_len == 2 && key[0] == 0xaa && found.has_signature_key == 1 && found.has_group == 0);
    EXPECT(mls_message_facts(package, sizeof package, &found, id, 0, &id_len, key, 2, &key_len) == MLS_OK);
    EXPECT(are_facts(found, MLS_KEY_PACKAGE, 0, 0, 0) && key_len == 2 && key[0] == 0xb1 && key[1] == 0xb2);
    EXPECT(key[2] == 0xaa);
    /* a PrivateMessage whose body cannot be read */
    EXPECT(mls_message_facts(unread, sizeof unread, &found, id, 0, &id_len, key, 0, &key_len) == MLS_OK);
    EXPECT(are_facts(found, MLS_PRIVATE_MESSAGE, 0, 0, 0) && found.has_group == 0 && id_len == 0 && key_len == 0);
}

/* ---- the parts of a group */

/* A call that puts a part of a group into a buffer. */
typedef uint32_t part_call(mls_follower *, uint8_t *, size_t, size_t *);

/* The part of a group, which is put into a buffer that is first a byte too small. */
static struct bytes part_of(mls_follower *group, part_call *call) {
    struct bytes part = {allocate(1), 0};
    size_t needed;
    EXPECT(call(group, part.at, 0, &part.len) == MLS_BUFFER_TOO_SMALL && part.len > 0);
    free(part.at);
    part.at = allocate(part.len + 1);
    part.at[0] = part.at[part.len] = 0xaa;
    EXPECT(call(group, part.at, part.len - 1, &needed) == MLS_BUFFER_TOO_SMALL && needed == part.len);
    EXPECT(part.at[0] == 0xaa);
    EXPECT(call(group, part.at, part.len + 1, &needed) == MLS_OK && needed == part.len && part.at[part.len] == 0xaa);
    return part;
}

static void expect_part(mls_follower *group, part_call *call, struct bytes expected) {
    struct bytes part = part_of(group, call);
    EXPECT(part.len == expected.len && memcmp(part.at, expected.at, part.len) == 0);
    free(part.at);
}

/* Expects a member whose encoded credential has 7 bytes, as the group's have, with this last byte. */
static void expect_member(mls_follower *group, uint32_t leaf, uint8_t last) {
    uint8_t credential[8], key[33];
    size_t credential_len, key_len;
    memset(credential, 0xaa, sizeof credential);
    memset(key, 0xaa, sizeof key);
    EXPECT(mls_follower_member(group, leaf, credential, 6, &credential_len, key, 32, &key_len) == MLS_BUFFER_TOO_SMALL);
    EXPECT(credential_len == 7 && key_len == 32 && credential[0] == 0xaa && key[0] == 0xaa && key[31] == 0xaa);
    EXPECT(mls_follower_member(group, leaf, credential, 7, &credential_len, key, 31, &key_len) == MLS_BUFFER_TOO_SMALL);
    EXPECT(credential_len == 7 && key_len == 32 && credential[0] == 0xaa && key[0] == 0xaa);
    EXPECT(mls_follower_member(group, leaf, credential, 7, &credential_len, key, 32, &key_len) == MLS_OK);
    EXPECT(credential_len == 7 && key_len == 32 && memcmp(credential, "\0\1\4g3-", 6) == 0 && credential[6] == last);
    EXPECT(credential[7] == 0xaa && key[32] == 0xaa);
}

static void group_parts(void) {
    static const uint32_t absent[] = {3, 4, 0x7fffffff, 0x80000000, UINT32_MAX};
    mls_follower group = MLS_NO_FOLLOWER_YET;
    uint8_t reference[MLS_REFERENCE_SIZE], found[MLS_REFERENCE_SIZE];
    size_t pending, needed, other;
    struct bytes rest = log_bytes, id = {context.at + 5, 32};
    EXPECT(is(start(&group, receipts), MLS_OK, 0, 0));
    while (rest.len > 0) {
        struct bytes message = take_vector(&rest), part;
        mls_judgement judgement;
        memset(reference, 0xaa, sizeof reference);
        memset(found, 0xaa, sizeof found);
        judgement = mls_follower_judge(&group, message.at, message.len, reference, sizeof reference);
        EXPECT(judgement.number == MLS_OK);
        expect_part(&group, mls_follower_group_id, id);
        part = part_of(&group, mls_follower_context);
        EXPECT(memcmp(part.at + 4, context.at + 4, 33) == 0);
        free(part.at);
        part = part_of(&group, mls_follower_tree);
        free(part.at);
        EXPECT(mls_follower_pending(&group, &pending) == MLS_OK && pending == (judgement.kind == MLS_PROPOSAL));
        if (pending == 1) {
            EXPECT(mls_follower_pending_at(&group, 0, found, 31, &needed) == MLS_BUFFER_TOO_SMALL && needed == 32);
            EXPECT(found[0] == 0xaa);
            EXPECT(mls_follower_pending_at(&group, 0, found, 32, &needed) == MLS_OK && needed == 32);
            EXPECT(memcmp(found, reference, sizeof found) == 0);
        }
        needed = 7;
        EXPECT(mls_follower_pending_at(&group, pending, found, sizeof found, &needed) == MLS_NO_PROPOSAL && needed == 0);
        EXPECT(mls_follower_pending_at(&group, SIZE_MAX, found, sizeof found, &needed) == MLS_NO_PROPOSAL);
    }
    expect_part(&group, mls_follower_context, context);
    expect_part(&group, mls_follower_tree, tree);
    expect_member(&group, 0, '0');
    expect_member(&group, 1, '3');
    expect_member(&group, 2, '5');
    for (size_t i = 0; i < sizeof absent / sizeof absent[0]; i++) {
        needed = other = 7;
        EXPECT(mls_follower_member(&group, absent[i], found, 32, &needed, found + 32, 32, &other) == MLS_NO_MEMBER);
        EXPECT(needed == 0 && other == 0 && found[0] == 0xaa && found[63] == 0xaa);
    }
    mls_follower_free(&group);
}

/* ---- the state */

static struct bytes state_of(mls_follower *group) {
    struct bytes state = {allocate(1), 0};
    size_t needed;
    EXPECT(mls_follower_state(group, state.at, 0, &state.len) == MLS_BUFFER_TOO_SMALL);
    free(state.at);
    state.at = allocate(state.len);
    EXPECT(mls_follower_state(group, state.at, state.len, &needed) == MLS_OK && needed == state.len);
    return state;
}

static uint16_t rules_of(mls_follower *group) {
    uint16_t found = 0;
    EXPECT(mls_follower_rules(group, &found) == MLS_OK);
    return found;
}

static void stored_states(void) {
    mls_follower group = MLS_NO_FOLLOWER_YET, other = MLS_NO_FOLLOWER_YET;
    uint8_t reference[MLS_REFERENCE_SIZE], again[MLS_REFERENCE_SIZE];
    struct bytes rest = log_bytes;
    EXPECT(is(start(&group, receipts), MLS_OK, 0, 0));
    while (rest.len > 0) {
        struct bytes message = take_vector(&rest), state = state_of(&group), copy;
        mls_judgement one, two;
        EXPECT(is(mls_follower_resume(state.at, state.len, receipts.at, receipts.len, MLS_PROFILE_MEMBERS, &other),
                  MLS_OK, 0, 0));
        copy = state_of(&other);
        EXPECT(copy.len == state.len && memcmp(copy.at, state.at, state.len) == 0 && rules_of(&other) == rules);
        memset(reference, 0, sizeof reference);
        memset(again, 0, sizeof again);
        one = mls_follower_judge(&group, message.at, message.len, reference, sizeof reference);
        two = mls_follower_judge(&other, message.at, message.len, again, sizeof again);
        EXPECT(one.number == MLS_OK && memcmp(&one, &two, sizeof one) == 0);
        EXPECT(memcmp(reference, again, sizeof again) == 0);
        /* a state of another profile and a damaged state are refused, and the handle keeps its follower */
        EXPECT(is(mls_follower_resume(state.at, state.len, receipts.at, receipts.len, MLS_PROFILE_FULL, &other),
                  MLS_OTHER_PROFILE, 0, 0));
        state.at[state.len / 2] ^= 1;
        EXPECT(mls_follower_resume(state.at, state.len, receipts.at, receipts.len, MLS_PROFILE_MEMBERS, &other).number !=
               MLS_OK);
        EXPECT(mls_follower_resume(copy.at, copy.len - 1, receipts.at, receipts.len, MLS_PROFILE_MEMBERS, &other)
                   .number == MLS_RESUME_UNREADABLE);
        EXPECT(is(mls_follower_resume(copy.at, copy.len, MLS_EMPTY, MLS_PROFILE_MEMBERS, &other), MLS_RESUME_MEMBER,
                  MLS_MEMBER_LEAF_SIGNATURE, 0));
        free(state.at);
        free(copy.at);
        state = state_of(&group);
        copy = state_of(&other);
        EXPECT(copy.len == state.len && memcmp(copy.at, state.at, state.len) == 0);
        free(state.at);
        free(copy.at);
    }
    mls_follower_free(&group);
    mls_follower_free(&other);
}

/* Returns the records of the signatures of a state that have no receipt. The buffer is first a byte too small. */
static struct bytes records_of(struct bytes state, struct bytes good) {
    uint8_t none[1] = {0xaa};
    struct bytes records;
    size_t needed;
    mls_verdict verdict = mls_resume_query(state.at, state.len, good.at, good.len, none, 0, &records.len);
    records.at = allocate(records.len + 1);
    memset(records.at, 0xaa, records.len + 1);
    if (records.len > 0) {
        EXPECT(is(verdict, MLS_BUFFER_TOO_SMALL, 0, 0) && none[0] == 0xaa);
        EXPECT(is(mls_resume_query(state.at, state.len, good.at, good.len, records.at, records.len - 1, &needed),
                  MLS_BUFFER_TOO_SMALL, 0, 0));
        EXPECT(needed == records.len && records.at[0] == 0xaa);
        verdict = mls_resume_query(state.at, state.len, good.at, good.len, records.at, records.len + 1, &needed);
        EXPECT(needed == records.len && records.at[records.len] == 0xaa);
    }
    EXPECT(is(verdict, MLS_OK, 0, 0));
    return records;
}

/* Queries a state: a signature is listed for each member's leaf node and for each pending proposal, none of which is an Add
   or an Update. A follower resumes by the receipts of all of them, and not without one of these. */
static void query_state(struct bytes state, uint32_t members, uint32_t pending) {
    mls_follower group = MLS_NO_FOLLOWER_YET;
    struct bytes good = receipts_of(records_of(state, nothing)), others, left;
    EXPECT(good.len == (members + pending) * MLS_RECEIPT_SIZE);
    left = records_of(state, good);
    EXPECT(left.len == 0);
    free(left.at);
    EXPECT(is(mls_follower_resume(state.at, state.len, good.at, good.len, MLS_PROFILE_MEMBERS, &group), MLS_OK, 0, 0));
    mls_follower_free(&group);
    others.at = allocate(good.len);
    others.len = good.len - MLS_RECEIPT_SIZE;
    for (uint32_t i = 0; i < members + pending; i++) {
        size_t at = i * MLS_RECEIPT_SIZE;
        mls_verdict verdict;
        memcpy(others.at, good.at, at);
        memcpy(others.at + at, good.at + at + MLS_RECEIPT_SIZE, others.len - at);
        left = receipts_of(records_of(state, others));
        EXPECT(left.len == MLS_RECEIPT_SIZE && memcmp(left.at, good.at + at, MLS_RECEIPT_SIZE) == 0);
        free(left.at);
        verdict = mls_follower_resume(state.at, state.len, others.at, others.len, MLS_PROFILE_MEMBERS, &group);
        if (i < members)
            EXPECT(verdict.number == MLS_RESUME_MEMBER && verdict.inner == MLS_MEMBER_LEAF_SIGNATURE);
        else
            EXPECT(is(verdict, MLS_RESUME_KNOWN_INVALID, 0, i - members));
        EXPECT(group.at == NULL);
    }
    free(others.at);
    free(good.at);
}

/* The state before each message, and each front of it, each of its bytes changed, and receipts that are too short. */
static void queried_states(void) {
    mls_follower group = MLS_NO_FOLLOWER_YET;
    struct bytes rest = log_bytes, state;
    uint8_t reference[MLS_REFERENCE_SIZE], *buffer = allocate(1 << 16);
    uint32_t members, pending = 0;
    size_t needed;
    EXPECT(is(start(&group, receipts), MLS_OK, 0, 0));
    memset(buffer, 0xaa, 1 << 16);
    while (rest.len > 0) {
        struct bytes message = take_vector(&rest);
        long before;
        state = state_of(&group);
        before = blocks;
        EXPECT(mls_follower_members(&group, &members) == MLS_OK);
        query_state(state, members, pending);
        for (size_t len = 0; len < state.len; len++) {
            needed = 7;
            EXPECT(mls_resume_query(state.at, len, MLS_EMPTY, buffer, 1 << 16, &needed).number == MLS_RESUME_UNREADABLE);
            EXPECT(needed == 0);
        }
        for (size_t i = 0; i < state.len; i++) {
            mls_verdict verdict;
            state.at[i] ^= (uint8_t)(1 << i % 8);
            needed = 7;
            verdict = mls_resume_query(state.at, state.len, receipts.at, receipts.len, buffer, 1 << 16, &needed);
            EXPECT(verdict.number == MLS_RESUME_UNREADABLE || is(verdict, MLS_RESUME_CHECKSUM_DIFFERS, 0, 0));
            EXPECT(needed == 0);
            state.at[i] ^= (uint8_t)(1 << i % 8);
        }
        needed = 7;
        EXPECT(is(mls_resume_query(state.at, state.len, receipts.at, 31, buffer, 1 << 16, &needed), MLS_BAD_RECEIPTS, 0,
                  0));
        EXPECT(needed == 0 && blocks == before);
        free(state.at);
        pending = mls_follower_judge(&group, message.at, message.len, reference, sizeof reference).kind == MLS_PROPOSAL
                      ? pending + 1
                      : 0;
    }
    for (size_t i = 0; i < 1 << 16; i++)
        if (buffer[i] != 0xaa)
            die("a refused query wrote to the buffer");
    mls_follower_free(&group);
    free(buffer);
}

/* ---- a tree */

static void trees(void) {
    struct bytes odd = {receipts.at, 1};
    uint8_t hash[64] = {7};
    size_t needed = 7;
    EXPECT(is(validate(context, tree, receipts, hash, 31, &needed), MLS_BUFFER_TOO_SMALL, 0, 0));
    EXPECT(needed == 32 && hash[0] == 7);
    EXPECT(is(validate(context, tree, receipts, hash, sizeof hash, &needed), MLS_OK, 0, 0));
    EXPECT(needed == 32 && hash[0] == 0x72 && hash[1] == 0x76 && hash[2] == 0x3a && hash[3] == 0x49);
    EXPECT(is(validate(context, tree, nothing, hash, sizeof hash, &needed), MLS_START_MEMBER, MLS_MEMBER_LEAF_SIGNATURE,
              0));
    EXPECT(is(validate(context, nothing, nothing, hash, sizeof hash, &needed), MLS_TREE_UNREADABLE, MLS_DECODE_TRUNCATED,
              0));
    EXPECT(is(validate(nothing, tree, nothing, hash, sizeof hash, &needed), MLS_CONTEXT_UNREADABLE, MLS_DECODE_TRUNCATED,
              0));
    EXPECT(is(validate(context, tree, odd, hash, sizeof hash, &needed), MLS_BAD_RECEIPTS, 0, 0));
    needed = 7;
    EXPECT(is(mls_validate_tree_strict(context.at, context.len, tree.at, tree.len, odd.at, odd.len, rules | 0x2000, hash,
                                       sizeof hash, &needed),
              MLS_UNSUPPORTED_RULES, 0, 0));
    EXPECT(needed == 0 && hash[0] == 0x72);
}

/* ---- lifetimes at a time */

/* The capabilities of the group's leaf nodes, and the source key_package. The lifetime follows (RFC 9420, 7.2). */
static const uint8_t key_package[] = {2, 0, 1, 6, 0, 2, 0, 1, 0, 3, 0, 0, 2, 0, 1, 1};

static uint64_t number_at(const uint8_t *at) {
    uint64_t number = 0;
    for (int i = 0; i < 8; i++)
        number = number << 8 | at[i];
    return number;
}

/* Writes the first and the last second of the lifetime of the leaf node that a message adds, if it adds one. */
static int has_lifetime(struct bytes message, uint64_t *first, uint64_t *last) {
    for (size_t at = 0; at + sizeof key_package + 16 <= message.len; at++)
        if (memcmp(message.at + at, key_package, sizeof key_package) == 0) {
            *first = number_at(message.at + at + sizeof key_package);
            *last = number_at(message.at + at + sizeof key_package + 8);
            return 1;
        }
    return 0;
}

/* Follows the group at times inside the lifetimes of those that are added. Outside each Add is refused. */
static void times(void) {
    mls_follower group = MLS_NO_FOLLOWER_YET;
    uint8_t reference[MLS_REFERENCE_SIZE];
    int adds = 0;
    EXPECT(is(start(&group, receipts), MLS_OK, 0, 0));
    for (struct bytes rest = log_bytes; rest.len > 0;) {
        struct bytes message = take_vector(&rest);
        uint64_t first = 0, last = UINT64_MAX;
        if (has_lifetime(message, &first, &last)) {
            uint64_t outside[] = {0, first - 1, last + 1, UINT64_MAX};
            for (size_t i = 0; i < sizeof outside / sizeof outside[0]; i++)
                EXPECT(is_judged(mls_follower_judge_at(&group, outside[i], message.at, message.len, reference,
                                                       sizeof reference),
                                 MLS_REFUSED_LIFETIME_OUTSIDE));
            adds++;
        }
        EXPECT(mls_follower_judge_at(&group, adds % 2 ? first : last, message.at, message.len, reference, sizeof reference)
                   .number == MLS_OK);
    }
    EXPECT(adds == 4 && strcmp(mls_refusal_name(MLS_REFUSED_LIFETIME_OUTSIDE), "LifetimeOutside") == 0);
    mls_follower_free(&group);
}

/* ---- what meets all rules but the strict ones */

/* An extensions list with a type twice, which no leaf node of the group supports. */
static const uint8_t repeated[] = {6, 0xf0, 0, 0, 0xf0, 0, 0};

/* Returns a copy with the `len` bytes at `at` replaced. */
static struct bytes replaced(struct bytes old, size_t at, size_t len, const uint8_t *by, size_t by_len) {
    struct bytes copy = {allocate(old.len - len + by_len), old.len - len + by_len};
    memcpy(copy.at, old.at, at);
    memcpy(copy.at + at, by, by_len);
    memcpy(copy.at + at + by_len, old.at + at + len, old.len - at - len);
    return copy;
}

/* A message with a byte less in its membership tag, which is at its end. */
static struct bytes with_short_tag(struct bytes message) {
    static const uint8_t size[] = {31};
    EXPECT(message.at[message.len - 33] == 32);
    return replaced(message, message.len - 33, 2, size, 1);
}

/* A message whose Remove proposal is replaced by a GroupContextExtensions proposal with a type twice. After the proposal come
   99 bytes: the signature and the membership tag. */
static struct bytes with_repeated_extensions(struct bytes message) {
    uint8_t proposal[2 + sizeof repeated] = {0, 7};
    memcpy(proposal + 2, repeated, sizeof repeated);
    EXPECT(message.at[message.len - 105] == 0 && message.at[message.len - 104] == 3);
    return replaced(message, message.len - 105, 6, proposal, sizeof proposal);
}

/* A tag that is too short is refused by rule 40 alone. */
static void short_tags(void) {
    mls_follower group = MLS_NO_FOLLOWER_YET;
    EXPECT(is(start(&group, receipts), MLS_OK, 0, 0));
    EXPECT(rules_of(&group) == rules);
    for (struct bytes rest = log_bytes; rest.len > 0;) {
        struct bytes message = take_vector(&rest), copy = with_short_tag(message);
        if (is_strict())
            EXPECT(judge_trusting(&group, copy) == MLS_REFUSED_TAG_LENGTH);
        free(copy.at);
        EXPECT(judge_trusting(&group, message) == MLS_OK);
    }
    EXPECT(rules_of(&group) == rules);
    mls_follower_free(&group);
    /* any follower accepts it if it lacks this rule */
    EXPECT(is(mls_follower_start_by(info.at, info.len, MLS_EMPTY, receipts.at, receipts.len, MLS_PROFILE_MEMBERS,
                                    rules & ~MLS_RULE(40), &group),
              MLS_OK, 0, 0));
    {
        struct bytes rest = log_bytes, copy = with_short_tag(take_vector(&rest));
        EXPECT(judge_trusting(&group, copy) == MLS_OK);
        free(copy.at);
    }
    mls_follower_free(&group);
}

/* Adds strict rules to a follower with two pending proposals, of which the second has a type of extension twice. */
static void added_rules(void) {
    mls_follower group = MLS_NO_FOLLOWER_YET;
    struct bytes rest = log_bytes, message, copy;
    uint32_t members;
    EXPECT(is(mls_follower_start(info.at, info.len, MLS_EMPTY, receipts.at, receipts.len, MLS_PROFILE_MEMBERS, &group),
              MLS_OK, 0, 0));
    EXPECT(is(mls_follower_make_strict(&group, MLS_RULES_PLAIN), MLS_OK, 0, 0) && rules_of(&group) == MLS_RULES_PLAIN);
    for (int i = 0; i < 4; i++) {
        message = take_vector(&rest);
        EXPECT(judge_trusting(&group, message) == MLS_OK);
    }
    copy = with_repeated_extensions(message);
    EXPECT(judge_trusting(&group, copy) == MLS_OK);
    EXPECT(is(mls_follower_make_strict(&group, 0x2000), MLS_UNSUPPORTED_RULES, 0, 0));
    EXPECT(is(mls_follower_make_strict(&group, MLS_RULES_STRICT), MLS_RESUME_KNOWN_STRICT, 0, 1));
    EXPECT(rules_of(&group) == MLS_RULES_PLAIN);
    EXPECT(is(mls_follower_make_strict(&group, MLS_RULES_STRICT & ~MLS_RULE(41)), MLS_OK, 0, 0));
    EXPECT(is(mls_follower_make_strict(&group, MLS_RULE(41)), MLS_RESUME_KNOWN_STRICT, 0, 1));
    EXPECT(rules_of(&group) == (MLS_RULES_STRICT & ~MLS_RULE(41)));
    free(copy.at);
    /* the state has the rules, and the signatures of both proposals */
    copy = state_of(&group);
    EXPECT(mls_follower_members(&group, &members) == MLS_OK);
    query_state(copy, members, 2);
    free(copy.at);
    /* in the next epoch the proposal is no more pending */
    message = take_vector(&rest);
    EXPECT(judge_trusting(&group, message) == MLS_OK);
    EXPECT(is(mls_follower_make_strict(&group, MLS_RULE(41)), MLS_OK, 0, 0) && rules_of(&group) == MLS_RULES_STRICT);
    message = take_vector(&rest);
    copy = with_repeated_extensions(message);
    EXPECT(judge_trusting(&group, copy) == MLS_REFUSED_EXTENSION_REPEATED);
    free(copy.at);
    mls_follower_free(&group);
}

/* A GroupContext with a type of extension twice, of a group that is valid otherwise: the GroupContext breaks rule 41, and
   each leaf node rule 51. */
static void groups_that_are_not_strict(void) {
    static const uint64_t no_node = UINT64_MAX;
    mls_follower group = MLS_NO_FOLLOWER_YET;
    struct bytes own = replaced(context, context.len - 1, 1, repeated, sizeof repeated), repeats, good;
    uint8_t hash[64];
    size_t needed, at = 4 + context.len - 1; /* the GroupContexts of the two epochs have one length */
    EXPECT(mls_validate_tree(own.at, own.len, tree.at, tree.len, receipts.at, receipts.len, hash, sizeof hash, &needed)
               .number == MLS_OK);
    EXPECT(is(mls_validate_tree_strict(own.at, own.len, tree.at, tree.len, receipts.at, receipts.len, MLS_RULES_STRICT,
                                       hash, sizeof hash, &needed),
              MLS_START_STRICT, MLS_REFUSED_EXTENSION_REPEATED, no_node));
    EXPECT(is(mls_validate_tree_strict(own.at, own.len, tree.at, tree.len, receipts.at, receipts.len, MLS_RULE(51), hash,
                                       sizeof hash, &needed),
              MLS_START_STRICT, MLS_REFUSED_GROUP_EXTENSION_UNSUPPORTED, 0));
    free(own.at);

    EXPECT(info.at[at] == 0 && context.at[context.len - 1] == 0);
    repeats = replaced(info, at, 1, repeated, sizeof repeated);
    good = receipts_of_start(repeats);
    EXPECT(is(mls_follower_start_by(repeats.at, repeats.len, MLS_EMPTY, good.at, good.len, MLS_PROFILE_MEMBERS,
                                    MLS_RULES_STRICT, &group),
              MLS_START_STRICT, MLS_REFUSED_EXTENSION_REPEATED, no_node));
    expect_no_follower(&group);
    EXPECT(is(mls_follower_start(repeats.at, repeats.len, MLS_EMPTY, good.at, good.len, MLS_PROFILE_MEMBERS, &group),
              MLS_OK, 0, 0));
    EXPECT(is(mls_follower_make_strict(&group, MLS_RULES_STRICT), MLS_RESUME_STRICT, MLS_REFUSED_EXTENSION_REPEATED,
              no_node));
    EXPECT(is(mls_follower_make_strict(&group, MLS_RULE(51)), MLS_RESUME_STRICT,
              MLS_REFUSED_GROUP_EXTENSION_UNSUPPORTED, 0));
    EXPECT(rules_of(&group) == MLS_RULES_PLAIN);
    EXPECT(is(mls_follower_make_strict(&group, MLS_RULES_STRICT & ~MLS_RULE(41) & ~MLS_RULE(51)), MLS_OK, 0, 0));
    mls_follower_free(&group);
    free(repeats.at);
    free(good.at);
}

/* ---- memory that is refused: each allocation of a call in turn */

static void refused_memory(void) {
    mls_follower group = MLS_NO_FOLLOWER_YET, other = MLS_NO_FOLLOWER_YET;
    uint8_t reference[MLS_REFERENCE_SIZE], *buffer = allocate(1 << 16);
    struct bytes rest = log_bytes;
    long total = 0;
    size_t needed, wanted;
    for (long n = 1; refused = 0, until_refused = n, 1; n++) {
        long before = blocks;
        mls_verdict verdict = start(&group, receipts);
        until_refused = 0;
        if (!refused) {
            EXPECT(verdict.number == MLS_OK);
            break;
        }
        total++;
        EXPECT(is(verdict, MLS_OUT_OF_MEMORY, 0, 0) && group.at == NULL && blocks == before);
    }
    while (rest.len > 0) {
        struct bytes message = take_vector(&rest), state = state_of(&group), copy;
        for (long n = 1; refused = 0, until_refused = n, 1; n++) {
            long before = blocks;
            uint32_t number = mls_follower_query(&group, message.at, message.len, buffer, 1 << 16, &needed);
            until_refused = 0;
            if (!refused) {
                EXPECT(number == MLS_OK && needed == 0);
                break;
            }
            total++;
            EXPECT(number == MLS_OUT_OF_MEMORY && needed == 0 && blocks >= before);
        }
        for (long n = 1; refused = 0, until_refused = n, 1; n++) {
            mls_judgement judgement = mls_follower_judge(&group, message.at, message.len, reference, sizeof reference);
            until_refused = 0;
            if (!refused) {
                EXPECT(judgement.number == MLS_OK);
                break;
            }
            total++;
            EXPECT(is_judged(judgement, MLS_OUT_OF_MEMORY));
            copy = state_of(&group);
            EXPECT(copy.len == state.len && memcmp(copy.at, state.at, state.len) == 0);
            free(copy.at);
        }
        /* a list that gets no room ahead takes the room that it needs, so some refusals do no harm */
        EXPECT(is(mls_resume_query(state.at, state.len, MLS_EMPTY, buffer, 1 << 16, &wanted), MLS_OK, 0, 0) && wanted > 0);
        for (long n = 1; refused = 0, until_refused = n, 1; n++) {
            long before = blocks;
            mls_verdict verdict = mls_resume_query(state.at, state.len, MLS_EMPTY, buffer, 1 << 16, &needed);
            until_refused = 0;
            EXPECT(blocks == before);
            if (verdict.number == MLS_OK)
                EXPECT(needed == wanted);
            else
                EXPECT(is(verdict, MLS_OUT_OF_MEMORY, 0, 0) && refused && needed == 0);
            if (!refused)
                break;
            total++;
        }
        for (long n = 1; refused = 0, until_refused = n, 1; n++) {
            long before = blocks;
            mls_verdict verdict = mls_follower_resume(state.at, state.len, receipts.at, receipts.len,
                                                      MLS_PROFILE_MEMBERS, &other);
            until_refused = 0;
            if (verdict.number == MLS_OK)
                mls_follower_free(&other);
            else
                EXPECT(is(verdict, MLS_OUT_OF_MEMORY, 0, 0) && refused && other.at == NULL);
            EXPECT(blocks == before);
            if (!refused)
                break;
            total++;
        }
        for (long n = 1; refused = 0, until_refused = n, 1; n++) {
            mls_facts found = {0};
            long before = blocks;
            uint32_t number = mls_message_facts(message.at, message.len, &found, buffer, 64, &needed, buffer + 64, 64,
                                                &wanted);
            until_refused = 0;
            EXPECT(blocks == before);
            if (!refused) {
                EXPECT(number == MLS_OK && needed == 32);
                break;
            }
            total++;
            EXPECT(number == MLS_OUT_OF_MEMORY && needed == 0 && wanted == 0 && found.wire_format == 0);
        }
        for (long n = 1; refused = 0, until_refused = n, 1; n++) {
            long before = blocks;
            uint32_t number = mls_follower_context(&group, buffer, 1 << 16, &needed);
            until_refused = 0;
            EXPECT(blocks == before);
            if (!refused) {
                EXPECT(number == MLS_OK);
                break;
            }
            total++;
            EXPECT(number == MLS_OUT_OF_MEMORY && needed == 0);
        }
        for (long n = 1; refused = 0, until_refused = n, 1; n++) {
            long before = blocks;
            uint32_t number = mls_follower_tree(&group, buffer, 1 << 16, &needed);
            until_refused = 0;
            EXPECT(blocks == before);
            if (!refused) {
                EXPECT(number == MLS_OK);
                break;
            }
            total++;
            EXPECT(number == MLS_OUT_OF_MEMORY && needed == 0);
        }
        for (long n = 1; refused = 0, until_refused = n, 1; n++) {
            uint32_t number = mls_follower_state(&group, buffer, 1 << 16, &needed);
            until_refused = 0;
            if (!refused) {
                EXPECT(number == MLS_OK);
                break;
            }
            total++;
            EXPECT(number == MLS_OUT_OF_MEMORY && needed == 0);
        }
        free(state.at);
    }
    for (long n = 1; refused = 0, until_refused = n, 1; n++) {
        uint8_t some[3200];
        uint32_t number;
        for (size_t i = 0; i < sizeof some; i++)
            some[i] = (uint8_t)(i * 7 + i / 32);
        number = mls_follower_learn(&group, some, sizeof some);
        until_refused = 0;
        if (!refused) {
            EXPECT(number == MLS_OK);
            break;
        }
        total++;
        EXPECT(number == MLS_OUT_OF_MEMORY);
    }
    for (long n = 1; refused = 0, until_refused = n, 1; n++) {
        mls_verdict verdict = validate(context, tree, receipts, buffer, 64, &needed);
        until_refused = 0;
        if (!refused) {
            EXPECT(verdict.number == MLS_OK);
            break;
        }
        total++;
        EXPECT(is(verdict, MLS_OUT_OF_MEMORY, 0, 0) && needed == 0);
    }
    for (long n = 1; refused = 0, until_refused = n, 1; n++) {
        mls_verdict verdict = mls_start_query(info.at, info.len, MLS_EMPTY, MLS_EMPTY, buffer, 1 << 16, &needed);
        until_refused = 0;
        if (!refused) {
            EXPECT(verdict.number == MLS_OK);
            break;
        }
        total++;
        EXPECT(is(verdict, MLS_OUT_OF_MEMORY, 0, 0) && needed == 0);
    }
    mls_follower_free(&group);
    EXPECT(is(mls_follower_start(info.at, info.len, MLS_EMPTY, receipts.at, receipts.len, MLS_PROFILE_MEMBERS, &group),
              MLS_OK, 0, 0));
    for (long n = 1; refused = 0, until_refused = n, 1; n++) {
        mls_verdict verdict = mls_follower_make_strict(&group, MLS_RULES_STRICT);
        until_refused = 0;
        if (!refused) {
            EXPECT(verdict.number == MLS_OK && rules_of(&group) == MLS_RULES_STRICT);
            break;
        }
        total++;
        EXPECT(is(verdict, MLS_OUT_OF_MEMORY, 0, 0) && rules_of(&group) == MLS_RULES_PLAIN);
    }
    mls_follower_free(&group);
    free(buffer);
    printf("memory was refused %ld times\n", total);
}

/* ---- blocks that can't be made smaller: each answer is the same */

static void kept_as_they_are(void) {
    mls_follower group = MLS_NO_FOLLOWER_YET, other = MLS_NO_FOLLOWER_YET;
    uint8_t reference[MLS_REFERENCE_SIZE], other_reference[MLS_REFERENCE_SIZE];
    struct bytes rest = log_bytes, state, other_state;
    EXPECT(is(start(&other, receipts), MLS_OK, 0, 0));
    kept_blocks = 0;
    keeps_blocks = 1;
    EXPECT(is(start(&group, receipts), MLS_OK, 0, 0));
    keeps_blocks = 0;
    while (rest.len > 0) {
        struct bytes message = take_vector(&rest);
        mls_judgement judgement, expected;
        keeps_blocks = 1;
        judgement = mls_follower_judge(&group, message.at, message.len, reference, sizeof reference);
        keeps_blocks = 0;
        expected = mls_follower_judge(&other, message.at, message.len, other_reference, sizeof other_reference);
        EXPECT(judgement.number == expected.number && judgement.kind == expected.kind && judgement.epoch == expected.epoch);
    }
    EXPECT(kept_blocks > 0);
    state = state_of(&group);
    other_state = state_of(&other);
    EXPECT(state.len == other_state.len && memcmp(state.at, other_state.at, state.len) == 0);
    free(state.at);
    free(other_state.at);
    mls_follower_free(&group);
    mls_follower_free(&other);
    printf("%ld blocks could not be made smaller\n", kept_blocks);
}

/* ---- many handles */

static void many_handles(void) {
    mls_follower group = MLS_NO_FOLLOWER_YET;
    long before = blocks;
    for (int i = 0; i < (is_strict() ? 10000 : 100000); i++) {
        EXPECT(is(start(&group, receipts), MLS_OK, 0, 0));
        if (i % 2 == 0) /* otherwise the next start frees it */
            mls_follower_free(&group);
    }
    mls_follower_free(&group);
    EXPECT(blocks == before);
}

/* With the present strict rules. */
static void try_all(void) {
    printf("strict rules: %s\n", is_strict() ? "all" : "none");
    refused_starts();
    short_buffers();
    unknown_signatures();
    odd_messages();
    facts_of_messages();
    group_parts();
    stored_states();
    queried_states();
    trees();
    short_tags();
    times();
    refused_memory();
    kept_as_they_are();
    many_handles();
}

int main(int count, char **words) {
    if (count != 6)
        die("usage: hostile INFO LOG RECEIPTS CONTEXT TREE");
    info = read_file(words[1]);
    log_bytes = read_file(words[2]);
    receipts = read_receipts(words[3]);
    context = read_file(words[4]);
    tree = read_file(words[5]);
    long before = blocks;
    try_all();
    rules = MLS_RULES_STRICT;
    try_all();
    added_rules();
    groups_that_are_not_strict();
    EXPECT(blocks == before);
    printf("%ld checks hold, no block is left\n", checks);
    free(info.at);
    free(log_bytes.at);
    free(receipts.at);
    free(context.at);
    free(tree.at);
    return 0;
}
