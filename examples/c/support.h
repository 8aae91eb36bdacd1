/* What the examples in C share: files, hexadecimal digits, and the vectors of RFC 9420, 2.1.2. */
#ifndef SUPPORT_H
#define SUPPORT_H

#include <stdint.h>
#include <stdio.h>
#include <stdlib.h>
#include <string.h>

/* Bytes that are allocated, or a part of others. */
struct bytes {
    uint8_t *at;
    size_t len;
};

static void die(const char *what) {
    fprintf(stderr, "%s\n", what);
    exit(3);
}

static void *allocate(size_t len) {
    void *at = malloc(len ? len : 1);
    if (!at)
        die("out of memory");
    return at;
}

static struct bytes read_file(const char *name) {
    FILE *file = fopen(name, "rb");
    struct bytes all = {allocate(1), 0};
    size_t capacity = 1, got;
    if (!file)
        die(name);
    while ((got = fread(all.at + all.len, 1, capacity - all.len, file)) > 0) {
        all.len += got;
        if (all.len == capacity) {
            capacity *= 2;
            all.at = realloc(all.at, capacity);
            if (!all.at)
                die("out of memory");
        }
    }
    if (ferror(file))
        die(name);
    fclose(file);
    return all;
}

/* Takes `len` bytes from the front of `rest`. */
static struct bytes take(struct bytes *rest, size_t len) {
    struct bytes front = {rest->at, len};
    if (len > rest->len)
        die("cut short");
    rest->at += len;
    rest->len -= len;
    return front;
}

/* Takes a vector (RFC 9420, 2.1.2) from the front of `rest`, and returns its body. */
static struct bytes take_vector(struct bytes *rest) {
    size_t size, len = 0;
    struct bytes head;
    if (rest->len == 0)
        die("cut short");
    size = (size_t)1 << (rest->at[0] >> 6);
    if (size == 8)
        die("no vector");
    head = take(rest, size);
    for (size_t i = 0; i < size; i++)
        len = len << 8 | (i == 0 ? head.at[0] & 0x3f : head.at[i]);
    return take(rest, len);
}

static int digit(char c) {
    if (c >= '0' && c <= '9')
        return c - '0';
    if (c >= 'a' && c <= 'f')
        return c - 'a' + 10;
    return -1;
}

/* The receipts of a file with 64 hexadecimal digits on each line. */
static struct bytes read_receipts(const char *name) {
    struct bytes text = read_file(name);
    struct bytes all = {allocate(text.len / 2), 0};
    for (size_t i = 0; i + 64 <= text.len; i += 65)
        for (size_t j = 0; j < 64; j += 2) {
            int high = digit((char)text.at[i + j]), low = digit((char)text.at[i + j + 1]);
            if (high < 0 || low < 0)
                die("no receipt");
            all.at[all.len++] = (uint8_t)(high << 4 | low);
        }
    free(text.at);
    return all;
}

#endif
