/* A file that grows field by field, with its check word at the end. */
#ifndef FILE_H
#define FILE_H

#include <stddef.h>
#include <stdint.h>
#include <string.h>

/* 46 41 43 54 and 43 55 42 45 as little-endian words. */
#define TABLE 0x54434146
#define ARCHIVE 0x45425543

struct file {
    uint8_t bytes[2048];
    size_t length;
};

static uint32_t word_at(const struct file *f, size_t at)
{
    const uint8_t *b = f->bytes + at;
    return b[0] | (uint32_t)b[1] << 8 | (uint32_t)b[2] << 16 | (uint32_t)b[3] << 24;
}

static void set_word(struct file *f, size_t at, uint32_t word)
{
    for (size_t i = 0; i < 4; i++)
        f->bytes[at + i] = (uint8_t)(word >> 8 * i);
}

static void put_word(struct file *f, uint32_t word)
{
    set_word(f, f->length, word);
    f->length += 4;
}

static void put_words(struct file *f, const uint32_t *words, size_t count)
{
    for (size_t i = 0; i < count; i++)
        put_word(f, words[i]);
}

static void put_sum(struct file *f, int64_t sum)
{
    put_word(f, (uint32_t)((uint64_t)sum & UINT32_MAX));
    put_word(f, (uint32_t)((uint64_t)sum >> 32));
}

/* The sum of all words before a place, modulo 2^32. */
static uint32_t check_word(const struct file *f, size_t end)
{
    uint32_t sum = 0;
    for (size_t at = 0; at < end; at += 4)
        sum += word_at(f, at);
    return sum;
}

static void put_check_word(struct file *f)
{
    put_word(f, check_word(f, f->length));
}

/* A whole file: its opening, fields and check word. */
static struct file file_of(uint32_t opening, const uint32_t *fields, size_t count)
{
    struct file f = {{0}, 0};
    put_word(&f, opening);
    put_words(&f, fields, count);
    put_check_word(&f);
    return f;
}

static int same(const struct file *f, const uint8_t *bytes, size_t length)
{
    return f->length == length && memcmp(f->bytes, bytes, length) == 0;
}

#endif
