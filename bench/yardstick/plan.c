// A plain program with the output of `far_memory plan` on good input, to compare speed and bytes with.
// It reads all, parses, divides by levels of credits and prints. It checks nothing.
#include <stdint.h>
#include <stdio.h>
#include <stdlib.h>
#include <string.h>

typedef uint64_t u64;
typedef unsigned __int128 u128;

static u64 users, fair, floor_, start;
static u64 demand[1024], credits[1024], given[1024], room[1024];

static u64 least(u64 a, u64 b) { return a < b ? a : b; }
static u64 beyond(u64 a, u64 b) { return a > b ? a - b : 0; }

// What all move until borrowers are down to a level, or lenders up to it.
static u128 moved_to(u64 level, int lends) {
    u128 sum = 0;
    for (u64 i = 0; i < users; i++)
        sum += least(room[i], lends ? beyond(level, credits[i]) : beyond(credits[i], level));
    return sum;
}

// Moves `count` slices one by one in effect: level by level, and the remainder by user number.
static void spread(u128 count, int lends) {
    u64 low = 0, high = (u64)1 << 63;
    while (low < high) {
        u64 middle = lends ? low + (high - low + 1) / 2 : low + (high - low) / 2;
        int fits = moved_to(middle, lends) <= count;
        if (lends) { if (fits) low = middle; else high = middle - 1; }
        else { if (fits) high = middle; else low = middle + 1; }
    }
    u128 rest = count - moved_to(low, lends);
    for (u64 i = 0; i < users; i++) {
        u64 part = least(room[i], lends ? beyond(low, credits[i]) : beyond(credits[i], low));
        u64 level = lends ? credits[i] + part : credits[i] - part;
        if (rest > 0 && part < room[i] && level == low) { part++; rest--; }
        if (lends) credits[i] += part;
        else { credits[i] -= part; given[i] += part; }
    }
}

static void quantum(void) {
    u128 wanted = 0, donated = 0, shared = (u128)users * (fair - floor_);
    for (u64 i = 0; i < users; i++) {
        credits[i] += fair - floor_;
        given[i] = least(demand[i], floor_);
        donated += beyond(floor_, demand[i]);
        room[i] = least(demand[i] - given[i], credits[i]);
        wanted += room[i];
    }
    u128 loans = wanted < donated + shared ? wanted : donated + shared;
    spread(loans, 0);
    for (u64 i = 0; i < users; i++) room[i] = beyond(floor_, demand[i]);
    spread(loans < donated ? loans : donated, 1);
}

static char out[1 << 16];
static size_t used;

static void put(const char *text, size_t size) {
    if (used + size > sizeof out) { fwrite(out, 1, used, stdout); used = 0; }
    memcpy(out + used, text, size);
    used += size;
}

static void put_number(u64 value) {
    char text[20];
    size_t at = sizeof text;
    do { text[--at] = (char)('0' + value % 10); value /= 10; } while (value);
    put(text + at, sizeof text - at);
}

static void put_line(const char *word, const u64 *values, u64 count) {
    put(word, strlen(word));
    for (u64 i = 0; i < count; i++) { put(" ", 1); put_number(values[i]); }
    put("\n", 1);
}

int main(int count, char **words) {
    if (count != 6) return 2;
    users = strtoull(words[2], 0, 10), fair = strtoull(words[3], 0, 10);
    floor_ = strtoull(words[4], 0, 10), start = strtoull(words[5], 0, 10);
    for (u64 i = 0; i < users; i++) credits[i] = start;
    size_t size = 0, reserved = 1 << 20;
    char *text = malloc(reserved);
    for (size_t got; (got = fread(text + size, 1, reserved - size - 1, stdin)) > 0;) {
        size += got;
        if (reserved - size < 2) text = realloc(text, reserved *= 2);
    }
    text[size] = 0;
    u64 number = 0;
    for (char *at = text; *at; number++) {
        for (u64 i = 0; i < users; i++) {
            u64 value = 0;
            for (; *at >= '0'; at++) value = value * 10 + (u64)(*at - '0');
            if (*at) at++;
            demand[i] = value;
        }
        quantum();
        put_line("quantum", &number, 1);
        put_line("demand", demand, users);
        put_line("slices", given, users);
        put_line("credits", credits, users);
    }
    fwrite(out, 1, used, stdout);
    return 0;
}
