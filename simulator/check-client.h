// Scaffolding of check-simulator.c, check-heights.c, check-editions.c, check-room.c and check-ends.c: starts
// simulators, talks to them over their terminals, reads what they print, and counts checks. Nothing waits longer than
// LIMIT for anything.
#ifndef CHECK_CLIENT_H
#define CHECK_CLIENT_H

#include "check-png.h"

#include <stddef.h>
#include <sys/types.h>

enum { LIMIT = 20000 }; // milliseconds
enum { TEXT = 1 << 17 };

extern const char *program; // the simulator under test
extern unsigned checks, failures;

void check(const char *file, int line, const char *what, long expected, long got);
#define CHECK(what, expected, got) check(__FILE__, __LINE__, what, expected, got)

void check_contains(const char *file, int line, const char *text, const char *part);
#define CHECK_CONTAINS(text, part) check_contains(__FILE__, __LINE__, text, part)

#define BYTES(...) (const uint8_t[]){__VA_ARGS__}, sizeof(const uint8_t[]){__VA_ARGS__}

// Simulators

typedef struct {
    pid_t id;
    int out, err;   // what it prints
    int window;     // the terminal, for the last two below; -1 for the others
    char name[256]; // of its pseudo-terminal
} Run;

// FROM_STREAM: the file "stream" is its standard input. WITH_KEYS: a terminal is. IN_TERMINAL: one is its standard
// output too.
enum { PLAINLY, FROM_STREAM, OUT_CLOSED, AS_NOBODY, WITH_KEYS, IN_TERMINAL };

// A null pointer ends the arguments.
Run start(int how, const char *const *arguments);
#define START(how, ...) start(how, (const char *const[]){__VA_ARGS__, NULL})

// Reads the name of its terminal too.
Run start_named(int how, const char *const *arguments);
#define START_NAMED(how, ...) start_named(how, (const char *const[]){__VA_ARGS__, NULL})

// A simulator that ends by itself or has been told to: what it still prints, and its exit status, -1 for another end.
typedef struct {
    char out[TEXT], err[TEXT];
    int status;
} Ending;
extern Ending ending;
void finish(Run *run);
void end_by(Run *run, int signal);

// Text up to and with a part that is awaited; less of it where the limit or the end comes first.
const char *read_until(int file, const char *part);

// The serial line

int open_line(const char *name);
void send_bytes(int line, const uint8_t *bytes, size_t count);
#define SEND(line, ...) send_bytes(line, BYTES(__VA_ARGS__))
size_t receive_bytes(int line, uint8_t *bytes, size_t count);
void check_reply(const char *file, int at, int line, const uint8_t *bytes, size_t count);
#define EXPECT(line, ...) check_reply(__FILE__, __LINE__, line, BYTES(__VA_ARGS__))

// A command and its reply, twice: everything sent before has then been obeyed, and the store written if need be.
void settle(int line);

// A bitmap of 3 by 1 pixels, black, white, black, as number n.
void upload_bitmap(int line, uint8_t n);

// Files and pictures

void write_file(const char *path, const void *bytes, size_t count);
int file_is(const char *path, const void *bytes, size_t count);
int file_exists(const char *path);

// The store that holds the bitmap of upload_bitmap and nothing else.
int store_has_bitmap(const char *path, uint8_t n);

enum { LOW = DISPLAY_LOW_HEIGHT, TALL = DISPLAY_TALL_HEIGHT };

// It is so high, and black are these rectangles, each from its upper left to its lower right pixel, and nothing else.
void check_picture(const char *file, int line, const Picture *got, unsigned height, const unsigned (*rectangles)[4],
                   size_t count);
#define RECTANGLES(...) \
    (const unsigned[][4]){__VA_ARGS__}, sizeof(const unsigned[][4]){__VA_ARGS__} / (4 * sizeof(unsigned))
#define CHECK_PICTURE(got, height, ...) check_picture(__FILE__, __LINE__, got, height, RECTANGLES(__VA_ARGS__))

void check_png(const char *file, int line, const char *path, unsigned height, const unsigned (*rectangles)[4],
               size_t count);
#define CHECK_PNG(path, height, ...) check_png(__FILE__, __LINE__, path, height, RECTANGLES(__VA_ARGS__))

// The picture at the start of a text, as high as it has rows. What follows it, or null where the text is no picture.
const char *read_braille(const char *text, Picture *picture);
const char *read_blocks(const char *text, Picture *picture);

// A simulator has ended well: a picture in braille and this status behind it.
void check_ending(const char *file, int line, unsigned height, const char *status_line);
#define CHECK_ENDING(height, status_line) check_ending(__FILE__, __LINE__, height, status_line)

void check_heights(void);
void check_editions(void); // and the clock
void check_room(void);     // of the store
void check_ends(void);

#endif
