// The simulator: a display on a pseudo-terminal, over the port driver. POSIX.1-2008 with XSI and the C library alone.
#ifndef SIMULATOR_H
#define SIMULATOR_H

#include "port.h"

// Exit statuses.
enum { DONE = 0, FAILED = 1, MISUSED = 2 };

// A function that can fail answers 0, or -1 after it has reported why.

// options.c

typedef struct {
    const char *png, *store, *replay; // files, null where not asked for
    uint32_t height;                  // rows of the glass
    uint32_t edition;                 // of the upload protocol
    int blocks;                       // half blocks and not braille
} Options;

// Ends the program where there is nothing to run: after the help, or for wrong options.
Options read_options(int count, char **arguments);

// screen.c: the live picture on standard output

// A message on standard error, or below the picture while it is live.
void report(const char *format, ...);

// Whether standard output is a terminal that can show it.
int screen_is_possible(void);

void screen_open(const char *name, const Options *options);

void screen_close(void);

// Where the picture is higher than the window, the cursor and page keys move it.
void screen_scroll(int key);

// Draws what has changed since the last time, if that is long enough ago. Sets `*again` to the milliseconds after which
// it wants to be called anew, -1 for never. Fails, and reports nothing, where the terminal is gone.
int screen_update(const Port *port, int *again);

// keys.c: standard input, where it is a terminal

void keys_open(void);

// Leaves the terminal as it was found.
void keys_close(void);

int keys_are_open(void);

// Keys that are no character.
enum { KEY_NONE = 256, KEY_UP, KEY_DOWN, KEY_PAGE_UP, KEY_PAGE_DOWN };

// The key that was pressed, KEY_NONE in the midst of one that sends several bytes; q where the terminal is gone.
int keys_read(void);

// view.c: pixels as text

unsigned view_columns(int blocks);
unsigned view_rows(unsigned height, int blocks);

// Rows of pixels in a row of characters.
unsigned view_scale(int blocks);

enum { VIEW_ROW_SIZE = 3 * DISPLAY_WIDTH, VIEW_STATUS_SIZE = 160 };

// The first `columns` characters of a row, without an end. Their length in bytes.
size_t view_row(char *text, const uint8_t *framebuffer, unsigned row, unsigned columns, int blocks);

// The newer edition, contrast, backlight, counters and the store's room in a line.
void view_status(char *text, const Port *port);

// The whole picture and the status on standard output.
int view_print(const Port *port, int blocks);

// png.c

// Fails where png_save would: also for a file that is there and is no PNG.
int png_can_save(const char *path);
int png_save(const char *path, const uint8_t *framebuffer, unsigned height);

// files.c

// At most `most` bytes of a regular file; `*length` of them. 1 where there is no such file.
int file_read(const char *path, uint8_t *bytes, size_t most, size_t *length);

// The file has either its old or its new contents at any time.
int file_save(const char *path, const uint8_t *bytes, size_t length);

// Fails where file_save would, as far as that can be seen beforehand.
int file_can_save(const char *path);

// store_file.c

typedef struct {
    char *path; // null for a store that is not kept
    size_t length;
    uint8_t bytes[DISPLAY_STORE_MOST + 1];
    uint8_t saved[DISPLAY_STORE_MOST + 1];     // what the file holds
    uint8_t directory[DISPLAY_DIRECTORY_SIZE]; // when it was last saved, or should have been
} StoreFile;

// An empty store, or the one in the file, which is made if there is none. A file of a wrong length or with wrong
// contents is read all the same: the display's start judges it.
int store_open(StoreFile *store, const char *path);

// Since the last save; one that failed is not tried again before the next change.
int store_directory_changed(const StoreFile *store);

// Writes the file if the store has changed.
int store_save(StoreFile *store);

// terminal.c: the pseudo-terminal, which is the wire

typedef struct {
    int master, slave;
    const char *name;
    size_t sent; // by the last round
    int blocked; // the other side does not read
} Terminal;

int terminal_open(Terminal *terminal);

// At most `most` bytes that have come; `*length` of them.
int terminal_read(Terminal *terminal, uint8_t *bytes, size_t most, size_t *length);

// The PortSend of a terminal.
size_t terminal_send(void *terminal, const uint8_t *bytes, size_t count);

#endif
