// Files of the plain version: uploaded, found, deleted; and time, which ends uploads.
#include "plain.h"

#include <string.h>

enum { WELCOME = 1, TURNED_AWAY = 8, ERROR_PREFIX = 254, UPLOAD_TIMED_OUT = 212 };

static void reply(Plain *p, uint8_t byte)
{
    p->replies[p->replied++] = byte;
}

const File *find_file(const Plain *p, uint8_t kind, unsigned number, unsigned *offset)
{
    unsigned i;
    *offset = 0;
    for (i = 0; i < p->file_count; i++) {
        if (p->files[i].kind == kind && p->files[i].number == number)
            return &p->files[i];
        *offset += p->files[i].size;
    }
    return NULL;
}

// Why this file cannot be uploaded; 0 where it can.
static uint8_t upload_refused(const Plain *p, const File *file)
{
    unsigned offset;
    if (file->number > DISPLAY_FILE_NUMBER_MOST)
        return DISPLAY_REFUSED_NUMBER_OUT_OF_RANGE;
    if (find_file(p, file->kind, file->number, &offset))
        return DISPLAY_REFUSED_NUMBER_IN_USE;
    if (file->size == 0 || file->size > PLAIN_DATA_SIZE - p->used || p->entries + file->entry > PLAIN_ENTRIES)
        return DISPLAY_REFUSED_NO_SPACE;
    return 0;
}

void begin_upload(Plain *p, uint8_t kind)
{
    const uint8_t *size = p->arguments + number_bytes(p);
    uint8_t refused;
    p->upload.kind = kind;
    p->upload.entry = p->newer ? NEWER_ENTRY : OLDER_ENTRY;
    p->upload.number = (uint16_t)number_at(p, p->arguments);
    p->upload.size = size[0] + 256u * size[1];
    if (p->newer)
        p->upload.size += (uint32_t)size[2] << 16 | (uint32_t)size[3] << 24;
    refused = upload_refused(p, &p->upload);
    reply(p, refused ? TURNED_AWAY : WELCOME);
    if (refused) {
        plain_refuse(p, refused);
        return;
    }
    p->stored = 0;
    p->waited = 0;
    p->echoed = false;
    p->phase = UPLOAD;
}

void take_upload_byte(Plain *p, uint8_t byte)
{
    p->waited = 0;
    if (!p->echoed) {
        p->echo = byte;
        p->echoed = true;
        reply(p, byte);
        return;
    }
    p->echoed = false;
    if (byte != CONFIRM) {
        p->phase = IDLE;
        plain_refuse(p, DISPLAY_REFUSED_UPLOAD_ABORTED);
        return;
    }
    p->data[p->used + p->stored++] = p->echo;
    if (p->stored == p->upload.size) {
        p->files[p->file_count++] = p->upload;
        p->entries += p->upload.entry;
        p->used += p->upload.size;
        p->phase = IDLE;
    }
}

bool plain_time(Plain *p, uint32_t milliseconds, uint8_t *replies, size_t replies_length)
{
    p->replies = replies;
    p->replied = 0;
    if (replies_length < DISPLAY_REPLY_ROOM)
        return false;
    if (p->phase != UPLOAD)
        return true;
    if (milliseconds < DISPLAY_UPLOAD_TIMEOUT - p->waited) {
        p->waited += milliseconds;
        return true;
    }
    reply(p, ERROR_PREFIX);
    reply(p, UPLOAD_TIMED_OUT);
    plain_refuse(p, DISPLAY_REFUSED_UPLOAD_ABORTED);
    p->phase = IDLE;
    return true;
}

void delete_file(Plain *p)
{
    const uint8_t *a = p->arguments;
    unsigned number = number_at(p, a + 1), offset, size, i;
    const File *file;
    if (a[0] > BITMAP || number > DISPLAY_FILE_NUMBER_MOST) {
        plain_refuse(p, a[0] > BITMAP ? DISPLAY_REFUSED_UNKNOWN_TYPE : DISPLAY_REFUSED_NUMBER_OUT_OF_RANGE);
        return;
    }
    file = find_file(p, a[0], number, &offset);
    if (!file) {
        plain_refuse(p, DISPLAY_REFUSED_NO_SUCH_FILE);
        return;
    }
    size = file->size;
    p->entries -= file->entry;
    memmove(p->data + offset, p->data + offset + size, p->used - offset - size);
    p->used -= size;
    p->file_count--;
    for (i = (unsigned)(file - p->files); i < p->file_count; i++)
        p->files[i] = p->files[i + 1];
}
