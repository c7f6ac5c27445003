// A fault planted on purpose: a bookmark that is taken as it stands, without its check. The linker puts it in the place of the library's
// call (--wrap), in a cabinet that the radio test must find out.
#include <string.h>

#include "../../include/dock.h"

static uint64_t number_at(const uint8_t *bytes, size_t length) {
    uint64_t number = 0;
    for (size_t i = 0; i < length; i++) number = number << 8 | bytes[i];
    return number;
}

dock_resume_answer __wrap_dock_read_resume(const uint8_t *ekey, size_t ekey_length, const uint8_t *ckey, size_t ckey_length,
                                           dock_bookmark bookmark) {
    dock_read_start_answer start = dock_read_start(ekey, ekey_length, ckey, ckey_length);
    dock_resume_answer answer = {.number = start.number, .bytes = number_at(bookmark.bytes + 32, 8), .reader = start.reader};
    dock_progress *p = &answer.reader.progress;
    p->next = (uint32_t)number_at(bookmark.bytes, 4);
    p->count = (uint32_t)number_at(bookmark.bytes + 4, 4);
    p->release = (uint32_t)number_at(bookmark.bytes + 8, 4);
    p->edition = (uint32_t)number_at(bookmark.bytes + 12, 4);
    memcpy(p->last, bookmark.bytes + 16, sizeof p->last);
    return answer;
}
