/* Linked into the tool with --wrap: the library's bulgefs_entry, with the field that BULGEFS_FIELD names made another, or told as if there were no entry. */
#include "bulgefs.h"

#include <stdlib.h>
#include <string.h>

bulgefs_slot __real_bulgefs_entry(const uint8_t *, size_t, const uint8_t *, size_t, uint32_t, uint8_t *, size_t);
bulgefs_slot __wrap_bulgefs_entry(const uint8_t *, size_t, const uint8_t *, size_t, uint32_t, uint8_t *, size_t);

#define SPOIL(field) if (!strcmp(name, #field)) e->field++

static void spoil_field(bulgefs_slot *e, const char *name)
{
    SPOIL(slot);
    SPOIL(type);
    SPOIL(user);
    SPOIL(group);
    SPOIL(permissions);
    SPOIL(flags);
    SPOIL(created);
    SPOIL(modified);
    SPOIL(first);
    SPOIL(size);
    SPOIL(blocks);
    SPOIL(attribute_block);
    SPOIL(attribute_size);
}

bulgefs_slot __wrap_bulgefs_entry(const uint8_t *image, size_t image_len, const uint8_t *path, size_t path_len,
                                  uint32_t slot, uint8_t *name, size_t name_len)
{
    static const bulgefs_slot none;
    bulgefs_slot e = __real_bulgefs_entry(image, image_len, path, path_len, slot, name, name_len);
    const char *field = getenv("BULGEFS_FIELD");
    if (!field || e.slot == 0)
        return e;
    if (!strcmp(field, "entry"))
        return none;
    if (!strcmp(field, "name"))
        name[0]++;
    spoil_field(&e, field);
    return e;
}
