/* extract.c - all files of a volume as a folder outside; of a damaged one those that are whole. */
#include "salvage.h"
#include "tree.h"

/* The copy is made in memory, so that nothing is touched. */
static int extract_damaged(const store *s, const char *folder, int json)
{
    salvaged made;
    int status = salvage_copy(s, &made);
    if (!status) status = get_tree(&made.image, "/", folder);
    if (!status) salvage_tell(s, &made, json);
    salvage_free(&made);
    return status;
}

int command_extract(int argc, char **argv, const options *o)
{
    int damaged = take_flag(&argc, argv, "--damaged"), status;
    uint32_t number;
    store s;
    if (!good_arguments(&argc, argv, 2, 2)) return usage("extract [--damaged] VOLUME FOLDER");
    status = store_open(&s, argv[1], LOOK, o);
    if (status) return status;
    number = bulgefs_check(s.image.bytes, s.image.length);
    if (damaged) status = extract_damaged(&s, argv[2], o->json);
    else if (number) status = refuse_because(number, argv[1], "--damaged gets out what is whole");
    else status = get_tree(&s.image, "/", argv[2]);
    store_close(&s);
    return status;
}
