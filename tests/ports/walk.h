/* The walk of walk.c: a call of the header has a line here, and in walk.c a function that makes it. */
#ifndef WALK_H
#define WALK_H

#include <stdint.h>

#define WALK_CALLS(X) \
    X(version) \
    X(check) \
    X(plain_check) \
    X(format) \
    X(lookup) \
    X(read) \
    X(read_next) \
    X(look_in_place) \
    X(info) \
    X(entry) \
    X(journal_start) \
    X(create) \
    X(write) \
    X(append) \
    X(shorten) \
    X(replace) \
    X(write_list) \
    X(delete) \
    X(move) \
    X(create_directory) \
    X(delete_directory) \
    X(set_attributes) \
    X(read_attributes) \
    X(clear_attributes) \
    X(clear_flags) \
    X(put_settings) \
    X(get_settings) \
    X(get_latest_settings) \
    X(put_settings_in) \
    X(get_settings_in) \
    X(get_latest_settings_in) \
    X(undo) \
    X(journal_info) \
    X(undo_to) \
    X(load_table) \
    X(store_table) \
    X(salvage) \
    X(salvage_tree) \
    X(file_size) \
    X(file_begin) \
    X(file_check) \
    X(file_parts) \
    X(file_prepare) \
    X(file_commit) \
    X(file_recover) \
    X(file_home)

#define WALK_KIND(name) K_##name,
enum { WALK_CALLS(WALK_KIND) WALK_KINDS, WALK_NUMBERS = 32 };

/* How often each call gave each number; the last one counts all above. */
extern uint32_t walk_seen[WALK_KINDS][WALK_NUMBERS];

/* How often a change was refused in a journal that lacked one byte for its records, and made in one of exactly their length. */
extern uint32_t walk_fitted[WALK_KINDS];

void walk_begin(uint64_t seed);

/* Goes on until so many calls were made since the start, and gives the hash of all of them. */
uint64_t walk_to(uint64_t calls);

#endif
