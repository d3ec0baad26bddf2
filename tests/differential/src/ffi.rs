//! The entry points, as include/bulgefs.h declares them.

#[repr(C)]
#[derive(Clone, Copy)]
pub struct Uuid {
    pub bytes: [u8; 16],
}

#[repr(C)]
#[derive(Clone, Copy, Debug, PartialEq, Eq)]
pub struct Found {
    pub number: u32,
    pub slot: u32,
    pub size: u32,
    pub blocks: u32,
}

#[repr(C)]
#[derive(Clone, Copy, Debug, PartialEq, Eq)]
pub struct Filled {
    pub number: u32,
    pub count: u32,
}

#[repr(C)]
#[derive(Clone, Copy, Debug, PartialEq, Eq)]
pub struct Part {
    pub start: u32,
    pub length: u32,
}

#[repr(C)]
#[derive(Clone, Copy, Debug, PartialEq, Eq)]
pub struct Volume {
    pub number: u32,
    pub blocks: u32,
    pub used: u32,
    pub free: u32,
    pub root_blocks: u32,
}

#[repr(C)]
#[derive(Clone, Copy, Debug, PartialEq, Eq)]
pub struct Slot {
    pub number: u32,
    pub slot: u32,
    pub kind: u8,
    pub user: u8,
    pub group: u8,
    pub permissions: u8,
    pub flags: u32,
    pub created: u64,
    pub modified: u64,
    pub first: u32,
    pub size: u32,
    pub blocks: u32,
    pub attribute_block: u32,
    pub attribute_size: u32,
}

#[repr(C)]
#[derive(Clone, Copy, Debug, PartialEq, Eq)]
pub struct Created {
    pub number: u32,
    pub slot: u32,
    pub record: u32,
}

#[repr(C)]
#[derive(Clone, Copy, Debug, PartialEq, Eq)]
pub struct Changed {
    pub number: u32,
    pub record: u32,
}

#[repr(C)]
#[derive(Clone, Copy, Debug, PartialEq, Eq)]
pub struct Listed {
    pub number: u32,
    pub done: u32,
}

#[repr(C)]
#[derive(Clone, Copy, Debug, PartialEq, Eq)]
pub struct Journal {
    pub number: u32,
    pub used: u32,
    pub records: u32,
    pub last: u32,
}

#[repr(C)]
#[derive(Clone, Copy, Debug, PartialEq, Eq)]
pub struct Put {
    pub number: u32,
    pub revision: u32,
    pub record: u32,
}

#[repr(C)]
#[derive(Clone, Copy, Debug, PartialEq, Eq)]
pub struct Got {
    pub number: u32,
    pub revision: u32,
    pub length: u32,
}

#[repr(C)]
#[derive(Clone, Copy, Debug, PartialEq, Eq)]
pub struct Salvaged {
    pub number: u32,
    pub dropped: u32,
    pub freed: u32,
}

// Laid out line by line as in the header.
#[rustfmt::skip]
extern "C" {
    pub fn bulgefs_check(image: *const u8, image_len: usize) -> u32;

    pub fn bulgefs_plain_check(image: *const u8, image_len: usize) -> u32;

    pub fn bulgefs_format(image: *mut u8, image_len: usize,
                          root_blocks: u32, time: u64, uuid: Uuid,
                          volume_name: *const u8, volume_name_len: usize) -> u32;

    pub fn bulgefs_lookup(image: *const u8, image_len: usize,
                          path: *const u8, path_len: usize) -> Found;

    pub fn bulgefs_read(image: *const u8, image_len: usize,
                        path: *const u8, path_len: usize,
                        offset: u64, buffer: *mut u8, buffer_len: usize) -> Filled;

    pub fn bulgefs_read_next(image: *const u8, image_len: usize,
                             path: *const u8, path_len: usize,
                             position: *mut u64, buffer: *mut u8, buffer_len: usize) -> Filled;

    pub fn bulgefs_look_in_place(image: *const u8, image_len: usize,
                                 path: *const u8, path_len: usize,
                                 index: u64) -> Part;

    pub fn bulgefs_info(image: *const u8, image_len: usize,
                        labels: *mut u8, labels_len: usize) -> Volume;

    pub fn bulgefs_entry(image: *const u8, image_len: usize,
                         path: *const u8, path_len: usize,
                         slot: u32, name: *mut u8, name_len: usize) -> Slot;

    pub fn bulgefs_journal_start(journal: *mut u8, journal_len: usize) -> u32;

    pub fn bulgefs_create(image: *mut u8, image_len: usize,
                          journal: *mut u8, journal_len: usize,
                          path: *const u8, path_len: usize,
                          kind: u8, user: u8, group: u8,
                          permissions: u8, flags: u32, time: u64) -> Created;

    pub fn bulgefs_write(image: *mut u8, image_len: usize,
                         journal: *mut u8, journal_len: usize,
                         path: *const u8, path_len: usize,
                         offset: u64, data: *const u8, data_len: usize,
                         time: u64) -> Changed;

    pub fn bulgefs_delete(image: *mut u8, image_len: usize,
                          journal: *mut u8, journal_len: usize,
                          path: *const u8, path_len: usize) -> Changed;

    pub fn bulgefs_create_directory(image: *mut u8, image_len: usize,
                                    journal: *mut u8, journal_len: usize,
                                    path: *const u8, path_len: usize,
                                    kind: u8, user: u8, group: u8,
                                    permissions: u8, flags: u32,
                                    blocks: u32, time: u64) -> Created;

    pub fn bulgefs_delete_directory(image: *mut u8, image_len: usize,
                                    journal: *mut u8, journal_len: usize,
                                    path: *const u8, path_len: usize) -> Changed;

    pub fn bulgefs_set_attributes(image: *mut u8, image_len: usize,
                                  journal: *mut u8, journal_len: usize,
                                  path: *const u8, path_len: usize,
                                  data: *const u8, data_len: usize) -> Changed;

    pub fn bulgefs_read_attributes(image: *const u8, image_len: usize,
                                   path: *const u8, path_len: usize,
                                   buffer: *mut u8, buffer_len: usize) -> Filled;

    pub fn bulgefs_clear_attributes(image: *mut u8, image_len: usize,
                                    journal: *mut u8, journal_len: usize,
                                    path: *const u8, path_len: usize) -> Changed;

    pub fn bulgefs_clear_flags(image: *mut u8, image_len: usize,
                               journal: *mut u8, journal_len: usize,
                               path: *const u8, path_len: usize) -> Changed;

    pub fn bulgefs_shorten(image: *mut u8, image_len: usize,
                           journal: *mut u8, journal_len: usize,
                           path: *const u8, path_len: usize,
                           size: u64, time: u64) -> Changed;

    pub fn bulgefs_replace(image: *mut u8, image_len: usize,
                           journal: *mut u8, journal_len: usize,
                           path: *const u8, path_len: usize,
                           data: *const u8, data_len: usize,
                           time: u64) -> Changed;

    pub fn bulgefs_move(image: *mut u8, image_len: usize,
                        journal: *mut u8, journal_len: usize,
                        path: *const u8, path_len: usize,
                        to: *const u8, to_len: usize) -> Created;

    pub fn bulgefs_append(image: *mut u8, image_len: usize,
                          journal: *mut u8, journal_len: usize,
                          path: *const u8, path_len: usize,
                          piece: *const u8, piece_len: usize,
                          time: u64) -> Changed;

    pub fn bulgefs_write_list(image: *mut u8, image_len: usize,
                              journal: *mut u8, journal_len: usize,
                              list: *const u8, list_len: usize) -> Listed;

    pub fn bulgefs_put_settings(image: *mut u8, image_len: usize,
                                journal: *mut u8, journal_len: usize,
                                serial: *const u8, serial_len: usize,
                                data: *const u8, data_len: usize,
                                time: u64) -> Put;

    pub fn bulgefs_get_settings(image: *const u8, image_len: usize,
                                serial: *const u8, serial_len: usize,
                                revision: u32,
                                buffer: *mut u8, buffer_len: usize) -> Got;

    pub fn bulgefs_get_latest_settings(image: *const u8, image_len: usize,
                                       serial: *const u8, serial_len: usize,
                                       buffer: *mut u8, buffer_len: usize) -> Got;

    pub fn bulgefs_put_settings_in(image: *mut u8, image_len: usize,
                                   journal: *mut u8, journal_len: usize,
                                   directory: *const u8, directory_len: usize,
                                   serial: *const u8, serial_len: usize,
                                   data: *const u8, data_len: usize,
                                   time: u64) -> Put;

    pub fn bulgefs_get_settings_in(image: *const u8, image_len: usize,
                                   directory: *const u8, directory_len: usize,
                                   serial: *const u8, serial_len: usize,
                                   revision: u32,
                                   buffer: *mut u8, buffer_len: usize) -> Got;

    pub fn bulgefs_get_latest_settings_in(image: *const u8, image_len: usize,
                                          directory: *const u8, directory_len: usize,
                                          serial: *const u8, serial_len: usize,
                                          buffer: *mut u8, buffer_len: usize) -> Got;

    pub fn bulgefs_undo(image: *mut u8, image_len: usize,
                        journal: *mut u8, journal_len: usize) -> Changed;

    pub fn bulgefs_journal_info(image: *const u8, image_len: usize,
                                journal: *const u8, journal_len: usize) -> Journal;

    pub fn bulgefs_undo_to(image: *mut u8, image_len: usize,
                           journal: *mut u8, journal_len: usize,
                           mark: u32) -> Listed;

    pub fn bulgefs_load_table(image: *const u8, image_len: usize,
                              entries: *mut u32, entry_count: usize) -> u32;

    pub fn bulgefs_store_table(image: *mut u8, image_len: usize,
                               entries: *const u32, entry_count: usize) -> u32;

    pub fn bulgefs_salvage(image: *mut u8, image_len: usize,
                           report: *mut u8, report_len: usize) -> u32;

    pub fn bulgefs_salvage_tree(image: *mut u8, image_len: usize,
                                report: *mut u8, report_len: usize) -> Salvaged;
}
