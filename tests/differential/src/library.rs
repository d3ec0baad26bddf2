//! The library's calls, on lent buffers. Nothing else calls an entry point.

use crate::ffi::{
    self, Changed, Created, Filled, Found, Got, Journal, Listed, Part, Put, Salvaged, Uuid,
};
use crate::lent::Lent;
use reference::{Create, CreateDirectory, State, Which};

pub fn check(image: &Lent) -> u32 {
    unsafe { ffi::bulgefs_check(image.ptr(), image.len()) }
}

pub fn plain_check(image: &Lent) -> u32 {
    unsafe { ffi::bulgefs_plain_check(image.ptr(), image.len()) }
}

pub fn format(image: &mut Lent, d: u32, time: u64, uuid: [u8; 16], name: &Lent) -> u32 {
    let (at, len, uuid) = (image.mut_ptr(), image.len(), Uuid { bytes: uuid });
    unsafe { ffi::bulgefs_format(at, len, d, time, uuid, name.ptr(), name.len()) }
}

pub fn lookup(image: &Lent, path: &Lent) -> Found {
    unsafe { ffi::bulgefs_lookup(image.ptr(), image.len(), path.ptr(), path.len()) }
}

pub fn read(image: &Lent, path: &Lent, offset: u64, buffer: &mut Lent) -> Filled {
    let (at, len, into) = (image.ptr(), image.len(), buffer.mut_ptr());
    unsafe { ffi::bulgefs_read(at, len, path.ptr(), path.len(), offset, into, buffer.len()) }
}

pub fn read_next(image: &Lent, path: &Lent, position: &mut u64, buffer: &mut Lent) -> Filled {
    let (at, len, into) = (image.ptr(), image.len(), buffer.mut_ptr());
    unsafe { ffi::bulgefs_read_next(at, len, path.ptr(), path.len(), position, into, buffer.len()) }
}

pub fn read_attributes(image: &Lent, path: &Lent, buffer: &mut Lent) -> Filled {
    let (at, len, into) = (image.ptr(), image.len(), buffer.mut_ptr());
    unsafe { ffi::bulgefs_read_attributes(at, len, path.ptr(), path.len(), into, buffer.len()) }
}

pub fn get(image: &Lent, serial: &Lent, which: Which, buffer: &mut Lent) -> Got {
    let (at, len, serial, serial_len) = (image.ptr(), image.len(), serial.ptr(), serial.len());
    let (into, room) = (buffer.mut_ptr(), buffer.len());
    match which {
        Which::Latest => unsafe {
            ffi::bulgefs_get_latest_settings(at, len, serial, serial_len, into, room)
        },
        Which::Number(x) => unsafe {
            ffi::bulgefs_get_settings(at, len, serial, serial_len, x, into, room)
        },
    }
}

/// The same from a directory.
pub fn get_in(
    image: &Lent,
    directory: &Lent,
    serial: &Lent,
    which: Which,
    buffer: &mut Lent,
) -> Got {
    let (at, len) = (image.ptr(), image.len());
    let (dir, dir_len) = (directory.ptr(), directory.len());
    let (serial, serial_len) = (serial.ptr(), serial.len());
    let (into, room) = (buffer.mut_ptr(), buffer.len());
    match which {
        Which::Latest => unsafe {
            ffi::bulgefs_get_latest_settings_in(
                at, len, dir, dir_len, serial, serial_len, into, room,
            )
        },
        Which::Number(x) => unsafe {
            ffi::bulgefs_get_settings_in(at, len, dir, dir_len, serial, serial_len, x, into, room)
        },
    }
}

pub fn look_in_place(image: &Lent, path: &Lent, index: u64) -> Part {
    unsafe { ffi::bulgefs_look_in_place(image.ptr(), image.len(), path.ptr(), path.len(), index) }
}

/// The numbers in the order of the struct.
pub fn info(image: &Lent, labels: &mut Lent) -> Vec<u64> {
    let (at, len, into) = (image.ptr(), image.len(), labels.mut_ptr());
    let v = unsafe { ffi::bulgefs_info(at, len, into, labels.len()) };
    [v.number, v.blocks, v.used, v.free, v.root_blocks].map(u64::from).to_vec()
}

pub fn entry(image: &Lent, path: &Lent, slot: u32, name: &mut Lent) -> Vec<u64> {
    let (at, len, into) = (image.ptr(), image.len(), name.mut_ptr());
    let e = unsafe { ffi::bulgefs_entry(at, len, path.ptr(), path.len(), slot, into, name.len()) };
    let mut numbers = vec![e.number.into(), e.slot.into()];
    numbers.extend([e.kind, e.user, e.group, e.permissions].map(u64::from));
    numbers.extend([e.flags.into(), e.created, e.modified]);
    let rest = [e.first, e.size, e.blocks, e.attribute_block, e.attribute_size];
    numbers.extend(rest.map(u64::from));
    numbers
}

pub fn start(journal: &mut Lent) -> u32 {
    unsafe { ffi::bulgefs_journal_start(journal.mut_ptr(), journal.len()) }
}

/// The numbers are lent as their bytes, at a place that is aligned for them.
pub fn load_table(image: &Lent, numbers: &mut Lent) -> u32 {
    let (entries, count) = (numbers.mut_ptr().cast(), numbers.len() / 4);
    unsafe { ffi::bulgefs_load_table(image.ptr(), image.len(), entries, count) }
}

pub fn store_table(image: &mut Lent, numbers: &Lent) -> u32 {
    let (entries, count) = (numbers.ptr().cast(), numbers.len() / 4);
    unsafe { ffi::bulgefs_store_table(image.mut_ptr(), image.len(), entries, count) }
}

pub fn salvage(image: &mut Lent, report: &mut Lent) -> u32 {
    let (at, len, into) = (image.mut_ptr(), image.len(), report.mut_ptr());
    unsafe { ffi::bulgefs_salvage(at, len, into, report.len()) }
}

pub fn salvage_tree(image: &mut Lent, report: &mut Lent) -> Salvaged {
    let (at, len, into) = (image.mut_ptr(), image.len(), report.mut_ptr());
    unsafe { ffi::bulgefs_salvage_tree(at, len, into, report.len()) }
}

/// An image and a journal that are lent together.
pub struct Pair {
    pub image: Lent,
    pub journal: Lent,
}

#[rustfmt::skip]
impl Pair {
    pub fn create(&mut self, path: &Lent, c: &Create) -> Created {
        let (image, image_len, journal, journal_len) = self.lent();
        unsafe {
            ffi::bulgefs_create(image, image_len, journal, journal_len, path.ptr(), path.len(),
                                c.kind, c.user, c.group, c.permissions, c.flags, c.time)
        }
    }

    pub fn write(&mut self, path: &Lent, offset: u64, data: &Lent, time: u64) -> Changed {
        let (image, image_len, journal, journal_len) = self.lent();
        unsafe {
            ffi::bulgefs_write(image, image_len, journal, journal_len, path.ptr(), path.len(),
                               offset, data.ptr(), data.len(), time)
        }
    }

    pub fn delete(&mut self, path: &Lent) -> Changed {
        let (image, image_len, journal, journal_len) = self.lent();
        unsafe {
            ffi::bulgefs_delete(image, image_len, journal, journal_len, path.ptr(), path.len())
        }
    }

    pub fn create_directory(&mut self, path: &Lent, c: &CreateDirectory) -> Created {
        let (image, image_len, journal, journal_len) = self.lent();
        let e = &c.entry;
        unsafe {
            ffi::bulgefs_create_directory(image, image_len, journal, journal_len,
                                          path.ptr(), path.len(), e.kind, e.user, e.group,
                                          e.permissions, e.flags, c.blocks, e.time)
        }
    }

    pub fn delete_directory(&mut self, path: &Lent) -> Changed {
        let (image, image_len, journal, journal_len) = self.lent();
        unsafe {
            ffi::bulgefs_delete_directory(image, image_len, journal, journal_len,
                                          path.ptr(), path.len())
        }
    }

    pub fn set_attributes(&mut self, path: &Lent, data: &Lent) -> Changed {
        let (image, image_len, journal, journal_len) = self.lent();
        unsafe {
            ffi::bulgefs_set_attributes(image, image_len, journal, journal_len,
                                        path.ptr(), path.len(), data.ptr(), data.len())
        }
    }

    pub fn clear_attributes(&mut self, path: &Lent) -> Changed {
        let (image, image_len, journal, journal_len) = self.lent();
        unsafe {
            ffi::bulgefs_clear_attributes(image, image_len, journal, journal_len,
                                          path.ptr(), path.len())
        }
    }

    pub fn clear_flags(&mut self, path: &Lent) -> Changed {
        let (image, image_len, journal, journal_len) = self.lent();
        unsafe {
            ffi::bulgefs_clear_flags(image, image_len, journal, journal_len,
                                     path.ptr(), path.len())
        }
    }

    pub fn shorten(&mut self, path: &Lent, size: u64, time: u64) -> Changed {
        let (image, image_len, journal, journal_len) = self.lent();
        unsafe {
            ffi::bulgefs_shorten(image, image_len, journal, journal_len, path.ptr(), path.len(),
                                 size, time)
        }
    }

    pub fn replace(&mut self, path: &Lent, data: &Lent, time: u64) -> Changed {
        let (image, image_len, journal, journal_len) = self.lent();
        unsafe {
            ffi::bulgefs_replace(image, image_len, journal, journal_len, path.ptr(), path.len(),
                                 data.ptr(), data.len(), time)
        }
    }

    pub fn move_file(&mut self, path: &Lent, to: &Lent) -> Created {
        let (image, image_len, journal, journal_len) = self.lent();
        unsafe {
            ffi::bulgefs_move(image, image_len, journal, journal_len, path.ptr(), path.len(),
                              to.ptr(), to.len())
        }
    }

    pub fn append(&mut self, path: &Lent, piece: &Lent, time: u64) -> Changed {
        let (image, image_len, journal, journal_len) = self.lent();
        unsafe {
            ffi::bulgefs_append(image, image_len, journal, journal_len, path.ptr(), path.len(),
                                piece.ptr(), piece.len(), time)
        }
    }

    pub fn write_list(&mut self, list: &Lent) -> Listed {
        let (image, image_len, journal, journal_len) = self.lent();
        unsafe {
            ffi::bulgefs_write_list(image, image_len, journal, journal_len,
                                    list.ptr(), list.len())
        }
    }

    pub fn put(&mut self, serial: &Lent, data: &Lent, time: u64) -> Put {
        let (image, image_len, journal, journal_len) = self.lent();
        unsafe {
            ffi::bulgefs_put_settings(image, image_len, journal, journal_len,
                                      serial.ptr(), serial.len(), data.ptr(), data.len(), time)
        }
    }

    pub fn put_in(&mut self, directory: &Lent, serial: &Lent, data: &Lent, time: u64) -> Put {
        let (image, image_len, journal, journal_len) = self.lent();
        unsafe {
            ffi::bulgefs_put_settings_in(image, image_len, journal, journal_len,
                                         directory.ptr(), directory.len(),
                                         serial.ptr(), serial.len(), data.ptr(), data.len(), time)
        }
    }

    pub fn undo(&mut self) -> Changed {
        let (image, image_len, journal, journal_len) = self.lent();
        unsafe { ffi::bulgefs_undo(image, image_len, journal, journal_len) }
    }

    pub fn undo_to(&mut self, mark: u32) -> Listed {
        let (image, image_len, journal, journal_len) = self.lent();
        unsafe { ffi::bulgefs_undo_to(image, image_len, journal, journal_len, mark) }
    }

    pub fn journal_info(&self) -> Journal {
        let (image, journal) = (&self.image, &self.journal);
        unsafe {
            ffi::bulgefs_journal_info(image.ptr(), image.len(), journal.ptr(), journal.len())
        }
    }

    fn lent(&mut self) -> (*mut u8, usize, *mut u8, usize) {
        (self.image.mut_ptr(), self.image.len(), self.journal.mut_ptr(), self.journal.len())
    }

    pub fn content(&self) -> State {
        State { image: self.image.content().to_vec(), journal: self.journal.content().to_vec() }
    }

    /// What is wrong with the two after a call, if anything.
    pub fn troubles(&self, after: &State) -> [Option<String>; 2] {
        [self.image.trouble("image", &after.image), self.journal.trouble("journal", &after.journal)]
    }
}
