//! A file that has no room for all that is written.

use std::cell::RefCell;
use std::io::{self, ErrorKind, Write};
use std::rc::Rc;

/// A disk with room for so many bytes more. It takes at most 700 at a time, and is interrupted before each.
#[derive(Default)]
pub struct Disk {
    pub bytes: Vec<u8>,
    pub room: usize,
    interrupted: bool,
    pub flushed: bool,
}

impl Disk {
    pub fn with_room(room: usize) -> Rc<RefCell<Disk>> {
        Rc::new(RefCell::new(Disk { room, ..Disk::default() }))
    }
}

/// A file on a disk.
pub struct File(pub Rc<RefCell<Disk>>);

impl Write for File {
    fn write(&mut self, bytes: &[u8]) -> io::Result<usize> {
        let mut disk = self.0.borrow_mut();
        disk.interrupted = !disk.interrupted;
        if disk.interrupted {
            return Err(ErrorKind::Interrupted.into());
        }
        let size = bytes.len().min(700).min(disk.room);
        if size == 0 {
            return Err(ErrorKind::StorageFull.into());
        }
        disk.bytes.extend(&bytes[..size]);
        disk.room -= size;
        Ok(size)
    }

    fn flush(&mut self) -> io::Result<()> {
        self.0.borrow_mut().flushed = true;
        Ok(())
    }
}
