//! What counts failures asks its device each time, and tells of a failure exactly where the device failed.

use devices::{Counted, CountedLines, CountedRead, CountedWrite, ReadFault};
use std::alloc::Global;
use std::io;
use std::io::{BufReader, ErrorKind, Read, Write};
use std::test::Fail;

/// A device that counts how often it is asked, and fails each time where it is broken.
#[derive(Drop)]
struct Device {
    asked: u32,
    is_broken: bool,
}

impl Device {
    fn new(is_broken: bool) -> Device {
        Device {
            asked: 0,
            is_broken,
        }
    }

    fn ask(&mut self) -> io::Result<()> {
        self.asked += 1;
        if self.is_broken {
            return Err(ErrorKind::Other.into());
        }
        Ok(())
    }
}

impl Write for Device {
    fn write(&mut self, buf: &[u8]) -> io::Result<usize> {
        self.ask()?;
        Ok(buf.len())
    }

    fn flush(&mut self) -> io::Result<()> {
        self.ask()
    }
}

impl Read for Device {
    fn read(&mut self, _buf: &mut [u8]) -> io::Result<usize> {
        self.ask()?;
        Ok(0)
    }
}

/// Whether a writer over such a device failed at a write of these bytes and at a flush, and how often the device was asked.
fn written(is_broken: bool, bytes: &[u8]) -> (bool, bool, u32) {
    let mut device = Device::new(is_broken);
    let (write, flush) = {
        let mut writer = Counted::new(&mut device);
        (
            writer.write_some(bytes).is_err(),
            writer.flush_out().is_err(),
        )
    };
    (write, flush, device.asked)
}

/// Whether a reader over such a device failed, and whether the device was asked.
fn filled(alloc: Global, is_broken: bool) -> (bool, bool) {
    let mut device = Device::new(is_broken);
    let mut bytes = Vec::new(alloc);
    let told = Counted::new(&mut device).fill(&mut bytes);
    (matches!(told, Err(ReadFault::Failed)), 0 < device.asked)
}

/// The same of a reader of lines.
fn read(alloc: Global, is_broken: bool) -> Result<(bool, bool), Fail> {
    let mut device = Device::new(is_broken);
    let mut line = Vec::new(alloc);
    let told = {
        let buffered = BufReader::with_capacity(alloc, 16, &mut device)?;
        Counted::new(buffered).read_line(&mut line)
    };
    Ok((matches!(told, Err(ReadFault::Failed)), 0 < device.asked))
}

#[test]
fn a_writer_fails_where_its_device_does(rt: HostRuntime) {
    let long = [b'x'; 100_000];
    for is_broken in [false, true] {
        for count in [1, 64, 8_192, 8_193, 100_000] {
            let told = written(is_broken, &long[..count]);
            assert!(rt; told == (is_broken, is_broken, 2));
        }
    }
}

#[test]
fn a_reader_fails_where_its_device_does(rt: HostRuntime) -> Result<(), Fail> {
    for is_broken in [false, true] {
        assert!(rt; filled(rt.alloc(), is_broken) == (is_broken, true));
        assert!(rt; read(rt.alloc(), is_broken)? == (is_broken, true));
    }
    Ok(())
}
