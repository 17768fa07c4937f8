//! The C library's calls for a serial line, as Linux has them on x86-64 and aarch64. The gate holds names and numbers against the C headers.
//!
//! They are declared here, and not run as `stty`: a program that is emulated could not start one of its own machine, and the settings are put
//! back as they were without reading what a program prints.
use std::io;
use std::mem::{align_of, size_of, MaybeUninit};
use std::os::unix::io::AsRawFd;

#[cfg(not(all(
    target_os = "linux",
    target_env = "gnu",
    any(target_arch = "x86_64", target_arch = "aarch64")
)))]
compile_error!("struct termios and its numbers are known for Linux on x86-64 and aarch64 alone");

/// The settings of a line: struct termios.
#[repr(C)]
#[derive(Clone, Copy)]
#[rustfmt::skip]
pub struct Termios {
    pub c_iflag: u32,
    pub c_oflag: u32,
    pub c_cflag: u32,
    pub c_lflag: u32,
    pub c_line: u8,
    pub c_cc: [u8; 32],
    pub c_ispeed: u32,
    pub c_ospeed: u32,
}

#[repr(C)]
struct PollFile {
    fd: i32,
    events: i16,
    revents: i16,
}

const _: () = {
    assert!(size_of::<Termios>() == 60 && align_of::<Termios>() == 4);
    assert!(size_of::<PollFile>() == 8 && align_of::<PollFile>() == 4);
};

pub const O_NOCTTY: i32 = 0o400;
pub const O_NONBLOCK: i32 = 0o4000;
pub const INPCK: u32 = 0o20;
pub const CSTOPB: u32 = 0o100;
pub const CREAD: u32 = 0o200;
pub const PARENB: u32 = 0o400;
pub const PARODD: u32 = 0o1000;
pub const CLOCAL: u32 = 0o4000;
pub const CRTSCTS: u32 = 0o20000000000;
pub const VTIME: usize = 5;
pub const VMIN: usize = 6;
pub const TCSADRAIN: i32 = 1;
pub const TCSAFLUSH: i32 = 2;
pub const POLLIN: i16 = 1;
pub const POLLOUT: i16 = 4;
pub const LOCK_EX: i32 = 2;
pub const LOCK_NB: i32 = 4;

extern "C" {
    fn tcgetattr(fd: i32, settings: *mut Termios) -> i32;
    fn tcsetattr(fd: i32, when: i32, settings: *const Termios) -> i32;
    fn cfmakeraw(settings: *mut Termios);
    fn cfsetspeed(settings: *mut Termios, baud: u32) -> i32;
    fn tcdrain(fd: i32) -> i32;
    fn poll(files: *mut PollFile, count: u64, milliseconds: i32) -> i32;
    fn flock(fd: i32, operation: i32) -> i32;
    fn isatty(fd: i32) -> i32;
}

fn checked(result: i32) -> io::Result<()> {
    if result < 0 {
        return Err(io::Error::last_os_error());
    }
    Ok(())
}

/// The settings that a line has.
pub fn settings(file: &impl AsRawFd) -> io::Result<Termios> {
    let mut settings = MaybeUninit::uninit();
    // SAFETY: it writes a whole struct if it succeeds, and is read only then.
    unsafe {
        checked(tcgetattr(file.as_raw_fd(), settings.as_mut_ptr()))?;
        Ok(settings.assume_init())
    }
}

/// Gives a line these settings, once what was written has left; TCSAFLUSH also drops what has come.
pub fn set(file: &impl AsRawFd, when: i32, settings: &Termios) -> io::Result<()> {
    // SAFETY: it only reads the struct.
    checked(unsafe { tcsetattr(file.as_raw_fd(), when, settings) })
}

/// Bytes as they are, eight bits to each.
pub fn make_raw(settings: &mut Termios) {
    // SAFETY: it only writes into the struct.
    unsafe { cfmakeraw(settings) }
}

/// Sets the speed, which the GNU library takes as a number too, if it knows it.
pub fn set_speed(settings: &mut Termios, baud: u32) -> io::Result<()> {
    // SAFETY: it only writes into the struct.
    checked(unsafe { cfsetspeed(settings, baud) })
}

/// Waits until what was written has left.
pub fn drained(file: &impl AsRawFd) -> io::Result<()> {
    // SAFETY: it takes any number.
    checked(unsafe { tcdrain(file.as_raw_fd()) })
}

/// Waits for one of these events, at most so long. None if the time is over.
pub fn wait(file: &impl AsRawFd, events: i16, milliseconds: i32) -> io::Result<Option<i16>> {
    let mut wanted = PollFile {
        fd: file.as_raw_fd(),
        events,
        revents: 0,
    };
    // SAFETY: one struct is lent, and one is told.
    let count = unsafe { poll(&mut wanted, 1, milliseconds) };
    checked(count)?;
    Ok((count > 0).then_some(wanted.revents))
}

/// Takes the line for this program alone, as long as the file is open; an error if another has taken it.
pub fn lock(file: &impl AsRawFd) -> io::Result<()> {
    // SAFETY: it takes any numbers.
    checked(unsafe { flock(file.as_raw_fd(), LOCK_EX | LOCK_NB) })
}

pub fn is_terminal(file: &impl AsRawFd) -> bool {
    // SAFETY: it takes any number.
    unsafe { isatty(file.as_raw_fd()) == 1 }
}
