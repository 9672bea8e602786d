// What the bench's programs take from the C library. They have no std: on an Arm machine only a C library for x86-64 is at hand.
use core::ffi::CStr;

#[panic_handler]
fn panic(_: &core::panic::PanicInfo) -> ! {
    unsafe { abort() }
}

// The compiled core library names it. Nothing unwinds here: a panic aborts.
#[no_mangle]
extern "C" fn rust_eh_personality() {}

extern "C" {
    fn abort() -> !;
    fn atoi(text: *const i8) -> i32;
    fn write(file: i32, bytes: *const u8, count: usize) -> isize;
}

// The words of the command line, the program's own name first.
pub struct Words {
    count: usize,
    texts: *const *const i8,
}

impl Words {
    // Both as `main` gets them.
    pub fn new(count: i32, texts: *const *const i8) -> Words {
        Words { count: count as usize, texts }
    }

    pub fn count(&self) -> usize {
        self.count
    }

    pub fn word(&self, i: usize) -> &[u8] {
        unsafe { CStr::from_ptr(self.at(i)) }.to_bytes()
    }

    pub fn number(&self, i: usize) -> usize {
        unsafe { atoi(self.at(i)) as usize }
    }

    fn at(&self, i: usize) -> *const i8 {
        assert!(i < self.count);
        unsafe { *self.texts.add(i) }
    }
}

// Whether all of it went to standard output.
pub fn write_all(mut bytes: &[u8]) -> bool {
    while !bytes.is_empty() {
        let count = unsafe { write(1, bytes.as_ptr(), bytes.len()) };
        if count <= 0 {
            return false;
        }
        bytes = &bytes[count as usize..];
    }
    true
}
