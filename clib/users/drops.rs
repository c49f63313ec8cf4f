//! A handle as a type that closes itself, over the archive alone.

use std::fmt;

#[repr(C)]
struct Handle {
    state: u32,
    held: *mut u8,
}

#[link(name = "percalesilt", kind = "static")]
unsafe extern "C" {
    fn psilt_open(p: *mut Handle, cap: u32) -> u32;
    fn psilt_close(p: *mut Handle) -> u32;
    fn psilt_read(p: *mut Handle, text: *const u8, len: usize, out: *mut u32) -> u32;
    fn psilt_print(p: *mut Handle, term: u32, len: *mut usize) -> u32;
    fn psilt_text(p: *mut Handle, buffer: *mut u8, size: usize) -> u32;
    fn psilt_cons(p: *mut Handle, head: u32, tail: u32, out: *mut u32) -> u32;
    fn psilt_head(p: *mut Handle, term: u32, out: *mut u32) -> u32;
    fn psilt_place(p: *mut Handle, out: *mut u32) -> u32;
    fn psilt_spec(p: *mut Handle, text: *const u8, len: usize, memo: u32, reclaim: u32) -> u32;
    fn psilt_normalise(p: *mut Handle, term: u32, steps: u64, value: *mut u32, taken: *mut u64) -> u32;
}

const ADD: &str = "REC-SPEC Add SORTS Nat CONS z : -> Nat s : Nat -> Nat OPNS plus : Nat Nat -> Nat \
VARS X Y : Nat RULES plus(z,Y) -> Y plus(s(X),Y) -> s(plus(X,Y)) END-SPEC";

/// What a call answered in place of being done.
#[derive(Debug, PartialEq, Eq)]
struct Code(u32);

impl fmt::Display for Code {
    fn fmt(&self, f: &mut fmt::Formatter<'_>) -> fmt::Result {
        write!(f, "code {}", self.0)
    }
}

fn done(code: u32) -> Result<(), Code> {
    if code == 0 { Ok(()) } else { Err(Code(code)) }
}

/// A term of one store.
#[derive(Clone, Copy, Debug, PartialEq, Eq)]
struct Term(u32);

/// An open handle, which nobody else has.
struct Store(Box<Handle>);

impl Store {
    fn new(cells: u32) -> Result<Store, Code> {
        let mut handle = Box::new(Handle { state: 0, held: std::ptr::null_mut() });
        done(unsafe { psilt_open(&mut *handle, cells) })?;
        Ok(Store(handle))
    }

    fn read(&mut self, text: &str) -> Result<Term, Code> {
        let mut out = 0;
        done(unsafe { psilt_read(&mut *self.0, text.as_ptr(), text.len(), &mut out) })?;
        Ok(Term(out))
    }

    fn place(&mut self) -> Result<u32, Code> {
        let mut out = 0;
        done(unsafe { psilt_place(&mut *self.0, &mut out) })?;
        Ok(out)
    }

    fn cons(&mut self, head: Term, tail: Term) -> Result<Term, Code> {
        let mut out = 0;
        done(unsafe { psilt_cons(&mut *self.0, head.0, tail.0, &mut out) })?;
        Ok(Term(out))
    }

    fn head(&mut self, list: Term) -> Result<Term, Code> {
        let mut out = 0;
        done(unsafe { psilt_head(&mut *self.0, list.0, &mut out) })?;
        Ok(Term(out))
    }

    fn specify(&mut self, text: &str) -> Result<(), Code> {
        done(unsafe { psilt_spec(&mut *self.0, text.as_ptr(), text.len(), 65536, 1 << 20) })
    }

    fn normalise(&mut self, term: Term, steps: u64) -> Result<(Term, u64), Code> {
        let (mut value, mut taken) = (0, 0);
        done(unsafe { psilt_normalise(&mut *self.0, term.0, steps, &mut value, &mut taken) })?;
        Ok((Term(value), taken))
    }

    fn print(&mut self, term: Term) -> Result<Vec<u8>, Code> {
        let mut len = 0;
        done(unsafe { psilt_print(&mut *self.0, term.0, &mut len) })?;
        let mut text = vec![0; len];
        done(unsafe { psilt_text(&mut *self.0, text.as_mut_ptr(), len) })?;
        Ok(text)
    }
}

impl Drop for Store {
    fn drop(&mut self) {
        assert_eq!(unsafe { psilt_close(&mut *self.0) }, 0);
        assert_eq!(unsafe { psilt_close(&mut *self.0) }, 3);
    }
}

fn main() -> Result<(), Code> {
    let mut store = Store::new(1000)?;
    let list = store.read("[b,c]")?;
    let first = store.read("f(1,a)")?;
    let longer = store.cons(first, list)?;
    assert_eq!(store.print(longer)?, b"[f(1,a),b,c]");
    assert_eq!(store.head(longer)?, first);
    assert_eq!(store.head(first), Err(Code(5)));
    assert_eq!(store.read("f("), Err(Code(6)));
    assert_eq!(store.place()?, 2);
    assert_eq!(Store::new(0).err(), Some(Code(7)));
    let term = store.read("plus(s(z),s(z))")?;
    assert_eq!(store.normalise(term, 9), Err(Code(14)));
    store.specify(ADD)?;
    let (value, taken) = store.normalise(term, 9)?;
    assert_eq!((store.print(value)?, taken), (b"s(s(z))".to_vec(), 2));
    assert_eq!(store.normalise(term, 1), Err(Code(13)));
    println!("all as wanted");
    Ok(())
}
