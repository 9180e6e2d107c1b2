//! Stands in for `core` below the Rust crate: all of it is core's, but for the words that the crate makes its locks of. Each load,
//! store, swap, add and exchange of such a word is a *step*, which waits until it is granted.
#![no_std]
extern crate std;

pub use ::core::*;

pub mod sync {
    pub use ::core::sync::*;
    pub mod atomic {
        pub use crate::words::{AtomicBool, AtomicU8, AtomicU64};
        pub use ::core::sync::atomic::*;
    }
}

pub mod words {
    use ::core::sync::atomic::{AtomicU32, Ordering};
    use std::boxed::Box;
    use std::cell::{Cell, RefCell, UnsafeCell};
    use std::panic::{AssertUnwindSafe, catch_unwind, resume_unwind};
    use std::prelude::rust_2024::*;
    use std::sync::mpsc::{Receiver, Sender, channel};

    #[derive(Clone, Copy, PartialEq, Eq)]
    pub enum Act {
        Load(u64),
        Store(u64),
        Swap { put: u64, found: u64 },
        Add { found: u64, put: u64 },
        Exchange { from: u64, to: u64, found: u64 },
        LoadHalf { high: bool, found: u64 },
        StoreHalf { high: bool, put: u64 },
        WakeOne,
        WakeAll,
        ClosureEnds,
        ReadCell(u64),
    }

    /// What was done to the word at this address, 0 for none, and what it holds then.
    #[derive(Clone, Copy, PartialEq, Eq)]
    pub struct Step {
        pub word: usize,
        pub act: Act,
        pub after: u64,
    }

    /// How a call stands once it gives control back.
    pub enum Stand {
        GoesOn,
        Waits(u64),
        Chooses(u128),
        Answers(String),
    }

    /// By what it goes on.
    pub enum Grant {
        Steps(u64),
        Continue,
        Abort,
        Choice(Option<u128>),
    }

    /// A call under way, on a thread of its own. Where this is dropped, it ends at its next step.
    pub struct Call {
        grants: Sender<Grant>,
        stands: Receiver<(Stand, Vec<Step>)>,
    }

    /// The call's end of it.
    struct Granted {
        grants: Receiver<Grant>,
        stands: Sender<(Stand, Vec<Step>)>,
        left: u64,
        made: Vec<Step>,
    }

    std::thread_local! {
        static GRANTED: RefCell<Option<Granted>> = const { RefCell::new(None) };
        static NOTE: Cell<&'static str> = const { Cell::new("") };
    }

    impl Call {
        /// A call that has begun, and stands before its first step. A panic of it is the answer `panics`.
        pub fn begin(does: impl FnOnce() -> String + Send + 'static) -> Call {
            let (grants, its_grants) = channel();
            let (its_stands, stands) = channel();
            let body = move || {
                let Ok(Grant::Steps(left)) = its_grants.recv() else { return };
                GRANTED.set(Some(Granted { grants: its_grants, stands: its_stands, left, made: Vec::new() }));
                let answer = catch_unwind(AssertUnwindSafe(does)).unwrap_or("panics".into());
                if let Some(granted) = GRANTED.take() {
                    let _ = granted.stands.send((Stand::Answers(answer), granted.made));
                }
            };
            std::thread::Builder::new().stack_size(1 << 17).spawn(body).expect("no thread for a call");
            Call { grants, stands }
        }

        /// Lets it go on by this. Tells how it then stands, and which steps it made.
        pub fn grant(&self, grant: Grant) -> (Stand, Vec<Step>) {
            self.grants.send(grant).expect("the call has ended");
            self.stands.recv().expect("the call has ended")
        }
    }

    /// Gives control back until the call may go on.
    fn stand(how: Stand) -> Grant {
        let grant = GRANTED.with_borrow_mut(|granted| {
            let granted = granted.as_mut()?;
            granted.left = 0;
            granted.stands.send((how, std::mem::take(&mut granted.made))).ok()?;
            granted.grants.recv().ok()
        });
        grant.unwrap_or_else(|| {
            GRANTED.take();
            resume_unwind(Box::new("the text is over"))
        })
    }

    /// Makes a step of the call once it is granted. On a thread without a call, or one that ends, it is just made.
    fn step<T>(does: impl FnOnce() -> (Step, T)) -> T {
        let left = |granted: &RefCell<Option<Granted>>| granted.borrow().as_ref().map(|granted| granted.left);
        while GRANTED.with(left) == Some(0) {
            if let Grant::Steps(more) = stand(Stand::GoesOn) {
                GRANTED.with_borrow_mut(|granted| granted.iter_mut().for_each(|granted| granted.left = more));
            }
        }
        let (made, told) = does();
        GRANTED.with_borrow_mut(|granted| {
            if let Some(granted) = granted {
                granted.left -= 1;
                granted.made.push(made);
            }
        });
        told
    }

    /// A step that is none of a word.
    pub fn event(act: Act) {
        step(|| (Step { word: 0, act, after: 0 }, ()));
    }

    /// Stands at the wait closure, told this; whether that answers Abort.
    pub fn wait_aborts(seen: u64) -> bool {
        matches!(stand(Stand::Waits(seen)), Grant::Abort)
    }

    /// Stands at the choice closure.
    pub fn choice(old: u128) -> Option<u128> {
        if let Grant::Choice(choice) = stand(Stand::Chooses(old)) { choice } else { None }
    }

    macro_rules! word {
        ($name:ident, $value:ty, $from:expr) => {
            #[derive(Default)]
            pub struct $name(UnsafeCell<$value>);
            // Of all threads of a text one runs at a time: the others wait for a grant.
            unsafe impl Sync for $name {}
            impl ::core::fmt::Debug for $name {
                fn fmt(&self, f: &mut ::core::fmt::Formatter<'_>) -> ::core::fmt::Result {
                    self.peek().fmt(f)
                }
            }
            impl $name {
                pub const fn new(value: $value) -> Self {
                    Self(UnsafeCell::new(value))
                }
                pub fn peek(&self) -> $value {
                    unsafe { *self.0.get() }
                }
                fn becomes(&self, does: impl FnOnce(u64) -> (Act, u64)) -> $value {
                    step(|| {
                        let found = self.peek();
                        let (act, after) = does(found as u64);
                        unsafe { *self.0.get() = $from(after) };
                        (Step { word: self as *const Self as usize, act, after }, found)
                    })
                }
                pub fn load(&self, _: Ordering) -> $value {
                    self.becomes(|found| (Act::Load(found), found))
                }
                pub fn store(&self, value: $value, _: Ordering) {
                    self.becomes(|_| (Act::Store(value as u64), value as u64));
                }
                pub fn swap(&self, value: $value, _: Ordering) -> $value {
                    let put = value as u64;
                    self.becomes(|found| (Act::Swap { put, found }, put))
                }
                pub fn compare_exchange(&self, from: $value, to: $value, _: Ordering, _: Ordering) -> Result<$value, $value> {
                    let (a, to) = (from as u64, to as u64);
                    let found = self.becomes(|found| (Act::Exchange { from: a, to, found }, if found == a { to } else { found }));
                    if found == from { Ok(found) } else { Err(found) }
                }
            }
        };
    }
    word!(AtomicU64, u64, |v| v);
    word!(AtomicU8, u8, |v| v as u8);
    word!(AtomicBool, bool, |v| v != 0);

    impl AtomicU64 {
        /// Never fails without a reason.
        pub fn compare_exchange_weak(&self, from: u64, to: u64, done: Ordering, failed: Ordering) -> Result<u64, u64> {
            self.compare_exchange(from, to, done, failed)
        }
        pub fn fetch_add(&self, value: u64, _: Ordering) -> u64 {
            self.becomes(|found| {
                let put = found.wrapping_add(value);
                (Act::Add { found, put }, put)
            })
        }
        pub fn fetch_sub(&self, value: u64, order: Ordering) -> u64 {
            self.fetch_add(value.wrapping_neg(), order)
        }
    }

    // ---- for the amended copy alone

    macro_rules! rows {
        ($($name:ident)*) => {
            /// The rows of docs/DIFFERENCES.md that a text can show.
            #[allow(non_camel_case_types)]
            #[derive(Clone, Copy)]
            pub enum Row { $($name),* }
            pub const ROWS: &[&str] = &[$(stringify!($name)),*];
        };
    }
    rows!(unlock_by_kind failed_mark last_look reader_limit barrier_exchange barrier_opens condvar_relocks
        atomic_on_reader atomic_two_words atomic_looks_after_none);

    static DEPARTS: AtomicU32 = AtomicU32::new(0);

    /// The rows, as bits, by which the amended copy departs from the Rust crate.
    pub fn depart_by(rows: u32) {
        DEPARTS.store(rows, Ordering::SeqCst);
    }

    pub fn departs(row: Row) -> bool {
        DEPARTS.load(Ordering::SeqCst) >> row as u32 & 1 == 1
    }

    /// An answer that the Rust crate does not have.
    pub fn note(answer: &'static str) {
        NOTE.set(answer);
    }

    pub fn take_note() -> &'static str {
        NOTE.take()
    }

    /// The data of an `Atomic`, which by the row `atomic_two_words` are two words, low then high.
    #[derive(Default)]
    pub struct Data<T>(UnsafeCell<T>);

    impl<T: Copy> Data<T> {
        pub const fn new(value: T) -> Self {
            Self(UnsafeCell::new(value))
        }
        pub const fn get(&self) -> *mut T {
            self.0.get()
        }
        pub fn peek(&self) -> T {
            unsafe { *self.get() }
        }
        /// Its words, zeros where there is no high one.
        fn halves(value: T) -> [u64; 2] {
            let mut halves = [0; 2];
            unsafe { std::ptr::copy_nonoverlapping((&raw const value).cast(), halves.as_mut_ptr().cast::<u8>(), size_of::<T>()) };
            halves
        }
        pub fn read(&self) -> T {
            if departs(Row::atomic_two_words) {
                event(Act::LoadHalf { high: false, found: Self::halves(self.peek())[0] });
                self.read_high();
            }
            self.peek()
        }
        fn read_high(&self) {
            event(Act::LoadHalf { high: true, found: Self::halves(self.peek())[1] });
        }
        pub fn look_after_none(&self) {
            if departs(Row::atomic_looks_after_none) {
                self.read_high();
            }
        }
        pub fn write(&self, value: T) {
            if departs(Row::atomic_two_words) {
                for (high, put) in [false, true].into_iter().zip(Self::halves(value)) {
                    step(|| {
                        let at = self.get().cast::<u64>();
                        if size_of::<T>() > 8 || !high {
                            unsafe { at.add(high as usize).write_unaligned(put) };
                        }
                        (Step { word: 0, act: Act::StoreHalf { high, put }, after: 0 }, ())
                    });
                }
            }
            unsafe { *self.get() = value };
        }
    }
}
