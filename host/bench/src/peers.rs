//! The stores that are measured, behind the five calls of the workloads.

/// A conflict is `false` from an update; every other refusal ends the bench, since no workload meets one.
pub trait Peer {
    fn start(&mut self, place: u32);
    fn read(&mut self, place: u32, key: u32) -> u32;
    fn update(&mut self, place: u32, key: u32, value: u32) -> bool;
    fn commit(&mut self, place: u32);
    fn rollback(&mut self, place: u32);
}

/// The proved board, by `lane_call`.
pub struct Proved(pub lane::Board);

impl Peer for Proved {
    fn start(&mut self, place: u32) {
        self.0.start(place).expect("a start");
    }
    fn read(&mut self, place: u32, key: u32) -> u32 {
        self.0.read(place, key).expect("a read")
    }
    fn update(&mut self, place: u32, key: u32, value: u32) -> bool {
        match self.0.update(place, key, value) {
            Ok(_) => true,
            Err(lane::Refusal::Conflict) => false,
            Err(refusal) => panic!("an update: {refusal}"),
        }
    }
    fn commit(&mut self, place: u32) {
        self.0.commit(place).expect("a commit");
    }
    fn rollback(&mut self, place: u32) {
        self.0.rollback(place).expect("a rollback");
    }
}

/// The second implementation.
pub struct Twin(pub twin::Board);

impl Twin {
    fn ok(&mut self, call: twin::Call) -> u32 {
        let answer = self.0.call(call);
        assert_eq!(answer.number, 0, "{call:?}: {}", twin::name(answer.number));
        answer.value
    }
}

impl Peer for Twin {
    fn start(&mut self, place: u32) {
        self.ok(twin::Call::Start { place });
    }
    fn read(&mut self, place: u32, key: u32) -> u32 {
        self.ok(twin::Call::Read { place, key })
    }
    fn update(&mut self, place: u32, key: u32, value: u32) -> bool {
        match self.0.call(twin::Call::Update { place, key, value }).number {
            twin::board::OK => true,
            twin::board::CONFLICT => false,
            number => panic!("an update: {}", twin::name(number)),
        }
    }
    fn commit(&mut self, place: u32) {
        self.ok(twin::Call::Commit { place });
    }
    fn rollback(&mut self, place: u32) {
        self.ok(twin::Call::Rollback { place });
    }
}

/// WiredTiger, where it was there when the bench was built.
#[cfg(wiredtiger)]
pub mod wired {
    use std::ffi::{c_char, c_int, CString};
    use std::sync::atomic::{AtomicU32, Ordering};

    #[repr(C)]
    struct Handle {
        _private: [u8; 0],
    }

    extern "C" {
        fn wired_open(home: *const c_char, places: c_int, at_each_start: c_int) -> *mut Handle;
        fn wired_close(w: *mut Handle);
        fn wired_start(w: *mut Handle, place: c_int) -> c_int;
        fn wired_commit(w: *mut Handle, place: c_int) -> c_int;
        fn wired_rollback(w: *mut Handle, place: c_int) -> c_int;
        fn wired_read(w: *mut Handle, place: c_int, key: u32, value: *mut u32) -> c_int;
        fn wired_update(w: *mut Handle, place: c_int, key: u32, value: u32) -> c_int;
    }

    pub struct Wired {
        handle: *mut Handle,
        home: std::path::PathBuf,
    }

    impl Wired {
        /// With the isolation named at each start, or once for a session.
        pub fn open(at_each_start: bool) -> Option<Wired> {
            static OPENED: AtomicU32 = AtomicU32::new(0);
            let (process, n) = (std::process::id(), OPENED.fetch_add(1, Ordering::Relaxed));
            let home = std::env::temp_dir().join(format!("lane-bench-{process}-{n}"));
            std::fs::create_dir_all(&home).ok()?;
            let path = CString::new(home.to_str()?).ok()?;
            // SAFETY: a string that ends in 0; wired.c gives NULL for more places than it has room for.
            let handle = unsafe { wired_open(path.as_ptr(), lane::PLACES as c_int, c_int::from(at_each_start)) };
            (!handle.is_null()).then(|| Wired { handle, home })
        }

        fn at(place: u32) -> c_int {
            assert!(place < lane::PLACES);
            place as c_int
        }
    }

    impl Drop for Wired {
        fn drop(&mut self) {
            // SAFETY: open since Wired::open, and closed once.
            unsafe { wired_close(self.handle) };
            let _ = std::fs::remove_dir_all(&self.home);
        }
    }

    // SAFETY of all below: the handle is open, and the place one of the sixteen.
    impl super::Peer for Wired {
        fn start(&mut self, place: u32) {
            assert_eq!(unsafe { wired_start(self.handle, Wired::at(place)) }, 0, "WiredTiger: a start");
        }
        fn read(&mut self, place: u32, key: u32) -> u32 {
            let mut value = 0;
            let gave = unsafe { wired_read(self.handle, Wired::at(place), key, &mut value) };
            assert_eq!(gave, 0, "WiredTiger: a read");
            value
        }
        fn update(&mut self, place: u32, key: u32, value: u32) -> bool {
            let gave = unsafe { wired_update(self.handle, Wired::at(place), key, value) };
            assert!(gave < 2, "WiredTiger: an update");
            gave == 0
        }
        fn commit(&mut self, place: u32) {
            assert_eq!(unsafe { wired_commit(self.handle, Wired::at(place)) }, 0, "WiredTiger: a commit");
        }
        fn rollback(&mut self, place: u32) {
            assert_eq!(unsafe { wired_rollback(self.handle, Wired::at(place)) }, 0, "WiredTiger: a rollback");
        }
    }
}
