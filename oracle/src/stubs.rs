//! What the four files import from the rest of the kernel, no larger than they need it.
//! An object is a 64-bit identity, a valid flag and a type code; time and the process list are set
//! from outside, since document 01 has them as arguments.

use std::sync::{self, PoisonError};

/// The crate `spin`'s lock, over std's.
pub struct RwLock<T>(sync::RwLock<T>);

impl<T> RwLock<T> {
    pub const fn new(value: T) -> Self {
        Self(sync::RwLock::new(value))
    }

    pub fn read(&self) -> sync::RwLockReadGuard<'_, T> {
        self.0.read().unwrap_or_else(PoisonError::into_inner)
    }

    pub fn write(&self) -> sync::RwLockWriteGuard<'_, T> {
        self.0.write().unwrap_or_else(PoisonError::into_inner)
    }

    pub fn get_mut(&mut self) -> &mut T {
        self.0.get_mut().unwrap_or_else(PoisonError::into_inner)
    }
}

pub mod object {
    #[derive(Debug, Clone, PartialEq, Eq)]
    pub struct ObjectRef {
        pub identity: u64,
        pub valid: bool,
        pub type_code: u8,
    }

    impl ObjectRef {
        pub fn is_valid(&self) -> bool {
            self.valid
        }

        pub fn type_code(&self) -> u8 {
            self.type_code
        }
    }
}

pub mod types {
    #[derive(Debug, Clone, Copy, PartialEq, Eq)]
    pub struct CapabilityId(pub u64);

    impl From<CapabilityId> for u64 {
        fn from(id: CapabilityId) -> u64 {
            id.0
        }
    }
}

pub mod inheritance {
    pub struct InheritanceFlags;

    impl InheritanceFlags {
        pub const INHERITABLE: u32 = 1;
    }
}

pub mod error {
    #[derive(Debug, Clone, Copy, PartialEq, Eq)]
    pub enum CapError {
        NotFound,
        InsufficientRights,
    }

    #[derive(Debug, Clone, Copy, PartialEq, Eq)]
    pub enum KernelError {
        ResourceExhausted { resource: &'static str },
        AlreadyExists { resource: &'static str, id: u64 },
        NotFound { resource: &'static str, id: u64 },
        InvalidCapability { cap_id: u64, reason: CapError },
    }
}

pub mod security {
    pub mod audit {
        pub fn log_capability_op(_process: u64, _capability: u64, _result: u64) {}
    }
}

pub mod services {
    pub mod process_server {
        use crate::RwLock;

        #[derive(Clone, Copy)]
        pub struct ProcessId(pub u64);

        /// The listed pids, in order; a repeat is served twice.
        pub struct ProcessServer {
            pids: RwLock<Vec<u64>>,
        }

        static PROCESS_SERVER: ProcessServer = ProcessServer { pids: RwLock::new(Vec::new()) };

        pub fn try_get_process_server() -> Option<&'static ProcessServer> {
            Some(&PROCESS_SERVER)
        }

        pub fn set_process_ids(pids: &[u64]) {
            *PROCESS_SERVER.pids.write() = pids.to_vec();
        }

        impl ProcessServer {
            pub fn list_process_ids(&self) -> Vec<ProcessId> {
                self.pids.read().iter().copied().map(ProcessId).collect()
            }

            pub fn notify_capability_revoked(&self, _pid: ProcessId, _id: u64) {}
        }
    }
}

pub mod arch {
    pub mod timer {
        use std::sync::atomic::{AtomicU64, Ordering};

        static SECONDS: AtomicU64 = AtomicU64::new(0);

        pub fn get_timestamp_secs() -> u64 {
            SECONDS.load(Ordering::Relaxed)
        }

        pub fn set_timestamp_secs(seconds: u64) {
            SECONDS.store(seconds, Ordering::Relaxed);
        }
    }

    pub mod entropy {
        pub fn read_timestamp() -> u64 {
            0
        }
    }
}

pub mod process {
    use crate::cap::space::CapabilitySpace;
    use std::sync::{Mutex, MutexGuard, PoisonError};

    pub struct SpaceLock(Mutex<CapabilitySpace>);

    impl SpaceLock {
        pub fn lock(&self) -> MutexGuard<'_, CapabilitySpace> {
            self.0.lock().unwrap_or_else(PoisonError::into_inner)
        }
    }

    pub struct Process {
        pub capability_space: SpaceLock,
    }

    pub fn current_process() -> Option<&'static Process> {
        None
    }
}
