//! `environment` sees each mode of the floating-point environment that a program can set.

use ewebasket::{environment, Environment};
use ewebasket::{Beta, ChiSquared, Dirichlet, FisherF, Gamma, Pert, StudentT};
use std::sync::Barrier;

// The register that holds the modes, and the bits that set them. On aarch64 one bit flushes results and operands alike.

#[cfg(target_arch = "x86_64")]
mod modes {
    use std::arch::asm;

    pub const DOWNWARD: u64 = 1 << 13;
    pub const UPWARD: u64 = 2 << 13;
    pub const TO_ZERO: u64 = 3 << 13;
    pub const RESULTS: u64 = 1 << 15;
    pub const OPERANDS: u64 = 1 << 6;
    pub const TOGETHER: bool = false;

    pub fn read() -> u64 {
        let mut modes = 0u32;
        // SAFETY: it stores four bytes at the address of four.
        unsafe { asm!("stmxcsr [{}]", in(reg) &mut modes) };
        modes.into()
    }

    pub fn set(modes: u64) {
        let modes = modes as u32;
        // SAFETY: the caller sets modes of arithmetic alone, and those that were before once it has looked.
        unsafe { asm!("ldmxcsr [{}]", in(reg) &modes) };
    }
}

#[cfg(target_arch = "aarch64")]
mod modes {
    use std::arch::asm;

    pub const UPWARD: u64 = 1 << 22;
    pub const DOWNWARD: u64 = 2 << 22;
    pub const TO_ZERO: u64 = 3 << 22;
    pub const RESULTS: u64 = 1 << 24;
    pub const OPERANDS: u64 = 1 << 24;
    pub const TOGETHER: bool = true;

    pub fn read() -> u64 {
        let modes: u64;
        // SAFETY: it reads a register.
        unsafe { asm!("mrs {}, fpcr", out(reg) modes) };
        modes
    }

    pub fn set(modes: u64) {
        // SAFETY: the caller sets modes of arithmetic alone, and those that were before once it has looked.
        unsafe { asm!("msr fpcr, {}", in(reg) modes) };
    }
}

use modes::{DOWNWARD, OPERANDS, RESULTS, TOGETHER, TO_ZERO, UPWARD};

// The modes are as they were before anything is asserted.
#[inline(never)]
fn environment_in(mode: u64) -> Environment {
    let before = modes::read();
    modes::set(before | mode);
    let found = environment();
    modes::set(before);
    found
}

fn of(rounded_otherwise: bool, results_flushed: bool, operands_flushed: bool) -> Environment {
    Environment {
        rounded_otherwise,
        results_flushed,
        operands_flushed,
    }
}

#[test]
fn each_mode_is_seen() {
    assert_eq!(environment_in(0), Environment::default());
    for mode in [UPWARD, DOWNWARD, TO_ZERO] {
        assert_eq!(environment_in(mode), of(true, false, false), "{mode:x}");
    }
    assert_eq!(environment_in(RESULTS), of(false, true, TOGETHER));
    assert_eq!(environment_in(OPERANDS), of(false, TOGETHER, true));
    assert_eq!(environment_in(RESULTS | OPERANDS), of(false, true, true));
    assert_eq!(environment_in(UPWARD | RESULTS), of(true, true, TOGETHER));
    assert!(environment().is_assumed());
}

#[test]
fn samplers_go_between_threads() {
    fn between_threads<T: Send + Sync>() {}
    between_threads::<Gamma>();
    between_threads::<Beta>();
    between_threads::<ChiSquared>();
    between_threads::<FisherF>();
    between_threads::<StudentT>();
    between_threads::<Pert>();
    between_threads::<Dirichlet>();
}

#[test]
fn another_threads_is_its_own() {
    let gamma = Gamma::new(0.3, 2.0).unwrap();
    let alone = gamma.made();
    let (set, seen) = (Barrier::new(2), Barrier::new(2));
    std::thread::scope(|scope| {
        let other = scope.spawn(|| {
            let before = modes::read();
            modes::set(before | UPWARD);
            let made = gamma.made();
            set.wait();
            seen.wait();
            modes::set(before);
            made
        });
        set.wait();
        let (here, made) = (environment(), gamma.made());
        seen.wait();
        assert!(here.is_assumed());
        assert_eq!(made, alone);
        assert_ne!(other.join().unwrap(), alone, "rounded upward");
    });
}
